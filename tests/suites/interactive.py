"""Sessions that wait for each other: line by line through a pipe, and typed at a terminal, where what is typed is kept.

The next line is sent only after the reply to the line before it has come.
"""
import fcntl
import os
import re
import shutil
import signal
import subprocess

from harness import TOP, temporary_folder
from harness.terminal import SECONDS, SIZE, Conversation, Terminal

PROGRAM = "process a { var x = 0; when (x < 2) : x := (x + 1); }\n%%\n"
MODEL = "process p[i: 1..2] { var x = 0; now: when x < 2 : x := x + 1; later: when x > 5 : x := 0; }\n%%\n"
LINES = ["1 next a", "1 vars a", "1 next a", "1 next a", "1 undo a", "1 nonsense"]
REPLIES = ["ok a 0", "vars a x=1", "ok a 0", "no 24", "ok a 0", "no 22"]
PROMPT = "> "
WRONG = ["process a { }", "oops", "%%"]
AGAIN = "Type the program again, or Ctrl-D to end.\n"
START = TOP / "dist" / "start"


def pipe_problem(suite, words):
    """Gives the lines one by one through a pipe. An interactive session writes the line before its reply, and an explanation after it."""
    started = subprocess.Popen([suite.program, *words], stdin=subprocess.PIPE, stdout=subprocess.PIPE, stderr=subprocess.PIPE)
    conversation = Conversation(started, started.stdout.fileno())
    given = started.stdin.fileno()
    conversation.send(PROGRAM, given)
    for line, reply in zip(LINES, REPLIES):
        conversation.send(f"{line}\n", given)
        wanted = f"{line}\n{reply}\n" if words[0] == "talk" else f"{reply}\n"
        written = conversation.until(f"{reply}\n")
        if not written.endswith(wanted):
            return f"the output before the next line is {written!r}"
    started.stdin.close()
    started.stdin = None
    _, errors = started.communicate(timeout=SECONDS)
    return "" if started.returncode == 0 and not errors else f"status {started.returncode}, errors {errors!r}"


def direct(suite, *words, **environment):
    """A session of the program alone, at a terminal."""
    return Terminal(suite.program, "talk", *words, **environment)


def wrapped(suite, *words, **environment):
    """A session that dist/start begins, with rlwrap if that is installed."""
    return Terminal(START, "talk", *words, RDBG_PROGRAM=str(suite.program), **environment)


def launched(suite, *words, **environment):
    """A session that dist/start begins, without rlwrap."""
    return wrapped(suite, "--no-rlwrap", *words, **environment)


def of_session(shown):
    """What a terminal shows, without the lines of dist/start."""
    return re.sub(r"(?m)^rdbg: .*\n", "", shown)


def terminal_problem(suite, begin, file):
    """Types the lines, of which each is asked for by a prompt."""
    terminal, shown = begin(suite, file), []
    terminal.until(PROMPT)
    for line, reply in zip(LINES, REPLIES):
        terminal.type(f"{line}\n")
        shown.append(terminal.until(f"{reply}\n"))
        terminal.read = "\n" + terminal.read
        terminal.until(f"\n{PROMPT}")
    terminal.type("\x04")  # (Ctrl-D ends the input)
    end, status = terminal.ended()
    wanted = [f"{line}\n{reply}\n" for line, reply in zip(LINES, REPLIES)]
    is_so = (status, shown, of_session(end)) == (0, wanted, "\n")
    return "" if is_so else f"status {status}, and the terminal shows {shown} and at its end {end!r}"


def control_problem(suite, begin, file):
    """Types a line with an escape sequence, which is shown as text."""
    terminal = begin(suite, "--color", "always", file)
    terminal.until(PROMPT)
    terminal.type("\x16\x1b[31mnext\n")  # (after Ctrl-V, the terminal takes the next key as it is)
    terminal.until("no 22")
    shown = terminal.until(f"\n{PROMPT}")
    terminal.type("quit\n")
    _, status = terminal.ended()
    return "" if status == 0 and "\\x1b[31mnext" in shown else f"status {status}, and the terminal shows {shown!r}"


def prompt_problem(suite, begin):
    """Types a program, which has another prompt, and a line of a session."""
    terminal = begin(suite)
    shown = ""
    for line in [*PROGRAM.splitlines(), "next a"]:
        shown += terminal.until(PROMPT)
        terminal.type(f"{line}\n")
    shown += terminal.until("ok a 0\n")
    terminal.type("quit\n")
    _, status = terminal.ended()
    program, end, _ = PROGRAM.splitlines(keepends=True) + [""]
    wanted = f"program> {program}program> {end}> next a\nok a 0\n"
    return "" if (status, of_session(shown)) == (0, wanted) else f"status {status}, and the terminal shows {shown!r}"


def again_problem(suite, begin):
    """Types a program that is refused, and then one that is not, and a line of a session."""
    terminal = begin(suite)
    shown = ""
    for line in [*WRONG, *PROGRAM.splitlines(), "next a"]:
        shown += terminal.until(PROMPT)
        terminal.type(f"{line}\n")
    shown += terminal.until("ok a 0\n")
    terminal.type("quit\n")
    _, status = terminal.ended()
    program, end = PROGRAM.splitlines(keepends=True)
    wanted = f"{AGAIN}program> {program}program> {end}> next a\nok a 0\n"
    is_so = status == 0 and shown.count("program refused 3 at 14\n") == 1 and shown.endswith(wanted)
    return "" if is_so else f"status {status}, and the terminal shows {shown!r}"


def given_up_problem(suite, begin):
    """Types a program that is refused, and then no other one."""
    terminal = begin(suite)
    for line in WRONG:
        terminal.until(PROMPT)
        terminal.type(f"{line}\n")
    terminal.until(f"{AGAIN}program> ")
    terminal.type("\x04")
    shown, status = terminal.ended()
    return "" if (status, of_session(shown)) == (3, "\n") else f"status {status}, and the terminal shows {shown!r}"


def broken_off_problem(suite, begin):
    """Types a program, and ends the input before a line `%%`. No other one is asked for."""
    terminal = begin(suite)
    terminal.until(PROMPT)
    terminal.type("process a { }\n")
    terminal.until(PROMPT)
    terminal.type("\x04")
    shown, status = terminal.ended()
    return "" if status == 3 and "program refused" in shown and AGAIN not in shown else f"status {status}, and the terminal shows {shown!r}"


def refused_file_problem(suite, file):
    """Begins a session with a file whose program is refused. Nobody has to type another one."""
    shown, status = direct(suite, file).ended()
    return "" if status == 3 and PROMPT not in shown else f"status {status}, and the terminal shows {shown!r}"


def program_file_problem(suite, file):
    """Types a line of a session whose program is a file without a line `%%`."""
    terminal = direct(suite, file)
    terminal.until(PROMPT)
    terminal.type("next a\n")
    terminal.until("ok a 0\n")
    terminal.type("exit\n")
    _, status = terminal.ended()
    return "" if status == 0 else f"status {status}"


def repetition_problem(suite, file):
    """Types a line that asks for more events than there are. It ends with the refusal, and then the prompt asks for the next line."""
    terminal = direct(suite, file)
    terminal.until(PROMPT)
    terminal.type("next a 5\n")
    shown = terminal.until("no 24\n")
    terminal.until(f"\n{PROMPT}")
    terminal.type("vars a\n")
    terminal.until("vars a x=2")
    terminal.type("quit\n")
    _, status = terminal.ended()
    return "" if status == 0 and shown.count("ok a 0\n") == 2 else f"status {status}, and the terminal shows {shown!r}"


def members_problem(suite, file):
    """Types a line with `for`. Its plain lines are shown, each with its reply. A line that is plain itself is not shown again."""
    terminal = direct(suite, file)
    terminal.until(PROMPT)
    terminal.type("for i: 1..2 : step p[i] later\n")
    shown = terminal.until(f"\n{PROMPT}")
    terminal.type("next p[2]\n")
    shown += terminal.until("ok p[2] now\n")
    terminal.type("quit\n")
    _, status = terminal.ended()
    lines = [line for line in shown.splitlines() if line and not line.startswith("  ")]
    wanted = ["for i: 1..2 : step p[i] later", "step p_1 1", "no 3", "step p_2 1", "no 3", "> next p[2]", "ok p[2] now"]
    return "" if (status, lines) == (0, wanted) else f"status {status}, and the terminal shows {shown!r}"


def width_problem(suite, width, begin, environment):
    """How wide a picture in a session is: the names of processes are cut at the width."""
    program = "".join(f"process a_process_with_the_long_name_{n} {{ }}\n" for n in range(3))
    terminal = begin(suite, **environment)
    for line in [*program.splitlines(), "%%"]:
        terminal.until(PROMPT)
        terminal.type(f"{line}\n")
    terminal.until(PROMPT)
    terminal.type("draw\nquit\n")
    shown, status = terminal.ended()
    drawn = max(len(line) for line in shown.splitlines() if line.startswith("  a_process"))
    return "" if status == 0 and drawn <= width < drawn + 20 else f"status {status}, and the picture is {drawn} characters wide"


def picture_problem(suite, file):
    """Draws a file. Nobody has to type anything."""
    shown, status = Terminal(suite.program, "draw", file).ended()
    return "" if status == 0 and shown.startswith("a\n") else f"status {status}, and the terminal shows {shown!r}"


def color_problem(suite, begin, file, wanted, environment, *words):
    """Whether a refusal is coloured."""
    terminal = begin(suite, *words, file, **environment)
    terminal.until(PROMPT)
    terminal.type("nonsense\n")
    found = terminal.until("no 22")
    terminal.type("\nquit\n")
    _, status = terminal.ended()
    is_red = found.endswith("\x1b[31mno 22")
    return "" if (status, is_red) == (0, wanted) else f"status {status}, and the terminal shows {found!r}"


def interrupt_problem(suite, begin, file):
    """Drops a line by Ctrl-C, in a session that dist/start begins."""
    terminal = begin(suite, file)
    terminal.until(PROMPT)
    terminal.type("next a")
    terminal.until("next a")
    terminal.type("\x03vars a\n")
    found = terminal.until("vars a x=0")
    terminal.type("quit\n")
    _, status = terminal.ended()
    return "" if status == 0 and "ok a" not in found else f"status {status}, and the terminal shows {found!r}"


def completion_problem(suite, file):
    """Completes the name of a command and that of a process by the Tab key, under rlwrap."""
    terminal = wrapped(suite, file)
    terminal.until(PROMPT)
    terminal.type("rollb\tcoun\t0\n")
    terminal.until("ok counter=0")
    terminal.type("quit\n")
    _, status = terminal.ended()
    return "" if status == 0 else f"status {status}"


def give_lines(terminal):
    """Types the lines, each after the reply to the line before it."""
    for line, reply in zip(LINES, REPLIES):
        terminal.type(f"{line}\n")
        terminal.until(reply)


def kept_problem(suite, begin, file, beginning, replies, last):
    """Types a session, or the lines of one whose program is in a file. The log begins with the program, and has the same replies."""
    terminal = begin(suite, *([file] if file else []))
    first = terminal.until(PROMPT)
    for line in [] if file else beginning.splitlines():
        terminal.type(f"{line}\n")
        terminal.until(PROMPT)
    give_lines(terminal)
    terminal.type(last)
    shown, status = terminal.ended()
    log, = terminal.logs()
    if status != 0 or f"what you type is kept in {log}" not in first or f"what you typed is in {log}" not in shown:
        return f"status {status}, and the terminal shows {first!r} and at its end {shown!r}"
    wanted = "".join([beginning, *(f"{line}\n" for line in LINES), last.replace("\x04", "")])
    if not re.fullmatch(r"[0-9-]{10}_[0-9-]{8}_\d+\.rdbg", log.name) or log.read_text() != wanted:
        return f"{log.name} has {log.read_text()!r}"
    filled = suite.rdbg("test", "--fill", log).output.decode().splitlines()
    found = [line[2:] for line in filled if line.startswith("> ")]
    return "" if found == replies + REPLIES else f"the replies to {wanted!r} are {found}"


def part_problem(suite, file):
    """Types a line in two parts, with Ctrl-D between them, and then Ctrl-D as a character of a line."""
    terminal = launched(suite, file)
    terminal.until(PROMPT)
    terminal.type("ne\x04")
    terminal.until(PROMPT)
    terminal.type("xt a\n")
    terminal.until("ok a 0\n")
    terminal.type("\x16\x04\n")  # (after Ctrl-V, the terminal takes the next key as it is)
    terminal.until("no 22\n")
    terminal.type("\x04")
    _, status = terminal.ended()
    log, = terminal.logs()
    return "" if (status, log.read_text()) == (0, f"{PROGRAM}next a\n\x04\n") else f"status {status}, and the log has {log.read_text()!r}"


def killed_problem(suite, file, name, statuses):
    """Kills the program, or the script that keeps what is typed. Both end, and all lines are kept."""
    terminal = launched(suite, file)
    terminal.until(PROMPT)
    give_lines(terminal)
    process = next(process for process, words in terminal.processes() if any(word.endswith(name) for word in words[:3]))
    os.kill(process, signal.SIGKILL)
    shown, status = terminal.ended()
    log, = terminal.logs()
    is_kept = log.read_text() == PROGRAM + "".join(f"{line}\n" for line in LINES)
    return "" if is_kept and status in statuses else f"status {status}, the log has {log.read_text()!r}, and the terminal shows {shown!r}"


def named_problem(suite, file, log):
    """Types a line of a session with --log. A file with a text is refused, and stays as it is."""
    terminal = launched(suite, "--log", log, file)
    terminal.until(f"what you type is kept in {log}\n{PROMPT}")
    terminal.type("next a\n")
    terminal.until("ok a 0\n")
    terminal.type("quit\n")
    shown, status = terminal.ended()
    if status != 0 or not shown.endswith(f"rdbg: what you typed is in {log}\n") or terminal.logs():
        return f"status {status}, the default folder has {terminal.logs()}, and the terminal shows {shown!r}"
    again, status = launched(suite, file, f"--log={log}").ended()
    if status != 2 or not again.endswith(f"rdbg: the log cannot be written: {log}: the file is not empty\n"):
        return f"status {status}, and the terminal shows {again!r}"
    return "" if log.read_text() == f"{PROGRAM}next a\nquit\n" else f"the log has {log.read_text()!r}"


def refused_log_problem(suite, message, *words):
    """Begins a session with a log that is refused."""
    shown, status = launched(suite, *words).ended()
    return "" if status == 2 and shown.endswith(f"rdbg: {message}\n") else f"status {status}, and the terminal shows {shown!r}"


def no_terminal_problem(suite, file, room):
    """Begins a session without a terminal. With --log it is refused; without, nothing is said or kept."""
    def ran(*words):
        started = subprocess.run([START, "talk", *words, file], input=b"next a\n", stdout=subprocess.PIPE, stderr=subprocess.PIPE,
                                 env={**os.environ, "RDBG_PROGRAM": str(suite.program), "XDG_STATE_HOME": str(room)})
        return started.returncode, started.stdout, started.stderr

    refused, plain, wanted = ran("--log", room / "log"), ran(), tuple(suite.rdbg("talk", file, given="next a\n"))
    if refused != (2, b"", b"rdbg: --log is for a session that is typed at a terminal\n"):
        return f"with --log: {refused}"
    return "" if plain == wanted and not room.exists() else f"without --log: {plain}, and not {wanted}"


def nothing_typed_problem(suite, file):
    """Ends a session at its first prompt. Nothing is kept."""
    terminal = launched(suite, file)
    terminal.until(PROMPT)
    terminal.type("\x04")
    shown, status = terminal.ended()
    return "" if (status, shown, terminal.logs()) == (0, "\n", []) else f"status {status}, {terminal.logs()}, and the terminal shows {shown!r}"


def unkept_problem(suite, file, message, environment):
    """Types a line of a session that cannot be kept, which one line says."""
    terminal = launched(suite, file, **environment)
    first = terminal.until(PROMPT)
    terminal.type("next a\n")
    terminal.until("ok a 0\n")
    terminal.type("quit\n")
    shown, status = terminal.ended()
    is_so = status == 0 and first.endswith(f"rdbg: what you type is not kept: {message}\n{PROMPT}") and "rdbg: " not in shown
    return "" if is_so else f"status {status}, and the terminal shows {first!r} and at its end {shown!r}"


def older_problem(suite, file, room):
    """Types a line where many logs are kept. The older ones are removed, but no other file, and no log of a session that still runs."""
    old = [f"2020-01-01_00-00-{n:02}_{n}.rdbg" for n in range(60)]
    others = ["2020-01-01_00-00-00.rdbg", "notes.rdbg"]
    folder = room / "rdbg"
    folder.mkdir(parents=True)
    for name in old + others:
        (folder / name).write_text(PROGRAM)
    with open(folder / old[0]) as running:
        fcntl.flock(running, fcntl.LOCK_EX)
        terminal = launched(suite, file, XDG_STATE_HOME=str(room))
        terminal.until(PROMPT)
        terminal.type("quit\n")
        terminal.ended()
    left, wanted = {file.name for file in folder.iterdir()}, {*others, old[0], *old[-49:]}
    return "" if wanted < left and len(left - wanted) == 1 else f"{wanted - left} are removed, and {left - wanted} are there"


def piped_file_problem(suite, file):
    """Types a line of a session whose file is a pipe, which can be read only once."""
    terminal = Terminal("bash", "-c", 'exec "$0" talk --no-rlwrap <(cat "$1")', START, file, RDBG_PROGRAM=str(suite.program))
    terminal.until(PROMPT)
    terminal.type("next a\n")
    terminal.until("ok a 0\n")
    terminal.type("quit\n")
    _, status = terminal.ended()
    log, = terminal.logs()
    return "" if (status, log.read_text()) == (0, f"{PROGRAM}next a\nquit\n") else f"status {status}, and the log has {log.read_text()!r}"


def tools(folder, *names):
    """A PATH with these commands alone."""
    folder.mkdir()
    for name in names:
        (folder / name).symlink_to(shutil.which(name))
    return str(folder)


def try_keeping(suite, room, session, program):
    """What is kept of a session that is typed."""
    longer, log = room / "longer.rdbg", room / "log.rdbg"
    longer.write_text(f"{PROGRAM}vars a")
    suite.attempt("a typed session is kept", kept_problem, suite, launched, None, PROGRAM, [], "quit\n")
    suite.attempt("a session with a file is kept", kept_problem, suite, launched, session, PROGRAM, [], "\x04")
    suite.attempt("a session whose file has no line %% is kept", kept_problem, suite, launched, program, PROGRAM, [], "quit\n")
    suite.attempt("a session whose file has lines is kept", kept_problem, suite, launched, longer, f"{PROGRAM}vars a\n", ["vars a x=0"], "exit\n")
    suite.attempt("a session whose file is a pipe is kept", piped_file_problem, suite, session)
    if suite.needs("rlwrap", "what is kept under rlwrap"):
        suite.attempt("a session under rlwrap is kept", kept_problem, suite, wrapped, session, PROGRAM, [], "quit\n")
        suite.attempt("a session under rlwrap is kept, up to Ctrl-D", kept_problem, suite, wrapped, session, PROGRAM, [], "\x04")
    suite.attempt("a line in parts, at a terminal", part_problem, suite, session)
    suite.attempt("all lines are kept if rdbg is killed", killed_problem, suite, session, suite.program, {137})
    suite.attempt("all lines are kept if keep.py is killed", killed_problem, suite, session, "/keep.py", {137, -signal.SIGKILL})
    suite.attempt("--log at a terminal", named_problem, suite, session, log)
    missing = room / "missing" / "log"
    suite.attempt("--log with a file that cannot be written", refused_log_problem, suite,
                  f"the log cannot be written: {missing}: No such file or directory", session, "--log", missing)
    suite.attempt("--log without a file", refused_log_problem, suite, "--log needs a file", session, "--log")
    suite.attempt("a session without a terminal is not kept", no_terminal_problem, suite, session, room / "none")
    suite.attempt("a session in which nothing is typed is not kept", nothing_typed_problem, suite, session)
    suite.attempt("a default folder that cannot be written", unkept_problem, suite, session, f"{session}/rdbg: Not a directory",
                  {"XDG_STATE_HOME": str(session)})
    suite.attempt("no Python, at a terminal", unkept_problem, suite, session, "that needs Python 3.8 or later",
                  {"PATH": tools(room / "tools", "bash", "cut", "dirname", "realpath", "stty")})
    suite.attempt("older sessions are removed", older_problem, suite, session, room / "state")


def run(suite):
    for words in (["run"], ["talk"]):
        suite.attempt(f"{words[0]}, line by line through a pipe", pipe_problem, suite, words)
    with temporary_folder() as room:
        session, program, counter, model, wrong = (room / f"{name}.rdbg" for name in ("session", "program", "counter", "model", "wrong"))
        session.write_text(PROGRAM)
        model.write_text(MODEL)
        wrong.write_text("\n".join(WRONG) + "\n")
        program.write_text(PROGRAM.partition("%%")[0])
        counter.write_text(PROGRAM.replace("process a", "process counter"))
        for begin, by in ((direct, ""), (launched, ", by dist/start")):
            suite.attempt(f"talk, typed at a terminal{by}", terminal_problem, suite, begin, session)
            suite.attempt(f"a program that is typed{by}", prompt_problem, suite, begin)
            suite.attempt(f"a program that is typed, refused and typed again{by}", again_problem, suite, begin)
            suite.attempt(f"a program that is typed and refused, and then Ctrl-D{by}", given_up_problem, suite, begin)
            suite.attempt(f"a program that is typed without a line %%, and then Ctrl-D{by}", broken_off_problem, suite, begin)
            suite.attempt(f"an escape sequence, at a terminal{by}", control_problem, suite, begin, session)
            suite.attempt(f"colours at a terminal{by}", color_problem, suite, begin, session, True, {"NO_COLOR": ""})
            suite.attempt(f"no colours with NO_COLOR{by}", color_problem, suite, begin, session, False, {})
        suite.attempt("a file without a line %%, at a terminal", program_file_problem, suite, program)
        suite.attempt("a file that is refused, at a terminal", refused_file_problem, suite, wrong)
        suite.attempt("a line that asks for several events, at a terminal", repetition_problem, suite, session)
        suite.attempt("a line with `for`, at a terminal", members_problem, suite, model)
        suite.attempt("a picture in a session, as wide as COLUMNS says", width_problem, suite, 60, direct, {"COLUMNS": "60"})
        suite.attempt("a picture in a session, as wide as the terminal", width_problem, suite, SIZE[1], launched, {})
        suite.attempt("a picture of a file, at a terminal", picture_problem, suite, session)
        suite.attempt("no colours at a dumb terminal", color_problem, suite, direct, session, False, {"NO_COLOR": "", "TERM": "dumb"})
        suite.attempt("no colours with --color never", color_problem, suite, direct, session, False, {"NO_COLOR": ""}, "--color", "never")
        suite.attempt("colours with --color always", color_problem, suite, direct, session, True, {}, "--color", "always")
        suite.attempt("Ctrl-C at a terminal", interrupt_problem, suite, launched, session)
        if suite.needs("rlwrap", "Ctrl-C and completion under rlwrap"):
            suite.attempt("Ctrl-C under rlwrap", interrupt_problem, suite, wrapped, session)
            suite.attempt("completion by rlwrap", completion_problem, suite, counter)
        try_keeping(suite, room, session, program)
