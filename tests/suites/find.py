"""What `find` finds: sessions that halt in their last line, by each engine; its messages and statuses; translation and simulator."""
import os
import random
import signal
import subprocess
import sys
import time

from harness import TOP, temporary_folder
from harness.random_programs import random_program

EXAMPLES = ["lost_update", "token_duplicated", "two_phase_commit", "leader_election", "two_hands", "notation/half_open"]
PROGRAMS, ALL_PROGRAMS, PART = 160, 3000, 80  # random programs, with --all, and in one verifier
SECONDS = 300  # for one search

# The session of the README: left has left again before right enters.
ROOM = """process left {
  var inside = 0;
  enter: when inside = 0 : send right 1, inside := 1;
  leave: when inside = 1 : inside := 0;
}
process right {
  var inside = 0;
  var warned = 0;
  hear: when true : recv left warned;
  enter: when warned = 0 : inside := 1;
}
%%
break both left (inside = 1) right (inside = 1)
step left enter
step left leave  # and warned right, which has not heard it
"""
FAMILY = """const n = 2;
process station[i: 1..n] {
  var inside = 0;
  enter: when inside = 0 : inside := 1;  # without asking
  leave: when inside = 1 : inside := 0;
}
%%
for i: 1..n : break twice[i] station[i] (inside = 2)
break both for i: 1..n: station[i] (inside = 1)  # this is bad
step station[1] enter
"""
COUNTER = "process a { var x = 0; when (x < 3) : x := (x + 1); }"
ENDLESS = "".join(f"process a_{number} {{ var x = 0; when true : x := (x + 1); }}\n" for number in range(8)) + "%%\nbreak bad a_0 (x < 0)\n"
TWO = "process a { var x = 0; when (x < 3) : x := (x + 1); }\nprocess b { var y = 0; when (y = 1) : y := 2; }"

# What a file has, further arguments, the status, and what is on standard error.
EDGES = [
    ("no end line", COUNTER, [], 2, "no line is %%"),
    ("no breakpoint", f"{COUNTER}\n%%\nstep a 0\n", [], 2, "the session sets no breakpoint"),
    ("an unknown breakpoint", f"{COUNTER}\n%%\nbreak bad a (x = 1)\n", ["--break", "good"], 2, "the session has no breakpoint good: it has bad"),
    ("a breakpoint that is refused", f"{COUNTER}\n%%\nbreak bad a (y = 1)\n", [], 2, "`1 break bad a (y = 1)` is answered `no 23`"),
    ("no breakpoint is armed", f"{COUNTER}\n%%\nbreak bad a (x = 0)\npass bad\n", [], 2, "no breakpoint is armed"),
    ("a program that is refused", "process a { var }\n%%\nbreak bad a (x = 1)\n", [], 2, "program refused 3 at 16"),
    ("a model that is refused", "process a { var x = 0; go: when y = 1 : x := 1; }\n%%\nbreak bad a (x = 1)\n", [], 2, "line 1, column 33"),
    ("a state that is bad at the start", f"{COUNTER}\n%%\nbreak bad a (x = 0)\n", [], 0, "bad holds already"),
    ("a breakpoint that is not armed, by its name", f"{COUNTER}\n%%\nbreak bad a (x = 1)\nstep a 0\npass bad\n", ["--break", "bad"], 0, "bad holds already"),
    ("another breakpoint than the first", f"{COUNTER}\n%%\nbreak one a (x = 1)\nbreak two a (x = 2)\n", ["--break", "two"], 0, "found: 2 events"),
    ("a process that is missing", f"{COUNTER}\n%%\nbreak bad a (x = 3)\n", ["--weight", "b=2"], 2, "no process has the name b"),
    ("a file that is missing", None, [], 2, "cannot be read: No such file"),
    ("a wrong argument", COUNTER, ["--engine", "other"], 2, "try '--help'"),
    ("a condition that is wrong", f"{COUNTER}\n%%\n", ["--stuck", "--unless", "a (y = 1)"], 2, "--unless: a (y = 1) is not a condition"),
    ("what never fired", f"{TWO}\n%%\nbreak bad b (y = 3)\n", ["--engine", "sample", "--schedules", "20"], 3, "command 0 of b (line 2) never fired"),
    ("schedules of one length", f"{ENDLESS}", ["--engine", "sample", "--schedules", "20"], 3, "all schedules have exactly 100 events"),
]
SPIN_EDGES = [
    ("a complete search", f"{COUNTER}\n%%\nbreak bad a (x = 4)\n", [], 1, "no schedule reaches it, with at most 4 messages in each channel"),
    ("a limit of seconds", ENDLESS, ["--engine", "spin", "--seconds", "2"], 3, "the time is over"),
    ("a limit of memory", ENDLESS, ["--engine", "spin", "--memory", "150"], 3, "the 150 MB that --memory allows"),
]


def words(*more):
    """A command that runs `find`."""
    return [sys.executable, str(TOP / "find"), *map(str, more)]


def find(suite, *more, path=None, given=None):
    """Runs `find`."""
    variables = {**os.environ, "RDBG": suite.program, **({"PATH": path} if path is not None else {})}
    return subprocess.run(words(*more), input=given, stdin=None if given else subprocess.DEVNULL, stdout=subprocess.PIPE, stderr=subprocess.PIPE,
                          text=True, env=variables, cwd=TOP, timeout=SECONDS)


def begun(suite, *more):
    """A run of `find` that has begun. Ctrl-C ends it also if these tests run in the background of a shell, where SIGINT is ignored."""
    return subprocess.Popen(words(*more), stdin=subprocess.DEVNULL, stdout=subprocess.PIPE, stderr=subprocess.PIPE, text=True,
                            env={**os.environ, "RDBG": suite.program}, preexec_fn=lambda: signal.signal(signal.SIGINT, signal.SIG_DFL))


def session_problem(suite, text):
    """What is wrong with a session that was found, or nothing: its last line halts, and no other one."""
    filled = suite.rdbg("test", "--fill", "-", given=text).output.decode()
    replies = [line[2:] for line in filled.splitlines() if line.startswith("> ")]
    halts = [number for number, reply in enumerate(replies) if " halted " in reply]
    refused = [reply for reply in replies if reply.startswith("no ")]
    if halts != [len(replies) - 1]:
        return f"of {len(replies)} lines these halt, counted from 0: {halts}\n{text[-300:]}"
    return f"refused: {refused[0]}" if refused else ""


def found_problem(suite, ran, *lines):
    """What is wrong with a search that has to find a session with these lines at its end, or nothing."""
    if ran.returncode != 0:
        return f"status {ran.returncode}\n{ran.stderr}"
    if lines and tuple(ran.stdout.splitlines()[-len(lines):]) != lines:
        return ran.stdout
    return session_problem(suite, ran.stdout)


def check_examples(suite, engines):
    """Both engines on some examples."""
    for example in EXAMPLES:
        for engine in engines:
            ran = find(suite, "--from-start", "--engine", engine, "--seconds", 60, TOP / f"examples/{example}.rdbg")
            suite.case(f"{example}, {engine}", found_problem(suite, ran))


def check_sessions(suite, folder, engines):
    """Sessions with events of their own, families, expected replies, a state without a further event."""
    for name, text in (("room", ROOM), ("family", FAMILY), ("stuck", f"{TWO}\n%%\nbreak one a (x = 1)\n")):
        (folder / name).write_text(text)
    for engine in engines:
        ran = find(suite, "--engine", engine, folder / "room")
        suite.case(f"a state that was left counts, {engine}", found_problem(suite, ran, "step left leave  # and warned right, which has not heard it", "step right enter"))
        ran = find(suite, "--engine", engine, "--break", "both", folder / "family")
        suite.case(f"a model in the notation, {engine}", found_problem(suite, ran) or ("" if FAMILY in ran.stdout else ran.stdout))
        ran = find(suite, "--engine", engine, "--stuck", "--test", folder / "stuck")
        wanted = ["next a", "> no 24", "next b", "> no 24"]
        suite.case(f"a stuck state, {engine}", "" if ran.stdout.splitlines()[-4:] == wanted else ran.stdout + ran.stderr)
        ran = find(suite, "--engine", engine, "--stuck", "--unless", "a (x = 3) b (y = 0)", "--schedules", 50, folder / "stuck")
        suite.case(f"a stuck state that is allowed, {engine}", "" if ran.returncode == (1 if engine == "spin" else 3) else ran.stdout + ran.stderr)
    ran = find(suite, "--engine", "sample", "-", given=ROOM)
    suite.case("standard input", found_problem(suite, ran))


def check_sampling(suite):
    """The same seed finds the same session; a comparison."""
    ran = [find(suite, "--from-start", "--engine", "sample", "--jobs", jobs, "examples/two_phase_commit.rdbg") for jobs in (1, 2)]
    suite.same("the same seed finds the same session", ran[0].stdout, ran[1].stdout)
    ran = find(suite, "--compare", "--from-start", "examples/lost_update.rdbg")
    suite.case("a comparison", "" if ran.returncode == 0 and ran.stdout.startswith("200 schedules: ") else ran.stdout + ran.stderr)


def edge_problem(suite, folder, text, more, status, said):
    """What is wrong with how `find` ends with a file of this text, or nothing."""
    file = folder / "model.rdbg"
    if text is None:
        file = folder / "missing.rdbg"
    else:
        file.write_text(text)
    ran = find(suite, *more, file)
    return "" if ran.returncode == status and said in ran.stderr and "Traceback" not in ran.stderr else f"status {ran.returncode}\n{ran.stderr}"


def check_signals(suite, folder, has_spin):
    """Ctrl-C, and an engine that is killed."""
    (folder / "endless").write_text(ENDLESS)
    engine = "spin" if has_spin else "sample"
    with begun(suite, "--engine", engine, folder / "endless") as run:
        time.sleep(6)
        run.send_signal(signal.SIGINT)
        _, errors = run.communicate(timeout=60)
    suite.case("Ctrl-C", "" if run.returncode == 130 and "none found so far: " in errors and "interrupted" in errors else f"{run.returncode}\n{errors}")
    if has_spin:
        with begun(suite, "--engine", "spin", folder / "endless") as run:
            suite.case("the verifier begins", "" if kill_verifier(run.pid) else "there is none")
            _, errors = run.communicate(timeout=60)
        suite.case("an engine that is killed", "" if run.returncode == 3 and "ended by SIGKILL" in errors else f"{run.returncode}\n{errors}")


def kill_verifier(parent):
    """Kills the verifier that a search has started. Says whether there was one."""
    for _ in range(200):
        time.sleep(0.1)
        with open(f"/proc/{parent}/task/{parent}/children") as children:
            for child in map(int, children.read().split()):
                with open(f"/proc/{child}/comm") as name:
                    if name.read().strip() == "pan":
                        time.sleep(0.5)
                        os.kill(child, signal.SIGKILL)
                        return True
    return False


def check_without_spin(suite, folder):
    """A machine without SPIN: sampling goes on, and the message names the packages."""
    ran = find(suite, "--from-start", "--seconds", 60, "examples/lost_update.rdbg", path=str(folder))
    suite.case("without SPIN", found_problem(suite, ran))
    suite.case("what to install", "" if "install the packages spin gcc" in ran.stderr else ran.stderr)
    ran = subprocess.run(words(folder / "missing"), stdin=subprocess.DEVNULL, stdout=subprocess.PIPE, stderr=subprocess.PIPE, text=True,
                         env={**os.environ, "RDBG": "/nowhere/rdbg"})
    suite.case("without rdbg", "" if ran.returncode == 2 and "which is not a program" in ran.stderr else ran.stderr)


def check_random_programs(suite, has_spin):
    """The translation and the simulator against the model of a session."""
    from harness import verifier
    count, texts = ALL_PROGRAMS if suite.options.all else PROGRAMS, []
    for number in range(count):
        chance = random.Random(f"find/{number}")
        texts.append("".join(process.written(chance) for process in random_program(chance).values()))
    problems = [problem for number, text in enumerate(texts) for problem in [verifier.simulator_problem(text, random.Random(number))] if problem]
    suite.case(f"the simulator on {count} random programs", "\n".join(problems[:3]))
    if not has_spin:
        suite.skip("the translation of random programs", "SPIN or a C compiler is not installed")
        return
    problems = []
    for first in range(0, count, PART):
        with temporary_folder() as folder:
            problems += verifier.translation_problems(texts[first:first + PART], folder)
    suite.case(f"the translation of {count} random programs", "\n".join(problems[:3]))


def run(suite):
    sys.path.insert(0, str(TOP))
    from find.spin import missing_tools
    has_spin = not missing_tools()
    engines = ["spin", "sample"] if has_spin else ["sample"]
    ran = subprocess.run([sys.executable, "-m", "unittest", "discover", "-s", "find/tests", "-t", "."], cwd=TOP, stdin=subprocess.DEVNULL,
                         stdout=subprocess.PIPE, stderr=subprocess.STDOUT, text=True)
    suite.case("the package's own tests", ran.stdout if ran.returncode else "")
    check_examples(suite, engines)
    check_sampling(suite)
    with temporary_folder() as folder:
        check_sessions(suite, folder, engines)
        for name, *edge in EDGES + (SPIN_EDGES if has_spin else []):
            suite.case(name, edge_problem(suite, folder, *edge))
        check_signals(suite, folder, has_spin)
        check_without_spin(suite, folder)
    check_random_programs(suite, has_spin)
