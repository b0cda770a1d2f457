"""The program on devices that fail: a full output, an output without a reader, an input that cannot be read.

It must end with status 1 and write nothing besides the replies.
"""
import os
import subprocess

from harness import temporary_folder

PROGRAM = "process a { var x = 0; when true : x := (x + 1); }\n"
# Its replies are more than a pipe holds.
SESSION = PROGRAM + "%%\n" + 20_000 * "1 next a\n"
# What reads a program alone, and what reads a session.
READ_PROGRAM = ["check", "check --explain", "crew --turns 3"]
READ_SESSION = ["run", "talk", *(f"draw --as {form}" for form in ("text", "svg", "html", "shiviz", "mermaid"))]


def start(suite, words, source, sink):
    return subprocess.Popen([suite.program, *words], stdin=source, stdout=sink, stderr=subprocess.PIPE)


def check_end(suite, name, started, wanted=b"", written=b""):
    """Waits for a run whose device fails, and tests its status, what it wrote, and that it reported nothing."""
    output, errors = started.communicate(timeout=60)
    written += output or b""
    problem = "" if started.returncode == 1 else f"status {started.returncode}, not 1"
    problem += "" if written == wanted else f"\noutput {written[:80]!r}, not {wanted!r}"
    problem += f"\nit reported {errors[:200]!r}" if errors else ""
    suite.case(name, problem.strip())


def run(suite):
    with temporary_folder() as room:
        (room / "program").write_text(PROGRAM)
        (room / "session").write_text(SESSION)
        for words in READ_PROGRAM + READ_SESSION:
            with open(room / ("session" if words in READ_SESSION else "program"), "rb") as source, open("/dev/full", "wb") as full:
                check_end(suite, f"{words}, where the output is full", start(suite, words.split(), source, full))
            folder = os.open(room, os.O_RDONLY)  # (opens, but cannot be read)
            check_end(suite, f"{words}, where the input cannot be read", start(suite, words.split(), folder, subprocess.PIPE))
            os.close(folder)
        for words in (["test", room / "session"], ["--help"], ["help", "run"], ["--version"]):
            with open("/dev/full", "wb") as full:
                check_end(suite, f"{words[0]}, where the output is full", start(suite, words, subprocess.DEVNULL, full))
        for words, first_line in (("run", b"ok a 0\n"), ("talk", b"1 next a\n")):
            with open(room / "session", "rb") as source:
                ran = start(suite, [words], source, subprocess.PIPE)
                first = ran.stdout.readline()
                ran.stdout.close()
                ran.stdout = None
                check_end(suite, f"{words}, where the reader of the output has gone", ran, first_line, first)
