#!/usr/bin/env python3
"""Runs an interactive session at a terminal, and keeps each line that is typed. `dist/start` calls it:

    dist/keep.py LOG FILE PROGRAM ARGUMENTS..

LOG keeps the lines; if it is empty, a new file in $XDG_STATE_HOME/rdbg or ~/.local/state/rdbg does. FILE is the one of the ARGUMENTS with
which the session begins, or empty. The log can be played: it has the text of FILE and then the lines, each written before the program gets
it. So no line is lost if the program or this script is killed.

The person's terminal edits the lines, and the program writes to it. The program reads from a terminal of its own, because it prompts only at
a terminal. This script passes each line from the one to the other.
"""
import fcntl
import os
import re
import select
import signal
import subprocess
import sys
import termios
import time
from contextlib import suppress

KEPT = 50  # logs in the default folder, at most
NAME = re.compile(r"\d{4}-\d\d-\d\d_\d\d-\d\d-\d\d_\d+\.rdbg")  # of these logs
READ = 1_048_577  # bytes that rdbg reads, at most
LAST = re.compile(rb"\s*(q(u(it?)?)?|e(x(it?)?)?)\s")  # `quit` or `exit`, which may be shortened
END, QUOTE = b"\x04", b"\x16"  # keys of the program's terminal: the end of the input, and the one that quotes the next key


def say(text, before=""):
    with suppress(OSError):
        os.write(2, os.fsencode(f"{before}rdbg: {text}\n"))


def write(file, data):
    while data:
        data = data[os.write(file, data):]


def new_path():
    """The path of a new log in the default folder. Removes the older logs there, but not that of a session that still runs."""
    folder = os.path.join(os.environ.get("XDG_STATE_HOME") or os.path.expanduser("~/.local/state"), "rdbg")
    os.makedirs(folder, exist_ok=True)
    for name in sorted(filter(NAME.fullmatch, os.listdir(folder)))[: 1 - KEPT]:
        with suppress(OSError), open(os.path.join(folder, name)) as log:
            fcntl.flock(log, fcntl.LOCK_SH | fcntl.LOCK_NB)
            os.unlink(log.name)
    return os.path.join(folder, time.strftime("%Y-%m-%d_%H-%M-%S_") + f"{os.getpid()}.rdbg")


def open_log(path):
    """The file, which has to be new or empty."""
    log = os.open(path, os.O_WRONLY | os.O_CREAT | os.O_APPEND, 0o666)
    if os.fstat(log).st_size:
        raise OSError(0, "the file is not empty", path)
    with suppress(OSError):  # (not every file has locks)
        fcntl.flock(log, fcntl.LOCK_EX | fcntl.LOCK_NB)
    return log


def text_of(file):
    """What rdbg reads from this file at a terminal: whole lines, and `%%` after them if none of them is."""
    with open(file, "rb") as opened:
        text = opened.read(READ)
    text += b"" if text.endswith(b"\n") else b"\n"
    return text if re.search(rb"(?m)^%%\r?$", text) else text + b"%%\n"


def open_terminal():
    """The two ends of a terminal that shows nothing, and in which only the keys END and QUOTE have a meaning."""
    master, slave = os.openpty()
    _, _, control, _, *speeds, keys = termios.tcgetattr(slave)
    keys = len(keys) * [b"\0"]
    keys[termios.VEOF], keys[termios.VLNEXT] = END, QUOTE
    termios.tcsetattr(slave, termios.TCSANOW, [0, 0, control, termios.ICANON | termios.IEXTEN, *speeds, keys])
    return master, slave


def pass_lines(terminal, log, beginning):
    """Keeps and passes each line, until the input ends or the program, which closes the other end of its terminal."""
    while terminal not in select.select([0, terminal], [], [])[0]:
        typed = os.read(0, 4096)  # (a line, what was typed before Ctrl-D, or nothing at the end)
        if typed and log is not None:
            try:
                write(log, beginning + typed)
                beginning = b""
            except OSError as error:
                say(f"from here on, what you type is not kept: {error.strerror}")
                log = None
        write(terminal, re.sub(b"[" + END + QUOTE + b"]", QUOTE + rb"\g<0>", typed) + (b"" if typed.endswith(b"\n") else END))
        if not typed:
            return
        if LAST.match(typed):
            select.select([terminal], [], [], 1)  # (what is typed after the last line is for the shell)


def run(command, log, beginning):
    """Runs the program, and returns its status as a shell has it."""
    terminal, other_end = open_terminal()
    program = subprocess.Popen(command, stdin=other_end, close_fds=False)
    os.close(other_end)
    for stop in (signal.SIGHUP, signal.SIGQUIT, signal.SIGTERM):
        signal.signal(stop, lambda number, _: program.send_signal(number))
    try:
        pass_lines(terminal, log, beginning)
    except OSError:  # (the program has just ended, or the person's terminal is gone)
        os.close(terminal)
    status = program.wait()
    return status if status >= 0 else 128 - status


def main():
    named, file, *command = sys.argv[1:]
    try:
        beginning = text_of(file) if file else b""
    except OSError:
        os.execvp(command[0], command)  # (which reports it)
    if file and not os.path.isfile(file):  # (it can be read only once)
        copy = os.memfd_create("session", 0)
        write(copy, beginning)
        command = [f"/dev/fd/{copy}" if word == file else word for word in command]
    try:
        path = named or new_path()
        log = open_log(path)
    except OSError as error:
        say(f"{'the log cannot be written' if named else 'what you type is not kept'}: {error.filename}: {error.strerror}")
        if named:
            return 2
        os.execvp(command[0], command)
    say(f"what you type is kept in {path}")
    status = run(command, log, beginning)
    if os.fstat(log).st_size:
        say(f"what you typed is in {path}", "\n" if status > 128 else "")  # (a program that was killed leaves a prompt)
    elif os.path.isfile(path):
        with suppress(OSError):
            os.unlink(path)
    return status


if __name__ == "__main__":
    sys.exit(main())
