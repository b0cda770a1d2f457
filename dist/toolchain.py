"""What the scripts of this folder share: where things are, messages, and the toolchain."""
import shutil
import subprocess
import sys
from pathlib import Path

TOP = Path(__file__).resolve().parent.parent
LOGIC = "logic dac8208d650f15bf"  # of the toolchain that proves these sources (README.md)
FAILED = 2  # the status if there is no program


class LoggedRun:
    """A run of the toolchain, with a folder of its own, in which a file has what the run says. A class below it starts `process`."""

    def __init__(self, room):
        self.room = room
        self.log = open(room / "log", "w+", errors="replace")

    def has_ended(self):
        return self.process.poll() is not None

    def said(self):
        self.log.seek(0)
        return self.log.read()

    def close(self, signal_number):
        """Ends the run by this signal if it has not ended. (`rt` ends what it has started.)"""
        if not self.has_ended():
            self.process.send_signal(signal_number)
        self.process.wait()
        self.log.close()


def say(text):
    print(f"rdbg: {text}", file=sys.stderr, flush=True)


def clear_line():
    """Removes the line of progress, at a terminal."""
    if sys.stderr.isatty():
        print("\r\033[K", end="", file=sys.stderr, flush=True)


def show_line(text):
    """Replaces the line of progress, at a terminal."""
    if sys.stderr.isatty():
        line = f"rdbg: {text}"[: shutil.get_terminal_size().columns - 1]
        print(f"\r\033[K{line}", end="", file=sys.stderr, flush=True)


def need_toolchain():
    if not shutil.which("rt"):
        say("the command `rt` is missing. It is part of a kit of Rattle: unpack the kit, and put its bin/ on the PATH (README.md)")
        sys.exit(FAILED)


def version():
    """What the toolchain says that it is."""
    return subprocess.run(["rt", "version"], stdin=subprocess.DEVNULL, stdout=subprocess.PIPE, text=True).stdout.strip()


def check_toolchain():
    """Says so if the toolchain has another logic, which explains most failures."""
    found = version()
    if LOGIC not in found:
        say(f"these sources need a toolchain of {LOGIC}, and this one is {found}")
