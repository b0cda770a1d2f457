"""Runs of the program that are read as they write: through a pipe, and at a terminal."""
import fcntl
import os
import pty
import select
import struct
import subprocess
import tempfile
import termios
from pathlib import Path

from harness import Fault

SIZE = 24, 80  # of a terminal: lines and columns
SECONDS = 60  # to wait for output, at most


class Conversation:
    """A run of the program, of which the output is read as it comes."""

    def __init__(self, started, output):
        self.started, self.output, self.read = started, output, ""

    def send(self, text, to):
        os.write(to, text.encode())

    def until(self, end):
        """What is written up to this text, and the text."""
        while end not in self.read:
            more = os.read(self.output, 4096).decode() if select.select([self.output], [], [], SECONDS)[0] else ""
            if not more:
                raise Fault(f"the program wrote {self.read!r}, and then nothing, where {end!r} was due")
            self.read = (self.read + more).replace("\r\n", "\n")
        found, _, self.read = self.read.partition(end)
        return found + end


class Terminal(Conversation):
    """A run of a command at a terminal, which shows what is typed. What is kept of it is in a temporary folder."""

    def __init__(self, *words, **environment):
        master, terminal = pty.openpty()
        self.room = tempfile.TemporaryDirectory(prefix="rdbg-tests-")  # (removed with the object)
        fcntl.ioctl(terminal, termios.TIOCSWINSZ, struct.pack("HHHH", *SIZE, 0, 0))
        kept = {"XDG_STATE_HOME": self.room.name, "RLWRAP_HOME": self.room.name}
        named = {**os.environ, "NO_COLOR": "1", "TERM": "xterm", **kept, **environment}
        # (the terminal is the one that controls the run, so that it sends Ctrl-C)
        super().__init__(subprocess.Popen(words, stdin=terminal, stdout=terminal, stderr=terminal, env=named, start_new_session=True,
                                          preexec_fn=lambda: fcntl.ioctl(0, termios.TIOCSCTTY, 0)), master)
        os.close(terminal)

    def type(self, text):
        self.send(text, self.output)

    def logs(self):
        """The files in the default folder that keep what is typed."""
        return sorted(Path(self.room.name).glob("rdbg/*"))

    def processes(self):
        """The processes that run at the terminal, and what each was started with."""
        for process in [int(name) for name in os.listdir("/proc") if name.isdigit()]:
            try:
                if os.getsid(process) == self.started.pid:
                    yield process, Path(f"/proc/{process}/cmdline").read_bytes().decode().split("\0")
            except OSError:
                pass  # (it has ended)

    def ended(self):
        """What is written up to the end, and the status."""
        try:
            while select.select([self.output], [], [], SECONDS)[0]:
                more = os.read(self.output, 4096).decode()
                if not more:
                    break
                self.read = (self.read + more).replace("\r\n", "\n")
        except OSError:
            pass  # (the terminal is closed)
        status = self.started.wait(SECONDS)
        os.close(self.output)
        return self.read, status
