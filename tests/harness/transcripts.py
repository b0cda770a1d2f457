"""Transcripts: commands, what they read and what they write, in the manner of cram (https://bitheap.org/cram).

A line without indentation is a comment, or blank. Indented by two blanks are

  = FILE        a file for the commands below, whose lines follow
  | LINE        a line of that file
  $ COMMAND     a command, which bash runs in a folder that has these files, and a link to the examples
  < LINE        a line that the command reads
  LINE          what it writes, its errors included. Blank lines between two of these lines belong to it, too
  [STATUS]      its status, if that is not 0

A line ends in ` (escaped)` if it has bytes that are not shown, which are then written as in Python, or if it looks like another kind of line;
and in ` (no end)` if no line end is after it.
"""
import os
import re
import subprocess

from harness import TOP, Fault, temporary_folder

INDENT, ESCAPED, NO_END = b"  ", b" (escaped)", b" (no end)"
OTHER_KIND = re.compile(rb"[=$<] |\[\d+\]$")


def as_shown(text):
    """The lines of a text, as a transcript has them."""
    for line in re.findall(rb"[^\n]*\n|[^\n]+\Z", text):
        shown = line.removesuffix(b"\n")
        printable = shown.isascii() and shown.decode().isprintable()
        if not printable or shown.endswith((ESCAPED, NO_END)) or OTHER_KIND.match(shown):
            shown = shown.decode("latin-1").encode("unicode_escape") + ESCAPED
        yield shown + (b"" if line.endswith(b"\n") else NO_END)


def as_text(shown):
    """The text of these lines of a transcript."""
    text = b""
    for line in shown:
        bare = line.removesuffix(NO_END)
        end = b"\n" if bare == line else b""
        if bare.endswith(ESCAPED):
            bare = bare.removesuffix(ESCAPED).decode("unicode_escape").encode("latin-1")
        text += bare + end
    return text


class Command:
    """A command of a transcript: the number of its line, what it reads, and what it is to write."""

    def __init__(self, number, words):
        self.number, self.words, self.given, self.wanted = number, words, [], []

    def shown(self):
        return [b"$ " + self.words, *(b"< " + line for line in self.given), *self.wanted]

    def run(self, folder):
        """Returns the lines of what it writes, and of its status."""
        environment = {**os.environ, "PATH": f"{folder / 'bin'}:{os.environ['PATH']}"}
        ran = subprocess.run(["bash", "-o", "pipefail", "-c", self.words], input=as_text(self.given), stdout=subprocess.PIPE,
                             stderr=subprocess.STDOUT, cwd=folder / "files", env=environment, timeout=120)
        lines = list(as_shown(ran.stdout))
        if lines and lines[-1] == b"":
            lines[-1] = ESCAPED  # (or it would not be seen)
        return lines + ([b"[%d]" % ran.returncode] if ran.returncode != 0 else [])


class File:
    """A file of a transcript."""

    def __init__(self, name):
        self.name, self.lines = name, []

    def shown(self):
        return [b"= " + self.name, *(b"| " + line if line else b"|" for line in self.lines)]


def parse(text):
    """The parts of a transcript: comments, files and commands."""
    parts, blanks = [], []
    for number, line in enumerate(text.split(b"\n")[:-1], 1):
        last = parts[-1] if parts else None
        if not line.startswith(INDENT):
            if line == b"":
                blanks.append(line)
            else:
                parts += [*blanks, line]
                blanks = []
            continue
        line = line.removeprefix(INDENT)
        if line.startswith((b"$ ", b"= ")):
            parts += blanks
            parts.append(Command(number, line[2:]) if line.startswith(b"$ ") else File(line[2:]))
        elif isinstance(last, File) and line.startswith(b"|"):
            last.lines.append(line[2:])
        elif isinstance(last, Command) and not last.wanted and not blanks and line.startswith(b"< "):
            last.given.append(line[2:])
        elif isinstance(last, Command):
            last.wanted += [*blanks, line]
        else:
            raise Fault(f"line {number} belongs to no command")
        blanks = []
    return parts + blanks


def text_of(parts):
    """The transcript of these parts."""
    lines = []
    for part in parts:
        lines += [part] if isinstance(part, bytes) else [INDENT + line if line else b"" for line in part.shown()]
    return b"".join(line + b"\n" for line in lines)


def check(suite, path):
    """A test for each command of a transcript. With --update, the transcript is written anew."""
    parts = parse(path.read_bytes())
    with temporary_folder() as folder:
        (folder / "files").mkdir()
        (folder / "bin").mkdir()
        (folder / "bin/rdbg").symlink_to(suite.program)
        (folder / "files/examples").symlink_to(TOP / "examples")
        for part in parts:
            if isinstance(part, File):
                place = folder / "files" / part.name.decode()
                place.parent.mkdir(parents=True, exist_ok=True)
                place.write_bytes(as_text(part.lines))
            elif isinstance(part, Command):
                shown = part.run(folder)
                if suite.options.update:
                    part.wanted = shown
                name = f"{path.relative_to(TOP)}:{part.number}: {part.words.decode()}"
                suite.same(name, b"\n".join(shown), b"\n".join(part.wanted))
    if suite.options.update:
        path.write_bytes(text_of(parts))
