"""The edits of the crates, which are mutants: what they change.

An edit has lines `file: PATH`, `old: TEXT` and `new: TEXT`, in the form that `rt must-fail` reads.
"""
import os
import re
import subprocess

from harness import TOP

CRATES = TOP / "crates"
FUNCTION = re.compile(r"\bfn (\w+)")


class BadEdit(Exception):
    """Why an edit cannot be applied."""


def all_crates():
    """The crates of crates.txt, lowest first."""
    lines = (TOP / "crates.txt").read_text(encoding="utf-8").splitlines()
    return [line.split(":")[0].split()[0] for line in lines if ":" in line.partition("#")[0]]


def edit_files(crate, folder):
    """The files of a crate's folder of edits. Documents (.md) are none."""
    return sorted(file for file in (CRATES / crate / folder).rglob("*") if file.is_file() and file.suffix != ".md")


def pairs(text):
    """The changes of an edit: for each the path of a file, the text to replace, and the new text."""
    path = old = ""
    for line in text.split("\n"):
        if line.startswith("file: "):
            path = line[len("file: "):].strip()
            if os.path.normpath(path) != path or not path.startswith(("src/", "specs/", "proofs/")):
                raise BadEdit(f"the file {path} is not below src/, specs/ or proofs/")
        elif line.startswith("old: "):
            if old:
                raise BadEdit(f"an `old:` line has no `new:` line: {old}")
            old = line[len("old: "):]
        elif line.startswith("new:"):
            if not path or not old:
                raise BadEdit("a `new:` line has no `file:` and `old:` line before it")
            new = line[len("new:"):]
            yield path, old, new[1:] if new.startswith(" ") else new
            old = ""
        elif line.strip() and not line.startswith(("#", "--", "//")):
            raise BadEdit(f"`rt` ignores the line: {line}")
    if old or not path:
        raise BadEdit(f"an `old:` line has no `new:` line: {old}" if old else "it has no `file:` line")


def function_at(path, text):
    """The last function of a text as MODULE.FUNCTION. The text is the beginning of the file of this path."""
    functions = FUNCTION.findall(text)
    module = path.partition("/")[2].rpartition(".")[0].replace("/", ".")
    return f"{module}.{functions[-1] if functions else '(no function)'}"


def changed_places(edit):
    """Applies an edit in memory. Returns the place of each change as MODULE.FUNCTION, or BadEdit."""
    crate, texts, places = edit.parents[1], {}, []
    for path, old, new in pairs(edit.read_text(encoding="utf-8")):
        if path not in texts:
            if not (crate / path).is_file():
                raise BadEdit(f"there is no file {path}")
            texts[path] = (crate / path).read_text(encoding="utf-8")
        text = texts[path]
        if text.count(old) != 1:
            raise BadEdit(f"{path} has the `old:` text {text.count(old)} times, not once: {old}")
        if old == new:
            raise BadEdit(f"the `new:` text is the `old:` text: {old}")
        # The nearest function above the first byte that differs.
        places.append(function_at(path, text[:text.index(old) + len(os.path.commonprefix([old, new]))]))
        texts[path] = text.replace(old, new)
    if not places:
        raise BadEdit("it has no `old:` and `new:` lines")
    return places


def places_in(edit):
    """The places that an edit changes, each with its crate."""
    return {(edit.parents[1].name, place) for place in changed_places(edit)}


def rt(folder, *words):
    """Runs `rt` in a folder."""
    return subprocess.run(["rt", *words], cwd=folder, stdin=subprocess.DEVNULL, stdout=subprocess.PIPE, stderr=subprocess.STDOUT,
                          text=True, errors="replace")
