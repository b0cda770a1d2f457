"""The public calls of the crates that have a condition on their caller, read from the sources."""
import re
from pathlib import Path

# An item that a file declares at its left edge, or a function, with what stands between its name and its body.
OWNER = re.compile(r"(?m)^(?:impl\b[^{]*|pub trait [^{]*)")
FUNCTION = re.compile(r"(?m)^( *)pub (?:const )?fn (\w+)((?:.|\n)*?)(?=^\1\{| \{$|\{\}$|;$)", re.MULTILINE)
METHOD = re.compile(r"(?m)^( +)fn (\w+)((?:.|\n)*?)(?=^\1\{| \{$|\{\}$|;$)", re.MULTILINE)


def without_comments(text):
    return re.sub(r"(?m)^ *//.*\n", "", text)


def exported(crate):
    """The names that a crate exports, and the modules whose public items are all exported."""
    root = without_comments((crate / "src/lib.rt").read_text(encoding="utf-8"))
    used = " ".join(re.findall(r"(?m)^pub use ([^;]*);", root))
    return set(re.findall(r"\w+", used)), set(re.findall(r"(?m)^pub mod (\w+);", root))


def owner_of(head):
    """The type or the trait whose block begins with this text."""
    head = re.sub(r"\s+", " ", head).strip()
    trait = re.match(r"pub trait (\w+)", head)
    if trait:
        return trait[1], True
    of = re.sub(r"^impl(?:<[^>]*(?:<[^>]*>[^>]*)*>)? ", "", head)
    if " for " in of:
        return None, False
    return re.match(r"(\w+)", of)[1], False


def blocks(text):
    """The blocks of a file in which functions are: the owner, whether it is a trait, and the text."""
    starts = [(match.start(), *owner_of(match[0])) for match in OWNER.finditer(text)]
    at = 0
    for start, owner, is_trait in starts:
        yield "", False, text[at:start]
        end = text.index("\n}", start) if "\n}" in text[start:] else len(text)
        yield owner, is_trait, text[start:end]
        at = end
    yield "", False, text[at:]


def conditions_in(file):
    """The public functions of a file that have a condition, each with its owner, or an empty text."""
    for owner, is_trait, text in blocks(without_comments(file.read_text(encoding="utf-8"))):
        if owner is None:
            continue
        for match in (METHOD if is_trait else FUNCTION).finditer(text):
            if re.search(r"(?m)^ *requires\b", match[3]):
                yield owner, match[2]


def conditions(top):
    """For each crate that is no crate of tests and has such calls: its name, and the calls."""
    for crate in sorted(Path(top, "crates").iterdir()):
        if crate.name.startswith("test_") or not (crate / "src/lib.rt").exists():
            continue
        names, modules = exported(crate)
        found = []
        for file in sorted((crate / "src").rglob("*.rt")):
            for owner, name in conditions_in(file):
                if (owner or name) in names or file.stem in modules:
                    found.append(f"{owner}::{name}" if owner else name)
        if found:
            yield crate.name, sorted(set(found))
