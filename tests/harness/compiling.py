"""Which mutants the compiler refuses: such a mutant says nothing of a contract.

Edits of many functions are applied together in a copy of the sources, in which a mistake stops the compiler before the borrow checker and
before any proof. It reports the mistake with all other errors of names and types. So some ten seconds are enough for hundreds of edits.
"""
import re
import shutil

from harness import TOP, Fault, temporary_folder
from harness.edits import CRATES, all_crates, function_at, pairs, places_in, rt

ERROR = re.compile(r"(?P<file>\S+\.rt):(?P<line>\d+):\d+: error\b")
MISTAKE = '\nfn must_be_refused() -> u32 {\n    "a text"\n}\n'


def applied(edit, texts):
    """The files that an edit changes, with their new texts, or none if it cannot be applied. `texts` has the files that others have changed."""
    changed = {}
    for path, old, new in pairs(edit.read_text(encoding="utf-8")):
        file = edit.parents[1] / path
        text = changed.get(file) or texts.get(file) or file.read_text(encoding="utf-8")
        if text.count(old) != 1:
            return {}
        changed[file] = text.replace(old, new)
    return changed


def copy_changed(room, edits):
    """Copies the sources of the crates with these edits, and with a mistake in the highest crate that has one. Returns that crate's folder."""
    crates = [name for name in all_crates() if any(edit.parents[1].name == name for edit in edits)]
    top = CRATES / crates[-1]
    root = next(file for file in (top / "src/main.rt", top / "src/lib.rt") if file.exists())
    texts = {root: root.read_text(encoding="utf-8")}
    for edit in edits:
        texts |= applied(edit, texts)
    texts[root] += MISTAKE
    for crate in sorted(CRATES.iterdir()):
        if (crate / "src").is_dir():
            shutil.copytree(crate / "src", room / "crates" / crate.name / "src")
    for file, text in texts.items():
        (room / file.relative_to(TOP)).write_text(text, encoding="utf-8")
    # In the copy the highest crate uses all others that have an edit.
    lines = (TOP / "crates.txt").read_text(encoding="utf-8")
    lines = re.sub(rf"(?m)^{top.name}\b.*", lambda line: f"{line[0]} {' '.join(crates[:-1])}", lines)
    (room / "crates.txt").write_text(lines, encoding="utf-8")
    return room / "crates" / top.name


def compile_errors(edits):
    """What the compiler says of the crates with these edits: for each error the crate, the place as MODULE.FUNCTION, and the line."""
    errors, found = [], False
    with temporary_folder() as room:
        folder = copy_changed(room, edits)
        report = rt(folder, "check").stdout
        for line in report.splitlines():
            error = ERROR.match(line)
            if error:
                crate, _, path = str((folder / error["file"]).relative_to(room / "crates")).partition("/")
                lines = (folder / error["file"]).read_text(encoding="utf-8").splitlines(keepends=True)
                place = function_at(path, "".join(lines[:int(error["line"])]))
                if place.endswith(".must_be_refused"):
                    found = True
                else:
                    errors.append((crate, place, line.replace(f"{room}/", "")))
    if not found and not errors:
        raise Fault(f"`rt check` did not find the mistake:\n{report[-2000:]}")
    return errors


def suspects(edits, crate, place):
    """The edits that change the function of an error, or else those of its module, or else those of its crate."""
    module = place.rpartition(".")[0]
    for is_near in (lambda at: at == (crate, place), lambda at: at[0] == crate and at[1].rpartition(".")[0] == module, lambda at: at[0] == crate):
        found = [edit for edit in edits if any(map(is_near, places_in(edit)))]
        if found:
            return found
    return []


def uncompiled(edits):
    """Which of these edits the compiler refuses, each with what it says. They are applied together, and in parts if it refuses any."""
    errors = compile_errors(edits) if edits else []
    if len(edits) == 1 and errors:
        return {edits[0]: "\n".join(line for *_, line in errors)}
    said = {edit: "\n".join(line for crate, place, line in errors if (crate, place) in places_in(edit)) for edit in edits}
    accused = [edit for edit in edits if said[edit]]
    if not errors or len(accused) == len(edits):
        return said if errors else {}
    # Those with errors may be right but for one of the others.
    near = {edit for crate, place, _ in errors for edit in suspects(edits, crate, place)}
    part = near if 0 < len(near) < len(edits) else accused or edits[: len(edits) // 2]
    return uncompiled([edit for edit in edits if edit in part]) | uncompiled([edit for edit in edits if edit not in part])


def compile_batches(edits):
    """These edits in parts that can be applied together, in which no two change the same function of a crate."""
    lists = []
    for edit in edits:
        for places, texts, part in lists + [(set(), {}, [])]:
            changed = {} if places & places_in(edit) else applied(edit, texts)
            if changed:
                if not part:
                    lists.append((places, texts, part))
                places |= places_in(edit)
                texts |= changed
                part.append(edit)
                break
    return [part for *_, part in lists]
