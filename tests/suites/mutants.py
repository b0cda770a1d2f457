"""The mutants: every edit of mutants/ and must-fail/ can be applied and is compiled; with --prove the prover refuses every mutant.

A mutant changes the body of a function, and its file is crates/NAME/mutants/MODULE.FUNCTION.what_it_does.edit, with `.` for `/` in MODULE.

With --prove, mutants of different functions of a crate are applied together, and one check looks at the modules that they change. A
mutant is refused if the check refuses its own function. What is not refused so is tried again alone.
"""
import re
import shutil
import sys

from harness import TOP, Fault, stop, temporary_folder
from harness.compiling import compile_batches, uncompiled
from harness.edits import CRATES, BadEdit, all_crates, changed_places, edit_files, pairs, rt

EDIT_NAME = re.compile(r"[A-Za-z0-9_-][A-Za-z0-9_.-]*\.edit")
NOT_PROVED = re.compile(r"fn (\S+): (?!proved|assumed)")
BATCH = 40  # mutants at most in one check
# What a copy of a crate needs for its proof, and what its folders are called there. What was built is used only if it is current.
COPIED = {"src": "src", "specs": "specs", "proofs": "proofs", "mutants": "must-fail", "out/rlib": "out/rlib"}


def crate_names(options):
    """The crates that were chosen, or all, lowest first."""
    names = all_crates()
    for name in options.crate:
        if name not in names:
            stop(f"crates.txt has no crate {name}")
    return [name for name in names if name in options.crate or not options.crate]


def edit_problem(edit, folder):
    """Why an edit is wrong, or an empty text."""
    if edit.parent.name != folder or not EDIT_NAME.fullmatch(edit.name):
        return f"a file of {folder}/ is an edit: its name has letters, digits, `_`, `-` and `.` and ends in .edit"
    try:
        places = changed_places(edit)
    except (BadEdit, OSError, UnicodeDecodeError) as error:
        return str(error)
    place, _, change = edit.name[:-len(".edit")].rpartition(".")
    if folder == "mutants" and (place not in places or not change):
        return f"its name is not MODULE.FUNCTION.what_it_does.edit, for its change of {' or '.join(sorted(set(places)))}"
    return ""


def copy_crates(room):
    """Copies the crates without what their proof does not need. In the copy the mutants are in must-fail/."""
    shutil.copy2(TOP / "crates.txt", room)
    for crate in sorted(CRATES.iterdir()):
        for part, copied in COPIED.items():
            if (crate / part).is_dir():
                shutil.copytree(crate / part, room / "crates" / crate.name / copied)


def verdicts(crate, report):
    """What `rt must-fail` says of each edit, by the edit's file name."""
    found, edit, begin = {}, "", f"rt: must-fail {crate}/"
    for line in report.splitlines():
        if line.startswith(begin):
            edit, _, found[edit] = line[len(begin):].partition(": ")
        elif line.startswith("rt: "):
            edit = ""
        elif edit:
            found[edit] += "\n" + line
    return found


def changed_texts(folder, edits):
    """The files that these edits change, with their new texts. Each change is made at its place in the text without any edit."""
    changes = {}
    for edit in edits:
        for path, old, new in pairs(edit.read_text(encoding="utf-8")):
            text = (folder / path).read_text(encoding="utf-8")
            changes.setdefault(path, []).append((text.index(old), old, new))
    texts = {}
    for path, found in changes.items():
        text, end = (folder / path).read_text(encoding="utf-8"), None
        for at, old, new in sorted(found, reverse=True):
            if end is not None and at + len(old) > end:
                raise BadEdit("two edits change the same text")
            text, end = text[:at] + new + text[at + len(old):], at
        texts[path] = text
    return texts


def batches(edits):
    """These edits by their places, in parts in which no two change the same function."""
    lists = []
    for edit in edits:
        place = edit.name[:-len(".edit")].rpartition(".")[0]
        batch = next((batch for batch in lists if place not in batch and len(batch) < BATCH), None)
        if batch is None:
            batch = {}
            lists.append(batch)
        batch[place] = edit
    return lists


def refused_in(report, place):
    """What a check says against the function of this place itself, or an empty text."""
    path = "::".join(place.split("."))
    module, _, function = path.rpartition("::")
    for line in report.splitlines():
        said = NOT_PROVED.match(line)
        if said and f"::{said[1]}::".find(f"::{module}::") >= 0 and said[1].endswith(f"::{function}") and "not proved; it calls" not in line:
            return line
    return ""


def check_batch(folder, batch):
    """Which edits of a batch one check refuses, by their places."""
    modules = sorted({place.rpartition(".")[0].replace(".", "::") for place in batch})
    texts = changed_texts(folder, batch.values())
    kept = {path: (folder / path).read_text(encoding="utf-8") for path in texts}
    try:
        for path, text in texts.items():
            (folder / path).write_text(text, encoding="utf-8")
        report = rt(folder, "check", *[word for module in modules for word in ("--only", module)]).stdout
    finally:
        for path, text in kept.items():
            (folder / path).write_text(text, encoding="utf-8")
    return {place for place in batch if refused_in(report, place)}


def refused_together(folder, edits):
    """The names of the edits that a check of several of them refuses."""
    refused, waiting = set(), batches(edits)
    while waiting:
        batch = waiting.pop(0)
        try:
            places = check_batch(folder, batch)
        except (BadEdit, ValueError):
            places = set()
        refused |= {batch[place].name for place in places}
        if not places and len(batch) > 1:
            # (one that is not compiled hides what is said of the others)
            half = list(batch.items())
            waiting += [dict(half[: len(half) // 2]), dict(half[len(half) // 2 :])]
    return refused


def prove_mutants(suite, room, crate, edits):
    """Has the prover try each mutant of a crate. Returns how many it refused."""
    folder = room / "crates" / crate
    refused = refused_together(folder, edits)
    others = [edit for edit in edits if edit.name not in refused]
    for edit in edits:
        if edit.name in refused:
            (folder / "must-fail" / edit.name).unlink()
            suite.case(f"{crate}/{edit.name}", "")
    return len(refused) + (prove_alone(suite, room, crate, others) if others else 0)


def prove_alone(suite, room, crate, edits):
    """Has the prover try each of these mutants over the whole crate. Returns how many it refused."""
    folder = room / "crates" / crate
    # The crate without an edit must be proved, so that no edit is refused for another mistake.
    proved = rt(folder, "check" if (folder / "src/main.rt").exists() else "lib")
    if proved.returncode != 0:
        print(f"mutants: {crate} is not proved without an edit:\n{proved.stdout}", flush=True)
    report = rt(room, "must-fail", crate).stdout if proved.returncode == 0 else ""
    found, refused = verdicts(crate, report), 0
    if report and not found:
        print(report, flush=True)
    for edit in edits:
        verdict = found.get(edit.name, "it was not tried")
        is_refused = verdict.startswith("refused, as it must be")
        if is_refused and "(only" in verdict:
            print(f"mutants: {crate}/{edit.name}: {verdict}", flush=True)
        refused += suite.case(f"{crate}/{edit.name}", "" if is_refused else verdict)
    return refused


def prove_all(suite, crates):
    """Has the prover try the mutants of these crates, and prints a table of how many it refused."""
    rows = []
    with temporary_folder() as room:
        copy_crates(room)
        for crate in crates:
            edits = edit_files(crate, "mutants")
            if edits:
                print(f"mutants: {crate}: trying {len(edits)} mutants", file=sys.stderr, flush=True)
                refused = prove_mutants(suite, room, crate, edits)
                rows.append((crate, refused, len(edits) - refused))
    print(f"{'crate':20} {'refused':>8} {'failed':>8}", *(f"{crate:20} {refused:8} {failed:8}" for crate, refused, failed in rows), sep="\n")


def test_compiled(suite, edits):
    """Tests that each of these edits is compiled."""
    said = {}
    try:
        for part in compile_batches(edits):
            said |= uncompiled(part)
    except Fault as fault:
        suite.case("the compiler reads the crates", fault)
        return
    for edit in edits:
        suite.case(f"{edit.relative_to(CRATES)} is compiled", said.get(edit, ""))


def run(suite):
    crates, edits = crate_names(suite.options), []
    for crate in crates:
        for folder in ("mutants", "must-fail"):
            for edit in edit_files(crate, folder):
                if suite.case(str(edit.relative_to(CRATES)), edit_problem(edit, folder)):
                    edits.append(edit)
    edits = [edit for edit in edits if all(path.startswith("src/") for path, *_ in pairs(edit.read_text(encoding="utf-8")))]
    if edits and suite.needs("rt", "which mutants compile"):
        test_compiled(suite, edits)
    if suite.options.prove and suite.needs("rt", "what the prover refuses"):
        prove_all(suite, crates)
