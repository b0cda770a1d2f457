"""What the documents say: blocks of `rdbg` are programs and sessions, links lead somewhere, and refusals mean the same everywhere.

A block ```rdbg is a program, or a session whose lines `> ..` are its replies. It may be in the notation: then its plain session has to
have the same replies. A block ```rdbg-refused is a program that is refused. A block ```rdbg-report after one of these has lines, one
after the other, of what `talk` prints for that session, or `check --explain` for that program.
The meanings of the refusals are those of the source of `rdbg --help`, word by word. A file of a crate that a document names exists. The
calls with a condition on their caller are those of the sources (--update writes them anew). The lemmas that docs/proofs.md names exist, and
the worked change of CONTRIBUTING.md names what is in its files. crates.txt lists for a crate only what its files name. The documents stay
below a number of words.
"""
import re
from typing import NamedTuple
from urllib.parse import unquote

from harness import TOP, temporary_folder
from harness.conditions import conditions

# The documents with blocks, and those that have links alone.
WITH_BLOCKS = ["README.md", "docs/*.md", "examples/README.md"]
LINKED = ["CONTRIBUTING.md", "crates/*/README.md", "dist/editors/README.md"]
# A document of these folders is installed with the files of its folder that have these endings (or all files) and no others.
INSTALLED = {"examples": (".rdbg", ".md"), "editors": ("",)}
# How many words these documents may have in sum.
WORDS = [(38_000, ["README.md", "CONTRIBUTING.md", "docs/*.md"]), (9_000, ["crates/*/README.md"])]
MAN_PAGE = TOP / "dist/rdbg.1"
PROVED = TOP / "docs/proved.md"
CONDITIONS = "\n| Crate | Calls |\n|---|---|\n"  # the begin of the table of the calls that have a condition on their caller
SOURCE = re.compile(r"`((?:crates/)?[a-z_]+/(?:src|specs|proofs)/[\w/.]+\.(?:rt|antt))`")
# The list of the refusals in the help, and copies of it. Each is a file, the text before the list, and what an entry looks like.
HELP_REFUSALS = ("crates/dbg_shell/src/subcommands.rt", "\nRefusals:", r"^ +(\d+) +(.+)$")
OTHER_REFUSALS = [
    ("crates/ui_text/src/numbers.rt", "match number", r'^ +(\d+) =>\s+"(.+)",$'),
    ("dist/rdbg.1", "\n.Sh REFUSALS", r"^\.It (\d+)\n((?:[^.\n].*\n)+)"),
    ("docs/commands.md", "\n## Refusals", r"^\| (\d+) \| (.+) \|$"),
]
REFUSALS = 25
ERROR_LINES = 8  # at most, of a block that is wrong

LINK = re.compile(r"""\]\(<?([^)\s>]+)>?(?:\s+"[^"]*")?\)|^\[[^\]]+\]:\s+(\S+)|\b(?:href|src)="([^"]+)\"""", re.MULTILINE)
CODE = re.compile(r"(`+)(?:(?!\n\n).)+?(?<!`)\1(?!`)", re.DOTALL)
HEADING = re.compile(r"^#+ +(.*?)[ #]*$", re.MULTILINE)


class Block(NamedTuple):
    """A block of code of a document, and the line at which it begins."""
    line: int
    language: str
    text: str


def documents(patterns):
    return [document for pattern in patterns for document in sorted(TOP.glob(pattern))]


def prose_and_blocks(text):
    """The prose of a document, in which blocks of code are blank lines, and these blocks."""
    prose, blocks, block, language = [], [], None, ""
    for number, line in enumerate(text.splitlines(), 1):
        if block is None and line.startswith("```"):
            block, language, first = [], line[3:].strip(), number
        elif block is not None and line.startswith("```"):
            blocks.append(Block(first, language, "".join(f"{each}\n" for each in block)))
            block = None
        elif block is not None:
            block.append(line)
        prose.append(line if block is None and not line.startswith("```") else "")
    return "\n".join(prose), blocks


class Shown:
    """A block of a program or a session, as a file in a folder."""

    def __init__(self, suite, block, folder):
        self.suite, self.folder = suite, folder
        self.is_refused = block.language == "rdbg-refused"
        self.is_session = not self.is_refused and "%%" in block.text.splitlines()
        (folder / "block.rdbg").write_text(block.text, encoding="utf-8")

    def run(self, *words):
        """Runs a command. Returns what it wrote, and what is wrong with its status, or an empty text."""
        ran = self.suite.rdbg(*words, folder=self.folder, merge=True)
        output, wanted = ran.output.decode(errors="backslashreplace"), 3 if self.is_refused else 0
        begin = "\n".join(output.splitlines()[:ERROR_LINES])
        return output, "" if ran.status == wanted else f"{' '.join(words)}: status {ran.status}, not {wanted}\n{begin}"

    def problem(self):
        """What is wrong with the block, or an empty text: in the notation, and with its plain text."""
        plain, problem = self.run("expand", "block.rdbg")
        (self.folder / "plain.rdbg").write_text(plain, encoding="utf-8")
        tried = [["test", "block.rdbg"], ["draw", "block.rdbg"], ["test", "plain.rdbg"]] if self.is_session else [["check", "--explain", "block.rdbg"]]
        if not self.is_refused and not self.is_session:
            tried.append(["check", "plain.rdbg"])
        return "".join([problem, *(self.run(*words)[1] for words in tried)])

    def report(self):
        output, _ = self.run(*(["talk"] if self.is_session else ["check", "--explain"]), "block.rdbg")
        return output


def check_blocks(suite, document, room):
    """Checks each program and each session of a document, and each report with what the program prints for the one before it."""
    last = None
    for block in prose_and_blocks(document.read_text(encoding="utf-8"))[1]:
        name = f"{document.relative_to(TOP)}:{block.line}"
        if block.language in ("rdbg", "rdbg-refused"):
            last = Shown(suite, block, room)
            suite.case(name, last.problem())
        elif block.language == "rdbg-report":
            is_right = last and f"\n{block.text}" in f"\n{last.report()}"
            suite.case(name, "" if is_right else "the program does not print this for the block before it")


def anchors(document):
    """The anchors that GitHub gives to the headings of a document."""
    prose, _ = prose_and_blocks(document.read_text(encoding="utf-8"))
    found, counts = set(), {}
    for heading in HEADING.findall(prose):
        shown = re.sub(r"\[([^\]]*)\]\([^)]*\)", r"\1", heading)
        anchor = re.sub(r"[^\w\- ]", "", shown.lower()).replace(" ", "-")
        count = counts.get(anchor, 0)
        counts[anchor] = count + 1
        found.add(f"{anchor}-{count}" if count else anchor)
    return found


def link_problem(document, target):
    """Why a link is dead, or an empty text."""
    path, _, anchor = unquote(target).partition("#")
    file, folder = (document.parent / path).resolve() if path else document, document.parent
    if not file.exists() or TOP not in file.parents:
        return "there is no such file in the repository"
    if folder.name in INSTALLED and not (folder in file.parents and file.name.endswith(INSTALLED[folder.name])):
        return f"{document.name} is installed without this file"
    if anchor and (file.suffix != ".md" or anchor not in anchors(file)):
        return f"{file.name} has no heading with this anchor"
    return ""


def dead_links(document):
    """The dead links of a document, each with its line. Links to other places of the net are not tried."""
    prose, _ = prose_and_blocks(document.read_text(encoding="utf-8"))
    prose = CODE.sub(lambda code: "\n" * code[0].count("\n"), prose)
    for link in LINK.finditer(prose):
        target = next(filter(None, link.groups()))
        problem = "" if re.match(r"[a-z]+:", target) else link_problem(document, target)
        if problem:
            yield f"line {prose.count(chr(10), 0, link.start()) + 1}: {target}: {problem}"


def dead_paths():
    """The paths of the man page below PREFIX/share/rdbg/ that are not installed from a folder of the repository."""
    begin = "PREFIX/share/rdbg/"
    for path in re.findall(r"\.Pa (PREFIX\S*)", MAN_PAGE.read_text(encoding="utf-8")):
        below = path[len(begin):]
        if not path.startswith(begin) or not any((TOP / folder / below).exists() for folder in (".", "dist")):
            yield f"{path}: nothing is installed there"


def refusals(file, title, entry):
    """The meanings of the refusals in a file, each a line with its number."""
    _, _, listed = (TOP / file).read_text(encoding="utf-8").partition(title)
    found = re.findall(entry, listed, re.MULTILINE)[:REFUSALS]
    return "".join(f"{number} {' '.join(meaning.split())}\n" for number, meaning in found)


def check_refusals(suite):
    wanted = refusals(*HELP_REFUSALS)
    numbers = [line.split()[0] for line in wanted.splitlines()]
    suite.same("the numbers of refusals in the help", " ".join(numbers), " ".join(str(n) for n in range(1, REFUSALS + 1)))
    for file, title, entry in OTHER_REFUSALS:
        suite.same(f"the refusals in {file}", refusals(file, title, entry), wanted)


def missing_sources(document):
    """The files of crates that a document names, as `crate/src/file.rt`, and that do not exist."""
    for name in SOURCE.findall(document.read_text(encoding="utf-8")):
        if not (TOP / "crates" / name.removeprefix("crates/")).exists():
            yield f"there is no file {name}"


def check_conditions(suite):
    """The table of the calls that have a condition on their caller."""
    text = PROVED.read_text(encoding="utf-8")
    head, begin, rest = text.partition(CONDITIONS)
    shown, end, tail = rest.partition("\n\n")
    wanted = "\n".join(f"| `{crate}` | {', '.join(f'`{call}`' for call in calls)} |" for crate, calls in conditions(TOP))
    if suite.options.update:
        PROVED.write_text(head + begin + wanted + end + tail, encoding="utf-8")
        shown = wanted
    suite.same("the calls with a condition on their caller", shown, wanted)


def unknown_names(text):
    """The names in a text about proofs that are no lemma, no file of proofs, and nothing of the code."""
    proofs, sources = list(TOP.glob("crates/*/proofs/**/*.antt")), list(TOP.glob("crates/*/src/**/*.rt"))
    known = {file.stem for file in proofs} | {folder.name for folder in (TOP / "crates").iterdir()} | {"docs", "atomic_table"}
    for file in proofs:
        known.update(re.findall(r"(?m)^ *(?:pub )?([a-z]\w*) :", file.read_text(encoding="utf-8")))
    for file in sources:
        known.update(re.findall(r"(?:fn|struct|trait|enum) (\w+)", file.read_text(encoding="utf-8")))
    return sorted(set(re.findall(r"`(\w+)`", text)) - known)


def misplaced_names(text):
    """The names of the worked change that are not in the file of their row."""
    for file, names in re.findall(r"(?m)^\|[^|]*\| `([\w/.]+)` \| (.*) \|$", text):
        source = TOP / "crates" / file
        code = source.read_text(encoding="utf-8") if source.exists() else ""
        yield from (f"{file} has no {name}" for name in re.findall(r"`([^`]+)`", names) if name not in code)


def unused_libraries():
    """The libraries that crates.txt lists for a crate which does not name them. `rt ci` sums up the sources of a library once for each way
    that leads to it."""
    for line in (TOP / "crates.txt").read_text(encoding="utf-8").splitlines():
        crate, begin, libraries = line.partition(":")
        if not begin or line.startswith("#"):
            continue
        files = [file for part in ("src", "specs", "proofs") for file in (TOP / "crates" / crate / part).glob("**/*.*t")]
        code = "\n".join(file.read_text(encoding="utf-8") for file in files)
        yield from (f"{crate} does not use {library}" for library in libraries.split() if not re.search(rf"\b{library}\b", code))


def check_words(suite):
    """A limit on the words of the documents: what is added later replaces something."""
    for limit, patterns in WORDS:
        count = sum(len(document.read_text(encoding="utf-8").split()) for document in documents(patterns))
        suite.case(f"at most {limit:,} words in {', '.join(patterns)}", "" if count <= limit else f"they have {count:,}")


def run(suite):
    with temporary_folder() as room:
        for document in documents(WITH_BLOCKS):
            check_blocks(suite, document, room)
    for document in documents(WITH_BLOCKS + LINKED):
        suite.case(f"links of {document.relative_to(TOP)}", "\n".join(dead_links(document)))
        suite.case(f"files that {document.relative_to(TOP)} names", "\n".join(missing_sources(document)))
    suite.case(f"paths of {MAN_PAGE.relative_to(TOP)}", "\n".join(dead_paths()))
    check_refusals(suite)
    check_conditions(suite)
    suite.same("names in docs/proofs.md that do not exist", "\n".join(unknown_names((TOP / "docs/proofs.md").read_text(encoding="utf-8"))), "")
    suite.same("names of the worked change that are elsewhere", "\n".join(misplaced_names((TOP / "CONTRIBUTING.md").read_text(encoding="utf-8"))), "")
    suite.same("libraries in crates.txt that are not used", "\n".join(unused_libraries()), "")
    check_words(suite)
