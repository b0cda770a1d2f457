"""dist/install, and the man page, completions and editor files that it installs.

It must install into an empty folder and next to other files, remove no more than it installed, and pack an archive that runs. The words in these files must be those of
the language and of the program's help. Tools that read the files are used if they are installed.
"""
import json
import os
import re
import shutil
import subprocess
import sys

from harness import TOP, temporary_folder
from harness.terminal import Terminal

DIST = TOP / "dist"
COMPLETIONS = DIST / "completions"
# Files that are installed, and where.
INSTALLED = {
    "dist/rdbg.1": "share/man/man1/rdbg.1",
    "dist/completions/rdbg.bash": "share/bash-completion/completions/rdbg",
    "dist/completions/_rdbg": "share/zsh/site-functions/_rdbg",
    "dist/completions/rdbg.fish": "share/fish/vendor_completions.d/rdbg.fish",
    "find/__main__.py": "share/rdbg/find/__main__.py",
    "dist/keep.py": "share/rdbg/keep.py",
    "dist/editors/README.md": "share/rdbg/editors/README.md",
    "dist/editors/vim/syntax/rdbg.vim": "share/rdbg/editors/vim/syntax/rdbg.vim",
    "dist/editors/vim/ftdetect/rdbg.vim": "share/rdbg/editors/vim/ftdetect/rdbg.vim",
    "dist/editors/textmate/rdbg.tmLanguage.json": "share/rdbg/editors/textmate/rdbg.tmLanguage.json",
    "examples/README.md": "share/rdbg/examples/README.md",
    "examples/two_phase_commit.rdbg": "share/rdbg/examples/two_phase_commit.rdbg",
    "examples/notation/paxos.rdbg": "share/rdbg/examples/notation/paxos.rdbg",
}
# An option of a command.
OPTION = re.compile(r"--[a-z]+(?:-[a-z]+)*")
# A launcher whose program has yet to be built, and to be proved.
LAUNCHER = """#!/bin/sh
folder=$(dirname "$0")
case $1 in
  --where) for program in proved/rdbg rdbg-unproved/rdbg; do [ -e "$folder/$program" ] && echo "$folder/$program" && exit; done; exit 2 ;;
  --prove) mkdir "$folder/proved" && cp '{program}' "$folder/proved/rdbg" ;;
  *) mkdir "$folder/rdbg-unproved" && cp '{program}' "$folder/rdbg-unproved/rdbg" ;;
esac
"""
SYSTEM_PATH = "/usr/bin:/bin"
# Words that languages often reserve, and names that programs often have.
OTHER_WORDS = """as assert async bool box break case channel chan class const continue def do done else end enum event false fi fn for from func
    function got goto guard if implies in init int invariant is let local loop match max message min mod nat new next nil none null of on or
    out own private proc proof prove pub queue read receive recv ref repeat return run select self send sent set skip start state static
    step then to true try type undo use value wait when where while with write x xor yield""".split()
# Sessions, and what Vim shows at places of them.
PLAIN = """process a { when (sent(b) < 1) : send b 1; }
process b { }
%%
# next
1 break k a (sent(b) = 1)
next a
> ok a 0
why k
"""
PLAIN_PLACES = """1:1 Keyword  1:9 ProcessName  1:13 Keyword  1:19 Count  1:27 Operator  1:29 Number  1:34 Action  1:41 Number  3:1 End
  4:3 Comment  5:1 Seat  5:3 Command  5:14 Count  6:1 Command  7:3 Reply  8:1 Question"""
NOTATION = """const n = 2;  # for x: when
let rest(i) = all(j: 1..n where j != i: sent(b[j]) < 1);
process b[i: 1..n] {
  var sum = 0;
  for j: 1..n where j != i { take: when sum = 0 : recv b[j] sum; }
  var let = .5;
}
%%
1 break k for i: 1..n: b[i] (some(j: 1..n: sum = j))
for i: 1..n where i > 1 : 2 next b[i]  # the others
for i: 1..n : vars b[i]
"""
NOTATION_PLACES = """1:1 Notation  1:7 -  1:15 Comment  1:21 Comment  1:24 Comment  2:1 Notation  2:15 NotationForm  2:22 Number  2:23 Range
  2:27 Notation  2:41 Count  2:47 -  3:9 ProcessName  3:10 -  4:7 -  5:3 Notation  5:15 Notation  5:30 Label  5:36 Keyword  5:41 -  5:51 Action
  5:61 -  6:7 -  6:13 Fault  9:3 Command  9:11 Notation  9:19 Range  9:30 NotationForm  9:39 Range  9:44 Predicate  10:1 Notation
  10:13 Notation  10:27 Number  10:29 Command  10:40 Comment  11:1 Notation  11:15 Question"""
VIM_SCRIPT = """set nocompatible runtimepath^={editors}/vim
filetype on
syntax on
edit {file}
call writefile(map({places}, 'strpart(synIDattr(synID(v:val[0], v:val[1], 1), "name"), 4)'), '{groups}')
qa!
"""


def output_of(*words, **environment):
    """The status of a run, and what it wrote."""
    ran = subprocess.run(
        [str(word) for word in words], stdin=subprocess.DEVNULL, stdout=subprocess.PIPE, stderr=subprocess.STDOUT, text=True, cwd=TOP,
        env={**os.environ, **environment})
    return ran.returncode, ran.stdout


def check_status(suite, name, due, *words, **environment):
    """A test that a run ends with this status."""
    status, output = output_of(*words, **environment)
    return suite.case(name, "" if status == due else f"status {status}, not {due}\n{output[:1000]}")


def check_words(suite, name, shown, wanted):
    """A test that two lists have the same words."""
    wanted = "\n".join(sorted(set(wanted))) or "(no words were found to compare with)"
    return suite.same(name, "\n".join(sorted(set(shown))), wanted)


def contents(folder):
    """The files below a folder, and the folders without one."""
    paths = sorted(folder.rglob("*"))
    return "\n".join(str(path.relative_to(folder)) for path in paths if not path.is_dir() or not any(path.iterdir()))


def check_installation(suite, prefix):
    """Installs into an empty folder, again, and removes what was installed."""
    install, named = DIST / "install", {"RDBG": suite.program}
    record = prefix / "share" / "rdbg" / "installed"
    if not check_status(suite, "install", 0, install, prefix, **named):
        return
    place = "libexec/rdbg-unproved/rdbg" if suite.program.endswith("/rdbg-unproved/rdbg") else "libexec/rdbg"
    for source, path in {suite.program: place, "dist/start": "bin/rdbg", **INSTALLED}.items():
        is_same = (TOP / source).read_bytes() == (prefix / path).read_bytes()
        suite.case(f"the installed {path}", "" if is_same else f"it is not as {source}")
    first = record.read_bytes()
    check_status(suite, "install again", 0, install, prefix, **named)
    suite.same("the record of a second install", record.read_bytes(), first)
    check_status(suite, "remove", 0, install, "--remove", prefix)
    suite.case("after a removal nothing is left", contents(prefix) if prefix.exists() else "")
    check_status(suite, "a second removal", 1, install, "--remove", prefix)


def check_other_files(suite, prefix):
    """Files that dist/install did not install stay as they are."""
    install, named = DIST / "install", {"RDBG": suite.program}
    (prefix / "lib").mkdir(parents=True)
    (prefix / "share" / "man" / "man1").mkdir(parents=True)
    (prefix / "share" / "man" / "man1" / "other.1").write_text("other\n")
    before = contents(prefix)
    check_status(suite, "install next to other files", 0, install, prefix, **named)
    check_status(suite, "remove next to other files", 0, install, "--remove", prefix)
    suite.same("what a removal leaves next to other files", contents(prefix), before)
    (prefix / "bin").mkdir()
    (prefix / "bin" / "rdbg").write_text("other\n")
    before = contents(prefix)
    check_status(suite, "install over another file", 1, install, prefix, **named)
    suite.same("what is there after a refused install", contents(prefix), before)
    suite.same("the other file after a refused install", (prefix / "bin" / "rdbg").read_text(), "other\n")


def check_usage(suite, room):
    """Arguments that dist/install refuses, and the folder that it takes without one."""
    install, named = DIST / "install", {"RDBG": suite.program}
    check_status(suite, "install with an unknown option", 2, install, "--all", **named)
    check_status(suite, "install with two folders", 2, install, room / "one", room / "two", **named)
    check_status(suite, "install with an empty name", 2, install, "", **named)
    check_status(suite, "remove with two folders", 2, install, "--remove", room / "one", room / "two", **named)
    check_status(suite, "install without a folder", 0, install, HOME=str(room / "home"), **named)
    suite.case("the default folder", "" if (room / "home" / ".local" / "bin" / "rdbg").exists() else contents(room / "home") or "it is empty")


def check_launcher(suite, room):
    """Where RDBG names no program, dist/install asks the launcher, which builds the program first if there is none."""
    copy, prefix = room / "copy", room / "proved"
    shutil.copytree(DIST, copy / "dist")
    shutil.copytree(TOP / "examples", copy / "examples")
    shutil.copytree(TOP / "find", copy / "find")
    (copy / "rdbg").write_text(LAUNCHER.format(program=suite.program))
    (copy / "rdbg").chmod(0o755)
    for state, before in (("not proved", "--where"), ("proved", "--prove")):
        output_of(copy / "rdbg", before)
        status, output = output_of(copy / "dist" / "install", prefix, RDBG="")
        suite.case(f"install says that the program is {state}", "" if status == 0 and output.startswith(f"the program is {state}\n") else output)
        shown = output_of(prefix / "bin" / "rdbg", "--version")[1]
        suite.case(f"--version of a program that is {state}", "" if ("not proved" in shown) == (state == "not proved") else shown)
    suite.case("the proved program replaces the other", "" if not (prefix / "libexec/rdbg-unproved/rdbg").exists() else "both are installed")
    check_status(suite, "remove after both", 0, copy / "dist" / "install", "--remove", prefix)
    suite.case("after both nothing is left", contents(prefix) if prefix.exists() else "")


def check_archive(suite, room):
    """The archive, unpacked in an empty folder, answers with the tools of the system alone."""
    install, named, archive = DIST / "install", {"RDBG": suite.program}, room / "rdbg.tar.gz"
    for wrong in ([], ["rdbg.zip"], [archive, "more"]):
        check_status(suite, f"an archive with {len(wrong)} arguments", 2, install, "--archive", *wrong, **named)
    if not check_status(suite, "an archive", 0, install, "--archive", archive, **named):
        return
    first = archive.read_bytes()
    check_status(suite, "an archive again", 0, install, "--archive", archive, **named)
    suite.case("the archive has the same bytes again", "" if archive.read_bytes() == first else "it differs")
    place = room / "unpacked"
    place.mkdir()
    subprocess.run(["sha256sum", "--check", "--quiet", f"{archive.name}.sha256"], cwd=room, check=True)
    subprocess.run(["tar", "-xzf", archive], cwd=place, check=True)
    folder, = place.iterdir()
    suite.case("the archive has no record of an installation", "" if not (folder / "share/rdbg/installed").exists() else "it has one")
    session = "share/rdbg/examples/two_phase_commit.rdbg"
    ran = subprocess.run([folder / "bin/rdbg", "talk", folder / session], stdin=subprocess.DEVNULL, stdout=subprocess.PIPE, stderr=subprocess.STDOUT,
                         env={"PATH": SYSTEM_PATH}, cwd=place)
    suite.same("a session with the unpacked program", ran.stdout, suite.rdbg("talk", TOP / "examples/two_phase_commit.rdbg").output)
    suite.attempt("a session with the unpacked program at a terminal", unpacked_problem, folder / "bin/rdbg", folder / session)


def unpacked_problem(program, file):
    """Types a line of a session, which is kept."""
    terminal = Terminal(program, "talk", "--no-rlwrap", file)
    terminal.until("\n> ")
    terminal.type("quit\n")
    shown, status = terminal.ended()
    log, = terminal.logs()
    return "" if (status, log.read_text()) == (0, f"{file.read_text()}quit\n") else f"status {status}, and the terminal shows {shown!r}"


def is_reserved(suite, word):
    """Whether no variable can have this name."""
    return suite.rdbg("check", given=f"process the_only_one {{ var {word} = 0; when true : {word} := ({word} + 1); }}").status == 3


def check_reserved_words(suite):
    """The reserved words, found by trying many words as the name of a variable."""
    language = (TOP / "docs" / "language.md").read_text()
    vim = (DIST / "editors" / "vim" / "syntax" / "rdbg.vim").read_text()
    grammar = (DIST / "editors" / "textmate" / "rdbg.tmLanguage.json").read_text()
    tried = set(re.findall(r"\b[a-z][a-z0-9_]{0,31}\b", language + vim + grammar)) | set(OTHER_WORDS)
    reserved = [word for word in tried if is_reserved(suite, word)]
    patterns = json.loads(grammar)["repository"]["words"]["patterns"]
    check_words(suite, "the reserved words in docs/language.md", re.search(r"words are reserved: `([a-z ]+)`", language)[1].split(), reserved)
    check_words(suite, "the reserved words in the Vim file", " ".join(re.findall(r"^syntax keyword \w+ (.*)", vim, re.M)).split(), reserved)
    in_grammar = [word for pattern in patterns for word in re.search(r"\(([a-z|]+)\)", pattern["match"])[1].split("|")]
    check_words(suite, "the reserved words in the TextMate grammar", in_grammar, reserved)


def check_words_of_notation(suite):
    """The words of the notation, none of which is reserved."""
    words = re.search(r"`(const let [a-z_ ]+)`", (TOP / "docs" / "notation.md").read_text())[1].split()
    suite.same("reserved words of the notation", " ".join(word for word in words if is_reserved(suite, word)), "")
    vim = (DIST / "editors" / "vim" / "syntax" / "rdbg.vim").read_text()
    in_vim = re.findall(r"^syntax match rdbgNotation\w* .*\\<\\%\(([a-z_\\|]+)\\\)\\>", vim, re.M)
    check_words(suite, "the words of the notation in the Vim file", [word for words in in_vim for word in words.split("\\|")], words)
    grammar = json.loads((DIST / "editors" / "textmate" / "rdbg.tmLanguage.json").read_text())
    matches = " ".join(pattern["match"] for pattern in grammar["repository"]["notation"]["patterns"])
    in_grammar = [word for words in re.findall(r"\(([a-z_|]+)\)", matches) for word in words.split("|")]
    check_words(suite, "the words of the notation in the TextMate grammar", in_grammar, words)


def paragraph(text, title):
    """The lines after the one that begins with this title, up to a blank one."""
    lines = iter(text.splitlines())
    for line in lines:
        if line.startswith(title):
            break
    return list(iter(lambda: next(lines, ""), ""))


def first_words(lines):
    """The first words of the forms in the left column of the help."""
    columns = [re.split(r" {2,}", line.strip())[0] for line in lines if re.match(r"  [a-z]", line)]
    return [form.split()[0] for column in columns for form in column.split(",")]


def manual_section(title):
    """The source lines of a section of the man page."""
    return (DIST / "rdbg.1").read_text().partition(f"\n.Sh {title}\n")[2].partition("\n.Sh ")[0]


def check_command_lines(suite, help_text):
    """The commands, questions and directives, and the numbers of refusals."""
    shown = suite.rdbg("talk", given="process a { }\n%%\nhelp\n").output.decode()
    words = first_words(paragraph(help_text, "Command lines")) + re.findall(r"`([a-z]+)", shown)
    vim = (DIST / "editors" / "vim" / "syntax" / "rdbg.vim").read_text()
    in_vim = re.findall(r"^syntax match rdbg(?:Command|Question|OwnWord) .*@<=\\%\(([a-z\\|]+)\\\)", vim, re.M)
    check_words(suite, "the words of command lines in the Vim file", [word for words in in_vim for word in words.split("\\|")], words)
    grammar = json.loads((DIST / "editors" / "textmate" / "rdbg.tmLanguage.json").read_text())
    matches = " ".join(pattern["match"] for pattern in grammar["repository"]["commands"]["patterns"])
    in_grammar = [word for words in re.findall(r"\(([a-z|]+)\)", matches) for word in words.split("|")]
    check_words(suite, "the words of command lines in the TextMate grammar", in_grammar, words)
    in_manual = re.findall(r"^\.It Ic ([a-z]+)", manual_section("COMMAND LINES"), re.M)
    check_words(suite, "the words of command lines in the man page", in_manual, words)
    numbers = [line.split()[0] for line in paragraph(help_text, "Refusals")]
    check_words(suite, "the refusals in the man page", re.findall(r"^\.It (\d+)$", manual_section("REFUSALS"), re.M), numbers)


def complete_in_bash(*words):
    script = f'source {COMPLETIONS}/rdbg.bash; COMP_WORDS=("$@"); COMP_CWORD=$(($# - 1)); _rdbg 2>/dev/null; echo "${{COMPREPLY[*]}}"'
    return output_of("bash", "-c", script, "-", *words)[1].split()


def complete_in_fish(*words):
    script = f"source {COMPLETIONS}/rdbg.fish; complete -C '{' '.join(words)}'"
    return [line.split("\t")[0] for line in output_of("fish", "--no-config", "-c", script)[1].splitlines()]


def complete_in_zsh(word):
    """The options of a command in the file. (Without a terminal zsh completes nothing.)"""
    line = re.search(rf"^ +\S*\b{word}\b\S*\) _arguments .*", (COMPLETIONS / "_rdbg").read_text(), re.M)
    return OPTION.findall(line[0]) if line else []


def check_completions(suite, words):
    """The commands of the program and `find` in the man page and the completions, and the options of each."""
    words = [*words, "find"]
    check_words(suite, "the commands in the man page", re.findall(r"^\.Cm ([a-z]+)$", manual_section("SYNOPSIS"), re.M), words)
    check_words(suite, "the commands in bash", complete_in_bash("rdbg", ""), [*words, "--help", "--version"])
    check_words(suite, "the commands in zsh", re.findall(r"^    '([a-z]+):", (COMPLETIONS / "_rdbg").read_text(), re.M), words)
    check_words(suite, "the commands in fish", re.search(r"^set -l words (.*)", (COMPLETIONS / "rdbg.fish").read_text(), re.M)[1].split(), words)
    # (some options of `talk` are those of dist/start)
    options = {word: OPTION.findall(output_of(DIST / "start", word, "--help", RDBG_PROGRAM=suite.program)[1]) for word in words if word not in ("help", "find")}
    options["find"] = OPTION.findall(output_of(sys.executable, TOP / "find", "--help")[1])
    for word, wanted in options.items():
        check_words(suite, f"the options of {word} in bash", complete_in_bash("rdbg", word, "--"), wanted)
        check_words(suite, f"the options of {word} in zsh", complete_in_zsh(word), wanted)
    if suite.needs("fish", "the options of commands in fish"):
        for word, wanted in options.items():
            check_words(suite, f"the options of {word} in fish", complete_in_fish("rdbg", word, "--"), wanted)


def check_examples(suite, room):
    """The first two examples in the man page are a session and its replies. Each form of a picture that bash offers can be drawn."""
    session, replies = re.findall(r"^\.Bd -literal.*\n((?:.*\n)*?)\.Ed", manual_section("EXAMPLES"), re.M)[:2]
    (room / "session.rdbg").write_text(session)
    suite.same("the example in the man page", suite.rdbg("run", room / "session.rdbg").output.decode(), replies)
    for form in complete_in_bash("rdbg", "draw", "--as", "") or ["(none)"]:
        check_status(suite, f"the form {form} of a picture", 0, suite.program, "draw", "--as", form, room / "session.rdbg")


def check_highlighting(suite, room, name, session, table):
    """What Vim shows at each place of a table: a group, or `-` where it shows none."""
    places, wanted = re.findall(r"\d+:\d+", table), re.findall(r"\d+:\d+ \S+", table)
    (room / "shown.rdbg").write_text(session)
    listed = [[int(number) for number in place.split(":")] for place in places]
    script = VIM_SCRIPT.format(editors=DIST / "editors", file=room / "shown.rdbg", places=listed, groups=room / "groups")
    (room / "script.vim").write_text(script)
    output_of("vim", "-u", "NONE", "-i", "NONE", "-es", "-S", room / "script.vim")
    groups = (room / "groups").read_text().split("\n") if (room / "groups").exists() else []
    shown = [f"{place} {group or '-'}" for place, group in zip(places, groups)]
    suite.same(f"the highlighting of {name} in Vim", "\n".join(shown), "\n".join(wanted))


def run(suite):
    help_text = suite.rdbg("--help").output.decode()
    with temporary_folder() as room:
        check_installation(suite, room / "empty")
        check_other_files(suite, room / "other")
        check_usage(suite, room)
        check_launcher(suite, room)
        check_archive(suite, room)
        check_examples(suite, room)
        check_reserved_words(suite)
        check_words_of_notation(suite)
        check_command_lines(suite, help_text)
        check_completions(suite, first_words(paragraph(help_text, "Commands:")))
        if suite.needs("mandoc", "the man page"):
            check_status(suite, "the man page", 0, "mandoc", "-T", "lint", DIST / "rdbg.1")
        if suite.needs("zsh", "the syntax of the completion for zsh"):
            check_status(suite, "the syntax of the completion for zsh", 0, "zsh", "-n", COMPLETIONS / "_rdbg")
        if suite.needs("vim", "the highlighting in Vim"):
            check_highlighting(suite, room, "a plain session", PLAIN, PLAIN_PLACES)
            check_highlighting(suite, room, "the notation", NOTATION, NOTATION_PLACES)
