"""The launcher `./rdbg`, over a toolchain that proves nothing: before, during and after the proof, at a terminal, interrupted."""
import os
import pty
import shutil
import signal
import subprocess
import sys
import time
from pathlib import Path

from harness import TOP, temporary_folder

CRATES = "low:\nhigh: low\nrdbg: high low\n"
BUILDING = "rdbg: building rdbg without a proof, once; this takes one to three minutes\nrdbg: built in "
NOT_PROVED = "rdbg: this program is not proved yet; ./rdbg --prove proves it\n"
FIRST, LAST = "rdbg: what you type is kept in LOG\n", "rdbg: what you typed is in LOG\n"  # of a session at a terminal
NOBODY = 65534  # the user and the group that own nothing
SYSTEM_PATH = "/usr/bin:/bin"


class Repository:
    """A repository of three crates with the launcher, and a command `rt` that proves nothing."""

    def __init__(self, room):
        self.room, self.top, self.kept, self.bin = room, room / "repository", room / "kept", room / "bin"
        self.path = os.environ["PATH"]  # after the command `rt`
        self.program, self.proved = self.top / "out/rdbg-unproved/rdbg", self.top / "crates/rdbg/out/rdbg"
        for folder in (self.top / "dist", self.kept, self.bin):
            folder.mkdir(parents=True)
        for file in ("rdbg", "dist/toolchain.py", "dist/build.py", "dist/prove.py", "dist/start", "dist/keep.py", "HANDLES"):
            shutil.copy(TOP / file, self.top / file)
        (self.top / "crates.txt").write_text(CRATES)
        for name in ("low", "high", "rdbg"):
            source = self.top / "crates" / name / "src/lib.rt"
            source.parent.mkdir(parents=True)
            source.write_text(f"// {name}\n")
        shutil.copy(Path(__file__).with_name("fake_rt.py"), self.bin / "rt")

    def environment(self, **variables):
        kept = {"FAKE_KEPT": str(self.kept), "XDG_CACHE_HOME": str(self.room / "cache"), "XDG_STATE_HOME": str(self.room / "state")}
        return {**os.environ, "PATH": f"{self.bin}:{self.path}", **kept, **variables}

    def start(self, *words, given=subprocess.DEVNULL, begin=lambda: None, **variables):
        def prepare():
            # A shell that runs the tests in the background has them ignore interrupts.
            signal.signal(signal.SIGINT, signal.SIG_DFL)
            begin()

        return subprocess.Popen([self.top / "rdbg", *words], stdin=given, stdout=subprocess.PIPE, stderr=subprocess.PIPE,
                                env=self.environment(**variables), cwd=self.top.parent, text=True, preexec_fn=prepare)

    def rdbg(self, *words, given="", **options):
        """The status of a run, its output and its errors."""
        started = self.start(*words, given=subprocess.PIPE, **options)
        output, errors = started.communicate(given, timeout=60)
        return started.returncode, output, errors

    def at_terminal(self, *words):
        """The status of a run at a terminal, where `typed` and the end of input are typed, and what the terminal shows."""
        master, terminal = pty.openpty()
        started = subprocess.Popen([self.top / "rdbg", *words], stdin=terminal, stdout=terminal, stderr=terminal, env=self.environment(),
                                   cwd=self.top.parent)
        os.close(terminal)
        os.write(master, b"typed\n\x04")
        shown = b""
        while True:
            try:
                more = os.read(master, 4096)
            except OSError:  # (so a terminal ends)
                more = b""
            if not more:
                break
            shown += more
        os.close(master)
        return started.wait(60), shown.decode().replace("\r\n", "\n")

    def session(self):
        """The status of a session at a terminal, what the terminal shows, and what is kept of it."""
        status, shown = self.at_terminal("talk")
        log, = (self.room / "state/rdbg").iterdir()
        kept = log.read_text()
        log.unlink()
        return status, shown.replace(str(log), "LOG"), kept

    def builds(self):
        """How often a program was built without a proof."""
        tries = self.kept / "tries"
        return len(tries.read_text().splitlines()) if tries.exists() else 0

    def edit(self, later=5):
        """Makes a source newer than each program, by so many seconds."""
        now = time.time() + later
        os.utime(self.top / "crates/low/src/lib.rt", (now, now))


def wait_until(is_so):
    deadline = time.monotonic() + 60
    while not is_so() and time.monotonic() < deadline:
        time.sleep(0.05)


def check_answer(suite, name, repository, builds, begin_of_errors="", words=("talk", "x"), state="unproved", **options):
    """A test of a call that is answered by the program in this state, and of how often it was built by then."""
    status, output, errors = repository.rdbg(*words, given="a line\n", **options)
    wanted = 3, f"{state}: {' '.join(words)}\na line\n"
    is_so = (status, output) == wanted and errors.startswith(begin_of_errors) and bool(errors) == bool(begin_of_errors) and repository.builds() == builds
    suite.case(name, "" if is_so else f"status {status}, {repository.builds()} builds, output {output!r}, errors {errors!r}")


def try_unproved(suite, repository):
    suite.same("no program: --where", repr(repository.rdbg("--where")), repr((2, "", "")))
    status, _, errors = repository.rdbg("talk", FAKE_FAULT="try")
    suite.case("sources that do not compile", "" if status == 2 and "mismatched types" in errors and "logic 0" in errors else f"status {status}\n{errors}")
    status, _, errors = repository.rdbg("talk", FAKE_FLEETING="1")
    suite.case("a program that nobody can keep", "" if status == 2 and "removed it at once" in errors else f"status {status}\n{errors}")
    builds = repository.builds()
    check_answer(suite, "the first call builds the program, and answers", repository, builds + 1, BUILDING)
    check_answer(suite, "the second call answers at once", repository, builds + 1)
    suite.same("--where prints the program", repr(repository.rdbg("--where")), repr((0, f"{repository.program}\n", "")))
    suite.same("--version says that it is not proved", repository.rdbg("--version")[1], "rdbg 1.0, not proved: ./rdbg --prove proves it\n")
    suite.case("--help has the words of the launcher, too", "" if "\n  --prove " in repository.rdbg("--help")[1] else repository.rdbg("--help")[1])
    suite.same("a session at a terminal", repr(repository.session()), repr((3, f"typed\n{NOT_PROVED}{FIRST}unproved: talk\ntyped\n{LAST}", "typed\n")))
    status, _, errors = repository.rdbg("abort")
    suite.case("a failed check is explained", "" if status == 134 and "please report it" in errors else f"status {status}\n{errors}")
    left = [file.name for file in repository.program.parent.iterdir()]
    suite.same("the folder of the program has no other files", "\n".join(sorted(left)), "kit\nlock\nrdbg")


def try_again(suite, repository):
    check_answer(suite, "a first call", repository, 1, BUILDING)
    repository.edit()
    suite.same("after an edit: --where", repr(repository.rdbg("--where")), repr((2, "", "")))
    repository.edit(-5)
    check_answer(suite, "a source that is older again", repository, 1)
    later = time.time() - 100
    os.utime(repository.program, (later, later))
    check_answer(suite, "a changed source", repository, 2, BUILDING)
    check_answer(suite, "another kit", repository, 3, BUILDING, FAKE_VERSION="other-kit logic 1")
    check_answer(suite, "another kit, again", repository, 3, FAKE_VERSION="other-kit logic 1")
    check_answer(suite, "no kit, and a program that is kept", repository, 3, PATH=tools(repository))
    shutil.rmtree(repository.program.parent)
    ran = repository.rdbg("talk", PATH=tools(repository))
    suite.case("no kit, and no program", "" if ran[0] == 2 and "the command `rt` is missing" in ran[2] else repr(ran))


def tools(repository):
    """A PATH that has only what the launcher needs."""
    folder = repository.room / "tools"
    if not folder.exists():
        folder.mkdir()
        for tool in ("bash", "sh", "awk", "find", "dirname", "cat"):
            (folder / tool).symlink_to(shutil.which(tool))
        (folder / "python3").symlink_to(sys.executable)
    return str(folder)


def try_interrupting_a_build(suite, repository):
    started = repository.start("talk", FAKE_SLOW="try")
    wait_until(repository.builds)
    started.send_signal(signal.SIGINT)
    _, errors = started.communicate(timeout=60)
    is_clean = not running_below(repository) and not list(repository.program.parent.glob("room-*"))
    suite.case("an interrupt ends a build, and what it has started", "" if started.returncode == 130 and is_clean else f"status {started.returncode}\n{errors}")
    (repository.program.parent / "room-left").mkdir()
    check_answer(suite, "the call after an interrupted build", repository, 2, BUILDING)
    suite.case("what a build that was killed has left is removed", "" if not list(repository.program.parent.glob("room-*")) else "it is still there")


def try_two_at_once(suite, repository):
    both = [repository.start("talk", FAKE_SLOW="try") for _ in range(2)]
    wait_until(repository.builds)
    (repository.kept / "go").touch()
    ended = [started.communicate(timeout=60)[0] for started in both]
    suite.same("two calls at once build once, and both answer", repr((ended, repository.builds())), repr((2 * ["unproved: talk\n"], 1)))


def try_reading_only(suite, repository):
    """A checkout in which nothing can be written."""
    if not os.access("/usr/bin/python3", os.X_OK):
        return suite.skip("a checkout that cannot be written", "there is no /usr/bin/python3")
    repository.path = SYSTEM_PATH
    for folder in (repository.room, repository.top, repository.bin):
        folder.chmod(0o755)
    for folder in (repository.kept, repository.room / "cache"):
        folder.mkdir(exist_ok=True)
        folder.chmod(0o777)
    repository.top.chmod(0o555)

    def begin():
        if os.getuid() == 0:
            os.setgid(NOBODY)
            os.setuid(NOBODY)

    check_answer(suite, "a checkout that cannot be written", repository, 1, BUILDING, begin=begin)
    check_answer(suite, "a checkout that cannot be written, again", repository, 1, begin=begin)
    check_answer(suite, "a checkout that cannot be written, another kit", repository, 2, BUILDING, begin=begin, FAKE_VERSION="other-kit logic 1")
    for edit in range(4):
        (repository.top / "crates/low/src/lib.rt").write_text(f"// {edit}\n")
        check_answer(suite, f"a checkout that cannot be written, edit {edit}", repository, 3 + edit, BUILDING, begin=begin)
    programs = list((repository.room / "cache/rdbg").glob("*/rdbg-unproved/rdbg"))
    suite.case("the cache keeps three programs", "" if len(programs) == 3 else f"it has {len(programs)}")
    suite.case("nothing is written in the checkout", "" if not (repository.top / "out").exists() else "it has a folder out/")


def try_proving(suite, repository):
    status, output, errors = repository.rdbg("--prove", FAKE_FAULT="high")
    problem = "" if status == 2 and "`high::wrong` is not proved" in errors and "high::good" not in errors else f"status {status}\n{errors}"
    suite.case("--prove with a crate that is not proved", problem + output)
    suite.case("the toolchain of another logic is named", "" if "fake-kit logic 0" in errors else errors)
    proving = repository.start("--prove", FAKE_SLOW="high")
    check_answer(suite, "a call while --prove runs", repository, 1, BUILDING)
    (repository.kept / "go").touch()
    _, errors = proving.communicate(timeout=60)
    problem = "" if proving.returncode == 0 and "low: an earlier run has proved it" in errors and "high: 7 functions are proved" in errors else f"status {status}\n{errors}"
    suite.case("--prove continues where an earlier run has stopped", problem + output)
    check_answer(suite, "the proved program runs", repository, 1, state="proved")
    suite.same("the proved program runs at a terminal", repr(repository.session()), repr((3, f"typed\n{FIRST}proved: talk\ntyped\n{LAST}", "typed\n")))
    suite.same("--version of the proved program", repository.rdbg("--version")[1], "rdbg 1.0\n")
    suite.same("--where prints the proved program", repr(repository.rdbg("--where")), repr((0, f"{repository.proved}\n", "")))
    status, _, errors = repository.rdbg("--prove")
    suite.case("--prove does nothing twice", "" if status == 0 and "proved already" in errors else f"status {status}\n{errors}")
    repository.edit(later=-1)
    os.utime(repository.proved, (time.time() - 100,) * 2)
    check_answer(suite, "an edited source makes the proved program stale", repository, 2, BUILDING)


def try_whole(suite, repository):
    status, _, errors = repository.rdbg("--prove", FAKE_FORGETS="1")
    suite.case("a toolchain that keeps no proofs proves all in one run", "" if status == 0 and "3 of 3 crates" in errors else f"status {status}\n{errors}")


def try_interrupting_a_proof(suite, repository):
    started = repository.start("--prove", FAKE_SLOW="high")
    wait_until((repository.kept / "low").exists)
    started.send_signal(signal.SIGINT)
    output, errors = started.communicate(timeout=60)
    suite.case("an interrupt ends --prove, and what it has started", "" if started.returncode == 130 and not running_below(repository) else f"status {started.returncode}\n{errors}")
    suite.case("what was proved before the interrupt is kept", "" if "low: an earlier run has proved it" in repository.rdbg("--prove")[2] else errors)


def running_below(repository):
    """The processes that still run the command `rt` of this repository."""
    own = str(repository.bin / "rt").encode()
    return [file for file in Path("/proc").glob("[0-9]*/cmdline") if own in read(file)]


def read(file):
    try:
        return file.read_bytes()
    except OSError:  # (the process has ended)
        return b""


def run(suite):
    for it in (try_unproved, try_again, try_interrupting_a_build, try_two_at_once, try_reading_only, try_proving, try_whole, try_interrupting_a_proof):
        with temporary_folder() as room:
            it(suite, Repository(room))
