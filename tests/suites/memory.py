"""Out of memory: the program of crates/test_memory prints the same whichever of its allocations fails.

The suite runs the proved program once for each allocation that it fails: 100 spread over all, or every one with --all.
"""
import itertools
import os
import re
import shutil
import subprocess
from pathlib import Path

from harness import TOP, difference, temporary_folder

CRATE = TOP / "crates/test_memory"
ALLOCATOR = Path(__file__).with_name("failing_allocator.c")
SPREAD = 100  # how many allocations fail without --all
SECONDS = 120  # for one run


def is_current(program):
    """Whether the program is built, and no source of any crate is newer."""
    parts = [part for name in ("src", "specs", "proofs") for part in TOP.glob(f"crates/*/{name}")]
    sources = itertools.chain(parts, *(part.rglob("*") for part in parts))
    return os.access(program, os.X_OK) and all(source.stat().st_mtime <= program.stat().st_mtime for source in sources)


def build(suite, program):
    """Proves and builds the program if it is not current. Returns whether it is then."""
    if is_current(program):
        return True
    # Its run ends with status 0 if no allocation fails, so any other status is one of `rt`.
    made = subprocess.run(["rt", "run"], cwd=CRATE, stdin=subprocess.DEVNULL, stdout=subprocess.DEVNULL, stderr=subprocess.PIPE)
    errors = made.stderr.decode(errors="backslashreplace")
    problem = f"`rt run` in crates/test_memory ended with status {made.returncode}\n{errors}" if made.returncode != 0 else ""
    return suite.case("the program of crates/test_memory is proved and built", problem)


def compile_allocator(room):
    """Compiles the allocator with the clang of the toolchain that has `rt`."""
    clang, library = Path(shutil.which("rt")).resolve().parents[1] / "toolchain/bin/clang", room / "failing_allocator.so"
    subprocess.run([clang, "-O2", "-shared", "-fPIC", "-nostdlib", "-fuse-ld=lld", "-o", library, ALLOCATOR], check=True)
    return library


def plain(output):
    """The output with plain names, and the number of the command `go`: a reply of a model has these if memory runs out for its own names."""
    return re.sub(rb"^(ok p_\d) go\b", rb"\1 0", output.replace(b"[", b"_").replace(b"]", b""), flags=re.MULTILINE)


def run_failing(program, library, place):
    """Runs the program, whose allocation at this place fails (none at the place 0). Returns what is wrong, and how many were reported."""
    with open(library.with_name("report"), "w+b") as report:
        surroundings = {**os.environ, "LD_PRELOAD": str(library), "FAIL_AT": str(place), "FAIL_REPORT": str(report.fileno())}
        try:
            ran = subprocess.run([program], stdin=subprocess.DEVNULL, stdout=subprocess.PIPE, stderr=subprocess.PIPE, env=surroundings,
                                 pass_fds=[report.fileno()], timeout=SECONDS)
        except subprocess.TimeoutExpired:
            return f"it did not end in {SECONDS} seconds", 0
        reported = os.fstat(report.fileno()).st_size
    problem = difference(plain(ran.stdout), plain((CRATE / "stdout").read_bytes()))
    if problem or ran.returncode != 0:
        problem = f"status {ran.returncode}\n{problem}\n{ran.stderr.decode(errors='backslashreplace')}"
    return problem, reported


def run(suite):
    program = CRATE / "out" / CRATE.name
    if not suite.needs("rt", "a program whose allocations fail") or not build(suite, program):
        return
    with temporary_folder() as room:
        library = compile_allocator(room)
        problem, total = run_failing(program, library, 0)
        if not suite.case("no allocation fails", problem or ("" if total else "the program made no allocation that was counted")):
            return
        places = itertools.count(1) if suite.options.all else sorted({-(-number * total // SPREAD) for number in range(1, SPREAD + 1)})
        for place in places:
            problem, failed = run_failing(program, library, place)
            # The threads of a run may make some more allocations, or some fewer, than those of the run that was counted.
            if suite.options.all and place > total and not failed:
                break
            suite.case(f"allocation {place} of {total} fails", problem)
