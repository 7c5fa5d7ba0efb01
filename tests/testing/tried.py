"""What tests/mutants/wrong_bodies and tests/mutants/definitions have found: tests/mutants/tried.txt
has a line for each of them and each crate, with a sum of all that the result depends on. While the
sum is the same, a test passes over the crate. As a program it prints which lines do not hold any
more.

A sum covers the toolchain (what names it, its prover and rt), the check, altering.py and this
file. It covers the edits, and the lines of crates.txt and all sources, definitions and proofs of
the crate and of those below. A line is only as good as who wrote it. DGT_TRIED says whose lines
count: those of `tests/mutants/tried.txt` (if it is not set), of a commit (its name), or of
`nobody`.
"""

import fcntl
import functools
import hashlib
import os
import pathlib
import signal
import subprocess
import sys
from collections.abc import Iterable, Iterator

sys.dont_write_bytecode = True
from altering import ROOT, Failure, crates_with, needed, read

NAME = "tests/mutants/tried.txt"
FILE = ROOT / NAME
EDITS = {"wrong_bodies": "src", "definitions": "specs"}  # what their edits change
PARTS = ("src", "specs", "proofs")
HEAD = """\
# What the prover refused, and a sum of all that this depends on (tests/testing/tried.py). The
# checks write these lines: do not edit them.
"""


def sum_of(path: pathlib.Path) -> str:
    """The checksum of a file."""
    return hashlib.sha256(path.read_bytes()).hexdigest()


@functools.cache
def toolchain() -> tuple[str, ...]:
    """What names the toolchain, and the checksums of its prover and of rt."""
    page = subprocess.run(["rt", "doc"], check=True, stdin=subprocess.DEVNULL, capture_output=True)
    kit = pathlib.Path(os.fsdecode(page.stdout.strip())).parent
    files = ("KIT-ID", "WHAT", "bin/rattle", "bin/rt", "bin/rtlib.py")
    return tuple(f"{file} {sum_of(kit / file)}" for file in files)


@functools.cache
def sources(crate: str) -> tuple[str, ...]:
    """The checksums of all that a proof of a crate reads of it. A link or a pipe has none."""
    found = []
    for part in PARTS:
        for path in sorted((ROOT / "crates" / crate / part).rglob("*")):
            if path.is_symlink() or not (path.is_file() or path.is_dir()):
                raise Failure(f"{path.relative_to(ROOT)} is no plain file or folder")
            if path.is_file():
                found.append(f"{path.relative_to(ROOT)} {sum_of(path)}")
    return tuple(found)


def inputs(check: str, crate: str) -> Iterator[str]:
    """The lines that a sum covers."""
    yield from toolchain()
    for name in (f"mutants/{check}", "testing/altering.py", "testing/tried.py"):
        yield f"tests/{name} {sum_of(ROOT / 'tests' / name)}"
    for edit in read(ROOT / "crates" / crate, EDITS[check]):
        yield f"{edit.name} {sorted(edit.refused)} {sorted(edit.also)} {edit.changes}"
    for name, line in needed([crate]).items():
        yield line
        yield from sources(name)


def line_of(check: str, crate: str) -> str:
    """The line that stands for a crate as it is now."""
    text = "".join(f"{line}\n" for line in inputs(check, crate))
    return f"{check} {crate} {hashlib.sha256(text.encode()).hexdigest()}"


def trusted() -> set[str]:
    """The lines that count."""
    whose = os.environ.get("DGT_TRIED", NAME)
    if whose == "nobody":
        return set()
    if whose == NAME:
        return set(FILE.read_text().splitlines()) if FILE.exists() else set()
    ran = subprocess.run(
        ["git", "show", f"{whose}:{NAME}"],
        cwd=ROOT, stdin=subprocess.DEVNULL, capture_output=True, text=True, check=False,
    )
    return set(ran.stdout.splitlines()) if ran.returncode == 0 else set()


def left(check: str, crates: Iterable[str]) -> dict[str, str]:
    """The crates that have to be tried, with the line that each earns if nothing changes meanwhile.
    Prints those that are passed over."""
    lines = {crate: line_of(check, crate) for crate in crates}
    known = trusted()
    if passed := [crate for crate, line in lines.items() if line in known]:
        names = ", ".join(passed)
        print(f"tests/mutants/{check}: unchanged since they passed: {names}", flush=True)
    return {crate: line for crate, line in lines.items() if line not in known}


def note(check: str, crate: str, line: str) -> None:
    """Writes the line of a crate that passed, unless something has changed since it began."""
    sources.cache_clear()
    if line_of(check, crate) != line:
        print(f"tests/mutants/{check}: {crate} changed meanwhile, so it is not noted", flush=True)
        return
    with open(ROOT / "tests/testing/tried.py", "rb") as lock:
        fcntl.flock(lock, fcntl.LOCK_EX)
        old = FILE.read_text().splitlines() if FILE.exists() else []
        others = [it for it in old if it and it[0] != "#" and it.split()[:2] != [check, crate]]
        new = FILE.with_suffix(".new")
        new.write_text(HEAD + "".join(f"{it}\n" for it in sorted([*others, line])))
        new.replace(FILE)


def main() -> None:
    """Prints the lines that do not hold any more, or are missing."""
    signal.signal(signal.SIGPIPE, signal.SIG_DFL)
    known = trusted()
    stale = 0
    for check, part in EDITS.items():
        for crate in crates_with(part):
            if line_of(check, crate) not in known:
                print(f"tests/mutants/{check} {crate}")
                stale += 1
    sys.exit(bool(stale))


if __name__ == "__main__":
    main()
