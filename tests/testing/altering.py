"""The common parts of tests/mutants/wrong_bodies and tests/mutants/definitions: edits of a crate
that the prover has to refuse, copies of crates to try them in, and the output of rt check. As a
program it makes such a copy: `altering.py CRATE FOLDER`."""

import contextlib
import dataclasses
import os
import pathlib
import re
import shutil
import subprocess
import sys
from collections.abc import Iterable

ROOT = pathlib.Path(__file__).resolve().parents[2]
PROVED = re.compile(r"(?m)^(?:fn|impl) (\S+): proved")
# The output of rt check for a function with a refused body. For one that only calls such a
# function it prints something else.
REFUSED = (
    re.compile(r"(?m)^(?:fn|impl) (\S+): not proved$"),
    re.compile(r"(?m)^fn (\S+): not proved; the borrow checker does not cover this function yet: "),
    re.compile(r"(?m)^(?:fn|impl) (\S+): no proof: expected answers in \S+; "),
)
FILE = "refused.edits"
# An entry: what the prover refuses, what it refuses too, and the change, with what goes and comes.
NAME = r"(?:[^\W_]|[_ '+·-]|::)+"
NAMES = rf"{NAME}(?:, {NAME})*"
ENTRY = re.compile(rf"({NAMES})(?: \(also ({NAMES})\))?:(?: (.*))?")
CHANGED = re.compile(r"(?s)\[-(.*?)-\]|\{\+(.*?)\+\}")
REFUSED_ANSWERS = re.compile(r"(?m)^\./proofs/(\S+)/Answers\.antt:\d+:\d+: error:")


class Failure(Exception):
    """Why a check fails."""


@dataclasses.dataclass(frozen=True)
class Edit:
    """An edit of a crate, what the prover then refuses, and what it refuses also, if that is
    checked."""

    name: str
    changes: tuple[tuple[str, str, str], ...]
    refused: frozenset[str]
    also: frozenset[str]


def parse(name: str, file: str, lines: list[str]) -> Edit:
    """Reads an entry: `NAMES (also NAMES): CHANGE`, where the names may take more lines and the
    change lines with 4 spaces before them, and then `and FILE:` before each further change. What
    goes stands between `[-` and `-]`, and what comes between `{+` and `+}`."""
    start = next((at for at, line in enumerate(lines) if line.startswith("    ")), len(lines))
    head = ENTRY.fullmatch(" ".join(lines[:start]))
    if not head:
        raise Failure(f"{name}: no line `NAMES: CHANGE`")
    texts: list[tuple[str, list[str]]] = [(file, [head[3]] if head[3] else [])]
    for line in lines[start:]:
        if other := re.fullmatch(r"and(?: (\S+))?:", line):
            texts.append((other[1] or texts[-1][0], []))
        elif line and not line.startswith("    "):
            raise Failure(f"{name}: a line of no kind: {line}")
        else:
            texts[-1][1].append(line[4:])
    changes = []
    for path, parts in texts:
        text = "\n".join(parts)
        old, new = CHANGED.sub(r"\1", text), CHANGED.sub(r"\2", text)
        if old == new:
            raise Failure(f"{name}: it changes nothing: {text}")
        changes.append((path, old, new))
    refused, also = (frozenset(it.split(", ")) if it else frozenset() for it in head.groups()[:2])
    return Edit(name, tuple(changes), refused, also)


def part_of(edit: Edit) -> str:
    """`src` for a wrong body, `specs` for an altered definition or a number that laws state."""
    is_clause = any(" · " in name for name in edit.refused)
    return "specs" if is_clause else edit.changes[0][0].partition("/")[0]


def read(crate: pathlib.Path, part: str = "", edits_file: str = FILE) -> list[Edit]:
    """The edits of a file of a crate, or those of this part (`part_of`). Each begins with a line
    `# SENTENCE`, and those of a source stand after `== FILE`."""
    edits: list[Edit] = []
    lines: list[str] = []
    name = file = ""
    for line in [*(crate / edits_file).read_text().splitlines(), "# "]:
        if line.startswith(("# ", "== ")):
            if name:
                edits.append(parse(name, file, lines))
            elif lines:
                raise Failure(f"{crate.name}: {lines[0]}")
            name, lines = line.removeprefix("# ") if line[0] == "#" else "", []
            file = line.removeprefix("== ") if line[0] == "=" else file
        else:
            lines.append(line)
    return [edit for edit in edits if part in ("", part_of(edit))]


def crates_with(part: str) -> dict[str, int]:
    """The crates that have edits of this part, and how many."""
    paths = sorted(ROOT.glob(f"crates/*/{FILE}"))
    counts = {it.parent.name: len(read(it.parent, part)) for it in paths}
    return {name: count for name, count in counts.items() if count}


def apply(edit: Edit, crate: pathlib.Path, sources: dict[str, str]) -> bool:
    """Applies an edit to these sources, or changes nothing if its lines are not there."""
    changed: dict[str, str] = {}
    for file, old, new in edit.changes:
        text = changed.get(file) or sources.get(file) or (crate / file).read_text()
        if text.count(old) != 1:
            return False
        changed[file] = text.replace(old, new)
    sources.update(changed)
    return True


def functions_of(names: Iterable[str]) -> set[str]:
    """The functions of these names, which may have a clause: `function · clause`."""
    return {name.partition(" · ")[0] for name in names}


def disturbs(one: Edit, other: Edit) -> bool:
    """Whether one check can't try both."""
    return bool(
        one.refused & other.refused
        or functions_of(one.also) & functions_of(other.refused)
        or functions_of(other.also) & functions_of(one.refused)
    )


def choose(edits: list[Edit], crate: pathlib.Path) -> tuple[list[Edit], dict[str, str]]:
    """The edits that one check can try, each refused in something else, and the sources with
    them."""
    chosen: list[Edit] = []
    sources: dict[str, str] = {}
    for edit in edits:
        if not any(disturbs(edit, other) for other in chosen) and apply(edit, crate, sources):
            chosen.append(edit)
    if not chosen:
        raise Failure(f"{crate.name}: {edits[0].name} cannot be applied")
    return chosen, sources


def check(crate: pathlib.Path, *words: str) -> str:
    """What rt check prints of a crate. It has one job, since each job reads the libraries first."""
    answer = subprocess.run(
        ["nice", "-n", "19", "rt", "check", "--jobs", "1", *words],
        cwd=crate,
        stdin=subprocess.DEVNULL,
        capture_output=True,
        text=True,
        check=False,
    )
    return answer.stdout + answer.stderr


def link_or_copy(file: str, to: str) -> None:
    """Copies a file. Libraries and files of proofs are never changed, only replaced, so a link will
    do."""
    if file.endswith(".oantt") or "/out/rlib/" in file:
        with contextlib.suppress(OSError):
            os.link(file, to)
            return
    shutil.copy2(file, to)


def check_with(crate: pathlib.Path, sources: dict[str, str], *words: str) -> str:
    """What rt check prints of a crate that has these sources. Its own come back afterwards, and its
    proofs, so that the next check doesn't make them again."""
    own = {file: (crate / file).read_text() for file in sources}
    proofs, proved = crate / "out" / "incremental", crate / "out" / "proved"
    shutil.copytree(proofs, proved, copy_function=link_or_copy)
    try:
        for file, text in sources.items():
            (crate / file).write_text(text)
        return check(crate, *words)
    finally:
        for file, text in own.items():
            (crate / file).write_text(text)
        shutil.rmtree(proofs)
        proved.rename(proofs)


def refused_in(crate: str, output: str) -> set[str]:
    """The functions with refused bodies."""
    found = {name for line in REFUSED for name in line.findall(output)}
    found |= {f"{crate}::{path.replace('/', '::')}" for path in REFUSED_ANSWERS.findall(output)}
    return {name.removeprefix(f"{crate}::") for name in found}


def needed(names: list[str]) -> dict[str, str]:
    """The lines of crates.txt for these crates and for all that they use, lowest first."""
    texts = (ROOT / "crates.txt").read_text().splitlines()
    lines = {re.split("[ :]", text)[0]: text for text in texts if not text.startswith("#")}
    wanted = set(names)
    for name in reversed(lines):  # a crate comes after those that it uses
        if name in wanted:
            wanted.update(lines[name].partition(":")[2].split())
    return {name: line for name, line in lines.items() if name in wanted}


def copy_to(folder: pathlib.Path, name: str) -> pathlib.Path:
    """Copies a crate and those below, with their proofs, and returns where it is then. An empty
    .git makes the copy a repository of its own."""
    (folder / ".git").mkdir()
    lines = needed([name])
    (folder / "crates.txt").write_text("".join(f"{line}\n" for line in lines.values()))
    for crate in lines:
        place = folder / "crates" / crate
        shutil.copytree(ROOT / "crates" / crate, place, copy_function=link_or_copy)
    return folder / "crates" / name


def at_once() -> int:
    """How many crates the machine can check at once."""
    return int(subprocess.check_output([ROOT / "tools" / "at_once"]))


if __name__ == "__main__":
    copy_to(pathlib.Path(sys.argv[2]), sys.argv[1])
