"""Which clauses refuse the first-order mutants of a crate. A clause refuses a mutant if the prover
doesn't find the clause about it, although it knows the clause about the definition.

crates/NAME/mutants.txt has a line for each definition: a sum of its mutants, their numbers after
the clause that refuses them, and last a sum of all that was read when they were tried. After `no
definition` are those that have no sense. By hand you write `same:` and why nothing can refuse the
others, or `held:` and what was seen to be refused with them: refused.edits has to show it of
another mutant of this definition. Those after `left` are still to be decided.

A definition whose line would stay the same is passed over. The last sum covers the logic, the
definition, the contracts with these clauses, and all definitions and types that they read, also of
the crates below. Bodies, proofs and other definitions may change. DGT_TRIED says whose lines count
(tried.py).
"""

import collections
import dataclasses
import functools
import hashlib
import os
import pathlib
import re
import subprocess
import tempfile

import altering
from altering import PROVED, ROOT, Failure, check_with, refused_in
from copies import Clause, Crate, function
from mutations import Mutant
from reads import Reads

NAME = "mutants.txt"
HEAD = "# Made by tests/mutants/mutants, but for what is after `same:` and `held:`.\n"
BY_HAND = ("same:", "held:", "left")
AT_ONCE = 100  # copies in one check
SENSELESS, TRIED = "no definition", "tried"
BROKEN = re.compile(r"(?m)^\./specs/Copies(\w+)\.antt:(\d+):\d+: error: "
                    r"(?!\d+ declarations? that)(.*)")
NEXT = "found the start of a new declaration"  # an error of the one before

Labels = dict[str, dict[int, str]]  # of each definition what refuses its mutants
Job = tuple[Mutant, Clause]


def sum_of(*parts: str) -> str:
    """A short sum of some texts."""
    return hashlib.sha256("\n".join(parts).encode()).hexdigest()[:8]


def by_definition(crate: Crate) -> dict[str, list[Mutant]]:
    """The mutants of each definition, by its name and a sum of them."""
    found: dict[str, list[Mutant]] = collections.defaultdict(list)
    for mutant in crate.mutants:
        found[mutant.definition.name].append(mutant)
    return {f"{name} {sum_of(''.join(it.new for it in mutants))}": mutants
            for name, mutants in found.items()}


def numbers_in(text: str) -> set[int]:
    """The numbers of a text such as `1-3,5`."""
    ends = [part.partition("-") for part in text.split(",")]
    return {it for first, _, last in ends for it in range(int(first), int(last or first) + 1)}


def ranges(numbers: list[int]) -> str:
    """A text such as `1-3,5` of these numbers."""
    firsts = [it for it in numbers if it - 1 not in numbers]
    lasts = [it for it in numbers if it + 1 not in numbers]
    return ",".join(f"{a}-{b}" if b > a else str(a) for a, b in zip(firsts, lasts))


def read(path: pathlib.Path, crate: Crate) -> Labels:
    """What the file says of the definitions whose mutants are still the same."""
    found: Labels = {name.split()[0]: {} for name in by_definition(crate)}
    lines = [line.split(" | ") for line in path.read_text().splitlines()]
    for first, *groups in lines:
        for label, _, numbers in (group.rpartition(" ") for group in groups):
            if first in by_definition(crate) and label != TRIED:
                found[first.split()[0]] |= dict.fromkeys(numbers_in(numbers), label)
    return found


@functools.cache
def logic() -> str:
    """The logic of the toolchain."""
    version = subprocess.run(["rt", "version"], check=True, capture_output=True, text=True).stdout
    return version.partition(" logic ")[2]


def lines_of(crate: Crate, known: Labels) -> dict[str, str]:
    """The line of each definition, if all its mutants were tried."""
    reads, lines = Reads(crate.below), {}
    functions = {it.path: (it.file, it.function) for it in crate.clauses}
    for first in by_definition(crate):
        name = first.split()[0]
        labels: dict[str, list[int]] = collections.defaultdict(list)
        for number, label in sorted(known[name].items()):
            labels[label].append(number)
        texts = [logic(), crate.found[name].text]
        used = {functions[path] for path in labels.keys() & functions.keys()}
        for one in (it for it in crate.clauses if (it.file, it.function) in used):
            keys = reads.reached(crate.root.name, f"src/{one.file}", one.head + one.text)
            texts += [one.head, one.text, *(reads.texts[key] for key in sorted(keys))]
        groups = [f" | {label} {ranges(numbers)}" for label, numbers in labels.items()]
        lines[name] = f"{first}{''.join(groups)} | {TRIED} {sum_of(*texts)}"
    return lines


def write(path: pathlib.Path, crate: Crate, known: Labels, left: set[str]) -> None:
    """Writes what is known. The mutants of these definitions aren't all tried."""
    lines = lines_of(crate, known)
    lines |= {name: lines[name].rpartition(" | ")[0] for name in left}
    path.write_text(HEAD + "".join(f"{line}\n" for line in lines.values()))


def untried(path: pathlib.Path, crate: Crate, known: Labels) -> set[str]:
    """The definitions whose lines don't count."""
    text = path.read_text()
    if whose := os.environ.get("DGT_TRIED"):
        words = ["git", "show", f"{whose}:{path.relative_to(ROOT)}"]
        text = subprocess.run(words, cwd=ROOT, capture_output=True, text=True, check=False).stdout
    numbers = {it.definition.name: it.number for it in crate.mutants}
    lines = {*text.splitlines()}
    return {name for name, line in lines_of(crate, known).items()
            if len(known[name]) < numbers[name] or line not in lines}


def try_jobs(crate: Crate, jobs: list[Job]) -> dict[Job, str]:
    """Of each mutant and clause whether it is `refused` or `proved`, or `no definition`. An error
    in a definition can hide others."""
    found: dict[Job, str] = {}
    while left := [job for job in jobs if job not in found]:
        files, before = crate.copies(left), len(found)
        new = [crate.root / it for it in files if "opies" in it]
        for path in new:
            path.write_text("")
        try:
            only = [it for path in new if path.suffix == ".rt" for it in ("--only", path.stem)]
            output = check_with(crate.root, files, *only)
        finally:
            for path in new:
                path.unlink()
        broken = {copy_at(files[f"specs/Copies{it[1]}.antt"], int(it[2]) - (NEXT in it[3]))
                  for it in BROKEN.finditer(output)}
        proved = {it.rpartition("::")[2] for it in PROVED.findall(output)}
        refused = {it.rpartition("::")[2] for it in refused_in(crate.root.name, output)}
        for mutant, clause in left:
            if mutant.name in broken:
                found[mutant, clause] = SENSELESS
            elif (name := function(mutant, clause)) in proved | refused:
                found[mutant, clause] = "proved" if name in proved else "refused"
        if len(found) == before:
            raise Failure(f"{crate.root.name}: no answer\n{output[-3000:]}")
    return found


def copy_at(text: str, line: int) -> str:
    """The mutant whose copy has this line."""
    before = "\n".join(text.splitlines()[:line])
    return re.findall(r"(?m)^\S.*?__([\w'-]+?__\d+)(?!\w)", before)[-1]


def words(name: str) -> set[str]:
    """The words of a name, but for the shortest."""
    return {it.lower() for it in re.findall(r"[A-Z]?[a-z]+", name) if len(it) > 3}


class Search:
    """What is left to try: of each mutant the clauses that read its definition."""

    def __init__(self, crate: Crate, known: Labels, names: set[str]) -> None:
        self.crate, self.known = crate, known
        self.distances = {clause: crate.reached(crate.named(clause.text, clause.file))
                          for clause in crate.clauses}
        self.seen: collections.Counter[tuple[str, Clause, str]] = collections.Counter()
        self.usable: dict[tuple[str, Clause], bool] = {}
        self.left: dict[Mutant, list[Clause]] = {}
        for mutant in (it for it in crate.mutants if it.definition.name in names):
            name = mutant.definition.name
            label = known[name].get(mutant.number, "")
            if label != SENSELESS and not label.startswith(BY_HAND):
                self.left[mutant] = [it for it in crate.clauses if name in self.distances[it]]

    def rank(self, mutant: Mutant, clause: Clause) -> tuple[bool, float]:
        """Less for a clause that is better to try first: one that is known, or that refused other
        mutants of the definition, then a plain one, then a near one."""
        name = mutant.definition.name
        refused, proved = (self.seen[name, clause, it] for it in ("refused", "proved"))
        likely = 0.1 * len(words(name) & words(clause.path)) - 0.05 * self.distances[clause][name]
        return (clause.path != self.known[name].get(mutant.number),
                -(1 + refused) / (2 + refused + proved) - 0.3 * clause.is_plain - likely)

    def try_some(self) -> bool:
        """Tries as many as one check does, and returns whether there were any."""
        some = sorted((it for it, clauses in self.left.items() if clauses),
                      key=lambda it: (-(len(self.left[it]) // 5), it.number))[:AT_ONCE]
        jobs = [(it, min(self.left[it], key=lambda each: self.rank(it, each))) for it in some]
        # Copies of a clause for the definition itself. If one is refused, the clause shows nothing.
        same = {key(*job): (dataclasses.replace(job[0], number=0, new=job[0].old), job[1])
                for job in jobs if key(*job) not in self.usable}
        answers = try_jobs(self.crate, [*same.values(), *jobs])
        self.usable |= {it: answers[job] == "proved" for it, job in same.items()}
        for mutant, clause in jobs:
            labels, answer = self.known[mutant.definition.name], answers[mutant, clause]
            labels.pop(mutant.number, None)
            self.left[mutant].remove(clause)
            self.seen[(*key(mutant, clause), answer)] += 1
            if answer == SENSELESS or answer == "refused" and self.usable[key(mutant, clause)]:
                labels[mutant.number] = clause.path if answer == "refused" else SENSELESS
                del self.left[mutant]
        for mutant, clauses in self.left.items():
            self.left[mutant] = [it for it in clauses if self.usable.get(key(mutant, it), True)]
        return bool(jobs)


def key(mutant: Mutant, clause: Clause) -> tuple[str, Clause]:
    """The definition and the clause of a job."""
    return mutant.definition.name, clause


def shown(root: pathlib.Path) -> set[tuple[str, str]]:
    """The definitions that refused.edits alters, and what is then refused."""
    found: set[tuple[str, str]] = set()
    for edit in altering.read(root, "specs"):
        for file, old, _ in edit.changes:
            text = (root / file).read_text().partition(old)[0] + old
            names = re.findall(r"(?m)^(?:pub )?(?:abbrev|record)(?: pub)? ([^\s:]+)", text)
            found |= {(names[-1], it) for it in edit.refused if names}
    return found


def try_crate(root: pathlib.Path, path: pathlib.Path, known: Labels, names: set[str]) -> None:
    """Tries the mutants of these definitions in a copy of a crate, and writes what refuses them.
    Fails if nothing refuses one."""
    with tempfile.TemporaryDirectory(prefix="mutants.") as place:
        crate = Crate(altering.copy_to(pathlib.Path(place), root.name))
        altering.check(crate.root)
        search = Search(crate, known, names)
        while search.try_some():
            write(path, crate, known, {it.definition.name for it in search.left})
        for mutant in search.left:
            known[mutant.definition.name].pop(mutant.number, None)
        write(path, crate, known, {it.definition.name for it in search.left})
    if texts := [f"{it.name} ({it.what}): {' '.join(it.new.split())}" for it in search.left]:
        raise Failure("\n".join([f"{root.name}: nothing refuses", *texts]))


def judge(root: pathlib.Path) -> str:
    """Fails if nothing refuses a mutant of a crate. Returns a line about them."""
    path, crate = root / NAME, Crate(root)
    known = read(path, crate)
    if names := untried(path, crate, known):
        try_crate(root, path, known, names)
    held = {(name, label[6:]) for name, labels in known.items() for label in labels.values()
            if label.startswith("held:")}
    if lacking := held - shown(root):
        raise Failure(f"{root.name}: refused.edits has no mutant of {sorted(lacking)}")
    labels = [it.partition(":")[0] for one in known.values() for it in one.values()]
    made = len(labels) - labels.count(SENSELESS)
    same, proved, left = (labels.count(it.rstrip(":")) for it in BY_HAND)
    refused = made - same - proved - left
    return f"{made} first-order mutants of {len(known)} definitions, {refused} refused, " \
           f"{proved} held, {same} the same, {left} left; of {len(names)} tried now"
