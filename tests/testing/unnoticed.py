"""As a program it tries all first-order mutants of the bodies of dgt_game (body_mutants.py) as
plain Rust. It compares those that no row of games.txt notices with crates/dgt_game/unnoticed.txt,
which says of each function how many of them the prover refuses, and lists the others.
It takes half a second of one core for each mutant, and no test runs it."""

import argparse
import collections
import concurrent.futures
import pathlib
import queue
import sys
import tempfile

sys.dont_write_bytecode = True
import bodies
import body_mutants
from body_mutants import Mutant

FILE = bodies.CRATE / "unnoticed.txt"
LEFT_OUT = ("laws", "lib")  # these have no bodies
REFUSED = "# refused by the prover: "
NOT_TRIED = "not tried"


def listed() -> dict[str, str]:
    """The mutants of the list, each with what is written after it."""
    lines = [line for line in FILE.read_text().splitlines() if line and line[0] != "#"]
    return {name: why for name, _, why in (line.partition(" -- ") for line in lines)}


def refused() -> dict[str, int]:
    """How many more mutants of each function no row notices, but the prover refuses."""
    lines = [line.removeprefix(REFUSED).split() for line in FILE.read_text().splitlines()
             if line.startswith(REFUSED)]
    return {function: int(count) for function, count in lines}


def function_of(name: str) -> str:
    """The function of a mutant with this name."""
    return name.partition(": ")[0]


def named(mutants: list[Mutant]) -> dict[str, Mutant]:
    """These mutants by their names: equal ones of a function are numbered."""
    times: collections.Counter[str] = collections.Counter()
    found = {}
    for mutant in mutants:
        name = f"{mutant.function}: {mutant.what}"
        times[name] += 1
        found[f"{name} ({times[name]})" if times[name] > 1 else name] = mutant
    return found


def unnoticed(mutants: dict[str, Mutant], jobs: int) -> tuple[list[str], int]:
    """Those of these mutants that no row notices, and how many are programs."""
    with tempfile.TemporaryDirectory(prefix="bodies.") as place:
        players: queue.SimpleQueue[bodies.Player] = queue.SimpleQueue()
        for player in bodies.players(pathlib.Path(place), jobs):
            players.put(player)

        def faults(mutant: Mutant) -> dict[str, str] | None:
            player = players.get()
            try:
                return player.faults({mutant.file: mutant.text})
            except bodies.NotCompiled:
                return None
            finally:
                players.put(player)

        with concurrent.futures.ThreadPoolExecutor(jobs) as pool:
            found = dict(zip(mutants, pool.map(faults, mutants.values())))
    tried = {name: fault for name, fault in found.items() if fault is not None}
    return [name for name, fault in tried.items() if not fault], len(tried)


def main() -> None:
    """Tries the mutants of all files, or of those that are named."""
    stems = sorted(path.stem for path in (bodies.CRATE / "src").glob("*.rt")
                   if path.stem not in LEFT_OUT)
    parser = argparse.ArgumentParser(description=__doc__)
    parser.add_argument("files", metavar="FILE", nargs="*", help=f"only of {', '.join(stems)}")
    parser.add_argument("--jobs", type=int, default=2, help="try this many at once (2)")
    parser.add_argument("--write", action="store_true", help="write the list")
    options = parser.parse_args()
    if unknown := set(options.files).difference(stems):
        parser.error(f"no file {', '.join(sorted(unknown))}")
    chosen = options.files or stems
    left, count = unnoticed(named([mutant for stem in chosen for mutant in body_mutants.of_file(
        bodies.CRATE / f"src/{stem}.rt")]), options.jobs)
    known, counts = listed(), refused()
    new = [name for name in left if name not in known]
    times = collections.Counter(function_of(name) for name in new)
    changed = {function for function in {*times, *counts} if function.partition("::")[0] in chosen
               and times[function] != counts.get(function, 0)}
    untried = [name for name in new if function_of(name) in changed]
    gone = {name for name in known if name.partition("::")[0] in chosen}.difference(left)
    if options.write:
        write(known, untried, changed, gone)
    for name in untried:
        print(f"not noticed: {name}")
    for name in sorted(gone):
        print(f"noticed, or no mutant: {name}")
    for function in sorted(changed.intersection(counts)):
        print(f"{function}: {times[function]} are not noticed or listed, and the prover refused "
              f"{counts[function]}")
    print(f"{count} mutants, {count - len(left)} noticed")
    sys.exit(bool(changed or gone) and not options.write)


def write(known: dict[str, str], untried: list[str], changed: set[str], gone: set[str]) -> None:
    """Writes the list: of changed functions nothing is known but what was listed."""
    head = [line for line in FILE.read_text().splitlines() if line.startswith("#")
            and not any(line.startswith(f"{REFUSED}{function} ") for function in changed)]
    whys = {name: why for name, why in known.items() if name not in gone}
    whys.update(dict.fromkeys(untried, NOT_TRIED))
    lines = [f"{name} -- {why}" if why else name for name, why in sorted(whys.items())]
    FILE.write_text("\n".join([*head, *lines, ""]))


if __name__ == "__main__":
    main()
