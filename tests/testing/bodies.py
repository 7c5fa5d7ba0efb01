"""Plays the rows of tests/testing/games.txt to dgt_game with other bodies, as plain Rust."""

import pathlib
import subprocess
from collections.abc import Iterator

import cases
import game_rows
import plain_rust
from wrong import Wrong, wanted

CRATE = cases.ROOT / "crates/dgt_game"
PROGRAM = cases.ROOT / "tests/libraries/chess_rules.rs"
# The program has a module of its own in place of the crate's.
MODULE = "use dgt::{chess, values};\n#[allow(dead_code)]\nmod game;\n"
SECONDS = 60  # for all rows, which take less than one
generate = plain_rust.generate


class NotCompiled(Exception):
    """A body that Rust refuses."""


class Player:
    """A folder with the program and the module, and what is compiled of them."""

    def __init__(self, crate: pathlib.Path, folder: pathlib.Path) -> None:
        self.crate, self.folder, self.rows = crate, folder, game_rows.read()
        self.main, self.edits = folder / "main.rs", generate.read_edits()
        (folder / "game").mkdir(parents=True)
        self.main.write_text(PROGRAM.read_text().replace("use dgt::game::", "use game::") + MODULE)
        self.own = {f"src/{path.name}": path.read_text() for path in CRATE.glob("src/*.rt")
                    if path.name != "laws.rt"}
        self.write(self.own)

    def write(self, sources: dict[str, str]) -> None:
        """Writes these sources as plain Rust."""
        for file, text in sources.items():
            source = self.folder / file.removeprefix("src/")
            source.write_text(text)
            edits = self.edits.get(f"dgt_game/{file}", [])
            name = "mod" if source.stem == "lib" else source.stem
            (self.folder / f"game/{name}.rs").write_text(generate.stripped("game", source, edits))

    def faults(self, sources: dict[str, str]) -> dict[str, str]:
        """The rows that fail with these sources, and how. After a panic the others aren't known."""
        self.write(sources)
        try:
            program = plain_rust.make_program(self.crate, self.main, "-C",
                                              f"incremental={self.folder / 'kept'}")
        except Wrong as wrong:
            raise NotCompiled(str(wrong)) from None
        finally:
            self.write({file: self.own[file] for file in sources})
        asked = "".join(f"{moment.question}\n" for row in self.rows for moment in row.moments)
        try:
            ran = subprocess.run([program], input=asked, capture_output=True, text=True,
                                 timeout=SECONDS, check=False)
        except subprocess.TimeoutExpired:
            return {"none": "it doesn't end"}
        answers = ran.stdout.splitlines()
        faults = {}
        for row in self.rows:
            mine, answers = answers[: len(row.moments)], answers[len(row.moments) :]
            if len(mine) < len(row.moments):
                faults[row.name] = ran.stderr
                break
            if fault := row.fault(mine):
                faults[row.name] = fault
        return faults


def players(folder: pathlib.Path, count: int) -> Iterator[Player]:
    """This number of players. With the crate's own bodies no row fails."""
    plain_rust.make_crate(folder)
    for number in range(count):
        player = Player(folder, folder / str(number))
        wanted("rows that fail with no edit", player.faults({}), {})
        yield player
