"""What clauses read: the definitions that they name, in specs/ of the crate and of those below, the
types in src/ that stand for values, and all that these name."""

import pathlib
import re
from collections.abc import Iterable

import mutations

NAME = re.compile(r"(?<![\w.'-])[\w'-]+")
IMPORT = re.compile(r"\bRattle\.(\w+)\.specs\.([\w.]+)\.\{([^}]*)\}")
TYPE = re.compile(r"(?m)^pub(?:\(crate\))? (?:struct|enum) (\w+)\b.*(?:\n .*)*")
Key = tuple[str, str, str]  # a crate, a file of it, and a name there


class Reads:
    """The definitions of some crates, and what each reads."""

    def __init__(self, crates: Iterable[pathlib.Path]) -> None:
        self.files: dict[tuple[str, str], str] = {}
        self.texts: dict[Key, str] = {}
        self.read: dict[Key, set[Key]] = {}
        for crate in crates:
            for path in (crate / "specs").glob("*.antt"):
                text = mutations.without_comments(path.read_text())
                self.files[crate.name, path.stem] = text
            for path in (crate / "src").glob("*.rt"):
                place = (crate.name, f"src/{path.stem}")
                self.files[place] = path.read_text()
                self.texts |= {(*place, it[1]): it[0] for it in TYPE.finditer(self.files[place])}
            self.texts |= {(crate.name, it.file, it.name): it.text
                           for it in mutations.definitions(crate).values()}

    def named(self, crate: str, file: str, text: str) -> set[Key]:
        """The definitions that a text of this file names."""
        words = {*NAME.findall(text)}
        found = {(crate, file, it) for it in words}
        for other, path, names in IMPORT.findall(self.files[crate, file]):
            first, *rest = path.split(".")
            used = words & {*re.split(r",\s*", names)}
            if first == "declared":
                found |= {(other, "src/" + "/".join(rest[:-1]), rest[-1]) for _ in used}
            else:  # names of a file, or constructors of a type there
                found |= {(other, first, rest[0] if rest else it) for it in used}
        return found & self.texts.keys()

    def reached(self, crate: str, file: str, text: str) -> set[Key]:
        """All that a text of this file reads."""
        found: set[Key] = set()
        edge = self.named(crate, file, text)
        while edge:
            found |= edge
            for key in edge - self.read.keys():
                self.read[key] = self.named(key[0], key[1], self.texts[key]) - {key}
            edge = {it for key in edge for it in self.read[key]} - found
        return found
