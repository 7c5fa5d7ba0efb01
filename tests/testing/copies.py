"""Copies of definitions and of clauses that read them, in files of their own of a copy of a crate.
Each copy has a mutant's name in its own, so one check tries many mutants."""

import collections
import dataclasses
import pathlib
import re
from collections.abc import Iterable

import altering
import mutations
from mutations import Mutant

NAME = r"(?<![\w.'-])[\w'-]+"
# What a mutant may need of the prelude.
PRELUDE = {"≡": "◌≡◌", "≤": "◌≤◌", "<": "◌<◌", **{it: it for it in (
    "[]", "nat_le", "nat_lt", "None", "max", "min", "true", "false")}}
FUNCTION = re.compile(r"(?m)^(?:impl(?:<'a>)? (?P<owner>\w+)(?P<lives><'a>)? \{"
                      r"|(?P<indent> *)pub fn (?P<name>\w+)\((?P<given>(?:[^()]|\([^()]*\))*)\)"
                      r"(?P<result> -> [^\n{]+)?\n)")
CLAUSE = re.compile(r"\s+(ensures|requires)(\*?) ?(\w*) ?\{")


@dataclasses.dataclass(frozen=True)
class Clause:
    """A clause of a public function, and how a function of its own can state it."""

    file: str
    function: str
    name: str
    text: str
    head: str  # the parameters, the result and the premises
    body: str
    is_plain: bool  # whether it is a law that the prover proves by itself

    @property
    def path(self) -> str:
        """As `refused.edits` names it."""
        function = self.function if self.file == "lib" else f"{self.file}::{self.function}"
        return f"{function} · {self.name}" if self.name else function


def inside(text: str, start: int) -> int:
    """The place after the brace that closes the one before this place."""
    depth = 1
    while depth:
        depth += {"{": 1, "}": -1}.get(text[start], 0)
        start += 1
    return start


def clauses_of(crate: pathlib.Path) -> list[Clause]:
    """The clauses of the functions that others may call."""
    found = []
    front = (crate / "src/lib.rt").read_text()
    handed = {*re.findall(r"\w+", " ".join(re.findall(r"(?m)^pub use ([^;]*);", front)))}
    public = {"lib", *re.findall(r"(?m)^pub mod (\w+);", front)}
    for path in sorted((crate / "src").glob("*.rt")):
        text, owner, lives = path.read_text(), "", ""
        for start in FUNCTION.finditer(text):
            if not start["name"] or not start["indent"]:
                owner, lives = start["owner"] or "", start["lives"] or ""
            if start["name"] and (path.stem in public or (owner or start["name"]) in handed):
                place = crate / "proofs" / (path.stem if path.stem != "lib" else "")
                answers = place / owner / start["name"] / "Answers.antt"
                written = answers.read_text() if answers.exists() else ""
                found += clauses_at(path.stem, text, owner, lives, start, written)
    return found


def clauses_at(file: str, text: str, owner: str, lives: str, start: re.Match[str], written: str
               ) -> list[Clause]:
    """The clauses of a function that starts here. Its copies call it, and what a law calls."""
    at, clauses, premises = start.end() - 1, [], ""
    while clause := CLAUSE.match(text, at):
        at = inside(text, clause.end())
        if clause[1] == "requires":
            premises += f"\n    requires {{{text[clause.end() : at]}"
        elif not clause[2]:
            clauses.append((clause[3], text[clause.end() : at - 1].strip()))
    place = "crate::" if file == "lib" else f"crate::{file}::"
    if owner and not re.search(rf"(?m)^pub (?:struct|enum) {owner}\b", text):
        place = ""  # this file imports the type
    name = f"{owner}::{start['name']}" if owner else start["name"]
    head = re.sub(r"(&mut |&|)self\b", rf"it: \1{owner}{lives}", start["given"])
    given = ", ".join(re.findall(r"(\w+): ", head))
    result = re.sub(r"\bSelf\b", owner + lives, start["result"] or "")
    body = f"{place}{name}({given})" + ";" * (not result)
    if not given:
        at = text.index("{", at) + 1
        calls = re.findall(r"(?m)^ *((?:\w+::)*\w+\(\);)", text[at : inside(text, at)])
        body = " ".join([*(it if "::" in it else place + it for it in calls), body])
    if "it: &" in head and re.search(r"&|'_", result):  # the lifetimes that it leaves out
        result = re.sub(r"&(?!')", "&'a ", result.replace("'_", "'a"))
        head = f"<'a>({head.replace('it: &', 'it: &' + chr(39) + 'a ')}){result}{premises}"
    else:
        generic = "<'a>" if "'a" in head + result else ""
        head = f"{generic}({head}){result}{premises}"
    head = re.sub(r"\bself\b", "it", head)
    return [Clause(file, name, label, re.sub(r"\bself\b", "it", said), head, body, not given
                   and not re.search(rf"(?m)^returns(-clause-{label}\b| c = )", written))
            for label, said in clauses]


class Crate:
    """The definitions of a crate, and which of them its files and clauses read."""

    def __init__(self, root: pathlib.Path) -> None:
        self.root = root
        self.found = mutations.definitions(root)
        self.texts = {path.stem: mutations.without_comments(path.read_text())
                      for path in (root / "specs").glob("*.antt")}
        self.sources = {path.stem: path.read_text() for path in (root / "src").glob("*.rt")}
        self.below = [root.parent / name for name in altering.needed([root.name])]
        self.mutants = mutations.mutants(self.found, mutations.constructors(self.below))
        self.clauses = clauses_of(root)
        self.reads = {it.name: self.named(it.text, it.file) - {it.name}
                      for it in self.found.values()}

    def named(self, text: str, file: str) -> set[str]:
        """The definitions that a text of this file of specs or of src names."""
        place = self.texts.get(file) or self.sources[file]
        own = {it.name for it in self.found.values() if it.file == file and file in self.texts}
        here = rf"use Rattle\.{self.root.name}\.specs\.\w+\.\{{([^}}]*)\}}"
        own.update(*(re.split(", *", names) for names in re.findall(here, place)))
        return own & self.found.keys() & {*re.findall(NAME, text)}

    def reached(self, names: Iterable[str]) -> dict[str, int]:
        """All that these read, themselves too, and how many definitions are between."""
        found: dict[str, int] = {}
        edge, steps = {*names}, 0
        while edge:
            found |= dict.fromkeys(edge, steps)
            edge, steps = {it for name in edge for it in self.reads[name]} - found.keys(), steps + 1
        return found

    def copies(self, jobs: Iterable[tuple[Mutant, Clause]]) -> dict[str, str]:
        """Files with a copy of each of these clauses, for a mutant, and of all definitions between
        them."""
        specs: dict[str, dict[str, str]] = collections.defaultdict(dict)
        laws: dict[str, list[str]] = collections.defaultdict(list)
        for mutant, clause in jobs:
            direct = self.named(clause.text, clause.file)
            between = {it for it in self.reached(direct) if self.found[it].kind != "data"
                       and mutant.definition.name in self.reached({it})}
            for it in (it for it in self.found.values() if it.name in between):
                is_own = it == mutant.definition
                text = it.text.replace(mutant.old, mutant.new, 1) if is_own else it.text
                names = self.named(it.text, it.file) & between | {it.name}
                text = re.sub("^unfoldable", "abbrev", renamed(text, names, mutant))
                specs[it.file][f"{it.name}__{mutant.name}"] = text
            laws[clause.file].append(
                f"{self.opening(direct, between)}pub fn {function(mutant, clause)}{clause.head}\n"
                f"    ensures {{ {renamed(clause.text, direct & between, mutant)} }}\n"
                f"{{ {clause.body} }}\n")
        front = (self.root / "src/lib.rt").read_text()
        first = re.search(r"(?m)^(pub )?(mod \w+;|ghost use |use )", front)
        assert first
        modules = "".join(f"pub mod copies_{it};\n" for it in laws)
        listed = "".join(f"pub mod Copies{it}\n" for it in specs)
        return {
            "src/lib.rt": front[: first.start()] + modules + front[first.start() :],
            "specs/Lib.antt": (self.root / "specs/Lib.antt").read_text() + listed,
            **{f"specs/Copies{it}.antt": self.spec(it, specs) for it in specs},
            **{f"src/copies_{it}.rt": self.source(it, made, specs) for it, made in laws.items()}}

    def opening(self, direct: set[str], between: set[str]) -> str:
        """An attribute that opens the unfoldable definitions, if one of them is copied."""
        if all(self.found[it].kind != "unfoldable" for it in between):
            return ""
        paths = sorted(f"crate::specs::{self.found[it].file}::{it}" for it in self.reached(direct)
                       if self.found[it].kind == "unfoldable")
        return f"#[tactic(auto, unfolding({', '.join(paths)}))]\n"

    def imports(self, text: str, specs: dict[str, dict[str, str]], file: str) -> list[str]:
        """What imports the copies that a text names, of other files."""
        found = {it: made.keys() & {*re.findall(NAME, text)} for it, made in specs.items()}
        return [f"use Rattle.{self.root.name}.specs.Copies{it}.{{{', '.join(sorted(names))}}}"
                for it, names in found.items() if it != file and names]

    def spec(self, file: str, specs: dict[str, dict[str, str]]) -> str:
        """A file of specs with copies of the definitions of another one."""
        place, text = f"Rattle.{self.root.name}.specs.{file}", "\n\n".join(specs[file].values())
        own = [it for it in self.found.values() if it.file == file]
        uses = re.findall(r"(?m)^use .*", self.texts[file]) + self.imports(text, specs, file)
        uses.append(f"use {place}.{{{', '.join(it.name for it in own)}}}")
        for it in (it for it in own if it.kind == "data"):
            names = " ".join(re.findall(r"(?m)^  ([\w ]+) : ", it.text)).split()
            uses.append(f"use {place}.{it.name}.{{{', '.join(names)}}}")
        have = re.findall(r"[^\s,{}]+", " ".join(re.findall(r"\.Prelude\.(.*)", "\n".join(uses))))
        words = {it.strip() for it in mutations.WORD.findall(text)}
        if wanted := sorted({name for it, name in PRELUDE.items() if it in words} - {*have}):
            uses.append(f"use Rattle.std.specs.Prelude.{{{', '.join(wanted)}}}")
        return "-- Copies.\n" + "\n".join(uses) + "\n\n" + text + "\n"

    def source(self, file: str, made: list[str], specs: dict[str, dict[str, str]]) -> str:
        """A module with copies of the clauses of another one."""
        uses = re.findall(r"(?m)^(?:use [^;]*|ghost use [^;{}]*);", self.sources[file])
        ghosts: dict[str, dict[str, None]] = {}
        for place, names in re.findall(r"ghost use (\S+)\.\{([^}]*)\};", self.sources[file]):
            ghosts.setdefault(place, {}).update(dict.fromkeys(names.split(", ")))
        uses += [f"ghost use {it}.{{{', '.join(names)}}};" for it, names in ghosts.items()]
        uses += [f"ghost {it};" for it in self.imports("\n".join(made), specs, "")]
        if own := re.findall(r"(?m)^pub (?:struct|enum|const|type) (\w+)", self.sources[file]):
            place = "" if file == "lib" else f"{file}::"
            uses.append(f"use crate::{place}{{{', '.join(own)}}};")
        return "//! Copies.\n\n" + "\n".join([*uses, "", *made])


def function(mutant: Mutant, clause: Clause) -> str:
    """The name of a clause's copy."""
    return re.sub(r"\W+", "_", f"{mutant.name}__{clause.function}__{clause.name}".lower())


def renamed(text: str, names: set[str], mutant: Mutant) -> str:
    """The text with the mutant's name after each of these."""
    return re.sub(NAME, lambda it: f"{it[0]}__{mutant.name}" if it[0] in names else it[0], text)
