"""The functions of the crates and the names of their clauses, read from the sources."""

import dataclasses
import functools
import itertools
import pathlib
import re

ROOT = pathlib.Path(__file__).resolve().parents[2]
# All crates, lowest first.
CRATES = re.findall(r"(?m)^(\w+)[^:\n]*:", (ROOT / "crates.txt").read_text())
FUNCTION = re.compile(r'\s*(pub(?:\(crate\))? )?(?:const |unsafe )*(extern "C" )?fn (\w+)')


@dataclasses.dataclass
class Function:
    """A function, with the type or trait that it belongs to, or nothing."""

    owner: str
    name: str
    callers: str  # `pub` or `C`, who may call it if its type or itself is known outside; or nothing
    doc: str  # the first paragraph of its documentation
    clauses: list[str] = dataclasses.field(default_factory=list)  # the names, in their order
    has_requires: bool = False
    path: str = ""  # its path from outside
    is_public: bool = False

    @property
    def sentence(self) -> str:
        """The first sentence of its documentation without links, or nothing if there is none."""
        plain = re.sub(r"\[(`[^`]+`)\](?:\([^)]*\))?", r"\1", self.doc)
        found = re.match(r"([A-Z\d`].*?\.)(?:\s+[A-Z\d`]|$)", plain)
        return found[1] if found else ""


def functions_of(source: pathlib.Path) -> list[Function]:
    found: list[Function] = []
    owner, is_trait = "", False
    doc: list[str] = []
    for line in source.read_text().splitlines():
        if impl := re.match(r"(?:impl|(pub trait))(?:<[^>]*>)? (\w+)", line):
            owner, is_trait = impl[2], bool(impl[1])
        elif line.startswith("}"):
            owner, is_trait = "", False
        if start := FUNCTION.match(line):
            callers = "C" if start[2] else "pub" if start[1] == "pub " or is_trait else ""
            text = " ".join(itertools.takewhile(bool, doc))
            found.append(Function(owner, start[3], callers, text))
        elif found and (clause := re.match(r"\s*ensures\*?\s+(\w*)", line)):
            found[-1].clauses.append(clause[1])
        elif found and re.match(r"\s*requires\b", line):
            found[-1].has_requires = True
        if comment := re.match(r"\s*///(?: (.*))?$", line):
            doc.append(comment[1] or "")
        elif not line.lstrip().startswith("#["):
            doc = []
    return found


@functools.cache
def functions(crate: str) -> list[Function]:
    """The functions of a crate, by the names of its sources. Known outside are the names that its
    front page has or hands on, and those of its public modules."""
    folder = ROOT / "crates" / crate / "src"
    page = next(path for name in ("lib.rt", "main.rt") if (path := folder / name).is_file())
    handed = re.findall(r"(?m)^pub use \w+::(\w+|\{[^}]*\});", page.read_text())
    known = {name for names in handed for name in re.findall(r"\w+", names)}
    modules = re.findall(r"(?m)^pub mod (\w+);", page.read_text())
    found = []
    for source in sorted(folder.glob("**/*.rt")):
        parts = source.relative_to(folder).with_suffix("").parts
        module = parts if parts[0] in modules else ()
        for one in functions_of(source):
            owner = [one.owner] if one.owner else []
            one.path = "::".join([crate, *module, *owner, one.name])
            is_known = module or source == page or (one.owner or one.name) in known
            one.is_public = one.callers == "C" or bool(one.callers and is_known)
            found.append(one)
    return found


def public(crate: str) -> list[Function]:
    return [function for function in functions(crate) if function.is_public]
