"""All first-order mutants of the definitions in crates/*/specs: one premise, part, case, sign,
number, constructor, branch or field is left out or replaced. Comments are left out of all texts."""

import dataclasses
import pathlib
import re
from collections.abc import Iterable, Iterator

Node = str | list["Node"]  # a word with the space before it, or a bracket with what it contains
Variants = Iterator[tuple[str, list[Node]]]  # what is done, and the new nodes
Types = dict[str, dict[str, int]]  # of each type its constructors, and how many values they have
WORD = re.compile(r"""\s*(?:"[^"]*"|'[^\s']'|\+\+|&&|\|\||==|\[\]"""
                  r"|[^\s(){}\[\],;∷×⊎→↔≡≢≤<+*/&|:=λ¬]+|\S)")
BLOCK = re.compile(r"(?m)^(?!use )\S.*(?:\n(?:[ \t]+.*|\}))*")
HEAD = re.compile(r"(?s)(?:pub )?(abbrev|unfoldable|record|data)(?: pub)? ([^\s:]+)(.*)")
FIELD = re.compile(r"(?m)^  (?:pub )?\S+ : .*(?:\n   .*)*")
BOUND = re.compile(r"\((\w+)[\w ]* : (ℕ|Bool|List [^()]*|List \(.*?\))\)")
QUALIFIED = re.compile(r"\b([A-Z]\w+|command|act|faulty)\.([A-Z]\w+)\b")
ENDS = {"in", "then", "else", ";", "=", "|", "if", "let", "(", ")", "{", "}", "[", "]"}
LEVELS = (("→",), ("↔",), ("⊎",), ("×",), ("≡", "≢", "≤", "<"), ("||",), ("&&",), ("++", "∷"))
INSTEAD = {"≤": "<", "<": "≤", "nat_le": "nat_lt", "nat_lt": "nat_le", "max": "min", "min": "max",
           "true": "false", "false": "true"}
SIMPLEST = {"Type": ("⊥", "Unit {0}"), "Bool": ("true", "false"), "ℕ": ("0",), "List": ("[]",),
            "Option": ("None",)}


@dataclasses.dataclass(frozen=True)
class Definition:
    """An `abbrev` or `unfoldable` with its equations, or a `record` with its fields."""

    file: str
    kind: str
    name: str
    head: str
    parts: tuple[str, ...]
    is_cited: bool  # by public contracts

    @property
    def result(self) -> str:
        """The first word of its result's type."""
        return (re.findall(r"[^\s()]+", re.split(r"[→:]", self.head)[-1]) or [""])[0]

    @property
    def is_statement(self) -> bool:
        """Whether it is the statement of a law, or a type of values: a type without parameters."""
        return self.result == "Type" and not re.search(r"→|\(", self.head)

    @property
    def text(self) -> str:
        """All of it."""
        return "\n".join([self.head, *self.parts])


@dataclasses.dataclass(frozen=True)
class Mutant:
    """A definition with another part, and its number among those of the definition."""

    definition: Definition
    number: int
    what: str
    old: str
    new: str

    @property
    def name(self) -> str:
        """The name that its copy has."""
        return f"{self.definition.name}__{self.number}"


# ---- definitions


def without_comments(text: str) -> str:
    """The text of a file without its comments. A line of a comment goes as a whole, since an empty
    one would end a record."""
    return re.sub(r"(?m)^[ \t]*-- .*\n|[ \t]+-- .*$", "", text)


def definitions(crate: pathlib.Path) -> dict[str, Definition]:
    """The definitions of a crate, in the order in which its specs/Lib.antt lists them."""
    found: dict[str, Definition] = {}
    listed = (crate / "specs/Lib.antt").read_text()
    cited = re.split("(?i)only for bodies", listed)[0]
    for file in re.findall(r"pub mod (\w+)", listed):
        last = ""
        for block in BLOCK.findall(without_comments((crate / f"specs/{file}.antt").read_text())):
            if start := HEAD.match(block):
                last, fields = start[2], FIELD.findall(block) if start[1] == "record" else []
                head = block.partition(fields[0])[0].rstrip() if fields else block
                is_cited = f"pub mod {file}\n" in cited
                found[last] = Definition(file, start[1], last, head, tuple(fields), is_cited)
            elif re.match(rf"{re.escape(last)}\s", block):
                it = found[last]
                found[last] = dataclasses.replace(it, parts=(*it.parts, block.rstrip()))
    return found


def halves(part: str) -> tuple[str, str]:
    """The left side with its sign, and the right side; of a field its name, and its type."""
    sign = re.match(r"(?s)(?:\{[^}]*\}|[^{}])*?\s[=:](?=\s)", part)
    assert sign
    return part[: sign.end()], part[sign.end() :]


# ---- expressions


def tree(text: str) -> list[Node]:
    """The words and brackets of an expression."""
    stack: list[list[Node]] = [[]]
    for word in WORD.findall(text):
        if word.strip() in ("(", "{", "["):
            stack.append([word])
            stack[-2].append(stack[-1])
        elif word.strip() in (")", "}", "]"):
            stack.pop().append(word)
        else:
            stack[-1].append(word)
    return stack[0]


def shown(nodes: Node) -> str:
    """The text of these nodes."""
    return nodes if isinstance(nodes, str) else "".join(map(shown, nodes))


def word(node: Node) -> str:
    """A word without its space, or nothing of a bracket."""
    return node.strip() if isinstance(node, str) else ""


def is_binder(nodes: list[Node]) -> bool:
    """Whether these are only brackets such as (x : T)."""
    return bool(nodes) and all(isinstance(it, list) and ":" in map(word, it) for it in nodes)


def variants(nodes: list[Node], siblings: dict[str, list[str]]) -> Variants:
    """All variants of an expression."""
    for at, node in enumerate(nodes):
        before, after = nodes[:at], nodes[at + 1 :]
        if isinstance(node, list):
            for what, new in variants(node, siblings) if shown(node) != " {0}" else ():
                yield what, [*before, new, *after]
        else:
            for new_word in of_word(word(node), siblings):
                new_node = node.replace(word(node), new_word)
                yield f"{word(node)} → {new_word}", [*before, new_node, *after]
            if word(node) in ("not", "¬"):
                yield f"{word(node)} left out", before + after
            if word(node) == "if":
                yield from of_choice(nodes, at)
            if word(node) == "record":
                yield from of_update(nodes, at)
            if word(node) == "+" and word(after[0]) == "1":
                yield "+ 1 left out", before + after[1:]
    start = 0
    for at, node in enumerate([*nodes, ")"]):
        if word(node) in ENDS or word(node).endswith("."):
            yield from of_operators(nodes, start, at, 0)
            start = at + 1


def of_word(old: str, siblings: dict[str, list[str]]) -> Iterator[str]:
    """What can stand in the place of this word."""
    if old in INSTEAD:
        yield INSTEAD[old]
    if re.fullmatch(r"\d+|0x[0-9a-f]+", old):
        yield str(int(old, 0) + 1)
    if it := QUALIFIED.fullmatch(old):
        names = siblings[it[1]]
        yield f"{it[1]}.{names[names.index(it[2]) - 1]}"


def of_choice(nodes: list[Node], at: int) -> Variants:
    """Of `if`: always the same branch."""
    words = [*map(word, nodes)]
    if "then" not in words[at:] or "else" not in words[at:]:
        return
    then = words.index("then", at)
    other = words.index("else", then)
    end = next((n for n in range(other, len(words)) if words[n] in (";", ")", "}")), len(words))
    yes, no = nodes[then + 1 : other], nodes[other + 1 : end]
    yield "always then", [*nodes[:at], [" (", *yes, ")"], *nodes[end:]]
    yield "always else", [*nodes[:at], [" (", *no, ")"], *nodes[end:]]


def of_update(nodes: list[Node], at: int) -> Variants:
    """Of `record x { f = .. }`: without a field."""
    if at + 2 >= len(nodes) or word(nodes[at + 1]) == "{" or not isinstance(nodes[at + 2], list):
        return
    update = nodes[at + 2]
    cuts = [0, *(n for n, it in enumerate(update) if word(it) == ";"), len(update) - 1]
    fields = [(a + 1, b) for a, b in zip(cuts, cuts[1:]) if b > a + 1]
    for a, b in fields:
        rest = update[:a] + update[b + (word(update[b]) == ";") :]
        kept = [nodes[at], nodes[at + 1], rest] if len(fields) > 1 else [nodes[at + 1]]
        yield f"{word(update[a])} left as it is", [*nodes[:at], *kept, *nodes[at + 3 :]]


def of_operators(nodes: list[Node], start: int, end: int, level: int) -> Variants:
    """Without a premise or a part, with parts in another order, or only for one value."""
    if level == len(LEVELS):
        return
    signs = LEVELS[level]
    cuts = [start - 1, *(n for n in range(start, end) if word(nodes[n]) in signs), end]
    parts = [(a + 1, b) for a, b in zip(cuts, cuts[1:])]
    for at, (a, b) in enumerate(parts):
        yield from of_operators(nodes, a, b, level + 1)
        is_last, part = at == len(parts) - 1, nodes[a:b]
        if len(parts) == 1 or not part or signs[0] in ("↔", "≡"):
            continue
        if is_binder(part):
            for name, kind in BOUND.findall(shown(part) if signs[0] == "→" else ""):
                said = f" {name} ≡ {'0' if kind == 'ℕ' else 'false' if kind == 'Bool' else '[]'} →"
                yield f"only{said}", [*nodes[: b + 1], said, *nodes[b + 1 :]]
        elif signs[0] != "→" and not (is_last and word(nodes[a - 1]) == "∷"):
            gone = nodes[: a - 1] + nodes[b:] if is_last else nodes[:a] + nodes[b + 1 :]
            yield f"part of {signs[0]} left out", gone
            if signs[0] == "++" and at == 0 and word(nodes[b]) == "++":
                c, d = parts[1]
                turned = [*nodes[:a], " ", *nodes[c:d], " ++ ", *part, *nodes[d:]]
                yield "order reversed", turned
        elif not is_last:
            yield "premise left out", nodes[:a] + nodes[b + 1 :]


# ---- mutants


def mutants(found: dict[str, Definition], data: Types) -> list[Mutant]:
    """The mutants of these definitions that public contracts cite."""
    siblings: dict[str, list[str]] = {}
    for kind, name in sorted({it for one in found.values() for it in QUALIFIED.findall(one.text)}):
        siblings.setdefault(kind, []).append(name)
    every = []
    for one in found.values():
        numbered: dict[tuple[str, str], tuple[str, str]] = {}
        if one.is_cited and one.kind in ("abbrev", "record", "unfoldable") and not one.is_statement:
            for what, old, new in of_definition(one, siblings, data):
                if new.split() != old.split():
                    numbered.setdefault((old, " ".join(new.split())), (what, new))
        for number, ((old, _), (what, new)) in enumerate(numbered.items(), 1):
            every.append(Mutant(one, number, what, old, new))
    return every


def of_definition(one: Definition, siblings: dict[str, list[str]], data: Types
                  ) -> Iterator[tuple[str, str, str]]:
    """What is done, the old part and the new one."""
    rights = [halves(part)[1] for part in one.parts]
    for at, part in enumerate(one.parts):
        left, right = halves(part)
        if one.kind == "record" and not re.search(r"[≡≢≤<→×⊎↔]|^ *(?!List|Option)[A-Z]\w* ", right):
            continue
        for what, new in variants(tree(right), siblings):
            yield what, part, left + shown(new)
        if one.kind == "record":
            words = [*map(word, tree(right))]
            plain = words.count("≡") == 1 and not {*words} & {"×", "⊎", "→"}
            value = shown(tree(right)[: words.index("≡")]) if plain else ""
            yield "always", part, f"{left}{value} ≡{value}" if plain else f"{left} Unit {{0}}"
            continue
        other = at - 1 if at else min(1, len(rights) - 1)
        if not unbound(one.parts[other], left):
            yield "as in another case", part, left + rights[other]
        for value in SIMPLEST.get(one.result, ()):
            yield f"always {value}", part, f"{left} {value}"
        yield from of_cases(one, at, data)


def unbound(part: str, left: str) -> set[str]:
    """The variables of a case that this left side doesn't have and its right side uses."""
    mine, right = (set(re.findall(r"(?<![\w.])[a-z_]\w*", half)) for half in halves(part))
    return (mine & right) - set(re.findall(r"[\w]+", left))


# ---- cases of their own


def constructors(crates: Iterable[pathlib.Path]) -> Types:
    """The data types in specs of these crates."""
    found: Types = {}
    for path in sorted(path for crate in crates for path in crate.glob("specs/*.antt")):
        for block in BLOCK.findall(without_comments(path.read_text())):
            if (start := HEAD.match(block)) and start[1] == "data":
                found[start[2]] = {
                    name: values(kind)
                    for names, kind in re.findall(r"(?m)^  ([\w ]+) : (.*(?:\n   .*)*)", block)
                    for name in names.split()}
    return found


def values(kind: str) -> int:
    """How many values a constructor of this type has."""
    named = sum(len(them.split()) for them in re.findall(r"\(([\w ]+) :", kind))
    return named + re.sub(r"\([\w ]+ :[^()]*\)\s*→?|\([\w ]+ : .*?\)+\s*→", "", kind).count("→")


def patterns(left: str) -> list[Node]:
    """The patterns of a left side, after the name."""
    return [it if isinstance(it, list) else it.strip() for it in tree(left)[1:-1]]


def constructor(pattern: Node, data: Types) -> tuple[str, str, list[Node]]:
    """The type of a pattern's constructor, if that is known, its name, and the patterns in it."""
    inside = pattern[1:-1] if isinstance(pattern, list) else [pattern]
    head, *inner = patterns(f"x {shown(inside)} =")
    found = re.fullmatch(r"(?:(\w+)\.)?([A-Z]\w*)", word(head))
    if not found or "∷" in inner:
        return "", "", []
    kinds = [it for it, names in data.items() if found[2] in names and found[1] in (None, it)]
    return kinds[0] if len(kinds) == 1 else "", found[2], inner


def of_cases(one: Definition, at: int, data: Types) -> Iterator[tuple[str, str, str]]:
    """A constructor that shares its case with others has one of its own."""
    left, right = halves(one.parts[at])
    rights = [halves(part)[1].strip() for part in one.parts if not unbound(part, left)]
    simplest = SIMPLEST[one.result][::-1] if one.result in ("Type", "Bool") else rights
    instead = [it for it in simplest if it != right.strip()][:1]
    mine = patterns(left)
    for place, pattern in enumerate(mine):
        if isinstance(pattern, list) or not re.fullmatch(r"_|[a-z]\w*", pattern):
            continue
        others = [them[place] for part in one.parts
                  if len(them := patterns(halves(part)[0])) > place]
        for each in unnamed(others, data):
            before, after = map(shown, mine[:place]), map(shown, mine[place + 1 :])
            head = " ".join([one.name, *before, each, *after])
            for it in instead:
                yield f"{each} by itself", one.parts[at], f"{head} = {it}\n{one.parts[at]}"


def unnamed(those: list[Node], data: Types) -> list[str]:
    """Patterns of the constructors that these don't name, and of those in them, if they are of one
    type."""
    made = [constructor(it, data) for it in those]
    if len(kinds := {kind for kind, *_ in made} - {""}) != 1:
        return []
    kind = kinds.pop()
    named = {name: [inner for other, it, inner in made if it == name and other == kind]
             for other, name, _ in made if other == kind}
    found = [spelled(kind, it, count) for it, count in data[kind].items() if it not in named]
    for name, inner in named.items():
        if all(len(it) == 1 for it in inner):
            below = [it[0] for it in inner]
            if len({constructor(it, data)[0] for it in below} - {""}) == 1 and all(
                    constructor(it, data)[0] for it in below):
                deep = constructor(below[0], data)[0]
                has = {constructor(it, data)[1] for it in below}
                found += [f"({kind}.{name} {spelled(deep, it, count)})"
                          for it, count in data[deep].items() if it not in has]
    return found


def spelled(kind: str, name: str, count: int) -> str:
    """The pattern of a constructor."""
    values = "".join(f" v{number}" for number in range(count))
    return f"({kind}.{name}{values})" if count else f"{kind}.{name}"
