"""First-order mutants of the bodies of a crate: a condition is negated, a sign, a number or a word
replaced, a statement left out, a return added, or two arms swapped. Contracts and ghosts stay."""

import dataclasses
import pathlib
import re
from collections.abc import Iterator

import plain_rust

generate = plain_rust.generate
Token = generate.Token
CLAUSES = ("requires", "ensures", "decreases", "invariant")
SIGNS = {"<": "<=", "<=": "<", ">": ">=", ">=": ">", "==": "!=", "!=": "==", "&&": "||",
         "||": "&&", "+": "-", "-": "+"}
WORDS = {"true": "false", "false": "true", "min": "max", "max": "min"}
NUMBER = re.compile(r"(\d[\d_]*)((?:[ui](?:8|16|32|64|size))?)")
LIMIT = re.compile(r"const (\w+): (\w+) = ([\d_]+);")
ARMS = re.compile(r"(?m)^( +)([^\n=]+ => )([^\n{]+),\n\1([^\n=]+ => )([^\n{]+),$")
STATEMENT = re.compile(r"(?s)(?!let\b|return\b|use\b|ghost\b|break\b|continue\b)[\w.:\[\]]+"
                       r"(?: [-+*/|&^]?= |\().*;")
RETURNS = {"": ("return;",), "bool": ("return true;", "return false;"),
           "Option": ("return None;",)}


@dataclasses.dataclass(frozen=True)
class Mutant:
    """A change of a file of src/, and the function that it is in."""

    file: str
    function: str
    what: str
    text: str  # of the whole file


class Source:
    """The tokens of a file, and where each begins."""

    def __init__(self, path: pathlib.Path) -> None:
        self.file, self.module, self.text = f"src/{path.name}", path.stem, path.read_text()
        self.tokens = generate.tokens_of(self.text)
        self.starts = [0]
        for token in self.tokens:
            self.starts.append(self.starts[-1] + len(token.text))

    def word(self, at: int) -> str:
        """The text of a token."""
        return self.tokens[at].text if at < len(self.tokens) else ""

    def skip(self, at: int) -> int:
        """The next token that is no space or comment."""
        while at < len(self.tokens) and self.tokens[at].kind in ("space", "comment"):
            at += 1
        return at

    def end(self, at: int) -> int:
        """The token after the bracket that begins here."""
        depth = 0
        while True:
            depth += {"{": 1, "(": 1, "[": 1, "}": -1, ")": -1, "]": -1}.get(self.word(at), 0)
            at += 1
            if not depth:
                return at

    def until(self, at: int, sign: str) -> int:
        """The first of these signs that is in no bracket."""
        while self.word(at) != sign:
            at = self.end(at) if self.word(at) in ("{", "(", "[") else at + 1
        return at

    def after_clauses(self, at: int) -> int:
        """The token of the body that comes after these clauses."""
        at = self.skip(at)
        while self.word(at) in CLAUSES:
            at = self.skip(self.end(self.until(at, "{")))
        return at

    def functions(self) -> Iterator[tuple[str, str, int, int]]:
        """The name, the result and the body of each function."""
        kind, stop, at = "", 0, 0
        while at < len(self.tokens):
            if at >= stop:
                kind = ""
            if self.word(at) in ("impl", "trait") and self.tokens[at].kind == "word":
                brace = self.until(at, "{")
                head = re.sub(r"<[^<>]*>", "", self.text[self.starts[at] : self.starts[brace]])
                kind, stop = head.split(" for ")[-1].split()[-1] + "::", self.end(brace)
                at = brace + 1
            elif self.word(at) == "fn" and self.tokens[at].kind == "word":
                name = self.word(self.skip(at + 1))
                params = self.end(self.until(at, "("))
                head, at = params, self.skip(params)
                while self.word(at) not in ("{", ";", *CLAUSES):
                    at = self.skip(at + 1)
                result = re.findall(r"\w+", self.text[self.starts[head] : self.starts[at]])
                at = self.after_clauses(at)
                if self.word(at) == "{":
                    end = self.end(at)
                    yield f"{self.module}::{kind}{name}", (result or [""])[0], at, end
                    at = end
            else:
                at += 1

    def live(self, start: int, end: int) -> list[int]:
        """The tokens of a body that are no ghosts, clauses, attributes or calls of laws."""
        found, at = [], start
        while at < end:
            word = self.word(at)
            if self.tokens[at].kind == "word" and word in CLAUSES:
                at = self.end(self.until(at, "{"))
            elif word == "ghost":
                at = self.until(at, ";") + 1
            elif word == "#":
                at = self.end(self.until(at, "["))
            else:
                found.append(at)
                at += 1
        return found


def changes(source: Source, result: str, start: int, end: int) -> Iterator[tuple[int, int, str]]:
    """The places of a body that change, and what is there then."""
    live, begins = source.live(start, end), source.starts
    first = begins[source.after_clauses(start + 1)]
    for text in RETURNS.get(result, ()):
        yield first, first, f"{text} "
    for at in live:
        token, place, after = source.tokens[at], begins[at], source.skip(at + 1)
        if token.kind == "word" and token.text == "if" and source.word(after) != "let":
            begin, stop = begins[after], begins[source.until(at, "{")]
            yield begin, stop, f"!({source.text[begin:stop].rstrip()}) "
        if token.kind == "word" and token.text in WORDS:
            yield place, begins[at + 1], WORDS[token.text]
        if token.kind == "word" and (number := NUMBER.fullmatch(token.text)):
            if not source.text[:place].endswith("; "):
                value = int(number[1].replace("_", ""))
                yield place, begins[at + 1], f"{value + 1}{number[2]}"
                if value:
                    yield place, begins[at + 1], f"{value - 1}{number[2]}"
        if token.text == "!" and re.match(r"![\w(]", source.text[place:]) and not re.match(
                r"\w", source.text[place - 1 : place]):
            yield place, place + 1, ""
        if source.tokens[at - 1].kind == "space" and token.kind == "sign":
            sign = next((it for it in sorted(SIGNS, key=len, reverse=True)
                         if source.text.startswith(f"{it} ", place)), "")
            if sign:
                yield place, place + len(sign), SIGNS[sign]
        if token.text in ("{", "}", ";") and (begin := source.skip(at + 1)) < end:
            stop = statement_end(source, begin, end)
            text = source.text[begins[begin] : begins[stop]]
            if STATEMENT.fullmatch(text) and "laws::" not in text and begin in live:
                yield begins[begin], begins[stop], ""


def statement_end(source: Source, at: int, end: int) -> int:
    """The token after the semicolon of the statement that begins here, if it has one."""
    while at < end:
        if source.word(at) == ";":
            return at + 1
        if source.word(at) == "}":
            return at
        at = source.end(at) if source.word(at) in ("{", "(", "[") else at + 1
    return end


def short(text: str) -> str:
    """The words of a text, or its first ones."""
    text = " ".join(text.split())
    return text if len(text) <= 28 else f"{text[:26]}.."


def of_file(path: pathlib.Path) -> Iterator[Mutant]:
    """The mutants of a file."""
    source = Source(path)
    text = source.text

    def mutant(function: str, begin: int, stop: int, new: str) -> Mutant:
        what = f"{short(text[begin:stop])} → {short(new)}"
        return Mutant(source.file, function, what, text[:begin] + new + text[stop:])

    for limit in LIMIT.finditer(text) if path.stem == "times" else ():
        value = int(limit[3].replace("_", ""))
        for new in (value - 1, value + 1):
            yield mutant(f"times::{limit[1]}", limit.start(3), limit.end(3), str(new))
    for name, result, start, end in source.functions():
        for begin, stop, new in changes(source, result, start, end):
            yield mutant(name, begin, stop, new)
        for arms in ARMS.finditer(text, source.starts[start], source.starts[end]):
            if arms[3] != arms[5]:
                new = f"{arms[1]}{arms[2]}{arms[5]},\n{arms[1]}{arms[4]}{arms[3]},"
                yield mutant(name, arms.start(), arms.end(), new)
