"""Reads bindings/c/include/dgt.h: its sections, and in each the comments and the declarations in
order."""

import dataclasses
import pathlib
import re

HEADER = pathlib.Path(__file__).resolve().parents[1] / "bindings/c/include/dgt.h"
SECTION = re.compile(r"-{4} (.*)", re.S)
# Attributes, after a declaration or before it, which only compilers read.
ATTRIBUTE = re.compile(r"\s*\bDGT_(?:NONNULL|READS|WRITES)_\([\d, ]*\)|\s*\bDGT_MUST_USE_\b")


@dataclasses.dataclass
class Part:
    """A comment without its marks, or a declaration without attributes and without the body of an
    inline function."""

    kind: str  # "comment" or "code"
    text: str


@dataclasses.dataclass
class Section:
    title: str
    parts: list[Part] = dataclasses.field(default_factory=list)


def read_comment(text: str) -> str:
    lines = [re.sub(r"^ ?\* ?", "", line) for line in text.strip().splitlines()]
    return "\n".join(lines).strip()


def pieces(text: str) -> list[Part]:
    """Comments that begin a line, lines of the preprocessor, and the code between them."""
    found = []
    text = re.sub(r"#ifdef __cplusplus\n[^#]*#endif\n", "", text)
    # a body in braces may have pairs of braces in it
    token = re.compile(r"^/\*(.*?)\*/|^#(?:[^\n]*\\\n)*[^\n]*|^[^\s#/](?:[^{};]|"
                       r"\{(?:[^{}]|\{[^{}]*\})*\})*?"
                       r"(?:;[^\n]*(?:\n {10,}[^\n]*\*/)?|(?<=\n\})(?=\n))", re.S | re.M)
    for match in token.finditer(text):
        if match[1] is not None:
            found.append(Part("comment", read_comment(match[1])))
        else:
            found.append(Part("code", match[0]))
    return found


def clean(code: str) -> str:
    """A declaration without attributes, and without the body of a function."""
    code = re.sub(r"(?m)^ *#.*\n?", "", code) if not code.startswith("#define") else code
    if "static inline" in code:
        code = code.partition("{")[0].strip() + ";"
    return ATTRIBUTE.sub("", code).strip()


def read(header: pathlib.Path = HEADER) -> list[Section]:
    """The sections of the header that say what a program may use; the first is its head."""
    sections = [Section("")]
    for part in pieces(header.read_text()):
        found = SECTION.fullmatch(part.text) if part.kind == "comment" else None
        if found:
            title, _, rest = found[1].partition(".")
            sections.append(Section(" ".join(title.split())))
            if rest.strip():
                sections[-1].parts.append(Part("comment", rest.strip()))
        elif part.kind == "comment":
            sections[-1].parts.append(part)
        elif not re.match(r"#(?!define DGT_[A-Z_]*[A-Z]\b)|#define DGT_H$|DGT_SIZE_", part.text):
            cleaned, parts = clean(part.text), sections[-1].parts
            if not re.match(r"static inline .*\bdgt_\w*_\(", cleaned):
                parts += [Part("code", cleaned)] if cleaned else []
            elif len(parts) > 1 and parts[-1].kind == "comment":  # the comment of a helper
                parts.pop()
    return [section for section in sections if section.parts]


def calls(sections: list[Section], inline: bool = False) -> list[str]:
    """The names of the calls: those of the library, or with `inline` those of the header."""
    found = []
    for section in sections:
        for part in section.parts:
            is_inline = "static inline" in part.text
            if part.kind == "code" and not part.text.startswith(("#", "typedef", "enum", "struct")):
                if is_inline == inline and (name := re.search(r"\b(dgt_\w*\w)\(", part.text)):
                    if not name[1].endswith("_"):
                        found.append(name[1])
    return found
