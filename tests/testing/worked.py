"""Reads the worked rows of tests/testing/rows.txt. Its first lines describe the format."""

import ast
import pathlib
import re
from typing import NamedTuple, Union

ROWS = pathlib.Path(__file__).resolve().parent / "rows.txt"
Names = dict[str, str]
Output = Union[bytes, re.Pattern[bytes]]
Answer = tuple[int, bytes, bytes]  # the status of a run, and both outputs


class Run(NamedTuple):
    """A run: its words after `dgt`, its input (`None` if each read fails), whether the input comes
    in chunks too, and what the run has to give."""

    words: list[str]
    input: bytes | None
    is_cut: bool
    wanted: tuple[int, Output, bytes]


class Row(NamedTuple):
    """A row: the number of its line, its cells and its runs."""

    line: int
    cells: list[str]
    runs: list[Run]


def is_right(got: Answer, wanted: tuple[int, Output, bytes]) -> bool:
    """Whether a run gave the wanted results."""
    status, output, errors = wanted
    if isinstance(output, re.Pattern):
        return (got[0], got[2]) == (status, errors) and output.fullmatch(got[1]) is not None
    return got == wanted


# ---- Texts


def expand(text: str, names: Names) -> str:
    """The text with the values of names, and with repetitions written out."""
    text = re.sub(r"\{([a-z_]+)\}", lambda found: names[found[1]], text)
    return re.sub(r"\{([^{}]*)\*(\d+)\}", lambda found: found[1] * int(found[2]), text)


def encode(text: str) -> bytes:
    """The bytes of hexadecimal digits after 0x, or of lines that end with semicolons."""
    if text.startswith("0x"):
        return bytes.fromhex(text[2:])
    lines = re.sub(r"(^|; )([^;]+)\*(\d+)(?=;|$)",
                   lambda found: found[1] + "; ".join([found[2]] * int(found[3])), text)
    return re.sub(r";( |$)", "\n", lines).encode("utf-8", "surrogateescape")


def encode_lines(text: str) -> bytes:
    """The same of whole lines, of which the last needs no semicolon."""
    made = encode(text)
    return made if text[:2] in ("", "0x") or made.endswith(b"\n") else made + b"\n"


def output(text: str) -> Output:
    """The lines of an output: a pattern if a line is `?`, one word, or `??`, any line."""
    made = encode_lines(text)
    if not re.search(rb"^\?\??$", made, re.MULTILINE):
        return made
    return re.compile(re.escape(made).replace(rb"\?\?", b".+").replace(rb"\?", b"[a-z]+"))


# ---- Rows


def fill(text: str, cells: list[str], names: Names) -> str:
    """A part of a template with the cells of a row."""
    text = re.sub(r"\{(\d)\}", lambda found: cells[int(found[1])], text)
    text = re.sub(r"\{length (\d)\}", lambda found: f"{len(cells[int(found[1])]) // 2:08}", text)
    text = re.sub(r"\{ends (\d)\}", lambda found: str(encode(cells[int(found[1])]).count(b"\n")),
                  text)
    return expand(text, names)


def read_run(template: str, cells: list[str], names: Names) -> Run:
    """The run of a row by a template: `words < input => output ! status errors`."""
    asked, _, gives = template.partition(" =>")
    printed, _, refused = gives.partition(" ! ")
    status, _, errors = refused.partition(" ")
    found = re.fullmatch(r"(.*?)(?: (<<?) (.*))?", asked)
    assert found
    words: list[str] = []
    for quoted, plain in re.findall(r"'([^']*)'|(\S+)", found[1]):
        words += fill(plain, cells, names).split(" ") if plain else [fill(quoted, cells, names)]
    given = None if found[2] is None else encode(fill(found[3], cells, names))
    wanted = (int(status or 0), output(fill(printed.strip(), cells, names)),
              encode_lines(fill(errors, cells, names)))
    return Run([] if words == [""] else words, given, found[2] == "<<", wanted)


def read_cells(line: str, names: Names) -> list[str]:
    """The cells of a row. If they are in backticks, the first two are read, and the digits of
    the first may have spaces."""
    if line.startswith("| "):
        first, second = ("; ".join(re.findall("`([^`]*)`", part)) for part in line.split("|")[1:3])
        return [first.replace(" ", ""), second]
    parts = [part.strip() for part in line.split("|")]
    return [expand(ast.literal_eval(part) if part.startswith('"') else part, names)
            for part in parts]


def read_row(number: int, line: str, templates: list[str], names: Names) -> Row:
    """A row of a table with these templates."""
    try:
        cells = read_cells(line, names)
        named = re.findall(r"\{(?:length |ends )?(\d)\}", str(templates))
        if len(cells) != len({*named}):
            raise ValueError(f"{len(cells)} cells instead of {len({*named})}")
        return Row(number, cells, [read_run(each, cells, names) for each in templates])
    except (LookupError, SyntaxError, ValueError) as error:
        raise ValueError(f"{ROWS}:{number}: {error!r}") from error


def numbered_lines() -> list[tuple[int, str]]:
    """The lines with their numbers. One that begins with two spaces goes on with the one before."""
    lines: list[tuple[int, str]] = []
    for number, line in enumerate(ROWS.read_text().splitlines(), 1):
        if line.startswith("  "):
            number, before = lines.pop()
            line = f"{before} {line[2:]}"
        lines.append((number, line))
    return lines


def read_tables() -> tuple[dict[str, list[Row]], Names]:
    """The rows of each table, by its name, and the values of names."""
    tables: dict[str, list[Row]] = {}
    rows, templates, names = [], [], {}  # type: list[Row], list[str], Names
    for number, line in numbered_lines():
        if line.startswith("## "):
            rows, templates = tables.setdefault(line[3:], []), []
        elif line.startswith("$ "):
            templates.append(expand(line[2:], names))
        elif templates and re.match(r"\|.*`|[^#|]", line):
            rows.append(read_row(number, line, templates, names))
        elif found := re.fullmatch(r"([a-z_]+) = (.*)", line):
            names[found[1]] = expand(found[2], names)
    return tables, names
