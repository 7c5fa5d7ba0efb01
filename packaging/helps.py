"""Reads the help texts of commands, in the layouts of clap and argparse.

A help consists of blocks, separated by empty lines: the usage, tables (commands, arguments,
options), and text. A block with a line that starts with two spaces and `$ ` is an example.
"""

import dataclasses
import re
import subprocess

TABLES = {
    "commands": "commands", "arguments": "arguments", "options": "options",
    "positional arguments": "arguments", "optional arguments": "options",
}
# A word of `dgt ask`, with its operands in capitals: `beep N`.
WORD = re.compile(r"  ([a-z]+)((?: [A-Z]+)*)(?:  +(.*))?")


@dataclasses.dataclass
class Row:
    """A row of a table: its names (`-h`, `--help`, or a command), the value, and what it does."""

    names: list[str]
    value: str
    about: str


@dataclasses.dataclass
class Help:
    """The parts of a help text. `usage` is one line, without the word usage."""

    usage: str = ""
    tables: dict[str, list[Row]] = dataclasses.field(default_factory=dict)
    text: list[str] = dataclasses.field(default_factory=list)
    status: str = ""
    examples: list[str] = dataclasses.field(default_factory=list)

    @property
    def about(self) -> str:
        """The first sentence of the text."""
        first = " ".join(self.text[0].split()) if self.text else ""
        return re.split(r"(?<=\w)[.:](?:\s|$)", first)[0]

    def rows(self, table: str) -> list[Row]:
        return self.tables.get(table, [])


def read_rows(lines: list[str]) -> list[Row]:
    """The rows of a table. A line that is indented further than a row continues that row."""
    rows: list[Row] = []
    for line in lines:
        names, _, about = line.strip().partition("  ")
        starts = len(line) - len(line.lstrip()) <= 8
        if starts and re.match(r"(-|<|[\w.]+(  |$))", line.strip()):
            words = [word.strip(",") for word in re.split(r"[ =]", names) if word]
            found = [word for word in words if word.startswith("-")] or words[:1]
            values = [word for word in words if word not in found]
            rows.append(Row(found, values[-1].strip("<>") if values else "", about.strip()))
        elif rows:
            rows[-1].about = f"{rows[-1].about} {line.strip()}".strip()
    return rows


def parse(text: str) -> Help:
    found = Help()
    for block in re.split(r"\n\s*\n", text.strip("\n")):
        lines = block.splitlines()
        head = lines[0].rstrip(":").lower()
        if head in TABLES and lines[0].endswith(":"):
            found.tables.setdefault(TABLES[head], []).extend(read_rows(lines[1:]))
        elif head.startswith("usage: "):
            found.usage = " ".join(" ".join(lines).split()[1:])
        elif any(line.startswith("  $ ") for line in lines):
            found.examples.append(block)
        elif head.startswith("exit status"):
            found.status = block.partition(":")[2].strip()
        else:
            found.text.append(block)
    return found


def read_words(help_of: Help) -> list[Row]:
    """The words that the text of a command lists: the longest list of such rows."""
    best: list[Row] = []
    for block in help_of.text:
        rows: list[Row] = []
        for line in block.splitlines():
            if row := WORD.fullmatch(line):
                rows.append(Row([row[1]], row[2].strip(), row[3] or ""))
            elif rows and line.startswith("    "):
                rows[-1].about = f"{rows[-1].about} {line.strip()}".strip()
        if len(rows) > len(best):
            best = rows
    return best


def ask(program: str, *words: str) -> str:
    ran = subprocess.run([program, *words, "--help"], capture_output=True, text=True, check=True)
    return ran.stdout


def all_of(program: str) -> dict[str, Help]:
    """The helps of a program by its commands, and that of the program itself under ""."""
    helps = {"": parse(ask(program))}
    for row in helps[""].rows("commands"):
        if row.names[0] != "help":
            helps[row.names[0]] = parse(ask(program, row.names[0]))
    return helps
