"""Writes manual pages in a form that all their readers accept."""

import datetime
import os
import pathlib
import re
import textwrap
import time


def roff(line: str) -> str:
    """A line, escaped for roff."""
    line = line.replace("\\", "\\e").replace("-", "\\-")
    return "\\&" + line if line[:1] in (".", "'") else line


def wrapped(page: str) -> list[str]:
    """The lines of a page; those that roff fills are wrapped."""
    lines, filled = [""], True
    for line in page.splitlines():
        filled = line == ".fi" or filled and line != ".nf"
        if not filled or line[:1] == "." or lines[-1] == ".TP":  # the tag of a paragraph is a line
            lines.append(line)
            continue
        # wrapped so that roff doesn't read a part as a request or as the end of a sentence
        text = "\n".join(textwrap.wrap(line, 78, break_long_words=False, break_on_hyphens=False))
        text = re.sub(r"\n(?=['.])", r"\n\\&", re.sub(r"(?<=[.!?])\n", r"\\&\n", text))
        lines += text.split("\n")
    return lines[1:]


def write(path: pathlib.Path, page: str) -> None:
    """Writes a page with the date SOURCE_DATE_EPOCH or today, without breaks after headings."""
    seconds = int(os.environ.get("SOURCE_DATE_EPOCH", time.time()))
    date = datetime.datetime.fromtimestamp(seconds, datetime.timezone.utc).strftime("%Y-%m-%d")
    page = re.sub(r'(?m)^(\.TH \S+ \S+ )"[^"]*"', rf'\1"{date}"', page)
    page = re.sub(r"(?m)^(\.S[HS] .*\n)\.PP\n", r"\1", page)
    path.write_text("\n".join(wrapped(page)) + "\n")
