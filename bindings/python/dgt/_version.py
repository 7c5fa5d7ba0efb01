"""The version of the package and of the library that it needs."""

from pathlib import Path

VERSION = Path(__file__).with_name("VERSION").read_text(encoding="ascii").strip()
SONAME = f"libdgt.so.{VERSION.partition('.')[0]}"
"""The name of the system's library, with the first number of the version."""
