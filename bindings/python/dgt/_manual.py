"""The parser of a program's arguments, with a short help and a whole manual."""

import argparse
from typing import Any


class _Manual(argparse.Action):
    """Prints the help with the whole text after it, and ends."""

    def __call__(self, parser: argparse.ArgumentParser, *_: Any) -> None:
        parser.epilog = str(self.const)
        parser.print_help()
        parser.exit()


def make_parser(program: str, manual: str | None) -> argparse.ArgumentParser:
    """Returns the parser of a program. Of its manual, the help has the first paragraph, which says
    what the program does, and after the options the second one, which has examples."""
    about, rest = (manual or "").split("\n\n", 1)
    parser = argparse.ArgumentParser(
        prog=program, description=about, epilog=rest.split("\n\n", 1)[0], allow_abbrev=False,
        formatter_class=argparse.RawDescriptionHelpFormatter)
    parser.add_argument("--manual", action=_Manual, nargs=0, const=rest,
                        help="show the whole manual and exit")
    return parser
