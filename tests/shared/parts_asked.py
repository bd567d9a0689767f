"""The command line of a run that has parts: those that it names, or else all."""

import argparse
from collections.abc import Collection, Sequence

from shared.arguments import parse_with_programs_or_exit


def parse_parts_or_exit(parser: argparse.ArgumentParser, words: Sequence[str], parts: Collection[str]) -> argparse.Namespace:
    """The words `[--all | --count] [PART ..]` and the parser's own, of which the parts are known by these names. `parts` has all if the
    words name none."""
    kinds = parser.add_mutually_exclusive_group()
    kinds.add_argument("--all", action="store_true", help="leave nothing out for its time")
    kinds.add_argument("--count", action="store_true", help="only write the tables of costs")
    parser.add_argument("parts", metavar="PART", nargs="*")
    asked = parse_with_programs_or_exit(parser, words)
    if not set(asked.parts) <= set(parts):
        parser.error(f"the parts are {', '.join(parts)}")
    asked.parts = asked.parts or list(parts)
    return asked
