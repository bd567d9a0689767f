"""The command lines of scripts, and of runs of random cases."""

import argparse
import os
import shutil
from collections.abc import Sequence

from shared.place import TOP

BUILT = {"dam": f"{TOP}/crates/dam_cli/out/dam_cli", "desk": f"{TOP}/crates/dam_desk/out/dam_desk"}
METAVARS = {"dam": "PROGRAM", "desk": "DESK"}  # as the pages call them


def parser_of_docstring(text: str) -> argparse.ArgumentParser:
    """The parser of a script: the first paragraph of its docstring is the usage, and the others describe it."""
    usage, _, about = text.partition("\n\n")
    return argparse.ArgumentParser(usage=usage, description=about, formatter_class=argparse.RawDescriptionHelpFormatter)


def add_programs(parser: argparse.ArgumentParser, *names: str) -> None:
    """Adds the options that name built programs, of `dam` and `desk`. Without them, the clone's own are used."""
    for name in names:
        help_ = f"the built program, {os.path.relpath(BUILT[name], TOP)} if nothing else is said"
        parser.add_argument(f"--{name}", metavar=METAVARS[name], default=BUILT[name], help=help_)


def find_programs_or_exit(parser: argparse.ArgumentParser, given: argparse.Namespace) -> None:
    """Replaces the programs of a command line by their absolute paths. Each has to be there, or on the path."""
    for name, built in BUILT.items():
        if hasattr(given, name):
            found = shutil.which(getattr(given, name))
            if not found:
                crate = built.rpartition("/")[2]
                parser.error(f"{getattr(given, name)} isn't a program: `tools/unproved --compile {crate}` builds one, and --{name} names it")
            setattr(given, name, os.path.abspath(found))


def parse_with_programs_or_exit(parser: argparse.ArgumentParser, words: Sequence[str] | None = None) -> argparse.Namespace:
    given = parser.parse_intermixed_args(words)
    find_programs_or_exit(parser, given)
    return given


def parser_of_cases(prog: str, about: str, cases: str, count: int, has_program: bool = True) -> argparse.ArgumentParser:
    """The parser of a run that draws `count` cases if nothing else is said; each depends only on the seed and its number."""
    form = argparse.RawDescriptionHelpFormatter
    parser = argparse.ArgumentParser(prog=prog, description=about, formatter_class=form, allow_abbrev=False)
    if has_program:
        add_programs(parser, "dam")
    parser.add_argument("--seed", default="1", help=f"the seed of the random {cases} (1)")
    parser.add_argument("--first", type=int, default=1, help=f"the number of the first of the {cases} (1)")
    parser.add_argument("--count", type=int, default=count, help=f"how many {cases} ({count:,})")
    return parser
