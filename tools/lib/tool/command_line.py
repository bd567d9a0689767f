"""A tool's command line, and the words on it."""

import argparse
import inspect
import re
import sys
from collections.abc import Callable, Sequence
from typing import IO, Any, NoReturn

from ..base import place, text
from ..base.rules import VERSION
from . import file_io


def parse_participant(word: str) -> str:
    if text.participant_or_none(word.encode(errors="surrogateescape")) is None:
        raise argparse.ArgumentTypeError(f"{text.quoted(word)} should be {text.A_PARTICIPANT}")
    return word


def parse_day(word: str) -> str:
    """The name of a day on the command line, as in a head."""
    from ..seal import heads

    if not heads.DAY.fullmatch(word):
        raise argparse.ArgumentTypeError(f"{text.quoted(word)} should be {heads.A_DAY}")
    return word


def whole_number_function(least: int, most: int, words: str | None = None, form: str = "[0-9]{1,99}") -> Callable[[str], int]:
    """A function that takes a word of the command line to a whole number, if it has the form."""

    def parse(word: str) -> int:
        if not re.fullmatch(form, word) or not least <= int(word) <= most:
            raise argparse.ArgumentTypeError(f"{text.quoted(word)} should be {words or f'a number from {least} to {most}'}")
        return int(word)

    return parse


def add_command_parser(commands: Any, epilog: str, call: Callable[..., object], name: str, words: str) -> argparse.ArgumentParser:
    """The parser of a command of a tool; its description is the docstring of the call."""
    described = inspect.cleandoc(call.__doc__ or place.read_docstring(call.__code__.co_filename, call.__name__))
    parser = commands.add_parser(name, description=described, epilog=epilog, help=words)
    parser.set_defaults(call=call)
    return parser


def add_json_option(add: Callable[..., object], members: str) -> None:
    """Adds the option --json to a command whose record has these members too."""
    add("--json", action="store_true", help=f"print the outcome as a record in JSON, with {members}")


class Dashes(str):
    """A word `--` after the one that ends the options. argparse would leave it out."""

    def __eq__(self, other: object) -> bool:
        return self is other

    __hash__ = str.__hash__


class Parser(argparse.ArgumentParser):
    """A tool's command line, with no shortened options. Its help is written as all output is."""

    def __init__(self, prog: str, description: str | None, epilog: str) -> None:
        description = description or place.read_docstring(place.FOLDER / prog)
        form, prog = argparse.RawDescriptionHelpFormatter, place.command_name(prog)
        description, epilog = place.with_commands_of_here(description), place.with_commands_of_here(epilog)
        super().__init__(prog=prog, description=description, epilog=epilog, formatter_class=form, allow_abbrev=False)
        self.add_argument("--version", action="version", version=f"{prog} {VERSION}", help="print the version")

    def add_day_arguments(self) -> None:
        self.add_argument("journal", metavar="JOURNAL", help="a journal, or the text of `dam day`; - for standard input")
        words = "the results of that journal; omit them for the output of `dam day`"
        self.add_argument("results", metavar="RESULTS", nargs="?", help=words)

    def parse_known_args(self, args: Sequence[str] | None = None, namespace: Any = None) -> tuple[Any, list[str]]:
        words = list(sys.argv[1:] if args is None else args)
        end = words.index("--") + 1 if "--" in words else len(words)
        return super().parse_known_args(words[:end] + [Dashes(word) if word == "--" else word for word in words[end:]], namespace)

    def _get_value(self, action: argparse.Action, word: str) -> Any:
        """The value of a word. An empty one, as of a variable of the shell that isn't set, is never taken for a word that is left out."""
        if action.nargs == argparse.PARSER:  # the words of a command are read by its own parser
            return super()._get_value(action, word)
        if not word:
            raise argparse.ArgumentError(action, "it is empty")
        return super()._get_value(action, str(word))

    def _get_values(self, action: argparse.Action, words: list[str]) -> Any:
        """The value of the words of an option or an argument. argparse takes `--` for no word also if it is the value of an option."""
        if action.option_strings and action.nargs is None and words == ["--"]:
            value = self._get_value(action, words[0])
            self._check_value(action, value)
            return value
        return super()._get_values(action, words)

    def error(self, message: str) -> NoReturn:
        super().error(text.escaped(message))

    def print_help(self, file: IO[str] | None = None) -> None:
        file_io.write_stdout(self.format_help().encode())

    def _print_message(self, message: str, file: IO[str] | None = None) -> None:
        if file is sys.stdout:  # the version
            file_io.write_stdout(message.encode())
        else:
            super()._print_message(message, file)
