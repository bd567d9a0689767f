"""The command line of tools/whatif: the words of each command, and those that can't be used together."""

import re
from argparse import ArgumentParser, ArgumentTypeError, Namespace, _SubParsersAction
from collections.abc import Callable
from typing import NoReturn

from ..base import rules, text
from ..tool import command_line, exits, output
from ..tool.command_line import Parser
from . import scenarios

COUNT = "[1-9][0-9]{0,6}"
parse_jobs = command_line.whole_number_function(1, 999, form=COUNT)
parse_sample_count = command_line.whole_number_function(1, 9_999_999, form=COUNT)


def parse_price(word: str) -> int:
    """A price of the command line in cents per MWh."""
    if not re.fullmatch(r"-?[0-9]{1,6}(\.[0-9]{1,2})?", word):
        raise ArgumentTypeError(f"{text.quoted(word)} should be a price in EUR/MWh, such as 92.50")
    cents = round(float(word) * 100)
    if not rules.LOWEST_PRICE <= cents <= rules.HIGHEST_PRICE:
        ends = [text.eur_per_mwh(end) for end in (rules.LOWEST_PRICE, rules.HIGHEST_PRICE)]
        raise ArgumentTypeError(f"{text.quoted(word)} should be from {ends[0]} to {ends[1]} EUR/MWh")
    return cents


def order_name_and_advice(word: str) -> str:
    """An order's name on the command line."""
    if text.name_or_none(word.encode(errors="surrogateescape")) is None:
        raise ArgumentTypeError(f"{text.quoted(word)} should be {text.A_NAME}")
    return word


def add_command_parser(commands: "_SubParsersAction[Parser]", call: Callable[[Namespace], int], name: str, epilog: str, words: str) -> ArgumentParser:
    """The parser of a command, with the arguments that all commands read."""
    parser = command_line.add_command_parser(commands, epilog, call, name, words)
    parser.add_argument("journal", metavar="JOURNAL", help="a closed journal; - for standard input")
    parser.add_argument("--program", metavar="PATH", help="the program `dam` to run (default: the library, or the built program)")
    output.add_options(parser)
    return parser


def add_limit_command(commands: "_SubParsersAction[Parser]", call: Callable[[Namespace], int], epilog: str) -> None:
    parser = add_command_parser(commands, call, "limit", epilog, "the worst limit at which a block is accepted")
    add = parser.add_argument
    add("--participant", metavar="NAME", type=command_line.parse_participant, required=True, help="the participant that entered the order")
    add("--order", metavar="NAME", type=order_name_and_advice, help="the order")
    add("--all", action="store_true", help="every block of the participant, a row each")
    add("--jobs", metavar="N", type=parse_jobs, help="the number of clearings at the same time (default: the number of processors)")
    add("--from", dest="least", metavar="EUR", type=parse_price, help="for an hourly order: the least limit (default: 20 below the price)")
    add("--to", dest="greatest", metavar="EUR", type=parse_price, help="the greatest limit (default: 20 above the price)")
    add("--step", metavar="EUR", type=parse_price, help="the distance between two limits (default: 1.00)")


def add_change_command(commands: "_SubParsersAction[Parser]", call: Callable[[Namespace], int], epilog: str) -> None:
    parser = add_command_parser(commands, call, "change", epilog, "the effect of further commands")
    words = "further commands: records as in a journal, or a table of orders, or of commands with the column what (CSV or Excel); - for"
    words += " standard input"
    parser.add_argument("changes", metavar="CHANGES", help=words)
    words = "only this participant's orders, with its gain and net amount"
    parser.add_argument("--participant", metavar="NAME", type=command_line.parse_participant, help=words)
    add_quiet_option(parser)


def add_quiet_option(parser: ArgumentParser) -> None:
    parser.add_argument("--quiet", action="store_true", help="leave out notes on standard error; faults are still printed")


def add_scenarios_command(commands: "_SubParsersAction[Parser]", call: Callable[[Namespace], int], epilog: str) -> None:
    parser = add_command_parser(commands, call, "scenarios", epilog, "the results of many scenarios")
    add = parser.add_argument
    words = "a table with the column scenario and those of a table of orders, or of commands with the column what (CSV or Excel)"
    add("scenarios", metavar="SCENARIOS", nargs="?", help=words)
    words = "the table that is printed for each scenario (default: welfare; with --sample the blocks over all scenarios)"
    add("--rows", choices=scenarios.TABLES, help=words)
    words = "only this participant's rows; with --sample, its orders stay"
    add("--participant", metavar="NAME", type=command_line.parse_participant, help=words)
    add("--order", metavar="NAME", type=order_name_and_advice, help="only this order of the participant")
    add("--jobs", metavar="N", type=parse_jobs, help="the number of clearings at the same time (default: the number of processors)")
    add("--sample", metavar="N", type=parse_sample_count, help="random scenarios instead of a table")
    add("--seed", metavar="WORD", help="the seed of the random scenarios (default: 1)")
    add("--price-sd", metavar="EUR", type=parse_standard_deviation, help="the standard deviation of the changes of limits (default: 3)")
    words = "the standard deviation of the factor of volumes (default: 0.1)"
    add("--volume-sd", metavar="SHARE", type=parse_standard_deviation, help=words)
    add("--cluster", metavar="ADDRESS", help="the scheduler of a dask cluster to run on, such as tcp://10.0.0.1:8786; with tls:// the"
        " certificates are those of ~/.config/dask or /etc/dask")
    add_quiet_option(parser)


def parse_standard_deviation(word: str) -> float:
    if not re.fullmatch(r"[0-9]{1,4}(\.[0-9]{1,6})?", word):
        raise ArgumentTypeError(f"{text.quoted(word)} should be a number from 0 to 9999, such as 0.1")
    return float(word)


def is_picture_name(path: str) -> bool:
    return path.lower().endswith((".svg", ".png"))


def refuse_wrong_scenario_options(args: Namespace) -> None:
    """Ends the tool if the options of scenarios can't be used together."""
    def stop(words: str) -> NoReturn:
        raise exits.Stop(words, exits.COMMAND_LINE)

    drawn = {"--seed": args.seed, "--price-sd": args.price_sd, "--volume-sd": args.volume_sd}
    if (args.scenarios is None) == (args.sample is None):
        both = "; for another limit of your own, put an amend into a copy of the journal" if args.sample else ""
        stop(f"give a table of scenarios, or --sample with how many random ones{', not both' * bool(both)}{both}")
    if args.sample is None:
        given = [name for name, value in drawn.items() if value is not None]
        if given:
            stop(f"{given[0]} can't be used without --sample")
        if is_picture_name(args.out):
            stop("a picture can't be drawn without --sample")
        if args.participant and args.rows in (None, "welfare", "prices"):
            stop(f"--participant can't be used with --rows {args.rows or 'welfare'}: give --rows orders or --rows participants")
    elif not args.participant:
        stop("--sample needs --participant, whose orders stay as they are")
    if args.order and not args.participant:
        stop("--order can't be used without --participant")
    if is_picture_name(args.out) and args.rows:
        stop("--rows can't be used with a picture, which shows the blocks over all scenarios")
    if args.rows in ("welfare", "prices") and args.order:
        stop(f"--order can't be used with --rows {args.rows}")
    if args.journal == args.scenarios == "-":
        stop("only one file can be standard input")
