"""The work of each command of tools/whatif."""

import argparse
import collections
import contextlib
import itertools
import json
from argparse import Namespace
from collections.abc import Callable, Iterable, Iterator, Mapping, Sequence

from ..base import place, rules, text
from ..day import day_files
from ..journal.book import Book
from ..journal.journal import Key, Order
from ..runs import by_program, cleared, cluster, engine, errors, which
from ..runs.by_program import Running
from ..runs.cleared import Cleared
from ..tool import command_line, exits, file_io, modules, output
from . import changes, limits, options, scenarios
from .changes import Cells

Given = scenarios.Scenario | scenarios.Listed

GRID = 2_000, 100  # cents per MWh: how far the limits of an hourly order reach from the price, and their distance
MOST_LIMITS = 100_000


def main(description: str, epilog: str) -> int:
    parser = command_line.Parser("whatif", description, epilog)
    commands = parser.add_subparsers(dest="command", metavar="COMMAND", required=True)
    for add, call in (
        (options.add_limit_command, run_and_write_limit),
        (options.add_change_command, run_and_write_change),
        (options.add_scenarios_command, run_and_write_scenarios),
    ):
        add(commands, call, epilog[epilog.index("\nstatuses:") :])
    args = parser.parse_args()
    try:
        return args.call(args)
    except errors.Fault as fault:
        raise exits.Stop(str(fault), status_of(fault)) from None


def status_of(fault: errors.Fault) -> int:
    if isinstance(fault, errors.Wrong):
        return exits.DIFFERS
    is_failure = isinstance(fault, (errors.Unstarted, errors.TimedOut)) or fault.is_failure()
    return exits.FAILED if is_failure else exits.NO_INPUT


def require_and_set_program(args: Namespace) -> None:
    """Ends the tool if there is neither the library nor a program."""
    if args.program or not which.find_library():
        try:
            args.program = by_program.require_program(args.program)
        except errors.Fault:
            unproved = "./dam prove builds it, and --program ./dam takes one that isn't proved"
            made = "the package dam has it" if place.IS_INSTALLED else unproved
            words = f"no program was found: {made}; or name it by --program or the environment variable DAM"
            raise exits.Stop(words, exits.FAILED) from None


def read_closed_book(args: Namespace) -> Book:
    """The book of the journal, which has to be closed."""
    found = day_files.require_journal(args.journal, file_io.read_bytes(args.journal))
    try:
        return changes.book_before_close_or_raise(found)
    except errors.Fault as fault:
        raise exits.Stop(f"{exits.shown(args.journal)}: {fault}") from None


def engine_function(program: str | None, running: Running | None = None) -> Callable[[bytes], bytes | errors.Fault]:
    """The engine that clears a text; a run that fails is a `Fault`."""
    return lambda given: engine.clear_and_return_output_or_fault(given, program, running)


def run_and_write_limit(args: Namespace) -> int:
    """Prints the worst limit at which a block is accepted, to the cent, or why no limit is enough. It adds the prices, the block's surplus,
    the participant's gain and the welfare at that limit and one cent past it, and the other orders whose results differ. The answer is in
    words; with --decimal-comma, or a file whose name ends with .csv or .xlsx, it is a table of one row. For an hourly order it prints the
    results under some limits."""
    output.exec_or_refuse_wrong_options(args, args.journal)
    if args.all == bool(args.order):
        raise exits.Stop("give --order with the order's name, or --all for every block", exits.COMMAND_LINE)
    require_and_set_program(args)
    held = read_closed_book(args)
    if args.all:
        return run_and_write_all_limits(args, held)
    key = args.participant, args.order
    if key not in held.rows:
        raise exits.Stop(unknown_order_text(held, *key))
    if held.rows[key].kind == "hour":
        return run_and_write_samples(args, held, key)
    if (args.least, args.greatest, args.step) != (None,) * 3:
        raise exits.Stop("--from, --to and --step can't be used with a block, whose limit is found exactly", exits.COMMAND_LINE)
    search = limits.LimitSearch(held, key, engine_function(args.program))
    found = search.search_for_worst()
    if args.json:
        data = json.dumps(limits.record(search, found), indent=1) + "\n"
    elif output.is_table_name(args.out) or args.decimal_comma:
        output.write_table("whatif", args, "limits", [limits.HEADS, limits.limit_cells(search, found)], held.periods)
        return exits.DONE
    else:
        data = "".join(f"{line}\n" for line in limits.answer_lines(search, found)).rstrip("\n") + "\n"
    file_io.write_file_or_stdout("whatif", args.out, data.encode())
    return exits.DONE


def unknown_order_text(held: Book, who: str, name: str | None) -> str:
    own = [other for owner, other in held.rows if owner == who]
    if not own:
        return f"{who} has no order in the book"
    blocks = [other for other in own if held.rows[who, other].kind == "block"]
    shown = f"its blocks are {', '.join(blocks)}" if blocks else f"it has {text.counted(len(own), 'hourly order')} and no block"
    return f"{who} has no order {name} in the book: {shown}"


def run_and_write_all_limits(args: Namespace, held: Book) -> int:
    keys = [key for key, order in held.rows.items() if key[0] == args.participant and order.kind == "block"]
    if not keys:
        raise exits.Stop(f"{args.participant} has no block in the book")

    with engine.running_team(args.jobs or engine.count_processors()) as (team, running):

        def search_and_return_row(key: Key) -> Cells:
            search = limits.LimitSearch(held, key, engine_function(args.program, running))
            return limits.limit_cells(search, search.search_for_worst())

        promises = [team.add_job_and_return_promise(search_and_return_row, key) for key in keys]
        rows = list(engine.iterate_with_bar((promise.result() for promise in promises), len(keys), "block"))
    output.write_table("whatif", args, "limits", [limits.HEADS, *rows], held.periods)
    return exits.DONE


def run_and_write_samples(args: Namespace, held: Book, key: Key) -> int:
    """An hourly order under a grid of limits, as a table."""
    search = limits.LimitSearch(held, key, engine_function(args.program))
    period = held.rows[key].volumes[0][0]
    price = search.capture_day(search.order.price).prices[period - 1]
    reach, step = GRID
    step = step if args.step is None else args.step
    least = max(price - reach, rules.LOWEST_PRICE) if args.least is None else args.least
    greatest = min(price + reach, rules.HIGHEST_PRICE) if args.greatest is None else args.greatest
    if step <= 0 or least > greatest:
        raise exits.Stop("--from should be at most --to, and --step more than 0", exits.COMMAND_LINE)
    grid = sorted({*range(least, greatest + 1, step), search.order.price})
    if len(grid) > MOST_LIMITS:
        raise exits.Stop(f"{len(grid):,} limits are too many: give a larger --step", exits.COMMAND_LINE)
    texts = [search.bytes_with(cents) for cents in grid]
    with contextlib.closing(engine.iterate_outputs_or_faults(texts, args.jobs, program=args.program)) as answers:
        for cents, printed in zip(grid, engine.iterate_with_bar(answers, len(grid), "limit")):
            search.keep_output_or_raise(cents, printed)
    rows = [["limit_eur_mwh", "executed_mw", "price_eur_mwh", "surplus_eur", "welfare_eur"]]
    for cents in grid:
        day = search.capture_day(cents)
        amounts = [text.eur(amount, day.hours, thousands="") for amount in (day.surplus(key), day.welfare)]
        rows.append([text.eur_per_mwh(cents), text.mw(day.executed(key)), text.eur_per_mwh(day.prices[period - 1]), *amounts])
    own = search.order.price
    extra = "" if own in range(least, greatest + 1, step) else f", one of them the order's own, {text.shown_price(own)} EUR/MWh"
    count = text.counted(len(grid), "limit") + extra
    exits.print_note("whatif", f"sampled at {count}: between them the result may be another, since {limits.NO_LAW}")
    output.write_table("whatif", args, "samples", rows, held.periods)
    return exits.DONE


def run_and_write_change(args: Namespace) -> int:
    """Prints the differences if further commands are put before the close: the welfare, prices and volumes, and each order's executed
    energy and amount, in the table of tools/compare."""
    output.exec_or_refuse_wrong_options(args, args.journal, args.changes)
    if args.journal == args.changes == "-":
        raise exits.Stop("only one file can be standard input", exits.COMMAND_LINE)
    require_and_set_program(args)
    before = read_closed_book(args)
    try:
        further, notes = changes.parse_changes_and_notes(file_io.read_bytes(args.changes), before.periods)
        for note in [] if args.quiet else notes:
            exits.print_note("whatif", f"{exits.shown(args.changes)}: {note}")
        books = [before, changes.book_with_commands_or_raise(before, further)]
    except errors.Fault as fault:
        raise exits.Stop(f"{exits.shown(args.changes)}: {fault}") from None
    rows = list(capture_difference_rows(books, args.participant, args.program))
    if len(rows) == 1 and not args.quiet:
        exits.print_note("whatif", "nothing differs")
    output.write_table("whatif", args, "changes", rows, before.periods)
    return exits.DONE


def capture_difference_rows(books: Sequence[Book], who: str | None, program: str | None) -> Iterator[Cells]:
    """The differences between the results of two books, as a table: of one participant, or of all."""
    if who is not None and not any(who == owner for one in books for owner, _ in one.rows):
        raise errors.Fault(f"{who or text.quoted(who)} has no order in the book, before or after the changes")
    printed = list(engine.iterate_outputs_or_faults([cleared.journal_bytes(one.rows, one.periods) for one in books], program=program))
    faults = [found for found in printed if isinstance(found, errors.Fault)]
    if faults:
        raise faults[0]
    names = cleared.THE_DAY, f"{cleared.THE_DAY} with the changes"
    named = [(one, found, name) for one, found, name in zip(books, printed, names) if isinstance(found, bytes)]
    before, after = (Cleared.of_text(one.rows, one.periods, found, name) for one, found, name in named)
    return changes.difference_rows(before, after, who)


def refuse_without_asked_order(args: Namespace, books: Iterable[Iterable[Key]]) -> None:
    """Ends the tool if no book has an order that is asked for."""
    is_asked = key_test(args)
    if not any(map(is_asked, itertools.chain.from_iterable(books))):
        name = f" {args.order}" if args.order else ""
        raise exits.Stop(f"{args.participant} has no order{name} in the book or in a scenario")


def require_asked_blocks(args: Namespace, held: Book) -> list[Key]:
    if args.order and (args.participant, args.order) not in held.rows:
        raise exits.Stop(unknown_order_text(held, args.participant, args.order))
    if not any(who == args.participant for who, _ in held.rows):
        raise exits.Stop(unknown_order_text(held, args.participant, None))
    blocks = [key for key, order in held.rows.items() if key[0] == args.participant and order.kind == "block"]
    own = [key for key in blocks if args.order in (None, key[1])]
    if not own:
        words = f"{args.order} of {args.participant} isn't a block" if args.order else f"{args.participant} has no block in the book"
        raise exits.Stop(f"{words}: give --rows orders or --rows participants")
    return own


@contextlib.contextmanager
def connecting_executor(args: Namespace) -> Iterator[tuple[cluster.Cluster | None, Callable[..., engine.Answer]]]:
    """The executor of the cluster that is named, or None; and the engine that it calls."""
    if args.cluster is None:
        yield None, engine.clear_and_return_answer
        return
    with cluster.connecting(args.cluster) as executor:
        import dam_tools

        yield executor, dam_tools.engine.clear_and_return_answer  # by the name that it has in the package


def run_and_write_scenarios(args: Namespace) -> int:
    """Prints the results of many scenarios. In a table, each scenario has a name, with the orders or commands that it adds to the journal.
    With --sample the scenarios are random: the orders of all but one participant have other limits and volumes. An output that ends with
    .svg or .png is a picture of these."""
    output.exec_or_refuse_wrong_options(args, args.journal, args.scenarios)
    options.refuse_wrong_scenario_options(args)
    if options.is_picture_name(args.out):
        modules.exec_or_require_modules("matplotlib")
    if args.sample:
        modules.exec_or_require_modules("numpy")
    if args.cluster is not None:
        modules.exec_or_require_modules("distributed")
    require_and_set_program(args)
    held = read_closed_book(args)
    given: Iterable[Given]
    if args.sample is None:
        given = table = read_scenarios_and_print_notes(args, held)
        count = len(table)
    else:
        given, count = draw_scenarios(args, held), args.sample
    if args.sample and not args.rows:
        over = scenarios.Distribution(held, require_asked_blocks(args, held))
        clear_and_add_scenarios_or_stop(over, args, held, given, count)
        write_distribution(args, held, over)
    else:
        output.write_table("whatif", args, "scenarios", capture_scenario_rows(args, held, given, count), held.periods)
    return exits.DONE


def read_scenarios_and_print_notes(args: Namespace, held: Book) -> scenarios.Table:
    data = file_io.read_bytes(args.scenarios)
    given, notes = scenarios.parse_table_and_notes(exits.shown(args.scenarios), data, held)
    for note in [] if args.quiet else notes:
        exits.print_note("whatif", f"{exits.shown(args.scenarios)}: {note}")
    if args.participant:
        refuse_without_asked_order(args, itertools.chain([held.rows], (scenario.rows() for scenario in given)))
    return given


def draw_scenarios(args: Namespace, held: Book) -> Iterator[scenarios.Scenario]:
    """As many random scenarios as the options ask for."""
    sds = [3 if args.price_sd is None else args.price_sd, 0.1 if args.volume_sd is None else args.volume_sd]
    sampler = scenarios.Sampler(held, args.participant, args.seed or "1", sds[0] * 100, sds[1])
    return sampler.draw_scenarios(args.sample)


def capture_scenario_rows(args: Namespace, held: Book, given: Iterable[Given], count: int) -> list[Cells]:
    """The rows of the table of the scenarios, of which the first is the head."""
    make, heads = scenarios.TABLES[args.rows or "welfare"]
    rows: list[Cells] = [["scenario", *heads]]
    with clearing_scenarios(args, held, given, count) as (before, printed_scenarios):
        for scenario, printed in printed_scenarios:
            after = require_day(f"scenario {scenario.name}", scenario.rows(), held.periods, printed)
            rows.extend(make(scenario.name, before, after, key_test(args)))
    return rows


def clear_and_add_scenarios_or_stop(over: scenarios.Distribution, args: Namespace, held: Book, given: Iterable[Given], count: int) -> None:
    """Clears the scenarios, and adds their results to a distribution. One of `scenarios.EACH` is checked by all rules."""
    with clearing_scenarios(args, held, given, count) as (_, printed_scenarios):
        for number, (scenario, printed) in enumerate(printed_scenarios):
            name = f"scenario {scenario.name}"
            if number % scenarios.EACH == 0:
                require_day(name, scenario.rows(), held.periods, printed)
            over.add_or_raise(name, require_printed(name, printed))


@contextlib.contextmanager
def clearing_scenarios(
    args: Namespace, held: Book, given: Iterable[Given], count: int
) -> Iterator[tuple[Cleared, Iterator[tuple[Given, bytes | errors.Fault]]]]:
    """The cleared day as it was; and each scenario with the output of `dam clear` for it, or its fault, in their order."""
    waiting: collections.deque[Given] = collections.deque()

    def iterate_texts() -> Iterator[bytes]:
        yield cleared.journal_bytes(held.rows, held.periods)
        for scenario in given:
            waiting.append(scenario)
            yield scenario.text

    with contextlib.ExitStack() as ends:
        executor, call = ends.enter_context(connecting_executor(args))
        program = args.program if args.cluster is None else None
        answers = ends.enter_context(contextlib.closing(engine.iterate_outputs_or_faults(iterate_texts(), args.jobs, executor, program, call)))
        before = require_day("the day as it was", held.rows, held.periods, next(answers))
        shown = engine.iterate_with_bar(answers, count, "scenario", args.quiet)
        yield before, ((waiting.popleft(), printed) for printed in shown)


def key_test(args: Namespace) -> Callable[[tuple[str, str | None]], bool]:
    """Whether an order, or a participant's name with None, is asked for."""
    return lambda key: args.participant in (None, key[0]) and (key[1] is None or args.order in (None, key[1]))


def require_printed(name: str, printed: bytes | errors.Fault) -> bytes:
    """The printed text; ends the tool if it is a fault."""
    if isinstance(printed, errors.Fault):
        raise exits.Stop(f"{text.safe(name)}: {printed}", status_of(printed))
    return printed


def require_day(name: str, rows: Mapping[Key, Order], periods: int, printed: bytes | errors.Fault) -> Cleared:
    """The cleared day of a printed text, which has to be no fault, and to obey the rules."""
    return Cleared.of_text(rows, periods, require_printed(name, printed), text.safe(name))


def write_distribution(args: Namespace, held: Book, over: scenarios.Distribution) -> None:
    """The table of the blocks over all scenarios, or a picture and then the table on standard output."""
    if not args.quiet:
        for line in scenarios.distribution_lines(over):
            exits.print_note("whatif", line)
    if options.is_picture_name(args.out):
        from . import scenario_picture

        data = scenario_picture.render_picture(over, args.out.lower().rpartition(".")[2])
        file_io.write_file_or_stdout("whatif", args.out, data)
        args = argparse.Namespace(**{**vars(args), "out": "-"})
    output.write_table("whatif", args, "distribution", over.table_rows(), held.periods)
