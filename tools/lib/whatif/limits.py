"""The worst limit at which a block is accepted, by bisection: a better limit keeps a block (a law of docs/MARKET.md, which is proved). And
an hourly order under limits of a grid, since no such law holds of one. And the report of a worst limit: words with a table, a record, and
a row of a table."""

from collections.abc import Callable, Iterator
from typing import NamedTuple

from ..base import rules, text
from ..base.json_value import JsonObject
from ..day import day_files
from ..journal import journal
from ..journal.book import Book
from ..journal.journal import Key, Order
from ..process.progress import StepBar
from ..results import decisions
from ..results.selection import Row
from ..runs import engine
from ..runs.by_program import Running
from ..runs.cleared import THE_DAY, Cleared, journal_bytes
from ..runs.errors import Fault, Wrong
from ..tool import exits, output
from . import changes
from .changes import Cells

COUNT = rules.HIGHEST_PRICE - rules.LOWEST_PRICE + 1  # of limits
# A bisection over the limits on one side of a block's own, and none of them, needs at most as many clearings.
MOST_CLEARINGS = (COUNT - 1).bit_length()
LAW = "a better limit keeps a block: proved, see docs/MARKET.md"
NO_LAW = "no law says that a better limit keeps an hourly order, see docs/MARKET.md"
MARK = "?"  # in place of a limit: no journal has it
BETTER = {"buy": "higher", "sell": "lower"}
BROKEN = "the program's results break the rules"
MOST_OTHERS = 20  # orders whose result differs that are named
HEADS = ["participant", "order", "side", "price_eur_mwh", "outcome", "worst_limit_eur_mwh", "surplus_eur", "welfare_eur", "others", "why"]


def limit_at(side: str, place: int) -> int:
    """A limit by its place in the range, from the best."""
    return rules.HIGHEST_PRICE - place if side == "buy" else rules.LOWEST_PRICE + place


def place_of(side: str, limit: int) -> int:
    return rules.HIGHEST_PRICE - limit if side == "buy" else limit - rules.LOWEST_PRICE


class WorstLimit(NamedTuple):
    """The worst limit at which a block is accepted, in cents per MWh, None if there is none; the clearing at it, and one cent past it,
    or at the best limit if none is enough; None at a place past the range. Their results were checked: by the law, no other limit has
    such a pair, whatever the other clearings printed. `clearings` is how many were needed apart from the day as it was."""

    limit: int | None
    at: Cleared | None
    past_limit: int | None
    past: Cleared | None
    clearings: int


class Case(NamedTuple):
    name: str
    limit: int
    day: Cleared


class LimitSearch:
    """The clearings of a book with other limits of an order. `clear` gives the bytes of the results of a text, or a `Fault`."""

    def __init__(self, held: Book, key: Key, clear: Callable[[bytes], bytes | Fault]) -> None:
        self.held, self.key, self.clear = held, key, clear
        self.order = held.rows[key]
        self.before, self.behind = journal_bytes(self.rows_with(MARK), held.periods).split(MARK.encode())
        self.seen: dict[int, Cleared] = {}  # by limit, as the next one
        self.printed: dict[int, bytes] = {}

    def rows_with(self, limit: int | str) -> dict[Key, Order]:
        """The orders of the book with this limit."""
        return {**self.held.rows, self.key: self.order._replace(price=limit)}  # type: ignore[arg-type]

    def bytes_with(self, limit: int) -> bytes:
        return b"%s%d%s" % (self.before, limit, self.behind)

    def capture_output(self, limit: int) -> bytes:
        """The printed results with a limit, kept or by a run."""
        if limit not in self.printed:
            self.keep_output_or_raise(limit, self.clear(self.bytes_with(limit)))
        return self.printed[limit]

    def capture_day(self, limit: int) -> Cleared:
        """The clearing with a limit, kept or by a run. If its results break the rules, that is a fault."""
        if limit not in self.seen:
            more = "" if limit == self.order.price else f" with a limit of {text.shown_price(limit)} EUR/MWh"
            self.seen[limit] = Cleared.of_text(self.rows_with(limit), self.held.periods, self.capture_output(limit), f"{THE_DAY}{more}")
        return self.seen[limit]

    def own_day(self) -> Cleared:
        """The clearing as it was, which `search_for_worst` keeps."""
        return self.seen[self.order.price]

    def keep_output_or_raise(self, limit: int, printed: bytes | Fault) -> None:
        """Keeps the output of a run with a limit. A run that failed is a fault."""
        if isinstance(printed, Fault):
            raise printed
        self.printed[limit] = printed

    def run_and_see_acceptance(self, limit: int) -> bool:
        """Whether the block is accepted with a limit."""
        output, start = self.capture_output(limit), f"\nblock,{self.key[0]},{self.key[1]},".encode()
        word = output[output.find(start) + len(start) :].split(b",", 1)[0] if start in output else None
        if word not in (b"accepted", b"rejected"):
            raise Fault("the program printed no results of this journal")
        return word == b"accepted"

    def search_for_worst_and_next(self) -> tuple[int | None, int | None]:
        """The worst limit of a block, and the one past it; None for one that isn't in the range. The places of the limits that accept it
        are those before some place."""
        side, own = self.order.side, self.order.price
        low, high = (place_of(side, own) + 1, COUNT) if self.run_and_see_acceptance(own) else (0, place_of(side, own))
        while low < high:
            middle = (low + high) // 2
            if self.run_and_see_acceptance(limit_at(side, middle)):
                low = middle + 1
            else:
                high = middle
        return limit_at(side, low - 1) if low else None, limit_at(side, low) if low < COUNT else None

    def search_for_worst(self) -> WorstLimit:
        """The worst limit at which the block is accepted, with the clearings that show it."""
        self.capture_day(self.order.price)
        before = len(self.printed)
        limit, past = self.search_for_worst_and_next()
        at, after = (None if end is None else self.capture_day(end) for end in (limit, past))
        return WorstLimit(limit, at, past, after, len(self.printed) - before)


def never_accepted_text(search: LimitSearch, worst: WorstLimit) -> str:
    """Why a block is rejected with the best limit of the range."""
    assert worst.past_limit is not None  # it is the best of the range
    read = journal.parse_journal(search.bytes_with(worst.past_limit))
    day = day_files.Day(read, search.printed[worst.past_limit])
    place = [(block.who, block.name) for block in day.problem.blocks].index(search.key)
    why = decisions.decisions(day.problem, day.published.accepted, day.outcome)[place].why
    return why if why.startswith("with ") else f"it {why}"  # 'with' its family, 'it' would gain


def other_differing_orders(search: LimitSearch, worst: WorstLimit) -> list[Key]:
    """The orders whose result is another at the limit than one cent past it, without the block."""
    if worst.at is None or worst.past is None:
        return []
    return changes.differing_orders(worst.past, worst.at, search.key)


def limit_cells(search: LimitSearch, worst: WorstLimit) -> Cells:
    """The cells of `HEADS` for a block."""
    order, own = search.order, search.own_day()
    cells = [*search.key, order.side, text.eur_per_mwh(order.price), own.outcome(search.key)]
    if worst.limit is None or worst.at is None:
        return [*cells, "", "", "", "", f"no limit of the range is enough: with the best, {never_accepted_text(search, worst)}"]
    amounts = [text.eur(amount, own.hours, thousands="") for amount in (worst.at.surplus(search.key), worst.at.welfare)]
    why = "every limit of the range is enough" if worst.past is None else ""
    return [*cells, text.eur_per_mwh(worst.limit), *amounts, len(other_differing_orders(search, worst)), why]


def case_days(search: LimitSearch, worst: WorstLimit) -> Iterator[Case]:
    """The days to compare, each with its name: as it was, at the limit, and one cent past it."""
    own = search.order.price
    yield Case("as it was", own, search.own_day())
    if worst.limit is not None and worst.at is not None:
        yield Case("at the worst limit", worst.limit, worst.at)
    if worst.past_limit is not None and worst.past is not None:
        yield Case("one cent past it" if worst.limit is not None else "at the best limit", worst.past_limit, worst.past)


def record(search: LimitSearch, worst: WorstLimit) -> JsonObject:
    """The same for programs."""
    own = search.order.price

    def case(name: str, limit: int, day: Cleared) -> JsonObject:
        amounts = day.surplus(search.key), day.gain(search.key[0]), day.welfare
        surplus, gain, welfare = (float(text.eur(amount, day.hours, "")) for amount in amounts)
        numbers = {"limit_eur_mwh": limit / 100, "accepted": day.orders[search.key], "surplus_eur": surplus, "gain_eur": gain}
        numbers["welfare_eur"] = welfare
        traded = [volume > 0 for volume in day.volumes]
        return {"case": name, **numbers, "prices_eur_mwh": [price / 100 for price in day.prices], "traded": traded}

    def other(key: Key) -> JsonObject:
        energies = [float(text.energy(day.executed(key), day.hours, "")) for day in (worst.past, worst.at) if day]
        return {"participant": key[0], "order": key[1], "past_mwh": energies[0], "at_mwh": energies[1]}

    names = dict(zip(("participant", "order"), search.key))
    return {
        **names,
        "side": search.order.side,
        "price_eur_mwh": own / 100,
        "worst_limit_eur_mwh": None if worst.limit is None else worst.limit / 100,
        "why": limit_cells(search, worst)[-1] or None,
        "clearings": worst.clearings,
        "law": LAW,
        "cases": [case(*each) for each in case_days(search, worst)],
        "others": [other(key) for key in other_differing_orders(search, worst)],
    }


def sentences(search: LimitSearch, worst: WorstLimit) -> Iterator[str]:
    order, who = search.order, " ".join(search.key)
    does, worse = ("buys", "lower") if order.side == "buy" else ("sells", "higher")
    outcome = search.own_day().outcome(search.key)
    energy = text.energy(sum(volume for _, volume in order.volumes), search.own_day().hours)
    yield f"{who} {does} {energy} MWh in a block with a limit of {text.shown_price(order.price)} EUR/MWh, and is {outcome}."
    if worst.limit is None:
        assert worst.past_limit is not None  # it is the best of the range
        best = text.shown_price(worst.past_limit)
        yield f"No limit of the range is enough: with the best, {best} EUR/MWh, {never_accepted_text(search, worst)}."
    elif worst.past is None:
        yield f"Every limit of the range is enough, up to the worst, {text.shown_price(worst.limit)} EUR/MWh."
    else:
        start = f"Its worst limit is {text.shown_price(worst.limit)} EUR/MWh: with it, and with every {BETTER[order.side]} limit"
        yield f"{start}, it is accepted; with a {worse} one it is rejected."
    yield f"This is exact, since {LAW}. It took {text.counted(worst.clearings, 'clearing')} more than the day itself."


def capture_short_sentence(search: LimitSearch) -> str:
    """The worst limit of a rejected block in one sentence."""
    limit = search.search_for_worst().limit
    if limit is None:
        return "With no limit would it have been accepted."
    return f"With a limit of {text.shown_price(limit)} EUR/MWh or {BETTER[search.order.side]} it would have been accepted."


def capture_rejected_sentences_and_print_notes(day: day_files.Day, who: str | None = None, is_asked: bool = True) -> dict[int, str]:
    """The same for each rejected block of a day, or of a participant, by place. If a limit isn't computed, the sentence says so, and why:
    never because of the time that it would take."""
    places = [place for place, block in enumerate(day.problem.blocks) if place not in day.published.accepted and who in (None, block.who)]
    if not places or day.wrong or not is_asked:
        return dict.fromkeys(places, not_computed_text("the results break the rules" if day.wrong else "the page was made without limits"))
    own = engine.clear_and_return_output_or_fault(journal_bytes(day.book.rows, day.problem.periods))
    if words := uncomputable_texts(day, own):
        why, more = words
        exits.print_note("report", f"the limits that rejected blocks needed weren't computed: {why}: {more}")
        return dict.fromkeys(places, not_computed_text(why))
    bar = StepBar("report", len(places), "limits of rejected blocks")
    with engine.running_team(engine.count_processors()) as (team, running):
        was = Cleared.of_day(day)  # which the program has too
        jobs = [(day.book, day.problem.blocks[place], own, was, running) for place in places]
        waiting = [team.add_job_and_return_promise(capture_sentence_or_print_note, *job) for job in jobs]
        try:
            return {place: step_and_return(promise.result(), bar) for place, promise in zip(places, waiting)}
        finally:
            bar.erase()


def step_and_return(words: str, bar: StepBar) -> str:
    bar.count_and_show()
    return words


def not_computed_text(why: str) -> str:
    return f"Its limit wasn't computed: {why}."


def uncomputable_texts(day: day_files.Day, own: bytes | Fault) -> tuple[str, str] | None:
    """Why no limit can be computed, in few words and in more, if the program failed on a day or printed other results than its own; None if
    it printed the same."""
    try:
        if isinstance(own, Fault):
            raise own
        if Cleared.of_text(day.book.rows, day.problem.periods, own).orders == Cleared.of_day(day).orders:
            return None
        return "the program has other results", f"{day_files.SEE_AUDIT} --best"
    except Wrong as fault:
        return BROKEN, str(fault)
    except Fault as fault:
        return "the program couldn't clear the day", str(fault)


def capture_sentence_or_print_note(held: Book, block: Row, own: bytes | Fault, was: Cleared, running: Running) -> str:
    """The sentence of a page on a rejected block, whose day is printed as `own`, and was checked."""
    search = LimitSearch(held, (block.who, block.name), lambda given: engine.clear_and_return_output_or_fault(given, running=running))
    search.keep_output_or_raise(block.order.price, own)
    search.seen[block.order.price] = was
    try:
        return capture_short_sentence(search)
    except Fault as fault:
        exits.print_note("report", f"the limit of {' '.join(search.key)} wasn't computed: {fault}")
        return not_computed_text(BROKEN if isinstance(fault, Wrong) else "a run of the program failed")


def case_rows(search: LimitSearch, worst: WorstLimit) -> Iterator[list[str]]:
    """The numbers of the block and of the day in each case, and the prices that concern the block or differ."""
    days = list(case_days(search, worst))
    yield ["", *(name for name, _, _ in days)]
    yield ["limit, EUR/MWh", *(text.shown_price(limit) for _, limit, _ in days)]
    yield ["result", *(day.outcome(search.key) for _, _, day in days)]
    yield ["surplus at these prices, EUR", *(text.amount(day.surplus(search.key), day.hours) for _, _, day in days)]
    who = search.key[0]
    yield [f"gain of {who}, EUR", *(text.amount(day.gain(who), day.hours) for _, _, day in days)]
    yield ["welfare, EUR", *(text.amount(day.welfare, day.hours) for _, _, day in days)]
    own = {period for period, _ in search.order.volumes}
    for period, prices in enumerate(zip(*(changes.traded_prices(day) for _, _, day in days)), 1):
        if period in own or len(set(prices)) > 1:
            yield [f"price of period {period}, EUR/MWh", *("no trade" if price is None else text.shown_price(price) for price in prices)]


def other_lines(search: LimitSearch, worst: WorstLimit) -> Iterator[str]:
    """The orders whose result differs between the limit and one cent past it."""
    keys = other_differing_orders(search, worst)
    if worst.at is None or worst.past is None:
        return
    if not keys:
        yield "No other order's result differs between the worst limit and one cent past it."
        return
    yield f"The result of {text.counted(len(keys), 'other order')} differs. Executed, in MWh, one cent past the limit and at it:"
    rows = [[" ".join(key), *(text.energy(day.executed(key), day.hours) for day in (worst.past, worst.at))] for key in keys[:MOST_OTHERS]]
    yield from (f"  {line}" for line in output.aligned_lines(rows, {0}))
    if len(keys) > MOST_OTHERS:
        yield f"  and {len(keys) - MOST_OTHERS} more: --json has all"


def answer_lines(search: LimitSearch, worst: WorstLimit) -> list[str]:
    return [*sentences(search, worst), "", *output.aligned_lines(case_rows(search, worst), {0}), "", *other_lines(search, worst)]
