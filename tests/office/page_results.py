"""The close: the results, the prices and the totals on the page."""

import asyncio
from collections.abc import Sequence

from office.page_actions import read_cells, read_text, type_into
from shared.browser import BrowserTab
from shared.counts import Counts
from shared.served_office import ServedOffice

# Whether a part is on the screen as a whole, and nothing covers it.
ON_SCREEN = """(() => { const part = byId('%s'), {top, bottom, left} = part.getBoundingClientRect();
  const found = document.elementFromPoint(left + 2, (top + bottom) / 2);
  return 0 <= top && top < bottom && bottom <= innerHeight && part.contains(found); })()"""
# Tables at which the keyboard stops, and which don't scroll, or that scroll without a stop.
STOPS = """[...document.querySelectorAll('.wide')].filter((one) => one.checkVisibility()).filter((one) => (one.tabIndex === 0)
  !== (one.scrollWidth > one.clientWidth || one.scrollHeight > one.clientHeight)).map((one) => one.textContent.slice(0, 40))"""


async def check_close_and_results(counts: Counts, page: BrowserTab, office: ServedOffice, who: str, other: str) -> None:
    office.client_of(other).enter(office.day, f"submit,{other},B,hour,buy,10000,8:300,,", f"submit,{other},S,hour,sell,1000,1:200,,")
    await page.evaluate("announce(601); announce(599)")
    counts.check("the time left is announced", await read_text(page, "announced") == "10 minutes left")
    await page.evaluate("announce(61); announce(59)")
    counts.check("and again", await read_text(page, "announced") == "1 minute left")
    await type_into(page, "name", "LATE")
    await asyncio.to_thread(office.close_day_and_return_seconds)
    await page.wait_until("document.activeElement.id === 'results-title'")
    counts.check("the focus is at the results, which are seen", await page.evaluate(ON_SCREEN % "results-title"))
    counts.check(
        "an unfinished order isn't lost without a word", await read_text(page, "unsent") == "Your unfinished order LATE wasn't sent."
    )
    told = await page.evaluate("[byId('message').textContent, byId('message').className, document.querySelector('#message a').hash]")
    counts.check(f"the results are no fault: {told}", told == ["The results are out.", "right", "#results"])
    statement, prices, commands = [await read_cells(page, name) for name in ("statement", "prices", "commands-table")]
    found = {row[0]: row[1:] for row in statement}
    in_book = ["UNIT-8", "RUN", "MORE", "T-1", "T-2", "T-3", "ONCE"]
    counts.check(f"each order has its result, in the order of the book: {list(found)}", [row[0] for row in statement] == in_book)
    unit = ["hourly", "sell", "8", "61.00", "50.1", "30.0", "61.00", "+1,830.00", "executed in part"]
    counts.check(
        f"in a trader's words: {found['UNIT-8']}",
        found["UNIT-8"][:9] == unit and found["ONCE"][8] == "not executed" and all(row[9] for row in found.values()),
    )
    counts.check("a block has its runs of periods", [found[name][2] for name in ("T-1", "T-2")] == ["1-3", "1; 3"])
    wraps = await page.evaluate("getComputedStyle(document.querySelector('#statement td[data-head=periods]')).whiteSpace")
    counts.check("many runs don't make the table broader", wraps == "normal")
    numbers = [row[0] for row in commands]
    counts.check("commands have their own numbers", numbers == [str(number) for number in range(len(commands), 0, -1)])
    counts.check("and no other", "command 2" not in await read_text(page, "statement"))
    counts.check("each period has its price", len(prices) == 24 and prices[7] == ["8 (07:00)", "61.00", "30.0"])
    counts.check(f"also one without trade: {prices[8]}", prices[8] == ["9 (08:00)", "1,750.00 (nominal)", "0.0"])
    totals = await page.evaluate("[...document.querySelectorAll('#totals dd')].map((one) => one.textContent)")
    executed = [float(row[7].replace(",", "").replace("\u2212", "-")) for row in found.values() if row[7]]
    counts.check(f"the totals are the sums: {totals}", totals == expected_totals(executed))
    position = await read_cells(page, "position")
    counts.check(f"the position has each period of one's own: {position}", ["8 (07:00)", "0.0", "30.0", "\u221230.0"] in position)
    saved = (await page.evaluate("csv(state.results)")).splitlines()
    counts.check(f"the results can be saved: {saved[1]}", saved[1].startswith("UNIT-8,hour,sell,61,8,50.1,,,in part,30,1830,at-the-price,"))
    counts.check(
        "a cell isn't a formula", await page.evaluate("[field('-A'), field(-1), field('a,\"b')].join(' ')") == "'-A -1 \"a,\"\"b\""
    )
    days = await page.evaluate("[...byId('days').options].map((one) => one.textContent)")
    counts.check(f"the list of days says that it is closed: {days}", days == [f"{office.day} (results)"])
    counts.check("a demo's button isn't there", await page.evaluate("byId('demo-close').hidden"))
    wrong = await page.evaluate(STOPS)
    counts.check(f"the keyboard stops at tables that scroll, and at no others: {wrong}", wrong == [])
    counts.check("ties are explained", "in the order of the book" in await read_text(page, "results"))
    counts.check("nothing of another's", f"{other}," not in await page.evaluate("document.body.textContent"))
    counts.check("orders can't be entered any more", await page.evaluate("document.getElementById('entry').hidden"))
    counts.check(
        "the journal isn't offered", await page.evaluate("byId('journal').hidden") and "hasn't" in await read_text(page, "no-journal")
    )
    await asyncio.to_thread(office.run_tool, "publish", office.folder)
    await page.wait_until("byId('no-journal').hidden && byId('journal').checkVisibility()")
    offered = await page.evaluate("fetch(byId('journal').href).then((answer) => answer.text())")
    counts.check("until it is published", offered.startswith("day,24,") and offered.endswith("close,,,,,,,,\n"))


def expected_totals(amounts: Sequence[float]) -> list[str]:
    """What is received, paid, and both together, as the page writes them."""
    received, paid = sum(max(0, one) for one in amounts), sum(min(0, one) for one in amounts)
    sign = "+" if received + paid > 0 else "\u2212"
    return [f"{received:,.2f}", f"{-paid:,.2f}", f"{sign}{abs(received + paid):,.2f}"]
