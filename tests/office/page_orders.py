"""Orders by the keyboard: entered, amended, cancelled, and half written."""

from office.page_actions import answer, choose, click, focus_on, read_cells, read_text, type_into, wait_for_rows
from office.page_signing_in import BLOCK, FIELDS
from shared.browser import BrowserTab
from shared.counts import Counts


async def check_entering(counts: Counts, page: BrowserTab, who: str) -> None:
    await focus_on(page, "name")
    await page.type_text("unit-8")
    await choose(page, "side", "sell")
    await type_into(page, "price", "60.5")
    await choose(page, "period", 8)
    await type_into(page, "volume", "50,1")
    await page.press_key("Enter", 13)
    await wait_for_rows(page, "orders-table", 1)
    first = (await read_cells(page, "commands-table"))[0]
    counts.check(f"an hourly order: {first}", first == ["1", "enter", "UNIT-8", "done", "hourly", "sell", "60.50", "8: 50.1", "", "2"])
    entered = "UNIT-8 entered: sell, 50.1 MW in period 8, at 60.50 EUR/MWh. It is on the disk, with a signed receipt."
    counts.check("the entry says the order", await read_text(page, "message") == entered)
    counts.check(
        "the next order has its side, and the focus is on its name",
        await page.evaluate("byId('side').value + document.activeElement.id") == "sellname",
    )
    await click(page, "input[value=block]")
    await type_into(page, "name", "RUN")
    await choose(page, "side", "buy")
    await type_into(page, "price", "-3")
    await choose(page, "fill-from", 8)
    await choose(page, "fill-to", 9)
    await type_into(page, "fill-volume", "30")
    await page.press_key("Enter", 13)
    counts.check("Enter in the volume fills in", await page.evaluate("cells().map((one) => one.value).join(' ').trim()") == "30 30")
    counts.check("and empties it", await page.evaluate("byId('fill-volume').value") == "")
    await type_into(page, "group", "eve")
    await click(page, "#enter")
    await wait_for_rows(page, "orders-table", 2)
    entered = "RUN entered: block, buy, 30.0 MW in periods 8-9, at -3.00 EUR/MWh, group EVE. It is on the disk, with a signed receipt."
    counts.check("its message", await read_text(page, "message") == entered)
    counts.check("a block", (await read_cells(page, "commands-table"))[0][4:9] == ["block", "buy", "-3.00", "8-9: 30.0", "group EVE"])
    counts.check(
        "the next order is a block too",
        await page.evaluate(FIELDS) == BLOCK and await page.evaluate("byId('fill-to').value + byId('side').value") == "9buy",
    )
    await type_into(page, "name", "MORE")
    await type_into(page, "price", "75")
    await choose(page, "parent", "RUN")
    await page.evaluate("document.querySelector('#grid input[data-period=\"9\"]').focus()")
    await page.type_text("5")
    await page.press_key("Enter", 13)
    counts.check("Enter in a period goes to the next one", await page.evaluate("document.activeElement.dataset.period") == "10")
    await click(page, "#enter")
    await wait_for_rows(page, "orders-table", 3)
    counts.check("a link", (await read_cells(page, "commands-table"))[0][6:9] == ["75.00", "9: 5.0", "parent RUN"])
    linked = "MORE entered: block, buy, 5.0 MW in period 9, at 75.00 EUR/MWh, parent RUN. It is on the disk, with a signed receipt."
    counts.check("which its message names", await read_text(page, "message") == linked)


async def check_changing(counts: Counts, page: BrowserTab) -> None:
    await check_kept_draft(counts, page)
    await click(page, '[aria-label="Amend UNIT-8"]')
    looks = await page.evaluate("['name', 'side', 'price'].map((id) => getComputedStyle(byId(id)).backgroundColor)")
    counts.check(
        "an amend says how to change the rest",
        "cancel the order" in await read_text(page, "fixed") and await page.evaluate("byId('fixed').checkVisibility()"),
    )
    counts.check("and that the order keeps its place", "keeps its place" in await read_text(page, "fixed"))
    counts.check("fields that can't be changed look so", looks[0] == looks[1] != looks[2])
    await type_into(page, "price", "61")
    await page.press_key("Enter", 13)
    await wait_for_rows(page, "commands-table", 4)
    first, *_, last = await read_cells(page, "commands-table")
    counts.check("an amend", first[1:4] + first[6:8] == ["amend", "UNIT-8", "done", "61.00", "8: 50.1"])
    amended = "UNIT-8 amended: 50.1 MW in period 8, at 61.00 EUR/MWh. It is on the disk, with a signed receipt."
    counts.check("the message says it", await read_text(page, "message") == amended)
    counts.check("what is changed says by which command of one's own", last[3] == "done; changed by your command 4" and last[-1] == "2")
    await click(page, '[aria-label="Cancel RUN"]')
    await answer(page, "no")
    await page.evaluate("look()")
    counts.check("a cancel asks first", len(await read_cells(page, "commands-table")) == 4 and not await page.evaluate("byId('sure').open"))
    await click(page, '[aria-label="Cancel RUN"]')
    await answer(page, "yes")
    await wait_for_rows(page, "commands-table", 5)
    reason = "blocks name this one as their parent"
    counts.check("a refusal is in words", (await read_cells(page, "commands-table"))[0][1:4] == ["cancel", "RUN", f"refused: {reason}"])
    counts.check(
        "and the message names it", (await read_text(page, "message")).startswith(f"RUN wasn't cancelled: {reason}: MORE. Cancel it first.")
    )
    await page.wait_until("document.activeElement.id === 'orders-title'")
    counts.check("each reason is to the participant", await page.evaluate(REASONS) == TOLD)


# The reasons that name a command's order or its parent, or the market's limits.
REASONS = """['NameTaken', 'UnknownOrder', 'UnknownParent', 'ParentNotBlock', 'HourlyFull', 'BlocksFull', 'Closed']
  .map((code) => reasonOf(`refused,${code}`, { order: 'RUN', parent: 'CH-11' }))"""
TOLD = [
    "you already have an order RUN",
    "you have no order RUN: it was cancelled, refused, or never entered",
    "its parent CH-11 isn't in the book",
    "its parent CH-11 is an hourly order",
    "this auction takes 4,000 hourly orders from all participants together, and it has them",
    "this auction takes 24 blocks from all participants together, and it has them",
    "the book was already closed",
]


async def check_kept_draft(counts: Counts, page: BrowserTab) -> None:
    """A new order that is half written comes back after an amend of another, whether this is entered or not."""
    await click(page, "input[value=hour]")
    half = {"name": "HALF", "price": "7", "volume": "8", "group": "G", "fill-volume": "9", "period": "11", "fill-from": "3", "fill-to": "5"}
    for name, words in half.items():
        await choose(page, name, words)
    await page.evaluate("cells()[6].value = '1.5'")
    before = await page.evaluate("JSON.stringify(draft())")
    await click(page, '[aria-label="Amend UNIT-8"]')
    await click(page, '[aria-label="Amend MORE"]')
    shows = await page.evaluate("byId('name').value + kindChosen() + byId('fill-volume').value")
    counts.check("an amend has its own form", shows == "MOREblock")
    await click(page, "#keep")
    counts.check("a half-written order comes back", await page.evaluate("JSON.stringify(draft())") == before)
    is_new = "!state.changes && byId('enter').textContent === 'Enter the order' && !byId('name').disabled"
    counts.check("as a new one", await page.evaluate(is_new))
    await page.evaluate("change(null)")
    counts.check("and doesn't come back twice", await page.evaluate("byId('name').value") == "")
