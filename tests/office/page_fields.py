"""Faults at the fields: a wrong one is reported in the trader's units, and nothing is sent."""

from office.page_actions import (
    Pictures,
    choose,
    click,
    focus_on,
    read_cells,
    read_focused_name,
    read_text,
    type_into,
    write_pictures_and_check_shown,
)
from office.page_results import ON_SCREEN
from shared.browser import BrowserTab
from shared.counts import Counts

RIGHT = """[limitRule('4000').value, limitRule('-500').value, limitRule('12,5').value, volumeRule('0.1').value, volumeRule('9999,9').value,
  nameRule('-').value, nameRule('ABCDEFGHIJ-9').value, groupRule('').value].join(' ')"""
WRONG = (
    ("price", "5000", "from -500.00 to 4000.00 EUR/MWh"),
    ("price", "-500.01", "from -500.00 to 4000.00 EUR/MWh"),
    ("price", "60.555", "at most 2 digits after the point, and thousands without a separator"),
    ("price", "sixty", "Write a number from -500.00"),
    ("price", "1,234.5", "Write thousands without a separator."),
    ("price", "-1.234,50", "Write thousands without a separator."),
    ("price", "60 EUR", "Write the number without a unit."),
    ("price", "", "Write a number from -500.00"),
    ("volume", "1000000", "It should be from 0.1 to 9999.9 MW"),
    ("volume", "10000", "It should be from 0.1 to 9999.9 MW"),
    ("volume", "0", "It should be from 0.1 to 9999.9 MW"),
    ("volume", "-5", "It should be from 0.1 to 9999.9 MW, without a sign: choose the side instead."),
    ("volume", "1 000", "Write thousands without a separator."),
    ("volume", "5MW", "Write the number without a unit."),
    ("volume", "0.05", "at most 1 digit after the point"),
    ("volume", "", "Write a number from 0.1"),
    ("name", "A_B", "1 to 12 of the characters A to Z, 0 to 9 and -"),
    ("name", "PLANT-NORTH-08", "It has 14 characters: write at most 12"),  # and isn't cut, which would make another name of it
    ("name", "", "Write a name"),
)
# A field that is wrong: whether it has the focus and is marked, and what is said of it where it is described.
MARKED = """(() => { const one = byId('%s'); return [document.activeElement === one && one.ariaInvalid,
  one.getAttribute('aria-describedby').split(' ').map((id) => byId(id).textContent).join(' ')]; })()"""
# Pastes a text into a place of the grid.
PASTE = """{ const clipboardData = new DataTransfer(); const place = cells()[%d];
  clipboardData.setData('text', '%s');
  place.dispatchEvent(new ClipboardEvent('paste', { clipboardData, bubbles: true, cancelable: true })); }"""


async def check_faults(counts: Counts, page: BrowserTab, pictures: Pictures) -> None:
    """A wrong field is reported in the trader's units at the field, and nothing is sent."""
    before = len(await read_cells(page, "commands-table"))
    await check_faults_at_fields(counts, page)
    await click(page, "input[value=block]")
    await check_faults_of_block(counts, page)
    await check_unfilled_volumes(counts, page)
    await check_faults_of_grid(counts, page)
    await check_shown_faults(counts, page, pictures)
    await page.evaluate("change(null)")
    counts.check("a wrong field sends nothing", len(await read_cells(page, "commands-table")) == before)


async def check_faults_at_fields(counts: Counts, page: BrowserTab) -> None:
    counts.check("right values are right", await page.evaluate(RIGHT) == "400000 -50000 1250 1 99999 - ABCDEFGHIJ-9 ")
    await click(page, "input[value=hour]")
    counts.check(
        "the rules are there before a fault",
        "0.1 to 9999.9" in await read_text(page, "volume-help") and "to 12" in await read_text(page, "name-help"),
    )
    counts.check("and so is the comma", "4000.00, with a point or a comma" in await read_text(page, "price-help"))
    for name, words, fault in WRONG:
        for field, right in (("name", "NEW"), ("price", "1"), ("volume", "1"), (name, words)):
            await type_into(page, field, right)
        await focus_on(page, "side")
        await click(page, "#enter")
        is_marked, told = await page.evaluate(MARKED % name)
        counts.check(f"{name} {words or 'empty'} is told at its field: {told}", is_marked == "true" and fault in told)
    counts.check("the message says so too", "Nothing was sent" in await read_text(page, "message"))
    await type_into(page, "name", "NEW")
    gone = await page.evaluate("[byId('name-fault').textContent, byId('message').textContent, byId('name').ariaInvalid]")
    counts.check(f"a fault goes when its field is changed: {gone}", gone == ["", "", None])


async def check_faults_of_block(counts: Counts, page: BrowserTab) -> None:
    wrong = [("group", "G_1", "1 to 12 of the characters"), ("group", "EVENING-PEAK-1", "14 characters")]
    for name, words, fault in (*wrong, ("fill-volume", "0", "from 0.1 to 9999.9 MW")):
        await type_into(page, name, words)
        await click(page, "#enter" if name == "group" else "#fill")
        is_marked, told = await page.evaluate(MARKED % name)
        counts.check(f"{name} {words} is told at its field: {told}", is_marked == "true" and fault in told)
    await type_into(page, "group", "")


async def check_unfilled_volumes(counts: Counts, page: BrowserTab) -> None:
    """A volume for several periods that isn't filled in yet, or can't be."""
    await choose(page, "fill-volume", 30)
    await choose(page, "fill-from", 11)
    await choose(page, "fill-to", 12)
    await page.evaluate("cells()[4].value = '1'")
    for filled in ("1", ""):
        await page.evaluate(f"cells()[4].value = '{filled}'")
        await click(page, "#enter")
        told = await read_text(page, "fill-fault")
        unfilled = "30 MW for periods 11 to 12 isn't filled in: press Fill in, or empty the box."
        counts.check(
            f"a volume that isn't filled in isn't lost: {told}", told == unfilled and await read_focused_name(page) == "fill-volume"
        )
    await choose(page, "fill-volume", "30,55")
    for button in ("#fill", "#enter"):
        await click(page, button)
        told = await read_text(page, "fill-fault")
        counts.check(f"one that can't be filled in has its fault after {button}: {told}", told == "Write at most 1 digit after the point.")
    await choose(page, "fill-volume", 30)
    await choose(page, "fill-to", 10)
    await click(page, "#enter")
    told = await read_text(page, "fill-fault")
    counts.check(f"also if its periods are the wrong way round: {told}", told == "Period 11 is after period 10: 30 MW isn't filled in.")
    await choose(page, "fill-volume", "")


async def check_faults_of_grid(counts: Counts, page: BrowserTab) -> None:
    """A volume of a period, and cells of a spreadsheet that are pasted."""
    await click(page, "#enter")
    counts.check("a block without volumes", "at least one period" in await read_text(page, "grid-fault"))
    await page.evaluate("cells()[4].focus()")
    await page.type_text("0")
    await click(page, "#enter")
    counts.check(
        "a volume of a period",
        (await read_text(page, "grid-fault")).startswith("Period 5: It should be from 0.1")
        and await page.evaluate("document.activeElement === cells()[4]"),
    )
    await page.evaluate(PASTE % (4, "1\\r\\n\\r\\n2,5\\r\\n"))
    pasted, told = await page.evaluate("[cells().map((one) => one.value).join('|'), byId('grid-fault').textContent]")
    counts.check(f"cells of a spreadsheet are pasted: {pasted} {told}", pasted == "|" * 4 + "1||2,5" + "|" * 17 and told == "")
    await page.evaluate(PASTE % (22, "1\\t2\\t3"))
    pasted, told = await page.evaluate("[cells().map((one) => one.value).join(''), byId('grid-fault').textContent]")
    too_many = "3 volumes from period 23 on go past the last period, 24: nothing is pasted."
    counts.check(f"but not past the last period: {told}", told == too_many and pasted == "12,5")


async def check_shown_faults(counts: Counts, page: BrowserTab, pictures: Pictures) -> None:
    """Several faults at once, in a picture and on a small screen."""
    await click(page, "#clear")
    await type_into(page, "fill-volume", "5")
    await choose(page, "fill-from", 9)
    await choose(page, "fill-to", 8)
    await click(page, "#fill")
    counts.check("periods the wrong way round", "Period 9 is after period 8" in await read_text(page, "fill-fault"))
    for name in ("name", "price"):
        await type_into(page, name, "x_x")
    await click(page, "#enter")
    await write_pictures_and_check_shown(counts, page, pictures, "faults")
    await page.set_screen_size(390, "light", 600)
    await click(page, "input[value=hour]")
    await type_into(page, "volume", "0")
    await click(page, "#enter")
    counts.check(
        "a fault is on a small screen", all([await page.evaluate(ON_SCREEN % name) for name in ("volume", "volume-fault", "message")])
    )
    await page.set_screen_size(1_280, "light")
