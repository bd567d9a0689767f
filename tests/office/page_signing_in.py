"""Signing in and out: wrong tokens, an office that can't be reached, what a participant leaves, and signing in after the close."""

import asyncio
from pathlib import Path

from office.page_actions import SLOW, answer, click, read_cells, read_text, sign_in, type_into, wait_for_message
from office.page_tables import TABLE, write_and_choose_table
from shared.browser import BrowserTab
from shared.counts import Counts
from shared.served_office import ServedOffice

# The fields of the form that are seen, those of the periods as one.
FIELDS = """[...new Set([...document.querySelectorAll('#order-form input, #order-form select')].filter((one) => one.checkVisibility())
  .map((one) => one.id || (one.dataset.period ? 'periods' : one.value)))].join(' ')"""
HOURLY = "hour block name side price period volume"
BLOCK = "hour block name side price parent group fill-volume fill-from fill-to periods"
# Loses the first answer to a page.
UNREACHED = """{ const real = fetch; fetch = async (...words) => {
  if (window.unreached) return real(...words); window.unreached = true; throw new TypeError('unreached'); }; }"""


async def check_unreached(counts: Counts, page: BrowserTab) -> None:
    """A page that can't reach the office asks again."""
    await page.call_browser("Page.addScriptToEvaluateOnNewDocument", source=UNREACHED)
    await page.call_browser("Page.reload")
    await page.wait_until("window.unreached && document.getElementById('message')?.className === 'wrong'")
    await page.wait_until("!document.getElementById('sign-in').hidden")
    counts.check("a page asks until the office answers", await read_text(page, "message") == "")


# When a day closes, at a minute and 30 s later.
SECONDS = """['00', '30'].map((seconds) => { state.known.closes = state.known.closes.replace(/[0-9]+(?=[+Z])/, seconds);
  showDay(); return byId('where').textContent; })"""


async def check_first_sign_in(counts: Counts, page: BrowserTab, office: ServedOffice, who: str) -> None:
    await page.wait_until("!document.getElementById('sign-in').hidden")
    for wrong in ("no-dot", "gas.x", "GAS.wrong", f"{office.tokens[who]}\u00e9"):
        await page.evaluate("say('')")
        await type_into(page, "token", wrong)
        await page.press_key("Enter", 13)
        await page.wait_until("document.getElementById('message').className === 'wrong'")
        counts.check(f"{wrong[:9]} is no token", "This isn't a token of this office" in await read_text(page, "message"))
    await page.evaluate(SLOW)
    await page.evaluate("say(''); signIn('GAS.wrong'); look(); undefined")
    await page.wait_until("document.getElementById('message').className === 'wrong'")
    told, looked = await page.evaluate("[byId('message').textContent, asked.includes('/commands/')]")
    counts.check(f"no look is had before the token is known: {told}", told.startswith("This isn't a token") and not looked)
    await page.evaluate("fetch = real; undefined")
    await sign_in(page, office, who)
    await page.wait_until("document.activeElement.id === 'title'")
    counts.check("the focus is on the first heading", await page.evaluate("document.querySelector('h1') === document.activeElement"))
    counts.check(
        "the token isn't in the page or its address",
        office.tokens[who] not in await page.evaluate("document.documentElement.outerHTML + location.href"),
    )
    counts.check("the first sign-in shows an hourly order's fields alone", await page.evaluate(FIELDS) == HOURLY)
    await click(page, "input[value=block]")
    counts.check("and a block's when it is chosen", await page.evaluate(FIELDS) == BLOCK)
    await click(page, "#sign-out")
    await sign_in(page, office, who)
    counts.check("and an hourly order's after the next sign-in", await page.evaluate(FIELDS) == HOURLY)
    head = await page.evaluate("fetch(byId('head').href).then((answer) => answer.json())")
    counts.check("the head of the day is linked", head["day"] == office.day and "after the close" in await read_text(page, "receipts-help"))
    counts.check("the page says who is signed in", await page.evaluate(f"document.body.innerText.includes('Signed in as {who}')"))
    ends = await page.evaluate(SECONDS)
    counts.check(f"a close within a minute has its seconds: {ends}", "12:00 (" in ends[0] and "12:00:30 (" in ends[1])
    shown_figures = await page.evaluate("[...document.querySelectorAll('#figures dt')].map((one) => one.textContent)")
    counts.check(f"each figure says its unit: {shown_figures}", shown_figures[-1] == "entries in the journal")
    counts.check("only a demo can be closed", await page.evaluate("document.getElementById('demo-close').hidden"))


# What a participant leaves.
LEFT = """[byId('entry-title').textContent, byId('enter').textContent,
  ...['name', 'price', 'file', 'side', 'fill-volume'].map((id) => byId(id).value), byId('name').disabled,
  ...['read', 'keep', 'fixed', 'results'].map((id) => byId(id).hidden), document.querySelectorAll('#read-table *').length,
  document.querySelectorAll('[aria-invalid]').length, byId('enter-all').checkVisibility()]"""
NOTHING_LEFT = ["Enter an order", "Enter the order", "", "", "", "buy", "", False, True, True, True, True, 0, 0, False]


async def check_leaving(counts: Counts, page: BrowserTab, office: ServedOffice, who: str, other: str, room: Path) -> None:
    """Signing out leaves nothing for the next participant: neither what was being done, nor what comes later."""
    await write_and_choose_table(page, room, TABLE.format(who=who))
    await wait_for_message(page, "was read")
    await click(page, '[aria-label="Amend UNIT-8"]')
    await type_into(page, "price", "x")
    await click(page, "#enter")
    await page.evaluate(SLOW)
    await page.evaluate("Object.assign(state, { looks: null, count: -1 }); look(); undefined")
    await page.wait_until("asked.includes('/orders/')")  # its answer is on the way
    await click(page, "#sign-out")
    await page.wait_until("byId('sure').open")
    asked = await read_text(page, "sure-words")
    lost = "The change of UNIT-8 wasn't sent. The 3 rows of your table weren't sent. Sign out without it?"
    counts.check(f"what would be lost is told before: {asked}", asked == lost)
    await answer(page, "yes")
    await page.evaluate("new Promise((done) => setTimeout(done, 1000))")
    counts.check("an answer that comes later is for nobody", await read_cells(page, "orders-table") == [])
    await page.evaluate("fetch = real; undefined")
    await sign_in(page, office, other)
    counts.check("nothing of a participant is left", await page.evaluate(LEFT) == NOTHING_LEFT)
    counts.check(
        "and it has no orders or commands", await read_cells(page, "orders-table") == await read_cells(page, "commands-table") == []
    )
    await type_into(page, "name", "HALF")
    await asyncio.to_thread(office.run_tool, "revoke", office.folder, other)
    await page.wait_until("!document.getElementById('sign-in').hidden")
    told = await read_text(page, "message")
    ended = "Your token isn't valid any more: the operator has renewed or revoked it.\nYour unfinished order HALF wasn't sent."
    counts.check(f"a token that ends is told, and what was being written: {told}", told == ended)
    await sign_in(page, office, who)
    await page.wait_until("document.querySelectorAll('#orders-table tbody tr').length")


async def check_next_sign_in(counts: Counts, page: BrowserTab, office: ServedOffice, who: str) -> None:
    """After the close, the results are there for each who signs in."""
    await click(page, "#sign-out")
    counts.check(
        "nothing stays after signing out",
        await page.evaluate("sessionStorage.length") == 0
        and "UNIT-8" not in "".join([await read_text(page, name) for name in ("statement", "orders-table", "commands-table")]),
    )
    await sign_in(page, office, who)
    await page.wait_until("!document.getElementById('results').hidden")
    counts.check(
        "the results are there after the next sign-in",
        len(await read_cells(page, "statement")) == 7 and len(await read_cells(page, "prices")) == 24,
    )
    await click(page, "#sign-out")
