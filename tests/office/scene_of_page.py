"""The page in a browser: signing in, each form by the keyboard, faults at their fields, an upload, the close and the results, the next
participant in the same tab, and the demo; light and dark, broad and narrow."""

import argparse
import asyncio
import signal
import subprocess
import tempfile
from pathlib import Path

from lib.base import clock, rules
from office.page_actions import (
    Pictures,
    SCROLLED,
    WIDTHS,
    answer,
    choose,
    click,
    read_cells,
    sign_in,
    type_into,
    wait_for_message,
    wait_for_rows,
    write_pictures_and_check_shown,
)
from office.page_fields import check_faults
from office.page_lost_answers import check_lost_answer
from office.page_orders import check_changing, check_entering
from office.page_results import check_close_and_results
from office.page_signing_in import check_first_sign_in, check_leaving, check_next_sign_in, check_unreached
from office.page_tables import check_upload
from shared import browser
from shared.browser import BrowserTab
from shared.counts import Counts
from shared.ports import find_free_port
from shared.processes import stdout_of
from shared.served_office import TOOL, ServedOffice, day_of, running_office


async def check_day(counts: Counts, office: ServedOffice, pictures: Pictures, room: Path) -> None:
    who, other = office.who[:2]
    office.client_of(other).enter(office.day, f"submit,{other},FIRST,hour,sell,300000,24:1,,")  # so that entries and own numbers differ
    async with browser.running_browser_tab(office.url) as page:
        await page.wait_until("!document.getElementById('sign-in').hidden")
        await check_unreached(counts, page)
        await write_pictures_and_check_shown(counts, page, pictures, "sign-in")
        await check_first_sign_in(counts, page, office, who)
        await check_entering(counts, page, who)
        await check_changing(counts, page)
        await check_faults(counts, page, pictures)
        await check_leaving(counts, page, office, who, office.who[2], room)
        await check_upload(counts, page, who, room)
        await check_lost_answer(counts, page)
        await page.evaluate("byId('commands-list').open = true")
        await write_pictures_and_check_shown(counts, page, pictures, "orders")
        await check_close_and_results(counts, page, office, who, other)
        await write_pictures_and_check_shown(counts, page, pictures, "results")
        await check_next_sign_in(counts, page, office, who)
        # a wrong token, a table that can't be read, a day that there isn't, a number that is used and many tables are answers that the
        # browser notes
        found = [fault for fault in page.faults if not any(status in fault for status in ("400", "401", "404", "409", "429"))]
        counts.check(f"no script fails, and the policy refuses nothing: {found}", not found)


async def check_length(counts: Counts, page: BrowserTab, office: ServedOffice, periods: int) -> None:
    """A day of another length: a block over all of it, by the page and in its results."""
    who = office.who[0]
    await page.call_browser("Page.navigate", url=office.url)
    await page.wait_until(f"location.port === '{office.port}' && document.readyState === 'complete'")
    await page.set_screen_size(WIDTHS[0], "light")
    await sign_in(page, office, who)
    await click(page, "input[value=block]")
    await type_into(page, "name", "ABCDEFGHIJ-9")
    await type_into(page, "price", "4000")
    await type_into(page, "fill-volume", "9999.9")
    await page.press_key("Enter", 13)
    await click(page, "#enter")
    await wait_for_rows(page, "orders-table", 1)
    first = (await read_cells(page, "commands-table"))[0]
    counts.check(f"a block over {periods} periods: {first}", first[6:8] == ["4,000.00", f"1-{periods}: 9,999.9"])
    fits = await page.evaluate("document.documentElement.scrollWidth") <= WIDTHS[0] and await page.evaluate(SCROLLED) == 0
    counts.check(f"a day of {periods} periods fits into {WIDTHS[0]}", fits)
    await asyncio.to_thread(office.close_day_and_return_seconds)
    await page.wait_until("!document.getElementById('results').hidden")
    (row,), prices = await read_cells(page, "statement"), await read_cells(page, "prices")
    energy = f"{9_999.9 * periods * float(rules.DAYS[periods]):,.1f}"
    counts.check(f"{energy} MWh of {periods} periods: {row}", row[5:7] == [energy, "0.0"] and row[9] == "paradoxically rejected")
    words = "at the prices, but if it were accepted, a block would lose, a period wouldn't balance, or the welfare wouldn't be greater"
    counts.check(f"its reason reveals no other order: {row[10]}", row[10].endswith(words))
    begins = [f"{number} ({clock.begin_time(periods, number)})" for number in range(1, periods + 1)]
    counts.check(f"the prices of {periods} periods", [one[0] for one in prices] == begins)


async def check_lengths(counts: Counts, args: argparse.Namespace) -> None:
    async with browser.running_browser_tab("data:text/html,") as page:
        for periods in sorted(set(rules.DAYS) - {24}):
            with running_office(args.dam, args.desk, periods=periods, day=day_of(periods)) as office:
                office.start_and_return_seconds()
                await check_length(counts, page, office, periods)
        found = [fault for fault in page.faults if "CONNECTION_REFUSED" not in fault]  # of an office that has ended
        counts.check(f"no script fails at a day of another length: {found}", not found)


async def check_demo_page(counts: Counts, url: str, pictures: Pictures) -> None:
    """A block over a night has a price in the demo, and closing the demo asks first."""
    async with browser.running_browser_tab(url) as page:
        await page.wait_until("document.querySelector('#demo-names button')")
        await page.evaluate("[...document.querySelectorAll('#demo-names button')].find((one) => one.textContent === 'GAS').click()")
        await page.wait_until("document.activeElement.id === 'title'")
        counts.check("a demo can be closed", await page.evaluate("byId('demo-close').checkVisibility()"))
        await click(page, "input[value=block]")
        await type_into(page, "name", "NIGHT")
        await choose(page, "side", "sell")
        await type_into(page, "price", "40")
        await choose(page, "fill-from", 1)
        await choose(page, "fill-to", 5)
        await type_into(page, "fill-volume", "5")
        await page.press_key("Enter", 13)
        await click(page, "#enter")
        await wait_for_message(page, "NIGHT entered")
        await write_pictures_and_check_shown(counts, page, pictures, "demo")
        await click(page, "#close-now")
        await answer(page, "no")
        await page.evaluate("look()")
        counts.check("a demo isn't closed by one press", await page.evaluate("isOpen()"))
        await click(page, "#close-now")
        await answer(page, "yes")
        await page.wait_until("!document.getElementById('results').hidden")
        await page.wait_until("document.activeElement.id === 'results-title'")
        counts.check("a demo that is closed can't be closed again", await page.evaluate("byId('demo-close').hidden"))
        (night,), prices = await read_cells(page, "statement"), await read_cells(page, "prices")
        counts.check(f"a block over a night has a price in the demo: {night}", night[6:8] == ["25.0", "48.00"] and night[9] == "accepted")
        counts.check("each period of the demo has trade", len(prices) == 24 and not any("nominal" in row[2] for row in prices))
        counts.check("no script of the demo fails", not page.faults)


def run_and_check_demo(counts: Counts, args: argparse.Namespace) -> None:
    port = find_free_port()
    words = [*TOOL, "demo", "--no-browser", "--port", str(port), "--dam", args.dam, "--desk", args.desk]
    with subprocess.Popen(words, stdout=subprocess.PIPE, stderr=subprocess.DEVNULL, text=True) as process:
        try:
            stdout_of(process).readline()
            asyncio.run(check_demo_page(counts, f"http://127.0.0.1:{port}/", args.pictures))
        finally:
            process.send_signal(signal.SIGINT)


def check_pages(counts: Counts, args: argparse.Namespace) -> None:
    with running_office(args.dam, args.desk) as office, tempfile.TemporaryDirectory() as room:
        office.start_and_return_seconds()
        asyncio.run(check_day(counts, office, args.pictures, Path(room)))
    asyncio.run(check_lengths(counts, args))
    run_and_check_demo(counts, args)
