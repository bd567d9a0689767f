"""A table of orders: read, shown, entered, and refused."""

import os
from pathlib import Path

from office.page_actions import NEVER, click, read_cells, read_focused_name, read_text, wait_for_message, wait_for_rows
from shared.browser import BrowserTab
from shared.counts import Counts

HEADS = "participant,order,kind,side,price_eur_mwh,periods,volume_mw,parent,group\n"
TABLE = HEADS + "{who},T-1,block,buy,80,1-3,10,,G\n{who},T-2,block,buy,70,1;3,5.5,T-1,\n{who},T-3,block,buy,60,2,1,MORE,\n"
# The office asks to wait once.
HASTY = """{ window.real = fetch; fetch = async (...words) => { await new Promise((done) => setTimeout(done, 1000));
  if (window.hasty) return real(...words); window.hasty = true;
  return new Response('{"fault": "TooFast", "words": "too many requests"}', { status: 429 }); }; }"""


async def write_and_choose_table(page: BrowserTab, room: Path, words: str, time: int | None = None) -> None:
    path = Path(room, "orders.csv")
    path.write_text(words)
    root = (await page.call_browser("DOM.getDocument"))["root"]["nodeId"]
    node = (await page.call_browser("DOM.querySelector", nodeId=root, selector="#file"))["nodeId"]
    await page.call_browser("DOM.setFileInputFiles", nodeId=node, files=[str(path)])
    if time is not None:
        await page.evaluate("byId('file').files[0].text()")  # the browser notes the file's time after it was chosen
        os.utime(path, (time, time))
    await click(page, "#upload-form button")


async def check_upload(counts: Counts, page: BrowserTab, who: str, room: Path) -> None:
    before = len(await read_cells(page, "commands-table"))
    await write_and_choose_table(page, room, "participant;order\n")
    await page.wait_until("byId('file-fault').textContent.includes('no column')")
    counts.check("a table that can't be read is told at the file", await read_focused_name(page) == "file")
    nothing = "Nothing of orders.csv was entered. Correct it, and choose it again."
    counts.check("the message says that nothing was entered", await read_text(page, "message") == nothing)
    counts.check("and the file is to be chosen again", await page.evaluate("byId('file').value") == "")
    await write_and_choose_table(page, room, TABLE.format(who=who), time=1)  # it is written after it was chosen
    await page.wait_until("byId('file-fault').textContent.includes('has changed')")
    counts.check("also one that has changed", await page.evaluate("byId('message').textContent + byId('file').value") == nothing)
    await page.evaluate(HASTY)
    await write_and_choose_table(page, room, await page.evaluate("template()"))
    told = await page.evaluate("[byId('message').textContent, byId('read-file').disabled]")
    counts.check(f"a table that is being read is told: {told}", told == ["The table is being read.", True])
    await wait_for_message(page, "was read")
    counts.check("also if the office asks to wait", await page.evaluate("window.hasty && !byId('read-file').disabled"))
    await page.evaluate("fetch = real; undefined")
    example = [row[2:] for row in await read_cells(page, "read-table")]
    counts.check(
        f"the template is a table: {example}",
        example == [["UNIT-8", "hourly", "sell", "60.00", "8: 50.0", ""], ["RUN", "block", "sell", "68.00", "9-12: 15.0", ""]],
    )
    await click(page, "#drop")
    counts.check("a dropped table leaves nothing", await read_text(page, "message") == "" and await read_cells(page, "read-table") == [])
    await write_and_choose_table(page, room, TABLE.format(who=who))
    await wait_for_message(page, "was read")
    read = await read_cells(page, "read-table")
    counts.check(
        f"a table is shown as orders: {read}",
        read
        == [
            ["1", "enter", "T-1", "block", "buy", "80.00", "1-3: 10.0", "group G"],
            ["2", "enter", "T-2", "block", "buy", "70.00", "1: 5.5; 3: 5.5", "parent T-1"],
            ["3", "enter", "T-3", "block", "buy", "60.00", "2: 1.0", "parent MORE"],  # which is in the book
        ],
    )
    counts.check("with its count", await read_text(page, "enter-all") == "Enter these 3 rows")
    counts.check("before it is entered", len(await read_cells(page, "commands-table")) == before)
    await page.evaluate(NEVER)
    await click(page, "#enter-all")
    await wait_for_message(page, "We don't know whether the 3 commands were entered")
    await page.wait_until("document.activeElement.id === 'enter-all'")
    counts.check("a table that may be lost stays", len(await read_cells(page, "read-table")) == 3)
    await page.evaluate("fetch = real; setTimeout = timeout")
    await click(page, "#enter-all")
    await wait_for_rows(page, "commands-table", before + 3)
    counts.check("a table is entered", [row[3] for row in (await read_cells(page, "commands-table"))[:3]] == ["done"] * 3)
    counts.check(
        "and the message counts it", await read_text(page, "message") == "3 commands done, on the disk, each with a signed receipt."
    )
    again = "{ what: 'submit', order: 'T-1', kind: 'hour', side: 'sell', price: 100, volumes: [[1, 10]] }"
    await page.evaluate(f"enter(Array(5).fill({again}))")
    lines = ["T-1 wasn't entered: you already have an order T-1."] * 3
    lines.append("2 more were refused: your commands below have the reasons.")
    lines.append("The book's refusals are on the disk, each with a signed receipt.")
    counts.check("many refusals don't cover a small screen", await read_text(page, "message") == "\n".join(lines))
    await wait_for_rows(page, "commands-table", before + 8)
