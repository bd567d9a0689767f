"""Answers that are lost, held or another tab's: the page loses no order and no word of one."""

from office.page_actions import NEVER, answer, click, read_cells, read_text, type_into, wait_for_message, wait_for_rows
from shared.browser import BrowserTab
from shared.counts import Counts

# Loses the answer to the next command, which the office enters.
LOSE = """{ const real = window.fetch; window.lost = false; window.fetch = async (path, how) => { const answer = await real(path, how);
  if (how?.method !== 'PUT' || window.lost) return answer; window.lost = true; throw new TypeError('lost'); }; }"""
# The report on an order of which nobody knows whether it was entered.
UNSURE = "The office can't be reached. We don't know whether GONE was entered: look in Your orders once it's back."
# And once the office answers.
NOT_YET = "The office answers again. GONE isn't among your commands so far: send it again, it can't be entered twice."
# Enters a command as another tab does, under the number that this one would use.
ENTER_IN_OTHER_TAB = """fetch(`${own('commands')}/${state.next}`, { method: 'PUT', headers: { Authorization: `Bearer ${state.token}`,
  'Content-Type': 'application/json' }, body: JSON.stringify([%s]) }).then((answer) => answer.ok)"""
SUBMIT_GONE = "{ what: 'submit', order: 'GONE', kind: 'hour', side: 'sell', price: 100, volumes: [[1, 10]] }"


async def check_lost_answer(counts: Counts, page: BrowserTab) -> None:
    """The page sends the command again under the same number, also if it has looked at its commands in the meantime."""
    before = len(await read_cells(page, "commands-table"))
    await page.evaluate(LOSE)
    await type_into(page, "name", "ONCE")
    await type_into(page, "price", "1")
    await type_into(page, "volume", "1")
    await page.press_key("Enter", 13)
    await page.wait_until("window.lost")
    await page.evaluate("look()")
    await wait_for_message(page, "ONCE entered: ")
    counts.check("a command whose answer is lost is entered once", len(await read_cells(page, "commands-table")) == before + 1)
    await page.evaluate(NEVER)
    await type_into(page, "name", "GONE")
    await type_into(page, "price", "1")
    await type_into(page, "volume", "1")
    await page.press_key("Enter", 13)
    await wait_for_message(page, UNSURE)
    await page.evaluate("unanswered = 0; look()")
    counts.check("an order that may be lost stays in the form", await page.evaluate("byId('name').value") == "GONE")
    counts.check("and so does its message", await page.evaluate("unanswered > 0") and await read_text(page, "message") == UNSURE)
    await page.evaluate("fetch = real; setTimeout = timeout; change(null)")
    await page.evaluate("look()")
    counts.check(f"until the office answers: {await read_text(page, 'message')}", await read_text(page, "message") == NOT_YET)
    counts.check("an order that comes late", await page.evaluate(ENTER_IN_OTHER_TAB % SUBMIT_GONE))
    await wait_for_message(page, "GONE entered: sell, 1.0 MW in period 1, at 1.00 EUR/MWh. It is on the disk, with a signed receipt.")
    counts.check("is told by the next look", await page.evaluate("byId('message').className") == "right")
    await page.evaluate("enter([{ what: 'cancel', order: 'GONE' }])")
    before += 2
    twice = "(async (one) => await enter([one]) && await enter([one]))({ what: 'amend', order: 'ONCE', price: 100, volumes: [[1, 10]] })"
    counts.check("commands can follow at once", await page.evaluate(twice))
    await page.evaluate("enter([{ what: 'cancel', order: 'a' }])")
    counts.check("a command that the office refuses is named", (await read_text(page, "message")).startswith("a wasn't cancelled: "))
    await wait_for_rows(page, "commands-table", before + 3)
    await check_two_tabs(counts, page)


AMEND_AT_PRICE = "{ what: 'amend', order: 'ONCE', price: %d, volumes: [[1, 10]] }"


async def check_two_tabs(counts: Counts, page: BrowserTab) -> None:
    """An entry of another tab of the participant in the meantime is reported before it is lost."""
    await click(page, '[aria-label="Amend ONCE"]')
    await page.evaluate("look()")
    counts.check("an order that stays as it is isn't overtaken", await read_text(page, "overtaken") == "")
    counts.check("another tab amends", await page.evaluate(ENTER_IN_OTHER_TAB % (AMEND_AT_PRICE % 900)))
    await page.wait_until("byId('overtaken').textContent")
    told = await read_text(page, "overtaken")
    words = "ONCE was changed in the meantime: in the book its limit is 9.00 EUR/MWh, and its volumes by period are 1: 1.0 MW."
    counts.check(f"an order that is changed meanwhile: {told}", told == words)
    await type_into(page, "price", "2")
    await click(page, "#enter")
    await page.wait_until("byId('sure').open")
    counts.check("isn't amended without a question", "Amend it to the values of this form?" in await read_text(page, "sure-words"))
    await answer(page, "no")
    await page.wait_until("document.activeElement.id === 'price'")
    counts.check("to which no is an answer", (await read_cells(page, "commands-table"))[0][6] == "9.00")
    await click(page, "#enter")
    await page.wait_until("byId('sure').open")
    await page.evaluate("byId('no').click(); byId('enter').click()")  # before the dialog has told that it was closed
    await page.wait_until("byId('sure').open")
    await answer(page, "yes")
    await wait_for_message(page, "ONCE amended")
    counts.check("and so is yes", await read_text(page, "overtaken") == "")
    await page.wait_until("byId('commands-table').querySelector('tbody tr').cells[6].textContent === '2.00'")
    await page.evaluate("state.next = 1; enter([%s])" % (AMEND_AT_PRICE % 100))  # as if no look had seen a command
    same = "ONCE wasn't amended: another command of yours came first. Look in Your commands, and send it again."
    counts.check(f"commands at the same time: {await read_text(page, 'message')}", await read_text(page, "message") == same)
    counts.check("and sent again", await page.evaluate("enter([%s])" % (AMEND_AT_PRICE % 100)))
    counts.check("another tab enters", await page.evaluate(ENTER_IN_OTHER_TAB % SUBMIT_GONE))
    await page.wait_until("inBook('GONE')")
    await click(page, '[aria-label="Amend GONE"]')
    counts.check("another tab cancels", await page.evaluate(ENTER_IN_OTHER_TAB % "{ what: 'cancel', order: 'GONE' }"))
    await page.wait_until("byId('overtaken').textContent === `GONE isn't in the book any more.`")
    await click(page, "#keep")
    counts.check("a form that is left has no such words", await read_text(page, "overtaken") == "")
    await check_silence(counts, page)


# Answers no more, until a call lets it.
HELD = """{ window.real = fetch; fetch = async (path, how) => { await new Promise((done, fail) => { (window.release ??= []).push(done);
  how?.signal?.addEventListener('abort', () => fail(how.signal.reason)); }); return real(path, how); }; }"""


async def check_silence(counts: Counts, page: BrowserTab) -> None:
    """An office that takes the connection and doesn't answer."""
    await page.evaluate("look()")
    await page.evaluate(HELD)
    await page.evaluate("enter([%s]); undefined" % (AMEND_AT_PRICE % 200))
    await wait_for_message(page, "ONCE is being sent: the office hasn't answered yet.")
    await page.wait_until("state.looks === state.visit")
    await wait_for_message(page, "The office can't be reached.")
    counts.check("a look isn't waited for without end", await page.evaluate("byId('message').className") == "wrong")
    await page.evaluate("fetch = real; release.forEach((done) => done()); undefined")
    await wait_for_message(page, "ONCE amended")
    await page.wait_until("byId('commands-table').querySelector('tbody tr').cells[6].textContent === '2.00'")
    asks = "(() => { const one = new Event('beforeunload', { cancelable: true }); dispatchEvent(one); return one.defaultPrevented; })()"
    counts.check("a page without orders that are half written can be left", not await page.evaluate(asks))
    await type_into(page, "name", "HALF")
    counts.check("one with such isn't without a question", await page.evaluate(asks))
    await check_other_day(counts, page)
    await page.evaluate("change(null)")


async def check_other_day(counts: Counts, page: BrowserTab) -> None:
    """Another day isn't shown before the participant knows that an order is lost."""
    await page.evaluate("say(''); options(byId('days'), [state.day, '2099-01-01'].map((day) => [day, day]))")
    for word, told in (("no", ""), ("yes", "There is no such day.")):
        await page.evaluate("byId('days').value = '2099-01-01'; byId('days').dispatchEvent(new Event('change'))")
        await page.wait_until("byId('sure').open")
        asked = await read_text(page, "sure-words")
        words = f"Your unfinished order HALF wasn't sent. Leave {await page.evaluate('state.day')} without it?"
        counts.check(f"another day is asked for: {asked}", asked == words)
        await answer(page, word)
        await page.wait_until(f"!byId('sure').open && byId('message').textContent === '{told}'")
        kept = await page.evaluate("[byId('days').value === state.day, byId('name').value]")
        counts.check(f"{word} is an answer: {kept}", kept == [True, "HALF"])
    count = len(await read_cells(page, "orders-table"))
    await page.evaluate("say('unsure', 'wrong', 'unsure'); byId('days').dispatchEvent(new Event('change'))")  # as if it were another day
    await answer(page, "yes")
    await page.wait_until("!byId('sure').open && byId('message').textContent === '' && byId('name').value === ''")
    await wait_for_rows(page, "orders-table", count)
    await page.evaluate("look()")
    left = await page.evaluate("[byId('message').textContent, byId('name').value]")
    counts.check(f"and nothing of the day before is told: {left}", left == ["", ""])
    await page.evaluate("options(byId('days'), [[state.day, state.day]])")
