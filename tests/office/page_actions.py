"""What a user does on the page and sees there, by scripts of a headless browser; and what each state of the page has to be like."""

from pathlib import Path

from shared.counts import Counts
from shared.served_office import ServedOffice

from shared.browser import BrowserTab

Pictures = str | None  # the folder of the pictures, if they are asked for
WIDTHS = 390, 1_280
# How many controls have no name.
UNNAMED = """[...document.querySelectorAll('input, select, button')].filter((one) => one.checkVisibility())
  .filter((one) => ![one, ...(one.labels ?? [])].some((part) => part.textContent.trim() || part.ariaLabel)).length"""
# How many tables are scrolled sideways.
SCROLLED = """[...document.querySelectorAll('.wide')]
  .filter((one) => one.checkVisibility() && one.scrollWidth > one.clientWidth).length"""
# How well the words of the buttons that do most can be read: the least contrast.
CONTRAST = """(() => { const light = (words) => words.match(/[0-9.]+/g).slice(0, 3).map((one) => one / 255)
    .map((one) => (one <= 0.04045 ? one / 12.92 : ((one + 0.055) / 1.055) ** 2.4))
    .reduce((sum, one, at) => sum + one * [0.2126, 0.7152, 0.0722][at], 0);
  const of = (one) => { const { color, backgroundColor } = getComputedStyle(one);
    const [low, high] = [color, backgroundColor].map(light).sort((one, other) => one - other); return (high + 0.05) / (low + 0.05); };
  return Math.min(...['enter', 'enter-all', 'yes'].map((id) => of(byId(id))), of(document.querySelector('#sign-in-form button'))); })()"""


async def focus_on(page: BrowserTab, name: str) -> None:
    await page.evaluate(f"document.getElementById('{name}').focus()")
    await page.evaluate(f"document.getElementById('{name}').select?.()")


async def type_into(page: BrowserTab, name: str, words: str) -> None:
    await focus_on(page, name)
    await page.type_text(words) if words else await page.evaluate(f"document.getElementById('{name}').value = ''")


async def choose(page: BrowserTab, name: str, value: str | int) -> None:
    await page.evaluate(f"document.getElementById('{name}').value = '{value}'")


async def click(page: BrowserTab, selector: str) -> None:
    await page.evaluate(f"document.querySelector('{selector}').click()")


async def answer(page: BrowserTab, word: str) -> None:
    """Presses yes or no, once the page asks: a question that follows another one waits until that one's dialog is closed."""
    await page.wait_until("byId('sure').open")
    await click(page, f"#{word}")


async def read_text(page: BrowserTab, name: str) -> str:
    return await page.evaluate(f"document.getElementById('{name}').textContent")


async def read_focused_name(page: BrowserTab) -> str:
    return await page.evaluate("document.activeElement.id")


async def wait_for_message(page: BrowserTab, words: str) -> None:
    """Waits until the page says so."""
    await page.wait_until(f"document.getElementById('message').textContent.includes({words!r})")


async def read_cells(page: BrowserTab, name: str) -> list[list[str]]:
    """The cells of a table's rows."""
    script = f"[...document.querySelectorAll('#{name} tbody tr')].map((row) => [...row.cells].map((cell) => cell.textContent))"
    return await page.evaluate(script)


async def wait_for_rows(page: BrowserTab, name: str, count: int) -> None:
    await page.wait_until(f"document.querySelectorAll('#{name} tbody tr').length === {count}")


async def write_pictures_and_check_shown(counts: Counts, page: BrowserTab, pictures: Pictures, name: str) -> None:
    """No part is broader than the screen, each control has a name, and the pictures can be looked at."""
    for width in WIDTHS:
        for scheme in ("light", "dark"):
            await page.set_screen_size(width, scheme)
            counts.check(f"{name} fits into {width}", await page.evaluate("document.documentElement.scrollWidth") <= width)
            if width == WIDTHS[0]:
                counts.check(f"no table of {name} is scrolled at {width}", await page.evaluate(SCROLLED) == 0)
            counts.check(f"{name}'s buttons can be read in {scheme}", await page.evaluate(CONTRAST) >= 4.5)
            if pictures:
                await page.write_picture(Path(pictures, f"{name}-{width}-{scheme}.png"))
    counts.check(f"each control of {name} has a name", await page.evaluate(UNNAMED) == 0)


async def sign_in(page: BrowserTab, office: ServedOffice, who: str) -> None:
    await page.wait_until("!document.getElementById('sign-in').hidden")
    await type_into(page, "token", office.tokens[who])
    await page.press_key("Enter", 13)
    await page.wait_until("!document.getElementById('signed-in').hidden && document.getElementById('left')")


# Lets each answer take a time.
SLOW = """{ window.real = fetch; window.asked = ''; fetch = async (path, how) => {
  const answer = await real(path, how); asked += path; await new Promise((done) => setTimeout(done, 500)); return answer; }; }"""
# Answers nothing any more, and doesn't wait between the tries.
NEVER = """{ window.real = fetch; window.timeout = setTimeout; setTimeout = (does) => timeout(does, 1);
  window.unanswered = 0; fetch = async () => { unanswered += 1; throw new TypeError('lost'); }; }"""
