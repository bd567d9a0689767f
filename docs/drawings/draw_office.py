#!/usr/bin/env -S /usr/bin/python3
"""draw_office.py [OPTION..]: takes the picture of the office's page in which a participant enters a block, which README shows
(docs/office.png). It needs chromium, python3-aiohttp and python3-pil. The options are those of `tools/office demo`."""

import asyncio
import hashlib
import re
import signal
import subprocess
import sys
import tempfile
from pathlib import Path

sys.dont_write_bytecode = True
TOP = Path(__file__).resolve().parents[2]
sys.path[:0] = [str(TOP / "tests"), str(TOP / "tools")]

PICTURE, WIDTH, HEIGHT, COLOURS = TOP / "docs" / "office.png", 1_000, 980, 64
SHOWN = [TOP / "tools" / "lib" / "pages" / name for name in ("office.html", "office.css")]
KEY = "page"  # of the text in the picture: the sum of the page of which it was taken
FILLED = {"name": "EVENING", "price": "65", "fill-volume": "50"}
PERIODS = {"fill-from": "19", "fill-to": "20"}


def page_sum():
    return hashlib.sha256(b"".join(path.read_bytes() for path in SHOWN)).hexdigest()


def taken_of():
    """The sum of the page of which the picture was taken."""
    found = re.search(rb"tEXt" + KEY.encode() + rb"\0([0-9a-f]{64})", PICTURE.read_bytes())
    return found and found[1].decode()


async def take(url, path):
    """A picture of the page in which GAS has filled in a block."""
    from shared import browser

    async with browser.running_browser_tab(url) as page:
        await page.set_screen_size(WIDTH, "light", HEIGHT)
        await page.wait_until("document.querySelector('#demo-names button')")
        await page.evaluate("[...document.querySelectorAll('#demo-names button')].find((one) => one.textContent === 'GAS').click()")
        await page.wait_until("byId('order-form').checkVisibility()")
        await page.evaluate("document.querySelector('input[value=block]').click()")
        for name, words in FILLED.items():
            await page.evaluate(f"byId('{name}').focus()")
            await page.type_text(words)
        for name, period in PERIODS.items():
            await page.evaluate(f"byId('{name}').value = '{period}'")
        await page.evaluate("byId('side').value = 'sell'")
        await page.evaluate("byId('fill').click()")
        await page.evaluate("document.activeElement.blur(); scrollTo(0, 0)")
        await page.write_picture(path)


def keep(path):
    """Writes the top of a picture with few colours, and with the sum of the page."""
    from PIL import Image, PngImagePlugin

    text = PngImagePlugin.PngInfo()
    text.add_text(KEY, page_sum())
    top = Image.open(path).convert("RGB").crop((0, 0, WIDTH, HEIGHT))
    top.quantize(COLOURS).save(PICTURE, optimize=True, pnginfo=text)


def main():
    words = [TOP / "tools" / "office", "demo", "--no-browser", *sys.argv[1:]]
    with tempfile.NamedTemporaryFile(suffix=".png") as file, subprocess.Popen(words, stdout=subprocess.PIPE, text=True) as demo:
        url = next(found[0] for line in demo.stdout if (found := re.search(r"http://\S+", line)))
        asyncio.run(take(url, file.name))
        keep(file.name)
        demo.send_signal(signal.SIGINT)


if __name__ == "__main__":
    main()
