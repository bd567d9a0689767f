"""A headless Chromium, by its DevTools protocol."""

import asyncio
import base64
import contextlib
import itertools
import json
import shutil
import subprocess
import tempfile
from collections.abc import AsyncIterator
from pathlib import Path
from typing import Any

import aiohttp

NAMES = ("chromium", "chromium-browser", "google-chrome")
START_SECONDS, WAIT_SECONDS, STEP = 60, 60, 0.05


def find_browser_or_none() -> str | None:
    return next((path for name in NAMES if (path := shutil.which(name))), None)


class BrowserTab:
    """A tab. Faults of its scripts, and loads that its policy refuses, are gathered in `faults`."""

    def __init__(self, socket: aiohttp.ClientWebSocketResponse) -> None:
        self.socket, self.numbers = socket, itertools.count(1)
        self.answers: dict[int, asyncio.Future[dict[str, Any]]] = {}
        self.faults: list[str] = []
        self.reader = asyncio.create_task(self.read_and_keep_messages())

    async def read_and_keep_messages(self) -> None:
        async for message in self.socket:
            value = json.loads(message.data)
            if "id" in value:
                answer = self.answers.pop(value["id"])
                if not answer.done():  # nobody waits any more for one that comes too late
                    answer.set_result(value)
            elif value["method"] == "Runtime.exceptionThrown":
                self.faults.append(value["params"]["exceptionDetails"].get("exception", {}).get("description", "an exception"))
            elif value["method"] == "Log.entryAdded" and value["params"]["entry"]["level"] == "error":
                self.faults.append(f"{value['params']['entry']['text']} {value['params']['entry'].get('url', '')}")

    async def call_browser(self, method: str, **params: object) -> dict[str, Any]:
        number = next(self.numbers)
        self.answers[number] = asyncio.get_running_loop().create_future()
        await self.socket.send_json({"id": number, "method": method, "params": params})
        answer = await asyncio.wait_for(self.answers[number], WAIT_SECONDS)
        if "error" in answer:
            raise RuntimeError(f"{method}: {answer['error']}")
        return answer["result"]

    async def evaluate(self, script: str) -> Any:
        """The value of an expression in the page."""
        found = await self.call_browser("Runtime.evaluate", expression=script, awaitPromise=True, returnByValue=True)
        if "exceptionDetails" in found:
            raise RuntimeError(f"{script}: {found['exceptionDetails']}")
        return found["result"].get("value")

    async def wait_until(self, script: str) -> None:
        """Waits until an expression is true, also while another page is opened."""
        with contextlib.suppress(asyncio.TimeoutError):
            async with asyncio.timeout(WAIT_SECONDS):
                while not await self.evaluate_and_see(script):
                    await asyncio.sleep(STEP)
                return
        raise AssertionError(
            f"it never is so: {script}; the page says: {await self.evaluate('document.getElementById(`message`)?.textContent')}"
        )

    async def evaluate_and_see(self, script: str) -> bool:
        try:
            return await self.evaluate(f"Boolean({script})")
        except RuntimeError as fault:
            if "navigated" not in str(fault):
                raise
            return False

    async def set_screen_size(self, width: int, scheme: str, height: int = 900) -> None:
        await self.call_browser("Emulation.setDeviceMetricsOverride", width=width, height=height, deviceScaleFactor=1, mobile=width < 500)
        await self.call_browser("Emulation.setEmulatedMedia", features=[{"name": "prefers-color-scheme", "value": scheme}])

    async def write_picture(self, path: Path) -> None:
        found = await self.call_browser("Page.captureScreenshot", captureBeyondViewport=True)
        Path(path).write_bytes(base64.b64decode(found["data"]))

    async def type_text(self, text: str) -> None:
        await self.call_browser("Input.insertText", text=text)

    async def press_key(self, name: str, code: int) -> None:
        for kind in ("keyDown", "keyUp"):
            text = {"text": "\r"} if name == "Enter" and kind == "keyDown" else {}
            await self.call_browser("Input.dispatchKeyEvent", type=kind, key=name, code=name, windowsVirtualKeyCode=code, **text)


@contextlib.asynccontextmanager
async def running_browser_tab(url: str) -> AsyncIterator[BrowserTab]:
    """A tab with a page."""
    with tempfile.TemporaryDirectory(ignore_cleanup_errors=True) as room:
        words = [
            find_browser_or_none() or NAMES[0],
            "--headless=new",
            "--no-sandbox",
            "--disable-gpu",
            "--disable-dev-shm-usage",
            "--no-first-run",
            "--hide-scrollbars",
        ]
        words += ["--remote-debugging-port=0", "--disable-background-networking", f"--user-data-dir={room}", "about:blank"]
        process = subprocess.Popen(words, stdout=subprocess.DEVNULL, stderr=subprocess.DEVNULL)
        try:
            async with asyncio.timeout(START_SECONDS):
                while not (port := Path(room, "DevToolsActivePort")).exists() or len(port.read_text().split()) < 2:
                    await asyncio.sleep(STEP)
            async with aiohttp.ClientSession() as session:
                async with session.get(f"http://127.0.0.1:{port.read_text().split()[0]}/json") as answer:
                    tab = next(one for one in await answer.json(content_type=None) if one["type"] == "page")
                async with session.ws_connect(tab["webSocketDebuggerUrl"], max_msg_size=0) as socket:
                    page = BrowserTab(socket)
                    for domain in ("Page", "Runtime", "Log", "DOM"):
                        await page.call_browser(f"{domain}.enable")
                    await page.call_browser("Page.navigate", url=url)
                    await page.wait_until("location.href !== 'about:blank' && document.readyState === 'complete'")
                    yield page
        finally:
            process.terminate()
            process.wait()
