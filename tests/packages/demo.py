"""demo.py DAM-OFFICE: runs the demo of an installed office. As the participant GAS it enters an order, closes the day, and waits for the
results, or for the line of the log that says why there are none. It prints what came of each step as JSON. It needs the module
dam_tools."""

import contextlib
import json
import os
import re
import signal
import subprocess
import sys
import tempfile
import threading
import time
import urllib.request
from typing import IO, Any

from dam_tools.office import Asked, Office, OfficeFault

ORDER = "submit,GAS,UNIT-8,hour,sell,6000,8:500,,"
PATHS = ("/", "/office.css", "/office.js", "/openapi.json")
SECONDS, STEP = 60, 0.05
MOST_SECONDS = 150  # after which the office is ended, whatever it does


def find_programs(parent: int) -> list[str]:
    """The programs that a process has started, and that haven't ended."""
    found = []
    for process in filter(str.isdigit, os.listdir("/proc")):
        with contextlib.suppress(OSError):
            with open(f"/proc/{process}/stat", "rb") as text:
                fields = text.read().rpartition(b")")[2].split()
            with open(f"/proc/{process}/cmdline", "rb") as words:
                found += [words.read().split(b"\0")[0].decode()] if int(fields[1]) == parent else []
    return found


def fetch_kind(url: str) -> list[object]:
    """The kind of a file of the page, and whether it is served and isn't empty."""
    with urllib.request.urlopen(url, timeout=SECONDS) as answer:
        return [answer.headers.get_content_type(), answer.status == 200 and len(answer.read()) > 100]


def wait_and_return_outcome(office: Office, day: str, log: IO[str]) -> list[Any]:
    """The price of the order's period, and what became of the order; None for both if the log says that nothing is published."""
    until = time.monotonic() + SECONDS
    while time.monotonic() < until:
        if office.days()[0]["has_statement"]:
            return [office.prices(day)[7], office.statement(day)[0]["executed_mwh"]]
        if "not made" in read_log(log):
            break
        time.sleep(STEP)
    return [None, None]


def read_log(log: IO[str]) -> str:
    log.seek(0)
    return log.read()


def fetch_facts_of_demo(process: subprocess.Popen[str], log: IO[str]) -> dict[str, Any]:
    assert process.stdout
    found = re.search(r"http://127\.0\.0\.1:\d+", process.stdout.readline())
    if not found:
        return {"fault": "it names no page"}
    url = found[0]
    office = Office(url, Office(url, "").get("/demo")["participants"]["GAS"])
    (day,) = (one["day"] for one in office.days())
    (receipt,) = office.enter(day, ORDER)
    told = {"files": [fetch_kind(url + path) for path in PATHS], "programs": find_programs(process.pid), "reply": receipt["reply"]}
    office.ask(Asked("POST", f"/days/{day}/close"))
    told["price"], told["executed"] = wait_and_return_outcome(office, day, log)
    told["head"] = json.loads(office.head(day))["size"]
    return told


def main(command: str) -> None:
    with tempfile.TemporaryFile("w+") as log:
        words = [command, "demo", "--no-browser", "--port", "0"]
        with subprocess.Popen(words, stdout=subprocess.PIPE, stderr=log, text=True) as process:
            timer = threading.Timer(MOST_SECONDS, process.kill)
            timer.start()
            try:
                told = fetch_facts_of_demo(process, log)
            except (OfficeFault, OSError) as fault:
                told = {"fault": str(fault)}
            finally:
                process.send_signal(signal.SIGINT)
                process.wait()
                timer.cancel()
        print(json.dumps({**told, "status": process.returncode, "log": read_log(log)[-2_000:]}))


if __name__ == "__main__":
    main(sys.argv[1])
