"""A demo: a day of made-up participants at a loopback address, in a folder that goes away."""

import argparse
import asyncio
import contextlib
import datetime
import tempfile
import webbrowser

from ..journal import journal
from ..seal import heads
from ..tool import exits, file_io
from . import folder, monitoring, setup, tokens
from .day_writer import DayWriter
from .programs import Programs
from .refusals import Refused
from .serve import Listening, Office, serve

DAY_AFTER = datetime.timedelta(days=1)
TOWN = ((8, 800), (9, 700), (19, 900), (20, 850))
WIND = ((8, 450), (9, 300), (19, 200), (20, 250))
# The orders that are there already, in the periods of the trader's guide as it has them. GAS has none: its orders are yours to enter.
GUIDE = [
    *(f"submit,TOWN,LOAD-{period},hour,buy,15000,{period}:{volume},," for period, volume in TOWN),
    *(f"submit,WIND,PARK-{period},hour,sell,1200,{period}:{volume},," for period, volume in WIND),
    *(f"submit,OIL,PEAKER-{period},hour,sell,11000,{period}:1000,," for period, _ in TOWN),
]
# In the other periods there are the load, the wind and a river, in MW, so that each has trade: at 48 EUR/MWh by night, at 110 by day.
OTHERS = {
    **{1: (52, 34, 25), 2: (50, 36, 25), 3: (48, 38, 25), 4: (47, 38, 25), 5: (49, 36, 25), 6: (55, 34, 25), 7: (68, 32, 25)},
    **{10: (72, 24, 30), 11: (74, 20, 30), 12: (76, 18, 30), 13: (75, 22, 30), 14: (73, 26, 30), 15: (71, 28, 30), 16: (72, 24, 30)},
    **{17: (78, 20, 30), 18: (86, 20, 30), 21: (80, 26, 30), 22: (72, 28, 30), 23: (56, 32, 30), 24: (52, 34, 30)},
}
ORDERS = GUIDE + [
    record
    for period, (load, wind, river) in OTHERS.items()
    for record in (
        f"submit,TOWN,LOAD-{period},hour,buy,15000,{period}:{load}0,,",
        f"submit,WIND,PARK-{period},hour,sell,1200,{period}:{wind}0,,",
        f"submit,RIVER,FLOW-{period},hour,sell,4800,{period}:{river}0,,",
        f"submit,OIL,PEAKER-{period},hour,sell,11000,{period}:1000,,",
    )
]
PARTICIPANTS = ("GAS", "TOWN", "WIND", "RIVER", "OIL")


def demo_terms_from_now(seconds: int) -> folder.Terms:
    now = datetime.datetime.now(datetime.timezone.utc)
    return folder.Terms(
        (now + DAY_AFTER).date().isoformat(),
        24,
        now + datetime.timedelta(seconds=seconds),
        "UTC",
        setup.require_shares(dict.fromkeys(PARTICIPANTS)),
    )


async def enter_orders_or_stop(writer: DayWriter) -> None:
    """Enters the orders that are there already, as their participants would."""
    await writer.is_ready.wait()
    for who in PARTICIPANTS:
        submits = [found for found in map(heads.command_of_record, ORDERS) if isinstance(found, journal.Submit) and found.who == who]
        if submits:
            try:
                await writer.submit_or_refuse(who, 1, [*submits])
            except Refused as fault:
                raise exits.Stop(f"the demo's own orders weren't entered ({fault}): give more --seconds", exits.COMMAND_LINE) from None


async def serve_demo(args: argparse.Namespace, programs: Programs) -> None:
    with tempfile.TemporaryDirectory(prefix="dam-office-") as room:
        office = folder.Folder(f"{room}/office")
        setup.make_office(office)
        register = tokens.Register(office.path_of(folder.PARTICIPANTS))
        made = {who: register.write_and_return_new_token(who) for who in PARTICIPANTS}
        day = demo_terms_from_now(args.seconds)
        setup.make_day_or_stop(office, day)
        served = Office.read_or_stop(office, programs, monitoring.Log())

        async def started(port: int) -> None:
            await enter_orders_or_stop(served.writers[day.day])
            page = f"http://{args.host}:{port}/"
            file_io.print_lines([f"the page: {page}", f"the day {day.day} closes in {args.seconds} s; Ctrl-C ends the demo"])
            if not args.no_browser:
                with contextlib.suppress(webbrowser.Error):
                    await asyncio.to_thread(webbrowser.open, page)

        await serve(served, Listening(args.host, args.port), made, started)
