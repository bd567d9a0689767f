"""The parts of the test of an office."""

import argparse
import asyncio
import contextlib
import json
import re
import resource
import signal
import ssl
import subprocess
import sys
import tempfile
import time
from collections.abc import Callable, Iterator
from pathlib import Path

from cryptography.hazmat.primitives.asymmetric.ed25519 import Ed25519PublicKey

from dam_tools.office import Asked, Office
from lib.base import rules
from lib.office import desk
from lib.seal import heads, signing
from office import hostile, loads
from shared import browser
from shared.counts import Counts
from shared.office_load import OfficeLoad
from shared.place import TOP
from shared.ports import find_free_port
from shared.processes import pipes_of, stdout_of, wait_and_see_if
from shared.served_office import TOOL, OfficeFault, ServedOffice, day_of, running_office

KILLS, ALL_KILLS = 3, 30
CONNECTIONS, ALL_CONNECTIONS = 50, 200  # of a load, each of a participant; with --all
SECONDS = 12  # that a load may take in the check


def read_key(office: ServedOffice) -> Ed25519PublicKey:
    return signing.parse_public((office.folder / "operator.pem.pub").read_bytes())


def run_tool(name: str, *words: object) -> subprocess.CompletedProcess[str]:
    return subprocess.run([sys.executable, "-I", "-B", TOP / "tools" / name, *map(str, words)], capture_output=True, text=True)


def call_and_see_refusal(call: Callable[[], object], fault: str) -> bool:
    """Makes a call, and returns whether it is refused with a fault of this name."""
    try:
        call()
    except OfficeFault as found:
        return found.fault == fault
    return False


def check_strangers(counts: Counts, args: argparse.Namespace) -> None:
    with running_office(args.dam, args.desk) as office:
        office.start_and_return_seconds()
        hostile.check_headers(counts, office)
        hostile.check_messages(counts, office)
        hostile.check_slow(counts, office)
        hostile.check_paths(counts, office)
        hostile.check_tables(counts, office)
        hostile.check_charges(counts, office)
        hostile.check_many(counts, office, 10_000 if args.all else 1_300)
        hostile.check_tokens(counts, office)
        who = office.who[0]
        client = office.client_of(who)
        client.enter(office.day, f"cancel,{who},A,,,,,,")
        office.run_tool("revoke", office.folder, who)
        counts.check("a revoked token is refused at once", call_and_see_refusal(lambda: client.orders(office.day), "Token"))
        hostile.check_names_without_a_token(counts, office, who)
        hostile.check_secrets(counts, office)


class OfficeWithTls(ServedOffice):
    """An office whose answers need TLS, so that its log alone says whether it is ready."""

    def probe_and_see_readiness(self) -> bool:
        return self.process.poll() is None and b'"serving"' in self.log.read_bytes()


def check_tls(counts: Counts, args: argparse.Namespace) -> None:
    with tempfile.TemporaryDirectory() as room:
        cert, key = hostile.make_certificate(room)
        with running_office(args.dam, args.desk, kind=OfficeWithTls, words=["--tls", cert, key]) as office:
            with contextlib.suppress(RuntimeError):
                office.start_and_return_seconds()
            hostile.check_tls(counts, office, cert)
            hostile.check_silent(counts, office)
            office.stop()
            office.log.write_text("")
            office.start_and_return_seconds()  # with the memory of a new one
            hostile.check_downloads(counts, office, ssl.create_default_context(cafile=cert))


def check_full_disk(counts: Counts, args: argparse.Namespace) -> None:
    """A disk that is full: commands wait or are refused, and are entered once there is room."""
    with tempfile.TemporaryDirectory() as room:
        full, limited = Path(room, "full"), Path(room, "desk")
        # a desk that can't write beyond 16 blocks of 512 bytes, as long as the file `full` is there
        limited.write_text(f'#!/bin/sh\ntrap "" XFSZ\n[ ! -e {full} ] || ulimit -f 16\nexec {args.desk} "$@"\n')
        limited.chmod(0o755)
        full.touch()
        with running_office(args.dam, limited) as office:
            office.start_and_return_seconds()
            who = office.who[0]
            record = f"submit,{who},%s,block,buy,1,{';'.join(f'{period}:1' for period in range(1, 25))},,"
            entered, path = 0, f"/days/{office.day}/commands/{who}/"
            bearer = office.bearer_header(who)
            while (answer := office.send_request(f"{path}{entered + 1}", bearer, "PUT", record % f"B-{entered}"))[0] == 200:
                entered += 1
            counts.check(f"a full disk is answered by 503, after {entered} commands", answer[0] == 503 and 10 < entered < 200)
            counts.check("and the ends of the desk are counted", (office.read_metric_or_none("dam_office_desk_ends_total") or 0) > 0)
            full.unlink()
            receipt = office.client_of(who).enter(office.day, record % f"B-{entered}")[0]
            counts.check(
                "with room the same command is entered once", receipt["number"] == entered + 1 == len(office.capture_journal_of_desk())
            )
            for part in (("desk",), ("office",)):
                office.kill(*part)
                if "office" in part:
                    office.start_and_return_seconds()
                counts.check(
                    "and it stays", [one["entry"] for one in office.client_of(who).commands(office.day)] == list(range(1, entered + 2))
                )


def check_full_office(counts: Counts, args: argparse.Namespace) -> None:
    """A disk that is full for the office too: it is unavailable until there is room, without a command that shows it; and while the files
    of a closed day can't be made."""
    with running_office(args.dam, args.desk) as office:
        office.start_and_return_seconds()
        who = office.who[0]
        record = f"submit,{who},%s,block,buy,1,{';'.join(f'{period}:1' for period in range(1, 25))},,"
        office.client_of(who).enter(office.day, *(record % f"A-{number}" for number in range(40)))
        set_file_limit(office, 4_096)  # the desk inherits it at its next start
        office.kill("desk")
        answer = office.send_request(f"/days/{office.day}/commands/{who}/41", office.bearer_header(who), "PUT", record % "B")
        counts.check(f"a full disk is answered by 503: {answer[2]!r}", answer[0] == 503)
        found = []
        for _ in range(40):
            time.sleep(0.1)
            found.append(office.send_request("/healthz")[0])
        counts.check(f"and the office is unavailable as long as the disk is full: {found}", set(found) == {503})
        values = [office.read_metric_or_none(name) for name in (f'dam_office_ready{{day="{office.day}"}}', "dam_office_right")]
        counts.check(f"and says so in its counts: {values}", values == [0, 0])
        set_file_limit(office, resource.RLIM_INFINITY)
        office.kill("desk")  # which has the limit
        counts.check("with room it is available again, without a command", wait_and_see_if(office.probe_and_see_readiness))
        counts.check("and its counts say so", wait_and_see_if(lambda: office.read_metric_or_none("dam_office_right") == 1))
        set_file_limit(office, 4_096)
        said = office.folder.parent / "said"
        with said.open("wb") as stream:
            began = subprocess.Popen([*TOOL, "close", office.folder], env=office.environment, stdout=stream, stderr=stream)
        counts.check("and not while a closed day has no files", wait_and_see_if(lambda: office.send_request("/healthz")[0] == 503))
        state = json.loads(office.run_tool("status", office.folder, "--json").stdout)["days"][0]["state"]
        counts.check(f"both name the same state: {state}", state == json.loads(office.send_request(f"/days/{office.day}")[2])["state"] != "open")
        counts.check("close says that it waits", wait_and_see_if(lambda: b"has no head yet" in said.read_bytes()))
        set_file_limit(office, resource.RLIM_INFINITY)
        status = began.wait(60)
        counts.check(f"and ends with the results: {said.read_bytes()!r}", status == 0 and b"has its results" in said.read_bytes())
        counts.check("and the office is available once they are there", wait_and_see_if(office.probe_and_see_readiness))


def set_file_limit(office: ServedOffice, size: int) -> None:
    """Lets the office write no file beyond this size."""
    resource.prlimit(office.process.pid, resource.RLIMIT_FSIZE, (size, resource.RLIM_INFINITY))


def check_words_of_desk(counts: Counts, args: argparse.Namespace) -> None:
    """The words by which the office says that a desk is open, and that another one still has its file."""
    with tempfile.TemporaryDirectory() as room:
        words = [args.desk, Path(room, "day.desk")]
        shown = subprocess.run(words, input=b"day,24,,,,,,,\n" + desk.EMPTY_LINE, capture_output=True, timeout=SECONDS)
        counts.check(f"an open desk answers an empty line: {shown}", shown.stdout == b"day,24\n" + desk.ANSWER_TO_EMPTY_LINE)
        with subprocess.Popen(words, stdin=subprocess.PIPE, stdout=subprocess.PIPE) as first:
            stdin, stdout = pipes_of(first)
            stdout.readline()  # its journal, once it has the file
            second = subprocess.run(words, input=b"", capture_output=True, timeout=SECONDS)
            stdin.close()
        counts.check(f"a second desk ends: {second}", second.stderr == b"file: %s\n" % desk.LOCKED_WORDS)


def check_ended_desk(counts: Counts, args: argparse.Namespace) -> None:
    """A desk that ends while no command comes, and whose file can't be opened for some time."""
    with tempfile.TemporaryDirectory() as room:
        unreadable, wrapped = Path(room, "unreadable"), Path(room, "desk")
        wrapped.write_text(f'#!/bin/sh\n[ ! -e {unreadable} ] || {{ echo unreadable >&2; exit 4; }}\nexec {args.desk} "$@"\n')
        wrapped.chmod(0o755)
        with running_office(args.dam, wrapped) as office:
            office.start_and_return_seconds()
            (first,) = office.capture_desk_processes()
            office.kill("desk")
            counts.check(
                "an idle desk that ends is opened again",
                wait_and_see_if(lambda: office.capture_desk_processes() not in ([], [first]) and office.probe_and_see_readiness()),
            )
            unreadable.touch()
            office.kill("desk")
            counts.check("without one the office is unavailable", wait_and_see_if(lambda: office.send_request("/healthz")[0] == 503, 5))
            unreadable.unlink()
            counts.check("until it opens again", wait_and_see_if(office.probe_and_see_readiness))
            office.stop()
            events = [json.loads(line)["event"] for line in office.log.read_text().splitlines()]
            counts.check(f"an office that is ended says so: {events}", events[-1] == "ended" and "stopped" not in events)


def check_rolled_back(counts: Counts, args: argparse.Namespace) -> None:
    """A desk's file that is put back by an entry while no office runs, and one that is lost."""
    with running_office(args.dam, args.desk) as office:
        office.start_and_return_seconds()
        who, desk, signed = office.who[0], office.files / "desk", office.files / "signed-head.json"
        client = office.client_of(who)
        client.enter(office.day, f"cancel,{who},A,,,,,,")
        earlier = desk.read_bytes()
        client.enter(office.day, f"cancel,{who},B,,,,,,")
        counts.check(
            "the newest head is soon in its file", wait_and_see_if(lambda: signed.exists() and json.loads(signed.read_bytes())["size"] == 2)
        )
        office.kill("office", "desk")
        later = desk.read_bytes()
        for lost in (earlier, None):
            for _ in range(2):
                desk.unlink() if lost is None else write_private(desk, lost)
                started = office.start_and_see_readiness()
                said = office.log.read_text()
                counts.check(f"a journal without signed entries isn't served: {said[-300:]}", not started and "LostEntries" in said)
                counts.check("and no head of it is signed", office.send_request(f"/days/{office.day}/head")[0] == 503)
                counts.check("and it says that it is stopped", json.loads(office.send_request("/days")[2])["days"][0]["state"] == "stopped")
                office.stop()
                office.log.write_text("")
        write_private(desk, later)
        office.start_and_return_seconds()
        counts.check(
            "with its file back the day goes on", office.client_of(who).enter(office.day, f"cancel,{who},C,,,,,,")[0]["number"] == 3
        )
        office.stop()
        counts.check("an orderly end has the newest head", json.loads(signed.read_bytes())["size"] == 3)
        write_private(desk, earlier)
        signed.unlink()
        office.start_and_return_seconds()
        counts.check("and without the head's file a shorter journal is served", len(office.client_of(who).commands(office.day)) == 1)
    check_restored(counts, args)


def write_private(path: Path, data: bytes) -> None:
    """Writes a file of the office, which others may not read."""
    path.touch(0o600)
    path.write_bytes(data)


def check_restored(counts: Counts, args: argparse.Namespace) -> None:
    """A day whose last entries are on no disk any more: receipts have them, and a desk's file of their records gives the same receipts."""
    with running_office(args.dam, args.desk) as office:
        office.start_and_return_seconds()
        entered = [(who, office.client_of(who).enter(office.day, f"cancel,{who},{name},,,,,,")[0]) for name in "AB" for who in office.who]
        path, head = f"/days/{office.day}/commands", office.send_request(f"/days/{office.day}/head")[2]
        office.kill("office", "desk")
        backup = [f"day,{office.periods},,,,,,,", *office.capture_journal_of_desk()[:2]]
        after = sorted((receipt for _, receipt in entered if receipt["number"] > 2), key=lambda receipt: receipt["number"])
        for name in ("desk", "desk-wal", "signed-head.json"):
            (office.files / name).unlink()
        records = "".join(f"{record}\n" for record in [*backup, *(receipt["record"] for receipt in after)])
        words = [args.desk, office.files / "desk"]
        subprocess.run(words, input=records.encode(), capture_output=True, check=True, umask=0o022)
        office.start_process()
        said = b'desk can be read or changed by others: chmod 600"'
        is_named = wait_and_see_if(lambda: said in office.log.read_bytes() and office.probe_and_see_listening())
        counts.check("a desk that others may read isn't served", is_named and office.send_request(f"/days/{office.day}")[0] == 404)
        for made in office.files.glob("desk*"):
            made.chmod(0o600)
        counts.check("until it is the owner's alone", wait_and_see_if(office.probe_and_see_readiness))
        again = [
            (who, json.loads(office.send_request(f"{path}/{who}/{number}", office.bearer_header(who))[2]))
            for number in (1, 2)
            for who in office.who
        ]
        counts.check("a day that was restored from receipts gives the same ones", again == entered)
        counts.check("and has the same head", office.send_request(f"/days/{office.day}/head")[2] == head)


def check_kills(counts: Counts, args: argparse.Namespace) -> None:
    """SIGKILL of the office, its desk and both, in the middle of a load, after which clients send again."""
    count, rounds = (ALL_KILLS, 5) if args.all else (KILLS, 1)
    for number in range(rounds):
        with running_office(args.dam, args.desk, count=20) as office:
            office.start_and_return_seconds()
            load, starts = asyncio.run(loads.run_with_kills(office, count // rounds, 60, f"kills {number}"))
            records = office.capture_journal_of_desk()
            replies = loads.capture_replies_of_dam(args.dam, records)
            wrong = list(loads.faults_of_load(load, records, replies, read_key(office)))
            counts.check(f"no acknowledged command is lost, changed or doubled: {wrong[:3]}", not wrong)
            counts.check("each command is acknowledged", len(load.acknowledged) == len(records) == 20 * 60)
            office.close_day_and_return_seconds()
            counts.check("a day with kills is closed", office.capture_journal_of_desk()[-1] == "close,,,,,,,,")
            receipts, head = office.folder / "r.jsonl", office.folder / "h.json"
            client = office.client_of(office.who[0])
            receipts.write_bytes(client.receipts(office.day))
            head.write_bytes(client.head(office.day))
            ran = run_tool("receipts", "verify", receipts, "--head", head, "--key", office.folder / "operator.pem.pub")
            counts.check(f"the receipts are right: {ran.stdout[-200:]}", ran.returncode == 0)
            print(f"{count // rounds} kills, {len(records)} commands: ready again after {max(starts):.2f} s at most")


def check_whole_day(counts: Counts, args: argparse.Namespace) -> None:
    """A day of 9,999 commands, or as many as there is time for, from 50 connections, or 200; then a crash, the close, and what is
    published."""
    connections = ALL_CONNECTIONS if args.all else CONNECTIONS
    most = (rules.MOST_RECORDS - 2) // connections  # of each
    with running_office(args.dam, args.desk, count=connections) as office:
        office.start_and_return_seconds()
        load = OfficeLoad(office)
        took = asyncio.run(load.send_all_and_return_seconds(most, 600 if args.all else SECONDS))
        print(f"{connections} connections: {load.summary_text(took)}")
        records = office.capture_journal_of_desk()
        replies = loads.capture_replies_of_dam(args.dam, records)
        wrong = list(loads.faults_of_load(load, records, replies, read_key(office)))
        counts.check(f"no reply is lost, wrong or twice: {wrong[:3]}", not wrong and len(load.acknowledged) == len(records))
        office.kill("office", "desk")
        again = office.start_and_return_seconds()
        print(f"a start with {len(records)} entries: {again:.2f} s")
        published = office.close_day_and_return_seconds()
        print(f"from the close to the results: {published:.2f} s")
        check_published(counts, args, office)
        office.kill("office", "desk")
        office.start_process()
        others = list(iterate_wrong_answers_of_start(office, len(records) + 1))
        counts.check(f"a closed day that is read again gives no other answers: {others[:3]}", not others)
        counts.check("another's share isn't touched", office.client_of(office.who[0]).next(office.day) <= most + 1)


def iterate_wrong_answers_of_start(office: ServedOffice, size: int) -> Iterator[tuple[object, ...]]:
    """The answers of an office that starts, until it is ready, which aren't those of a closed day with this number of entries."""
    who, is_ready = office.who[0], False
    while not is_ready:
        is_ready = office.probe_and_see_readiness()
        for path in (f"/days/{office.day}/head", f"/days/{office.day}/commands/{who}/1", f"/days/{office.day}/receipts/{who}"):
            with contextlib.suppress(OSError):  # it doesn't listen yet
                status, _, data = office.send_request(path, office.bearer_header(who))
                if status != 503 and (status != 200 or path.endswith("head") and json.loads(data)["size"] != size):
                    yield path, status, data[:100]
    if office.process.poll() is not None:
        yield ("it ended", office.log.read_text()[-500:])


def check_week(counts: Counts, args: argparse.Namespace) -> None:
    """A second day and a new participant, while the first day is open; a new token; an office that is served twice; a start after a
    close."""
    with running_office(args.dam, args.desk) as office:
        office.start_and_return_seconds()
        first, later, who = office.day, "2099-11-30", office.who[0]
        office.client_of(who).enter(first, f"cancel,{who},A,,,,,,")
        table = office.folder.parent / "more.csv"
        table.write_text(f"participant,commands\n{who},7\nNEW,9\n")
        words = ["--day", later, "--periods", 96, "--close", "12:00", "--participants", table, "--json"]
        made = office.run_tool("init", office.folder, *words)
        office.tokens.update(json.loads(made.stdout)["tokens"])
        wait_and_see_if(lambda: office.send_request(f"/days/{later}")[0] == 200, 10)
        new = office.client_of("NEW")
        counts.check("a day is added while another is open", new.enter(later, "submit,NEW,A,hour,buy,1,96:1,,")[0]["reply"] == "done")
        counts.check("days have journals of their own", [one["entries"] for one in new.days()] == [1, 1])
        counts.check(
            "and shares of their own",
            call_and_see_refusal(lambda: office.client_of(who).enter(later, *[f"cancel,{who},A,,,,,,"] * 8), "ShareUsed"),
        )
        counts.check(
            "a participant of one day has none of another",
            call_and_see_refusal(lambda: new.enter(first, "cancel,NEW,A,,,,,,"), "ShareUsed"),
        )
        again = subprocess.run([*TOOL, "serve", office.folder, "--port", "0"], env=office.environment, capture_output=True, text=True)
        counts.check(f"an office is served once: {again.stderr}", again.returncode == 3 and "another process serves" in again.stderr)
        old, token = office.client_of("NEW"), office.run_tool("renew", office.folder, "NEW").stdout.decode().strip()
        office.tokens["NEW"] = token
        counts.check(
            "a renewed token ends the old one",
            call_and_see_refusal(lambda: old.orders(later), "Token") and len(office.client_of("NEW").orders(later)) == 1,
        )
        office.run_tool("close", office.folder, first)
        state = json.loads(office.run_tool("status", office.folder, "--json").stdout)
        counts.check(
            "one day is closed, and the other open", [day["state"] for day in state["days"]] == ["results", "open"] and state["served"]
        )
        office.process.send_signal(signal.SIGINT)
        counts.check("an office ends at Ctrl-C", office.process.wait(SECONDS) == 0)
        office.start_and_return_seconds()
        receipts = office.client_of(who).receipts(first)
        counts.check("a closed day is served after a start", heads.parse_value_and_is_written(receipts, heads.parse_receipt)[0].head.size == 2)
        counts.check("and the other day is still open", office.client_of("NEW").enter(later, "cancel,NEW,A,,,,,,")[0]["number"] == 2)


def check_demo(counts: Counts, args: argparse.Namespace) -> None:
    """The demo, without a browser: its page, its tokens, a close at once, results."""
    from office import described

    port = find_free_port()
    words = [*TOOL, "demo", "--no-browser", "--port", str(port), "--dam", args.dam, "--desk", args.desk]
    with subprocess.Popen(words, stdout=subprocess.PIPE, stderr=subprocess.DEVNULL, text=True) as process:
        try:
            counts.check("a demo names its page", f"http://127.0.0.1:{port}/" in stdout_of(process).readline())
            url = f"http://127.0.0.1:{port}"
            names = Office(url, "").ask(Asked("GET", "/demo"))
            described.check_answer_of_demo(counts, "get", "/demo", names)
            gas = Office(url, json.loads(names)["participants"]["GAS"])
            (day,) = (one["day"] for one in gas.days())
            gas.enter(day, "submit,GAS,UNIT-8,hour,sell,6000,8:500,,")
            described.check_answer_of_demo(counts, "post", "/days/{day}/close", gas.ask(Asked("POST", f"/days/{day}/close")))
            counts.check("a demo describes its requests", gas.get("/openapi.json") == described.DEMO)
            wait_and_see_if(lambda: gas.days()[0]["has_statement"], step=0.05)
            # as in the trader's guide
            counts.check("a demo has results", gas.prices(day)[7] == (8, 6_000, 800) and gas.statement(day)[0]["executed_mwh"] == 35)
        finally:
            process.send_signal(signal.SIGINT)
    counts.check("a demo ends at Ctrl-C", process.returncode == 0)
    words = [*TOOL, "demo", "--no-browser", "--dam", args.dam, "--desk", "/bin/false"]
    with subprocess.Popen(words, stdout=subprocess.DEVNULL, stderr=subprocess.PIPE, text=True) as process:
        assert process.stderr
        said = next((line for line in process.stderr if "desk ended" in line), "")
        process.send_signal(signal.SIGINT)
        try:
            process.communicate(timeout=20)
        except subprocess.TimeoutExpired:
            process.kill()
    counts.check(f"a demo whose desk doesn't open ends at Ctrl-C: {said}", said != "" and process.returncode == 0)


def check_published(counts: Counts, args: argparse.Namespace, office: ServedOffice) -> None:
    """The published texts are the program's own, the audit accepts them with the head, and each participant has its statement."""
    who = office.who[0]
    client = office.client_of(who)
    counts.check("the journal isn't published by itself", call_and_see_refusal(lambda: client.text(office.day, "journal"), "NotFound"))
    office.run_tool("publish", office.folder)
    journal, results, replies = (client.text(office.day, name) for name in ("journal", "results", "replies"))
    cleared = subprocess.run([args.dam, "clear"], input=journal, capture_output=True, check=True).stdout
    counts.check("the results are dam clear's", results == cleared)
    odd = {"If-Modified-Since": f"Fri, 01 Jan {10**20} 00:00:00 GMT"}
    counts.check("an impossible date changes nothing", office.send_request(f"/days/{office.day}/results", odd)[2] == results)
    status, headers, data = office.send_request(f"/days/{office.day}/results", method="HEAD")
    counts.check("a head has the length alone", (status, int(headers["Content-Length"]), data) == (200, len(results), b""))
    counts.check(
        "the replies are dam replay's",
        replies == subprocess.run([args.dam, "replay"], input=journal, capture_output=True, check=True).stdout,
    )
    folder = office.files
    words = ["--head", folder / "head.json", "--salts", folder / "salts.json", "--key", office.folder / "operator.pem.pub"]
    for texts in (["results.txt"], ["replies.txt", "--replies"]):
        name, *more = texts
        ran = run_tool("audit", folder / "journal.csv", folder / name, *more, *words)
        counts.check(f"the audit accepts {name}: {ran.stdout[-300:]}{ran.stderr[-300:]}", ran.returncode == 0)
    wait_and_see_if(lambda: not call_and_see_refusal(lambda: client.statement(office.day), "NotFound"), 60, 0.1)
    rows = client.statement(office.day)
    counts.check(
        "a statement has each command of the participant",
        len(rows) == client.next(office.day) - 1 and {row["participant"] for row in rows} <= {who},
    )
    first = heads.parse_extension(heads.json.loads(client.head(office.day, 1)))
    counts.check("the last head goes on from the first", first.is_valid() and first.new.size == len(office.capture_journal_of_desk()))


def check_routes(counts: Counts, args: argparse.Namespace) -> None:
    """Each route as the description has it, and random requests by it."""
    from office import described

    for periods in sorted(rules.DAYS):
        with running_office(args.dam, args.desk, periods=periods, day=day_of(periods)) as office:
            office.start_and_return_seconds()
            check_alerts(counts, office)
            described.check_routes(counts, office, periods)


def check_alerts(counts: Counts, office: ServedOffice) -> None:
    """The alerts of the example ask for measures that the office has from its start: one that begins later never grows from 0."""
    asked = set(re.findall(r"\bdam_office_\w+", (TOP / "examples" / "operating" / "alerts.yml").read_text()))
    missing = sorted(asked - set(re.findall(r"^\w+", office.send_request("/metrics")[2].decode(), re.MULTILINE)))
    counts.check(f"the office has each of {len(asked)} measures of the alerts: {missing}", len(asked) > 4 and not missing)


def check_page(counts: Counts, args: argparse.Namespace) -> None:
    if browser.find_browser_or_none() is None:
        counts.count_and_print_left_out("the page: chromium is missing")
        return
    from office import scene_of_page

    scene_of_page.check_pages(counts, args)
