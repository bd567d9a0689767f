"""Requests of strangers: half, slow, too long, with odd paths, headers and tokens. Each is sent as bytes."""

import contextlib
import gzip
import json
import os
import re
import socket
import ssl
import subprocess
import threading
import time
from collections.abc import Sequence
from pathlib import Path

from lib.office import folder
from shared.counts import Counts
from shared.processes import wait_and_see_if
from shared.served_office import ServedOffice

SECONDS = 40  # that an answer, or the end of a connection, may take
MOST_IDLE = 20 << 10  # KiB of 150 connections over TLS
MOST_KEPT, KEPT_SECONDS = 60 << 10, 15  # KiB of as many slow downloads, and how long it may take until all is kept


def connect(office: ServedOffice) -> socket.socket:
    return socket.create_connection(("127.0.0.1", office.port), timeout=SECONDS)


def send_and_read_answer(office: ServedOffice, data: bytes, wait: bool = True, context: ssl.SSLContext | None = None) -> bytes:
    """Sends bytes, and returns all that comes until the connection ends."""
    with connect(office) as plain:
        connection = context.wrap_socket(plain, server_hostname="localhost") if context else plain
        with contextlib.suppress(ConnectionError, BrokenPipeError):
            connection.sendall(data)
        if not wait:
            with contextlib.suppress(OSError):  # the office has ended the connection
                connection.shutdown(socket.SHUT_WR)
        found = b""
        with contextlib.suppress(ConnectionError):
            while part := connection.recv(65_536):
                found += part
        return found


def request_bytes(method: str, path: str, headers: Sequence[str] = (), body: bytes = b"") -> bytes:
    lines = [f"{method} {path} HTTP/1.1", "Host: x", "Connection: close", *headers]
    lines += [f"Content-Length: {len(body)}"] if body else []
    return "".join(f"{line}\r\n" for line in lines).encode("latin-1") + b"\r\n" + body


def wide_headers(size: int) -> list[str]:
    """Headers with which a request for the days has a head of this number of bytes."""
    headers: list[str] = []
    while (left := size - len(request_bytes("GET", "/days", headers)) - len("X: \r\n")) > 3_000:
        headers.append(f"X: {'a' * 2_900}")
    return [*headers, f"X: {'a' * left}"]


def status_or_none(answer: bytes) -> int | None:
    return int(answer[9:12]) if answer.startswith((b"HTTP/1.1 ", b"HTTP/1.0 ")) else None


def send_and_read_status(office: ServedOffice, method: str, path: str, headers: Sequence[str] = (), body: bytes = b"") -> int | None:
    """Sends a request, and returns the status of its answer."""
    return status_or_none(send_and_read_answer(office, request_bytes(method, path, headers, body)))


def read_peak_memory(office: ServedOffice) -> int:
    """The greatest memory of the office so far, in KiB."""
    return int(re.findall(r"VmHWM:\s+(\d+) kB", Path(f"/proc/{office.process.pid}/status").read_text())[0])


def check_tokens(counts: Counts, office: ServedOffice) -> None:
    who, other = office.who[:2]
    right = office.tokens[who]
    path = f"/days/{office.day}/commands/{who}"
    for words, header in (
        ("no token", None),
        ("an empty one", "Bearer "),
        ("another scheme", f"Basic {right}"),
        ("a shorter one", f"Bearer {right[:-1]}"),
        ("a longer one", f"Bearer {right}A"),
        ("another's", f"Bearer {office.tokens[other]}"),
        ("two", f"Bearer {right} {right}"),
        ("odd bytes", "Bearer \xff\x01"),
    ):
        answer = send_and_read_answer(office, request_bytes("GET", path, [f"Authorization: {header}"] if header is not None else []))
        counts.check(f"{words} is refused", status_or_none(answer) in (400, 401) and right.encode() not in answer)
    for name in ("orders", "commands", "receipts", "statement"):
        request = request_bytes("GET", f"/days/{office.day}/{name}/{other}", [f"Authorization: Bearer {right}"])
        answer = send_and_read_answer(office, request)
        counts.check(f"{name} of another are refused", status_or_none(answer) == 401)
    body = f"cancel,{other},A,,,,,,".encode()
    headers = [f"Authorization: Bearer {right}", "Content-Type: text/csv"]
    counts.check("a command of another is refused", send_and_read_status(office, "PUT", f"{path}/1", headers, body) == 400)
    answer = send_and_read_answer(office, request_bytes("PUT", f"/days/{office.day}/commands/{other}/1", headers, body))
    counts.check("and so is one under its name", status_or_none(answer) == 401)
    counts.check(
        "a right token is taken after many wrong ones", all(send_and_read_status(office, "GET", path, headers) == 200 for _ in range(3))
    )
    many = [send_and_read_status(office, "GET", path, ["Authorization: Bearer x"]) for _ in range(60)]
    counts.check("many wrong ones are slowed down", set(many) == {401, 429})
    counts.check("and the right one isn't", send_and_read_status(office, "GET", path, headers) == 200)


def check_names_without_a_token(counts: Counts, office: ServedOffice, revoked: str) -> None:
    """A request without a token is of no participant: not of one whose token was revoked, nor of a name that the office doesn't know."""
    before = office.capture_journal_of_desk()
    for who in (revoked, "NOBODY"):
        body = f"submit,{who},STRANGE,hour,buy,1,1:1,,".encode()
        number = sum(record.split(",")[1] == who for record in before) + 1
        for header in (None, "", "Bearer", "Bearer ", "Bearer  ", f"Bearer {who}", f"Bearer {who}.", "Bearer None"):
            headers = ["Content-Type: text/csv", *([] if header is None else [f"Authorization: {header}"])]
            answers = [send_and_read_status(office, "GET", f"/days/{office.day}/{name}/{who}", headers) for name in ("orders", "receipts")]
            answers.append(send_and_read_status(office, "PUT", f"/days/{office.day}/commands/{who}/{number}", headers, body))
            counts.check(f"{header!r} isn't {who}: {answers}", set(answers) <= {401, 429})  # wrong tokens are slowed down by now
    counts.check("and it enters nothing", office.capture_journal_of_desk() == before)


def check_paths(counts: Counts, office: ServedOffice) -> None:
    secret = (office.folder / "operator.pem").read_bytes().splitlines()[1]
    for path in (
        "/../operator.pem",
        "/days/../operator.pem",
        "/days/..%2foperator.pem/head",
        "/%2e%2e/operator.pem",
        "//operator.pem",
        f"/days/{office.day}/../../operator.pem",
        f"/days/{office.day}/salts.json",
        f"/days/{office.day}/desk",
        f"/days/{office.day}/terms.json",
        "/days/%00/head",
        "/days/./head",
        "/office.css/../operator.pem",
        "/days/2099-11-29%0d%0aX-Evil:%201/head",
        "/participants.json",
        "/<script>alert(1)</script>",
        "http://evil.example/days",
        "/demo",
        f"/days/{office.day}/close",
        "*",
    ):
        answer = send_and_read_answer(office, request_bytes("GET", path))
        is_right = status_or_none(answer) in (400, 403, 404, 405) or path.startswith("http") and status_or_none(answer) == 200
        head = answer.partition(b"\r\n\r\n")[0]
        counts.check(f"GET {path}", is_right and secret not in answer and b"script>" not in answer and b"\nx-evil" not in head.lower())
    for method in ("DELETE", "POST", "TRACE", "CONNECT", "PATCH", "FOO", "get"):
        counts.check(f"{method} /days", send_and_read_status(office, method, "/days") in (400, 404, 405, 501))


def check_messages(counts: Counts, office: ServedOffice) -> None:
    """Requests that aren't one, are malformed, ask for something odd, or have no end; and answers that aren't read."""
    check_malformed_requests(counts, office)
    check_expectations(counts, office)
    check_log_of_requests(counts, office)
    check_names(counts, office)
    check_endless_requests(counts, office)
    check_unread_answers(counts, office)
    check_large_bodies(counts, office)
    counts.check("nothing was entered", office.client_of(office.who[0]).next(office.day) == 1)


def first_path_and_token(office: ServedOffice, place: int = 0) -> tuple[str, str]:
    """The path of the first command of a participant, and the header with its token."""
    who = office.who[place]
    return f"/days/{office.day}/commands/{who}/1", f"Authorization: Bearer {office.tokens[who]}"


def check_malformed_requests(counts: Counts, office: ServedOffice) -> None:
    """What is no request, or would be two."""
    path, token = first_path_and_token(office)
    body = f"cancel,{office.who[0]},A,,,,,,".encode()
    both = ["Transfer-Encoding: chunked", token, "Content-Type: text/csv"]
    for words, status, data in (
        ("garbage", 400, b"\x16\x03\x01garbage\r\n\r\n"),
        ("a script", 400, b"<script>alert(1)</script>\r\n\r\n"),
        ("a header without a colon", 400, b"GET /days HTTP/1.1\r\nevil<script>\r\n\r\n"),
        ("a header of 100 kB", 400, request_bytes("GET", "/days", [f"X: {'a' * 100_000}"])),
        ("a head of 32 KiB and a byte", None, request_bytes("GET", "/days", wide_headers(32_769))),
        ("a head of 47 KiB", None, request_bytes("GET", "/days", wide_headers(47 << 10))),
        ("10,000 headers", 400, request_bytes("GET", "/days", [f"X-{number}: {'a' * 100}" for number in range(10_000)])),
        ("a length that is none", 400, request_bytes("PUT", path, [token, "Content-Length: -1"])),
        ("a length and chunks", 400, request_bytes("PUT", path, both, body)),
    ):
        answer = send_and_read_answer(office, data)
        counts.check(f"{words} is refused", status_or_none(answer) == status and b"<script>" not in answer)
    answer = send_and_read_answer(office, request_bytes("PUT", path, both) + b"zz\r\n", wait=False)
    counts.check("a chunk that is none is refused", status_or_none(answer) in (400, None))
    counts.check("no version is taken as 1.1", status_or_none(send_and_read_answer(office, b"GET /days\r\n\r\n")) == 200)
    counts.check("a head of 32 KiB is taken", send_and_read_status(office, "GET", "/days", wide_headers(32_768)) == 200)
    for odd in (": x", ": -9"):  # it comes before the length
        answer = send_and_read_answer(office, request_bytes("PUT", path, [token, "Content-Type: text/csv", odd], body))
        counts.check(f"a length behind {odd} is refused: {status_or_none(answer)}", status_or_none(answer) == 400)


def check_expectations(counts: Counts, office: ServedOffice) -> None:
    path, token = first_path_and_token(office)
    answer = send_and_read_answer(office, request_bytes("GET", "/days", ["Expect: <script>alert(1)</script>"]))
    counts.check("an expectation isn't said again", status_or_none(answer) == 200 and b"<script>" not in answer)
    for method, odd in ("GET", "/nothing"), ("DELETE", "/days"):
        answer = send_and_read_answer(office, request_bytes(method, odd, ["Expect: <script>alert(1)</script>"]))
        counts.check(f"nor at {method} {odd}", status_or_none(answer) in (404, 405) and b"<script>" not in answer)
    answer = send_and_read_answer(office, request_bytes("PUT", path, [token, "Expect: 100-continue", "Content-Type: text/csv"], b"cancel"))
    counts.check("a client that waits may go on", answer.startswith(b"HTTP/1.1 100 Continue\r\n\r\nHTTP/1.1 400 "))


def check_log_of_requests(counts: Counts, office: ServedOffice) -> None:
    before_log = len(office.log.read_bytes())
    send_and_read_answer(office, b"GET http://[INJECTED]/days HTTP/1.1\r\nHost: x\r\n\r\n", wait=False)
    counts.check("a request's words aren't in the log", b"INJECTED" not in office.log.read_bytes()[before_log:])
    before_log = len(office.log.read_bytes())
    send_and_read_answer(office, b"CONNECT x:1 HTTP/1.1\r\nHost: x\r\n\r\n" + b"a" * 100, wait=False)
    send_and_read_answer(office, request_bytes("GET", "/days", ["Connection: Upgrade", "Upgrade: h2c"]) + b"a" * 100, wait=False)
    counts.check("nor requests for another protocol", b"defect" not in office.log.read_bytes()[before_log:])
    send_and_read_answer(office, request_bytes("GET", "/days"), wait=False)
    counts.check("a client that ends before its answer isn't a defect", b"defect" not in office.log.read_bytes()[before_log:])


def check_endless_requests(counts: Counts, office: ServedOffice) -> None:
    """A body that is a bomb, and requests and chunks without end: they take no memory, and hold up nobody."""
    path, token = first_path_and_token(office, 1)  # of another participant, whose rate this uses up
    headers = [token, "Content-Encoding: gzip", "Content-Type: text/csv"]
    data = request_bytes("PUT", path, headers, gzip.compress(bytes(300 << 20)))
    before = read_peak_memory(office)
    counts.check("a body that is a bomb is refused", status_or_none(send_and_read_answer(office, data)) == 400)
    counts.check("a body that is a bomb takes no memory", read_peak_memory(office) - before < 50 << 10)
    many = send_and_read_answer(office, b"GET /days HTTP/1.1\r\nHost: x\r\n\r\n" * 200_000)
    counts.check(
        "requests without end aren't answered, and take no memory", len(many) < 10 << 20 and read_peak_memory(office) - before < 100 << 10
    )
    path, token = first_path_and_token(office)
    chunks = b"".join(b"1000\r\n" + b"a" * 4096 + b"\r\n" for _ in range(400)) + b"0\r\n\r\n"
    chunked = request_bytes("PUT", path, ["Transfer-Encoding: chunked", token, "Content-Type: text/csv"])
    answer = send_and_read_answer(office, chunked + chunks)
    counts.check("a body without a length isn't read", status_or_none(answer) == 400)
    with contextlib.ExitStack() as stack:
        for _ in range(20):
            one = stack.enter_context(connect(office))
            with contextlib.suppress(OSError):
                one.sendall(request_bytes("GET", "/days", ["Transfer-Encoding: chunked"]) + b"1\r\na\r\n" * 90_000)
        began = time.monotonic()
        counts.check("tiny chunks hold up nobody", office.send_request("/days")[0] == 200 and time.monotonic() - began < 3)


def check_unread_answers(counts: Counts, office: ServedOffice) -> None:
    before = read_peak_memory(office)
    with contextlib.ExitStack() as stack:
        for _ in range(6):
            one = stack.enter_context(connect(office))
            one.setsockopt(socket.SOL_SOCKET, socket.SO_RCVBUF, 4_096)
            wide = request_bytes("GET", "/openapi.json", [f"X-{number}: {'a' * 4_000}" for number in range(100)])
            with contextlib.suppress(OSError):
                one.sendall(request_bytes("GET", "/openapi.json") * 4 + wide * 60)
        counts.check(
            f"answers that aren't read keep no memory: {read_peak_memory(office) - before} KiB",
            read_peak_memory(office) - before < 30 << 10,
        )


def check_large_bodies(counts: Counts, office: ServedOffice) -> None:
    path, token = first_path_and_token(office)
    counts.check("a body of 2 MB is refused", send_and_read_status(office, "PUT", path, [token], b"a" * (2 << 20)) == 413)
    counts.check("without a token it isn't read", send_and_read_status(office, "PUT", path, [], b"a" * (2 << 20)) == 401)


def check_names(counts: Counts, office: ServedOffice) -> None:
    """Names of the office in requests, which take seconds to decode: digits of which each is compared with all others."""
    name = "xn--" + ("\u0661" * 3_900).encode("punycode").decode()
    for line in (f"GET http://{name}/days", f"CONNECT {name}:1"):
        with connect(office) as one:
            began = time.monotonic()
            one.sendall(f"{line} HTTP/1.1\r\nHost: x\r\n\r\n".encode())
            counts.check(f"{line[:12]} holds up nobody", office.send_request("/days")[0] == 200 and time.monotonic() - began < 1)


def check_slow(counts: Counts, office: ServedOffice) -> None:
    """Half a head and half a body: the connection ends, and others are served in the meantime."""
    who = office.who[0]
    token = f"Authorization: Bearer {office.tokens[who]}"
    put = request_bytes("PUT", f"/days/{office.day}/commands/{who}/1", [token, "Content-Length: 100"])
    halves = [b"GET /days HTT", put[:-2] + b"\r\ncancel"]
    with contextlib.ExitStack() as stack:
        slow = [
            stack.enter_context(connect(office))
            for _ in range(200)
        ]
        began = time.monotonic()
        for number, one in enumerate(slow):
            one.sendall(halves[number % 2])
        counts.check("others are served next to 200 slow ones", office.send_request("/days")[0] == 200 and time.monotonic() - began < 12)
        answers = []
        for one in slow:
            with contextlib.suppress(ConnectionError):
                answers.append(one.recv(65_536))
        counts.check("slow ones end", time.monotonic() - began < SECONDS and all(status_or_none(one) in (400, None) for one in answers))
    counts.check("half a body enters nothing", office.client_of(who).next(office.day) == 1)


def check_tables(counts: Counts, office: ServedOffice) -> None:
    """A participant has one table read at a time, and another one's isn't kept waiting."""
    rows = "".join(f"{{who}},A{number},hour,buy,1,1-2,1\n" for number in range(3_000)).replace("1-2", "1")
    form = "participant,order,kind,side,price_eur_mwh,periods,volume_mw\n" + rows
    answers, tables = [], {who: form.format(who=who) for who in office.who[:2]}

    def send(who: str) -> None:
        answers.append((who, office.send_request(f"/days/{office.day}/tables/{who}", office.bearer_header(who), "POST", tables[who])[0]))

    who, other = office.who[:2]
    threads = [threading.Thread(target=send, args=[one]) for one in (who, who, who, other)]
    for thread in threads:
        thread.start()
        time.sleep(0.05)
    for thread in threads:
        thread.join()
    counts.check(
        f"one table of a participant is read at a time: {answers}", sorted(code for one, code in answers if one == who) == [200, 429, 429]
    )
    counts.check("and another's in the meantime", (other, 200) in answers)


def check_charges(counts: Counts, office: ServedOffice) -> None:
    """Each command of a request counts, however short it is, and the length of an answer too."""
    who = office.who[2]
    day, bearer = f"/days/{office.day}", office.bearer_header(who)
    put = f"{day}/commands/{who}"
    began = time.monotonic()
    code, _, text = office.send_request(f"{put}/1", bearer, "PUT", f"cancel,{who},A,,,,,,\n" * 3_300)
    counts.check("many short commands are entered", code == 200 and text.count(b"\n") == 3_300)
    more = office.send_request(f"{put}/3301", bearer, "PUT", f"cancel,{who},A,,,,,,")[0]
    seconds = time.monotonic() - began
    counts.check(f"and each counts, unless the budget is full again after {seconds:.1f} s", more == 429 or seconds > 6)
    code, _, text = office.send_request(f"{day}/receipts/{who}", bearer)
    counts.check("all receipts are given", code == 200 and text.count(b"\n") == 3_300 + (more == 200))
    counts.check("and their length counts", office.send_request(f"{day}/orders/{who}", bearer)[0] == 429)


def check_silent(counts: Counts, office: ServedOffice) -> None:
    """More connections than the office takes, which never begin TLS: it neither ends nor misses the close."""
    with contextlib.ExitStack() as stack:
        for _ in range(1_700):
            with contextlib.suppress(OSError):
                stack.enter_context(connect(office))
        (office.files / "close-now").touch()
        has_results = wait_and_see_if((office.files / "results.txt").exists, SECONDS)
        counts.check("silent connections don't stop the close", has_results and office.process.poll() is None)
        files = len(os.listdir(f"/proc/{office.process.pid}/fd"))
        counts.check(f"and those that are too many are ended: {files} files", files < 1_100)


def check_downloads(counts: Counts, office: ServedOffice, context: ssl.SSLContext) -> None:
    """Slow readers of what is published, over TLS: each keeps little memory."""
    office.run_tool("publish", office.folder, office.day)
    (office.files / "journal.csv").write_bytes(b"x" * (9 << 20))
    with contextlib.ExitStack() as stack:
        readers, start = [], read_peak_memory(office)
        for _ in range(150):
            plain = socket.socket()
            plain.setsockopt(socket.SOL_SOCKET, socket.SO_RCVBUF, 4_096)
            plain.settimeout(SECONDS)
            plain.connect(("127.0.0.1", office.port))
            readers.append(stack.enter_context(context.wrap_socket(plain, server_hostname="localhost")))
        before = read_peak_memory(office)
        counts.check(f"a connection over TLS takes little memory: {before - start} KiB", before - start < MOST_IDLE)
        for one in readers:
            one.sendall(request_bytes("GET", f"/days/{office.day}/journal"))
        for one in readers:
            one.recv(1)  # the answer has begun
        wait_and_see_if(lambda: read_peak_memory(office) - before >= MOST_KEPT, KEPT_SECONDS, 0.5)
        kept = read_peak_memory(office) - before
        counts.check(f"slow downloads keep little memory: {kept} KiB", kept < MOST_KEPT)


def check_many(counts: Counts, office: ServedOffice, most: int) -> None:
    """More connections than the office takes: it ends those that are too many, and serves others once they go."""
    with contextlib.ExitStack() as stack:
        with contextlib.suppress(OSError):
            for _ in range(most):
                stack.enter_context(connect(office))
        time.sleep(0.5)
    wait_and_see_if(office.probe_and_see_readiness, step=0.1)
    counts.check(f"it serves after {most} connections", office.send_request("/days")[0] == 200)
    counts.check("it refused some", (office.read_metric_or_none("dam_office_connections_refused_total") or 0) > 0)


def check_headers(counts: Counts, office: ServedOffice) -> None:
    for path, code in (
        ("/", 200),
        ("/office.js", 200),
        ("/days", 200),
        ("/nothing", 404),
        (f"/days/{office.day}/orders/{office.who[0]}", 401),
    ):
        found, headers, _ = office.send_request(path)
        policy = headers.get("Content-Security-Policy", "")
        is_right = "default-src 'none'" in policy and "unsafe" not in policy and headers.get("X-Content-Type-Options") == "nosniff"
        counts.check(
            f"headers of {path}", found == code and is_right and "Set-Cookie" not in headers and headers.get("Server") == "dam-office"
        )


def check_secrets(counts: Counts, office: ServedOffice) -> None:
    """Nothing secret in the log, the answers to faults, or the list of processes."""
    listed = subprocess.run(["ps", "axww", "-o", "args="], capture_output=True, text=True).stdout
    log = office.log.read_text()
    secrets = [token.partition(".")[2] for token in office.tokens.values()]
    secrets.append(json.loads((office.files / "salts.json").read_bytes())["secret"])
    counts.check("no secret is in the log or a list of processes", not any(secret in listed or secret in log for secret in secrets))
    counts.check("each line of the log is JSON", all(json.loads(line)["event"] for line in log.splitlines()))
    private = [path for path in [office.folder, *office.folder.rglob("*")] if path.stat().st_mode & 0o077]
    counts.check(f"no file is for others: {private}", not private)
    others = sorted({path.name for path in office.folder.rglob("*") if path.is_file()} - set(folder.OFFICE_FILES + folder.DAY_FILES))
    counts.check(f"and a start looks at each: {others}", not others)
    for process in (office.process.pid, *office.capture_desk_processes()):
        limits = Path(f"/proc/{process}/limits").read_text()
        counts.check(f"no core file is written: {limits}", re.search(r"^Max core file size +0 +0 +bytes", limits, re.MULTILINE) is not None)


def make_certificate(room: str) -> tuple[Path, Path]:
    """A certificate and its key, made by openssl."""
    cert, key = Path(room, "cert.pem"), Path(room, "key.pem")
    words = ["openssl", "req", "-x509", "-newkey", "ec", "-pkeyopt", "ec_paramgen_curve:prime256v1", "-nodes", "-days", "2"]
    words += ["-subj", "/CN=localhost", "-addext", "subjectAltName=DNS:localhost,IP:127.0.0.1"]
    subprocess.run([*words, "-out", cert, "-keyout", key], check=True, capture_output=True)
    return cert, key


def check_tls(counts: Counts, office: ServedOffice, cert: Path) -> None:
    """By openssl s_client, and by the client of dam_tools, which trusts this certificate alone."""
    words = ["openssl", "s_client", "-connect", f"127.0.0.1:{office.port}", "-servername", "localhost", "-CAfile", str(cert)]
    words += ["-verify_return_error", "-quiet"]
    ran = subprocess.run(words, input=request_bytes("GET", "/days"), capture_output=True, timeout=SECONDS)
    counts.check("openssl s_client gets the days", status_or_none(ran.stdout) == 200 and b"max-age" in ran.stdout)
    for version in ("-tls1", "-tls1_1"):
        ran = subprocess.run([*words, version, "-cipher", "DEFAULT@SECLEVEL=0"], input=b"", capture_output=True, timeout=SECONDS)
        counts.check(f"{version} is refused", ran.returncode != 0)
    context = ssl.create_default_context(cafile=cert)
    client = office.client_of(office.who[0])
    client.url, client.context = f"https://localhost:{office.port}", context
    counts.check(
        "the client enters a command over TLS",
        client.enter(office.day, f"cancel,{office.who[0]},A,,,,,,")[0]["reply"] == "refused,UnknownOrder",
    )
    counts.check("plain HTTP gets nothing", send_and_read_status(office, "GET", "/days") != 200)
