"""The routes of an office, compared with its OpenAPI file: each is described, and each answer has the described status, type and shape,
also to random requests."""

import json
import random
import re
import time
from typing import Any
from unittest import mock

from lib.base import rules
from lib.base.json_value import JsonObject
from lib.office import fixed_files, refusals, routes
from lib.seal import heads
from shared.counts import Counts
from shared.processes import wait_and_see_if
from shared.served_office import ServedOffice

API, DEMO = (json.loads(fixed_files.read_openapi_text(is_demo)) for is_demo in (False, True))
RANDOM = 60  # requests of a day
WAIT_SECONDS = 20  # for the office to take requests again
TYPES: dict[str, Any] = {"string": str, "integer": int, "number": (int, float), "boolean": bool, "array": list, "object": dict}


def schema_referred_to(described: JsonObject) -> JsonObject:
    """A part of the description, or the component to which it refers."""
    if "$ref" not in described:
        return described
    _, components, kind, name = described["$ref"].split("/")
    return API[components][kind][name]


def fault_of_value_or_none(value: Any, schema: JsonObject, at: str = "answer") -> str | None:
    """How a value breaks a schema; None if it doesn't."""
    schema = schema_referred_to(schema)
    if "oneOf" in schema:
        return None if sum(fault_of_value_or_none(value, one, at) is None for one in schema["oneOf"]) == 1 else f"{at} is none of several"
    kind = schema.get("type")
    if kind and (not isinstance(value, TYPES[kind]) or kind != "boolean" and isinstance(value, bool)):
        return f"{at} should be a {kind}"
    if "enum" in schema and value not in schema["enum"]:
        return f"{at} is {value!r}"
    if "pattern" in schema and not re.search(schema["pattern"], value):
        return f"{at} is {value!r}"
    if kind == "array":
        found = (fault_of_value_or_none(one, schema.get("items", {}), f"{at}[{number}]") for number, one in enumerate(value))
        return next((fault for fault in found if fault), None)
    if kind == "object":
        if missing := [name for name in schema.get("required", ()) if name not in value]:
            return f"{at} has no {missing[0]}"
        properties = schema.get("properties", {})
        if schema.get("additionalProperties") is False and (more := set(value) - set(properties)):
            return f"{at} has {sorted(more)[0]}"
        found = (fault_of_value_or_none(one, properties.get(name, {}), f"{at}.{name}") for name, one in value.items())
        return next((fault for fault in found if fault), None)
    return None


def send_check_and_return_answer(
    counts: Counts,
    office: ServedOffice,
    method: str,
    template: str,
    values: JsonObject,
    headers: dict[str, str] | None = None,
    body: bytes | None = None,
    query: str = "",
) -> tuple[int, bytes]:
    """Sends a request, and compares the answer with its description. Returns the status and the body."""
    status, got, data = office.send_request(template.format(**values) + query, headers, method, body)
    described = API["paths"][template][method.lower()]["responses"].get(str(status))
    about = f"{method} {template} {values} {query} {(body or b'')[:200]!r}: {status} {data[:200]!r}"
    if described is None:
        counts.check(f"{about}: the status isn't described", False)
        return status, data
    kinds = schema_referred_to(described).get("content", {})
    kind = got.get("Content-Type", "").partition(";")[0]
    fault = None if kind in kinds or not kinds else f"the type is {kind}"
    if kind == "application/json" and kind in kinds:
        fault = fault or fault_of_value_or_none(json.loads(data), kinds[kind]["schema"])
    counts.check(f"{about}: {fault}", fault is None)
    return status, data


def check_answer_of_demo(counts: Counts, method: str, template: str, answer: bytes) -> None:
    """The answer to a request that only a demo answers is as described."""
    described = DEMO["paths"][template][method]["responses"]["200"]["content"]["application/json"]["schema"]
    fault = fault_of_value_or_none(json.loads(answer), described)
    counts.check(f"{method} {template} in a demo: {fault}", fault is None)


def check_all_are_described(counts: Counts) -> None:
    """The routes of the application and of the file are the same, in an office and in a demo."""
    plain = lambda path: re.sub(r"\{(\w+):[^/]*\}(?=/|$)", r"{\1}", path)
    for demo in (None, {"GAS": "GAS.token"}):
        made = routes.Web.read(mock.Mock(public_key=""), demo=demo)
        answered = [route for route in made.new_application().router.routes() if route.method != "HEAD"]
        served = {(route.method, plain(route.resource.canonical)) for route in answered if route.resource}
        api = json.loads(made.public.files["/openapi.json"][0])
        described = {(method.upper(), path) for path, methods in api["paths"].items() for method in methods if method != "x-demo"}
        counts.check(f"described and served: {served ^ described}", served == described)
        counts.check("only a demo has requests of its own", (api == DEMO, api == API) == (bool(demo), not demo))
    too_fast = str(refusals.RequestFault.TOO_FAST.status)
    every = [(f"{method} {path}", one) for path, methods in DEMO["paths"].items() for method, one in methods.items() if method != "x-demo"]
    unsaid = [name for name, one in every if too_fast not in one["responses"]]
    counts.check(f"requests that may come too often, and don't say so: {unsaid}", len(every) > 20 and not unsaid)


def draw_command(rng: random.Random, periods: int) -> JsonObject:
    """A command in JSON, mostly right."""
    name = rng.choice(["A", "B", "ABCDEFGHIJKL", "A-1"])
    volumes = [[period, rng.choice([1, 99_999, 7])] for period in sorted(rng.sample(range(1, periods + 1), rng.choice([1, 1, periods])))]
    kind = rng.choice(["hour", "block"])
    made = {
        "what": "submit",
        "order": name,
        "kind": kind,
        "side": rng.choice(["buy", "sell"]),
        "price": rng.choice([-50_000, 0, 400_000]),
        "volumes": volumes,
    }
    if kind == "hour":
        made["volumes"] = volumes[:1]
    elif rng.random() < 0.5:
        made.update(parent=rng.choice(["", "A"]), group=rng.choice(["", "G"]))
    made = rng.choice([made, made, {"what": "amend", "order": name, "price": 1, "volumes": volumes}, {"what": "cancel", "order": name}])
    if rng.random() < 0.25:
        key = rng.choice(sorted(made))
        made[key] = rng.choice([None, [], {}, "", "a", 10**9, -1, 1.5, [[0, 1]], [[1, 0]], [[101, 1]], [[2, 1], [1, 1]], "é"])
    return made


def check_routes(counts: Counts, office: ServedOffice, periods: int) -> None:
    rng = random.Random(f"described {periods}")
    if periods == min(rules.DAYS):
        check_all_are_described(counts)
    who = office.who[-1]
    values = {"day": office.day, "who": who, "number": 1}
    token = {"Authorization": f"Bearer {office.tokens[who]}"}
    typed = {**token, "Content-Type": "application/json"}
    entered, records, template = 0, list[str](), "/days/{day}/commands/{who}/{number}"
    for _ in range(RANDOM):
        commands = [draw_command(rng, periods) for _ in range(rng.choice([1, 1, 1, 3]))]
        number = entered + rng.choice([1, 1, 1, 1, 2, 0])
        number = max(1, number)
        body = json.dumps(commands if len(commands) > 1 or rng.random() < 0.5 else commands[0]).encode()
        status, data = send_check_and_return_answer(counts, office, "PUT", template, {**values, "number": number}, typed, body)
        if status == 200:
            found = [heads.parse_value_and_is_written(line, heads.parse_receipt) for line in data.splitlines(keepends=True)]
            counts.check("receipts are in their written form", all(is_written for _, is_written in found) and len(found) == len(commands))
            again = send_check_and_return_answer(counts, office, "PUT", template, {**values, "number": number}, typed, body)
            counts.check("the same request again gets the same receipts", again == (200, data))
            records = records[: number - 1] + [receipt.record for receipt, _ in found]
            entered = max(entered, number - 1 + len(found))
        elif status == 409:
            counts.check("a conflict says the next number", json.loads(data)["next"] == entered + 1)
    counts.check("commands were entered", entered > 5 and office.capture_journal_of_desk() == records)
    for template, methods in API["paths"].items():
        for method in methods:
            if method == "get":
                for header in (token, dict[str, str]()):
                    send_check_and_return_answer(counts, office, "GET", template, values, header)
                    send_check_and_return_answer(
                        counts, office, "GET", template, {**values, "day": "nothing", "who": office.who[0], "number": 99_999}, header
                    )
    for query in ("?since=0", "?since=1", "?since=99999", "?since=x", "?since=-1", "?since="):
        send_check_and_return_answer(counts, office, "GET", "/days/{day}/head", values, query=query)
        send_check_and_return_answer(counts, office, "GET", "/days/{day}/commands/{who}", values, token, query=query)
    table = f"participant,order,kind,side,price_eur_mwh,periods,volume_mw\n{who},T,block,sell,12.5,1-{periods},3\n"
    for sent in (table, table.replace(who, "OTHER"), "", "x\n", "PK\x03\x04"):
        send_check_and_return_answer(counts, office, "POST", "/days/{day}/tables/{who}", values, token, sent.encode())
    office.close_day_and_return_seconds()
    office.run_tool("publish", office.folder)
    # tables count as many requests
    wait_and_see_if(lambda: office.send_request(f"/days/{office.day}/orders/{who}", token)[0] != 429, WAIT_SECONDS, 0.1)
    time.sleep(1)  # in which it allows enough for what follows
    for template in API["paths"]:
        if template.startswith("/days/") and "get" in API["paths"][template]:
            status, _ = send_check_and_return_answer(counts, office, "GET", template, values, token)
            counts.check(f"{template} after the close", status == 200 or template.endswith("statement/{who}"))
    answer = send_check_and_return_answer(
        counts,
        office,
        "PUT",
        "/days/{day}/commands/{who}/{number}",
        {**values, "number": entered + 1},
        typed,
        b'{"what":"cancel","order":"A"}',
    )
    counts.check("a command after the close is refused", answer[0] == 410)
