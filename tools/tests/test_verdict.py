"""The verdict of the audit as programs see it: its status, its record, and that an encoding alone is no wrong number."""

import functools
import hashlib
import json
import os
import random
import re
import resource
import subprocess
import sys
import tempfile
import tracemalloc
import unittest
import unittest.mock
from pathlib import Path

from support import AUCTION, AUCTION_RESULTS, QUARTERS, TOOLS, TOP, journal_of, read_cleared_cases, read_results, results_of, run_audit, run_tool

from lib.audit import day_audit, verdict
from lib.base import rules
from lib.results import encodings, faults
from lib.tool import exits

DATA, TEXT = AUCTION.read_bytes(), read_results(AUCTION)
MARK = b"\xef\xbb\xbf"
PRINTED = {"CR LF": TEXT.replace(b"\n", b"\r\n"), "CR": TEXT.replace(b"\n", b"\r")}


class Encoding(unittest.TestCase):
    """An addition of other programs to a text isn't a wrong number: it has a status of its own."""

    RIGHT = (
        "as the rules say: 24 periods, 80 hourly orders, 6 of 9 blocks accepted, welfare 3,021,520.00 EUR, 1 of 94 commands refused"
        f"{day_audit.NOT_CHECKED}\n"
        "by adding: buyers pay 1,238,670.00 EUR, sellers receive 1,238,670.00 EUR; the surpluses add up to the welfare, and nobody loses\n"
    )

    def others(self):
        yield PRINTED["CR LF"], "the lines end with CR LF instead of LF alone"
        yield PRINTED["CR"], "the lines end with CR instead of LF alone"
        yield MARK + TEXT, "the text begins with a byte order mark"
        yield TEXT.decode().encode("utf-16"), "the text begins with a byte order mark of UTF-16"
        yield TEXT[:-1], "the last line has no line end"
        yield re.sub(rb"[^,\n]+", rb'"\g<0>"', TEXT), "fields stand in quotes"
        yield TEXT.replace(b",GAS,", b',"GAS",'), "fields stand in quotes"

    def test_each_is_said_apart_from_what_is_wrong(self):
        for text, said in self.others():
            with self.subTest(said):
                wanted = f"the encoding differs: {said}\n{self.RIGHT}"
                self.assertEqual(run_audit(DATA, text), (exits.ENCODING, wanted.encode(), ""))
                for one, other in (b"welfare,3", b"welfare,4"), (b"accepted", b"rejected"), (b"period,2,", b"period,3,"):
                    encoding = "utf-16" if said.endswith("UTF-16") else "latin-1"
                    wrong = text.decode(encoding).replace(one.decode(), other.decode(), 1).encode(encoding)
                    if wrong != text:
                        status, out, _ = run_audit(DATA, wrong, "--best")
                        self.assertEqual((status, out.startswith(wanted.splitlines()[0].encode())), (exits.DIFFERS, True))
        both = MARK + PRINTED["CR LF"]
        status, out, _ = run_audit(DATA, both)
        self.assertEqual((status, out.count(b"the encoding differs: ")), (exits.ENCODING, 2))

    def test_many_fields_in_quotes(self):
        """They are read in parts, each of whole fields: that takes the memory of a few such texts, and the fields are the same."""
        data = b'"a",' * (1 << 18) + b"\n"
        tracemalloc.start()
        self.addCleanup(tracemalloc.stop)
        self.assertEqual(encodings.plain_text_and_faults(data)[0], data.replace(b'"', b""))
        self.assertLess(tracemalloc.get_traced_memory()[1], 8 * len(data))
        rng = random.Random(7)
        for part in (1, 2, 5):
            with unittest.mock.patch.object(encodings, "PART", part):
                for _ in range(300):
                    data = bytes(rng.choices(b'"",\nab', k=rng.randrange(1, 20))) + b"a\n"
                    self.assertEqual(encodings.plain_text_and_faults(data)[0], encodings.QUOTED.sub(rb"\1", data), data)

    def test_replies_and_days(self):
        replies = b"day,24\r\n1,done\r\n"
        said = b"the encoding differs: the lines end with CR LF instead of LF alone\nas the rules say: 1 reply\n"
        self.assertEqual(run_audit(journal_of(), replies, "--replies"), (exits.ENCODING, said, ""))
        day = DATA + b"results\n" + TEXT
        for other, part in (
            (day.replace(b"\n", b"\r\n"), b"the journal of the day isn't in its written form"),
            (day.replace(b"day,24,", b'"day",24,'), b"the journal of the day isn't in its written form"),
            (day.replace(b"results\n", b"results\r\n"), b"the line 'results' ends with CR LF instead of LF alone"),
        ):
            status, out, _ = run_tool("audit", "-", data=other)
            self.assertEqual((status, part in out), (exits.ENCODING, True))
        self.assertEqual(run_audit(DATA.replace(b"\n", b"\r\n"), TEXT)[0], exits.DONE)

    def test_a_better_selection_is_wrong_in_each_encoding(self):
        worse = results_of(DATA, frozenset({0, 1})).replace(b"\n", b"\r\n")
        self.assertEqual(run_audit(DATA, worse)[0], exits.ENCODING)
        self.assertEqual(run_audit(DATA, worse, "--best")[0], exits.DIFFERS)


class Record(unittest.TestCase):
    def record(self, data, text, *words):
        status, out, err = run_audit(data, text, "--json", *words)
        made = json.loads(out)
        self.assertEqual((made["status"], made["verdict"]), (status, verdict.OF_STATUS[status]))
        self.assertEqual((made["version"], made["seconds"] >= 0), (rules.VERSION, True))
        return made, err

    def test_right_results(self):
        made, err = self.record(DATA, TEXT, "--best")
        self.assertEqual((made["verdict"], made["status"], made["message"], made["faults"], err), ("right", 0, None, [], ""))
        self.assertEqual(made["checked"], ["results", "sums", "best selection"])
        inputs = [(entry["role"], entry["bytes"], entry["sha256"]) for entry in made["inputs"]]
        wanted = [(role, len(data), hashlib.sha256(data).hexdigest()) for role, data in (("journal", DATA), ("results", TEXT))]
        self.assertEqual(inputs, wanted)
        self.assertEqual((made["search"]["selections"], made["search"]["tried"], made["search"]["better"]), (512, 512, None))
        self.assertEqual((made["day"]["welfare_eur"], made["day"]["accepted"], made["day"]["refused"]), ("3021520.000", 6, 1))

    def test_amounts_of_quarter_hours(self):
        made, _ = self.record(QUARTERS.read_bytes(), read_results(QUARTERS))
        self.assertEqual((made["day"]["welfare_eur"], made["day"]["paid_eur"]), ("3098696.75000", "885657.75000"))

    def test_each_fault_is_a_record(self):
        made, _ = self.record(DATA, TEXT.replace(b"period,19,16500,", b"period,19,16501,"))
        (fault,) = [fault for fault in made["faults"] if fault["kind"] == "price"]
        words = "results line 21: period 19: the price is 16501; the only supporting price is 16500 (cents)"
        self.assertEqual(fault, {"kind": "price", "line": 21, "about": "period 19", "words": words})
        made, _ = self.record(DATA, results_of(DATA, frozenset({0, 1})), "--best")
        self.assertEqual([fault["kind"] for fault in made["faults"]], ["better"])
        self.assertIn("GAS,START", made["search"]["better"])
        made, _ = self.record(DATA, MARK + TEXT)
        self.assertEqual([fault["kind"] for fault in made["faults"]], ["encoding"])
        junk = b"".join(b"%d\n" % number for number in range(500))
        self.assertEqual(len(self.record(DATA, TEXT + junk)[0]["faults"]), 500)

    def test_every_member_and_kind_is_described(self):
        page = (TOP / "docs" / "FORMATS.md").read_text()
        for member in self.record(DATA, TEXT)[0]:
            self.assertRegex(page, rf"\n\| (`\w+`, )?`{member}`[, ].*\|")
        for kind, words in faults.KINDS.items():
            self.assertRegex(page, rf"\n\| (`\w+`, )*`{kind}`(, `\w+`)* \|")
            self.assertTrue(words)
        source = "".join(path.read_text() for path in (TOP / "tools" / "lib").rglob("*.py") if path.name != "faults.py")
        for kind in faults.KINDS:
            self.assertIn(f'"{kind}"', source)

    def test_a_day_has_the_figures_of_what_is_compared(self):
        """As docs/FORMATS.md has it."""
        counts, orders = ["periods", "commands", "refused"], ["hourly_orders", "blocks"]
        day = DATA[: DATA.index(b"close,")]
        for data, text, words, wanted in (
            (DATA, b"day,24\n", ["--replies"], counts),
            (day, TEXT, [], counts),
            (DATA, b"words\n", [], [*counts, *orders]),
            (DATA, TEXT, [], [*counts, *orders, "accepted"]),
        ):
            made, _ = self.record(data, text, *words)
            with self.subTest(wanted=wanted, words=words):
                self.assertEqual([name for name in made["day"] if not name.endswith("_eur")], wanted)

    def test_no_verdict_is_a_record_too(self):
        made, err = self.record(b"day,24\n", TEXT)
        self.assertEqual((made["verdict"], err), ("unread", f"audit: {made['message']}\n"))
        self.assertEqual([entry["role"] for entry in made["inputs"]], ["journal", "results"])
        made, _ = self.record(DATA, TEXT, "--best", "--seconds", "0")
        self.assertEqual((made["verdict"], made["search"]["tried"], made["search"]["selections"]), ("undecided", 0, 512))
        self.assertEqual((made["search"]["better"], made["search"]["how"]), (None, None))
        for words in ("--quiet", "--all"):
            self.assertEqual(run_audit(DATA, TEXT, "--json", words)[0], exits.COMMAND_LINE)

    def test_a_record_if_files_or_memory_run_out(self):
        """Its status is the tool's, also if an import fails."""
        words = [sys.executable, TOOLS / "audit", "--best", "--by", "highs", "--json", AUCTION, AUCTION_RESULTS]
        for files in (5, 6, 8):
            limit = functools.partial(resource.setrlimit, resource.RLIMIT_NOFILE, (files, files))
            ran = subprocess.run(words, capture_output=True, preexec_fn=limit)
            made = json.loads(ran.stdout)
            self.assertEqual((ran.returncode, made["verdict"]), (exits.FAILED, "failed"), files)
            self.assertEqual(ran.stderr.decode(), f"audit: {made['message']}\n")
        text = (TOOLS / "audit").read_text()
        (start,) = re.findall(r"^from lib\.audit import record.*\n.*\n\nending\.last_duties\.append.*$", text, re.MULTILINE)
        run = f"from lib.process import ending\nending.guard_tool('audit')\n{start}\nraise MemoryError"
        for more, keys in ([], {"verdict", "search", "inputs"}), (["--days", "x"], {"counts", "days"}), (["--days=x"], {"counts", "days"}):
            ran = subprocess.run([sys.executable, "-B", "-c", run, "--json", *more], cwd=TOOLS, capture_output=True)
            made = json.loads(ran.stdout)
            self.assertEqual((ran.returncode, made["status"], made["message"]), (exits.FAILED, exits.FAILED, "out of memory"))
            self.assertLessEqual(keys, made.keys())
        for words in ([], ["--", "--json"]):
            ran = subprocess.run([sys.executable, "-B", "-c", run, *words], cwd=TOOLS, capture_output=True)
            self.assertEqual((ran.returncode, ran.stdout), (exits.FAILED, b""))

    def test_a_name_that_is_not_utf_8(self):
        """No half of a surrogate pair is in a record: not every reader takes one."""
        with tempfile.TemporaryDirectory() as folder:
            path = Path(os.fsdecode(os.fsencode(folder) + b"/a\xff\xe9.csv"))
            path.write_bytes(DATA)
            for words in ([path, AUCTION_RESULTS], [path, "/nowhere"], ["--days", folder]):
                made = json.loads(run_tool("audit", "--json", *words)[1])
                found = made["days"][0] if "days" in made else made
                self.assertEqual(found["inputs"][0]["file"], f"{folder}/a\\xff\\xe9.csv")
                json.dumps(made, ensure_ascii=False).encode()
            self.assertEqual(made["days"][0]["name"], "a\\xff\\xe9")

    def test_more_lines_than_any_day_has(self):
        """They are one fault, and take neither time nor memory."""
        for more, words in ((b"x\n" * 10**6, []), (b"1,done\n" * 10**6, ["--replies"])):
            made, _ = self.record(DATA, (b"day,24\n" if words else TEXT) + more, *words)
            self.assertEqual(made["status"], exits.DIFFERS)
            (fault,) = [fault for fault in made["faults"] if "those after line 20,000 weren't looked at" in fault["words"]]
            self.assertEqual((fault["kind"], fault["line"], len(made["faults"]) < 20_002), ("stray", 20_001, True))

    def test_sums_are_checked_of_results_that_can_be_read(self):
        for data, text in ((DATA, b""), (DATA, TEXT.replace(b"welfare,", b"welfare,+")), (b"day,24,,,,,,,\n", TEXT)):
            self.assertEqual(self.record(data, text)[0]["checked"], ["results"])
        self.assertEqual(self.record(DATA, TEXT.replace(b"welfare,3", b"welfare,4"))[0]["checked"], ["results", "sums"])

    def test_other_texts(self):
        made, _ = self.record(journal_of(), b"day,24\n1,refused,Closed\n", "--replies")
        self.assertEqual((made["checked"], [fault["kind"] for fault in made["faults"]]), (["replies"], ["reply"]))
        status, out, _ = run_tool("audit", "--json", "-", data=DATA + b"results\n" + TEXT)
        self.assertEqual((status, json.loads(out)["inputs"][0]["role"]), (0, "day"))
        status, out, _ = run_tool("audit", "--json", AUCTION, "--sent", "-", "--participant", "A", data=b"submit,A,B,hour,buy,1,1:1,,\n")
        self.assertEqual((status, [fault["kind"] for fault in json.loads(out)["faults"]]), (1, ["missing"]))

    def test_the_worked_cases(self):
        for name, data, text in read_cleared_cases():
            with self.subTest(name):
                made, _ = self.record(data, text)
                self.assertEqual(made["verdict"], "right")


class Version(unittest.TestCase):
    def test_it_is_that_of_the_changelog_and_of_the_package(self):
        heads = re.findall(r"^## (\S+)$", (TOP / "CHANGELOG.md").read_text(), re.MULTILINE)
        self.assertEqual(heads[heads[0] == "Next"], rules.VERSION)
        text = (TOP / "pyproject.toml").read_text()
        self.assertIn('\ndynamic = ["version"]\n', text)
        self.assertIn('\nversion = { attr = "tools.lib.base.rules.VERSION" }\n', text)
        for name in ("audit", "lint", "plot", "report", "table"):
            self.assertEqual(run_tool(name, "--version"), (0, f"{name} {rules.VERSION}\n".encode(), ""))


if __name__ == "__main__":
    unittest.main()
