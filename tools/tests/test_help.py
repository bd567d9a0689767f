"""The help of the tools: each shows examples, and they work."""

import re
import shlex
import subprocess
import sys
import tempfile
import unittest
from pathlib import Path

from support import TOP, run_tool

from lib.base import place
from lib.runs import which
from lib.tool import exits, modules

TOOLS = {"table": [], "lint": [], "plot": ["matplotlib"], "report": ["matplotlib", "jinja2"], "reading-list": [], "compare": []}
TOOLS["receipts"] = ["cryptography"]
if which.BUILT.exists():
    TOOLS["whatif"] = []
COMMANDS = {"receipts": ["receipts", "seal"], "whatif": ["whatif", "limit"]}  # whose help has the options
FAKE = Path(__file__).with_name("fake_dam.py")
EXAMPLE = re.compile(r"^  (\S*(?:tools/|dam ).*|echo .*)$", re.MULTILINE)


class Help(unittest.TestCase):
    def capture_examples(self, name):
        status, out, _ = run_tool(name, "--help")
        self.assertEqual(status, 0)
        text = out.decode()
        return EXAMPLE.findall(text[text.index("\nexamples:\n") :])

    def test_examples_work(self):
        """Each example is run in a folder with the examples and the tools, and with a program that answers by the rules."""
        for name, packages in TOOLS.items():
            if not all(map(modules.has_module, packages)):
                continue
            with self.subTest(name), tempfile.TemporaryDirectory() as folder:
                for part in ("tools", "examples"):
                    Path(folder, part).symlink_to(TOP / part)
                program = Path(folder, "dam")
                stand_in = f'PYTHONPATH="{FAKE.parent}" exec "{sys.executable}" "{FAKE}"'
                program.write_text(f'#!/bin/sh\n{shlex.quote(str(which.BUILT)) if which.BUILT.exists() else stand_in} "$@"\n')
                program.chmod(0o755)
                lines = self.capture_examples(name)
                self.assertTrue(any(line.startswith(f"tools/{name} ") for line in lines))
                for line in lines:
                    shown = re.sub(r"(?<!\S)tools/", f"{shlex.quote(sys.executable)} -B tools/", line)
                    ran = subprocess.run(["sh", "-c", shown], cwd=folder, capture_output=True, text=True)
                    # The lint finds the commands that the examples' books refuse.
                    self.assertEqual(ran.returncode, exits.DIFFERS if name == "lint" else 0, f"{line}\n{ran.stderr}")

    def test_the_statuses_are_those_of_the_page(self):
        page = (TOP / "docs" / "FORMATS.md").read_text().partition("\n## The statuses of the tools\n")[2].partition("\n## ")[0]
        rows = dict(re.findall(r"^\| (\d+) \| (.*) \|$", page, re.MULTILINE))
        tools_of = {status: set() for status in rows}
        needs_program = set()
        for name in place.TOOLS:
            help_text = " ".join(run_tool(name, "--help")[1].decode().partition("\nstatuses: ")[2].split())
            with self.subTest(name):
                statuses = dict(re.findall(r"(?:^|; )(\d+) ([^;]*)", help_text))
                self.assertLessEqual({"0", "2", "5", "130"}, set(statuses))
                self.assertLessEqual(set(statuses), set(rows))
                for status in statuses:
                    tools_of[status].add(name)
                if "program" in statuses["5"]:
                    needs_program.add(name)
        self.assertTrue(all(tools_of.values()), tools_of)
        # a search of the audit, heads of receipts, and the results of an office
        self.assertEqual(tools_of["4"], {"audit", "receipts", "office"})
        for words in "a search timed out", "no extension connects two heads", "`tools/office close`: no results yet":
            self.assertIn(words, rows["4"])
        self.assertEqual(tools_of["7"], {"lint"})
        self.assertEqual(needs_program, {"whatif", "office"})
        self.assertIn("a package or program is missing", rows["5"])

    def test_an_empty_word_is_no_word_that_is_left_out(self):
        """Such as a variable of a shell that isn't set: it would be taken for the default, or for the working folder."""
        for name, words, argument in (
            ("audit", ["a", "--sent", ""], "--sent"),
            ("audit", ["--days="], "--days"),
            ("compare", ["a", "b", "c", "d", "-o", ""], "-o/--out"),
            ("lint", [""], "JOURNAL"),
            ("manual", ["--out", ""], "--out"),
            ("package", ["--out", ""], "--out"),
            ("plot", ["a", "--period="], "--period"),
            ("reading-list", ["--top="], "--top"),
            ("receipts", ["verify", "--key", ""], "--key"),
            ("report", ["a", "--title", ""], "--title"),
            ("table", ["a", "--date="], "--date"),
            ("table", ["a", "-o", ""], "-o/--out"),
            ("whatif", ["change", "a", "b", "--participant", ""], "--participant"),
            ("whatif", ["limit", "a", "--program="], "--program"),
        ):
            with self.subTest(words, name=name):
                status, out, err = run_tool(name, *words)
                said = f"error: argument {argument}: it is empty"
                self.assertEqual((status, out, err.splitlines()[-1].split(": ", 1)[1]), (exits.COMMAND_LINE, b"", said))

    def test_defaults_are_said_to_be(self):
        for name, packages in {**TOOLS, "audit": []}.items():
            page = run_tool(*COMMANDS.get(name, [name]), "--help")[1].decode()
            text = re.sub(r"\s+", " ", page.partition("options:")[2].partition("statuses:")[0])
            with self.subTest(name):
                self.assertIn("(default: ", text)
                self.assertEqual([words for words in re.findall(r"\(([^)]*)\)", text) if not words.startswith("default: ")], [])


if __name__ == "__main__":
    unittest.main()
