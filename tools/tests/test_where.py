"""Which library or program clears a journal, by where dam_tools is: in a package, in a wheel, or in a clone."""

import contextlib
import io
import os
import shutil
import subprocess
import sys
import tempfile
import unittest
import unittest.mock
from pathlib import Path

from support import AUCTION, TOP, make_recorded_library

import dam_tools
from lib.base import place
from lib.tool import exits

CODE = "import dam_tools; print(*(dam_tools.where() or ['nothing']))"


class Where(unittest.TestCase):
    def setUp(self):
        self.at = Path(tempfile.mkdtemp()).resolve()
        self.addCleanup(shutil.rmtree, self.at, ignore_errors=True)

    def write_file(self, path):
        made = self.at / path
        made.parent.mkdir(parents=True, exist_ok=True)
        made.write_text("")
        made.chmod(0o755)
        return made

    def install_below(self, folder):
        """Installs dam_tools below a folder."""
        shutil.copytree(TOP / "tools" / "dam_tools", self.at / folder / "dam_tools", ignore=shutil.ignore_patterns("__pycache__"))
        shutil.copytree(TOP / "tools" / "lib", self.at / folder / "dam_tools" / "lib", ignore=shutil.ignore_patterns("__pycache__"))

    def capture_answer(self, folder, **more):
        """The answer of dam_tools in a folder."""
        kept = {name: value for name, value in os.environ.items() if name not in ("DAM", "DAM_LIBRARY")}
        environment = {**kept, "PYTHONPATH": str(self.at / folder), "PATH": str(self.at / "path"), **more}
        words = [os.path.realpath(sys.executable), "-B", "-c", CODE]
        ran = subprocess.run(words, cwd=self.at, env=environment, capture_output=True, text=True)
        self.assertEqual((ran.returncode, ran.stderr), (0, ""))
        return ran.stdout.rstrip("\n")

    def test_a_package(self):
        folder = "usr/lib/python3/dist-packages"
        self.install_below(folder)
        self.assertEqual(self.capture_answer(folder), "nothing")
        program = self.write_file("usr/bin/dam")
        self.assertEqual(self.capture_answer(folder), f"program package {program}")
        brought = self.write_file(f"{folder}/dam_tools/libdam.so.1")
        self.assertEqual(self.capture_answer(folder), f"library wheel {brought}")
        library = self.write_file("usr/lib/x86_64-linux-gnu/libdam.so.1")
        self.assertEqual(self.capture_answer(folder), f"library package {library}")
        self.assertEqual(self.capture_answer(folder, DAM="dam"), "program environment dam")
        self.assertEqual(self.capture_answer(folder, DAM="dam", DAM_LIBRARY="libdam.so"), "library environment libdam.so")
        self.assertEqual(self.capture_answer(folder, DAM="dam", DAM_LIBRARY=""), "program environment dam")
        self.assertEqual(self.capture_answer(folder, DAM="", DAM_LIBRARY=""), f"library package {library}")

    def test_a_wheel(self):
        self.install_below("site-packages")
        self.write_file("x86_64-linux-gnu/libdam.so.1")
        program = self.write_file("path/dam")
        self.assertEqual(self.capture_answer("site-packages"), f"program system {program}")
        library = self.write_file("site-packages/dam_tools/libdam.so.1")
        self.assertEqual(self.capture_answer("site-packages"), f"library wheel {library}")

    def test_a_clone(self):
        for part in ("dam_tools", "lib"):
            shutil.copytree(TOP / "tools" / part, self.at / "clone" / "tools" / part, ignore=shutil.ignore_patterns("__pycache__"))
        self.write_file("path/dam")
        program = self.write_file("clone/crates/dam_cli/out/dam_cli")
        self.assertEqual(self.capture_answer("clone/tools"), f"program clone {program}")
        library = make_recorded_library(self.at / "clone")
        self.assertEqual(self.capture_answer("clone/tools"), f"library clone {library}")
        self.write_file("clone/crates/dam_c/src/more.rt")
        self.assertEqual(self.capture_answer("clone/tools"), f"program clone {program}")


class Texts(unittest.TestCase):
    def test_a_text_is_a_source(self):
        data = AUCTION.read_bytes()
        self.assertEqual(dam_tools.read_journal(data.decode()), dam_tools.read_journal(AUCTION))
        with self.assertRaisesRegex(dam_tools.Fault, "^the text isn't a journal: "):
            dam_tools.read_journal("no day\nat all\n")
        with self.assertRaisesRegex(dam_tools.Fault, "^no day can't be read"):
            dam_tools.read_journal("no day")


class Names(unittest.TestCase):
    def test_commands_are_listed_once(self):
        """The list of tools, the functions of the commands, and the entries of the wheel are the same."""
        from dam_tools import commands

        text = (TOP / "pyproject.toml").read_text()
        for tool in place.TOOLS:
            self.assertTrue(os.access(TOP / "tools" / tool, os.X_OK))
            self.assertTrue(callable(getattr(commands, tool)))
            self.assertIn(f'\ndam-{tool} = "dam_tools.commands:{tool}"\n', text)

    def test_words_for_commands(self):
        words = "./dam clear < a; tools/audit a tools/prove tools/../x other/tools/audit ./damn"
        self.assertEqual(place.with_commands_of_here(words), words)
        with unittest.mock.patch.object(place, "IS_INSTALLED", True):
            self.assertEqual(place.with_commands_of_here(words), "dam clear < a; dam-audit a tools/prove tools/../x other/tools/audit ./damn")
            with contextlib.redirect_stderr(io.StringIO()) as said:
                exits.print_note("table", "no such file")
            self.assertEqual(said.getvalue(), "dam-table: no such file\n")
            self.assertEqual([place.command_name("audit"), place.command_name("dam-whatif limit")], ["dam-audit", "dam-whatif limit"])


if __name__ == "__main__":
    unittest.main()
