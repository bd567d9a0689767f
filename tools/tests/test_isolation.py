"""Nothing of the working folder and little of the environment reaches the tools: no module, no settings, no other library for pictures."""

import errno
import hashlib
import json
import os
import pwd
import subprocess
import sys
import tempfile
import unittest
from pathlib import Path
from unittest import mock

from support import AUCTION, AUCTION_RESULTS, TOOLS, TOP, make_folder_for_case, run_tool

from lib.base import place
from lib.crates import sources
from lib.process import surroundings
from lib.tool import modules

PACKAGES = ("jinja2", "matplotlib", "numpy", "openpyxl", "pandas", "scipy", "tqdm")
# What a stranger may have put into the folder in which a tool is started.
STRANGER = 'import os\nos.write(1, b"a stranger\'s module runs\\n")\nopen("ran", "a").write(__name__)\n'
# It starts again with Debian's Python, as one that lacks a package, and then says whether that one's packages are found.
CODE_OF_SECOND_START = """
import os
import sys
from unittest import mock

sys.path.insert(0, {tools!r})
{first}
from lib.tool import modules

if "AGAIN" in os.environ:
    print(any(path.endswith("dist-packages") for path in sys.path))
else:
    os.environ["AGAIN"] = "yes"
    with mock.patch.multiple(modules, has_module=lambda _: False, run_and_see_if_debian_has=lambda *_: True):
        modules.exec_with_modules("numpy")
"""
# Settings of dask that make a folder once it is imported, and the variables that have such ones, or keep it from being imported.
SETTINGS = {"version": 1, "handlers": {"x": {"()": "os.mkdir", "path": "ran"}}}
OF_DASK = {"DASK_LOGGING": json.dumps(SETTINGS)}, {"DASK_DISTRIBUTED": "5"}, {"DASK_INTERNAL_INHERIT_CONFIG": "zzz"}
# It prints settings of dask as a tool has them.
CODE_OF_SETTINGS = """
import sys

sys.path.insert(0, {tools!r})
from lib.process import ending

ending.guard_tool("program")
from lib.runs import cluster

cluster.import_dask()
cluster.read_and_set_tls_settings({address!r})
import dask.config

print(dask.config.get("distributed.client.preload"), dask.config.get("distributed.comm.tls.client"))
"""
STRANGE = {"PYTHONSAFEPATH": "1", "PYTHONOPTIMIZE": "2", "MPLBACKEND": "nosuch", "MATPLOTLIBRC": ".", "MPLCONFIGDIR": "."}


class Isolation(unittest.TestCase):
    def setUp(self):
        self.folder = make_folder_for_case(self)
        for name in (*PACKAGES, "lib", "argparse", "zipfile"):
            self.folder.joinpath(f"{name}.py").write_text(STRANGER)

    def run_tool_apart(self, name, *words, options=(), seconds=300, **environment):
        line = [sys.executable, *options, TOOLS / name, *words]
        ended = subprocess.run(line, cwd=self.folder, capture_output=True, env={**os.environ, **environment}, timeout=seconds)
        self.assertFalse(self.folder.joinpath("ran").exists(), (name, words, options, environment))
        return ended.returncode, ended.stdout, ended.stderr

    def test_each_tool_starts_in_every_environment(self):
        """Its help is the same, although an optimising Python leaves docstrings out."""
        for name, *words in (*([name] for name in place.TOOLS), ["whatif", "scenarios"], ["receipts", "seal"], ["package"], ["manual"], ["reading-list"]):
            status, right, err = run_tool(name, *words, "--help")
            self.assertEqual((status, err), (0, ""), name)
            self.assertEqual(self.run_tool_apart(name, *words, "--help", **STRANGE), (0, right, b""), name)
        self.assertEqual(self.run_tool_apart(name, "--help", options=["-I", "-OO"]), (0, right, b""))

    def test_a_path_of_modules_is_ignored(self):
        """An empty entry of PYTHONPATH is the working folder, whose sitecustomize Python would run before the tool."""
        for name in ("sitecustomize", "usercustomize", "cryptography", "re", "os", "pathlib"):
            self.folder.joinpath(f"{name}.py").write_text(STRANGER)
        for name, source in (("a.csv", AUCTION), ("a.txt", AUCTION_RESULTS)):
            self.folder.joinpath(name).write_bytes(source.read_bytes())
        tools = [[name, "--version"] for name in place.TOOLS]
        for path, lines in ((":/other", tools), ("/other:", tools[:1]), (".", tools[:1]), (str(self.folder), [["prove", "--help"]])):
            environment = {**os.environ, "PYTHONPATH": path, "PYTHONINSPECT": "1", "PYTHONHOME": "/nowhere"}
            for name, *words in (*lines, ["audit", "--days", ".", "--json"]):
                ran = subprocess.run([TOOLS / name, *words], cwd=self.folder, capture_output=True, env=environment, timeout=300)
                self.assertEqual((ran.returncode, ran.stderr), (0, b""), (path, name))
                self.assertFalse(self.folder.joinpath("ran").exists(), (path, name))
        subprocess.run([TOP / "dam", "--proved", "--version"], cwd=self.folder, capture_output=True, env={**os.environ, "PYTHONPATH": ":"})
        self.assertFalse(self.folder.joinpath("ran").exists())

    def test_no_translations_and_settings_of_openssl_are_obeyed(self):
        """Nobody writes to these files, so a tool that reads one doesn't end."""
        self.folder.joinpath("LC_MESSAGES").mkdir()
        for name in ("LC_MESSAGES/messages.mo", "openssl.cnf"):
            os.mkfifo(self.folder / name)
        for folder in ("/proc/self/cwd", str(self.folder)):
            for locale in ({"LANGUAGE": folder}, {"LANGUAGE": "", "LC_ALL": folder}):
                self.assertEqual(self.run_tool_apart("audit", "--version", seconds=30, **locale)[::2], (0, b""), locale)
        for words in (("audit", AUCTION, AUCTION_RESULTS), ("table", AUCTION, AUCTION_RESULTS, "--quiet")):
            self.assertEqual(self.run_tool_apart(*words, seconds=30, OPENSSL_CONF="openssl.cnf")[::2], (0, b""), words)

    def test_only_whole_paths_of_the_environment_stay(self):
        homes, user = ({"HOME": "."}, {"HOME": "here"}, {}), mock.Mock(pw_dir="/a/home")
        for relative in homes:
            given = {**relative, "DASK_CONFIG": "dask", "OPENSSL_CONF": "/etc/ssl.cnf", "XDG_CACHE_HOME": "", "LC_ALL": "/tmp"}
            for found, home in (({"return_value": user}, "/a/home"), ({"side_effect": KeyError}, surroundings.NO_HOME)):
                with mock.patch.dict(os.environ, given, clear=True), mock.patch.object(pwd, "getpwuid", **found):
                    surroundings.isolate_environment()
                    self.assertEqual(
                        dict(os.environ),
                        {"HOME": home, "OPENSSL_CONF": "/etc/ssl.cnf", "XDG_CACHE_HOME": "", "LC_ALL": "/tmp", "LANGUAGE": "C"},
                    )

    def test_settings_of_dask_and_numpy_are_removed(self):
        """Some name code to run, and others let no import of these end."""
        others = {"DASK_CONFIG": "/etc/dask", "NPY_DISABLE_CPU_FEATURES": "SSE2", "NUMPY_MADVISE_HUGEPAGE": "x"}
        for given in (*OF_DASK, others):
            with mock.patch.dict(os.environ, {"HOME": "/", "DASK": "1", **given}, clear=True):
                surroundings.isolate_environment()
                self.assertEqual(dict(os.environ), {"HOME": "/", "DASK": "1", "LANGUAGE": "C"})

    def test_settings_of_other_libraries_are_removed(self):
        """Nobody writes to the library that one of them names, so a tool that loads it doesn't end. Another one prints."""
        os.mkfifo(self.folder / "a.so")
        words = ("table", AUCTION, AUCTION_RESULTS, "--quiet", "--rows", "orders", "-o", self.folder / "a.xlsx")
        for given in ({"ACC_PROFLIB": str(self.folder / "a.so")}, {"ACC_PROFLIB": "./a.so"}, {"OMP_DISPLAY_ENV": "TRUE"}, {"PILLOW_ALIGNMENT": "a"}):
            self.assertEqual(self.run_tool_apart(*words, seconds=60, **given), (0, b"", b""), given)
        threads = {"OMP_NUM_THREADS": "2", "OPENBLAS_NUM_THREADS": "1"}
        others = {"_PYTHON_SYSCONFIGDATA_NAME": "antigravity", "FLEXIBLAS": "a.so", "MKL_VERBOSE": "1", "TQDM_MININTERVAL": "a", "SSL_CERT_FILE": "a"}
        with mock.patch.dict(os.environ, {"HOME": "/", **threads, **others}, clear=True):
            surroundings.isolate_environment()
            self.assertEqual(dict(os.environ), {"HOME": "/", "LANGUAGE": "C", **threads})

    def write_dask_settings(self, **found):
        """Writes a file of settings for a user whose home is the working folder."""
        folder = self.folder / ".config" / "dask"
        folder.mkdir(parents=True, exist_ok=True)
        folder.joinpath("settings.json").write_text(json.dumps(found))

    @unittest.skipUnless(modules.has_module("distributed"), "dask is missing (Debian's python3-distributed)")
    def test_no_settings_of_dask_run_code(self):
        table = self.folder / "table.csv"
        table.write_text("scenario,what,participant,order,kind,side,price_eur_mwh,periods,volume_mw\nas is,,,,,,,,\n")
        words = ("whatif", "scenarios", "--program", "/bin/true", AUCTION, table, "--cluster", "tcp://127.0.0.1:1")
        said = b"whatif: the cluster tcp://127.0.0.1:1 can't be reached: Connection refused\n"
        for given in OF_DASK:
            self.assertEqual(self.run_tool_apart(*words, **given), (3, b"", said), given)
        for found in ({"logging": SETTINGS}, {"distributed": 5}, {"array": 5}):
            self.write_dask_settings(**found)
            self.assertEqual(self.run_tool_apart(*words, HOME=str(self.folder)), (3, b"", said), found)

    @unittest.skipUnless(modules.has_module("distributed"), "dask is missing (Debian's python3-distributed)")
    def test_certificates_of_dask_are_taken_where_they_are_needed(self):
        program = self.folder / "program"
        self.write_dask_settings(distributed={"client": {"preload": ["ran"]}, "comm": {"tls": {"client": {"cert": "a.pem"}}}})
        for address, cert in (("tcp://a:1", None), ("tls://a:1", "a.pem")):
            program.write_text(CODE_OF_SETTINGS.format(tools=str(TOOLS), address=address))
            environment = {**os.environ, "HOME": str(self.folder)}
            ran = subprocess.run([sys.executable, "-I", program], env=environment, capture_output=True, text=True)
            self.assertEqual((ran.stdout, ran.stderr), (f"[] {{'key': None, 'cert': {cert!r}}}\n", ""), address)

    def test_a_list_of_paths_has_none_that_is_relative(self):
        for name in surroundings.LISTS:
            for given, stays in (("/a:/b", True), ("/a:.", False), ("b:/a", False), ("/a:", False)):
                with mock.patch.dict(os.environ, {name: given}):
                    surroundings.isolate_environment()
                    self.assertEqual(name in os.environ, stays, (name, given))
        words = ("table", AUCTION, AUCTION_RESULTS, "--date", "2026-11-25", "--quiet")
        for places in (".", f"/nowhere:{self.folder}/..:."):
            self.assertEqual(self.run_tool_apart(*words, PYTHONTZPATH=places)[::2], (0, b""), places)

    @unittest.skipUnless(modules.has_module("matplotlib"), "matplotlib is missing (Debian's python3-matplotlib)")
    def test_a_date_of_files_that_is_none(self):
        words, pictures = ("plot", AUCTION, AUCTION_RESULTS, "-o"), []
        for name, given in (("a.svg", "abc"), ("b.svg", "1")):
            ran = self.run_tool_apart(*words, self.folder / name, SOURCE_DATE_EPOCH=given)
            self.assertEqual(ran[::2], (0, b""), given)
            pictures.append(self.folder.joinpath(name).read_bytes())
        self.assertEqual(*pictures)

    @unittest.skipUnless(modules.has_module("matplotlib"), "matplotlib is missing (Debian's python3-matplotlib)")
    def test_the_cache_of_pictures_is_apart_too(self):
        names = {path.name for path in self.folder.iterdir()}
        words = ("plot", AUCTION, AUCTION_RESULTS, "-o", "-")
        self.assertEqual(self.run_tool_apart(*words, HOME=".", XDG_CACHE_HOME=".", XDG_CONFIG_HOME=".")[0], 0)
        self.assertEqual({path.name for path in self.folder.iterdir()}, names)

    def test_the_scripts_of_the_launcher_start_too(self):
        self.assertEqual(self.run_tool_apart("prove", "--help", **STRANGE)[::2], (0, b""))
        sources = [sys.executable, "-I", "-B", TOOLS / "lib" / "crates" / "sources.py", "dam_plan"]
        self.assertEqual(subprocess.run(sources, cwd=self.folder, stdout=subprocess.DEVNULL).returncode, 0)

    def test_no_program_of_the_working_folder_runs(self):
        """The launcher keeps unproved programs in the user's cache. Without a kit it has none to compile."""
        name = hashlib.sha256(json.dumps(sources.read_source_sums("dam_cli"), sort_keys=True).encode()).hexdigest()[:16]
        for cache, given in ((".", {"XDG_CACHE_HOME": "."}), (".cache", {"XDG_CACHE_HOME": "", "HOME": "."})):
            program = self.folder / cache / "dam" / "unproved" / f"dam_cli-{name}"
            program.parent.mkdir(parents=True)
            program.write_text("#!/bin/sh\necho > ran\n")
            program.chmod(0o755)
            self.run_tool_apart("unproved", "--version", options=["-I", "-S"], PATH="/nowhere", **given)

    @unittest.skipUnless(modules.has_module("matplotlib"), "matplotlib is missing (Debian's python3-matplotlib)")
    def test_no_settings_of_pictures_are_obeyed(self):
        settings, texts = self.folder / "matplotlibrc", (AUCTION, AUCTION_RESULTS, "-o", "-")
        status, right, err = run_tool("plot", *texts)
        self.assertEqual((status, err), (0, ""))
        settings.write_text("ytick.labelleft: False\ntext.usetex: True\n")
        self.assertEqual(self.run_tool_apart("plot", *texts, **STRANGE), (0, right, b""))
        settings.unlink()
        os.mkfifo(settings)  # nobody writes to it
        self.assertEqual(self.run_tool_apart("plot", *texts), (0, right, b""))
        self.assertEqual([path.name for path in self.folder.iterdir() if path.suffix != ".py"], ["matplotlibrc"])

    @unittest.skipUnless(modules.has_module("matplotlib"), "matplotlib is missing (Debian's python3-matplotlib)")
    def test_pictures_without_a_folder_for_temporary_files(self):
        from lib.pictures import matplotlib_settings

        environment, fault = dict(os.environ), FileNotFoundError(errno.ENOENT, "No usable temporary directory found")
        missing = mock.patch.object(tempfile, "TemporaryDirectory", side_effect=fault)
        with missing, self.assertRaises(FileNotFoundError), matplotlib_settings.empty_settings():
            pass
        self.assertEqual(dict(os.environ), environment)

    def test_debians_python_is_asked_apart(self):
        """A Python that lacks packages asks Debian's for them; neither looks into the working folder."""
        code = "import sys\nsys.path.insert(0, {tools!r})\nfrom unittest import mock\nfrom lib.tool import modules\n"
        asked = ("'json'", "'json', 'nosuch'", "'lib'")
        shown = ", ".join(f"modules.run_and_see_if_debian_has({words})" for words in asked)
        code += f"with mock.patch.object(modules, 'is_debian_python', lambda: False):\n    print({shown})\n"
        path = self.folder.parent / f"{self.folder.name}-ask"
        path.write_text(code.format(tools=str(TOOLS)))
        self.addCleanup(path.unlink)
        if not Path(modules.DEBIAN_PYTHON).exists():
            self.skipTest("there is no Debian's Python")
        ran = subprocess.run([sys.executable, path], cwd=self.folder, capture_output=True, text=True)
        self.assertEqual((ran.stdout, ran.stderr), ("True False False\n", ""))
        self.assertFalse(self.folder.joinpath("ran").exists())

    def test_debians_python_can_not_be_asked(self):
        """Without open files or memory nobody knows which packages it has, and without it there are none."""
        for number, is_known in ((errno.ENOENT, True), (errno.EMFILE, False), (errno.ENOMEM, False)):
            fault = OSError(number, os.strerror(number))
            with mock.patch.object(modules, "is_debian_python", return_value=False), mock.patch.object(subprocess, "run", side_effect=fault):
                if is_known:
                    self.assertFalse(modules.run_and_see_if_debian_has("json"))
                else:
                    self.assertRaises(OSError, modules.run_and_see_if_debian_has, "json")

    def test_a_tool_starts_again_apart(self):
        """By the file of the tool, since the command of an installed one belongs to another Python."""
        main = mock.Mock(__file__=str(TOOLS / "audit"))
        with (
            mock.patch.object(modules, "has_module", return_value=False),
            mock.patch.object(modules, "run_and_see_if_debian_has", return_value=True),
            mock.patch.object(os, "execv") as execv,
            mock.patch.dict(sys.modules, {"__main__": main}),
            mock.patch.object(sys, "argv", ["/bin/dam-audit", "--best"]),
        ):
            modules.exec_with_modules("numpy")
        late = ["-S"] if sys.flags.no_site else []
        execv.assert_called_once_with(modules.DEBIAN_PYTHON, [modules.DEBIAN_PYTHON, "-I", *late, str(TOOLS / "audit"), "--best"])

    @unittest.skipUnless(os.path.exists(modules.DEBIAN_PYTHON), "Debian's Python is missing")
    def test_a_program_that_starts_again_finds_the_packages(self):
        """A tool finds them late; a program of the tests, which starts without -S, from its beginning."""
        program = self.folder / "program"
        for flags, first in ((["-S"], "from lib.process import ending; ending.guard_tool('program')"), ([], "")):
            program.write_text(CODE_OF_SECOND_START.format(tools=str(TOOLS), first=first))
            ran = subprocess.run([sys.executable, "-I", *flags, program], capture_output=True, text=True)
            self.assertEqual((ran.stdout, ran.stderr), ("True\n", ""), flags)


if __name__ == "__main__":
    unittest.main()
