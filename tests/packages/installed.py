"""The package in a fresh minimal system that has neither kit, compiler nor clone: a day from end to end, a program in C, and that nothing
is left when the package is removed. Debian's packages come from where this machine has them."""

import json
import os
import shutil
import subprocess
import tempfile
from collections.abc import Callable
from pathlib import Path

from lib.base.json_value import JsonObject
from lib.base.rules import VERSION
from packages import reader
from shared.counts import Counts
from shared.place import TOP

RESULTS, DEMO = TOP / "tests/cases/sunny-day.stdout", TOP / "tests/packages/demo.py"
SUNNY = "/usr/share/doc/dam/examples/sunny-day.csv"
DAY = "/srv/day"  # in the system: the files of the day
# These files, and the ones that Debian's own tools keep, aren't the package's.
OF_DEBIAN = ("proc", "dev", "sys", "run", "tmp", "var/cache", "var/log", "var/lib/apt", "var/lib/dpkg/status-old", "var/lib/dpkg/triggers")
KEPT = (DAY.removeprefix("/"), *OF_DEBIAN)
OF_THE_REPORT, OF_THE_OFFICE = "python3-jinja2, python3-matplotlib", "python3-aiohttp, python3-cryptography"
OF_THE_PAGES = "curl, openssl, python3-openpyxl, xz-utils"  # whose commands are run
FOREIGN = "rt rattle cc gcc clang git"
IN_PYTHON = """
import dam_tools, json, sys
text = open(sys.argv[1]).read()
day = dam_tools.clear(text)
print(json.dumps([*dam_tools.where(), day.published.welfare, day.wrong]))
"""
SECONDS = 1_800
ENTRIES = 94  # the orders of the demo, GAS's own one and the close


def check_told_by_demo(counts: Counts, told: JsonObject, at: str | Path, clears: bool) -> None:
    """The report of demo.py on an office below this folder: its page, the programs that it ran, and what became of an order."""
    log = told.get("log", "")
    wanted = [["text/html", True], ["text/css", True], ["text/javascript", True], ["application/json", True]]
    counts.check(f"the demo: its files {told.get('files')} {told.get('fault')} {log}", told.get("files") == wanted)
    counts.check(f"the demo: its programs {told.get('programs')}", told.get("programs") == [f"{at}/bin/dam-desk"])
    counts.check(f"the demo: the reply {told.get('reply')}", told.get("reply") == "done")
    counts.check(f"the demo: its head has {told.get('head')} entries", told.get("head") == ENTRIES)
    came = told.get("price"), told.get("executed")
    if clears:
        # as in the trader's guide
        counts.check(f"the demo: what came of the order: {came}, {log}", came == ([8, 6_000, 800], 35))
    else:
        counts.check(f"the demo: a stand-in was to clear the day: {came}, {log}", f"{at}/bin/dam clears nothing" in log)
    counts.check(f"the demo ends at Ctrl-C: {told.get('status')}", told.get("status") == 0)


class MinimalSystem:
    """A root folder, in which commands are run."""

    def __init__(self, root: str) -> None:
        self.root = root

    def find_words_of_start(self) -> list[str]:
        """The words that start a command in it. It gets a /proc of its own, and its processes end with it."""
        inside = f'mount -t proc proc "$0/proc" && cd "$0" && exec {shutil.which("chroot")} "$0" "$@"'
        return ["unshare", "--mount", "--pid", "--fork", "sh", "-c", inside, self.root]

    def run(self, *words: str, data: bytes = b"") -> tuple[int, bytes, str]:
        """The status, the output and the errors of a command."""
        clean = ["env", "-i", "PATH=/usr/bin:/usr/sbin:/bin:/sbin", f"HOME={DAY}", "LC_ALL=C.UTF-8", "DEBIAN_FRONTEND=noninteractive"]
        ran = subprocess.run([*self.find_words_of_start(), *clean, *words], input=data, capture_output=True, timeout=SECONDS)
        return ran.returncode, ran.stdout, ran.stderr.decode(errors="replace")

    def run_in_shell(self, line: str) -> tuple[int, bytes, str]:
        return self.run("sh", "-c", f"mkdir -p {DAY} && cd {DAY} && {line}")

    def read_file_names(self) -> set[str]:
        """The paths of all files, but for those of the day and those that Debian's tools keep."""
        found = set[str]()
        for at, folders, names in os.walk(self.root):
            inside = os.path.relpath(at, self.root)
            folders[:] = [name for name in folders if os.path.normpath(f"{inside}/{name}") not in KEPT]
            found.update(os.path.normpath(f"{inside}/{name}") for name in [*names, *folders])
        return found


def capture_release_or_none() -> tuple[str, str] | None:
    """The name of this machine's release of Debian, and where it has its packages from; None if that isn't known."""
    with open("/etc/os-release", encoding="utf-8") as text:
        told = dict(line.rstrip().split("=", 1) for line in text if "=" in line)
    shown = subprocess.run(["apt-get", "indextargets", "--format", "$(CODENAME) $(COMPONENT) $(REPO_URI)", "Created-By: Packages"],
                           stdout=subprocess.PIPE, stderr=subprocess.DEVNULL)
    name = told.get("VERSION_CODENAME", "")
    for line in shown.stdout.decode().splitlines():
        codename, component, place = line.split(" ", 2)
        if (codename, component) == (name, "main"):
            return name, place
    return None


def make_system_or_return_fault(root: str, name: str, place: str) -> list[str] | None:
    """Makes the system, with the sources of packages that this machine has."""
    ran = subprocess.run(["debootstrap", "--variant=minbase", name, root, place], stdout=subprocess.PIPE, stderr=subprocess.STDOUT)
    if ran.returncode:
        return ran.stdout.decode(errors="replace").splitlines()[-1:]
    # in place of the one source that debootstrap writes
    os.remove(f"{root}/etc/apt/sources.list")
    shutil.copytree("/etc/apt", f"{root}/etc/apt", dirs_exist_ok=True)
    shutil.copytree("/usr/share/keyrings", f"{root}/usr/share/keyrings", dirs_exist_ok=True)
    shutil.copy("/etc/resolv.conf", f"{root}/etc/resolv.conf")
    Path(root, "etc/hosts").write_text("127.0.0.1 localhost\n")
    return None


def run_apt_and_check_status(counts: Counts, system: MinimalSystem, *words: str) -> None:
    """A run of apt-get, which has to succeed."""
    status, _, error = system.run("apt-get", "-qy", "--no-install-recommends", *words)
    counts.check(f"apt-get {words[0]}: {error[-500:]}", status == 0)


def check_day(counts: Counts, system: MinimalSystem) -> None:
    """The sunny day by the installed commands."""
    def check(what: str, line: str, wanted: Callable[[bytes], object]) -> None:
        status, out, error = system.run_in_shell(line)
        counts.check(f"installed: {what}: status {status}, {error[-500:]}", status == 0 and bool(wanted(out)))

    results = RESULTS.read_bytes()
    check("dam clear", f"dam clear < {SUNNY} | tee results.txt", lambda out: out == results)
    check("dam-audit", f"dam-audit --best {SUNNY} results.txt", lambda out: b"no selection is better" in out)
    check("dam-table", f"dam-table --rows blocks {SUNNY} results.txt", lambda out: out.count(b"\n") == 13 and b"COAL,UNIT-7" in out)
    check("dam-report", f"dam-report {SUNNY} results.txt -o day.html && cat day.html", lambda out: b"</html>" in out and b"<svg" in out)
    check("dam-whatif", f"dam-whatif limit --participant COAL --order UNIT-7 {SUNNY}", lambda out: b"COAL UNIT-7 sells" in out)
    check("dam-desk", f"dam-desk day.desk < {SUNNY} > answers.txt && dam-desk --journal day.desk | dam clear", lambda out: out == results)
    check("the desk's answers", f"dam replay < {SUNNY} | cmp - answers.txt", lambda out: not out)
    check("man dam-desk", "man dam-desk", lambda out: b"dam-desk --journal FILE" in out and b"EXIT STATUS" in out)
    check(
        "man dam",
        "man dam",
        lambda out: b"dam clear [OPTIONS] < JOURNAL" in out and b"dam-audit --version prints it" in b" ".join(out.split()),
    )
    check("the version", "! dam --version 2> refused && dam-audit --version", lambda out: out == f"dam-audit {VERSION}\n".encode())
    check("man dam-audit", "man dam-audit", lambda out: b"dam-audit --best examples/auction-day.csv" in out)
    library = "/usr/lib/x86_64-linux-gnu/libdam.so.1"
    wanted = ["library", "package", library, int(results.split(b"welfare,")[1].split()[0]), []]
    check("import dam_tools", f"python3 -c '{IN_PYTHON}' {SUNNY}", lambda out: json.loads(out) == wanted)
    check("dpkg --verify", "dpkg --verify dam", lambda out: not out)
    page = "/usr/share/doc/dam/README.md"
    # the status doesn't tell
    check("dpkg --verify of a changed file", f"cp -p {page} kept && echo >> {page} && dpkg --verify dam && cp -p kept {page}",
          lambda out: out.split() == [b"??5??????", page.encode()])


def check_office(counts: Counts, system: MinimalSystem) -> None:
    """The office, from an order to the results, by the installed programs."""
    shutil.copy(DEMO, f"{system.root}{DAY}/demo.py")
    status, out, error = system.run_in_shell("python3 -B demo.py dam-office")
    counts.check(f"installed: the demo: status {status}, {error[-500:]}", status == 0)
    if status == 0:
        check_told_by_demo(counts, json.loads(out), "/usr", True)


def check_in_c(counts: Counts, system: MinimalSystem, caller: Path) -> None:
    """A program in C, with the flags of pkg-config."""
    shutil.copy(caller, f"{system.root}{DAY}/caller.c")
    line = f"gcc -Wall -Werror caller.c $(pkg-config --cflags --libs dam) -o caller && ./caller clear < {SUNNY}"
    status, out, error = system.run_in_shell(line)
    counts.check(f"installed: a program in C: {error[-500:]}", status == 0 and out == RESULTS.read_bytes())


def check_installed(counts: Counts, package: Path, archive: Path, caller: Path) -> None:
    """Every test of the installed package."""
    missing = [name for name in ("debootstrap", "unshare", "chroot", "apt-get") if not shutil.which(name)]
    found = None if missing else capture_release_or_none()
    if missing or os.geteuid() or not found:
        why = f"{', '.join(missing)} missing" if missing else "not root" if os.geteuid() else "this machine's release of Debian isn't known"
        counts.count_and_print_left_out(f"the package in a fresh system: {why}")
        return
    with tempfile.TemporaryDirectory(prefix="installed-") as folder:
        root = f"{folder}/root"
        wrong = make_system_or_return_fault(root, *found)
        if wrong is not None:
            counts.count_and_print_left_out(f"the package in a fresh system: debootstrap failed: {' '.join(wrong)}")
            return
        check_in_system(counts, MinimalSystem(root), package, archive, caller)


def capture_field(package: Path, name: str) -> str:
    return subprocess.run(["dpkg-deb", "--field", package, name], stdout=subprocess.PIPE).stdout.decode().strip()


def check_in_system(counts: Counts, system: MinimalSystem, package: Path, archive: Path, caller: Path) -> None:
    status, out, _ = system.run_in_shell(f"command -v {FOREIGN}")
    counts.check(f"a fresh system has none of {FOREIGN}: {out!r}", status != 0 and not out)
    shutil.copy(package, f"{system.root}/dam.deb")
    run_apt_and_check_status(counts, system, "update")
    run_apt_and_check_status(
        counts,
        system,
        "satisfy",
        f"{capture_field(package, 'Depends')}, {capture_field(package, 'Recommends')}, {OF_THE_REPORT}, {OF_THE_OFFICE}, {OF_THE_PAGES}",
    )
    before = system.read_file_names()
    run_apt_and_check_status(counts, system, "install", "/dam.deb")
    check_day(counts, system)
    check_office(counts, system)
    reader.check_pages_in_system(counts, system, package, archive)
    run_apt_and_check_status(counts, system, "purge", "dam")
    left = sorted(system.read_file_names() - before)
    counts.check(f"left after the package was removed: {left[:10]}", not left)
    run_apt_and_check_status(counts, system, "install", "/dam.deb", "gcc", "libc6-dev", "pkgconf")
    check_in_c(counts, system, caller)
