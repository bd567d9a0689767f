"""The files of a package: provenance, man pages, units, completions, and what the programs need."""

import hashlib
import json
import os
import re
import shutil
import subprocess
from collections.abc import Mapping, Sequence
from pathlib import Path

from lib.base.place import TOOLS
from lib.base.rules import VERSION
from packages.making import (
    BUILT,
    DEBIAN,
    DESK,
    OF_THE_OFFICE,
    PROGRAM,
    SECONDS,
    STATIC,
    capture_command_names,
    capture_contents,
    read_usage_of_desk,
    run_command,
)
from shared.counts import Counts
from shared.place import TOP

COMPLETIONS = "share/bash-completion/completions/{}", "share/zsh/vendor-completions/_{}", "share/fish/vendor_completions.d/{}.fish"
# The oldest C library that each runs on, as docs/OPERATING.md has it.
GLIBC = {"bin/dam": "2.34", "bin/dam-desk": "2.34", "lib/x86_64-linux-gnu/libdam.so.1": "2.14"}


def check_provenance(counts: Counts, folder: Path, room: Path) -> None:
    """The provenance has the commit, and the sum of each other file; the totals of a check only if it was of this commit."""
    files = capture_contents(room)
    told = json.loads(files.pop("share/dam/provenance.json"))
    _, commit, _ = run_command(["git", "rev-parse", "HEAD"], folder)
    counts.check("provenance: the commit", (told["commit"], told["version"], told["check"]) == (commit.strip(), VERSION, None))
    sums = {name: hashlib.sha256(data).hexdigest() for name, data in files.items()}
    counts.check("provenance: the sums", told["sha256"] == sums and len(sums) > 80)
    for name, built in (("bin/dam", PROGRAM), ("bin/dam-desk", DESK)):
        recorded = json.loads(Path(f"{folder / built}.json").read_text())
        counts.check(f"provenance of {name}: the sources", told["sources"].items() >= recorded.pop("sources").items())
        counts.check(f"provenance of {name}: its record", told["built"].get(name) == recorded and name in told["stripped"])
    counts.check("provenance: the desk's own crates", {"dam_desk", "dam_store"} <= told["sources"].keys())


def check_man_pages(counts: Counts, files: Mapping[str, bytes], of_dam: Sequence[str]) -> None:
    """Each command has a page, with the lines of its examples as they are."""
    found = {name.rpartition("/")[2].removesuffix(".1.gz"): data for name, data in files.items() if "/man1/" in name}
    wanted = {"dam", *(f"dam-{name}" for name in of_dam), "dam-desk", *(f"dam-{tool}" for tool in TOOLS)}
    counts.check(f"pages: {sorted(found)}", len(of_dam) > 2 and wanted <= found.keys())
    for name in TOOLS:
        page = subprocess.run(["gzip", "-dc"], input=found[f"dam-{name}"], stdout=subprocess.PIPE).stdout.decode().replace("\\-", "-")
        counts.check(f"page of dam-{name}", f".SH NAME\ndam-{name} - " in page and f"\n  dam-{name} " in page and "tools/" not in page)
    own = subprocess.run(["gzip", "-dc"], input=found["dam"], stdout=subprocess.PIPE).stdout.decode()
    counts.check("the page of dam says how the version is printed", VERSION in own and ".B dam\\-audit \\-\\-version\n" in own)
    check_statuses(counts, found, of_dam)
    check_page_of_desk(counts, found["dam-desk"])
    # both packages have these pages
    for name, data in found.items():
        text = subprocess.run(["gzip", "-dcf"], input=data, stdout=subprocess.PIPE).stdout
        counts.check(f"{name} names the folder of one package", b"/usr/share/doc" not in text)
        if name in {f"dam-{tool}" for tool in TOOLS}:
            counts.check(f"{name} doesn't say that the examples have to be copied", b"first copy the folder examples" in text)
    for name in ("README.md", "docs/GUIDE.md", "docs/OPERATING.md"):
        plain = " ".join(files[f"share/doc/dam/{name}"].decode().split())
        in_archive = re.search(r"archive('s|\b[^.]* its|\b[^.]*\(examples:) `share/doc/dam`", plain)
        both = "cp -r /usr/share/doc/dam/examples ." in plain, bool(in_archive)
        counts.check(f"{name} says where each package has the examples: {both}", all(both))


def check_commands_of_pages(counts: Counts, files: Mapping[str, bytes]) -> None:
    """The commands of the packaged pages are installed ones, and the files of the examples that they name are packaged."""
    seen = 0
    for name in ("AUDIT.md", "EXAMPLES.md", "GUIDE.md", "TRUST.md", "USING.md", "WHATIF.md"):
        for block in re.findall(r"^```sh\n(.*?)^```$", files[f"share/doc/dam/docs/{name}"].decode(), re.MULTILINE | re.DOTALL):
            counts.check(f"packaged {name}: {block}", not re.search(r"(?<![\w./-])(\./dam\b|tools/)", block))
            for path in re.findall(r"(?<![\w/])examples/[\w./-]+\.csv", block):
                counts.check(f"packaged {name}: {path}", f"share/doc/dam/{path}" in files)
                seen += 1
    counts.check(f"the packaged pages name {seen} examples", seen > 20)


def check_statuses(counts: Counts, found: Mapping[str, bytes], of_dam: Sequence[str]) -> None:
    """The pages of the program have the statuses of docs/FORMATS.md, without the launcher's status."""
    table = (TOP / "docs/FORMATS.md").read_text().partition("## Statuses and faults\n")[2].partition("\n\nWith status 0")[0]
    manual = dict(re.findall(r"^\| (\d+) \| (.*) \|$", table, re.MULTILINE))
    for name in ("dam", *(f"dam-{word}" for word in of_dam)):
        page = subprocess.run(["gzip", "-dc"], input=found[name], stdout=subprocess.PIPE).stdout.decode().replace("\\-", "-")
        section = re.search(r'^\.SH "?EXIT STATUS"?\n(.*?)(?=^\.SH|\Z)', page, re.MULTILINE | re.DOTALL)
        shown = dict(re.findall(r"^\.TP\n\.B (\d+)\n(.*)$", section[1] if section else "", re.MULTILINE))
        has_limit = name == "dam" or "--nodes" in page
        wanted = {number: words for number, words in manual.items() if number != "70" and (number != "3" or has_limit)}
        is_known = has_limit == {"dam-replay": False, "dam-clear": True, "dam-day": True}.get(name, has_limit)
        counts.check(f"the statuses on the page of {name}: {shown}", len(wanted) > 4 and is_known and shown == wanted)


def check_page_of_desk(counts: Counts, data: bytes) -> None:
    """The page of dam-desk has its usage, its options and how each status is gone on from, as docs/DESK.md has it."""
    page = subprocess.run(["gzip", "-dc"], input=data, stdout=subprocess.PIPE).stdout.decode().replace("\\-", "-")
    counts.check("the page of dam-desk: its name", ".SH NAME\ndam-desk - keeps the journal of a day in FILE\n" in page)
    has_usage = re.search(r"dam-desk\S*\n[^.]*FILE.*COMMANDS", page) is not None
    counts.check("the page of dam-desk: its usage", has_usage and VERSION in page)
    options = re.findall(r"^\.TP\n\\fB(--\w+)\\fR", page.partition(".SH OPTIONS")[2].partition(".SH ")[0], re.MULTILINE)
    counts.check(f"the page of dam-desk: its options {options}", options == re.findall(r"^ +(--\w+)", read_usage_of_desk(), re.MULTILINE))
    table = (TOP / "docs/DESK.md").read_text().partition("\n## Statuses\n")[2].partition("\n## ")[0]
    manual = re.findall(r"^\| (\d+|other) \| (.*) \| (.*) \|$", table, re.MULTILINE)
    section = re.search(r'^\.SH "?EXIT STATUS"?\n(.*?)(?=^\.SH|\Z)', page, re.MULTILINE | re.DOTALL)
    shown = re.findall(r"^\.TP\n\.B (\w+)\n(.*)\n\.br\nDo: (.*)$", section[1] if section else "", re.MULTILINE)
    counts.check(f"the statuses on the page of dam-desk: {shown}", len(manual) > 4 and shown == manual)


def check_pages_of_formats(counts: Counts, files: Mapping[str, bytes], room: Path) -> None:
    """The man pages of section 5 have names that `man -k` finds, and no command of a clone."""
    for name in ("dam-formats", "dam-tables"):
        page = subprocess.run(["gzip", "-dc"], input=files[f"share/man/man5/{name}.5.gz"], stdout=subprocess.PIPE).stdout
        text = page.decode().replace("\\-", "-")
        is_named = f"\n.TH {name.upper()} 5 " in text and f"\n{name} - the " in text
        counts.check(f"the man page {name}", is_named and not re.search(rf"\./dam\b|tools/({'|'.join(TOOLS)})\b", text))
        if shutil.which("man"):
            (room / name).write_bytes(page)
            status, _, error = run_command(["man", "--warnings", "--local-file", room / name], env={**os.environ, "MANWIDTH": "80"})
            counts.check(f"man {name}: {error}", (status, error) == (0, ""))


def check_changelog_and_symbols(counts: Counts, files: Mapping[str, bytes], room: Path) -> None:
    """The changelog has the version, the commit's date and the points of CHANGELOG.md; and no program has symbols for debuggers."""
    name = "share/doc/dam/changelog.gz"
    (room / "changelog").write_bytes(subprocess.run(["gzip", "-dc"], input=files[name], stdout=subprocess.PIPE).stdout)
    _, told, _ = run_command(["dpkg-parsechangelog", "-l", room / "changelog", "-S", "Version"])
    _, changes, error = run_command(["dpkg-parsechangelog", "-l", room / "changelog", "-S", "Changes"])
    _, when, _ = run_command(["dpkg-parsechangelog", "-l", room / "changelog", "-S", "Timestamp"])
    counts.check(f"the changelog: {told}{when}{error}", (told, when, error) == (f"{VERSION}\n", f"{SECONDS}\n", ""))
    section = (TOP / "CHANGELOG.md").read_text().partition(f"## {VERSION}\n")[2].partition("\n## ")[0]
    wanted = re.findall(r"^- (\S+ \S+)", section, re.MULTILINE)
    counts.check(f"its points: {wanted}", re.findall(r"^  \* (\S+ \S+)", changes, re.MULTILINE) == wanted and len(wanted) > 10)
    counts.check("its lines are short", max(map(len, changes.splitlines())) <= 80)
    for name in ("bin/dam", "bin/dam-desk", "lib/x86_64-linux-gnu/libdam.so.1"):
        (room / "stripped").write_bytes(files[name])
        _, sections, _ = run_command(["readelf", "--sections", "--wide", room / "stripped"])
        counts.check(f"{name} is stripped", ".dynsym" in sections and ".symtab" not in sections)


def check_dependencies(counts: Counts, room: Path) -> None:
    """The Debian package names the packages that the office needs."""
    told = [run_command(["dpkg-deb", "--field", room / DEBIAN, field])[1] for field in ("Depends", "Recommends", "Suggests")]
    named = {words.split()[0] for field in told for words in field.split(",") if words.strip()}
    missing = sorted({*OF_THE_OFFICE.values(), "tzdata"} - named)
    counts.check(f"the Debian package names {missing}", not missing)


def check_units(counts: Counts, files: Mapping[str, bytes]) -> None:
    """The systemd units run commands that are packaged, with words that these know."""
    unit = files["share/doc/dam/examples/operating/dam-office.service"].decode()
    (line,) = re.findall(r"^ExecStart=(.*)$", unit, re.MULTILINE)
    program, *words = line.split()
    counts.check(
        f"the unit's program: {program}", program == "/usr/bin/dam-office" and "lib/python3/dist-packages/dam_tools/office" in files
    )
    page = subprocess.run(["gzip", "-dc"], input=files["share/man/man1/dam-office-serve.1.gz"], stdout=subprocess.PIPE).stdout.decode()
    unknown = [word for word in words[1:] if word.startswith("-") and word.replace("-", "\\-") not in page]
    counts.check(f"the unit's words {words}: {unknown}", words[0] == "serve" and not unknown)
    counts.check("the unit's proxy is packaged", "share/doc/dam/examples/operating/nginx.conf" in files)


def check_completions(counts: Counts, files: Mapping[str, bytes], program: Path) -> None:
    """The completions have the commands and options of the help."""
    for place in COMPLETIONS:
        text = files[place.format("dam-desk")].decode()
        missing = [word for word in re.findall(r"^ +--(\w+)", read_usage_of_desk(), re.MULTILINE) if word not in text]
        counts.check(f"completions {place}: {missing}", not missing)
    for typed, wanted in (("dam-desk --j", "--journal\n"), ("dam-desk --journal --h", "\n"), ("dam-desk day", "\n")):
        script = f'. "{TOP}/package/completions/dam-desk.bash"; COMP_WORDS=({typed}); COMP_CWORD={typed.count(" ")}; _dam_desk'
        shown = run_command(["bash", "-c", f'{script}; echo "${{COMPREPLY[*]}}"'])[1]
        counts.check(f"bash completes {typed}: {shown}", shown == wanted)
    commands = capture_command_names(program)
    helps = {name: run_command([program, name, "--help"])[1] for name in commands}
    words = {*commands, *(word for text in helps.values() for word in re.findall(r"^ .*--(\w+)(?: |$)", text, re.MULTILINE))}
    for place in COMPLETIONS:
        text = files[place.format("dam")].decode()
        missing = sorted(word for word in words if not re.search(rf"\b{word}\b", text))
        counts.check(f"completions {place}: {missing}", words >= {"replay", "clear", "day", "workers", "help"} and not missing)
    script = files[COMPLETIONS[0].format("dam")].decode()
    for typed, wanted in (("dam ", f"{' '.join(commands)} --help"), ("dam clear --w", "--workers"), ("dam replay --w", "")):
        given = " ".join(f"'{word}'" for word in typed.split(" "))
        line = f'COMP_WORDS=({given}); COMP_CWORD={typed.count(" ")}; _dam; echo "${{COMPREPLY[*]}}"'
        shown = run_command(["bash", "-c", f"{script}\n{line}"])[1]
        counts.check(f"bash completes {typed}: {shown}", shown == f"{wanted}\n")


def check_glibc(counts: Counts, files: Mapping[str, bytes], room: Path) -> None:
    """The oldest C library that the programs and the library run on is the one that the page names, and the package asks for the
    program's."""
    for name, oldest in GLIBC.items():
        (room / "one").write_bytes(files[name])
        _, shown, _ = run_command(["objdump", "-T", room / "one"])
        versions = {tuple(map(int, one.split("."))) for one in re.findall(r"GLIBC_([\d.]+)", shown)}
        newest = ".".join(map(str, max(versions)))
        counts.check(f"{name} needs glibc {newest}", newest == oldest)
    _, depends, _ = run_command(["dpkg-deb", "--field", room / DEBIAN, "Depends"])
    of_program, _, of_library = GLIBC.values()
    counts.check(f"Depends: {depends}", f"libc6 (>= {of_program})" in depends)
    page = (TOP / "docs/OPERATING.md").read_text()
    counts.check("the page has both", f"The programs need glibc {of_program} " in page and f"the library {of_library} " in page)


def check_traces(counts: Counts) -> None:
    """Nothing that was built has the path of this clone or a date in it."""
    for name in BUILT:
        counts.check(f"{name} has the path of the clone in it", os.fsencode(TOP) not in (TOP / name).read_bytes())
    dates = {line.split()[6] for line in run_command(["ar", "tv", TOP / STATIC])[1].splitlines()}
    counts.check(f"the members of {STATIC} are of {dates}", dates == {"1970"})
