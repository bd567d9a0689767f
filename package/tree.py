"""The files of a package, below one folder, as /usr."""

import json
import os
import re
import subprocess
from collections.abc import Collection, Mapping
from pathlib import Path

from lib.base.json_value import JsonObject
from lib.base.place import TOOLS, with_installed_commands
from lib.crates.sources import read_file_sum

from manual import site
from manual.definitions import capture_list
from manual.pages import without_missing_links

from . import changelog, clone as made_of, man_of_commands, man_of_formats, shell_completions

LIBRARY = "lib/x86_64-linux-gnu"
PYTHON = "lib/python3/dist-packages/dam_tools"
DOC = "share/doc/dam"
MANUAL = f"{DOC}/html"
HERE = Path("package")
PROVENANCE = "share/dam/provenance.json"
# Files that are taken as they are, by where they go.
TAKEN = {
    "bin/dam": made_of.PROGRAM,
    "bin/dam-desk": made_of.DESK,
    f"{LIBRARY}/libdam.a": made_of.STATIC,
    f"{LIBRARY}/libdam.so.1": made_of.SHARED,
    "include/dam.h": "library/dam.h",
    **{place.format("dam-desk"): f"package/completions/dam-desk.{shell}" for shell, place in shell_completions.PLACES.items()},
    "share/lintian/overrides/dam": "package/lintian-overrides",
    f"{DOC}/copyright": "package/copyright",
    f"{DOC}/examples/caller.c": "tests/library/caller.c",
    **{f"{DOC}/{name}": name for name in ("README.md", "CHANGELOG.md", "LICENSE-APACHE", "LICENSE-MIT")},
}
LINKS = {
    f"{LIBRARY}/libdam.so": "libdam.so.1",
    f"{DOC}/library/dam.h": "../../../../include/dam.h",
    **{f"bin/dam-{tool}": f"../{PYTHON}/{tool}" for tool in TOOLS},
}
STRIPPED = ("bin/dam", "bin/dam-desk", f"{LIBRARY}/libdam.so.1")  # files without the symbols that only a debugger reads
PROGRAMS = ("bin/dam", "bin/dam-desk", *(f"{PYTHON}/{tool}" for tool in TOOLS))
# Pages whose commands are run where the examples are: the package has them as installed commands.
WITH_COMMANDS = ("AUDIT.md", "EXAMPLES.md", "GUIDE.md", "TABLES.md", "TRUST.md", "USING.md", "WHATIF.md")
DEFINITIONS = "docs/DEFINITIONS.md"
COMMANDS = re.compile(r"^```(?:sh|text)\n.*?^```$", re.MULTILINE | re.DOTALL)


def sources_by_target(clone: made_of.Clone) -> dict[str, str]:
    """Where each file comes from, by where it goes."""
    found = dict(TAKEN)
    for folder, target, *endings in (
        ("tools/dam_tools", PYTHON, ".py", ".typed"),
        ("tools/lib", f"{PYTHON}/lib"),
        ("docs", f"{DOC}/docs", ".md", ".svg", ".png"),
        ("examples", f"{DOC}/examples", ".csv", ".sh", ".service", ".timer", ".yml", ".conf"),
        ("bench/measured", f"{DOC}/bench/measured", ".csv"),
        ("crates", f"{DOC}/crates", "/README.md", "/NOTES.md", "/PROOFS.md", "/TRACEABILITY.md", "/WORDS.md"),
    ):
        found.update({f"{target}/{os.path.relpath(name, folder)}": name for name in clone.tracked_paths_below(folder, *endings)})
    return found


def page_for_package(data: bytes, target: str, held: Collection[str]) -> bytes:
    """A page, with the words alone of each link to a file that the package doesn't have, and with installed commands."""
    text = without_missing_links(data.decode(), target, held)
    if os.path.basename(target) in WITH_COMMANDS:
        text = COMMANDS.sub(lambda block: with_installed_commands(block[0]), text)
    return text.encode()


def read_metadata_by_place(version: str) -> dict[str, bytes]:
    """The files by which pip knows the module: as of a wheel, but without a list of the files, which belong to the package."""
    text = (made_of.TOP / "pyproject.toml").read_text(encoding="utf-8")
    of = lambda key: re.findall(rf'^{key} = (?:{{ text = )?"(.*?)"', text, re.MULTILINE)[0]
    extras = re.findall(r'^(\w+) = \["(\w+)"\]$', text.partition("[project.optional-dependencies]\n")[2].partition("\n\n")[0], re.MULTILINE)
    lines = ["Metadata-Version: 2.1", f"Name: {of('name')}", f"Version: {version}", f"Summary: {of('description')}"]
    lines += [f"License: {of('license')}", f"Requires-Python: {of('requires-python')}"]
    for extra, module in extras:
        lines += [f"Provides-Extra: {extra}", f'Requires-Dist: {module} ; extra == "{extra}"']
    texts = {"METADATA": lines, "INSTALLER": ["dam"], "top_level.txt": ["dam_tools"]}
    return {f"{PYTHON}-{version}.dist-info/{name}": "".join(f"{line}\n" for line in told).encode() for name, told in texts.items()}


def write_file(path: Path, data: bytes, mode: int = 0o644) -> None:
    path.parent.mkdir(parents=True, exist_ok=True)
    path.write_bytes(data)
    path.chmod(mode)


def read_script_for_debian(tool: str) -> bytes:
    """A tool as a command of Debian's Python, which has the packages that it needs."""
    first, rest = (made_of.TOP / "tools" / tool).read_bytes().split(b"\n", 1)
    assert first == b"#!/usr/bin/env -S python3 -I -S", first
    return b"#!/usr/bin/python3 -IS\n" + rest  # Linux passes all options of this line as one argument


def run_mkdocs_and_write_manual(folder: Path, files: Mapping[str, str]) -> None:
    """Puts the site of the packaged pages into the package."""
    own = {name: (folder / target).read_text(encoding="utf-8") for target, name in files.items() if site.is_page(name)}
    drawn = {name: made_of.TOP / name for name in files.values() if name.endswith(site.PICTURES)}
    room = folder.parent / "manual"
    room.mkdir()
    made = site.run_mkdocs_and_return_site(own, drawn, room)
    for path in (path for path in made.rglob("*") if path.is_file()):
        write_file(folder / MANUAL / path.relative_to(made), path.read_bytes())


def capture_gzip(data: bytes) -> bytes:
    return subprocess.run(["gzip", "-9n"], input=data, stdout=subprocess.PIPE, env=made_of.environment_at(), check=True).stdout


def write_tree(clone: made_of.Clone, folder: Path, totals: JsonObject | None) -> None:
    """Makes the files of the package in a folder. `totals` are those of the check, or None."""
    files = sources_by_target(clone)
    held = {*files, *LINKS}
    for target, name in files.items():
        data = capture_list(made_of.TOP, made_of.environment_at()).encode() if name == DEFINITIONS else (made_of.TOP / name).read_bytes()
        mode = 0o755 if target in PROGRAMS or name.endswith(".sh") else 0o644
        write_file(folder / target, page_for_package(data, target, held) if name.endswith(".md") else data, mode)
    for tool in TOOLS:
        write_file(folder / PYTHON / tool, read_script_for_debian(tool), 0o755)
    with_version = (made_of.TOP / HERE / "dam.pc").read_text(encoding="utf-8").replace("VERSION", clone.version)
    write_file(folder / LIBRARY / "pkgconfig" / "dam.pc", with_version.encode())
    for name, data in read_metadata_by_place(clone.version).items():
        write_file(folder / name, data)
    subprocess.run(["strip", "--strip-unneeded", *(folder / name for name in STRIPPED)], env=made_of.environment_at(), check=True)
    write_file(folder / DOC / "changelog.gz", capture_gzip(changelog.read_changelog_text(clone.seconds).encode()))
    for name, target in LINKS.items():
        (folder / name).parent.mkdir(parents=True, exist_ok=True)
        (folder / name).symlink_to(target)
    room = folder.parent / "pages"
    room.mkdir()
    helps = man_of_commands.capture_helps(folder / "bin")
    for target, data in shell_completions.completions_by_place(helps).items():
        write_file(folder / target, data)
    for name, data in man_of_commands.write_helps_and_capture_man_pages(helps, clone, room).items():
        write_file(folder / "share/man/man1" / f"{name}.1.gz", capture_gzip(data))
    for name, data in man_of_formats.capture_man_pages(clone.version).items():
        write_file(folder / "share/man/man5" / f"{name}.5.gz", capture_gzip(data))
    run_mkdocs_and_write_manual(folder, files)
    told = read_and_capture_provenance(clone, folder, totals)
    write_file(folder / PROVENANCE, (json.dumps(told, indent=2) + "\n").encode())
    set_times_and_modes(folder, clone.seconds)


def record_without_sources(clone: made_of.Clone, name: str) -> JsonObject:
    """The record of a file that was built, but for the sums of its sources."""
    return {key: it for key, it in clone.records[name].items() if key != "sources"}


def read_and_capture_provenance(clone: made_of.Clone, folder: Path, totals: JsonObject | None) -> JsonObject:
    """The sources of a package, and the sum of each of its files but this one."""
    files = sorted(path for path in folder.rglob("*") if path.is_file() and not path.is_symlink())
    return {
        "package": "dam",
        "version": clone.version,
        "commit": clone.commit,
        "date": clone.date,
        "stripped": list(STRIPPED),
        "built": {target: record_without_sources(clone, name) for target, name in TAKEN.items() if name in clone.records},
        "sources": {crate: it for told in clone.records.values() for crate, it in sorted(told["sources"].items())},
        "check": totals,
        "made_with": {**made_of.capture_versions(), "mkdocs": site.read_generator(folder / MANUAL)},
        "sha256": {os.fspath(path.relative_to(folder)): read_file_sum(path) for path in files},
    }


def set_times_and_modes(folder: Path, seconds: int) -> None:
    """Gives every file and folder the commit's time, and every folder the usual mode."""
    for path in [folder, *folder.rglob("*")]:
        if path.is_dir() and not path.is_symlink():
            path.chmod(0o755)
        os.utime(path, (seconds, seconds), follow_symlinks=False)
