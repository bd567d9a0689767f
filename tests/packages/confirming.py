"""tools/package --confirm: the same bytes made elsewhere, other packings, packages of strangers; and the refusals of tools/package."""

import hashlib
import io
import json
import os
import shutil
import subprocess
import sys
import tarfile
from collections.abc import Mapping, Sequence
from pathlib import Path
from typing import Any

from packages.making import (
    DEBIAN,
    DESK,
    PLAIN,
    PREFIX,
    PROGRAM,
    SHARED,
    capture_contents,
    capture_tar,
    commit_all,
    run_command,
    run_tool,
    write_build_record,
)
from shared.counts import Counts

OFTEN, FEW = 4_000, 20  # how often a name occurs, and how many differences are named


def check_same_bytes(counts: Counts, one: Path, two: Path) -> None:
    """The packages that were made in two folders have the same bytes."""
    for name in (DEBIAN, PLAIN):
        sums = [hashlib.sha256((folder / name).read_bytes()).hexdigest() for folder in (one, two)]
        counts.check(f"{name}: {' and '.join(sums)}", sums[0] == sums[1])


def check_confirmation(counts: Counts, folder: Path, room: Path) -> None:
    """A copy confirms the other's package, and names a file that differs."""
    status, out, error = run_tool(folder, "--confirm", room / DEBIAN)
    counts.check(f"--confirm {DEBIAN}: {out}{error}", (status, out) == (0, f"{DEBIAN}: the same, byte for byte\n"))
    # the package itself and results of a day lie in the clone
    lying = [folder / DEBIAN, folder / "results.txt", folder / "docs/day 1.html"]
    shutil.copy(room / DEBIAN, lying[0])
    for path in lying[1:]:
        path.write_text("of a day\n")
    status, out, error = run_tool(folder, "--confirm", DEBIAN)
    counts.check(f"--confirm in the clone: {out}{error}", (status, out) == (0, f"{DEBIAN}: the same, byte for byte\n"))
    for path in lying:
        path.unlink()
    root = room / "root"
    subprocess.run(["dpkg-deb", "--raw-extract", room / DEBIAN, root], check=True)
    page = root / "usr/share/doc/dam/README.md"
    page.write_text(page.read_text() + "\n")
    (root / "usr/share/dam/provenance.json").chmod(0o666)
    (root / "usr/include/dam.h").unlink()
    (root / "usr/include/more.h").write_text("")
    subprocess.run(["dpkg-deb", "--root-owner-group", "--build", root, room / "changed.deb"], check=True, stdout=subprocess.DEVNULL)
    status, out, _ = run_tool(folder, "--confirm", room / "changed.deb")
    size = page.stat().st_size
    wanted = [
        "include/dam.h is missing",
        "include/more.h is not made here",
        "share/dam/provenance.json is a file of mode 666 and owner 0:0, made here a file of mode 644 and owner 0:0",
        f"share/doc/dam/README.md differs: {size} bytes, made here {size - 1}",
        "changed.deb: not the same: 4 of its files differ",
    ]
    counts.check(f"--confirm of a changed package: {out}", status == 1 and out.splitlines() == wanted)


def check_other_packing(counts: Counts, folder: Path, room: Path) -> None:
    """If only the packing differs, that is said."""
    again = room / "again.tar.xz"
    again.write_bytes(subprocess.run(["xz", "-0", "--stdout"], input=capture_tar(room), stdout=subprocess.PIPE, check=True).stdout)
    status, out, _ = run_tool(folder, "--confirm", again)
    counts.check(f"--confirm of another packing: {out}",
                 (status, out) == (0, "again.tar.xz: each file is the same, byte for byte; only the packing differs\n"))


def check_hostile_packages(counts: Counts, folder: Path, room: Path) -> None:
    """A package of a stranger: each line is about one file, and a verdict is only printed on a line of its own."""
    told = json.loads(capture_contents(room)["share/dam/provenance.json"])
    # a name with a line end, a second file of a name, and a second folder
    others = {f"z\n{PLAIN}: the same, byte for byte": b"", "bin/dam": b"#!", "../second/bin/dam": b"#!"}
    named = ["/second/bin/dam", "bin/dam (again)", f"z\\n{PLAIN}: the same, byte for byte"]
    wanted = [*(f"{name} is not made here" for name in named), "hostile.tar.xz: not the same: 3 of its files differ"]
    often = {f"{number}/../bin/dam": b"" for number in range(OFTEN)}
    numbered = sorted(["bin/dam (again)", *(f"bin/dam (again {number})" for number in range(2, OFTEN + 1))])[:FEW]
    more = [f"and {OFTEN - FEW} more", f"hostile.tar.xz: not the same: {OFTEN} of its files differ"]
    rows: list[tuple[str, dict[str, Any], int, list[str] | str]] = [
        ("other files", others, 1, wanted),
        ("a name that occurs often", often, 1, [*(f"{name} is not made here" for name in numbered), *more]),
        ("a commit with a line end", {"share/dam/provenance.json": {**told, "commit": f"1\n{PLAIN}: the same"}}, 3, "is of commit 1\\n"),
        ("a commit that is none", {"share/dam/provenance.json": {**told, "commit": [1]}}, 3, "is of commit [1], "),
        (
            "a deep provenance",
            {"share/dam/provenance.json": b"[" * 100_000},
            3,
            "isn't a package of dam: it has no share/dam/provenance.json",
        ),
        ("a deep check", {"share/dam/provenance.json": {**told, "check": json.loads("[" * 500 + "]" * 500)}}, 3, "isn't a package of dam"),
        ("a large file", {"large": 70 << 20}, 3, "isn't a package of dam: it unpacks to more than 67,108,864 bytes"),
    ]
    for what, change, status, said in rows:
        path = room / "hostile.tar.xz"
        path.write_bytes(read_and_change_archive(room, change))
        ended, out, error = run_tool(folder, "--confirm", path)
        is_said = out.splitlines() == said if isinstance(said, list) else out == "" and error.count("\n") == 1 and said in error
        counts.check(f"--confirm of {what}: {ended} {out[:500]}{error[:500]}", ended == status and is_said)
    debian = room / "large.deb"
    subprocess.run(["dpkg-deb", "--raw-extract", room / DEBIAN, room / "large"], check=True)
    with (room / "large/usr/large").open("wb") as file:
        file.truncate(70 << 20)
    subprocess.run(["dpkg-deb", "-Zgzip", "-z1", "--build", room / "large", debian], check=True, stdout=subprocess.DEVNULL)
    status, out, error = run_tool(folder, "--confirm", debian)
    counts.check(f"--confirm of a large Debian package: {error}", (status, out) == (3, "") and "it unpacks to more than" in error)


def read_and_change_archive(room: Path, change: Mapping[str, Any]) -> bytes:
    """The archive that runs in place, with other files: their bytes, their JSON, or how many zeros they have. Of one that has a name of the
    archive but isn't the provenance, both are there."""
    made = io.BytesIO()
    opened = tarfile.open(fileobj=made, mode="w:xz", preset=0)  # type: ignore[call-arg]  # which only the mode "w:xz" has
    with tarfile.open(fileobj=io.BytesIO(capture_tar(room))) as archive, opened as new:
        for member in archive:
            if not (member.name.endswith("/provenance.json") and "share/dam/provenance.json" in change):
                new.addfile(member, archive.extractfile(member) if member.isfile() else None)
        for name, data in change.items():
            member = tarfile.TarInfo(os.path.normpath(f"{PREFIX}/{name}"))
            data = json.dumps(data).encode() if isinstance(data, dict) else data
            member.size = data if isinstance(data, int) else len(data)
            member.mode = 0o644
            new.addfile(member, open("/dev/zero", "rb") if isinstance(data, int) else io.BytesIO(data))
    return made.getvalue()


def check_totals(counts: Counts, folder: Path, room: Path) -> None:
    """The totals of a check come from its file, if that is of this commit, and --confirm leaves them to the maker."""
    _, commit, _ = run_command(["git", "rev-parse", "HEAD"], folder)
    checked = folder / "out" / "check.json"
    checked.parent.mkdir(exist_ok=True)
    for of, wanted in (("another", None), (commit.strip(), 7)):
        checked.write_text(json.dumps({"commit": of, "passed": 7}))
        status, _, _ = run_tool(folder, "--out", room / "checked")
        told = json.loads(capture_contents(room / "checked")["share/dam/provenance.json"])["check"]
        counts.check(f"a check of {of}", status == 0 and (told and told["passed"]) == wanted)
    checked.write_text(json.dumps({"commit": "another", "passed": 7}))
    status, _, error = run_tool(folder, "--check", checked)
    counts.check(f"--check of another commit: {error}", status == 3 and "is of commit another, and this clone of " in error)
    checked.unlink()
    status, out, _ = run_tool(folder, "--confirm", room / "checked" / PLAIN)
    counts.check(f"--confirm with totals: {out}", (status, out) == (0, f"{PLAIN}: the same, byte for byte\n"))


def check_refusals(counts: Counts, folder: Path, room: Path) -> None:
    """Changes, and files that are not of the present sources."""
    def check(what: str, *wanted: str, words: Sequence[object] = ()) -> None:
        status, _, error = run_tool(folder, *words)
        counts.check(f"{what}: {error}", status == 3 and error.startswith("package: ") and all(one in error for one in wanted))

    found = shutil.which("git") or "git", sys.executable
    (room / "few").mkdir()
    for path in found:
        (room / "few" / Path(path).name).symlink_to(path)
    status, _, error = run_tool(folder, env={**os.environ, "PATH": str(room / "few")})
    counts.check(f"without dpkg: {error}", status == 5 and "it needs dpkg-deb, which Debian has in the package dpkg" in error)
    check("a file that is no package", "README.md isn't a package of dam", words=("--confirm", folder / "README.md"))
    check("a package that isn't there", "nowhere.deb can't be read", words=("--confirm", "nowhere.deb"))
    (folder / "README.md").open("a").write("\n")
    check("a change", "the clone has changes: commit or remove README.md")
    commit_all(folder, "a change")
    check("a package of another commit", f"{DEBIAN} is of commit ", words=("--confirm", room / DEBIAN))
    (folder / "crates/dam_book/src/another.rt").write_text("")
    check("a file that isn't tracked", "commit or remove crates/dam_book/src/another.rt")
    commit_all(folder, "other sources")
    check("other sources", f"{PROGRAM} was built of other sources: dam_book changed since: run ./dam prove")
    write_build_record(folder, PROGRAM, "dam_cli")
    check("another desk", f"{DESK} was built of other sources: dam_book changed since: run ./dam prove")
    write_build_record(folder, DESK, "dam_desk")
    check("another library", f"{SHARED} was built of other sources: dam_book changed since: run library/build")
    (folder / DESK).unlink()
    check("no desk", f"{DESK} is missing: run ./dam prove")
    (folder / PROGRAM).write_bytes(b"another")
    check("another program", f"{PROGRAM} is not the file that was built")
    (folder / PROGRAM).unlink()
    check("no program", f"{PROGRAM} is missing: run ./dam prove")
