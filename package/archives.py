"""The two archives of a tree: a Debian package, and an archive that runs in place. They are read too, without unpacking them, and compared
with what a clone makes."""

import bz2
import gzip
import hashlib
import io
import json
import lzma
import os
import re
import shutil
import subprocess
import tarfile
import zlib
from collections.abc import Callable, Collection, Iterator, Mapping, Sequence
from pathlib import Path
from typing import IO, Any, NamedTuple

from lib.base import text
from lib.base.json_value import Json, JsonObject
from lib.tool import exits, file_io

from . import clone as made_of
from .tree import PROVENANCE

HERE = made_of.TOP / "package"
CONTROL = "control of the package: "
SHARED = "lib/x86_64-linux-gnu/libdam.so.1"
FEW = 20  # differences that are named
LONGEST_SHOWN = 200  # characters of one of the provenance
DEEPEST = 20  # lists and objects of the provenance, one in another
COMPRESSED: dict[bytes, Callable[[IO[bytes]], Any]] = {b"\xfd7zXZ\0": lzma.open, b"\x1f\x8b": gzip.open, b"BZh": bz2.open}


class Entry(NamedTuple):
    """A file, a folder or a link of an archive."""

    kind: str
    mode: int
    owner: tuple[int, int]
    data: bytes

    def __str__(self) -> str:
        return f"a {self.kind} of mode {self.mode:o} and owner {self.owner[0]}:{self.owner[1]}"


def capture_output(line: Sequence[str | Path], folder: Path | None = None, seconds: int = 0) -> bytes:
    """The output of a command."""
    ran = subprocess.run(line, cwd=folder, env=made_of.environment_at(seconds), capture_output=True)
    if ran.returncode:
        raise exits.Stop(f"{line[0]} failed: {ran.stderr.decode(errors='replace').strip()}", exits.FAILED)
    return ran.stdout


# The control files of the Debian package that have a few lines: which package has the library, that `ldconfig` runs after it is installed
# or removed, and how the Python modules are compiled and what was compiled of them is removed, as dh_python3 has it.
SHORT = {
    "shlibs": "libdam 1 dam (>= VERSION)\n",
    "triggers": "activate-noawait ldconfig\n",
    "postinst": """#!/bin/sh
# Compiles the Python modules, as dh_python3 has it.
set -e
if [ "$1" = configure ] && command -v py3compile > /dev/null; then
    py3compile -p dam
fi
""",
    "prerm": """#!/bin/sh
# Removes what was compiled of the Python modules, as dh_python3 has it.
set -e
if command -v py3clean > /dev/null; then
    py3clean -p dam
fi
""",
}


def debian_package_name(version: str) -> str:
    return f"dam_{version}_amd64.deb"


def archive_name(version: str) -> str:
    return f"dam-{version}-x86_64-linux.tar.xz"


def write_and_capture_dependencies(root: Path, room: Path) -> str:
    """The packages that the programs and the library need, by Debian's own tool: the C library, and since which version."""
    (room / "debian").mkdir()
    (room / "debian" / "control").write_text("Source: dam\n\nPackage: dam\nArchitecture: amd64\n", encoding="utf-8")
    line = ["dpkg-shlibdeps", "-O", *(f"-e{root / 'usr' / name}" for name in ("bin/dam", "bin/dam-desk", SHARED))]
    shown = capture_output(line, room).decode()
    return re.findall(r"^shlibs:Depends=(.*)$", shown, re.MULTILINE)[0]


def write_control_files(root: Path, clone: made_of.Clone, room: Path) -> None:
    """Writes the control files of the Debian package."""
    folder, files = root / "DEBIAN", sorted(path for path in root.rglob("*") if path.is_file() and not path.is_symlink())
    sums = "".join(f"{hashlib.md5(path.read_bytes()).hexdigest()}  {path.relative_to(root)}\n" for path in files)
    size = sum(-(-path.stat().st_size // 1024) for path in files)
    folder.mkdir(mode=0o755)
    words = {"VERSION": clone.version, "SIZE": str(size), "DEPENDS": write_and_capture_dependencies(root, room)}
    texts = {"md5sums": sums}
    for name, content in {"control": (HERE / "control").read_text(encoding="utf-8"), **SHORT}.items():
        texts[name] = re.sub("|".join(words), lambda found: words[found[0]], content) if name in ("control", "shlibs") else content
    for name, content in texts.items():
        (folder / name).write_text(content, encoding="utf-8")
        (folder / name).chmod(0o755 if name in ("postinst", "prerm") else 0o644)
        os.utime(folder / name, (clone.seconds, clone.seconds))
    for path in (folder, root):
        path.chmod(0o755)
        os.utime(path, (clone.seconds, clone.seconds))


def write_debian_package(tree: Path, clone: made_of.Clone, target: Path) -> None:
    """Makes the Debian package of a tree, which goes to /usr."""
    room = tree.parent / "debian"
    root = room / "root"
    root.mkdir(parents=True)
    shutil.copytree(tree, root / "usr", symlinks=True)
    write_control_files(root, clone, room)
    line = ["dpkg-deb", "--root-owner-group", "-Zxz", "-z9", "--threads-max=1", "--build"]
    capture_output([*line, root, target], seconds=clone.seconds)


def write_plain_archive(tree: Path, clone: made_of.Clone, target: Path) -> None:
    """Makes the archive that runs in place."""
    name = archive_name(clone.version).removesuffix(".tar.xz")
    how = ["--sort=name", "--format=gnu", "--owner=0", "--group=0", "--numeric-owner", f"--mtime=@{clone.seconds}"]
    # a link's target stays as it is
    how.append(f"--transform=flags=rSH;s,^\\.,{name},")
    capture_output(["tar", "--create", f"--file={target}", "--use-compress-program=xz -9 -T1", *how, "--directory", tree, "."])


def refuse_large(path: Path, size: int) -> None:
    """Ends the tool if an archive unpacks to more than any package of dam."""
    if size > file_io.MOST_BYTES:
        raise exits.Stop(f"{exits.shown(path)} isn't a package of dam: it unpacks to more than {file_io.MOST_BYTES:,} bytes")


def read_or_refuse_large(path: Path, file: IO[bytes]) -> bytes:
    """The bytes of an open file, unless they are too many."""
    data = file_io.read_first_bytes(file, file_io.MOST_BYTES + 1)
    refuse_large(path, len(data))
    return data


def decompress_or_refuse_large(path: Path, data: bytes) -> bytes:
    """The tar archive in compressed bytes."""
    way = next((way for mark, way in COMPRESSED.items() if data.startswith(mark)), None)
    if way is None:
        return data
    with way(io.BytesIO(data)) as file:
        return read_or_refuse_large(path, file)


def capture_debian_archive(path: Path, way: str) -> bytes:
    """One of the two tar archives in a Debian package."""
    line = ["dpkg-deb", way, str(path.absolute())]
    with subprocess.Popen(line, env=made_of.environment_at(), stdout=subprocess.PIPE, stderr=subprocess.DEVNULL) as process:
        assert process.stdout
        data = read_or_refuse_large(path, process.stdout)
    if process.returncode:
        raise tarfile.TarError(f"dpkg-deb ended with status {process.returncode}")
    return data


KINDS = {tarfile.DIRTYPE: "folder", tarfile.SYMTYPE: "link", tarfile.LNKTYPE: "hard link"}


def name_below(name: str, top: str) -> str:
    """The name of a member of an archive below its top folder; with a `/` before it if the member isn't there."""
    if not top:
        return name
    return name[len(top) + 1 :] if f"{name}/".startswith(f"{top}/") else f"/{name}"


def count_and_return_unused_name(name: str, found: Collection[str], times: dict[str, int]) -> str:
    """The name, or if it is found already, the name with a number. How often each occurs is counted, so that many take little time."""
    own = name
    while own in found:
        times[name] = times.get(name, 0) + 1
        own = f"{name} (again)" if times[name] == 1 else f"{name} (again {times[name]})"
    return own


def parse_entries(path: Path, data: bytes, top: str | None = None, prefix: str = "") -> dict[str, Entry]:
    """The contents of a tar archive, by name, below its top folder; if none is named, that is the folder of its first member. A member that
    is there again has a name of its own."""
    found, times, size = dict[str, Entry](), dict[str, int](), 0
    with tarfile.open(fileobj=io.BytesIO(data), mode="r:") as archive:
        for member in archive:
            size += member.size
            refuse_large(path, size)  # a file may have holes
            file = archive.extractfile(member) if member.isfile() else None
            held = file.read() if file else member.linkname.encode(errors="surrogateescape")
            kind = "file" if member.isfile() else KINDS.get(member.type, "device")
            name = member.name.removeprefix("./").rstrip("/").removesuffix(".")
            top = name.partition("/")[0] if top is None and name else top
            name = count_and_return_unused_name(prefix + name_below(name, top or ""), found, times)
            found[name] = Entry(kind, member.mode, (member.uid, member.gid), held)
    return found


def read_and_unpack_package_or_stop(path: Path) -> dict[str, Entry]:
    """The files of a package by name: of the Debian package those of /usr and of its control, of the other archive those of its folder."""
    data = file_io.read_bytes(path)
    try:
        if path.name.endswith(".deb"):
            files, told = (capture_debian_archive(path, way) for way in ("--fsys-tarfile", "--ctrl-tarfile"))
            return {**parse_entries(path, told, "", CONTROL), **parse_entries(path, files, "usr")}
        return parse_entries(path, decompress_or_refuse_large(path, data))
    except (OSError, tarfile.TarError, EOFError, ValueError, lzma.LZMAError, zlib.error):
        raise exits.Stop(f"{exits.shown(path)} isn't a package of dam: it is neither a Debian package nor a tar archive") from None


def parse_provenance_or_stop(path: Path, files: Mapping[str, Entry]) -> JsonObject:
    """The provenance of a package."""
    try:
        found = json.loads(files[PROVENANCE].data)
        if is_nested_too_deep(found):
            raise ValueError
        return {**found, "commit": str(found["commit"]), "check": found["check"]}
    except (KeyError, ValueError, TypeError, RecursionError):
        raise exits.Stop(f"{exits.shown(path)} isn't a package of dam: it has no {PROVENANCE}") from None


def is_nested_too_deep(value: Json) -> bool:
    """Whether a value of JSON has lists and objects in each other, deeper than a provenance."""
    level = [value]
    for _ in range(DEEPEST):
        level = [held for it in level if isinstance(it, (dict, list)) for held in (it.values() if isinstance(it, dict) else it)]
    return bool(level)


def differing_entries(there: JsonObject, here: JsonObject) -> Iterator[str]:
    """Which entries of the provenance differ."""
    for key in sorted({*there, *here}):
        ours, theirs = here.get(key), there.get(key)
        if ours != theirs and isinstance(ours, dict) and isinstance(theirs, dict):
            yield from (f"{key}.{name}: {theirs.get(name)!r}, made here {ours.get(name)!r}" for name in sorted({*ours, *theirs})
                        if ours.get(name) != theirs.get(name) and key != "sha256")
        elif ours != theirs:
            yield f"{key}: {theirs!r}, made here {ours!r}"


def differences(there: Mapping[str, Entry], here: Mapping[str, Entry]) -> Iterator[str]:
    """The differences between two packages: a line for each file. Names and words of the one that is given may be anything."""
    for it in sorted({*there, *here}):
        ours, theirs, name = here.get(it), there.get(it), text.safe(it, exits.LONGEST_PATH)
        if ours is None:
            yield f"{name} is not made here"
        elif theirs is None:
            yield f"{name} is missing"
        elif ours[:-1] != theirs[:-1]:
            yield f"{name} is {theirs}, made here {ours}"
        elif ours.data != theirs.data and it == PROVENANCE:
            differing = differing_entries(json.loads(theirs.data), json.loads(ours.data))
            words = "; ".join(text.safe(words, LONGEST_SHOWN) for words in differing)
            yield f"{name} differs: {words or 'in its sums, or in how it is written'}"
        elif ours.data != theirs.data:
            yield f"{name} differs: {len(theirs.data)} bytes, made here {len(ours.data)}"


def read_and_compare(path: Path, made: Path) -> tuple[list[str], bool]:
    """Compares a package with one that was made here. Returns the lines to print, and whether they are the same."""
    name = text.safe(path.name, exits.LONGEST_PATH)
    if file_io.read_bytes(path) == made.read_bytes():
        return [f"{name}: the same, byte for byte"], True
    found = list(differences(read_and_unpack_package_or_stop(path), read_and_unpack_package_or_stop(made)))
    if not found:
        return [f"{name}: each file is the same, byte for byte; only the packing differs"], True
    more = [f"and {len(found) - FEW} more"] if len(found) > FEW else []
    return [*found[:FEW], *more, f"{name}: not the same: {len(found)} of its files differ"], False
