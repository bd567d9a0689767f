"""The commands of the packaged pages, as an ordinary user runs them: of the archive that runs in place, in a folder that this user can't
write to, or of the package that a fresh system has installed."""

import os
import pwd
import shutil
import subprocess
import tempfile
from collections.abc import Mapping
from pathlib import Path
from typing import Any, NamedTuple

from shared import docs_page_session
from shared.counts import Counts
from shared.docs_page_scenes import INSTALLED, PAGES

USER = "nobody"  # if this isn't an ordinary user
SYSTEM_PATH = "/usr/local/bin:/usr/bin:/bin"
ROOM = "srv/day/reader"  # in a system


class PackagePlace(NamedTuple):
    """Where the package is: the folder of its files, the words that start a program there, and its environment."""

    what: str
    files: Path
    environment: dict[str, str]
    shell: list[str] = []
    root: Path = Path("/")


def check_pages(counts: Counts, debian: Path, archive: Path, program: str | None = None) -> None:
    """The commands of each page. With a stand-in for the library, the tools run `program` of the package instead."""
    if not os.geteuid() and not shutil.which("setpriv"):
        counts.count_and_print_left_out("the commands of the pages, installed: setpriv is missing")
        return
    with tempfile.TemporaryDirectory(prefix="reader-") as folder:
        room = Path(folder).resolve()
        room.chmod(0o755)
        at = unpack_and_return_folder(archive, room)
        before = read_state(at)
        copies = {name: str(shutil.copy(path, room)) for name, path in (("DEB", debian), ("ARCHIVE", archive))}
        given = {**copies, **({"DAM": f"{at}/{program}"} if program else {})}
        path = f"{at / 'bin'}:{SYSTEM_PATH}"
        own = {"PATH": path, "PREFIX": str(at), "PYTHONPATH": str(at / "lib/python3/dist-packages")}
        for name in PAGES:
            check_page(counts, name, PackagePlace("in place", at, own), room, given)
        counts.check("the commands of the pages leave the package as it was", read_state(at) == before)


def check_pages_in_system(counts: Counts, system: Any, debian: Path, archive: Path) -> None:
    """The commands of each page, by the package that a fresh system has installed."""
    root = Path(system.root)
    room = root / ROOM
    room.mkdir(parents=True)
    copies = {name: Path(shutil.copy(path, room)) for name, path in (("DEB", debian), ("ARCHIVE", archive))}
    given = {name: str(docs_page_session.path_inside(path, root)) for name, path in copies.items()}
    place = PackagePlace("in a fresh system", root / "usr", {"PATH": SYSTEM_PATH, "PREFIX": "/usr"}, system.find_words_of_start(), root)
    before = read_state(root / "usr")
    for name in PAGES:
        check_page(counts, name, place, room, given)
    counts.check("the commands of the pages leave the system as it was", read_state(root / "usr") == before)
    shutil.rmtree(room)


def unpack_and_return_folder(archive: Path, room: Path) -> Path:
    """The folder of the package, in which nobody may write but root."""
    subprocess.run(["tar", "-xJf", archive, "-C", room, "--no-same-owner"], check=True)
    (at,) = (path for path in room.iterdir() if path.is_dir())
    subprocess.run(["chmod", "-R", "a-w,a+rX", at], check=True)
    return at


def read_state(at: Path) -> object:
    """The files of the package, with their sizes and times."""
    return {path: (found.st_size, found.st_mtime_ns) for path in at.rglob("*") for found in [path.lstat()]}


def words_and_number_of_user() -> tuple[list[str], int]:
    """The words that start a shell as an ordinary user, and the number of that user."""
    if os.geteuid():
        return [], os.geteuid()
    user = pwd.getpwnam(USER)
    return ["setpriv", f"--reuid={user.pw_uid}", f"--regid={user.pw_gid}", "--clear-groups", "--no-new-privs"], user.pw_uid


def check_page(counts: Counts, name: str, place: PackagePlace, room: Path, given: Mapping[str, str]) -> None:
    """The commands of a page, in a folder of the user with a copy of the examples."""
    words, user = words_and_number_of_user()
    with tempfile.TemporaryDirectory(dir=room, ignore_cleanup_errors=True) as folder:
        own = Path(folder)
        home = own / "home"
        shutil.copytree(place.files / "share/doc/dam/examples", home / "examples")
        environment = docs_page_session.make_environment_with_browser(home, {**place.environment, **given}, place.root)
        reader = docs_page_session.PageReader(INSTALLED, place.files / "share/doc/dam", [*place.shell, *words], environment, place.root)
        if missing := docs_page_session.find_missing_needs(name, reader):
            counts.count_and_print_left_out(f"the commands of {name}, {place.what}: {', '.join(missing)} missing")
            return
        subprocess.run(["chmod", "-R", "u+w", home], check=True)
        if words:
            subprocess.run(["chown", "-R", str(user), own], check=True)
        prefix = place.environment["PREFIX"]
        asked = [*reader.shell, "test", "-w", f"{prefix}/bin", "-o", "-w", f"{prefix}/share/doc/dam"]
        counts.check(f"{name}: the user may write to the package", subprocess.run(asked).returncode == 1)
        docs_page_session.run_check_and_return_outputs(counts, name, reader, own)
