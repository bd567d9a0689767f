"""A written file gets its name only once it is whole: if the disk is full, an old file stays. A new file takes no name of another."""

from __future__ import annotations

import contextlib
import errno
import functools
import os
import re
import secrets
import stat
import threading
from collections.abc import Callable
from pathlib import Path

from . import ending

# The errors if an old file can be written but not replaced, because of its folder, its owner or its file system.
FIXED = (errno.EACCES, errno.EPERM, errno.EROFS, errno.EBUSY, errno.EXDEV, errno.ENOTSUP)
FULL = (errno.ENOSPC, errno.EDQUOT, errno.EFBIG)
MOST_LINKS = 40  # that Linux follows
OPEN_FILES = "/proc/"
BESIDE = re.compile(r"\.dam-[0-9a-f]{16}")  # the name of a file that is written next to its place


def write_replacing(path: str | Path, data: bytes) -> None:
    """Writes a file. A device, a pipe, and a file that can't be replaced are written in place."""
    with contextlib.ExitStack() as cleanups:
        write_beside_and_return_put(path, data, cleanups)()


def write_beside_and_return_put(path: str | Path, data: bytes, cleanups: contextlib.ExitStack) -> Callable[[], object]:
    """The call that puts a file in its place. Unless it's to be written in place, it's written before, next to that, and `cleanups` removes
    it if it isn't put."""
    target = find_link_target(str(Path(path)))
    old = read_stat(target) if target is not None else None
    # `Path` leaves out a slash or dot at the end, which only a folder has
    if os.path.basename(path) in ("", ".") or old is not None and stat.S_ISDIR(old.st_mode):
        raise IsADirectoryError(errno.EISDIR, os.strerror(errno.EISDIR))
    if target is None and (number := find_own_number(str(Path(path)))) is not None:
        return functools.partial(write_to_number, number, data)
    if target is None or old is not None and not stat.S_ISREG(old.st_mode):
        return functools.partial(Path(path).write_bytes, data)
    if old is not None:
        os.close(os.open(target, os.O_WRONLY))  # a file that can't be written isn't replaced
    in_place = functools.partial(write_in_place, target, data)
    try:
        rename = write_and_return_rename(target, old, data, cleanups)
    except OSError as fault:
        return in_place_call_or_raise(in_place, old, fault)

    def put() -> None:
        try:
            rename()
        except OSError as fault:
            in_place_call_or_raise(in_place, old, fault)()

    return put


def write_new_beside_and_return_put(path: str | Path, data: bytes, cleanups: contextlib.ExitStack) -> Callable[[], object]:
    """The call that puts a new file in its place, and ends with FileExistsError if there is one by then, or a link. The file is written
    before, next to its place; `cleanups` removes it if it isn't put."""
    path = str(Path(path))
    made = draw_path_beside(path)
    create_file(made, data, cleanups)

    def put() -> None:
        try:
            os.link(made, path)
        except FileExistsError:
            raise
        except OSError:  # a file system without links
            create_whole_file(path, data)
        remove_file(made)

    return put


def create_whole_file(path: str | Path, data: bytes, mode: int = 0o666) -> None:
    """Writes a file that isn't there yet, and removes it if it can't be written."""
    with contextlib.ExitStack() as undo:
        create_file(path, data, undo, mode=mode)
        undo.pop_all()


def in_place_call_or_raise(in_place: Callable[[], object], old: os.stat_result | None, fault: OSError) -> Callable[[], object]:
    """The call that writes over an old file, if it is the one that can't be replaced."""
    if old is None or fault.errno not in FIXED:
        raise fault
    return in_place


def write_in_place(target: str, data: bytes) -> None:
    """Writes over an old file. Its room is taken first: on a full disk the old bytes stay."""
    number = os.open(target, os.O_WRONLY | os.O_CLOEXEC)
    with open(number, "wb") as file:
        old = os.fstat(number).st_size
        try:
            os.posix_fallocate(number, 0, max(1, len(data)))
        except OSError as fault:
            os.ftruncate(number, old)
            if fault.errno in FULL:
                raise
        file.write(data)
        file.truncate()


def write_to_number(number: int, data: bytes) -> None:
    """Writes to an open file of this process, after what it has."""
    with open(os.dup(number), "wb") as file:
        file.write(data)


def find_link_target(path: str) -> str | None:
    """The file to which symbolic links lead from a path; None for an open file, as /dev/stdout names it."""
    found = find_path_or_open_file(path)
    return None if found.startswith(OPEN_FILES) else found


def find_own_number(path: str) -> int | None:
    """The number of the open file of this process that a path names; None if it names none."""
    folder, name = os.path.split(find_path_or_open_file(path))
    is_own = folder in (f"/proc/{os.getpid()}/fd", f"/proc/{os.getpid()}/task/{threading.get_native_id()}/fd")
    return int(name) if is_own and name.isascii() and name.isdigit() and os.path.lexists(path) else None


def find_path_or_open_file(path: str) -> str:
    """The path without symbolic links to which those of a path lead; or the first one in /proc, which may be that of an open file."""
    for _ in range(MOST_LINKS):
        folder, name = os.path.split(path)
        path = os.path.join(os.path.realpath(folder), name)
        if path.startswith(OPEN_FILES) or not os.path.islink(path):
            return path
        path = os.path.join(os.path.dirname(path), os.readlink(path))
    return path


def read_stat(path: str) -> os.stat_result | None:
    try:
        return os.stat(path)
    except FileNotFoundError:
        return None


def write_and_return_rename(target: str, old: os.stat_result | None, data: bytes, cleanups: contextlib.ExitStack) -> Callable[[], object]:
    """Writes a new file next to the target. The call that gives it the target's name; `cleanups` removes it if that isn't called."""
    made = draw_path_beside(target)
    create_file(made, data, cleanups, None if old is None else functools.partial(copy_rights, target=target, old=old))
    return functools.partial(os.rename, made, target)


def draw_path_beside(path: str) -> str:
    return os.path.join(os.path.dirname(path), f".dam-{secrets.token_hex(8)}")


def remove_leftovers(folder: Path) -> None:
    """Removes the files that were written next to their places by processes that were ended. No other process may write to the folder."""
    for path in folder.glob(".dam-*"):
        if BESIDE.fullmatch(path.name):
            remove_file(path)


def create_file(
    path: str | Path, data: bytes, cleanups: contextlib.ExitStack, prepared: Callable[[int], object] | None = None, mode: int = 0o666
) -> None:
    """Writes a file that isn't there yet, and that `cleanups` removes. Before, a call may give it rights, by its number."""
    with ending.holding_signals():
        number = os.open(path, os.O_WRONLY | os.O_CREAT | os.O_EXCL | os.O_CLOEXEC, mode)
        cleanups.callback(remove_file, path)
    with open(number, "wb") as file:
        if prepared:
            prepared(number)
        file.write(data)
        file.flush()
        os.fsync(number)


def remove_file(path: str | Path) -> None:
    with contextlib.suppress(OSError):
        os.unlink(path)


def copy_rights(number: int, target: str, old: os.stat_result) -> None:
    """Gives an open file the owner, the rights and the attributes of the old one."""
    new = os.fstat(number)
    if (new.st_uid, new.st_gid) != (old.st_uid, old.st_gid):
        os.fchown(number, old.st_uid, old.st_gid)
    os.fchmod(number, stat.S_IMODE(old.st_mode))
    for name in list_attributes(target):
        os.setxattr(number, name, os.getxattr(target, name))


def list_attributes(path: str) -> list[str]:
    """The names of a file's extended attributes, such as an access control list; none if the file system has no such thing."""
    try:
        return os.listxattr(path)
    except OSError as fault:
        if fault.errno == errno.ENOTSUP:
            return []
        raise
