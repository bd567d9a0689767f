"""Files as tools read and write them: a fault names the file, and a written file is whole before it takes the old one's place."""

import contextlib
import errno
import os
import stat
import sys
from collections.abc import Callable, Iterable, Mapping
from typing import IO, BinaryIO, TextIO, TypeVar

from ..process import ending, replacing
from . import exits

MOST_BYTES, PART = 64 << 20, 1 << 20  # of a file that a tool reads, and of those how many at once
NAMED_BY_OUT = ": name it by --out to replace it"
Result = TypeVar("Result")


class OwnOutput(exits.Stop):
    """Standard output is one of the inputs."""


def require_binary_stream(stream: TextIO | None) -> BinaryIO:
    """The bytes of standard input or output, which Python has as None if it is closed."""
    if stream is None:
        raise OSError(errno.EBADF, os.strerror(errno.EBADF))
    return stream.buffer


def read_bytes(path: str | os.PathLike[str]) -> bytes:
    """The bytes of a file; `-` is standard input. A file that has more than any text of a day may have no end, and isn't read on."""
    try:
        standard = contextlib.nullcontext(require_binary_stream(sys.stdin)) if path == "-" else None
        opened: contextlib.AbstractContextManager[IO[bytes]] = standard or open(path, "rb", opener=open_without_waiting)
        with opened as file:
            refuse_own_output(path, file)
            data = read_first_bytes(file, MOST_BYTES + 1)
    except (OSError, ValueError) as fault:
        raise exits.Stop(unread_message(path, fault)) from None
    if len(data) > MOST_BYTES:
        raise exits.Stop(f"{exits.shown(path)} has more than {MOST_BYTES:,} bytes")
    return data


def refuse_own_output(path: str | os.PathLike[str], file: IO[bytes]) -> None:
    """Ends the tool if its output would be added to a file that it reads. Then its record of the fault isn't printed either."""
    try:
        found = os.fstat(file.fileno())
    except (OSError, ValueError):  # it has no number, or is closed
        return
    refuse_as_own_output(path, found)


def refuse_own_outputs(paths: Iterable[str | os.PathLike[str]]) -> None:
    """Ends the tool, before it reads or prints anything, if its standard output is one of these files, or in one of these folders; `-` is
    standard input."""
    for path in paths:
        try:
            found = os.fstat(0) if path == "-" else os.stat(path)
            inside = [entry.path for entry in os.scandir(path)] if stat.S_ISDIR(found.st_mode) else []
        except (OSError, ValueError):  # a later read reports it
            continue
        refuse_as_own_output(path, found)
        refuse_own_outputs(inside)


def refuse_as_own_output(path: str | os.PathLike[str], found: os.stat_result) -> None:
    """Ends the tool if standard output is the file of a path, whose `stat` was found."""
    try:
        is_own = sys.stdout is not None and stat.S_ISREG(found.st_mode) and os.path.samestat(found, os.fstat(1))
    except OSError:  # it is closed
        return
    if is_own:
        if ending.Guarded.tool:  # not a program that calls the package for Python
            exits.redirect_to_devnull(sys.stdout)
        raise OwnOutput(f"standard output goes to {exits.shown(path)}, which is one of the inputs: write to another file")


def unread_message(path: str | os.PathLike[str], fault: OSError | ValueError) -> str:
    """The message about a file that can't be read. Python has a ValueError for a name that no file can have."""
    why = fault.strerror if isinstance(fault, OSError) else "its name has a NUL, or a character that this locale lacks"
    return f"{exits.shown(path)} can't be read: {why}"


def open_without_waiting(path: str, flags: int) -> int:
    """Opens a file so that no read of it waits: of the files of the system, such as /proc/kmsg, some never end. A pipe may wait."""
    return os.open(path, flags | (os.O_NONBLOCK if stat.S_ISREG(os.stat(path).st_mode) else 0))


def find_unread_reason(path: str | os.PathLike[str]) -> str | None:
    """Why a path has no file that can be read, if it has none. A device or a pipe may have no end."""
    try:
        mode = os.stat(path).st_mode
    except FileNotFoundError:
        return f"{exits.shown(path)} is a link to a file that is missing" if os.path.islink(path) else f"{exits.shown(path)} is missing"
    except (OSError, ValueError) as fault:
        return unread_message(path, fault)
    if stat.S_ISDIR(mode):
        return f"{exits.shown(path)} can't be read: {os.strerror(errno.EISDIR)}"
    return None if stat.S_ISREG(mode) else f"{exits.shown(path)} is a device or a pipe, and should be a file"


def read_first_bytes(file: IO[bytes], most: int) -> bytes:
    """At most this many bytes of an open file. Memory is taken as they come. A file that would wait for more is a fault."""
    parts = []
    while most > 0 and (part := file.read(min(most, PART))) != b"":
        if part is None:
            raise BlockingIOError(errno.EAGAIN, os.strerror(errno.EAGAIN))
        parts.append(part)
        most -= len(part)
    return b"".join(parts)


def write_stdout(data: bytes) -> None:
    try:
        require_binary_stream(sys.stdout).write(data)
        sys.stdout.flush()
    except BrokenPipeError:
        raise
    except OSError as fault:
        if sys.stdout is not None:
            exits.redirect_to_devnull(sys.stdout)
        raise exits.Stop(f"standard output can't be written: {fault.strerror}") from None


def print_lines(lines: Iterable[object]) -> None:
    write_stdout("".join(f"{exits.without_controls(line)}\n" for line in lines).encode())


def write_file_or_stdout(tool: str, path: str, data: bytes, advice: str | None = None) -> None:
    """Writes a file that is whole, and at a terminal says so; or standard output if the path is `-`."""
    if path == "-":
        write_stdout(data)
    else:
        write_files(tool, {path: data}, advice)


def write_files(tool: str, files: Mapping[str, bytes], advice: str | None = None) -> None:
    """Writes files by their paths. None is put in its place before each is whole, and from then on Ctrl-C ends the tool only once all are.
    With advice, none replaces a file that is there by then: the tool ends as by `refuse_to_replace`."""
    prepare = replacing.write_new_beside_and_return_put if advice else replacing.write_beside_and_return_put
    written = list[str]()
    with contextlib.ExitStack() as cleanups:
        puts = {path: call_or_stop(path, prepare, path, data, cleanups) for path, data in files.items()}
        try:
            with contextlib.nullcontext() if any(map(is_device_or_pipe, files)) else ending.holding_signals():
                for path, put in puts.items():
                    try:
                        call_or_stop(path, put, advice=advice)
                    except exits.Stop as fault:
                        raise fault_with_written(fault, written) from None
                    written.append(path)
        finally:
            for path in written if sys.stderr.isatty() else []:
                exits.print_note(tool, f"{exits.shown(path)} was written")


def fault_with_written(fault: exits.Stop, written: list[str]) -> exits.Stop:
    """The fault of one of several files, with the names of those that were written before."""
    return exits.Stop(f"{fault}; new by now: {', '.join(map(exits.shown, written))}", fault.status) if written else fault


def is_device_or_pipe(path: str) -> bool:
    try:
        return not stat.S_ISREG(os.stat(path).st_mode)
    except OSError:
        return False


def call_or_stop(path: str, call: Callable[..., Result], *words: object, advice: str | None = None) -> Result:
    try:
        return call(*words)
    except OSError as fault:
        if advice and isinstance(fault, FileExistsError):
            raise taken_error(path, advice) from None
        raise exits.Stop(f"{exits.shown(path)} can't be written: {fault.strerror}") from None


def is_same_file(path: str, other: str) -> bool:
    """Whether a file that a tool is to write is one that it reads; `-` is standard input."""
    try:
        return os.path.isfile(path) and os.path.samestat(os.stat(path), os.fstat(0) if other == "-" else os.stat(other))
    except OSError:
        return False


def refuse_to_replace(path: str, advice: str) -> None:
    """Ends the tool if there is a file that nobody asked to replace."""
    if os.path.lexists(path):
        raise taken_error(path, advice)


def taken_error(path: str, advice: str) -> exits.Stop:
    return exits.Stop(f"{exits.shown(path)} is there already{advice}", exits.COMMAND_LINE)


def refuse_input_as_output(path: str, *inputs: str | None) -> None:
    """Ends the tool if it is to write over a file that it reads; the inputs that aren't given are None."""
    if any(other is not None and is_same_file(path, other) for other in inputs):
        raise exits.Stop(f"{exits.shown(path)} is one of the inputs, and would be lost: write to another file", exits.COMMAND_LINE)
