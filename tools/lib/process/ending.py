"""How a tool ends if it fails itself, because memory or files run out or it has a defect: with one line on standard error, and a status
that is no verdict. With DAM_DEBUG=1 in the environment Python's traceback comes before the line.

lib/start.py calls `guard_tool` before a tool imports anything else, since an import may fail too, and Ctrl-C may come in the midst of it.
The launcher's call `guard_process`, for which Python 3.8 is enough. From `turn_signals_into_exceptions` on, signals are exceptions: so the
tool's processes are ended, and its temporary files removed."""

from __future__ import annotations

import atexit
import contextlib
import math
import os
import resource
import signal
import sys
import threading
import time
from collections.abc import Callable, Iterable, Iterator
from types import FrameType
from typing import NoReturn

from ..base import place
from . import surroundings

FAILED = 5
OF_SIGNALS = 128  # the number that shells add to that of a signal that ends a process
INTERRUPTED = OF_SIGNALS + signal.SIGINT
ENDING = signal.SIGTERM, signal.SIGHUP  # besides Ctrl-C
PAUSE = 5  # seconds after a signal, or Ctrl-C, in which others aren't heeded: they would stop the end
AGAIN = 0.01  # seconds until a signal whose exception was lost is raised again
LEAST_STACK = 1 << 19  # bytes: with fewer, the system ends Python before it sees a recursion that is too deep, or matplotlib draws

# The messages of the system's loader, of Python's threads and parser, and of code in C if there is no memory for them.
NO_MEMORY = ("cannot allocate memory", "failed to map segment", "can't start new thread", "can't allocate", "out of memory",
             "error return without exception set", "without setting an exception", "' is required for ")  # fmt: skip
# And those of both if the process may open no more files.
NO_FILES = ("too many open files", "cannot open shared object file: error 24")


class Guarded:
    """The state of this process."""

    tool = ""  # its name, once it is guarded
    failed: int = FAILED  # its status if it fails
    heeded = -math.inf  # when the last signal was heeded
    lost: BaseException = KeyboardInterrupt()  # the exception of the signal that was lost last


# The last task of a tool that ends like this: a call that gets the status and the message.
last_duties: list[Callable[[int, str | None], object]] = []


class EndedBySignal(KeyboardInterrupt):
    """A signal that ends the tool as Ctrl-C does."""

    def __init__(self, number: int) -> None:
        super().__init__(number)
        self.number = number


def is_lack_of_memory(fault: BaseException) -> bool:
    return isinstance(fault, MemoryError) or any(words in str(fault).lower() for words in NO_MEMORY)


def is_lack_of_files(fault: BaseException) -> bool:
    return any(words in str(fault).lower() for words in NO_FILES)


def failure_text(fault: BaseException) -> str:
    if is_lack_of_memory(fault):
        return "out of memory"
    if is_lack_of_files(fault):
        return "too many open files: raise their limit (ulimit -n)"
    first = ascii(str(fault))[1:-1][:200]
    return f"a defect of this tool, please report it: {type(fault).__name__}: {first} (DAM_DEBUG=1 shows where)"


def status_and_message_of_interrupt(fault: KeyboardInterrupt) -> tuple[int, str]:
    """The status with which Ctrl-C or a signal ends a tool, and the message."""
    if isinstance(fault, EndedBySignal):
        return OF_SIGNALS + fault.number, f"ended by {signal.Signals(fault.number).name}"
    return INTERRUPTED, "interrupted"


def exit_by_failure(tool: str, fault: BaseException) -> NoReturn:
    status = Guarded.failed
    message: str | None = None
    try:
        if isinstance(fault, KeyboardInterrupt):
            status, message = status_and_message_of_interrupt(fault)
        else:
            message = failure_text(fault)
            if os.environ.get("DAM_DEBUG") == "1":
                sys.__excepthook__(type(fault), fault, fault.__traceback__)
        os.write(2, f"{place.command_name(tool)}: {message}\n".encode(errors="backslashreplace"))
    finally:
        exit_now(status, message)


def exit_now(status: int, message: str | None) -> NoReturn:
    """Ends the process at once, after its last duties."""
    try:
        for duty in last_duties:
            duty(status, message)
    finally:
        os._exit(status)


def guard_tool(tool: str) -> None:
    """Guards a tool, for which the packages of the system are found. An old Python ends it at once."""
    if sys.version_info < (3, 10):
        os.write(2, f"{tool}: it needs Python 3.10 or newer\n".encode())
        sys.exit(FAILED)
    guard_process(tool)
    exit_if_stack_is_small(tool)
    if sys.flags.no_site:
        import_site_or_exit(tool)


def import_site_or_exit(tool: str) -> None:
    """Lets Python find the packages of the system, which may run code of their own, only now that the tool is guarded."""
    try:
        import site

        site.main()
    except Exception as fault:
        exit_by_failure(tool, fault)


def exit_if_stack_is_small(tool: str) -> None:
    """Ends the tool at once if its stack, and so that of each thread, may be too small."""
    most, _ = resource.getrlimit(resource.RLIMIT_STACK)
    if 0 <= most < LEAST_STACK:
        os.write(2, f"{place.command_name(tool)}: its stack may have {most >> 10} KiB: raise the limit (ulimit -s)\n".encode())
        os._exit(FAILED)


def guard_process(tool: str, failed: int = FAILED) -> None:
    """From now on any exception that nothing handles ends the tool in this way, with the status `failed`, and Ctrl-C at once, and the tool
    is apart from the working folder."""
    Guarded.tool, Guarded.failed = tool, failed
    surroundings.isolate_environment()
    sys.excepthook = lambda _, fault, trace: exit_by_failure(tool, fault.with_traceback(trace))
    if signal.getsignal(signal.SIGINT) != signal.SIG_IGN:
        signal.signal(signal.SIGINT, exit_by_interrupt)


def exit_by_interrupt(*_: object) -> NoReturn:
    """Ctrl-C while modules are imported, of which some would take the exception for a fault of their own."""
    exit_by_failure(Guarded.tool, KeyboardInterrupt())


def turn_signals_into_exceptions() -> None:
    """From now on Ctrl-C and the signals that end a process are exceptions, unless the one that started it ignores them."""
    if signal.getsignal(signal.SIGINT) == exit_by_interrupt:
        signal.signal(signal.SIGINT, raise_signal)
    for number in ENDING:
        if signal.getsignal(number) == signal.SIG_DFL:
            signal.signal(number, raise_signal)
    sys.unraisablehook = raise_ignored_later


def raise_ignored_later(ignored: sys.UnraisableHookArgs) -> None:
    """Python ignores an exception of a call for an object that goes away. A signal that came in the midst of it is raised again."""
    if not issubclass(ignored.exc_type, KeyboardInterrupt):
        sys.__unraisablehook__(ignored)
        return
    Guarded.lost = ignored.exc_value or KeyboardInterrupt()
    atexit.register(signal.setitimer, signal.ITIMER_REAL, 0)
    signal.signal(signal.SIGALRM, raise_lost)
    signal.setitimer(signal.ITIMER_REAL, AGAIN)


def raise_lost(_: int, frame: FrameType | None) -> None:
    """Raises it later, if it would be lost again since Python still ignores another one."""
    if frame and frame.f_code is raise_ignored_later.__code__:
        signal.setitimer(signal.ITIMER_REAL, AGAIN)
    else:
        raise Guarded.lost


def raise_signal(number: int, _: FrameType | None) -> None:
    now = time.monotonic()
    if now - Guarded.heeded >= PAUSE:
        Guarded.heeded = now
        raise KeyboardInterrupt() if number == signal.SIGINT else EndedBySignal(number)


def restore_signals() -> None:
    """A copy of this process ends at once by a signal, as the one that made it expects."""
    for number in ENDING:
        if signal.getsignal(number) == raise_signal:
            signal.signal(number, signal.SIG_DFL)


os.register_at_fork(after_in_child=restore_signals)


@contextlib.contextmanager
def handling_signals(numbers: Iterable[int], handler: Callable[[int, FrameType | None], object] | signal.Handlers) -> Iterator[None]:
    """In the main thread, another handler has those of the signals in this block that are exceptions otherwise."""
    is_main = threading.current_thread() is threading.main_thread()
    heeded = [number for number in numbers if is_main and signal.getsignal(number) == raise_signal]
    for number in heeded:
        signal.signal(number, handler)
    try:
        yield
    finally:
        for number in heeded:
            signal.signal(number, raise_signal)


def exiting_at_signals() -> contextlib.AbstractContextManager[None]:
    """In the main thread, the signals besides Ctrl-C end the process at once in this block: a call of a library, which would keep Python
    from seeing them until it returns, and which leaves no process and no file."""
    return handling_signals(ENDING, signal.SIG_DFL)


@contextlib.contextmanager
def holding_signals() -> Iterator[None]:
    """In the main thread, Ctrl-C or a signal that comes in this block ends the tool only at the block's end: each of its steps is done.
    None of them may wait for another process."""
    came: list[int] = []
    try:
        with handling_signals((signal.SIGINT, *ENDING), lambda number, _: came.append(number)):
            yield
    finally:
        if came:
            raise_signal(came[0], None)
