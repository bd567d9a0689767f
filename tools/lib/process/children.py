"""How the processes end that a tool starts. If a process ignores SIGCHLD, as the one that started it may have done, the system forgets how
its children end, and for Python each ends with 0. Python 3.8 is enough."""

from __future__ import annotations

import contextlib
import os
import signal
import subprocess
from typing import AnyStr


def stop_ignoring_children() -> None:
    """From now on this process sees how its children end."""
    signal.signal(signal.SIGCHLD, signal.SIG_DFL)


def are_children_heeded() -> bool:
    return signal.getsignal(signal.SIGCHLD) != signal.SIG_IGN


def kill_group(process: subprocess.Popen[AnyStr]) -> None:
    """Ends a process that leads a group, and all others of the group, at once."""
    with contextlib.suppress(ProcessLookupError):
        os.killpg(process.pid, signal.SIGKILL)
    process.wait()


def end_group(process: subprocess.Popen[AnyStr], seconds: float) -> None:
    """Ends a process that leads a group, and all others of the group. It gets these seconds to end by itself, which the others don't get if
    it ends sooner."""
    with contextlib.suppress(ProcessLookupError):
        os.killpg(process.pid, signal.SIGTERM)
    with contextlib.suppress(subprocess.TimeoutExpired):
        process.wait(seconds)
    kill_group(process)
