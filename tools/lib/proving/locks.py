"""The locks of the folders in which rt works, and the files that a killed run had moved."""

from __future__ import annotations

import fcntl
import glob
import os
import time
from collections.abc import Iterable, Sequence

from ..crates.sources import TOP
from .bar import print_and_flush
from .plan import CRATES
from .rt_run import move_folder_if_there


def wait_and_take_locks(folders: Iterable[str], signals: Sequence[int]) -> list[int]:
    """Waits until no other rt or tools/prove works in these folders, or a signal came. Returns the locks, which keep others out until they are
    closed."""
    held = []
    for folder in sorted(os.path.realpath(it) for it in folders):
        held.append(os.open(folder, os.O_RDONLY))
        has_told = False
        while not signals:
            try:
                fcntl.flock(held[-1], fcntl.LOCK_EX | fcntl.LOCK_NB)
            except BlockingIOError:
                if not has_told:
                    print_and_flush(f"waiting for another run of rt to end in {os.path.relpath(folder, TOP)}")
                has_told = True
                time.sleep(0.2)
                continue
            except OSError:
                # some file systems have no locks
                pass
            break
    return held


def wait_and_move_back(crates: Iterable[str], signals: Sequence[int]) -> None:
    """Puts back the files that a killed run had moved, once the processes that it had started have ended."""
    for there in glob.glob(f"{glob.escape(CRATES)}/*/out/beside/*/crates/*/out"):
        name = os.path.basename(os.path.dirname(there))
        if name in crates and f"/out/beside/{name}/crates/" in there and not os.path.lexists(f"{CRATES}/{name}/out"):
            held = wait_and_take_locks([os.path.dirname(there)], signals)
            if not signals:
                move_folder_if_there(there, f"{CRATES}/{name}/out")
            for it in held:
                os.close(it)
