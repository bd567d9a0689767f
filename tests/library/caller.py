"""caller.py LIBRARY replay|clear: prints for the journal on standard input what `dam` prints, with its status, by the library."""

import ctypes
import os
import sys
from typing import Any

MOST_NODES, MOST_ANSWER = 67_108_864, 300_000


class Answer(ctypes.Structure):
    _fields_ = [("status", ctypes.c_uint8), ("length", ctypes.c_size_t)]


def load_library(path: str) -> ctypes.CDLL:
    """The library, with the types of its calls, so that a missing argument is an error, not a wrong address."""
    calls, text = ctypes.CDLL(path), [ctypes.c_char_p, ctypes.c_size_t]
    calls.dam_replay_seeded.argtypes = [*text, *text, *text]
    calls.dam_clear_seeded.argtypes = [*text, *text, ctypes.c_uint32, *text]
    calls.dam_replay_seeded.restype = calls.dam_clear_seeded.restype = Answer
    return calls


def call_and_read_answer(call: Any, text: bytes, *nodes: int) -> tuple[int, bytes]:
    """The status and answer of `dam_replay_seeded` or `dam_clear_seeded`."""
    secret, buffer = os.urandom(16), ctypes.create_string_buffer(MOST_ANSWER)
    found = call(secret, len(secret), text, len(text), *nodes, buffer, MOST_ANSWER)
    return found.status, buffer.raw[: found.length]


def main() -> None:
    calls, text = load_library(sys.argv[1]), sys.stdin.buffer.read()
    if sys.argv[2] == "replay":
        status, shown = call_and_read_answer(calls.dam_replay_seeded, text)
    else:
        status, shown = call_and_read_answer(calls.dam_clear_seeded, text, MOST_NODES)
    (sys.stderr if status else sys.stdout).buffer.write(shown)
    sys.exit(status)


main()
