"""Calls of the library for C."""

import ctypes
import functools
import os
import threading
from collections.abc import Callable

from ..process import ending
from .errors import Fault, Unstarted

MOST_NODES, MOST_ANSWER = 67_108_864, 300_000  # of library/dam.h


class Answer(ctypes.Structure):
    """The answer of the library: see library/dam.h."""

    _fields_ = [("status", ctypes.c_uint8), ("length", ctypes.c_size_t)]


@functools.cache
def load_clear_call(path: str) -> Callable[..., Answer]:
    """The call of a library that clears a journal."""
    try:
        call = ctypes.CDLL(path).dam_clear_seeded
    except (OSError, AttributeError) as fault:
        raise Unstarted(f"the library {path} can't be used: {fault}") from None
    bytes_of = [ctypes.c_char_p, ctypes.c_size_t]
    call.restype, call.argtypes = Answer, [*bytes_of, *bytes_of, ctypes.c_uint32, *bytes_of]
    return call


class Buffers(threading.local):
    """The buffer in which each thread gets its answers."""

    def __init__(self) -> None:
        self.own = ctypes.create_string_buffer(MOST_ANSWER)


buffers = Buffers()


def call_library(path: str, text: bytes, nodes: int = MOST_NODES) -> tuple[int, bytes]:
    """The status and the text that the library prints for a text; names are hashed with random bytes. Other threads run in the meantime."""
    secret, buffer = os.urandom(16), buffers.own
    with ending.exiting_at_signals():
        answer = load_clear_call(path)(secret, len(secret), text, len(text), nodes, buffer, MOST_ANSWER)
    if answer.length > MOST_ANSWER:
        raise Fault(f"the library {path} has an answer of {answer.length:,} bytes, and may have at most {MOST_ANSWER:,}")
    return answer.status, ctypes.string_at(buffer, answer.length)


def call_and_return_output(path: str, text: bytes) -> bytes:
    status, shown = call_library(path, text)
    if status:
        raise Fault(shown.decode(errors="replace").strip(), status)
    return shown
