"""A port of this machine for a test's server."""

import contextlib
import socket


def find_free_port() -> int:
    with contextlib.closing(socket.socket()) as found:
        found.bind(("127.0.0.1", 0))
        return found.getsockname()[1]
