"""A child process that asyncio waits for: its input, its outputs, and how it ended."""

from __future__ import annotations

import asyncio
import contextlib
import errno

MOST_FAULT = 1_000  # bytes that are kept of a standard error, the first ones
MOST_PRINTED_BYTES = 1 << 27  # bytes of an output: no journal, results or statement of a day have as many
PART = 1 << 16  # bytes that are read at once


async def feed_and_capture_output_and_errors(process: asyncio.subprocess.Process, program: str, data: bytes = b"") -> tuple[bytes, bytes]:
    """Gives a program its input, and returns its output and the beginning of its standard error once it has ended, in little memory."""
    assert process.stdin and process.stdout and process.stderr
    out, err, _ = await asyncio.gather(
        drain_and_return_first_bytes(process.stdout, MOST_PRINTED_BYTES),
        drain_and_return_first_bytes(process.stderr, MOST_FAULT),
        write_and_close_input(process.stdin, data),
    )
    await process.wait()
    if len(out) == MOST_PRINTED_BYTES:
        raise OSError(errno.EFBIG, f"it printed {MOST_PRINTED_BYTES:,} bytes or more", program)
    return out, err


async def drain_and_return_first_bytes(stream: asyncio.StreamReader, most: int) -> bytes:
    """The first bytes of a stream, which is read to its end."""
    found = bytearray()
    while part := await stream.read(PART):
        found += part[: most - len(found)]
    return bytes(found)


async def write_and_close_input(stream: asyncio.StreamWriter, data: bytes) -> None:
    """Writes the input of a process, which may not read it."""
    with contextlib.suppress(BrokenPipeError, ConnectionResetError):
        stream.write(data)
        await stream.drain()
    stream.close()
    with contextlib.suppress(BrokenPipeError, ConnectionResetError):
        await stream.wait_closed()


def end_text(status: int) -> str:
    return f"ended with status {status}" if status >= 0 else f"was ended by signal {-status}"
