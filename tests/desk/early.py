"""early.py REPLIES PROGRAM FILE: a desk that is wrong. It passes the lines that come in to a desk, and answers them first, from the file of
all replies."""

import os
import subprocess
import sys
import time
from pathlib import Path

LATE = 0.001  # seconds by which the desk gets the lines later


def main() -> None:
    path, *words, file = sys.argv[1:]
    replies = Path(path).read_bytes().splitlines(keepends=True)
    held = 0
    if os.path.exists(file):
        held = subprocess.run([*words, "--journal", file], stdout=subprocess.PIPE, check=True).stdout.count(b"\n")
    desk = subprocess.Popen([*words, file], stdin=subprocess.PIPE, stdout=subprocess.DEVNULL)
    assert desk.stdin
    os.write(1, b"".join(replies[:held]))
    while text := os.read(0, 1 << 16):
        lines = text.count(b"\n")
        os.write(1, b"".join(replies[held : held + lines]))
        held += lines
        time.sleep(LATE)
        desk.stdin.write(text)
        desk.stdin.flush()
    desk.stdin.close()
    desk.wait()


if __name__ == "__main__":
    main()
