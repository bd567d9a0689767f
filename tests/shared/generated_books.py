"""The closed books that the scripts of bench/ make."""

import subprocess
import sys

from shared.place import TOP


def generate_book(script: str, *words: object) -> bytes:
    """The journal of a book, which a script of bench/ prints for these words."""
    command = [sys.executable, str(TOP / "bench" / script), *map(str, words)]
    return subprocess.run(command, stdout=subprocess.PIPE, check=True).stdout
