"""The tests of a folder are run: `tests/FOLDER/run` calls this, and `tests/FOLDER/main.py` says what it does."""

import importlib
from pathlib import Path


def run_main_of(script: str) -> int:
    """Runs the main function of the folder of a script. Returns its status."""
    status: int = importlib.import_module(f"{Path(script).absolute().parent.name}.main").main()
    return status
