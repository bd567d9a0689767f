"""matplotlib with its own settings alone: without a file `matplotlibrc` of the working folder or the user, which could run programs, and
without those of the environment. Its cache of fonts stays the user's."""

import contextlib
import logging
import os
import tempfile
from collections.abc import Iterator

SETTINGS = ("MATPLOTLIBRC", "MPLCONFIGDIR")


@contextlib.contextmanager
def working_in(folder: str) -> Iterator[None]:
    """A working folder for a while. One that the user may not search stays: no file of it can be read."""
    try:
        here = os.open(".", os.O_PATH)
    except PermissionError:
        yield
        return
    try:
        os.chdir(folder)
        yield
    finally:
        os.fchdir(here)
        os.close(here)


@contextlib.contextmanager
def empty_settings() -> Iterator[None]:
    """An empty folder of our own, as the working folder and as matplotlib's folder of settings."""
    kept = {name: os.environ.pop(name, "") for name in SETTINGS}
    try:
        with tempfile.TemporaryDirectory(prefix="dam-") as folder, working_in(folder):
            os.environ["MPLCONFIGDIR"] = folder
            yield
    finally:
        os.environ.pop("MPLCONFIGDIR", None)
        os.environ.update({name: path for name, path in kept.items() if os.path.isabs(path)})


os.environ["MPLBACKEND"] = "Agg"
logging.getLogger("matplotlib").setLevel(logging.ERROR)  # it warns if the user has no folder for its cache
with empty_settings():
    import matplotlib

from matplotlib import pyplot
from matplotlib.axes import Axes
from matplotlib.axis import Axis
from matplotlib.collections import LineCollection, PolyCollection
from matplotlib.figure import Figure
from matplotlib.patches import Patch, Polygon, Rectangle
from matplotlib.ticker import AutoLocator

# The other modules import them from here alone.
__all__ = ["AutoLocator", "Axes", "Axis", "Figure", "LineCollection", "Patch", "PolyCollection", "Polygon", "Rectangle", "matplotlib", "pyplot"]
