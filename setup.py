"""The parts of `pip install .` that pyproject.toml can't say: the scripts of the tools go next to the modules that they use; and if the library for C
was built of the present sources, it comes along, and the wheel is for x86-64 Linux alone."""

import os
import shutil
import sys

from setuptools import Distribution, setup
from setuptools.command.build_py import build_py

try:
    from setuptools.command.bdist_wheel import bdist_wheel
except ImportError:
    from wheel.bdist_wheel import bdist_wheel

TOP = os.path.dirname(os.path.abspath(__file__))
sys.path.insert(0, f"{TOP}/tools")

from lib.crates import sources
from lib.base.place import TOOLS

LIBRARY = f"{TOP}/library/out/libdam.so.1"
HAS_LIBRARY = sources.read_stale_text(LIBRARY, sources.LIBRARY) is None


class Built(build_py):
    def run(self):
        # nothing of an earlier build may get into this one
        shutil.rmtree(os.path.join(self.build_lib, "dam_tools"), ignore_errors=True)
        super().run()
        for path in (*(f"{TOP}/tools/{tool}" for tool in TOOLS), *([LIBRARY] if HAS_LIBRARY else [])):
            self.copy_file(path, os.path.join(self.build_lib, "dam_tools", os.path.basename(path)))


class Wheel(bdist_wheel):
    def get_tag(self):
        return ("py3", "none", "linux_x86_64") if HAS_LIBRARY else super().get_tag()


class WithLibrary(Distribution):
    def has_ext_modules(self):
        return HAS_LIBRARY


setup(cmdclass={"build_py": Built, "bdist_wheel": Wheel}, distclass=WithLibrary)
