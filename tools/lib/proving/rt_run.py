"""Runs of rt: the proof of a crate in its copy, whose files are moved there and back."""

from __future__ import annotations

import os
import shutil
import subprocess
import time

from ..crates.crates import crates_below, make_link_or_copy
from ..crates.sources import TOP, read_own_crates
from .bar import print_and_flush, shown
from .plan import CRATES, Crates


class RtRun:
    """A run of rt, whose output goes to a file."""

    def __init__(self, name: str, jobs: int, words: list[str], folder: str, log: str, given: str = os.devnull) -> None:
        self.name, self.jobs, self.used, self.log = name, jobs, 0.0, log
        self.words, self.folder, self.given = words, folder, given

    def start(self) -> None:
        self.began = time.time()
        if not shown.is_shown:
            print_and_flush(f"proving {self.name} ({self.jobs} job{'s' * (self.jobs > 1)})")
        with open(self.given, "rb") as stdin, open(self.log, "wb") as output:
            self.process = subprocess.Popen(self.words, cwd=self.folder, stdin=stdin, stdout=output, stderr=subprocess.STDOUT)

    def reap_if_ended(self) -> bool:
        """Returns whether the run has ended, and then notes its status and its time of a processor."""
        if self.process.returncode is None:
            which, status, used = os.wait4(self.process.pid, os.WNOHANG)
            if which:
                self.process.returncode = os.WEXITSTATUS(status) if os.WIFEXITED(status) else -os.WTERMSIG(status)
                self.used = used.ru_utime + used.ru_stime
        return self.process.returncode is not None

    def end(self) -> None:
        """Ends the run, if it hasn't ended."""
        if not self.reap_if_ended():
            self.process.terminate()
            until = time.time() + 10
            while not self.reap_if_ended():
                time.sleep(0.05)
                if time.time() > until:
                    self.process.kill()

    def print_and_return_success(self) -> bool:
        if self.process.returncode == 0:
            print_and_flush(f"proved {self.name} in {time.time() - self.began:.0f} s ({self.used:.0f} s of a processor)")
            return True
        with open(self.log, encoding="utf-8", errors="replace") as text:
            print_and_flush(text.read().rstrip())
        print_and_flush(f"{self.name} is not proved: rt ended with status {self.process.returncode}")
        return False


class Proof(RtRun):
    """The proof of one crate, in its copy of the repository. A program is also built, and run once."""

    def __init__(self, crates: Crates, name: str, room: str, jobs: int) -> None:
        self.copy, self.sources, self.below = f"{room}/{name}", f"{room}/sources", crates_below(crates, name)
        self.here, self.there, self.old = f"{CRATES}/{name}/out", f"{self.copy}/crates/{name}/out", f"{self.copy}/old"
        self.is_program = is_program(name)
        words, given = ["rt", "run" if self.is_program else "lib", "--jobs", str(jobs)], os.devnull
        if self.is_program:
            words += ["--", *read_arguments(name)]
            given = f"{CRATES}/{name}/stdin" if os.path.isfile(f"{CRATES}/{name}/stdin") else given
        super().__init__(name, jobs, words, f"{self.copy}/crates/{name}", f"{self.copy}/log", given)

    def start(self) -> None:
        """Starts the run, once its files are in the copy."""
        self.copy_sources()
        self.copy_or_move_files()
        try:
            super().start()
        except OSError:
            self.move_files_back()
            raise

    def copy_sources(self) -> None:
        for it in read_own_crates():
            # rt wants a folder for each crate of the list
            os.makedirs(f"{self.copy}/crates/{it}/src", exist_ok=True)
        for it in ("crates.txt", "HANDLES"):
            if os.path.isfile(f"{TOP}/{it}"):
                shutil.copy(f"{TOP}/{it}", self.copy)
        for it in [self.name, *self.below]:
            os.rmdir(f"{self.copy}/crates/{it}/src")
            os.rmdir(f"{self.copy}/crates/{it}")
            shutil.copytree(f"{self.sources}/{it}", f"{self.copy}/crates/{it}")
            if it != self.name:
                shutil.copytree(f"{CRATES}/{it}/out/rlib", f"{self.copy}/crates/{it}/out/rlib", copy_function=make_link_or_copy)

    def copy_or_move_files(self) -> None:
        """Copies the files of a program, with its data, and moves those of a library."""
        if self.is_program:
            if os.path.isdir(f"{CRATES}/{self.name}/data"):
                shutil.copytree(f"{CRATES}/{self.name}/data", f"{self.copy}/crates/{self.name}", dirs_exist_ok=True)
            shutil.copytree(self.here, self.there, ignore=shutil.ignore_patterns("beside"))
        elif os.path.isdir(self.here):
            os.rename(self.here, self.there)

    def end(self) -> None:
        """Ends the run, if it hasn't ended, and moves its files back."""
        super().end()
        self.move_files_back()

    def move_files_back(self) -> None:
        if self.is_program:
            replace_files(self.there, self.here, self.old)
        else:
            move_folder_if_there(self.there, self.here)


def is_program(name: str) -> bool:
    return os.path.isfile(f"{CRATES}/{name}/src/main.rt")


def read_arguments(program: str) -> list[str]:
    if not os.path.isfile(f"{CRATES}/{program}/args"):
        return []
    with open(f"{CRATES}/{program}/args", encoding="utf-8") as text:
        return text.read().splitlines()


def move_folder_if_there(there: str, here: str) -> None:
    if os.path.isdir(there) and not os.path.lexists(here):
        os.rename(there, here)


def replace_files(there: str, here: str, old: str) -> None:
    """Puts files in the place of the earlier ones, which go to a third folder. All are in one file system, so each is there at any time, or
    for a folder nearly so."""
    os.makedirs(old)
    for it in os.listdir(there):
        if os.path.isdir(f"{here}/{it}"):
            os.rename(f"{here}/{it}", f"{old}/{it}")
        os.replace(f"{there}/{it}", f"{here}/{it}")
