"""The trial of a crate's wrong bodies on a copy of the crate."""

from __future__ import annotations

import os
import shutil
import subprocess
import time
from collections import Counter
from collections.abc import Iterator, Mapping, Sequence

from shared.edit_files import WrongBody, batches_of, read_text, write_text
from shared.processes import read_processor_time
from shared.rattle_source import functions_of, homes_of, leaders_of, listed_name, parts_outside_functions

from .report import CheckReport

Place = tuple[str, int]  # of a function: the path of its file in the crate, and its number there


class Trial:
    """A copy of a crate on which wrong bodies are tried, each check over the proofs of the crate as it stands.

    The kept work of a check has one state of each function, so the proved state is set aside, and each check begins with a copy of it.
    """

    def __init__(self, copy: str, crate: str, jobs: int | None = None, logs: str | None = None) -> None:
        self.crate, self.folder, self.logs = crate, f"{copy}/crates/{crate}", logs
        self.out, self.aside = f"{self.folder}/out", f"{copy}/proved-{crate}"
        self.command = ["rt", "check", *(["--jobs", str(jobs)] if jobs else [])]
        self.checks = self.batches = self.single = 0

    def __enter__(self) -> Trial:
        """Proves the crate as it stands, or sees that it is proved, and sets that work aside."""
        report = self.run_and_print_check("as it stands")
        shutil.rmtree(self.aside, ignore_errors=True)
        if not report.is_proved:
            raise NotProved("\n".join(report.lines[-20:]))
        shutil.copytree(self.out, self.aside)
        return self

    def __exit__(self, *_: object) -> None:
        """Puts the proved state back, with which the crates above begin."""
        if os.path.isdir(self.aside):
            shutil.rmtree(self.out, ignore_errors=True)
            os.rename(self.aside, self.out)

    def try_all(self, edits: Sequence[WrongBody], alone: bool = False) -> Iterator[tuple[str, bool, str]]:
        """Tries the edits. Yields of each, as soon as it is known, its name, whether the check refuses it, and why."""
        sound = [it for it in edits if not it.fault]
        for it in edits:
            if it.fault:
                yield it.name, False, f"BAD EDIT: {it.fault}"
        refused = set()
        for batch in [] if alone else batches_of([it for it in sound if it.read_new_bodies()]):
            for name, goal in self.try_batch(batch).items():
                refused.add(name)
                yield name, True, f"refused: {goal}"
        for it in sound:
            if it.name not in refused:
                yield (it.name, *self.try_alone(it))

    def try_batch(self, edits: Sequence[WrongBody]) -> dict[str, str]:
        """Tries edits of different functions at once. Returns, by their names, those whose function is refused for itself, and a goal."""
        self.batches += 1
        texts, names, leaders, lines = self.read_sources_and_return_joint_texts(edits)
        report = self.write_and_check(texts, f"{len(edits)} wrong bodies at once")
        if report.is_proved:
            return {}
        if not report.is_refused:
            return self.try_batch_without_ill(edits, lines, report)
        # Functions that call each other are refused together.
        refused = {leaders.get(name, name): goal for name, goal in reversed(report.refusals().items())}
        counts = Counter(names.values())
        changed = Counter(leader for it in edits for leader in {leaders[names[key]] for key in it.read_new_bodies()})
        others = sorted(set(refused) - set(changed))
        if others:
            print(f"{self.crate}: refused too, though no edit changed them, so each edit is tried alone: {' '.join(others)}")
            return {}
        found = {}
        for it in edits:
            own = [leaders[names[key]] for key in it.read_new_bodies() if counts[names[key]] == 1]
            goals = [refused[leader] for leader in own if leader in refused and changed[leader] == 1]
            if goals:
                found[it.name] = goals[0]
        return found

    def try_batch_without_ill(self, edits: Sequence[WrongBody], lines: Mapping[Place, range], report: CheckReport) -> dict[str, str]:
        """Tries a batch of which the prover saw nothing again, without the edits that do not compile, or else by halves."""
        errors = [(it.path, it.line) for it in report.errors]
        ill = [it for it in edits if any(path == key[0] and line in lines[key] for path, line in errors for key in it.read_new_bodies())]
        left = [it for it in edits if it not in ill]
        if ill:
            return self.try_batch(left) if left else {}
        half = len(edits) // 2
        return {**self.try_batch(edits[:half]), **self.try_batch(edits[half:])} if half else {}

    def read_sources_and_return_joint_texts(
        self, edits: Sequence[WrongBody]
    ) -> tuple[dict[str, str], dict[Place, str], dict[str, str], dict[Place, range]]:
        """Returns the texts of the crate's files with all bodies of these edits; and of each function in them, by path and number,
        the name under which a check lists it, by that name the name of the function with whose proofs its own stand, and its lines."""
        bodies = {key: body for it in edits for key, body in it.read_new_bodies().items()}
        texts, names, leaders, lines = {}, {}, {}, {}
        sources = self.read_sources()
        homes = homes_of(sources)
        for path in sorted({path for path, _ in bodies}):
            right = sources[path]
            functions = functions_of(right)
            first, *parts = parts_outside_functions(right, functions)
            text = first
            for number, (function, leader, part) in enumerate(zip(functions, leaders_of(right, functions), parts)):
                begins = text.count("\n") + 1
                text += bodies.get((path, number), right[function.begins : function.ends])
                names[path, number] = listed_name(self.crate, path, function, homes)
                leaders[names[path, number]] = listed_name(self.crate, path, leader, homes)
                lines[path, number] = range(begins, text.count("\n") + 2)
                text += part
            texts[path] = text
        return texts, names, leaders, lines

    def read_sources(self) -> dict[str, str]:
        """Returns the texts of the crate's files of code, by their path in the crate."""
        found = [f"{folder}/{it}" for folder, _, files in os.walk(f"{self.folder}/src") for it in files if it.endswith(".rt")]
        return {os.path.relpath(it, self.folder): read_text(it) for it in found}

    def try_alone(self, edit: WrongBody) -> tuple[bool, str]:
        """Tries an edit by itself. Returns whether the crate is refused with it for more than a name that went, and why."""
        self.single += 1
        report = self.write_and_check(edit.texts, edit.name)
        if report.is_proved:
            return False, "NOT REFUSED: the crate is still proved with it"
        if not report.is_refused:
            why = report.errors[0] if report.errors else "\n".join(report.lines[-6:])
            return False, f"BAD EDIT: the check ended before any proof: {why}"
        if report.error_of_reading_or_none():
            return False, f"BAD EDIT: the check cannot read the edited text: {report.error_of_reading_or_none()}"
        for why in report.refusals().values():
            return True, f"refused: {why}"
        return False, "BAD EDIT: it is refused only because a proof names what it took away: change the meaning and keep the names"

    def write_and_check(self, texts: Mapping[str, str], what: str) -> CheckReport:
        """Checks the crate with these texts in place of its own."""
        right = {path: read_text(f"{self.folder}/{path}") for path in texts}
        shutil.rmtree(self.out, ignore_errors=True)
        shutil.copytree(self.aside, self.out)
        try:
            for path, text in texts.items():
                write_text(f"{self.folder}/{path}", text)
            return self.run_and_print_check(what)
        finally:
            for path, text in right.items():
                write_text(f"{self.folder}/{path}", text)

    def run_and_print_check(self, what: str) -> CheckReport:
        """Checks the crate as its files are now, and says how long that took."""
        began, before = time.time(), read_processor_time()
        printed = subprocess.run(
            self.command, cwd=self.folder, stdin=subprocess.DEVNULL, stdout=subprocess.PIPE, stderr=subprocess.STDOUT, errors="replace"
        ).stdout
        self.checks += 1
        took, used = time.time() - began, read_processor_time() - before
        print(f"{self.crate}: {what}: checked in {took:.0f} s ({used:.0f} s of a processor)", flush=True)
        if self.logs:
            os.makedirs(self.logs, exist_ok=True)
            write_text(f"{self.logs}/{self.crate}-{self.checks}.log", printed)
        return CheckReport(printed)


class NotProved(Exception):
    """The last output of a check about a crate that is not proved as it stands."""


