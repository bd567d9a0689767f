"""library/build in a small repository, with a fake kit that proves nothing: its records if a source is edited while it runs."""

import os
import shutil
import subprocess
from collections.abc import Iterable, Sequence

from shared.counts import Counts
from shared.place import TOP

TAKEN = ("build", "dam.h", "exports.map", "heap.c")
MODULES = ("__init__", "crates", "sources")  # of tools/lib/crates
CALLS = "void {}(void) {{}}\n"
# The stand-in that EDITS names adds a line to the source EDITED when it proves or compiles.
STAND_IN = """#!/bin/sh
set -eu
edit() {
    [ "${0##*/}" != "${EDITS-}" ] || echo '/* edited meanwhile */' >> "$EDITED"
}
"""
RT = """case $1 in
    version) echo 'no kit logic none' ;;
    doc) echo "$KIT/doc" ;;
    lib)
        edit
        mkdir -p out
        cp "$KIT/calls.a" out/libdam_c.a
        ;;
esac
"""
RATTLE = """edit
while [ "$1" != -o ]; do
    shift
done
cp "$KIT/calls.a" "$2"
"""
COMPILER = """[ "$1" = --version ] || edit
exec "$COMPILER" "$@"
"""
SOURCES = ("crates/low/src/lib.rt", "crates/dam_c/src/lib.rt", "library/dam.h", "library/heap.c")
CHANGED = "build: the sources changed meanwhile, so they are not recorded\n"


class SmallLibrary:
    """A copy of library/ over two crates of a few words, and the stand-ins."""

    def __init__(self, folder: str) -> None:
        self.top, self.kit = f"{folder}/small", f"{folder}/kit"
        self.environment = {**os.environ, "PATH": f"{self.kit}/bin:{os.environ['PATH']}", "KIT": self.kit, "CC": "cc",
                            "COMPILER": shutil.which("cc") or "cc"}
        self.built = [f"{self.top}/library/out/{name}" for name in ("libdam.a", "libdam.so.1")]

    def write_files(self) -> None:
        """Writes the copy, the crates and the stand-ins."""
        for it in ("crates/low/src", "crates/dam_c/src", "library", "tools/lib/crates", "proved/low.rlib"):
            os.makedirs(f"{self.top}/{it}")
        for it in ("bin", "rlibs"):
            os.makedirs(f"{self.kit}/{it}")
        for it in (*(f"library/{name}" for name in TAKEN), *(f"tools/lib/crates/{name}.py" for name in MODULES)):
            shutil.copy(f"{TOP}/{it}", f"{self.top}/{it}")
        self.write("crates.txt", "low:\ndam_c staticlib: low\n")
        for name in ("low", "dam_c"):
            self.write(f"crates/{name}/src/lib.rt", f"// {name}\n")
        for name, text in (("rt", RT), ("rattle", RATTLE), ("cc", COMPILER)):
            path = f"{self.kit}/bin/{name}"
            with open(path, "w", encoding="utf-8") as file:
                file.write(STAND_IN + text)
            os.chmod(path, 0o755)

    def write(self, path: str, text: str) -> None:
        with open(f"{self.top}/{path}", "w", encoding="utf-8") as file:
            file.write(text)

    def compile_archive_of_calls(self, names: Iterable[str]) -> None:
        """Makes the archive that the stand-ins take for the proved library."""
        with open(f"{self.kit}/calls.c", "w", encoding="utf-8") as file:
            file.writelines(CALLS.format(name) for name in names)
        for words in (["cc", "-fPIC", "-c", "calls.c"], ["ar", "rc", "calls.a", "calls.o"]):
            subprocess.run(words, cwd=self.kit, check=True)

    def capture_and_write_sums(self) -> None:
        """Writes the sums of the present sources for --over, as the check does before the proofs."""
        self.write("proved/sums", self.run("python3", "-B", "tools/lib/crates/sources.py", "dam_c")[1])

    def run(self, *words: str, **variables: str) -> tuple[int, str]:
        """Runs a command. Returns its status and output."""
        ran = subprocess.run(words, cwd=self.top, env={**self.environment, **variables}, stdout=subprocess.PIPE, stderr=subprocess.STDOUT,
                             timeout=120, errors="replace")
        return ran.returncode, ran.stdout

    def run_build(self, *words: str, **variables: str) -> tuple[int, str]:
        return self.run("library/build", *words, **variables)

    def has_no_record(self) -> bool:
        return not any(os.path.exists(f"{path}.json") for path in self.built)

    def run_and_see_if_present(self) -> bool:
        """Whether both files are recorded as built of the present sources."""
        asked = [self.run("python3", "-B", "tools/lib/crates/sources.py", "dam_c", "--fault", path) for path in self.built]
        return asked == [(0, "")] * len(self.built)


def check_edit(counts: Counts, at: SmallLibrary, words: Sequence[str], edits: str, edited: str) -> None:
    """Builds, and builds again with an edit of a source: before the build, or while a stand-in runs."""
    at.capture_and_write_sums()
    about = f"{' '.join(['library/build', *words])}, with an edit of {edited} {f'while {edits} runs' if edits else 'before it'}"
    counts.check(f"{about}: the build before", at.run_build(*words) == (0, "") and at.run_and_see_if_present())
    if not edits:
        at.write(edited, "/* edited before */\n")
    status, said = at.run_build(*words, EDITS=edits, EDITED=f"{at.top}/{edited}")
    counts.check(f"{about}: {status}, {said!r}", (status, said) == (0, CHANGED) and at.has_no_record())


def check_records(counts: Counts, folder: str, exports: Iterable[str]) -> None:
    """Files are recorded as built of the sources from before the proof. If one of these is edited meanwhile, no record is left, also of an
    earlier build."""
    if not shutil.which("ar"):
        counts.count_and_print_left_out("the records of library/build: ar is missing")
        return
    at = SmallLibrary(folder)
    at.write_files()
    at.compile_archive_of_calls(exports)
    over = ["--over", "proved"]
    for edited in SOURCES:
        check_edit(counts, at, [], "rt", edited)
        check_edit(counts, at, over, "rattle", edited)
    for words in (list[str](), over):
        check_edit(counts, at, words, "cc", "library/heap.c")
    check_edit(counts, at, over, "", "crates/low/src/lib.rt")
