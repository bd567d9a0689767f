"""The man page of each command, made by help2man of its help. Parts that are laid out in lines there, such as examples, stay so."""

import concurrent.futures
import re
import subprocess
import textwrap
from collections.abc import Mapping
from pathlib import Path

from lib.tool import exits
from lib.base.place import TOOLS

from . import man_of_formats, shell_completions
from .clone import TOP, Clone, environment_at

Words = tuple[str, ...]  # of a command line
# The commands, each with those of its words that have help of their own. Those of `dam` are in its help.
COMMANDS = {
    "dam": (),
    "dam-desk": (),
    **{f"dam-{tool}": () for tool in TOOLS},
    "dam-office": ("init", "serve", "status", "close", "publish", "revoke", "renew", "demo"),
    "dam-receipts": ("keys", "seal", "extend", "verify", "heads"),
    "dam-whatif": ("limit", "change", "scenarios"),
}
HEADS = re.compile(r"(examples|statuses)\b[^:\n]*:", re.IGNORECASE)
# How the help names a list of arguments or options, and help2man the section of it.
LISTS = {"positional arguments:": "*Arguments*", "options:": "Options:", "commands:": "*Commands*"}
# An option in a help that has no title for the list of its options.
OPTION = re.compile(r" +--")
# The statuses of the programs, which their helps don't have, stand in these tables of pages. The launcher of a clone isn't packaged.
FORMATS, DESK = TOP / "docs" / "FORMATS.md", TOP / "docs" / "DESK.md"
STATUSES = re.compile(r"^## Statuses and faults\n\n\| Status \| Meaning \|\n\|---\|---\|\n((?:\|.*\n)+)", re.MULTILINE)
STATUS = re.compile(r"\| (\d+) \| (.*) \|")
DESK_STATUSES = re.compile(r"^## Statuses\n\n(?:.+\n)+\n\| Status \| Why \| Do \|\n\|---\|---\|---\|\n((?:\|.*\n)+)", re.MULTILINE)
DESK_STATUS = re.compile(r"\| (\d+|other) \| (.*) \| (.*) \|")
OF_THE_LAUNCHER, OF_A_LIMIT = "70", "3"
MORE = (
    "With any other status, the shell or a signal ended the run. In the manual, docs/FORMATS.md has the line that each fault prints on"
    " standard error, and docs/OPERATING.md says how to go on after each status."
)
MORE_OF_DESK = "In the manual, docs/DESK.md has the lines that it prints on standard output, and says how to go on after a crash."
WITH_EXAMPLES = (
    "Run these where a copy of the examples is: first copy the folder examples of share/doc/dam/, below /usr or the folder of the archive."
)
# The program doesn't know its version.
VERSION = ".PP\nThis is version {}.\n.B dam\\-audit \\-\\-version\nprints it; {} itself has no such option."


def capture_help(bin_folder: Path, words: Words) -> str:
    """The help of a command, which is given with its words."""
    ran = subprocess.run([bin_folder / words[0], *words[1:], "--help"], capture_output=True, env=environment_at())
    if ran.returncode:
        raise exits.Stop(f"{' '.join(words)} --help failed: {ran.stderr.decode(errors='replace')}", exits.FAILED)
    return ran.stdout.decode()


def usage_text(paragraph: str) -> str:
    """The usage in the form that help2man knows: an alternative in each line."""
    words = re.sub(r"^usage: +", "", paragraph, flags=re.IGNORECASE)
    program = words.split()[0]
    alternatives = re.split(rf"\n +(?={re.escape(program)} )", words)
    return "Usage: " + "\n  or:  ".join(" ".join(one.split()) for one in alternatives)


def roff_of_paragraph(paragraph: str) -> str:
    """A paragraph of a page: one in which lines are indented stays in lines."""
    lines = [roff_of_line(line) for line in paragraph.split("\n")]
    if all(line.startswith("  ") for line in lines):
        return "\n".join([".PP", ".nf", *lines, ".fi"])
    return "\n".join([".PP", *(line.strip() for line in lines)])


def roff_of_statuses(paragraph: str) -> str:
    """The statuses, each with its meaning. A line that begins with an option is a paragraph of its own."""
    found = []
    for part in re.split(r"\n +(?=with --)", HEADS.sub("", paragraph)):
        for one in re.split(r"; (?=\d+ )", " ".join(part.split())):
            number, _, words = one.partition(" ")
            found.append(f".TP\n.B {number}\n{roff_of_line(words)}" if number.isdigit() else roff_of_paragraph(one))
    return "\n".join(found)


def read_roff_of_program_statuses(words: Words, text: str) -> str:
    """The statuses of the program, or of one of its commands, as the manual has them. A command whose help has no limit on nodes can't
    reach one."""
    without = {OF_THE_LAUNCHER, *([OF_A_LIMIT] if len(words) > 1 and "--nodes" not in text else [])}
    rows = STATUS.findall(STATUSES.findall(FORMATS.read_text(encoding="utf-8"))[0])
    kept = [f".TP\n.B {number}\n{roff_of_line(about.replace('`', ''))}" for number, about in rows if number not in without]
    return "\n".join([*kept, roff_of_paragraph(MORE)])


def read_roff_of_desk_statuses() -> str:
    """The statuses of dam-desk, as the manual has them: why, and how to go on."""
    rows = DESK_STATUS.findall(DESK_STATUSES.findall(DESK.read_text(encoding="utf-8"))[0])
    kept = [f".TP\n.B {status}\n{roff_of_line(why)}\n.br\nDo: {roff_of_line(how)}" for status, why, how in rows]
    return "\n".join([*kept, roff_of_paragraph(MORE_OF_DESK)])


def roff_of_line(line: str) -> str:
    line = line.replace("\\", "\\e").replace("-", "\\-")
    return f"\\&{line}" if line[:1] in (".", "'") else line


def parts_of_help(text: str) -> tuple[str, str, list[str], dict[str, list[str]]]:
    """A help as its usage, its name in a few words, the lists of options, and other paragraphs by the section of the page."""
    first, second, *rest = text.strip("\n").split("\n\n")
    paragraphs = [first, second, *rest] if first.lower().startswith("usage:") else [second, first, *rest]
    lists = list[str]()
    sections: dict[str, list[str]] = {"DESCRIPTION": []}
    for one in paragraphs[1:]:
        head = HEADS.match(one)
        title, _, rows = one.partition("\n")
        if title.lower() in LISTS:
            lists.append(list_with_title(LISTS[title.lower()], rows))
        elif OPTION.match(title):
            lists.append(list_with_title(LISTS["options:"], one))
        elif head and head[1].lower() == "examples":
            sections.setdefault("EXAMPLES", [roff_of_paragraph(WITH_EXAMPLES)]).append(roff_of_paragraph(one[len(head[0]) :].strip("\n")))
        elif head:
            sections.setdefault("EXIT STATUS", []).append(roff_of_statuses(one))
        else:
            sections["DESCRIPTION"].append(roff_of_paragraph(one))
    return usage_text(paragraphs[0]), name_line_of(paragraphs[1]), lists, sections


def list_with_title(title: str, rows: str) -> str:
    """A list of arguments or options. One of commands stands below a row `COMMAND`."""
    head, _, below = rows.partition("\n")
    if head.strip() == "COMMAND":
        title, rows = LISTS["commands:"], re.sub(r"(?m)^(  \S+)\n {10,}", r"\1  ", textwrap.indent(textwrap.dedent(below), "  "))
    return f"{title}\n\n{rows}"


def name_line_of(paragraph: str) -> str:
    """The first sentence, as the line of a page's name."""
    words = re.split(r"(?<=\w[.;]) |\.\Z", " ".join(paragraph.split()))[0].rstrip(".;")
    return words[:1].lower() + words[1:]


def write_help_and_capture_man_page(words: Words, helps: Mapping[Words, str], clone: Clone, room: Path) -> bytes:
    """The page of a command, which is given with its words."""
    name, text = "-".join(words), helps[words]
    told, about, lists, sections = parts_of_help(text)
    (room / f"{name}.help").write_text("\n\n".join([told, *lists]) + "\n", encoding="utf-8")
    # help2man runs a command to see its help
    shown, more = room / name, room / f"{name}.more"
    shown.write_text(f"#!/bin/sh\nexec cat {name}.help\n", encoding="utf-8")
    shown.chmod(0o755)
    if words[0] == "dam":
        sections["EXIT STATUS"] = [read_roff_of_program_statuses(words, text)]
    if name == "dam-desk":
        sections["EXIT STATUS"] = [read_roff_of_desk_statuses()]
    if name in ("dam", "dam-desk"):
        sections["VERSION"] = [VERSION.format(clone.version, roff_of_line(name))]
    # in a section that help2man writes too, this comes first
    blocks = [f"[{title}]\n" + "\n".join(parts) for title, parts in sections.items() if parts]
    more.write_text("\n\n".join([*blocks, "[SEE ALSO]\n" + see_also_text(words, helps)]) + "\n", encoding="utf-8")
    line = ["help2man", "--no-info", "--section=1", f"--version-string={clone.version}", f"--name={about}", f"--include={more.name}"]
    ran = subprocess.run([*line, f"./{name}"], cwd=room, capture_output=True, env=environment_at(clone.seconds))
    if ran.returncode:
        raise exits.Stop(f"help2man failed: {ran.stderr.decode(errors='replace')}", exits.FAILED)
    return ran.stdout


def see_also_text(words: Words, helps: Mapping[Words, str]) -> str:
    """The other pages, and where the whole manual is."""
    others = sorted("-".join(other) for other in helps if other != words and (len(other) == 1 or other[0] == words[0]))
    listed = ",\n".join(f".BR {other} (1)" for other in others).replace(" (1),", " (1),")
    return f"{listed}\n.PP\n{man_of_formats.MANUAL}"


def capture_helps(bin_folder: Path) -> dict[Words, str]:
    """The help of each command by its words."""
    of_dam = tuple(shell_completions.commands_of_help(capture_help(bin_folder, ("dam",))))
    every = [(name, *rest) for name, words in {**COMMANDS, "dam": of_dam}.items() for rest in [(), *((word,) for word in words)]]
    with concurrent.futures.ThreadPoolExecutor() as pool:
        return dict(zip(every, pool.map(lambda words: capture_help(bin_folder, words), every)))


def write_helps_and_capture_man_pages(found: Mapping[Words, str], clone: Clone, room: Path) -> dict[str, bytes]:
    """Each page with its name, from the helps."""
    with concurrent.futures.ThreadPoolExecutor() as pool:
        made = pool.map(lambda words: write_help_and_capture_man_page(words, found, clone, room), found)
        return {"-".join(words): data for words, data in zip(found, made)}
