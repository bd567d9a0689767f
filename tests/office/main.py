"""tests/office/run [--all] [--dam PROGRAM] [--desk DESK] [--part NAME ..] [--pictures FOLDER]: the office with the built programs.

It is served at a loopback address: its routes by their description, strangers' requests, TLS, a full disk, the words of a desk, a desk
that ends, a desk's file that is put back, kills of the office and its desk in the middle of a load, a whole day of 9,999 commands, and the
page in a headless Chromium. What is missing is left out. With --all, 30 kills in place of 3, and 10,000 connections. The last line is
'N passed, M failed', with ', K skipped' if something was left out."""


from lib.tool import modules
from shared.arguments import add_programs, parse_with_programs_or_exit, parser_of_docstring
from shared.counts import Counts

PACKAGES = {"aiohttp": "python3-aiohttp", "cryptography": "python3-cryptography", "jinja2": "python3-jinja2"}


PARTS = {  # the function of scenes.py for each
    "routes": "check_routes",
    "strangers": "check_strangers",
    "tls": "check_tls",
    "disk": "check_full_disk",
    "full": "check_full_office",
    "words": "check_words_of_desk",
    "ends": "check_ended_desk",
    "back": "check_rolled_back",
    "kills": "check_kills",
    "day": "check_whole_day",
    "week": "check_week",
    "demo": "check_demo",
    "page": "check_page",
}


def main() -> int:
    parser = parser_of_docstring(__doc__)
    parser.add_argument("--all", action="store_true")
    add_programs(parser, "dam", "desk")
    parser.add_argument("--part", metavar="NAME", action="append", choices=PARTS)
    parser.add_argument("--pictures", metavar="FOLDER")
    args, counts = parse_with_programs_or_exit(parser), Counts()
    modules.exec_with_modules(*PACKAGES)  # Debian's, if this one lacks them
    missing = [name for module, name in PACKAGES.items() if not modules.has_module(module)]
    if missing:
        counts.count_and_print_left_out(f"the office: {', '.join(missing)} is missing")
        return counts.print_totals_and_return_status()
    from office import scenes

    for name, function in PARTS.items():
        if args.part is None or name in args.part:
            counts.begin_part(name)
            with counts.counting_exceptions("the part ended early"):
                getattr(scenes, function)(counts, args)
    return counts.print_totals_and_return_status()
