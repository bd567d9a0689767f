"""The files that the office serves without a day: the parts of its page, and its requests as OpenAPI."""

import json
from pathlib import Path

from markupsafe import Markup

from ..base import rules
from ..journal import book
from ..pages.rendering import read_and_render

PARTS = {"/": ("office.html", "text/html"), "/office.css": ("office.css", "text/css"), "/office.js": ("office.js", "text/javascript")}
# The numbers that the page checks an order by before it sends it, or shows.
RULES = "LOWEST_PRICE", "HIGHEST_PRICE", "GREATEST_VOLUME", "LONGEST_NAME", "MOST_HOURLY", "MOST_BLOCKS"
OPENAPI = Path(__file__).with_name("openapi.json")


def read_openapi_text(is_demo: bool) -> str:
    """The requests of an office or of a demo, as OpenAPI. The file has both; it marks those that only a demo answers. It names the limits
    on prices, whose numbers are those of the rules."""
    words = OPENAPI.read_text(encoding="utf-8")
    for name in ("LOWEST_PRICE", "HIGHEST_PRICE"):
        words = words.replace(f'"{name}"', str(getattr(rules, name)))
    api = json.loads(words)
    api["paths"] = {path: methods for path, methods in api["paths"].items() if is_demo or not methods.get("x-demo")}
    return json.dumps(api, indent=1) + "\n"


def read_page_part_text(name: str) -> str:
    """A part of the page, in which the page's rules and the words of the book's reasons stand."""
    reasons = {word: reason.words for word, reason in book.REASONS.items()}
    known = {"reasons": reasons, "rules": {name.lower(): getattr(rules, name) for name in RULES}}
    made: dict[str, object] = {name: Markup(json.dumps(value)) for name, value in known.items()}
    made["most_blocks"] = rules.MOST_BLOCKS
    made["most_of_group"] = "one" if rules.MOST_OF_GROUP == 1 else rules.MOST_OF_GROUP
    return read_and_render(name, **made)
