"""Fills in the templates of the pages, and their style sheets with the colours."""

from pathlib import Path

import jinja2
from markupsafe import Markup

from ..pictures import colours

TEMPLATES = jinja2.Environment(loader=jinja2.FileSystemLoader(Path(__file__).parent), autoescape=True, undefined=jinja2.StrictUndefined)
COLOURS = {mode: Markup(" ".join(f"--{name}: {colour};" for name, colour in of.items())) for mode, of in colours.PAGES.items()}


def read_and_render(name: str, /, **values: object) -> Markup:
    """A file of this folder, filled in with these values."""
    return Markup(TEMPLATES.get_template(name).render({**COLOURS, **values}))
