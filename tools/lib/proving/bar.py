"""The bar of tools/prove at a terminal, and the lines above it."""

from __future__ import annotations

from ..process import progress

shown = progress.ShareBar("proving")


def print_and_flush(text: str) -> None:
    shown.print_above(text)
