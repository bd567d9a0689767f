"""A part of the bench, as its module registers it."""

from collections.abc import Callable, Sequence
from typing import NamedTuple

from figures import Figures, Targets
from running import Programs


class Part(NamedTuple):
    """The first paragraph of the docstring is the part's subject. It needs these programs and Debian packages."""

    name: str
    docstring: str | None
    duration: str
    programs: Sequence[str]
    targets: Targets
    measure: Callable[[Figures, Programs], None]
    packages: Sequence[str] = ()

    @property
    def subject(self) -> str:
        return (self.docstring or "").partition("\n\n")[0]
