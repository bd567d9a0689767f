"""The parts of the bench, in the order in which they run."""

from parts import commands, deep, desk, looks, office, thin, workers

MODULES = (commands, deep, thin, workers, looks, desk, office)
PARTS = {module.PART.name: module.PART for module in MODULES}
