"""The start of a tool, which runs in its script. From here on the tool finds its modules, is apart from the working folder, and ends by any
failure as lib.process.ending says. Before, its script says why it can't start."""

import os
import sys

sys.dont_write_bytecode = True
TOOL = os.path.realpath(__file__)
sys.path.insert(0, os.path.dirname(TOOL))  # an isolated Python leaves it out
try:
    from lib.process import ending
except Exception as fault:
    # without memory Python's parser may lack a field of a node
    if isinstance(fault, (MemoryError, SystemError)) or any(words in str(fault) for words in ("memory", "map segment", "' is required for ")):
        os.write(2, f"{os.path.basename(TOOL)}: out of memory\n".encode())
        os._exit(5)
    raise
ending.guard_tool(os.path.basename(TOOL))
