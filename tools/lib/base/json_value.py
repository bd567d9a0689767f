"""Names for the types of values that are read from JSON, or written as JSON."""

from typing import Any, Dict

Json = Any
JsonObject = Dict[str, Any]
