"""Pictures of a day.

It may import: base, results."""
