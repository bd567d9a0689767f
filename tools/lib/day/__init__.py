"""A journal with its results, as users hand them in.

It may import: base, journal, lint, results, tables, tool."""
