"""The verdict on published results, and the search for a better selection without the program.

It may import: base, day, journal, lint, process, receipts, results, runs, seal, tables, tool."""
