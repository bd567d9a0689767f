"""Results of other journals: limits that blocks needed, changes, and scenarios.

It may import: base, day, journal, lint, pictures, process, results, runs, tables, tool."""
