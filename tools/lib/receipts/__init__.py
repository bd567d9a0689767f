"""The facts that receipts and heads show, alone and together.

It may import: base, journal, lint, results, seal, tool."""
