"""The tree of a journal, its heads and receipts, and their signatures.

It may import: base, journal."""
