"""The results of a day: reading and checking them, prices and trades, selections of blocks, and the reasons for decisions.

It may import: base, journal."""
