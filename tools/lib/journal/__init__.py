"""The journal: its commands, its fields, and the book that the commands make.

It may import: base."""
