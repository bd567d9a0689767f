"""The process of a tool, and those that it starts: their environment, their progress and their end, and how files are written whole.

It may import: base."""
