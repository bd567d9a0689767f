"""A command line: files in, words and statuses out.

It may import: base, process, seal, tables."""
