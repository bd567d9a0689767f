"""The basis of every tool: the numbers of the rules, texts and their parts, places and clock times.

It may import: nothing of tools/lib."""
