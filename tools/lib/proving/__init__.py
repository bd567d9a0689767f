"""The work of tools/prove: which crates are proved next, and the proof of each in its copy. Python 3.8 is enough.

It may import: crates, process."""
