"""The modules that tests of several folders need. A script that imports them has tests/ and tools/ in its `sys.path`."""
