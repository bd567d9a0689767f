"""How the pages of the repository become a site, with the definitions that they name. tools/manual and tools/package make it."""
