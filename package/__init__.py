"""How tools/package makes a Debian package, and an archive that runs in place, of the proved and built files."""
