"""The crates and their sources, for the tools that build, prove and list them. `specs` alone needs `tool`.

It may import: tool."""
