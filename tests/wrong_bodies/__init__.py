"""The trial of wrong bodies, and the output of a check."""
