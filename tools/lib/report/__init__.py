"""The page of a day.

It may import: base, day, journal, pages, pictures, process, results, tables, whatif."""
