"""Tables, as CSV or workbooks: reading orders and commands, and writing the tables that the tools show.

It may import: base, journal, process, results, workbooks."""
