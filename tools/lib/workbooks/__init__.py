"""Excel workbooks, read strictly and in bounded memory.

No row, column or cell is lost: a sheet that could be read in two ways is a fault, and so is an element or text that isn't in its place
by the schema of workbooks (ECMA-376). openpyxl, which writes the tools' workbooks, believes the size that a sheet states, drops cells out
of order, and keeps all strings and empty rows. So workbooks are read by zipfile and expat.

It may import: base."""
