"""The pages in HTML as templates, with their style sheets and scripts: of a day, and of the office.

It may import: pictures."""
