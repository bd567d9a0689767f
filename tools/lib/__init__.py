"""The common modules of the tools around `dam`, in packages by subject. Each package says in its docstring which others it may import. But
for `runs` and `office`, nothing here calls the program, and nothing trusts it: the modules state the rules of docs/RULES.md and
docs/FORMATS.md again, plainly."""
