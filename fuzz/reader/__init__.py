"""The second reader: it works out what the program has to print from docs/FORMATS.md and
docs/SCRIPT.md alone."""
