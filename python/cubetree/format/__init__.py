"""The files of a warehouse, read by their format (docs/FORMATS.md). `fuzz/reader` reads them too,
and shares no code with this on purpose."""
