"""Manual pages and completions of the programs, from what they say with --help."""
