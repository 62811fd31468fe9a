"""A plain program for the language, straight from its definitions, which shares nothing with the crates."""
