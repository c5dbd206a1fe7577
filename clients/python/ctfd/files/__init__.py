"""Reading the types of files through `ctfd-convert`, with a cache."""
