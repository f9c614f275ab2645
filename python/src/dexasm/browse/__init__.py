"""dexasm-browse: a folder of pages to look at a file."""
