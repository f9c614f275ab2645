"""The files that tools/generate writes."""
