"""A second reading of docs/FORMAT.md and docs/LISTING.md, written apart from the definitions, beside the program."""
