"""dexasm-corpus: what many files have, in a database."""
