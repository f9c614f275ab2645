"""The packages of the program and the library: what stands in them, and how they are tried."""
