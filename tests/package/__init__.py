"""Packages of the program and the library, each unpacked elsewhere."""
