"""Tests of the package dexasm: of the module here, of the helpers in tools."""
import tests  # noqa: F401 (which says where Python finds what is tried)
