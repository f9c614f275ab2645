"""Tests of the helpers, each in a module of its own, and of the recipes of the pages."""
