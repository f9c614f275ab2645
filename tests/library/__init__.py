"""libdexasm and its bindings, beside the command."""
