"""dexasm-lint: where a program breaks a rule that a device has and dexasm does not ask."""
