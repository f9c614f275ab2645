"""The built program with requests for memory refused."""
