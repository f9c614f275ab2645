"""How helpers fail: exit statuses, the exception that becomes a line on standard error, system errors in words."""
REFUSED, USAGE, FAILED, MEMORY = 1, 2, 3, 4  # exit statuses, as those of dexasm


class CliError(Exception):
    """What is told on standard error before a helper ends, and its exit status."""

    def __init__(self, line: str, status: int = FAILED) -> None:
        super().__init__(line)
        self.line, self.status = line, status


def reason(error: OSError) -> str:
    """An error of the system in its own words, without a name."""
    return error.strerror or str(error) or type(error).__name__
