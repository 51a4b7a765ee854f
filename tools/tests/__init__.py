"""Tests of the tools, run by tools/check."""

PATIENCE = 3600
"""How many seconds a test waits for what must come. The limit of a test is shorter, and stops it with the place at which it waits."""


class Skipped(Exception):
    """A test that cannot run here, with the reason. A package that is missing is named as Debian names it, as dev/setup does too."""


def raised(kind, call):
    """The exception of a kind that a call raises."""
    try:
        call()
    except kind as why:
        return why
    raise AssertionError(f"{kind.__name__} did not come")
