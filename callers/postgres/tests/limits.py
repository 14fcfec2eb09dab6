"""Time limits of tests.

A test that misses a limit is run again, twice at most: a busy machine is slow once, and an error is slow each time.
"""
from __future__ import annotations


class TooSlow(AssertionError):
    """A test took longer than its limit."""


def assert_within(limit: float, seconds: float) -> None:
    """Checks that something took less than a limit, in seconds."""
    if seconds >= limit:
        raise TooSlow(f"it took {seconds:.2f} s, and the limit is {limit} s")
