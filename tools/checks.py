"""What the tests of the tools share: how a failure is reported."""

from program import HERE

__all__ = ["HERE", "Failed", "same"]


class Failed(Exception):
    """What is not as it should be."""


def same(what, found, wanted):
    if found != wanted:
        raise Failed(f"{what}: {str(found)[:400]}, and not {str(wanted)[:400]}")
