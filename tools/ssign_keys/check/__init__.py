"""Checks all signed files of originators: each by itself, how they hang together, and whether what was seen is still there."""
from .command import add_arguments, run

__all__ = ["add_arguments", "run"]
