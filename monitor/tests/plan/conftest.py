"""What the tests of the planner have in common."""

from planner import library, shared

PROGRAMS = ("libvb.so",)
__all__ = ("library", "shared")
