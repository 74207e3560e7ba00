"""What is measured."""

from collections import namedtuple

DEFAULTS = b"\0"
NO_INDENT = b"\x08\0"

# `kind` is "list" or "tree". `room` is the length of the work room, or None for the least that the walk needs.
Case = namedtuple("Case", "kind name options stored room", defaults=[None])
