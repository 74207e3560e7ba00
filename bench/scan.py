"""The lines that the scan for ink is measured on."""

from collections import namedtuple

LENGTHS = (64, 1_024, 16_384, 262_144, 1_048_576)

# Of each kind of line: its first byte, and all others.
KINDS = {
    "ink, then blanks": (b"x", b" "),
    "ink alone": (b"x", b"x"),
    "blanks alone": (b" ", b" "),
}

Line = namedtuple("Line", "name stored")


def lines():
    """For each kind its lines, the shortest first."""
    return [[Line(name, first + behind * (length - 1)) for length in LENGTHS] for name, (first, behind) in KINDS.items()]
