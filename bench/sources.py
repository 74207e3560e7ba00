"""Source text of which lists and trees are made, and the tree that the Rust parser makes of it."""

import subprocess
from math import inf


def tree_of(oracle, folder, source):
    """The tree that the Rust parser makes of a source text without any message, stored."""
    (folder / "source").write_text(source)
    done = subprocess.run([oracle, "parse", folder / "source"], capture_output=True, check=True)
    if done.stderr:
        raise SystemExit(done.stderr.decode())
    return done.stdout


# ------------------------------------------------------------ lines, each by a number that makes its names its own


def lesson_lines(number):
    return (
        f"label{number}: lda #${number % 256:02x} // load the hue\n    sta $d020,x // border colour\n"
        f"    inx\n    bne label{number}\n"
    )


def comment_lines(number):
    return (
        "// what follows draws one row of the picture\n// and waits for the raster line below it\n"
        "/* first the colours,\n   then the shapes */\n"
        f"    lda row{number} // the row\n    sta /* to */ $0400 // the screen\n\n"
    )


def label_lines(number):
    return (
        f"first{number}:\nsecond{number}:\n    nop\na_label_longer_than_its_margin{number}: rts\n"
        f"loop{number}: dex\n    bne loop{number}\n"
    )


def data_line(values):
    return "    .byte " + ", ".join(f"${value:02x}" for value in range(values)) + "\n"


def block_lines(levels):
    """Blocks in blocks, an instruction in each."""
    return "{\n    inx\n" * levels + "}\n" * levels


def comment_of(length):
    return "// ".ljust(length, ".") + "\n"


def block_of(tokens, between="\n"):
    """A block with so many instructions, each on its line or with nothing between them."""
    return "{" + between + ("inx" + between) * tokens + "}\n"


def lesson_in_blocks(levels, first):
    """Lines of the lesson, each time with a block behind them in which the next lines stand."""
    opened = "".join(lesson_lines(number) + "{\n" for number in range(first, first + levels))
    return opened + lesson_lines(first + levels) + "}\n" * levels


# ------------------------------------------------------------ a tree of a given size


def most(length, size):
    """The greatest count whose length is not above a size."""
    low, high = 0, 1
    while length(high) <= size:
        low, high = high, 2 * high
    while high - low > 1:
        middle = (low + high) // 2
        low, high = (middle, high) if length(middle) <= size else (low, middle)
    return low


def filled(oracle, folder, piece, size):
    """A tree of exactly so many bytes: pieces of source by their numbers as long as they fit, then lines with an
    instruction, then a comment that takes the rest."""

    def stored(pieces, lines, comment):
        ending = "    inx\n" * lines + f"// {'.' * comment}\n"
        return tree_of(oracle, folder, "".join(map(piece, range(pieces))) + ending)

    def length(pieces, lines):
        try:
            return len(stored(pieces, lines, 0))
        except subprocess.CalledProcessError:
            return inf  # longer than a tree may be

    pieces = most(lambda count: length(count, 0), size)
    lines = most(lambda count: length(pieces, count), size)
    return stored(pieces, lines, size - length(pieces, lines))
