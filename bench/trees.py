"""The trees that the tree call is measured on."""

import streams  # finds the model's folder
import gen
import model as m
from cases import DEFAULTS, NO_INDENT, Case
from gen import encode, two
from sources import block_lines, comment_lines, data_line, filled, label_lines, lesson_in_blocks, lesson_lines

SIZES = (1_024, 8_192, 65_535)
SHORT_LINE = 8  # values on a line of data
LEVELS = 19  # blocks in each other, whose innermost records stand at depth 63
HALF, WHOLE = 9, 18  # blocks in each other where depths are compared
PARENTHESES = 28  # in each other, whose innermost records stand at depth 63
FULL_ROOM = 1_048_576
NEWLINE = [(1, b"")]

# What stands in a tree made of source, by the number of a piece.
SHAPES = {
    "flat": lesson_lines,
    "deep": lambda number: block_lines(LEVELS),
    "comments": comment_lines,
    "tables": lambda number: data_line(SHORT_LINE),
    "labels": label_lines,
}


def in_parentheses(inner, tagged):
    """An expression in parentheses, with both tags before them or with none."""
    parentheses = gen.rec(31, lparen=gen.leaf(b"("), inner=inner, rparen=gen.leaf(b")"))
    tags = {"tag_not": gen.leaf(b"!"), "tag_neg": gen.leaf(b"-")} if tagged else {}
    return gen.rec(29, factor=parentheses, **tags)


def data_of(levels, tagged):
    """A line of data with one number in so many parentheses."""
    expression = gen.num()
    for _ in range(levels):
        expression = in_parentheses(expression, tagged)
    values = gen.lst(gen.arg(expression), type_=m.EXPR_ARGS)
    return gen.rec(5, values=values, size=gen.leaf(b"\0", NEWLINE, m.DATA_SIZE))


def repeated(token, size):
    """A tree of exactly so many bytes: one token again and again, then instructions, then an error whose text takes
    the rest."""
    tokens, count = b"", 0
    for stored in (encode(token), encode(gen.mn(trivia=NEWLINE))):
        times = (size - 4 - 7 - len(tokens)) // len(stored)
        tokens, count = tokens + stored * times, count + times
    rest = size - 4 - 6 - len(tokens)
    return b"\x18\0" + two(count + 1) + tokens + encode(gen.error(b"e" * rest))


def trees(oracle, folder):
    """Every shape in every size."""
    made = [
        (name, filled(oracle, folder, piece, size), None) for name, piece in SHAPES.items() for size in SIZES
    ]
    made += [("tagged factors", repeated(data_of(PARENTHESES, True), size), None) for size in SIZES]
    made += [(f"{name}, full room", stored, FULL_ROOM) for name, stored, _ in made[: len(SIZES)]]
    return [Case("tree", name, DEFAULTS, stored, room) for name, stored, room in made]


def depths(oracle, folder):
    """Pairs of trees of the same size, the second of which is twice as deep."""
    size = SIZES[-1]

    def lesson(levels):
        return filled(oracle, folder, lambda number: lesson_in_blocks(levels, number * (levels + 1)), size)

    def pair(name, options, make, levels):
        return [Case("tree", f"{name}, {count} deep", options, make(count)) for count in levels]

    def parentheses(tagged):
        return lambda levels: repeated(data_of(levels, tagged), size)

    half, whole = PARENTHESES // 2, PARENTHESES
    return [
        pair("lesson in blocks, indent 0", NO_INDENT, lesson, (HALF, WHOLE)),
        pair("lesson in blocks, indent 4", DEFAULTS, lesson, (HALF, WHOLE)),
        pair("parentheses", DEFAULTS, parentheses(False), (half, whole)),
        pair("tagged factors", DEFAULTS, parentheses(True), (half, whole)),
    ]
