"""Pairs of lessons of one size, the second of which has lengths or counts above 127. These are stored with a byte above
127, and where a tree has one, `format` walks it and then checks it as well (docs/DECISIONS.md, 67)."""

from cases import DEFAULTS, Case
from lists import chunks_in, near_limit
from sources import block_of, comment_of, data_line, filled, lesson_lines
from trees import SIZES

CYCLE = 16  # pieces, the first of which are the table and the block

# What is below 128, and as many bytes with what is above.
COMMENTS = (100, 100), (140, 60)
TABLES = 2 * data_line(100), data_line(200)
BLOCKS = 2 * block_of(65), block_of(130)
TIGHT_BLOCKS = 2 * block_of(65, ""), block_of(130, "")


def comments_of(lengths):
    return "".join(map(comment_of, lengths))


def below_comments(lengths):
    """The lines of the lesson, each time below comments of these lengths."""
    return lambda number: comments_of(lengths) + lesson_lines(number)


def below_one(lengths):
    """The lines of the lesson below comments of these lengths, which stand there once."""
    return lambda number: ("" if number else comments_of(lengths)) + lesson_lines(number)


def behind(pieces, others=lesson_lines):
    """Every cycle begins with these pieces, and others stand behind them."""
    return lambda number: pieces[number % CYCLE] if number % CYCLE < len(pieces) else others(number)


# By the names of a pair its pieces.
COMMENTED = {
    ("one comment of 100", "one comment of 140"): [below_one(lengths) for lengths in COMMENTS],
    ("comments of 100", "comments of 140"): [below_comments(lengths) for lengths in COMMENTS],
}
LESSONS = COMMENTED | {
    ("tables of 100", "tables of 200"): [behind([table]) for table in TABLES],
    ("blocks of 65", "blocks of 130"): [behind([block]) for block in BLOCKS],
    ("all three, short", "all three, long"): [
        behind([table, block], below_comments(lengths)) for lengths, table, block in zip(COMMENTS, TABLES, BLOCKS)
    ],
}

# Of the smallest size a block of 130 tokens fits where nothing stands between them. A table of 200 values does not.
SMALL_LESSONS = COMMENTED | {("blocks of 65", "blocks of 130"): [behind([block]) for block in TIGHT_BLOCKS]}


def fitting(size):
    return SMALL_LESSONS if size == min(SIZES) else LESSONS


def is_long(tree):
    """Whether a byte above 127 stands behind the count of the file's list."""
    return max(tree[4:]) > 127


def tree_pair(oracle, folder, names, pieces, size):
    made = [filled(oracle, folder, piece, size) for piece in pieces]
    if [is_long(tree) for tree in made] != [False, True]:
        raise SystemExit(f"{names}, {size} bytes: the second alone has to have a byte above 127")
    return [Case("tree", name, DEFAULTS, tree) for name, tree in zip(names, made)]


def trees(oracle, folder):
    """Every lesson in every size that it fits."""
    return [
        tree_pair(oracle, folder, names, fitting(size)[names], size)
        for names in LESSONS
        for size in SIZES
        if names in fitting(size)
    ]


def lists(oracle, folder, tree_pairs):
    """The chunk lists of the trees, and those of the longest trees repeated to near the limit."""

    def pair_of(pair, made):
        return [Case("list", case.name, DEFAULTS, made(chunks_in(oracle, folder, case.stored))) for case in pair]

    pairs = []
    for pair in tree_pairs:
        pairs.append(pair_of(pair, bytes))
        if len(pair[0].stored) == max(SIZES):
            pairs.append(pair_of(pair, near_limit))
    return pairs
