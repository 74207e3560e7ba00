"""The tree's check of a built `replay` against both readers, on trees that no file holds."""

from itertools import islice, product

from streams import ask_reader, check_case, check_due

import gen  # after streams, which finds the model's folder
from gen import encode
from model import MAX_DEPTH
from tally import batches
from tree_cases import refusal_of
from tree_shapes import EXPRESSION_FORMS, TOKEN_FORMS, TYPE_PLACES, around, deep_token, height


def compare_trees(tally, oracle, trees, part):
    for batch in batches(trees, 20000):
        dues = []
        for tree, read in zip(batch, ask_reader(oracle, batch)):
            refusal = refusal_of(tree)
            told = refusal and (refusal.number, refusal.place)
            if told != read:
                raise SystemExit(f"the model and the oracle differ: {tree.hex()} model {told} oracle {read}")
            dues.append(check_due(told))
        tally.compare([check_case(tree) for tree in batch], dues)
    tally.close(part)


# ------------------------------------------------------------ random trees


def deepened(g, tree):
    """A tree made about as deep as one may be: by a token of a tree that is nested, or one more token."""
    levels = g.r.randrange(MAX_DEPTH - 2, MAX_DEPTH + 4)
    if not tree.items or g.chance(0.5):
        token = deep_token(g.r.choice(TOKEN_FORMS + EXPRESSION_FORMS), levels - 1)
        tree.items.insert(g.r.randrange(len(tree.items) + 1), token)
        return tree
    at = g.r.randrange(len(tree.items))
    while height(tree.items[at]) < levels - 1:
        tree.items[at] = g.r.choice(TOKEN_FORMS)(tree.items[at])
    return tree


def random_trees(seed):
    """Trees without end, each with two damaged copies. One in ten has bytes above 127, three in ten are deep."""
    g = gen.Gen(seed)
    while True:
        tree = g.any_tree(high=g.chance(0.1))
        if g.chance(0.3):
            tree = deepened(g, tree)
        stored = encode(tree)
        yield stored
        yield g.damaged_tree(stored)
        yield g.damaged_tree(stored)


def compare_random(tally, oracle, count, seed):
    compare_trees(tally, oracle, islice(random_trees(seed), count), f"random trees, seed {seed}")


# ------------------------------------------------------------ all small trees

# Kinds 7, 8 and 25, maps, counts, lengths and codes, right and wrong ones, and a byte that no text may hold. Seven
# bytes hold an Eof with a newline, or an Error with a text of one byte.
EIGHT = (0, 1, 2, 4, 7, 8, 25, 128)
# Every map of a leaf, counts, all codes and one that is none, lengths, texts.
SIX = (0, 1, 2, 3, 4, 128)
# Trivia of one newline, or a text of one byte, and then the other: every map of a leaf has what it asks for.
TAIL = bytes([1, 0, 1, 1, 0, 1])


def strings(before, chosen_bytes, most):
    """All strings of up to so many of these bytes, behind the same bytes each."""
    for length in range(most + 1):
        for chosen in product(chosen_bytes, repeat=length):
            yield before + bytes(chosen)


def kinds_and_maps():
    """At a place of each type: every kind byte with every map byte."""
    for place in TYPE_PLACES:
        before, _ = around(place)
        for kind, bits in product(range(256), repeat=2):
            yield before + bytes([kind, bits]) + TAIL


def compare_small(tally, oracle):
    compare_trees(tally, oracle, strings(b"\x18\0\1\0", EIGHT, 7), "tokens of up to seven bytes")
    compare_trees(tally, oracle, strings(b"\x18\0\1\0\x08\2\x19", SIX, 8), "leaves of up to nine bytes")
    compare_trees(tally, oracle, kinds_and_maps(), "kinds and maps")
