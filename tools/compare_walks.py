"""The walk, the tree call and the search for lost comments of a built `replay`, on trees that no file holds: against the
Rust, for the search against the model."""

from itertools import islice

from streams import ask_format, ask_walk, format_due, lost_case, told, walk_due

import gen  # after streams, which finds the model's folder
from gen import encode
from tally import batches
from walk_cases import format_cases, options_of, walk_cases


def random_trees(seed):
    """Trees without end, valid all of them."""
    g = gen.Gen(seed)
    while True:
        yield encode(g.any_tree())


def compare_random(tally, oracle, count, seed):
    numbered = enumerate(islice(random_trees(seed), count))
    for batch in batches(numbered, 10000):
        asked = [(options_of(number), tree) for number, tree in batch]
        cases, dues = [], []
        for (number, _), (options, tree), given in zip(batch, asked, ask_walk(oracle, asked)):
            for case in walk_cases(options, tree, given[1], number % 4 == 0):
                cases.append(case)
                dues.append(walk_due(given, case.work))
        tally.compare(cases, dues)
    tally.close(f"walks over {count} random trees, seed {seed}")


def compare_formats(tally, oracle, trees, part):
    """The tree call on trees, under options in turn."""
    for batch in batches(enumerate(trees), 10000):
        asked = [(options_of(number), tree) for number, tree in batch]
        cases, dues = [], []
        for (number, _), (options, tree), given in zip(batch, asked, ask_format(oracle, asked)):
            for case in format_cases(options, tree, given, number % 4 == 0):
                cases.append(case)
                dues.append(format_due(given, case.work, case.room))
        tally.compare(cases, dues)
    tally.close(part)


def compare_random_formats(tally, oracle, count, seed):
    compare_formats(tally, oracle, islice(random_trees(seed), count), f"tree calls on {count} random trees, seed {seed}")


def compare_random_lost(tally, count, seed):
    g = gen.Gen(seed)
    trees = (encode(g.any_tree()) for _ in range(count))
    for batch in batches(enumerate(trees), 10000):
        given = [tree if number % 7 else g.damaged_tree(tree) for number, tree in batch]
        searches = [lost_case(tree) for tree in given]
        tally.compare(searches, [told(case) for case in searches])
    tally.close(f"searches for lost comments in {count} random trees, seed {seed}")
