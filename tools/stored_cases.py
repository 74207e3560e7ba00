"""Makes the stored input and the expected output of the program `replay`.

    python3 stored_cases.py ORACLE FOLDER [--seed S] [--random N]

writes FOLDER/stdin and FOLDER/stdout: first the chunk lists of list_cases.py for the column setter, then
the trees of tree_cases.py for the tree's check, then these for the walk, for the tree call and for the search of lost
comments, the latter with the trees of clause_cases.py too. The texts and chunks come from the Rust, through the
program ORACLE, the refusals and the lost comments from the model of document 01 (model/model.py). Where both speak they
must agree: the model has the texts too, and the oracle a reader of its own for the refusals. The same seed gives
the same files.
"""

import argparse
from collections import Counter
from pathlib import Path

from streams import MOST, Case, agreed, ask_reader, ask_rust, check_case, check_due, four, join_case, join_due
from streams import ask_format, ask_walk, format_due, lost_case, repeated, repeated_case, stored_answer, stored_case
from streams import told, walk_due

import clause_cases  # after streams, which finds the model's folder
from list_cases import PLAIN, all_lists, long_lists
from model import encode_chunks
from tree_cases import SAMPLE, all_trees, not_covered, refusal_of
from walk_cases import format_cases, options_of, walk_cases


def answered_lists(oracle, lists):
    """The cases of chunk lists, each once, with the answers that are due."""
    lists = list(lists)
    seen = set()
    for (options, chunks, rooms), given in zip(lists, ask_rust(oracle, [one[:2] for one in lists])):
        length = len(given) if isinstance(given, bytes) else 0
        for more in rooms:
            room = 0 if more is None else length + more
            case = join_case(options, chunks, room)
            if room < 0 or case in seen:
                continue
            seen.add(case)
            yield agreed(case, join_due(given, room))


def answered_long_lists(oracle, lists):
    """The cases of lists that repeat a part, with the answers that are due. The whole texts are compared here, of
    which too long a one is not stored."""
    cases = [repeated_case(*one) for one in lists]
    for case, given in zip(cases, ask_rust(oracle, [(case.options, repeated(case)) for case in cases])):
        if isinstance(given, bytes):
            agreed(case._replace(room=len(given)), join_due(given, len(given)))
        yield agreed(case, join_due(given, case.room))


def answered_trees(oracle, trees):
    """The cases of trees, each once, with the answers that are due."""
    cases = [check_case(tree) for tree in dict.fromkeys(trees)]
    # Options and a text buffer are not looked at.
    cases += [Case(b"K", b"", SAMPLE, 9), Case(b"K", b"\xff\xff", SAMPLE[:-1], 9)]
    for case, read in zip(cases, ask_reader(oracle, [case.payload for case in cases])):
        refusal = refusal_of(case.payload)
        told = refusal and (refusal.number, refusal.place)
        if told != read:
            raise SystemExit(f"the model and the oracle differ: {case} model {told} oracle {read}")
        yield case, check_due(told)


def answered_walks(oracle, asked, most):
    """Cases of the walk for (options, tree, whether in rooms of any fit), with the answers that are due, of up to so
    many bytes in all."""
    for (options, tree, thorough), given in zip(asked, ask_walk(oracle, [one[:2] for one in asked])):
        for case in walk_cases(options, tree, given[1], thorough):
            due = walk_due(given, case.work)
            most -= len(due.text) + 6
            if most < 0:
                return
            yield agreed(case, due)


def answered_formats(oracle, asked):
    """Cases of the tree call for (options, tree, whether in rooms of any fit), with the answers that are due."""
    for (options, tree, thorough), given in zip(asked, ask_format(oracle, [one[:2] for one in asked])):
        for case in format_cases(options, tree, given, thorough):
            yield agreed(case, format_due(given, case.work, case.room))


def by_turns(trees):
    """Trees with the options in turn, one of twelve in rooms of any fit."""
    return [(options_of(number), tree, number % 12 == 0) for number, tree in enumerate(trees)]


def last_case():
    """A case whose buffer is one byte too long ends the run; the whole case behind it is not answered."""
    whole = stored_case(join_case(b"\0", encode_chunks(PLAIN), 100))
    return whole[:-4] + four(MOST + 1) + whole


def print_counts(name, made):
    numbers = Counter(answer.number for _, answer in made)
    print(f"{len(made)} {name};", ", ".join(f"answer {n}: {numbers[n]}" for n in sorted(numbers)))


def main():
    parser = argparse.ArgumentParser()
    parser.add_argument("oracle")
    parser.add_argument("folder", type=Path)
    parser.add_argument("--seed", type=int, default=1)
    parser.add_argument("--random", type=int, default=3000, help="random lists; half as many random trees")
    given = parser.parse_args()
    lists = list(answered_lists(given.oracle, all_lists(given.seed, given.random)))
    long = list(answered_long_lists(given.oracle, long_lists()))
    trees = list(answered_trees(given.oracle, all_trees(given.seed, given.random // 2)))
    left = not_covered(case.payload for case, answer in trees if answer.number == 0)
    if left:
        raise SystemExit(f"no accepted tree has {sorted(map(str, left))}")
    # Every accepted tree, and one of twenty that are not.
    taken = [case.payload for at, (case, answer) in enumerate(trees) if answer.number == 0 or at % 20 == 0]
    walks = list(answered_walks(given.oracle, by_turns(tree for tree in taken if len(tree) < 4000), 600000))
    walks += answered_walks(given.oracle, [*clause_cases.walks()], 300000)
    # Every accepted tree, and two of three that are not.
    short = [case.payload for at, (case, answer) in enumerate(trees) if len(case.payload) < 1000 and (answer.number == 0 or at % 3)]
    formats = list(answered_formats(given.oracle, by_turns(short) + [*clause_cases.calls()]))
    # Every accepted tree, and one of twenty that are not.
    searches = [lost_case(tree) for tree in dict.fromkeys([*taken, *clause_cases.searches()])]
    losses = [(case, told(case)) for case in searches]
    made = lists + long + trees + walks + formats + losses
    stdin = b"".join(stored_case(case) for case, _ in made) + last_case()
    stdout = b"".join(stored_answer(answer) for _, answer in made)
    (given.folder / "stdin").write_bytes(stdin)
    (given.folder / "stdout").write_bytes(stdout)
    print_counts("chunk lists", lists)
    print_counts("long chunk lists", long)
    print_counts("trees", trees)
    print_counts("walks", walks)
    print_counts("tree calls", formats)
    print_counts("searches for lost comments", losses)
    print(len({case.payload for case, _ in formats}), "trees through the whole call")
    rules = Counter(refusal_of(case.payload).why for case, answer in trees if answer.number == 5)
    print("answer 5 by the rule that is broken:", ", ".join(f"{why} {count}" for why, count in sorted(rules.items())))
    print(f"stdin {len(stdin)} bytes, stdout {len(stdout)} bytes")


if __name__ == "__main__":
    main()
