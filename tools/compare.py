"""Compares a built `replay` with the Rust on chunk lists, and with two readers on trees, that no file holds.

    python3 compare.py REPLAY ORACLE [--random N] [--small] [--limits] [--ink] [--trees N] [--small-trees]
                       [--walks N] [--formats N] [--parsed FOLDER] [--lost N] [--streams] [--seed S]

Chunk lists, for the column setter:
--random N      N random lists, some of them damaged, with buffers of any fit
--small         all lists of up to five chunks of twelve, and of up to four of sixteen, under six options
--limits        lists at the length limit, texts at the buffer's limit, the longest text
--ink           lines whose only ink is the first byte, the last byte, or none, at margins 0 and 20
Trees, for their check:
--trees N       N random trees, two of three damaged, some of them about as deep as a tree may be
--small-trees   one token of up to seven bytes of eight; one leaf of up to eight of six; every kind and map byte at
                a place of each type
Trees, for the walk to chunks:
--walks N       N random trees, each under options and in work rooms of any fit
For the tree call:
--formats N     N random trees, each under options and in rooms and buffers of any fit
--parsed FOLDER every tree in a folder, as the Rust's parser made them (`oracle parse`), under options in turn
For the search of lost comments:
--lost N        N random trees, one of seven damaged, against the model
All:
--streams       cut and overlong cases, wrong commands and nothing to repeat, which end a run of `replay`
If no part is named: 20,000 random lists and as many random trees.

Texts are the Rust's, through the program ORACLE. Refusals of random lists, all answers at the limits and of --ink,
and all answers for trees are held against the model of document 01 too (model/model.py). What is printed: the
number of cases by answer, and every difference with its input. The exit status is 1 where there is any.
"""

import argparse
from pathlib import Path

import compare_lists
import compare_trees
import compare_walks
from model import encode_chunks
from streams import MOST, ask_rust, check_case, check_due, four, join_case, join_due, run, stored_answer, stored_case
from tally import Tally
from tree_cases import SAMPLE


def compare_streams(tally, oracle):
    """A cut case, one that is too long, and one of no command end the run: only the cases before it are answered."""
    lists = [(b"\0", encode_chunks(compare_lists.TWELVE)), (b"\x10\3", encode_chunks(compare_lists.TWELVE[:3]))]
    texts = ask_rust(oracle, lists)
    stored = [stored_case(join_case(o, c, len(text))) for (o, c), text in zip(lists, texts)]
    answers = [stored_answer(join_due(text, len(text))) for text in texts]
    stored.insert(1, stored_case(check_case(SAMPLE)))
    answers.insert(1, stored_answer(check_due(None)))
    whole = b"".join(stored)
    ends = [len(b"".join(stored[: count + 1])) for count in range(len(stored))]
    runs = []
    for cut in range(len(whole) + 1):
        runs.append((whole[:cut], b"".join(answer for answer, end in zip(answers, ends) if end <= cut)))
    # Options, payload, work room and text buffer, each one byte too long.
    tail = four(0) + four(0)
    for command in (b"J", b"K", b"C", b"F", b"L", b"R"):
        for overlong in (
            command + four(17) + bytes(17) + four(0) + tail,
            command + four(1) + b"\0" + four(MOST + 1) + bytes(MOST + 1) + tail,
            command + four(1) + b"\0" + four(0) + four(MOST + 1) + four(0),
            command + four(1) + b"\0" + four(0) + four(0) + four(MOST + 1),
        ):
            runs.append((stored[0] + overlong + stored[1], answers[0]))
    # Nothing to repeat.
    runs.append((stored[0] + b"R" + four(1) + b"\0" + four(0) + tail + stored[1], answers[0]))
    for other in set(range(256)) - set(b"JKCFLR"):
        runs.append((stored[0] + bytes([other]) + stored[1][1:] + stored[2], answers[0]))
    for stream, due in runs:
        got = run([tally.replay], stream)
        if got != due:
            tally.differences += 1
            print(f"DIFFERENT stream {stream[:300].hex()} of {len(stream)} bytes: due {len(due)} bytes, got {len(got)}")
    print(f"streams: {len(runs)} runs", flush=True)


def main():
    parser = argparse.ArgumentParser()
    parser.add_argument("replay")
    parser.add_argument("oracle")
    parser.add_argument("--random", type=int, default=0)
    parser.add_argument("--small", action="store_true")
    parser.add_argument("--limits", action="store_true")
    parser.add_argument("--ink", action="store_true")
    parser.add_argument("--trees", type=int, default=0)
    parser.add_argument("--small-trees", action="store_true")
    parser.add_argument("--walks", type=int, default=0)
    parser.add_argument("--formats", type=int, default=0)
    parser.add_argument("--parsed", type=Path)
    parser.add_argument("--lost", type=int, default=0)
    parser.add_argument("--streams", action="store_true")
    parser.add_argument("--seed", type=int, default=1)
    given = parser.parse_args()
    tally = Tally(given.replay)
    parts = (given.random, given.small, given.limits, given.ink, given.trees, given.small_trees, given.walks)
    parts += (given.formats, given.parsed, given.lost, given.streams)
    if not any(parts):
        given.random = given.trees = 20000
    if given.random:
        compare_lists.compare_random(tally, given.oracle, given.random, given.seed)
    if given.small:
        compare_lists.compare_small(tally, given.oracle)
    if given.limits:
        compare_lists.compare_limits(tally, given.oracle)
    if given.ink:
        compare_lists.compare_ink(tally, given.oracle)
    if given.trees:
        compare_trees.compare_random(tally, given.oracle, given.trees, given.seed)
    if given.small_trees:
        compare_trees.compare_small(tally, given.oracle)
    if given.walks:
        compare_walks.compare_random(tally, given.oracle, given.walks, given.seed)
    if given.formats:
        compare_walks.compare_random_formats(tally, given.oracle, given.formats, given.seed)
    if given.parsed:
        trees = [path.read_bytes() for path in sorted(given.parsed.iterdir())]
        part = f"tree calls on {len(trees)} parsed sources, each under six options"
        compare_walks.compare_formats(tally, given.oracle, [tree for tree in trees for _ in range(7)], part)
    if given.lost:
        compare_walks.compare_random_lost(tally, given.lost, given.seed)
    if given.streams:
        compare_streams(tally, given.oracle)
    print(f"{tally.differences} differences")
    return 1 if tally.differences else 0


if __name__ == "__main__":
    raise SystemExit(main())
