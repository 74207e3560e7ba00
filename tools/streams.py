"""The two streams that the scripts here speak: cases and answers of the program `replay`
(crates/replay/README.md says the format), and queries and answers of `oracle batch`."""

import subprocess
import sys
from collections import namedtuple
from pathlib import Path

sys.path.append(str(Path(__file__).parent / "model"))
import model as m

# The longest payload and buffer that `replay` takes.
MOST = 1114112

# `room` is the length of the text buffer that is lent, `work` that of the work room, or of the list for the command R.
Case = namedtuple("Case", "command options payload room work", defaults=[0])

# `text` is empty where the number is not 0, and for the command K; it is the chunks for the command C, and the eight
# numbers for the command L.
Answer = namedtuple("Answer", "number value flag text")


def four(number):
    return number.to_bytes(4, "little")


def join_case(options, chunks, room):
    """A case of the column setter."""
    return Case(b"J", options, chunks, room)


def repeated_case(options, part, length, room):
    """A case of the column setter with a list of `length` bytes: a part again and again, the last one cut."""
    return Case(b"R", options, part, room, length)


def repeated(case):
    """The list of such a case."""
    return (case.payload * (case.work // len(case.payload) + 1))[: case.work]


def check_case(tree):
    """A case of the tree's check, which takes no options and gives no text."""
    return Case(b"K", b"", tree, 0)


def walk_case(options, tree, work):
    """A case of the walk from a tree to chunks."""
    return Case(b"C", options, tree, 0, work)


def format_case(options, tree, work, room):
    """A case of the tree call."""
    return Case(b"F", options, tree, room, work)


def lost_case(tree):
    """A case of the search for lost comments, which takes no options and gives no text."""
    return Case(b"L", b"", tree, 0)


def stored_case(case):
    """A case as `replay` reads it."""
    parts = [case.command, four(len(case.options)), case.options, four(len(case.payload)), case.payload]
    return b"".join(parts + [four(case.work), four(case.room)])


def stored_answer(answer):
    return bytes([answer.number]) + four(answer.value) + bytes([answer.flag]) + answer.text


def read_cases(stream):
    """The cases of a stream, up to one that `replay` does not take."""
    cases, at = [], 0

    def part(length):
        nonlocal at
        at += length
        return stream[at - length : at]

    def number():
        return int.from_bytes(part(4), "little")

    while at < len(stream):
        command, options, payload = part(1), part(number()), part(number())
        work, room = number(), number()
        if max(work, room) > MOST:
            break
        cases.append(Case(command, options, payload, room, work))
    return cases


def read_answers(stream):
    """The answers of a stream. One that is cut ends it: the caller compares counts."""
    answers, at = [], 0
    while at + 6 <= len(stream):
        number, flag = stream[at], stream[at + 5]
        value = int.from_bytes(stream[at + 1 : at + 5], "little")
        end = at + 6 + (value if number == 0 else 0)
        if len(stream) < end:
            break
        answers.append(Answer(number, value, flag, stream[at + 6 : end]))
        at = end
    return answers, stream[at:]


def run(command, stream):
    return subprocess.run(command, input=stream, stdout=subprocess.PIPE, check=True).stdout


def ask_oracle(oracle, command, queries):
    """For each (options, payload) what the oracle gives: bytes, or the number and place at which
    its reader refuses."""
    stream = b"".join(command + four(len(o)) + o + four(len(p)) + p for o, p in queries)
    stream = run([oracle, "batch"], stream)
    given, at = [], 0
    while at < len(stream):
        status = stream[at]
        start = at + 5
        at = start + int.from_bytes(stream[at + 1 : start], "little")
        bytes_given = stream[start:at]
        if status == 0:
            given.append(bytes_given)
        elif status == 1:
            number, place = bytes_given.split()
            given.append((int(number), int(place)))
        else:
            raise SystemExit(f"the Rust panicked: {bytes_given.decode()}")
    if len(given) != len(queries):
        raise SystemExit(f"{len(queries)} queries, but {len(given)} answers of the oracle")
    return given


def ask_rust(oracle, lists):
    """For each (options, chunks) the text of the Rust, or the number and place of a refusal. The small
    letter accepts texts of bytes 0 to 127 alone."""
    return ask_oracle(oracle, b"j", lists)


def ask_reader(oracle, trees):
    """For each tree None where the oracle's reader accepts it, else the number and place of the refusal.
    Of the commands that read a tree, `p` does the least behind the reader; what it gives is not used."""
    given = ask_oracle(oracle, b"p", [(b"\0", tree) for tree in trees])
    return [answer if isinstance(answer, tuple) else None for answer in given]


def ask_walk(oracle, trees):
    """For each (options, tree) the chunks that the Rust holds, or the number and place of a refusal; and the work
    rooms that the pushes need, each more than every one before."""
    rooms = ask_oracle(oracle, b"w", trees)
    return list(zip(ask_oracle(oracle, b"c", trees), [needs(room) for room in rooms]))


def needs(room):
    """The four-byte numbers of an answer of the oracle, none of a refusal."""
    if isinstance(room, tuple):
        return []
    return [int.from_bytes(room[at : at + 4], "little") for at in range(0, len(room), 4)]


def refused_before(given, rooms, work):
    """The refusal by the oracle's reader, or by a work room of `work` bytes where the pushes need `rooms`; else None."""
    if isinstance(given, tuple):
        return Answer(given[0], given[1], 0, b"")
    needed = next((need for need in rooms if work < need), None)
    return needed and Answer(8, needed, 0, b"")


def walk_due(given, work):
    """The answer that is due for what `ask_walk` gave and a work room of `work` bytes."""
    chunks, rooms = given
    return refused_before(chunks, rooms, work) or Answer(0, len(chunks), 0, chunks)


def ask_format(oracle, trees):
    """For each (options, tree) the text of the Rust, or the number and place of a refusal; and the work rooms that
    the pushes need."""
    rooms = ask_oracle(oracle, b"w", trees)
    return list(zip(ask_oracle(oracle, b"f", trees), [needs(room) for room in rooms]))


def format_due(given, work, room):
    """The answer that is due for what `ask_format` gave, a work room of `work` and a text buffer of `room` bytes."""
    text, rooms = given
    return refused_before(text, rooms, work) or join_due(text, room)


def join_due(given, room):
    """The answer that is due for what `ask_rust` gave and a text buffer of `room` bytes."""
    if isinstance(given, tuple):
        return Answer(given[0], given[1], 0, b"")
    if room < len(given):
        return Answer(9, len(given), 0, b"")
    return Answer(0, len(given), 0, given)


def check_due(refusal):
    """The answer that is due for a tree with this refusal, or with none."""
    number, place = refusal or (0, 0)
    return Answer(number, place, 0, b"")


# ------------------------------------------------------------ the answers of a model


def firsts(uses):
    """For each place the offset of the first record that uses it plus 1, or 0."""
    return [min((at + 1 for at, used in uses if used == letter), default=0) for letter in "abcdefgh"]


def told_bytes(case, model):
    """The bytes that a model accepts a case with."""
    if case.command == b"C":
        options = model.parse_options(case.options)
        return model.encode_chunks(model.print_chunks(model.check_tree(case.payload), options, case.work).chunks)
    tree = model.check_tree(case.payload)
    return b"".join(map(four, firsts(model.place_uses(tree)))) if case.command == b"L" else b""


def told(case, model=m):
    """The answer that a model of document 01 gives for a case."""
    if case.command in (b"J", b"R"):
        chunks = case.payload if case.command == b"J" else repeated(case)
        given = model.join_call(chunks, case.options, case.room)
        return Answer(given.number, given.value, 0, given.text)
    if case.command == b"F":
        given = model.format_call(case.payload, case.options, case.work, case.room)
        return Answer(given.number, given.value, 0, given.text)
    try:
        given = told_bytes(case, model)
        return Answer(0, len(given), 0, given)
    except model.Refusal as refusal:
        return Answer(refusal.number, refusal.place, 0, b"")


def agreed(case, due):
    """A case and the answer that is due by the Rust, which the model has to give too."""
    given = told(case)
    if given != due:
        raise SystemExit(f"the model and the Rust differ: {str(case)[:300]} model {str(given)[:300]} Rust {str(due)[:300]}")
    return case, due
