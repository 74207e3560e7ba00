"""The column setter of a built `replay` against the Rust, on chunk lists that no file holds."""

from itertools import product

from streams import MOST, Answer, agreed, ask_rust, join_case, join_due

import gen  # after streams, which finds the model's folder
import model as m
from list_cases import ink_lines
from model import CODE, COMMENT, LABEL, Chunk, encode_chunk, encode_chunks, encode_options
from tally import batches

LIMIT = m.MAX_CHUNKS


# ------------------------------------------------------------ random lists


def random_list(g):
    """Options and a stored list. One in ten is long, three in twenty are damaged."""
    options = g.options()
    g.opts = m.parse_options(options)
    chunks = g.chunk_list()
    if g.chance(0.1):
        for _ in range(g.r.randrange(20)):
            chunks += g.chunk_list()
    stored = encode_chunks(chunks)
    if g.chance(0.03):
        options = g.bad_options()
    if g.chance(0.12):
        stored = g.damaged_chunks(stored)
    return options, stored


def room_for(g, length):
    """A text buffer: exact, longer, one byte short, shorter, or none."""
    room = g.r.choice([length, length, length + g.r.randrange(1, 99), length - 1, g.r.randrange(length + 1), 0])
    return min(max(room, 0), MOST)


def model_refusal(options, stored):
    try:
        m.parse_options(options)
        m.read_chunk_list(stored)
    except m.Refusal as refusal:
        return refusal.number, refusal.place
    return None


def compare_random(tally, oracle, count, seed):
    g = gen.Gen(seed)
    for batch in batches((random_list(g) for _ in range(count)), 4000):
        cases, dues = [], []
        for (options, stored), given in zip(batch, ask_rust(oracle, batch)):
            refusal = given if isinstance(given, tuple) else None
            if refusal != model_refusal(options, stored):
                raise SystemExit(f"the model and the oracle differ: {options.hex()} {stored.hex()}")
            case = join_case(options, stored, room_for(g, 0 if refusal else len(given)))
            cases.append(case)
            dues.append(join_due(given, case.room))
        tally.compare(cases, dues)
    tally.close(f"random, seed {seed}")


# ------------------------------------------------------------ all small lists

TWELVE = [
    Chunk(CODE, 0, b"\n"), Chunk(CODE, 0, b"x"), Chunk(CODE, 0, b" "), Chunk(CODE, 0, b"\n\n"),
    Chunk(CODE, 2, b"y\n"), Chunk(CODE, 0, b"     q"),
    Chunk(LABEL, 0, b"a:"), Chunk(LABEL, 1, b"long:"), Chunk(LABEL, 0, b"\n"),
    Chunk(COMMENT, 0, b"//"), Chunk(COMMENT, 3, b"/*\n*/"), Chunk(COMMENT, 0, b"\n"),
]
SIXTEEN = TWELVE + [Chunk(CODE, 0, b"\t\n"), Chunk(LABEL, 0, b" "), Chunk(COMMENT, 0, b" "), Chunk(COMMENT, 0, b"c\n")]
# Label margin, code margin, alignment.
MARGINS = [(3, 2, 1), (3, 2, 0), (0, 0, 1), (0, 4, 0), (4, 0, 0), (1, 1, 1)]


def small_lists():
    for pieces, most in ((TWELVE, 5), (SIXTEEN, 4)):
        stored = [encode_chunk(piece) for piece in pieces]
        for count in range(most + 1):
            for chosen in product(stored, repeat=count):
                yield b"".join(chosen)


def compare_small(tally, oracle):
    for margin, code_margin, alignment in MARGINS:
        options = encode_options(label_margin=margin, alignment=alignment, code_margin=code_margin)
        for batch in batches(small_lists(), 20000):
            texts = ask_rust(oracle, [(options, stored) for stored in batch])
            cases = [join_case(options, stored, len(text)) for stored, text in zip(batch, texts)]
            tally.compare(cases, [join_due(text, len(text)) for text in texts])
    tally.close("small")


# ------------------------------------------------------------ limits


def filled(units, length):
    """Chunks of `units` in turn, the last one code, so that the list has `length` bytes."""
    parts, used = [], 0
    stored = [encode_chunk(unit) for unit in units]
    while used + len(stored[len(parts) % len(stored)]) + 4 <= length:
        parts.append(stored[len(parts) % len(stored)])
        used += len(parts[-1])
    return b"".join(parts) + encode_chunk(Chunk(CODE, 0, b"z" * (length - used - 3)))


def limit_cases():
    narrow = encode_options(label_margin=0, code_margin=0)
    newline = Chunk(CODE, 0, b"\n")
    units = [
        [newline],
        [Chunk(CODE, 0, b"x")] * 63 + [newline],
        [Chunk(CODE, 0, b"x" * 125)],
        [Chunk(COMMENT, 0, b"// c"), newline],
        [Chunk(LABEL, 0, b"a:"), newline, Chunk(CODE, 1, b"nop"), newline],
        [Chunk(CODE, 0, b"word " * 13107)],
        [Chunk(COMMENT, 9, b"line\n" * 13107)],
    ]
    for length in (LIMIT - 1, LIMIT, LIMIT + 1):
        for unit in units:
            stored = filled(unit, length)
            for options in (narrow, encode_options(label_margin=3, code_margin=2)):
                yield join_case(options, stored, MOST)
            yield join_case(narrow, stored, 0)
            yield join_case(narrow, stored[:-1] + b"\x80", MOST)
            yield join_case(narrow, stored[:-1], MOST)
        # The length is judged before the bad chunk at place 4, the options before the length.
        stored = filled([newline], length)
        yield join_case(b"\0", stored[:4] + b"\3" + stored[5:], MOST)
        yield join_case(b"\0\0", stored, MOST)
        yield join_case(b"\x08\x41", stored, MOST)
    yield join_case(b"\0", bytes(MOST), MOST)
    # A text of exactly the longest buffer, and one byte more.
    for indent in (3824, 3825):
        lines = [Chunk(CODE, 4095, b"x\n")] * 271 + [Chunk(CODE, indent, b"x")]
        yield join_case(narrow, encode_chunks(lines), MOST)
    # A text that is sixty times as long as the longest buffer.
    wide = encode_options(label_margin=255, code_margin=255)
    yield join_case(wide, encode_chunk(Chunk(CODE, 4096, b"x\n")) * 15000, MOST)


def compare_limits(tally, oracle):
    for case in limit_cases():
        (given,) = ask_rust(oracle, [(case.options, case.payload)])
        _, due = agreed(case, join_due(given, case.room))
        tally.compare([case], [due])
    # The longest text of all, 652,061,987 bytes: equal lines, so its length follows from one.
    wide = encode_options(label_margin=255, code_margin=255)
    line = encode_chunk(Chunk(CODE, 4096, b"x\n"))
    (text,) = ask_rust(oracle, [(wide, line)])
    count = LIMIT // len(line)
    tally.compare([join_case(wide, line * count, MOST)], [Answer(9, count * (len(text) + 1) - 1, 0, b"")])
    tally.close("limits")


# ------------------------------------------------------------ ink at either end of a line


def compare_ink(tally, oracle):
    for batch in batches(ink_lines(), 4000):
        texts = ask_rust(oracle, [one[:2] for one in batch])
        asked = [
            agreed(join_case(options, stored, room), join_due(text, room))
            for (options, stored, rooms), text in zip(batch, texts)
            for room in (len(text) + more for more in rooms)
            if 0 <= room
        ]
        tally.compare([case for case, _ in asked], [due for _, due in asked])
    tally.close("ink")
