"""The chunk lists of the stored stream: what `stored_cases.py` asks of the column setter."""

from itertools import combinations, product

from streams import MOST

import cases as model_cases  # after streams, which finds the model's folder
import gen
import model as m
from model import CODE, COMMENT, LABEL, Chunk, encode_chunks, encode_options

TYPES = (CODE, LABEL, COMMENT)

# The text buffer that is lent: bytes more than the text has, or None for no bytes at all.
EXACT, ONE_SHORT, MORE, NONE = 0, -1, 5, None


def code(text, indent=0):
    return Chunk(CODE, indent, text)


def label(text, indent=0):
    return Chunk(LABEL, indent, text)


def comment(text, indent=0):
    return Chunk(COMMENT, indent, text)


NEWLINE = code(b"\n")
PLAIN = [label(b"a:"), code(b"nop"), comment(b"// c"), NEWLINE, code(b"rts")]


# Each function below gives (options, stored list, buffers).


def samples():
    """The samples of document 01 about chunk lists."""
    for options, chunks, _ in model_cases.SAMPLES:
        yield options, encode_chunks(chunks), (EXACT, MORE, ONE_SHORT, NONE)
    for indent in (64, 65):
        yield encode_options(indent=indent), encode_chunks(PLAIN), (EXACT,)


def option_lengths():
    """Every map of standing fields: with the values it asks for, one more, one fewer (refusal 1)."""
    valid = [(0, 1), (1, 0), (0, 1), (0, 4, 64), (0, 3, 7, 20), (0, 1), (0, 2, 6, 30), (0, 8, 255)]
    plain = encode_chunks(PLAIN)
    yield b"", plain, (MORE,)
    yield b"\xff" + bytes(15), plain, (MORE,)
    for standing in range(256):
        fields = [valid[bit] for bit in range(8) if standing >> bit & 1]
        stored = bytes([standing] + [values[standing % len(values)] for values in fields])
        yield stored, plain, (MORE,)
        yield stored + b"\0", plain, (MORE,)
        if fields:
            yield stored[:-1], plain, (MORE,)


def option_values():
    """Each field at values in and out of range, alone and among all eight (refusal 2); two fields
    out of range, where the first is told; and refusals 1 and 2 before those of the list."""
    plain = encode_chunks(PLAIN)
    for field, value in product(range(8), (0, 1, 2, 63, 64, 65, 128, 255)):
        yield bytes([1 << field, value]), plain, (MORE,)
        every = bytearray(m.DEFAULTS)
        every[field] = value
        yield b"\xff" + bytes(every), plain, (MORE,)
    for pair in combinations((0, 1, 2, 3, 5), 2):
        every = bytearray(m.DEFAULTS)
        for field in pair:
            every[field] = 99
        yield b"\xff" + bytes(every), plain, (MORE,)
    for stored in (b"", b"\1", b"\0\0", b"\1\2", b"\x08\x41", b"\xff" + bytes(8)):
        for chunks in (b"\3", b"\0\0\0", b"\0\1\0\x80", plain):
            yield stored, chunks, (MORE, NONE)


def layout():
    """Faults of the layout (refusal 6): every first byte of a chunk, text lengths and indents at
    their limits, bytes that are missing, and the fault told before a byte above 127."""
    before = encode_chunks([code(b"ab")])
    for first in range(256):
        body = (b"\2\0" if first & 4 else b"") + b"\1\0q"
        yield b"\0", bytes([first]) + body, (MORE,)
        yield b"\0", before + bytes([first]) + body, (MORE,)
    # Bit 3 with two bytes more, which a later layout may have.
    for first in (8, 9, 10, 12):
        yield b"\0", bytes([first]) + (b"\2\0" if first & 4 else b"") + b"\1\0" + b"\1\0q", (MORE,)
    for indent in (0, 1, 2, 127, 128, 255, 256, 4095, 4096, 4097, 8192, 32768, 65535):
        stored = b"\4" + indent.to_bytes(2, "little") + b"\1\0q"
        yield b"\0", stored, (EXACT, ONE_SHORT)
        yield b"\0", before + stored, (NONE,)
    for length in (0, 1, 2, 3, 255, 256, 65535):
        stored = b"\0" + length.to_bytes(2, "little") + b"qr"
        yield b"\0", stored, (MORE,)
        yield b"\0", before + stored, (MORE,)
        yield b"\0", before + b"\6\1\0" + stored[1:], (MORE,)
    longest = encode_chunks([code(b"q" + b" " * 65533 + b"\n")])
    yield b"\0", longest, (EXACT,)
    yield b"\0", encode_chunks([code(b"\x80")]) + b"\0\1", (MORE,)
    yield b"\0", encode_chunks([code(b"a\xff"), NEWLINE]) + b"\7\1\0a", (MORE,)


def damaged():
    """Whole lists cut at every byte, and with each byte changed."""
    for chunks in (
        [label(b"a:"), code(b"nop"), comment(b"// c"), NEWLINE],
        [comment(b"/* a\nb */", 4), code(b" \n", 300), label(b"x")],
        [code(b"\n\n"), comment(b"\n", 1), label(b"\n", 2), code(b"z")],
    ):
        stored = encode_chunks(chunks)
        for at in range(len(stored)):
            yield b"\0", stored[:at], (MORE,)
            for value in (0, 3, 127, 128, (stored[at] + 1) % 256):
                yield b"\0", stored[:at] + bytes([value]) + stored[at + 1 :], (MORE,)


def high_bytes():
    """Bytes above 127: in a text the first is refused (7); in a length or an indent none is."""
    for ty, text in product(TYPES, (b"\x80", b"\xff", b"a\x80", b"\xffa", b"a\x80\xffb", b"\n\x80", b"\x7f", b"\0")):
        yield b"\0", encode_chunks([Chunk(ty, 0, text)]), (MORE,)
        yield b"\0", encode_chunks([code(b"q"), Chunk(ty, 200, text), code(b"\x90")]), (NONE,)
    for length in (127, 128, 129, 255, 256, 384):
        text = b"w" * (length - 1)
        yield b"\0", encode_chunks([code(text + b"w")]), (EXACT,)
        yield b"\0", encode_chunks([code(text + b"\x80")]), (EXACT,)


def boundaries():
    """Pieces and lines around the margins: a newline behind L, L + 1, L + C and L + C + 1 bytes;
    blanks that reach L + C or not (standalone); labels that fit or not, first or second."""
    for (margin, code_margin), alignment in product(
        [(0, 0), (0, 1), (1, 0), (1, 1), (3, 2), (5, 0), (20, 30), (255, 0), (0, 255), (255, 255)], (0, 1)
    ):
        wide = margin + code_margin > 100
        if wide and alignment == 0 and code_margin:
            continue  # such texts are long, and the alignment settles nothing more
        options = encode_options(label_margin=margin, alignment=alignment, code_margin=code_margin)
        both = margin + code_margin
        lengths = {margin - 1, margin, margin + 1, code_margin, code_margin + 1, both - 1, both, both + 1}
        for length in sorted(n for n in lengths if 0 < n):
            lists = [
                [label(b"x" * length), NEWLINE, code(b"y")],
                [code(b"x" * length), NEWLINE, NEWLINE, NEWLINE, label(b"y")],
                [comment(b"x" * length), NEWLINE, NEWLINE, code(b"y")],
                [code(b" " * length), code(b"q"), NEWLINE, NEWLINE, code(b"y")],
                [label(b" " * length), comment(b"q"), NEWLINE, NEWLINE, code(b"y")],
                [comment(b" " * length), NEWLINE, code(b"y")],
            ]
            if not wide:
                lists += [
                    [label(b"a:"), label(b"x" * length), NEWLINE, code(b"y")],
                    [label(b"x" * length), comment(b"// c"), code(b"y"), comment(b"z")],
                    [comment(b"x" * length, 4), code(b"y"), NEWLINE, code(b"z", 2)],
                ]
            for chunks in lists:
                yield options, encode_chunks(chunks), (EXACT,) if wide else (EXACT, ONE_SHORT, NONE)


def indents():
    """Indents at their limits, on lines of every kind: a second line of one chunk takes none, a
    later chunk of a line gives none, a blank line shows none."""
    for indent in (1, 4095, 4096):
        for chunks in (
            [code(b"x\ny", indent)],
            [comment(b"// c", indent), NEWLINE, code(b"x")],
            [label(b"a:", indent), code(b"x", 7)],
            [label(b"a:"), code(b"x", indent)],
            [code(b" \n", indent), code(b"x", 2)],
        ):
            yield b"\0", encode_chunks(chunks), (EXACT, ONE_SHORT, NONE)


def buffers():
    """Every buffer length from 0 to past the text."""
    chunks = encode_chunks([label(b"a:"), code(b"nop"), NEWLINE, comment(b"// c", 2), NEWLINE])
    options = encode_options(label_margin=4, code_margin=6)
    length = len(m.join_chunks(m.read_chunk_list(chunks), m.parse_options(options)))
    yield options, chunks, tuple(range(-length, 4)) + (MOST - length,)


def every_small_list():
    """All lists of up to two chunks of sixteen, and of three of seven."""
    sixteen = [
        NEWLINE, code(b"x"), code(b" "), code(b"\n\n"), code(b"y\n", 2), code(b"  q"), code(b"\t\n", 1),
        label(b"a:"), label(b"long:"), label(b"\n"), label(b" ", 1),
        comment(b"//"), comment(b"/*\n*/", 1), comment(b"\n"), comment(b" "), comment(b"c\n"),
    ]
    seven = [NEWLINE, code(b"x", 1), code(b" "), label(b"a:"), label(b"long:"), comment(b"//"), comment(b"/*\n*/", 2)]
    options = [encode_options(label_margin=L, code_margin=C, alignment=A) for L, C, A in ((3, 2, 1), (0, 0, 0))]
    for number, stored in enumerate(options):
        for count in (1, 2):
            for chunks in product(sixteen, repeat=count):
                yield stored, encode_chunks(chunks), (EXACT,)
        if number == 0:
            for chunks in product(seven, repeat=3):
                yield stored, encode_chunks(chunks), (MORE,)


def random_lists(seed, count):
    """Random lists with narrow margins, some of them damaged, with buffers of any fit."""
    g = gen.Gen(seed)
    made = 0
    while made < count:
        options = g.options(tight=True)
        g.opts = m.parse_options(options)
        stored = encode_chunks(g.chunk_list())
        if len(m.join_chunks(m.read_chunk_list(stored), g.opts)) > 600:
            continue
        made += 1
        if g.chance(0.1):
            options = g.bad_options()
        elif g.chance(0.2):
            stored = g.damaged_chunks(stored)
        yield options, stored, (g.r.choice([EXACT, EXACT, MORE, ONE_SHORT, NONE]),)


def long_lists():
    """Lists round the greatest length, as a part that is repeated: (options, part, length of the list, buffer). Chunks
    of 16 bytes fill it; of 15 the last one is cut. One byte more is refused at 0, whatever the list holds."""
    blank, nop, high = (encode_chunks([code(text.ljust(12) + b"\n")]) for text in (b"", b"nop", b"\x80"))
    odd = encode_chunks([comment(b" " * 11 + b"\n")])
    for part, more in product((blank, nop, high, odd, b"\0"), (-1, 0, 1)):
        yield b"\0", part, m.MAX_CHUNKS + more, 0
    yield b"\0", blank, m.MAX_CHUNKS, MOST
    yield b"\0", blank, MOST, MOST
    yield b"\0", blank, 0, 0
    for options in (b"", b"\1\2"):
        yield options, blank, m.MAX_CHUNKS + 1, 0


def ink_lines():
    """Lines whose only ink is their first byte, their last byte, or none, in one piece and behind pieces of blanks.
    They are asked by compare.py, and are not in the stored stream."""
    lengths = (1, 2, 19, 20, 21, 39, 40, 41, 1000)
    for margin, ty, blank, length in product((0, 20), TYPES, (b" ", b"\t", b"\r"), lengths):
        options = encode_options(label_margin=margin, code_margin=margin)
        blanks = blank * length
        for text in (b"x" + blanks, blanks + b"x", blanks):
            line = [Chunk(ty, 0, text)]
            for chunks in (line, [code(b" "), *line], [label(blanks), comment(blank), *line], [*line, code(blanks)]):
                yield options, encode_chunks(chunks), (EXACT,)
                yield options, encode_chunks([*chunks, NEWLINE, NEWLINE, code(b"y", 2)]), (EXACT, ONE_SHORT)


def all_lists(seed, count):
    """(options, stored list, buffers) of every case, some of them twice."""
    for part in (
        samples,
        option_lengths,
        option_values,
        layout,
        damaged,
        high_bytes,
        boundaries,
        indents,
        buffers,
        every_small_list,
    ):
        yield from part()
    yield from random_lists(seed, count)
