"""The trees of the stored stream: what `stored_cases.py` asks of the tree's check.

Each function below gives stored trees, valid and damaged; model and oracle say which is which. A part
that changes one record does so at a place of its own in an otherwise least tree (tree_shapes.py)."""

from itertools import product

import streams  # finds the model's folder
import cases as model_cases
import gen
import model as m
from gen import encode, encode_trivia, two
from model import LEAF, LIST, MAX_DEPTH, MAX_TREE, PATH_ITEM
from tree_shapes import (
    EXPRESSION_FORMS, FOUR_CODES, PLACES, TOKEN_FORMS, TYPE_OF, TYPE_PLACES,
    around, choices, deep_token, least, slots_of, whole, with_trivia,
)

SAMPLE = bytes([24, 0, 1, 0, 13, 2, 25, 2, 1, 0, 33])
FULL_TREES = [encode(tree) for tree in model_cases.full_trees()]


def refusal_of(tree):
    """The refusal that the model gives, or None."""
    try:
        m.check_tree(tree)
    except m.Refusal as refusal:
        return refusal
    return None


def in_place(place, records):
    """Trees with each of these stored records at a place."""
    before, behind = around(place)
    for record in records:
        yield before + record + behind


def samples():
    """Document 01's sample, the file of no tokens, no bytes, and two tokens of each kind."""
    yield from (SAMPLE, b"\x18\0\0\0", b"")
    for kind in m.TOKENS:
        yield encode(gen.lst(model_cases.one_of(kind), model_cases.one_of(kind, True)))


def every_kind():
    """Every kind at every place where it may stand, with each choice of its optional fields."""
    for place in PLACES:
        for kind in place.type.kinds:
            for node in choices(place.type, kind):
                yield encode(whole(place, node))


def kinds():
    """For each type: a record of every kind, a leaf and a path item without text, and kinds that are none."""
    for place in TYPE_PLACES:
        records = [encode(least(TYPE_OF[kind], kind)) for kind in range(43)]
        yield from in_place(place, records + [bytes([kind, 0]) for kind in (LEAF, PATH_ITEM, 43, 127, 128, 255)])


def maps():
    """For each type and kind: each bit of the map the other way, in the least and in the fullest record, with
    the fields as they were; each field that must stand left out; and all maps of a leaf's lowest three bits."""
    for place in TYPE_PLACES:
        for kind in place.type.kinds:
            for node in (least(place.type, kind), [*choices(place.type, kind)][-1]):
                record = encode(node)
                changed = [bytes([kind, record[1] ^ 1 << bit]) + record[2:] for bit in range(8)]
                if kind in (LEAF, PATH_ITEM):
                    changed += [bytes([kind, bits]) + record[2:] for bits in range(8)]
                for slot in slots_of(kind, place.type):
                    kept, node.fields[slot.name] = node[slot.name], None
                    changed.append(encode(node))
                    node.fields[slot.name] = kept
                yield from in_place(place, changed)


def trivia_places():
    """Trivia of all four codes at every place, on every kind that may stand there, whether or not it may have any."""
    for place in PLACES:
        for kind in place.type.kinds:
            yield from in_place(place, [with_trivia(encode(least(place.type, kind)), FOUR_CODES)])


def trivia_alone():
    """Every leaf with trivia and no text, whether or not the text may be absent."""
    for place in TYPE_PLACES:
        kinds_here = [kind for kind in place.type.kinds if kind in (LEAF, PATH_ITEM)]
        yield from in_place(place, [with_trivia(bytes([kind, 0]), FOUR_CODES) for kind in kinds_here])


def trivia_faults():
    """For each type and kind that may have trivia: each code with texts of 0, 1 and 2 bytes; a count of 0, one
    too many and one too few; codes past the last; a length one too long and one far past the end; bytes
    above 127 (7). Then counts and lengths of 128 and more, which are no texts, and of more than 255."""
    for place in TYPE_PLACES:
        for kind in place.type.kinds:
            if not m.may_have_trivia(kind, place.type):
                continue
            record = encode(least(place.type, kind))
            head, rest = bytes([kind, record[1] | 1]), record[2:]
            trivia = [two(1) + bytes([code]) + two(n) + b"\t\n"[:n] for code in range(6) for n in range(3)]
            newlines = ((0, 0), (0, 1), (1, 1), (2, 1), (3, 2), (1, 2))
            trivia += [two(count) + b"\1" * stored for count, stored in newlines] + [two(1) + b"\xff"]
            trivia += [two(1) + bytes([code]) + two(n) + b"a" for code in (0, 2, 3) for n in (2, 65535)]
            trivia += [two(1) + bytes([code]) + two(2) + text for code in (0, 2, 3) for text in (b"\x80a", b"a\xff")]
            yield from in_place(place, [head + stored + rest for stored in trivia])
    before, behind = around(next(place for place in PLACES if place.type == m.UNIT))
    long, newline, high = (2, b"c" * 300), (1, b""), (3, b"a\x80")
    many = ([newline] * 128, [newline] * 256, [newline] * 300 + [high])
    for trivia in many + ([long] + [(2, b"c" * 200)] * 2, [long, high], [(0, b"c" * 300 + b"\xff")]):
        yield before + b"\x19\1" + encode_trivia(trivia) + behind


def texts():
    """For each type of leaf: no text, an empty one, one byte, two bytes, a length past the end. One byte runs
    over the values round each bound: those of an enum, of a brace or colon, and 128 (5 or 7 by the type)."""
    for place in TYPE_PLACES:
        if place.type.leaf is None:
            continue
        bounds = {0, 55, 56, 57, 58, 59, 122, 123, 124, 125, 126, 127, 128, 186, 251, 255}
        if place.type.leaf[0] == "enum":
            bounds |= {place.type.leaf[1] + more for more in (-1, 0, 1)}
        stored = [two(1) + bytes([byte]) for byte in sorted(bounds)]
        stored += [b"", b"\1", two(0), two(0) + b"\0", two(2) + b"\0\0", two(2) + b"{}"]
        stored += [two(257) + b"\0", two(65535) + b"\0"]
        kinds_here = [kind for kind in place.type.kinds if kind in (LEAF, PATH_ITEM)]
        yield from in_place(place, [bytes([kind, 2]) + text for kind in kinds_here for text in stored])
        yield from in_place(place, [bytes([kind, 0]) for kind in kinds_here])
        if place.type.leaf[0] == "str":
            long = (two(length) + b"x" * length for length in (127, 128, 255, 256, 300))
            yield from in_place(place, [bytes([kinds_here[-1], 2]) + text for text in long])


def leaf_types():
    """At every place of a leaf what tells its type from every other: no text, two bytes, and one byte at the bounds
    of the type."""
    for place in PLACES:
        if LEAF not in place.type.kinds:
            continue
        what, *value = place.type.leaf
        bounds = {"enum": (-1, 0), "fixed": (0, 1)}.get(what, (0, 128))
        single = [bytes([sum(value) + more]) for more in bounds]
        yield from in_place(place, [b"\x19\0"] + [b"\x19\2" + two(len(text)) + text for text in single + [b"xx"]])


def counts():
    """For each type of list: no item to three, each with a count that is right, too small and too large, and
    many items where the count has a high byte."""
    for place in TYPE_PLACES:
        if LIST not in place.type.kinds:
            continue
        item = encode(least(place.type.item))
        for items, count in product(range(4), (0, 1, 2, 3, 4, 256, 65535)):
            yield from in_place(place, [b"\x18\0" + two(count) + item * items])
        yield from in_place(place, [b"\x18\0" + two(count) + item * 128 for count in (127, 128, 129)])
    error = encode(gen.error(None))
    for items, count in ((256, 256), (257, 257), (256, 255), (256, 257)):
        yield b"\x18\0" + two(count) + error * items


def cuts():
    """Every token with all its fields, cut at every byte. The longest part comes first: `replay` reads each into the
    same buffer, so behind its end stand the bytes that were cut off, and a check that looked there would be seen."""
    with_trivia_last = [encode(gen.lst(gen.eof(trivia))) for trivia in (FOUR_CODES, FOUR_CODES[:2])]
    for tree in FULL_TREES + with_trivia_last:
        for length in range(len(tree), -1, -1):
            yield tree[:length]


def changed_bytes():
    """Three of these trees with every byte changed."""
    for tree in FULL_TREES[10], FULL_TREES[13], FULL_TREES[24]:
        for at, byte in enumerate(tree):
            for other in (0, 128, byte ^ 1):
                yield tree[:at] + bytes([other]) + tree[at + 1 :]


def bytes_behind():
    """Bytes behind the list: one, a token, a list; also behind a text above 127, where 5 is told and not 7."""
    high = encode(gen.lst(gen.error(b"\x80")))
    for tree in (b"\x18\0\0\0", SAMPLE, high, *FULL_TREES):
        for more in (b"\0", b"\x18", b"\xff", SAMPLE[4:], SAMPLE):
            yield tree + more


def depths():
    """Trees of 63 to 66 levels in each form of nesting. Where one is refused by 4: the same with a kind there
    that is none (still 4), with no byte there (5), with a fault in the record before (5), with a byte above 127
    before (still 4), and bytes behind the list."""
    for form in TOKEN_FORMS + EXPRESSION_FORMS:
        for levels in range(MAX_DEPTH - 1, MAX_DEPTH + 3):
            token = encode(deep_token(form, levels - 1))
            tree = b"\x18\0\1\0" + token
            yield tree
            yield b"\x18\0\2\0" + encode(gen.error(b"\x80")) + token
            refusal = refusal_of(tree)
            if refusal is None:
                yield b"\x18\0\2\0" + token + encode(gen.error(b"\x80"))
                yield b"\x18\0\2\0" + token
                yield tree + b"\0"
                continue
            at = refusal.place
            yield from (tree[:at], tree[: at + 1], tree[:at] + b"\xff" + tree[at + 1 :], tree + b"\0")
            yield tree[: at - 2] + b"\xff" + tree[at - 1 :]
            yield b"\x18\0\2\0" + token + b"\xff"


def lengths():
    """Trees of 65,535 bytes: of three records and of 32,765, and one refused by 7 at its last byte; and one of 65,536,
    refused by 3 although its first record is wrong."""
    longest = model_cases.error_tree(MAX_TREE)
    yield longest
    yield longest[:-1] + b"\x80"
    short, last = encode(gen.error(None)), encode(gen.error(b"e"))
    yield b"\x18\0" + two(16382) + short * 16381 + last
    yield b"\xff" + model_cases.error_tree(MAX_TREE + 1)[1:]


def high_bytes():
    """A byte above 127 in each text of every token (7, or 5 where the text is an enum's, a brace or a colon), in two
    texts (the first is told), and before a cut (5)."""
    for tree in FULL_TREES:
        reading = m.check_tree(tree)
        texts_at = [record.text_off for record in m.records(reading) if record.text is not None]
        for number, at in enumerate(texts_at):
            high = tree[:at] + b"\x80" + tree[at + 1 :]
            yield high
            yield high[:-1]
            for later in texts_at[number + 1 :][:2]:
                yield high[:later] + b"\xff" + high[later + 1 :]


def high_before_fields():
    """A byte above 127 in the trivia of a record and in a text of its fields: the trivia come first; in the first of
    two trivia, and in the second alone."""
    high, plain = (2, b"a\x80"), (3, b"//")
    for place in TYPE_PLACES:
        for kind in place.type.kinds:
            if m.may_have_trivia(kind, place.type) and slots_of(kind, place.type):
                record = encode(raised(least(place.type, kind)))
                trivia = ([high, plain], [plain, high], [high, high], [plain])
                yield from in_place(place, [with_trivia(record, items) for items in trivia])


def raised(node):
    """The record with a byte above 127 as the text of every leaf that may have one."""
    if node.kind == LEAF and node.type.leaf[0] in ("str", "char"):
        node.text = b"\xff"
    for child in node.children():
        raised(child)
    return node


def two_faults():
    """Two wrong bytes in records of one tree: the first in reading order is told, so a record's own bytes come before
    its fields and fields go from left to right."""
    for tree in FULL_TREES[10], FULL_TREES[24], FULL_TREES[25]:
        starts = [record.off for record in m.records(m.check_tree(tree))]
        for first, second in product(starts[:12], starts[:12]):
            if first < second:
                yield tree[:first] + b"\xff" + tree[first + 1 : second] + b"\xff" + tree[second + 1 :]
                yield tree[: first + 1] + b"\x80" + tree[first + 2 : second] + b"\xff" + tree[second + 1 :]


def random_trees(seed, count):
    """Random trees of at most 250 bytes, every second one damaged."""
    g = gen.Gen(seed)
    made = 0
    while made < count:
        tree = encode(g.any_tree(high=g.chance(0.2)))
        if len(tree) > 250:
            continue
        made += 2
        yield tree
        yield g.damaged_tree(tree)


def all_trees(seed, count):
    """Every tree, some of them twice."""
    for part in (
        samples,
        every_kind,
        kinds,
        maps,
        trivia_places,
        trivia_alone,
        trivia_faults,
        texts,
        leaf_types,
        counts,
        cuts,
        changed_bytes,
        bytes_behind,
        depths,
        lengths,
        high_bytes,
        high_before_fields,
        two_faults,
    ):
        yield from part()
    yield from random_trees(seed, count)


# ------------------------------------------------------------ what the accepted trees have to cover


def covered_by(tree):
    """What an accepted tree has, in the terms of `to_cover`."""

    def visit(record, holder, name):
        place = holder, name, record.type
        yield place, record.kind
        for trivium in record.trivia:
            yield place, record.kind, f"trivia {trivium.code}"
        if record.kind in (LEAF, PATH_ITEM) and record.text is None:
            yield place, record.kind, "no text"
        for field, part in record.fields.items():
            if part is None:
                yield record.kind, field, "absent"
            else:
                yield from visit(part, record.kind, field)
        for item in record.items:
            yield from visit(item, LIST, None)

    return set(visit(m.check_tree(tree), None, None))


def to_cover():
    """Every kind at every place where it may stand; there trivia of each code, where it may have any, and
    no text, where that may be absent; and each field that may be absent."""
    for place in PLACES:
        at = place.kind, place.name, place.type
        for kind in place.type.kinds:
            yield at, kind
            if m.may_have_trivia(kind, place.type):
                yield from ((at, kind, f"trivia {code}") for code in range(4))
            if kind in (LEAF, PATH_ITEM) and place.type.leaf[0] in ("str", "unit"):
                yield at, kind, "no text"
            yield from ((kind, slot.name, "absent") for slot in slots_of(kind, place.type) if slot.optional)


def not_covered(accepted):
    """What is to be covered and no accepted tree has."""
    left = set(to_cover())
    for tree in accepted:
        left -= covered_by(tree)
    return left
