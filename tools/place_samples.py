"""Makes the table of crates/reading/proofs/PlaceSamples.antt: which place a comment on a record of sample trees uses,
and where it stands in reading order.

    python3 tools/place_samples.py ORACLE                prints it
    python3 tools/place_samples.py ORACLE --check FILE   stops unless FILE has just this table

Places and reading order come from the model of document 01. The script stops unless the oracle accepts each tree and
reads both alike, and unless the Rust's text has the ink of the reading order just where no place is used that loses
ink. A record is tried once in each role that it can have: so every field of every kind is among them."""

import sys
from collections import namedtuple

from antt_rows import deliver, listed, numbers, quoted, table
from lesson_cases import KINDS
from streams import ask_oracle
from tree_shapes import PLAIN, holding, least, slots_of, stand, with_trivia

import gen
import model as m
from model import FACTORS, LEAF, LIST, PATH_ITEM, TOKENS

# Trivia with comments of both codes, and trivia without one.
NOTED = [(1, b""), (2, b"/**/"), (3, b"//")]
COMMENTS = b"/**///"
BLANK = [(0, b" "), (1, b"")]

SPOTS = dict(zip("abcdefgh", """opening_brace label_colon value_head import_path path_item register_letter expression_head
    closing_character""".split()))

# The casings of mnemonics and of registers: 0 is upper, 1 lower.
LOWER = (1, 1)
CASINGS = [(0, 0), (0, 1), (1, 0), LOWER, LOWER]

# A tree under casings, with what it is.
Sample = namedtuple("Sample", "name tree casings", defaults=[LOWER])
# A tree with trivia at one record or at none, the places that it uses as (letter, offset), and its reading order.
Read = namedtuple("Read", "tree uses order")


# ------------------------------------------------------------ sample trees


def filled(type_):
    """A least record, or a list with an item of each kind that may stand in it, of tokens an `Error`."""
    node = least(type_)
    if node.kind == LIST:
        kinds = [PLAIN[TOKENS]] if type_.item.kinds == TOKENS else type_.item.kinds
        node.items = [full(type_.item, kind) for kind in kinds]
    return node


def full(type_, kind=None):
    """The record with all of its fields."""
    node = least(type_, kind)
    for slot in slots_of(node.kind, type_):
        stand(node, slot.name, filled(slot.type))
    return node


def named(node, words, characters):
    """Gives each free text and each free character of a tree a letter of its own, in stored order."""
    if node.kind in (LEAF, PATH_ITEM) and node.text is not None and node.type.leaf[0] in ("str", "char"):
        node.text = bytes([next(words if node.type.leaf[0] == "str" else characters)])
    for child in node.children():
        named(child, words, characters)
    return node


def file(*tokens):
    """The bytes of a file."""
    return gen.encode(named(gen.lst(*tokens), iter(b"abcdefghijklmnopqrstuvwxyz"), iter(b"ABCDEFGHIJKLMNOPQRSTUVWXYZ")))


def operated(mode, closed):
    """An instruction whose operand has an addressing mode, with or without a closing character."""
    operand = full(m.OPERAND)
    operand["addressing_mode"].text = bytes([mode])
    if not closed:
        operand.fields["rchar"] = None
    return holding(13, operand=operand)


def factor(kind):
    return gen.rec(29, m.LEXPR, factor=full(m.LFACTOR, kind))


def block():
    """A block with `Braces`, `Config` and an `Expression` in it."""
    node = least(m.BLOCK)
    node["inner"].items = [least(m.TOKEN, kind) for kind in (2, 3, 9)]
    return node


def token_samples():
    """Each kind of token in a list and as a value; as a pair's value those whose brace or expression makes a
    difference, and one that stands for all others."""
    for kind in TOKENS:
        yield Sample(f"{KINDS[kind]} in a list", file(full(m.TOKEN, kind)))
    for kind in TOKENS:
        yield Sample(f"{KINDS[kind]} as a definition's value", file(holding(6, value=least(m.TOKEN, kind))))
    for kind in (2, 3, 9, 13):
        yield Sample(f"{KINDS[kind]} as a pair's value", file(holding(4, value=least(m.LTOKEN, kind))))


def part_samples():
    """The kinds that are no tokens."""
    yield Sample("a block", file(holding(2, block=full(m.BLOCK))))
    yield Sample("a string", file(holding(12, filename=full(m.ISTRING))))
    yield Sample("an operand", file(operated(0, False)))
    for mode, casings in enumerate(CASINGS):
        yield Sample(f"an operand of mode {mode} with a closing character", file(operated(mode, True)), casings)
    yield Sample("signs before a factor", file(holding(0, value=full(m.LEXPR, 29))))
    for kind in FACTORS:
        yield Sample(f"{KINDS[kind].replace('_', ' ')} in an expression", file(holding(0, value=factor(kind))))
    yield Sample("a binary expression", file(holding(0, value=full(m.LEXPR, 28))))
    yield Sample("a binary expression in a list", file(holding(9, expr=full(m.EXPR, 28))))
    yield Sample("a binary expression as a value", file(holding(6, value=holding(9, expr=full(m.EXPR, 28)))))
    yield Sample("an import of all", file(holding(11, args=full(m.IMPORT_ARGS, 40))))
    paths = gen.lst(*[full(m.IMPORT_ARG_LIST.item) for _ in range(2)], type_=m.IMPORT_ARGS)
    for path in paths.items:
        path.fields["value"] = full(m.IMPORT_ARG_LIST.item.item)
    yield Sample("an import of paths", file(holding(11, args=paths)))


def block_samples():
    """Tokens in blocks that stand in a list, that are no tokens, that are a value."""
    yield Sample("tokens in a block in a list", file(holding(2, block=block())))
    yield Sample("tokens in a block that is no token", file(holding(15, block=block())))
    yield Sample("tokens in a block that is a value", file(holding(6, value=holding(2, block=block()))))


# ------------------------------------------------------------ their rows


def options_of(casings):
    return m.encode_options(mnemonic_casing=casings[0], register_casing=casings[1])


def read(tree, casings):
    rec = m.check_tree(tree)
    uses = sorted((letter, record.off) for record, letter in m.place_records(rec))
    return Read(tree, uses, m.reading_order(rec, m.parse_options(options_of(casings))))


def variants(sample):
    """The tree with comments, and with blank trivia, on each record that may have trivia; with the record."""
    for rec in m.records(m.check_tree(sample.tree)):
        if m.may_have_trivia(rec.kind, rec.type):
            front, behind = sample.tree[: rec.off], sample.tree[rec.off :]
            yield rec, *[read(front + with_trivia(behind, trivia), sample.casings) for trivia in (NOTED, BLANK)]


def compare(oracle, sample):
    """Stops where the oracle reads one of a tree's variants otherwise, or the Rust's ink does not tell a place."""
    reads = [variant for _, *both in variants(sample) for variant in both]
    queries = [(options_of(sample.casings), variant.tree) for variant in reads]
    orders, places, texts = (ask_oracle(oracle, command, queries) for command in (b"r", b"p", b"f"))
    for variant, order, letters, text in zip(reads, orders, places, texts, strict=True):
        used = {letter for letter, _ in variant.uses}
        assert order == variant.order and set(letters.decode()) == used, (variant, order, letters)
        assert (m.ink(order) == m.ink(text)) == (not used - {"f"}), (variant, text)


def roles(rec, path=(), field=None, special=()):
    """The role of each record, by its offset: the kind and the field that hold it, and its own kind; of the head of a
    token and of the opening brace of its block also the token and the kinds above; of a closing character the mode."""
    if rec.kind in TOKENS:
        braces = [child["lparen"] for child in rec.children() if child.kind == 27]
        special = {part.off: (*path, rec.kind) for part in [m.head_of(rec), *braces]}
    if rec.kind == 37 and rec["rchar"]:
        special = {rec["rchar"].off: rec["addressing_mode"].text}
    found = {rec.off: (path[-1:], field, rec.kind, rec.off in special and special[rec.off])}
    for name, child in rec.fields.items() if rec.fields else [(None, item) for item in rec.items]:
        if child is not None:
            found |= roles(child, (*path, rec.kind), name, special)
    return found


def shown(uses):
    named = [f"used {offset} {SPOTS[letter]}" for letter, offset in uses]
    return f"({listed(named)})" if named else "[]"


def notes_of(order, rec, noted, blank):
    """What comments on a record use, and how much is read before them; where they use a place, what blanks use."""
    before = noted.order.index(COMMENTS)
    assert noted.order == order[:before] + COMMENTS + order[before:] and blank.order == order, noted
    yield f"note {rec.off} {before} {shown(noted.uses)}"
    if noted.uses:
        yield f"space {rec.off} {shown(blank.uses)}"


def row(sample, known):
    """A row for the records of a tree whose roles are not known yet, or None."""
    order = read(sample.tree, sample.casings).order
    role = roles(m.check_tree(sample.tree))
    notes = []
    for rec, *trivia in variants(sample):
        if role[rec.off] not in known:
            known.add(role[rec.off])
            notes += notes_of(order, rec, *trivia)
    casings = "lower" if sample.casings == LOWER else "(casings {} {})".format(*sample.casings)
    parts = [f"row {casings} ({numbers(sample.tree)})", quoted(order), f"({listed(notes)})"]
    return notes and (sample.name, parts)


def main():
    made, known = [*token_samples(), *part_samples(), *block_samples()], set()
    for sample in made:
        compare(sys.argv[1], sample)
    deliver([table("rows", filter(None, [row(sample, known) for sample in made]))])


if __name__ == "__main__":
    main()
