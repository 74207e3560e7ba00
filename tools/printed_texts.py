"""Makes the table of crates/events/proofs/PrintedTexts.antt: what the Rust prints for each index of each enum, under
each choice of the two casings.

    python3 tools/printed_texts.py ORACLE                prints it
    python3 tools/printed_texts.py ORACLE --check FILE   stops unless FILE has just this table

A small tree is made for each index, and the leaf's text is cut out of the chunks that the Rust gives for it. An enum
ends where the oracle refuses the next index."""

import sys
from collections import namedtuple
from itertools import product

from antt_rows import deliver, listed, quoted, table
from streams import ask_oracle
from tree_shapes import holding

import gen
import model as m

# The casings of mnemonics and of registers: 0 is upper, 1 lower.
CASINGS = list(product((0, 1), repeat=2))
# The text of each leaf round the one that is asked for; no enum prints it.
MARK = b"~"

# How a leaf prints, the class of its record, how many marks the token prints before it, and the token that holds it.
Style = namedtuple("Style", "name leaf_class marks token")


def expression(record):
    return gen.rec(9, expr=record)


def factor(kind, **fields):
    return expression(gen.rec(29, factor=gen.rec(kind, **fields)))


def suffixed(leaf):
    suffix = gen.rec(38, comma=gen.leaf(MARK), register=leaf)
    return holding(13, operand=gen.rec(37, expr=gen.ident(), addressing_mode=gen.leaf(b"\0"), suffix=suffix))


def operated(leaf):
    return expression(gen.rec(28, op=leaf, lhs=gen.ident(MARK), rhs=gen.ident(MARK)))


def encoded(leaf):
    return holding(21, tag=gen.leaf(MARK), encoding=leaf, text=gen.ident(MARK))


STYLES = [
    Style("mnemonic", "Mnemonic", 0, lambda leaf: holding(13, mnemonic=leaf)),
    Style("register", "IndexRegister", 1, suffixed),
    Style("operator", "BinaryOp", 1, operated),
    Style("data_size", "DataSize", 0, lambda leaf: holding(5, size=leaf)),
    Style("encoding", "TextEncoding", 1, encoded),
    Style("variable_type", "VariableType", 0, lambda leaf: holding(23, ty=leaf, id=gen.leaf(MARK))),
    Style("number_type", "NumberType", 0, lambda leaf: factor(34, ty=leaf, value=gen.leaf(MARK))),
    Style("modifier", "AddressModifier", 0, lambda leaf: factor(33, modifier=leaf, path=gen.leaf(MARK))),
]


def leaf_text(style, chunks):
    """What the chunks have between the marks, without the spaces round it."""
    texts, at = b"", 0
    while at < len(chunks):
        chunk, at, _ = m.read_one_chunk(chunks, at)
        texts += chunk.text
    return texts.split(MARK)[style.marks].strip(b" ")


def texts_of(oracle, style, casings):
    """The texts of an enum, first to last."""
    options = m.encode_options(mnemonic_casing=casings[0], register_casing=casings[1])
    trees = [gen.encode(gen.lst(style.token(gen.leaf(bytes([index]))))) for index in range(256)]
    given = ask_oracle(oracle, b"c", [(options, tree) for tree in trees])
    end = next(index for index, chunks in enumerate(given) if isinstance(chunks, tuple))
    assert all(isinstance(chunks, tuple) and chunks[0] == 5 for chunks in given[end:]), style
    return tuple(leaf_text(style, chunks) for chunks in given[:end])


def rows(oracle):
    """A row for each enum and each list of texts that it has, with the casings under which it has them."""
    for style in STYLES:
        found = {}
        for casings in CASINGS:
            found.setdefault(texts_of(oracle, style, casings), []).append("({}, {})".format(*casings))
        for texts, casings in found.items():
            parts = [f"row {style.name} {style.leaf_class} ({listed(casings)})", f"({listed(map(quoted, texts))})"]
            yield f"{len(texts)} texts", parts


def main():
    deliver([table("rows", rows(sys.argv[1]))])


if __name__ == "__main__":
    main()
