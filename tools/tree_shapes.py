"""Stored trees built from the model's table of fields, so that no kind and no field is forgotten: every
place where a record may stand, the least record for it, the bytes of a tree round it, deep trees."""

from collections import namedtuple
from itertools import product

import streams  # finds the model's folder
import gen
import model as m
from gen import Node, encode
from model import EXPRESSIONS, FACTORS, LEAF, LIST, PATH_ITEM, TOKENS

# A place where a record of `type` may stand: field `name` of a record of `kind` that stands at the place
# `holder`, or an item where the name is None. The file's list has no holder.
Place = namedtuple("Place", "type holder kind name")

# The kind that a least record has where several may stand.
PLAIN = {TOKENS: 8, EXPRESSIONS: 29, FACTORS: 30}

# One trivia item of each code.
FOUR_CODES = [(0, b" "), (1, b""), (2, b"/**/"), (3, b"//")]


def slots_of(kind, type_):
    return [] if kind in (LIST, LEAF, PATH_ITEM) else m.slots_of(kind, type_)


def all_places():
    """Every field of every kind and every kind of item, each once, outer places first."""
    found, seen = [Place(m.TOKEN_LIST, None, None, None)], set()
    for place in found:
        for kind in place.type.kinds:
            # A list, and a record of kind 42, has different places by what it holds.
            if (kind, place.type.item) in seen:
                continue
            seen.add((kind, place.type.item))
            if kind == LIST:
                found.append(Place(place.type.item, place, kind, None))
            found += [Place(slot.type, place, kind, slot.name) for slot in slots_of(kind, place.type)]
    return found


PLACES = all_places()
# One place for each type, and for the file's list both of its places. Enums of equally many names are
# equal types in the model's table, but not the same.
TYPE_PLACES = list({(id(place.type), place.holder is None): place for place in reversed(PLACES)}.values())[::-1]
# For each kind a type whose records may have it.
TYPE_OF = {kind: place.type for place in reversed(PLACES) for kind in place.type.kinds}


def text_of(type_):
    """A text that a leaf of this type may have."""
    what, *value = type_.leaf
    return {"str": b"x", "char": b"(", "fixed": bytes(value), "enum": b"\0", "unit": None}[what]


def least(type_, kind=None):
    """The record with no trivia and no field that may be absent; a list has no items."""
    kind = PLAIN.get(type_.kinds, type_.kinds[0]) if kind is None else kind
    node = Node(kind, type_)
    if kind in (LEAF, PATH_ITEM):
        node.text = text_of(type_)
    for slot in slots_of(kind, type_):
        node.fields[slot.name] = None if slot.optional else least(slot.type)
    return node


def stand(node, name, value):
    """Gives a record a field; the two fields of an else come together."""
    node.fields[name] = value
    if node.kind == 10 and name in ("tag_else", "else_"):
        for slot in slots_of(10, None):
            if slot.optional and node[slot.name] is None:
                node.fields[slot.name] = least(slot.type)


def holding(kind, **fields):
    """A least token with some fields of our own."""
    token = least(m.TOKEN, kind)
    for name, value in fields.items():
        stand(token, name, value)
    return token


def choices(type_, kind):
    """A record of this kind with each choice of its optional fields, the fullest last; a list with no item
    and with two; a leaf with and without its text, where it may be absent."""
    if kind == LIST:
        for count in (0, 2):
            node = least(type_, kind)
            node.items = [least(type_.item) for _ in range(count)]
            yield node
        return
    if kind in (LEAF, PATH_ITEM) and type_.leaf[0] == "str":
        yield Node(kind, type_)
    optional = [slot for slot in slots_of(kind, type_) if slot.optional]
    for chosen in product((False, True), repeat=len(optional)):
        if kind == 10 and len(set(chosen)) == 2:
            continue
        node = least(type_, kind)
        for slot, stands in zip(optional, chosen):
            if stands:
                node.fields[slot.name] = least(slot.type)
        yield node


def whole(place, node):
    """The tree that has this record at a place, and otherwise least records."""
    while place.holder is not None:
        outer = least(place.holder.type, place.kind)
        if place.name is None:
            outer.items = [node]
        else:
            stand(outer, place.name, node)
        node, place = outer, place.holder
    return node


def around(place):
    """The bytes of a tree before and behind the record at a place."""
    mark = Node(PATH_ITEM, None)
    mark.text = b"\xff" * 9
    before, behind = encode(whole(place, mark)).split(encode(mark))
    return before, behind


def with_trivia(record, trivia):
    """A stored record without trivia, given some."""
    return bytes([record[0], record[1] | 1]) + gen.encode_trivia(trivia) + record[2:]


# ------------------------------------------------------------ deep trees


def height(node):
    return 1 + max((height(child) for child in node.children()), default=0)


def in_parentheses(inner):
    return gen.rec(29, factor=gen.rec(31, lparen=gen.leaf(b"("), inner=inner, rparen=gen.leaf(b")")))


def in_left_side(inner):
    return gen.rec(28, op=least(m.BINARY_OP), lhs=inner, rhs=least(m.LEXPR))


def in_right_side(inner):
    return gen.rec(28, op=least(m.BINARY_OP), lhs=least(m.LEXPR), rhs=inner)


def in_arguments(inner):
    call = least(m.LFACTOR, 32)
    call["args"].items = [gen.arg(inner)]
    return gen.rec(29, factor=call)


def in_braces(token):
    return gen.braces(token)


def in_definition(token):
    return gen.rec(6, tag=gen.leaf(), id=gen.leaf(), value=token)


def in_pair(token):
    return gen.rec(4, key=gen.leaf(), eq=gen.leaf(b"="), value=token)


def in_else(token):
    choice = least(m.TOKEN, 10)
    stand(choice, "else_", gen.block(token))
    return choice


TOKEN_FORMS = [in_braces, in_definition, in_pair, in_else]
EXPRESSION_FORMS = [in_parentheses, in_left_side, in_right_side, in_arguments]


def nested(form, core, levels):
    """A record nested in one form as often as the levels allow."""
    while height(form(core)) <= levels:
        core = form(core)
    return core


def deep_token(form, levels):
    """A token of exactly this height, nested in one form as far as that goes, and for the rest in
    definitions, of which each adds one level."""
    if form in EXPRESSION_FORMS:
        token = gen.rec(0, tag=gen.leaf(), value=nested(form, least(m.LEXPR), levels - 1))
    else:
        token = nested(form, least(m.TOKEN), levels)
    while height(token) < levels:
        token = in_definition(token)
    return token
