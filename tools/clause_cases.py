"""Cases of the walk and of the search for lost comments, a part for each sort of clause of the definitions: each gives
an answer that changes when a clause of its sort is changed (mutants.py tries that)."""

from itertools import product

import streams  # finds the model's folder
import cases as model_cases
import gen
import model as m
from gen import Node, encode
from model import EXPRESSIONS, LEAF, LIST, PATH_ITEM, TOKENS, encode_options
from tree_shapes import PLACES, TYPE_PLACES, choices, in_definition, in_pair, least, slots_of, whole

CASINGS = [encode_options(mnemonic_casing=first, register_casing=second) for first, second in product((0, 1), repeat=2)]
BRACES = [encode_options(brace=0), encode_options(brace=1)]

COMMENT, LINE_COMMENT, NEWLINE, WHITESPACE = (2, b"/**/"), (3, b"//"), (1, b""), (0, b" ")


def enum_leaf(type_, index):
    node = Node(LEAF, type_)
    node.text = bytes([index])
    return node


def printed_texts():
    """A list for each enum with all its texts, under all four pairs of casings."""
    for place in TYPE_PLACES:
        if place.type.leaf and place.type.leaf[0] == "enum":
            leaves = (enum_leaf(place.type, index) for index in range(place.type.leaf[1]))
            tree = gen.lst(*(whole(place, leaf).items[0] for leaf in leaves))
            yield from ((options, tree) for options in CASINGS)


def token_forms():
    """A token of each kind, and with a block where that may be absent."""
    for kind in TOKENS:
        forms = [*choices(m.TOKEN, kind)]
        yield forms[0]
        if "block" in forms[0].fields and forms[0]["block"] is None:
            yield forms[-1]


def neighbours():
    """Every token behind every token in the file's list; every token last in a block."""
    forms = [*token_forms()]
    for form in forms:
        yield b"\0", gen.lst(*(token for other in forms for token in (form, other)))
        yield b"\0", gen.lst(gen.braces(form))


def hollow(node):
    """The same record with no text where that may be, and with expressions that print nothing."""
    if node.kind in EXPRESSIONS:
        return gen.ident(None)  # prints nothing
    made = Node(node.kind, node.type)
    made.text = None if node.kind in (LEAF, PATH_ITEM) and node.type.leaf == ("str",) else node.text
    made.items = [hollow(item) for item in node.items]
    made.fields = {name: field and hollow(field) for name, field in node.fields.items()}
    return made


def behind_each():
    """Each token with each choice of its optional fields, whole and hollow, before an error, which begins no line, so
    that a space that is pending shows: in the file's list, as a value, before an error of no text; last in a block."""
    for kind in TOKENS:
        for node in choices(m.TOKEN, kind):
            for token, options in product((node, hollow(node)), BRACES):
                yield options, gen.lst(token, gen.error(b"e"))
            for holder in (in_definition, in_pair):
                yield b"\0", gen.lst(holder(hollow(node)), gen.error(b"e"))
            yield b"\0", gen.lst(hollow(node), gen.error(None), gen.error(b"e"))
            yield b"\0", gen.lst(gen.braces(hollow(node)))


def in_lists():
    """Lists of arguments of each sort, with values that print nothing behind a comma, before one, and last; and the
    expressions that may print nothing, behind a space that is pending."""
    for place in TYPE_PLACES:
        if LIST in place.type.kinds and place.type.item.kinds == (42,):
            for texts in product((b"x", None), repeat=3):
                values = [valued(place.type.item.item, text) for text in texts]
                items = [gen.arg(value, gen.leaf(b","), place.type.item) for value in values]
                items[-1].fields["comma"] = None
                yield b"\0", whole(place, gen.lst(*items, type_=place.type))
    for value in (gen.ident(None), gen.num(None), gen.num(None, 0)):
        yield b"\0", gen.lst(gen.text_(value), gen.error(b"e"))


def valued(type_, text):
    """The value of an argument with this text."""
    if type_.kinds == EXPRESSIONS:
        return gen.ident(text)
    node = least(type_)
    leaf = node if node.kind == LEAF else node["path"]
    leaf.text = text
    return node


def block_ends():
    """What stands first and last in a block, where chunks that are exactly a newline are dropped, whatever they came
    from: newlines, comments, errors, and what is nearly such a chunk."""
    trivia = [NEWLINE, (2, b"\n"), (3, b"\n"), (2, b"\n\n"), (2, b" \n"), (2, b""), WHITESPACE, COMMENT]
    errors = [gen.error(text) for text in (b"\n", b"\n\n", b" ", b"e")]
    for first, second in product(trivia, repeat=2):
        yield b"\0", gen.lst(gen.braces(gen.error(b"e", [first, second])), gen.error(b"f"))
        yield b"\0", gen.lst(gen.braces(gen.error(b"e"), rtrivia=[first, second]), gen.error(b"f"))
    for first, second in product(errors, repeat=2):
        yield b"\0", gen.lst(gen.braces(first, second), gen.error(b"f"))
        yield b"\0", gen.lst(gen.error(b"\n"), gen.braces(first, rtrivia=[NEWLINE, COMMENT]), second)
    for one in trivia:
        yield b"\0", gen.lst(gen.error(b"\n", [one]), gen.braces(rtrivia=[one]), gen.braces(gen.eof([one])))


def listed(token):
    return token


HOLDERS = [listed, gen.braces, in_definition, in_pair]


def heads():
    """Each token with a comment on its head, and with whitespace and newlines alone: in the file's list, in a block's
    list, as the value of a definition and of a pair."""
    tokens = [(kind, form) for kind in TOKENS for form in (least, other_expression)]
    for (kind, form), holder, trivia in product(tokens, HOLDERS, ([COMMENT], [LINE_COMMENT], [WHITESPACE, NEWLINE])):
        token = form(m.TOKEN, kind)
        if token is not None:
            m.head_of(token).trivia = trivia
            yield gen.lst(holder(token))


def other_expression(type_, kind):
    """The token Expression with two sides, which least has with one factor."""
    return gen.rec(9, expr=least(m.EXPR, 28)) if kind == 9 else None


def operands():
    """An operand of each mode, with and without its closing character, a comment on it and a suffix."""
    for mode, closing, suffix in product(range(5), (None, [], [COMMENT], [WHITESPACE, NEWLINE]), (False, True)):
        rchar = None if closing is None else gen.leaf(b")", closing)
        behind = least(m.SUFFIX) if suffix else None
        operand = gen.rec(37, expr=gen.ident(), lchar=gen.leaf(b"("), rchar=rchar, suffix=behind)
        operand.fields["addressing_mode"] = enum_leaf(m.ADDRESSING_MODE, mode)
        yield gen.lst(gen.mn(operand=operand))


def alone():
    """At every place where trivia may stand, on every kind: a comment of each code alone, and none."""
    for place in PLACES:
        for kind in place.type.kinds:
            if m.may_have_trivia(kind, place.type):
                for trivia in ([COMMENT], [LINE_COMMENT], [WHITESPACE, NEWLINE]):
                    node = least(place.type, kind)
                    node.trivia = trivia
                    yield whole(place, node)


def large():
    """A tree that needs a room of more than 65,535 bytes, and has a short text."""
    yield gen.lst(gen.error(b"e", [NEWLINE] * 17000))


# One byte too long for a tree.
TOO_LONG = model_cases.error_tree(m.MAX_TREE + 1)


def calls():
    """(options, stored tree, whether in rooms of any fit) of every tree call."""
    yield from ((b"\0", encode(tree), True) for tree in large())
    yield b"\0", TOO_LONG, False


def walks():
    """(options, stored tree, whether in rooms of any fit) of every walk."""
    for part in (printed_texts, neighbours, behind_each, in_lists, block_ends):
        yield from ((options, encode(tree), False) for options, tree in part())
    for part in (heads, operands):
        yield from ((b"\0", encode(tree), False) for tree in part())
    yield b"\0", TOO_LONG, False


def searches():
    """The stored trees of every search for lost comments."""
    for part in (heads, operands, alone):
        yield from (encode(tree) for tree in part())
