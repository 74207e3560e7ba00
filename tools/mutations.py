"""The changes that mutants.py makes to the model: every one that the rules below give, at every place.

    constants     a number one more, one less and 0; a truth the other way; bytes emptied, the first one up and down;
                  neighbouring words of a text that is split into a table exchanged; a field's name by its neighbour's
    names         a constant of the model by every other one of its sort, an option by every other option; a leaf with
                  its trivia by one without them, a space by a newline, and the other way
    sequences     neighbours exchanged, each left out; a set of kinds without each and with every other kind of token;
                  neighbouring values of a dictionary exchanged, each entry left out
    comparisons   by the opposite one, and at the boundary
    operators     `and` by `or` and each side alone; `not` taken away; a sum, difference, product or shift by another
                  one, by each side alone and with its sides exchanged; `min` by `max`, `lower` by `upper`
    branches      the condition negated, always, never; the same for a loop's condition and for a choice
    statements    each left out, each exchanged with the one behind it, unless neither uses what the other sets; in the
                  walk a pending space cleared and set behind each branch and each function
    readings      what wrong_readings.py has

A change is a field of a node of the syntax tree and its other value. Left out, because no answer of the formatter can
show it: what the calls of document 01 do not reach, what only the requests of document 02 use, and what only words a
message (`left_out` and `unused_parts` below)."""

import ast
from collections import Counter, namedtuple

from wrong_readings import WRONG_READINGS

# `top` is the index of the changed statement of the module, `lines` those that a case must reach to notice the change,
# `where` the function, `what` says the change; `node`, `field` and `value` make it.
Mutant = namedtuple("Mutant", "top lines where what node field value")

# What the calls of document 01 begin with.
ROOTS = ("parse_options", "check_tree", "print_chunks", "encode_chunks", "join_call", "format_call", "place_uses")

# Of the requests of document 02: parameters that are false in every call of document 01.
OFF = ("keep", "origins", "utf8")
# Of the requests as well, and of messages: what no answer is made from.
UNSEEN = ("events", "origin", "cpp", "why", "super", "__slots__")

# Constants of one sort: each is tried at the place of every other.
SORTS = (
    ("CODE", "LABEL", "COMMENT"),
    ("LIST", "LEAF", "PATH_ITEM"),
    ("MAX_TREE", "MAX_DEPTH", "MAX_CHUNKS", "MAX_INDENT"),
    ("EXPRESSIONS", "FACTORS", "TOKENS"),
    ("COMMENTS", "BLANKS", "MNEMONICS", "REGISTERS"),
    ("NUMBER_TYPES", "MODIFIERS", "BINARY_OPS", "VARIABLE_TYPES", "DATA_SIZES", "ENCODINGS"),
    (
        "STRING", "CHAR", "LBRACE", "RBRACE", "COLON", "UNIT", "MNEMONIC", "REGISTER", "NUMBER_TYPE",
        "ADDRESS_MODIFIER", "BINARY_OP", "VARIABLE_TYPE", "DATA_SIZE", "TEXT_ENCODING", "ADDRESSING_MODE", "EXPR",
        "LEXPR", "LFACTOR", "TOKEN", "LTOKEN", "BLOCK", "ISTRING", "OPERAND", "SUFFIX", "IMPORT_AS", "TOKEN_LIST",
        "EXPR_ARGS", "ID_ARGS", "IMPORT_ARG_LIST", "IMPORT_ARGS", "STRING_ITEMS",
    ),
    ("min", "max"),
)
ATTRIBUTES = (
    (
        "mnemonic_casing", "register_casing", "brace", "indent", "label_margin", "alignment", "code_margin", "listing",
    ),
    ("lower", "upper"),
)
# Of the walk: a leaf with its trivia and without them, the two pushes of a blank.
METHODS = (("leaf", "bare"), ("space", "newline"))
TOKENS = range(24)

COMPARISONS = {
    ast.Eq: (ast.NotEq,), ast.NotEq: (ast.Eq,), ast.In: (ast.NotIn,), ast.NotIn: (ast.In,), ast.Is: (ast.IsNot,),
    ast.IsNot: (ast.Is,), ast.Lt: (ast.LtE, ast.GtE), ast.LtE: (ast.Lt, ast.Gt), ast.Gt: (ast.GtE, ast.LtE),
    ast.GtE: (ast.Gt, ast.Lt),
}
OPERATORS = {
    ast.Add: (ast.Sub,), ast.Sub: (ast.Add,), ast.Mult: (ast.Add,), ast.BitAnd: (ast.BitOr, ast.BitXor),
    ast.BitOr: (ast.BitAnd, ast.BitXor), ast.LShift: (ast.RShift,), ast.RShift: (ast.LShift,),
}


# ------------------------------------------------------------ changes of one expression: (what, the other node)


def other_constants(node):
    value = node.value
    if isinstance(value, bool):
        yield "flipped", ast.Constant(not value)
    elif isinstance(value, int):
        for other in dict.fromkeys((value + 1, value - 1, 0)):
            if 0 <= other != value:
                yield f"by {other}", ast.Constant(other)
    elif isinstance(value, bytes):
        others = [b""] + [bytes([(value[0] + by) % 256]) + value[1:] for by in (1, -1) if value]
        yield from ((f"by {other}", ast.Constant(other)) for other in others if other != value)
    elif isinstance(value, str) and " " in value:
        words = value.split(" ")
        for at in range(len(words) - 1):
            if words[at] != words[at + 1] and words[at + 1]:
                other = words[:at] + [words[at + 1], words[at]] + words[at + 2 :]
                yield f"{words[at]} and {words[at + 1]} exchanged", ast.Constant(" ".join(other))


def other_comparisons(node):
    for at, operator in enumerate(node.ops):
        for other in COMPARISONS[type(operator)]:
            ops = node.ops[:at] + [other()] + node.ops[at + 1 :]
            yield f"comparison by {other.__name__}", ast.Compare(node.left, ops, node.comparators)
    if is_set_test(node):
        for what, other in other_sets(node.comparators[0]):
            yield what, ast.Compare(node.left, node.ops, [other])


def is_set_test(node):
    return isinstance(node.ops[0], (ast.In, ast.NotIn)) and isinstance(node.comparators[0], ast.Tuple)


def other_sets(members):
    """Without each member; where they are kinds of tokens, with each other one."""
    values = [getattr(element, "value", None) for element in members.elts]
    for at, value in enumerate(values):
        yield f"without element {at + 1}", ast.Tuple(members.elts[:at] + members.elts[at + 1 :], ast.Load())
    if set(values) <= set(TOKENS):
        for kind in TOKENS:
            if kind not in values:
                yield f"with {kind}", ast.Tuple(members.elts + [ast.Constant(kind)], ast.Load())


def other_connectives(node):
    other = ast.Or if isinstance(node.op, ast.And) else ast.And
    yield f"by {other.__name__}", ast.BoolOp(other(), node.values)
    for at, side in enumerate(node.values):
        rest = node.values[:at] + node.values[at + 1 :]
        if not is_negated_request(side):
            yield f"without side {at + 1}", rest[0] if len(rest) == 1 else ast.BoolOp(node.op, rest)


def other_operations(node):
    for other in OPERATORS[type(node.op)]:
        yield f"operator by {other.__name__}", ast.BinOp(node.left, other(), node.right)
    yield "left side alone", node.left
    yield "right side alone", node.right
    numbers = is_number(node.left) and is_number(node.right)
    if isinstance(node.op, ast.Sub) or isinstance(node.op, ast.Add) and not numbers:
        yield "sides exchanged", ast.BinOp(node.right, node.op, node.left)


def is_number(node):
    """Whether a side of a sum is a number by its look: a name, or a number itself."""
    return isinstance(node, ast.Name) or type(getattr(node, "value", None)) is int


def other_choices(node):
    yield "always", node.body
    yield "never", node.orelse


def other_names(node):
    for sort in SORTS:
        if node.id in sort and isinstance(node.ctx, ast.Load):
            yield from ((f"{node.id} by {other}", ast.Name(other, node.ctx)) for other in sort if other != node.id)


def other_attributes(node):
    for sort in ATTRIBUTES + (METHODS if named(node.value) == "self" else ()):
        if node.attr in sort and isinstance(node.ctx, ast.Load):
            others = (other for other in sort if other != node.attr)
            yield from ((f"{node.attr} by {other}", ast.Attribute(node.value, other, node.ctx)) for other in others)


def other_sequences(node):
    if not isinstance(node.ctx, ast.Load):
        return
    kind, elements = type(node), node.elts
    for at in range(len(elements) - 1):
        exchanged = elements[:at] + [elements[at + 1], elements[at]] + elements[at + 2 :]
        if not same_text(elements[at : at + 2]):
            yield f"elements {at + 1} and {at + 2} exchanged", kind(exchanged, node.ctx)
    for at in range(len(elements)):
        yield f"without element {at + 1}", kind(elements[:at] + elements[at + 1 :], node.ctx)


def same_text(pair):
    return ast.unparse(pair[0]) == ast.unparse(pair[1])


def other_dictionaries(node):
    keys, values = node.keys, node.values
    for at in range(len(keys) - 1):
        exchanged = values[:at] + [values[at + 1], values[at]] + values[at + 2 :]
        if not same_text(values[at : at + 2]):
            yield f"values {at + 1} and {at + 2} exchanged", ast.Dict(keys, exchanged)
    for at in range(len(keys)):
        yield f"without entry {at + 1}", ast.Dict(keys[:at] + keys[at + 1 :], values[:at] + values[at + 1 :])


def other_negations(node):
    if isinstance(node.op, ast.Not):
        yield "without not", node.operand


OTHER_EXPRESSIONS = {
    ast.Constant: other_constants, ast.Compare: other_comparisons, ast.BoolOp: other_connectives,
    ast.BinOp: other_operations, ast.IfExp: other_choices, ast.Name: other_names, ast.Attribute: other_attributes,
    ast.List: other_sequences, ast.Tuple: other_sequences, ast.Dict: other_dictionaries,
    ast.UnaryOp: other_negations,
}


# ------------------------------------------------------------ changes of statements


def other_conditions(node):
    """The conditions of a branch or loop."""
    yield "negated", ast.UnaryOp(ast.Not(), node.test)
    if not isinstance(node, ast.While):
        yield "always", ast.Constant(True)
    yield "never", ast.Constant(False)


def other_bodies(statements):
    """A body with a statement left out, or with two neighbours exchanged: (what changes, what is done, other body)."""
    for at, statement in enumerate(statements):
        rest = statements[:at] + statements[at + 1 :]
        yield [statement], "left out", rest or [ast.Pass()]
    for at in range(len(statements) - 1):
        pair = statements[at : at + 2]
        if not independent(*pair):
            yield pair, "exchanged with the next", statements[:at] + pair[::-1] + statements[at + 2 :]


def independent(first, second):
    """Whether both are assignments without a call, of which neither uses what the other sets."""
    if not all(isinstance(one, ast.Assign) for one in (first, second)):
        return False
    if any(isinstance(part, ast.Call) for one in (first, second) for part in ast.walk(one)):
        return False
    return not (names_set(first) & names_used(second) or names_set(second) & names_used(first))


def names_used(node):
    return {ast.unparse(part) for part in ast.walk(node) if isinstance(part, (ast.Name, ast.Attribute))} - {"self"}


def names_set(assignment):
    return set().union(*(names_used(target) for target in assignment.targets))


# ------------------------------------------------------------ what is left out


def named(node):
    """The last name of a name or of a chain of attributes."""
    return {ast.Name: lambda: node.id, ast.Attribute: lambda: node.attr}.get(type(node), lambda: None)()


def needs_request(test):
    """Whether a condition is false in every call of document 01."""
    if isinstance(test, ast.BoolOp) and isinstance(test.op, ast.And):
        return any(needs_request(side) for side in test.values)
    return named(test) in OFF


def is_negated_request(node):
    return isinstance(node, ast.UnaryOp) and named(node.operand) in OFF


def sets_unseen(node):
    return isinstance(node, ast.Assign) and all(named(target) in UNSEEN for target in node.targets)


def only_unseen(node):
    """Whether a statement does nothing but keep or word what is in no answer."""
    if isinstance(node, ast.Expr) and isinstance(node.value, ast.Call):
        return any(named(part) in UNSEEN for part in ast.walk(node.value.func))
    if isinstance(node, ast.If) and not node.orelse:
        return needs_request(node.test) or any(sets_unseen(inner) for inner in node.body)
    if sets_unseen(node):
        return True
    if isinstance(node, ast.Raise):
        return "AssertionError" in ast.dump(node.exc)
    return isinstance(node, ast.Expr) and isinstance(node.value, ast.Constant)


def unused_parts(node):
    """The parts of a node that no answer can show."""
    if isinstance(node, (ast.If, ast.IfExp)) and needs_request(node.test):
        yield node.test
        yield from node.body if isinstance(node, ast.If) else [node.body]
    if isinstance(node, ast.BoolOp):
        yield from filter(is_negated_request, node.values)
    if isinstance(node, ast.Call):
        yield from (keyword for keyword in node.keywords if keyword.arg in OFF + UNSEEN)
        # The exact place of a breach is asked by a request; the words behind a refusal are for tallies.
        yield from node.args[2:] if named(node.func) in ("LayoutError", "Refusal") else []
    if isinstance(node, ast.arguments):
        with_default = node.args[len(node.args) - len(node.defaults) :]
        yield from (value for one, value in zip(with_default, node.defaults) if one.arg in OFF + UNSEEN)


def left_out(top):
    """All nodes of a statement of the module that are left out."""
    found = set()
    for node in ast.walk(top):
        skipped = list(unused_parts(node))
        if isinstance(node, ast.stmt) and only_unseen(node):
            skipped.append(node)
        found.update(id(inner) for part in skipped for inner in ast.walk(part))
    return found


def reached(module):
    """The indices of the module's statements that the calls of document 01 use, directly or through others."""
    defines = {name: at for at, top in enumerate(module.body) for name in defined(top)}
    found, asked = set(), list(ROOTS)
    while asked:
        at = defines.get(asked.pop())
        if at is not None and at not in found:
            found.add(at)
            unused = left_out(module.body[at])
            names = (node for node in ast.walk(module.body[at]) if isinstance(node, ast.Name))
            asked += [name.id for name in names if id(name) not in unused]
    return found


def defined(top):
    """The names that a statement of the module defines."""
    if isinstance(top, ast.Assign):
        return [node.id for target in top.targets for node in ast.walk(target) if isinstance(node, ast.Name)]
    return [top.name] if isinstance(top, (ast.FunctionDef, ast.ClassDef)) else []


# ------------------------------------------------------------ every change of a module


def own_lines(statement):
    """The lines of a statement, of a compound one those of its head."""
    if isinstance(statement, ast.FunctionDef):
        return all_lines(statement)
    body = getattr(statement, "body", None)
    last = body[0].lineno - 1 if isinstance(body, list) else statement.end_lineno
    return range(statement.lineno, max(last, statement.lineno) + 1)


def all_lines(statement):
    return range(statement.lineno, statement.end_lineno + 1)


def with_space(statements):
    """A body of the walk with a pending space cleared or set at its end: (what, other body)."""
    if not statements or isinstance(statements[-1], (ast.Return, ast.Raise)):
        return
    for what, value in (("cleared", "False"), ("set", "True")):
        yield f"a space {what} behind it", statements + ast.parse(f"self.pending = {value}").body


class Finder:
    """Walks a statement of the module and notes its changes."""

    def __init__(self, top_index, top):
        self.index, self.unused, self.found = top_index, left_out(top), []
        self.where = getattr(top, "name", "the tables")
        self.fields = [node.slice for node in ast.walk(top) if is_field(node)]
        self.fields.sort(key=lambda name: (name.lineno, name.col_offset))
        self.visit(top, top)

    def note(self, lines, what, node, field, value):
        self.found.append(Mutant(self.index, lines, self.where, what, node, field, value))

    def visit(self, node, statement):
        if id(node) in self.unused or isinstance(node, ast.JoinedStr):
            return
        outer = self.where
        if isinstance(node, ast.FunctionDef):
            self.where = node.name if outer in (node.name, "the tables") else f"{outer}.{node.name}"
        for field, value in ast.iter_fields(node):
            if isinstance(value, list) and value and isinstance(value[0], ast.stmt):
                self.body(node, field, value)
            elif field not in ("decorator_list", "bases", "returns"):
                self.expressions(node, field, value, statement)
        if isinstance(node, (ast.If, ast.While)) and id(node.test) not in self.unused:
            for what, other in other_conditions(node):
                self.note(own_lines(node), f"condition {ast.unparse(node.test)} {what}", node, "test", other)
        self.where = outer

    def body(self, node, field, statements):
        kept = [statement for statement in statements if id(statement) not in self.unused]
        if not isinstance(node, ast.Module):
            self.statements(node, field, kept)
            self.spaces(node, field, kept)
        for statement in kept:
            self.visit(statement, statement)

    def statements(self, node, field, kept):
        for changed, what, other in other_bodies(kept):
            if any(isinstance(one, ast.FunctionDef) for one in changed):
                continue
            alone = isinstance(node, ast.If) and len(kept) == 1 and not node.orelse
            if what == "left out" and (alone or isinstance(changed[0], (ast.If, ast.While))):
                continue  # the same as a condition that is never met
            lines = [line for statement in changed for line in all_lines(statement)]
            self.note(lines, f"{first_line(changed[0])} {what}", node, field, other)

    def spaces(self, node, field, kept):
        chained = field == "orelse" and isinstance(kept[0] if kept else None, ast.If)
        if self.where.startswith("_Walk.") and self.where not in ("_Walk.push", "_Walk.__init__") and not chained:
            for what, other in with_space(kept):
                self.note(all_lines(kept[-1]), f"{first_line(kept[-1])} {what}", node, field, other)

    def expressions(self, node, field, value, statement):
        for at, part in enumerate(value if isinstance(value, list) else [value]):
            if not isinstance(part, ast.AST) or id(part) in self.unused:
                continue
            others = list(OTHER_EXPRESSIONS.get(type(part), lambda _: ())(part))
            if isinstance(node, ast.Compare) and is_set_test(node) and part is node.comparators[0]:
                others = []  # the order of a set settles nothing
            if isinstance(node, ast.Call) and named(node.func) == "Slot":
                others = [one for one in others if one[0] != "by 2"]  # whether a field may be absent
            if part in self.fields:
                others += self.other_fields(self.fields.index(part))
            # A row of a table counts by itself.
            owner = part if isinstance(node, ast.Dict) and self.where == "the tables" else statement
            for what, other in others:
                changed = value[:at] + [other] + value[at + 1 :] if isinstance(value, list) else other
                text = ast.unparse(part)
                self.note(own_lines(owner), f"{text[:60]} {what}", node, field, changed)
            self.visit(part, owner)


    def other_fields(self, at):
        """The names of the fields that are used before and behind one."""
        for neighbour in self.fields[max(at - 1, 0) : at] + self.fields[at + 1 : at + 2]:
            if neighbour.value != self.fields[at].value:
                yield f"by {neighbour.value}", ast.Constant(neighbour.value)


def is_field(node):
    return isinstance(node, ast.Subscript) and isinstance(getattr(node.slice, "value", None), str)


def tables(module):
    """For each table that is a dictionary: its name, and the lines of each row by the row's key."""
    for top in module.body:
        if isinstance(top, ast.Assign) and isinstance(top.value, ast.Dict):
            rows = zip(top.value.keys, top.value.values)
            yield top.targets[0].id, {key.value: own_lines(row) for key, row in rows if isinstance(key, ast.Constant)}


def first_line(statement):
    return ast.unparse(statement).splitlines()[0]


def wrong_readings(module, text):
    """The changes of wrong_readings.py, each of a part of the text that stands there once."""
    for name, old, new in WRONG_READINGS:
        if text.count(old) != 1:
            raise SystemExit(f"{name}: stands {text.count(old)} times in the model: {old}")
        first = text[: text.index(old)].count("\n") + 1
        top = next(at for at, one in enumerate(module.body) if first in all_lines(one))
        body = module.body[:top] + [ast.parse(text.replace(old, new)).body[top]] + module.body[top + 1 :]
        lines = range(first, first + old.count("\n") + 1)
        yield Mutant(top, lines, "a wrong reading", name, module, "body", body)


def numbered(mutants, lines):
    """The changes with a number behind what stands for more than one by function, line and change."""
    counts = Counter()
    for mutant in mutants:
        name = mutant.where, lines[mutant.lines[0] - 1].strip(), mutant.what
        counts[name] += 1
        yield mutant._replace(what=f"{mutant.what} #{counts[name]}") if counts[name] > 1 else mutant


def all_mutants(module, text):
    found = []
    for at in sorted(reached(module)):
        found += Finder(at, module.body[at]).found
    return [*numbered(found + [*wrong_readings(module, text)], text.splitlines())]
