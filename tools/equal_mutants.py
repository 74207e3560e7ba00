"""The changes of the model that are equal to it, for mutants.py: the function, patterns for the first changed line,
patterns for the change, and the reason. Whoever adds one has to know why no input can tell the two apart."""

ORDER = "the order of a set settles nothing"
INDEPENDENT = "neither statement uses what the other sets"
SAME_REFUSAL = "both refuse with the same number at the same place"
EXCLUDE = "no record meets both conditions"
EARLIER = "an earlier branch takes these kinds"
SUM = "a sum of numbers"
KEPT = "only request 2026-04 looks at it"
ORIGIN = "only the requests look at where a chunk came from"
NOT_PRINTED = "no rule prints an addressing mode, so its text is not asked for"
CUT = "what is cut off is refused at the same place by the test of the text's end"
BELOW = "an enum, a brace and a colon are below 128"
ROOM = "no tree of 65,535 bytes needs a room of 1,048,576: a byte makes 12 at most"
TAKEN = "what was pushed before took the space, or it was cleared, so none is pending"
UNORDERED = "the uses are in no order"

EXCHANGED = ("* exchanged with the next*",)
ELEMENTS = ("*elements ? and ? exchanged",)
SIDES = ("* sides exchanged*",)
CLEARED = ("* a space cleared behind it*",)
CLEARED_OR_SET = ("* a space cleared behind it*", "* a space set behind it*")

TABLES = [
    (("DEFAULTS = *",), ("1 by 2*",), "a casing and an alignment are 0 or not"),
    (("DEFAULTS = *",), ("8 by ?",), "the formatter does not look at the listing"),
    (("ABOVE_ONE_REFUSED = *", "BLANKS = *", "EXPRESSIONS = *", "COMMENTS = *"), ELEMENTS, ORDER),
    (("IMPORT_ARGS = *", "STRING_ITEMS = *"), ELEMENTS, ORDER),
    (("CODE, LABEL, COMMENT = 0, 1, 2",), ("2 by 3",), "a chunk of neither other type is a comment"),
    (("Chunk = *",), ("*origin and cpp exchanged", "(0, False) *", "0 by 1", "False flipped"), ORIGIN),
]

MAPS = [
    (("if bits & 0x80:", "for n, slot in *", "if bits >> (len(slots) + 1):"), EXCHANGED, SAME_REFUSAL),
    (("if bits & 1 and *",), EXCHANGED, "a list may have no trivia, so both say no"),
    (("if kind == LIST:", "if what == ?unit?:"), EXCHANGED, EXCLUDE),
    (("if bits & 0x7C:",), EXCHANGED, INDEPENDENT),
    (("if bits >> (len(slots) + 1):",), SIDES, SUM),
    (("if kind == 10 and *",), ("bits >> 5 & 1 left side alone",), "no bit above bit 5 stands here"),
]

CHUNK_READING = [
    (("if at >= len(data):",), ("* by Gt", "* never", *EXCHANGED), "the caller asks only before the end"),
    (("bad = Refusal(6, at)", "if bits & (0xF0 *", "if not 1 <= indent *"), EXCHANGED, INDEPENDENT),
    (("if bits & (0xF0 *",), ("240 if origins else 248 never",), ORIGIN),
    (("p, indent, origin = *",), ("* elements 2 and 3 exchanged", "0 by 1 #2"), ORIGIN),
    (
        ("if p + 2 > len(data):",),
        ("* by GtE*", "p + 2 operator by Sub*", "p + 2 * alone*", "2 by ?*", "* never*", *EXCHANGED), CUT,
    ),
    (("if bits & 4:",), EXCHANGED, CUT),
]

PRINTED = [
    (("if rec.text is None:",), EXCHANGED, "a mnemonic has a text"),
    (("if rec.type is *",), EXCHANGED, EXCLUDE),
    (("if rec.type is ADDRESSING_MODE:",), ("* never",), NOT_PRINTED),
    (
        ("if rec.type is ADDRESSING_MODE:",), ("* by COLON", "* by UNIT", "* by MNEMONIC", "* by REGISTER"),
        "these are printed above, or there is no text to ask for",
    ),
    (
        ("if rec.type is ADDRESSING_MODE:",),
        (
            "* by EXPR*", "* by LEXPR", "* by LFACTOR", "* by LTOKEN", "* by TOKEN*", "* by BLOCK", "* by ISTRING",
            "* by OPERAND", "* by SUFFIX", "* by IMPORT_*", "* by ID_ARGS", "* by STRING_ITEMS",
        ),
        "no leaf is of this type",
    ),
]

NEWLINES = [
    (("before = 7 if *",), ("* never", "7 by ?"), "the added Eof is last, so it stands before none"),
    (("block = *",), ("* without side 1",), "the added Eof is of neither kind"),
    (
        ("block = *",), ("* with [23]", "* with 1[56]", "* with 19", "* with 20"),
        "only the rules of these two kinds look at the block",
    ),
    (("block = *",), EXCHANGED, INDEPENDENT),
    (("if kind in *", "if kind == 8:*", "if kind == 11:*"), EXCHANGED, EXCLUDE),
    (("if kind in (1, 22):*",), ("* with 8",), EARLIER),
    (("if kind in (2, 6, *",), ("* with [18]", "* with 22"), EARLIER),
    (("if kind in (5, 21):*",), ("* with [1268]", "* with 1[059]", "* with 22"), EARLIER),
    (("if kind in (13, 17):*",), ("* with [12568]", "* with 1[0159]", "* with 2[12]"), EARLIER),
    (("return not same and *",), ("* without side 1",), "a kind of the group stands in its set"),
    (("return block if same else block or *",), ("* never", "* with 14"), "behind a Label it is the same kind"),
]

PUSHES = [
    (("if self.leading:", "self.held = needed"), EXCHANGED, INDEPENDENT),
    (("needed = *",), SIDES, SUM),
    (("if self.room is not None and *",), EXCHANGED, "a refusal ends the walk"),
    (("if self.room is not None and *",), ("* without side 1",), "a room is always given"),
]

TOKENS = [
    (("elif k in (2, 3):",), ("k in (2, 3) with [01]",), EARLIER),
    (('self.token(t?"value"?, False)',), ("False flipped*",), KEPT),
    (('self.head(t?"eof"?, in_list)',), ("* left out",), "an Eof prints nothing"),
    (("self.space(t)",), ("self.space(t) exchanged with the next #11",), INDEPENDENT),
    (("self.push(leaf_text(*",), ("'id' by colon*",), ORIGIN),
    (("elif k == 23:",), ("condition k == 23 always",), "the last kind"),
    (
        (
            'self.expression(t?"value"?)', 'self.expression(t?"expr"?)', "self.string(*", "self.block(*",
            "self.args(*", 'if t?"tag_else"?:', "self.space(t)", 'self.leaf(t?"tag_else"?)', 'self.leaf(t?"rparen"?)',
            "self.pending = False", 'self.head(t?"eof"?, in_list)',
        ),
        CLEARED, TAKEN,
    ),
    (('if t?"block"?:',), ("* a space cleared behind it #[23]",), TAKEN),
    (("self.operand(*",), CLEARED_OR_SET, "it is cleared behind the operand"),
]

SPACES = [
    ("_Walk.drop_last_newlines", ("*",), CLEARED, TAKEN),
    ("_Walk.space", ("*",), CLEARED, TAKEN),
    ("_Walk.newline", ("*",), CLEARED, TAKEN),
    ("_Walk.trivia", ('self.push(b"?n", rec)',), CLEARED, TAKEN),
    ("_Walk.tokens", ("for n, token in *", "self.leading = True", "self.newline(*"), CLEARED, TAKEN),
    ("_Walk.block", ("*",), CLEARED, TAKEN),
    ("_Walk.expression", ('self.expression(e?"rhs"?)',), CLEARED, TAKEN),
    ("_Walk.factor", ('self.leaf(f?"star"?)', 'self.leaf(f?"rparen"?)', "self.string(*"), CLEARED, TAKEN),
    ("_Walk.string", ("*",), CLEARED, TAKEN),
    ("_Walk.operand", ("*",), CLEARED_OR_SET, "it is cleared behind the operand"),
    ("_Walk.suffix", ("self.pending = False",), CLEARED, TAKEN),
    ("_Walk.import_as", ("self.leaf(*",), CLEARED, TAKEN),
    ("_Walk.args", ("self.pending = False",), CLEARED, TAKEN),
    ("_Walk.args", ("self.pending = True",), ("* a space set behind it*",), "it is set already"),
]

SETTER = [
    (("last = *", "keep = True"), EXCHANGED, INDEPENDENT),
    (("last_kept_blank = False",), ("* exchanged with the next #2",), INDEPENDENT),
    (("if piece == * and 0 < len(line) <= L:",), ("0 by 1",), "a label's line has two bytes at least"),
    (
        ("standalone_last = len(line) > *",),
        (
            "* without side 1", "len(line) > L + C comparison by GtE", "L + C operator by Sub", "L + C left side alone",
            "L + C right side alone",
        ),
        "a line with ink and none in its first L + C bytes is longer than these",
    ),
]

PLACES = [
    (("if rec.kind *", "for child in rec.children():", "if child.kind == 27 and *"), EXCHANGED, UNORDERED),
    (("note(?h?, *",), ("* with [5-9]", "* with 1?", "* with 2?"), "there are five modes"),
    (
        ("if child.kind == 27 and *",),
        ("* with [01456789]", "* with 1[2378]", "* with 2[123]"), "these kinds have no block",
    ),
]


def of(function, rows):
    return [(function, *row) for row in rows]


EQUAL = [
    *of("the tables", TABLES),
    ("parse_options", ("if len(data) == 0 or *",), EXCHANGED, INDEPENDENT),
    ("parse_options", ("if len(data) == 0 or *",), SIDES, SUM),
    ("parse_options", ("if name in ABOVE_ONE_REFUSED *",), EXCHANGED, SAME_REFUSAL),
    *of("map_is_right", MAPS),
    ("_Reader.number", ("return *",), SIDES, SUM),
    ("_Reader.record", ("if depth > self.max_depth:", "if not map_is_right(*", "rec = Rec(*"), EXCHANGED, INDEPENDENT),
    ("_Reader.record", ("rec.items.append(item)", "rec.fields?slot.name? = field"), EXCHANGED, INDEPENDENT),
    ("_Reader.record", ("if kind not in type_.kinds:",), EXCHANGED, SAME_REFUSAL),
    ("_Reader.trivia", ("if count == 0:", "if code > 3:", "p += 1"), EXCHANGED, INDEPENDENT),
    ("_Reader.trivia", ("at = p",), EXCHANGED, ORIGIN),
    ("_Reader.text", ("what = rec.type.leaf", "length_at = p"), EXCHANGED, INDEPENDENT),
    ("_Reader.text", ("if *",), EXCHANGED, SAME_REFUSAL),
    ("read_layout", ("def read_layout(*",), ("MAX_DEPTH *",), "the depth is always given"),
    (
        "first_bad_text", ("if rec.text is not None and *",),
        ("rec.text is * without side 2", "rec.type.leaf and * without side 1", "* without element ?"), BELOW,
    ),
    ("first_bad_text", ("return None",), ("* left out",), "nothing is None too"),
    ("stored_size", ("return (",), SIDES, SUM),
    ("stored_size", ("return (",), ("1 + * by Sub #3", "1 + * left side alone #3", "2 if origins * never"), ORIGIN),
    ("encode_chunk", ("bits |= 4",), EXCHANGED, INDEPENDENT),
    *of("read_one_chunk", CHUNK_READING),
    ("read_chunk_list", ("if len(data) > *", "chunks.append(chunk)", "if bad_text is None:"), EXCHANGED, INDEPENDENT),
    *of("leaf_text", PRINTED),
    ("head_of", ("if token.kind in (2, 3):",), EXCHANGED, EXCLUDE),
    *of("newline_before", NEWLINES),
    ("_Walk.__init__", ("self.o, self.room, *",), ("* elements 3 and 4 exchanged",), "both are off"),
    *of("_Walk.push", PUSHES),
    ("_Walk.drop_last_newlines", ("while self.chunks and *",), ("* without side 1",), "the opening brace is held"),
    ("_Walk.tokens", ("self.token(token, True)",), ("True flipped",), KEPT),
    ("_Walk.block", ("def block(*",), ("False flipped",), KEPT),
    ("_Walk.block", ("self.indent -= self.o.indent",), EXCHANGED, INDEPENDENT),
    *of("_Walk.token", TOKENS),
    *SPACES,
    ("_Walk.factor", ("self.trivia(f)",), EXCHANGED, INDEPENDENT),
    ("_Walk.string", ("self.bare(item)",), ("self.bare bare by leaf #2",), "a plain item has no trivia"),
    ("_Walk.operand", ("self.expression(*",), EXCHANGED, INDEPENDENT),
    ("_Walk.suffix", ("self.pending = False",), ("* left out",), "a register has a text, which takes the space"),
    ("print_chunks", ("if room is not None:",), ("*",), ROOM),
    *of("kept_lines", SETTER),
    ("place_records", ("visit(tree, False)",), ("False flipped",), "the file is a list itself"),
    *of("place_records.visit", PLACES),
]
