"""Makes what the program `lesson` is run on in the gate, crates/lesson/stdin, and what it must write, crates/lesson/stdout.

    python3 tools/lesson_cases.py ORACLE samples crates/lesson

Texts and chunks come from ORACLE, the Rust; refusals, records and places from the model of document 01; the wording is written
here a second time. The sample trees come from samples/, made by `oracle parse`; with --samples they are made again first, with
the texts and the records beside them."""

import subprocess
import sys
from pathlib import Path

from streams import Case, stored_case

import gen
import model
from model import COMMENTS, LIST, encode_options

# The largest work room and text buffer that the program has, and its commands: the text, the records, the chunks, the losses.
WORK, TEXT = 1048576, 2097152
COMMANDS = [b"F", b"T", b"C", b"L"]

KINDS = """Align Assert Braces Config ConfigPair Data Definition Eof Error Expression If Import File Instruction Label Loop
    MacroDefinition MacroInvocation ProgramCounterDefinition Segment Test Text Trace VariableDefinition list leaf path_item Block
    BinaryExpression Factor CurrentProgramCounter ExprParens FunctionCall IdentifierValue Number InterpolatedString_factor
    InterpolatedString Operand RegisterSuffix ImportAs ImportArgs::All SpecificImportArg ArgItem""".split()
REASONS = [None, "options length", "options value", "tree length", "tree depth", "tree layout", "chunk layout", "not ASCII",
           "work room", "text room"]
MODES = ["AbsoluteOrZp", "Immediate", "Implied", "Indirect", "OuterIndirect"]
TRIVIA = ["whitespace", "newline", "comment", "line comment"]

# The options of the samples, by the name of the file that holds them.
OPTIONS = {
    "plain.options": b"\0",
    "wide.options": encode_options(mnemonic_casing=0, register_casing=0, brace=1, indent=2, label_margin=12, alignment=0, code_margin=24),
}


def quoted(text):
    named = {10: "\\n", 34: '\\"', 92: "\\\\"}
    return '"' + "".join(named.get(b) or (chr(b) if 32 <= b < 127 else f"\\x{b:02x}") for b in text) + '"'


def leaf_shown(rec):
    """A leaf's text in quotes; of an enum's case what it prints under the default options, and its index."""
    if rec.type.leaf is None or rec.type.leaf[0] != "enum":
        return quoted(rec.text)
    index = rec.text[0]
    if rec.type is model.ADDRESSING_MODE:
        return f"{MODES[index]} ({index})"
    printed = model.leaf_text(rec, model.parse_options(OPTIONS["plain.options"])).decode()
    return f"{printed or 'nothing'} ({index})"


def record_lines(rec, depth=1):
    """A line for a record and each record in it, in stored order."""
    line = f"{rec.off:5} {depth}{'  ' * depth}{KINDS[rec.kind].replace('_', ' ')}"
    if rec.kind == LIST:
        line += f" of {len(rec.items)}"
    if rec.text is not None:
        line += " " + leaf_shown(rec)
    for item in rec.trivia:
        line += f" [{TRIVIA[item.code]}" + ("" if item.code == 1 else " " + quoted(item.text)) + "]"
    yield line
    for child in sorted(rec.children(), key=lambda child: child.off):
        yield from record_lines(child, depth + 1)


def chunk_lines(stored):
    at = 0
    while at < len(stored):
        chunk, end, _ = model.read_one_chunk(stored, at)
        yield f"{at:5} {['code', 'label', 'comment'][chunk.type]} {chunk.indent} {quoted(chunk.text)}"
        at = end


def losses(tree):
    """The records that use a place, by offset, each with its letters in order."""
    used = {}
    for rec, letter in model.place_records(tree):
        used.setdefault(rec.off, (rec, set()))[1].add(letter)
    return [(rec, "".join(sorted(letters))) for _, (rec, letters) in sorted(used.items())]


def loss_lines(tree):
    for rec, letters in losses(tree):
        fate = {"f": "kept", "g": "printed twice"}.get(letters, "dropped")
        texts = [quoted(item.text) for item in rec.trivia if item.code in COMMENTS]
        if "h" in letters:
            texts.append(quoted(rec.text))
        yield f"{rec.off:5} ({')('.join(letters)}) {' '.join(texts)} {fate}"


def sentence(number, place, options, tree, work, text):
    given = {1: ("options", options), 2: ("options", options)}.get(number, ("tree", tree))
    if number == 8:
        meaning = f" is how many bytes of work room were needed at the push that did not fit, not in all, and the limit is {work}"
    elif number == 9:
        meaning = f" is how many bytes the text needs, and the limit is {text}"
    elif place < len(given[1]):
        meaning = f" of the {given[0]}, where byte {given[1][place]} stands"
    else:
        meaning = f" of the {given[0]}, where the input ends"
    return f"Refusal {number}, {REASONS[number]}: place {place}{meaning}.\n"


def lines_answer(status, lines):
    return (f"{status}\n" + "".join(line + "\n" for line in lines)).encode()


class Cases:
    def __init__(self, oracle):
        self.oracle, self.stored, self.answers = oracle, [], []

    def ask(self, command, options, payload):
        """The Rust's answer; it is asked only for what the model accepts."""
        head = command + len(options).to_bytes(4, "little") + options + len(payload).to_bytes(4, "little") + payload
        answer = subprocess.run([self.oracle, "batch"], input=head, stdout=subprocess.PIPE, check=True).stdout
        assert answer[0] == 0, answer
        return answer[5:]

    def add(self, command, options, tree, work=WORK, text=TEXT):
        self.stored.append(stored_case(Case(command, options, tree, text, work)))
        self.answers.append(self.answer(command, options, tree, work, text))

    def answer(self, command, options, tree, work, text):
        try:
            if command in b"TL":
                read = model.check_tree(tree)
                lines = list(record_lines(read) if command == b"T" else loss_lines(read))
                lost = command == b"L" and any(letters != "f" for _, letters in losses(read))
                return lines_answer(int(lost), lines)
            read_options = model.parse_options(options)
            model.print_chunks(model.check_tree(tree), read_options, work)
            if command == b"C":
                return lines_answer(0, chunk_lines(self.ask(b"c", options, tree)))
            told = model.format_call(tree, options, work, text)
            if told.number:
                raise model.Refusal(told.number, told.value)
            return b"0\n" + self.ask(b"f", options, tree)
        except model.Refusal as refusal:
            return (f"{refusal.number}\n" + sentence(refusal.number, refusal.place, options, tree, work, text)).encode()


def refused(cases, tree):
    """Each refusal that a tree and options can meet, and the edges of its place."""
    plain = OPTIONS["plain.options"]
    for options in [b"", b"\1", b"\0\1", b"\4\2", b"\x0c\1\x41"]:
        cases.add(b"F", options, tree)
    for damaged in [b"", bytes(65536), tree + b"\x2c", tree[:-1], b"\x18", b"\x17" + tree[1:], tree.replace(b"colour", b"colou\xee", 1)]:
        cases.add(b"F", plain, damaged)
        cases.add(b"T", plain, damaged)
    for innermost in [b"\x18\0\0\0", b"\x18\0\1\0\x0d\2\x19\2\1\0\x21"]:
        cases.add(b"F", plain, deep(innermost))
        cases.add(b"T", plain, deep(innermost))
    for work, text in [(0, TEXT), (100, TEXT), (WORK, 0), (WORK, 100)]:
        cases.add(b"F", plain, tree, work, text)
    cases.add(b"C", plain, tree, 100)


def deep(tree):
    """21 blocks around a list, whose own depth is then 64."""
    for _ in range(21):
        tree = b"\x18\0\1\0\2\2\x1b\x0e" + b"\x19\2\1\0{" + tree + b"\x19\2\1\0}"
    return tree


def odd_texts():
    """An `Error` whose text has every byte below 128."""
    text = bytes(range(128))
    return b"\x18\0\1\0\x08\2\x19\2" + len(text).to_bytes(2, "little") + text


def every_place():
    """A tree that no source gives: the places that the parser never uses beside those that it does, with two comments and whitespace."""
    noted = [(0, b" "), (2, b"/* one */"), (1, None), (3, b"// \"two\"")]
    numbers = [gen.leaf(bytes([index]), (), model.ADDRESSING_MODE) for index in (0, 1)]
    tokens = [
        gen.label(ctrivia=noted),
        gen.rec(12, tag=gen.leaf(b".file"), filename=gen.string(gen.path_item(b"name", noted))),
        gen.rec(9, expr=gen.num(ftrivia=noted)),
        gen.mn(operand=gen.rec(37, expr=gen.num(), rchar=gen.leaf(b")", noted), addressing_mode=numbers[0])),
        gen.mn(operand=gen.rec(37, expr=gen.num(), rchar=gen.leaf(b"]"), addressing_mode=numbers[1])),
    ]
    return gen.encode(gen.lst(*tokens))


def make_samples(oracle, folder):
    for name, options in OPTIONS.items():
        (folder / name).write_bytes(options)
    for source in sorted(folder.glob("*.asm")):
        tree = source.with_suffix(".tree")
        tree.write_bytes(subprocess.run([oracle, "parse", source], stdout=subprocess.PIPE, check=True).stdout)
        for name in OPTIONS:
            asked = [oracle, "--ascii", "format", folder / name, tree]
            text = subprocess.run(asked, stdout=subprocess.PIPE, check=True).stdout
            (folder / f"{source.stem}.{Path(name).stem}.txt").write_bytes(text)
        records = record_lines(model.check_tree(tree.read_bytes()))
        (folder / f"{source.stem}.records.txt").write_text("".join(line + "\n" for line in records))


def main():
    again = "--samples" in sys.argv
    oracle, folder, crate = [word for word in sys.argv[1:] if word != "--samples"]
    folder, crate = Path(folder), Path(crate)
    if again:
        make_samples(oracle, folder)
    cases = Cases(oracle)
    trees = {path.stem: path.read_bytes() for path in sorted(folder.glob("*.tree"))}
    for name, tree in trees.items():
        for file in OPTIONS:
            options = (folder / file).read_bytes()
            cases.add(b"F", options, tree)
            assert cases.answers[-1] == b"0\n" + (folder / f"{name}.{Path(file).stem}.txt").read_bytes(), (name, file)
        for command in COMMANDS[1:]:
            cases.add(command, OPTIONS["plain.options"], tree)
    refused(cases, trees["beginner"])
    for tree in [odd_texts(), every_place()]:
        for command in COMMANDS:
            cases.add(command, OPTIONS["plain.options"], tree)
    (crate / "stdin").write_bytes(b"".join(cases.stored))
    (crate / "stdout").write_bytes(b"".join(cases.answers))
    print(f"{len(cases.stored)} cases")


if __name__ == "__main__":
    main()
