"""Counts what makes the code, the laws and the documents harder to read. Run by hand; nothing depends on it.

    python3 tools/house.py               prints each count with its name
    python3 tools/house.py --list NAME   prints the places that a count is made of

    numbers     arms `N =>` and comparisons `== N`, `!= N` in which a number stands for a kind, a trivia code, an
                addressing mode or one of the eight places; the grammar and the module of the kinds are left out
    calls       calls in the printers whose arguments stand on more than five lines
    contracts   lines of `requires` and `ensures` over 120 characters
    believed    lines of the definitions that the contract of `format` reaches, by tools/draw_architecture.py
    laws        statements that stand as laws in more than one place, up to the names of bound variables
    documents   lines of documents over 120 characters
"""

import argparse
import re
import subprocess
import sys
from collections import defaultdict
from pathlib import Path

ROOT = Path(__file__).resolve().parent.parent
NAMED = {"crates/tree/src/grammar.rt"}
PRINTERS = ["tokens", "expressions"]
MOST_LINES = 5
WIDE = re.compile(r"^.{121,}$", re.MULTILINE)

# what the code calls such a number; `tree[at]` is a record's kind, `tree[place]` an item's code, `index` that of a mode
NUMBER = r"(?<!\w)(?:number|kind|previous|code|mode|index|place|spot|tree\[at\]|tree\[place\])"
COMPARED = re.compile(rf"{NUMBER} [!=]= \d")
MATCHED = re.compile(rf"match .*?{NUMBER} {{")
ARM = re.compile(r"^ *\d+(?: \| \d+|\.\.=?\d+)* =>", re.MULTILINE)
CALL = re.compile(r"(?<!fn )\b[a-z_]\w*\(")
CLAUSE = re.compile(r"^ *(?:requires|ensures)(?: [\w-]+)? \{", re.MULTILINE)
LAW = re.compile(r"(?:pub )?([^\s(){}:]+) : (.*)")
DEFINED = re.compile(r"^(?:(?:abbrev|unfoldable|pub|record|data) )*([^\s(){}:]+)(?= .*:)", re.MULTILINE)
# what a function's proof is written in: no laws
PROOFS = ("/Invariants.antt", "/Answers.antt")
BINDER = re.compile(r"[({]([^(){}:→]+) : |λ ([^().]+)\.")
WORD = re.compile(r"\.?[^\s(){}.,]+|[(){}.,]")


def texts(pattern):
    """The files of a pattern by their names, with what they hold."""
    return {path.relative_to(ROOT).as_posix(): path.read_text() for path in sorted(ROOT.glob(pattern))}


def told(*words):
    return subprocess.run(words, cwd=ROOT, capture_output=True, text=True, check=True).stdout.splitlines()


def place(name, text, at):
    index = text.count("\n", 0, at)
    return f"{name}:{index + 1}: {text.splitlines()[index].strip()}"


def closing(text, start):
    """Where the bracket that was opened before a place is closed."""
    depth = 1
    for at in range(start, len(text)):
        depth += (text[at] in "([{") - (text[at] in ")]}")
        if depth == 0:
            return at
    return len(text)


def numbers():
    for name, text in texts("crates/*/src/**/*.rt").items():
        found = [compared.start() for compared in COMPARED.finditer(text)]
        for matched in MATCHED.finditer(text):
            found += [arm.start() for arm in ARM.finditer(text, matched.end(), closing(text, matched.end()))]
        if name not in NAMED:
            yield from (place(name, text, at) for at in sorted(found))


def calls():
    for crate in PRINTERS:
        for name, text in texts(f"crates/{crate}/src/**/*.rt").items():
            for call in CALL.finditer(text):
                arguments = text[call.end() : closing(text, call.end())]
                if arguments.strip().count("\n") >= MOST_LINES:
                    yield place(name, text, call.start())


def contracts():
    for name, text in texts("crates/*/src/**/*.rt").items():
        for clause in CLAUSE.finditer(text):
            end = text.index("\n", closing(text, clause.end()))
            yield from (place(name, text, wide.start()) for wide in WIDE.finditer(text, clause.start(), end))


def believed():
    """The files with their lines; the last row has the sum."""
    return told(sys.executable, "tools/draw_architecture.py", "--reached")


def indent_of(line):
    return len(line) - len(line.lstrip())


def declaration(lines):
    """The first line, with those behind it that stand further in."""
    parts = [lines[0].strip()]
    for line in lines[1:]:
        if indent_of(line) <= indent_of(lines[0]):
            break
        parts.append(line.strip())
    return " ".join(parts)


def statements(text):
    """The laws of a file: the line, and the statement behind the parameters of the sections around it."""
    lines, sections = text.splitlines(), []
    for index, line in enumerate(lines):
        if line.strip() and not line.strip().startswith("--"):
            sections = sections[: indent_of(line) // 2]
            whole = declaration(lines[index:]) if indent_of(line) == 2 * len(sections) else ""
            if whole.startswith("module _ "):
                sections.append(whole.removeprefix("module _ ").split(" where")[0] + " → ")
            elif law := LAW.fullmatch(whole):
                yield f"{index + 1}: {law.group(1)}", "".join(sections) + law.group(2)


def plain(name, own, statement):
    """A statement with its bound variables numbered as they come; what a file defines itself is its own."""
    bound = {variable for groups in BINDER.findall(statement) for group in groups for variable in group.split()}
    seen = {}
    for word in WORD.findall(statement):
        shown = f"{name} {word}" if word in own else word
        yield seen.setdefault(word, f"_{len(seen)}") if word in bound else shown


def laws():
    """A line for each statement that stands in more than one place."""
    groups = defaultdict(list)
    for name, text in texts("crates/*/proofs/**/*.antt").items():
        own = set(DEFINED.findall(text))
        for law, statement in statements(text) if not name.endswith(PROOFS) else ():
            groups[" ".join(plain(name, own, statement))].append(f"{name}:{law}")
    return ["; ".join(places) for places in groups.values() if len(places) > 1]


def documents():
    for name in told("git", "ls-files", "*.md"):
        text = (ROOT / name).read_text()
        yield from (place(name, text, wide.start()) for wide in WIDE.finditer(text))


def main():
    counts = {count.__name__: count for count in (numbers, calls, contracts, believed, laws, documents)}
    parser = argparse.ArgumentParser(description="counts what makes the repository harder to read")
    parser.add_argument("--list", metavar="NAME", choices=counts, help="print the places of a count instead")
    given = parser.parse_args()
    if given.list:
        print("\n".join(counts[given.list]()))
        return
    for name, count in counts.items():
        rows = list(count())
        print(f"{name:10} {int(rows[-1].split()[0]) if count is believed else len(rows):5}")


if __name__ == "__main__":
    main()
