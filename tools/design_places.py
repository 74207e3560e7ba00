#!/usr/bin/env python3
"""Lists the places of docs/DESIGN-PASS.md in crates/*/src, point by point.

    python3 tools/design_places.py            # the counts, a line for each point and kind of place
    python3 tools/design_places.py --list 3   # the places of one point, by crate, file and line

It goes by text: what it lists is to be looked at, and docs/DESIGN-PASS.md says of each place what became of it.
"""
import re
import sys
from collections import Counter, defaultdict
from pathlib import Path

ROOT = Path(__file__).resolve().parent.parent
SKIPPED_WORDS = {"if", "while", "match", "for", "return", "loop", "else", "Some", "Ok", "Err", "assert"}


def sources():
    names = [line.split(":")[0].split()[0] for line in (ROOT / "crates.txt").read_text().splitlines()
             if line.strip() and not line.startswith("#")]
    for name in names:
        for path in sorted((ROOT / "crates" / name / "src").glob("**/*.rt")):
            yield name, path, path.read_text().splitlines()


def without_comment(line):
    return re.sub(r"//.*", "", line)


def items(lines, word):
    """The items that begin with `word` (enum, struct): first line, name, body lines."""
    i = 0
    while i < len(lines):
        found = re.match(rf"\s*(?:pub(?:\([a-z]+\))? )?{word} (\w+)", lines[i])
        if found:
            j = i
            while "}" not in lines[j] and ";" not in lines[j]:
                j += 1
            yield i, found.group(1), [without_comment(x).strip() for x in lines[i + 1:j]]
            i = j
        i += 1


def functions(lines):
    """Each function: first line, name, its parameters, the text of its contract, its body's lines."""
    i = 0
    while i < len(lines):
        found = re.match(r"\s*(?:pub(?:\([a-z]+\))? )?(?:extern \"C\" )?fn (\w+)", lines[i])
        if not found:
            i += 1
            continue
        indent = len(lines[i]) - len(lines[i].lstrip())
        j = i
        while not (lines[j].rstrip() == " " * indent + "{" or lines[j].rstrip().endswith("{")
                   or lines[j].rstrip().endswith(";")):
            j += 1
        k = j
        if not lines[j].rstrip().endswith(";"):
            while lines[k].rstrip() != " " * indent + "}":
                k += 1
        head = " ".join(x.strip() for x in lines[i:j + 1])
        inner = re.search(r"\((.*?)\)(?: ->| \{| requires| ensures|;|$)", head)
        parameters = re.findall(r"(?:mut )?(\w+):", inner.group(1)) if inner else []
        if inner and re.search(r"\bself\b", inner.group(1)):
            parameters.insert(0, "self")
        yield i, found.group(1), parameters, head, lines[j + 1:k]
        i = k + 1


def shape_of(variants):
    """Option or Result, where an enum has the shape of one."""
    if len(variants) != 2:
        return None
    bare = [v for v in variants if re.fullmatch(r"\w+", v)]
    held = [v for v in variants if v not in bare]
    if len(bare) == 1:
        return "Option, or Result without a value"
    if len(bare) == 0 and len(held) == 2:
        return "Result"
    return None


def point_1():
    for crate, path, lines in sources():
        for i, name, body in items(lines, "enum"):
            variants = [v.rstrip(",") for v in body if v]
            shape = shape_of(variants)
            if shape:
                yield "enum of the shape of " + shape, crate, path, i, name
            elif any("(" in v for v in variants) and any(re.search(r"Refus|^No|^Un|Past|Large", v) for v in variants):
                yield "enum with a value and reasons for none", crate, path, i, name
        for i, line in enumerate(lines):
            code = without_comment(line)
            if re.match(r"\s*pub const [A-Z_]+: (?:usize|u8) = \d+;", code) and path.name in ("codes.rt", "places.rt"):
                yield "number for a kind, a code or a place", crate, path, i, code.strip()
            if re.match(r"\s*pub (?:spc_if_next|bit): usize", code):
                yield "flag as a number", crate, path, i, code.strip()
        for i, name, parameters, head, body in functions(lines):
            if "number" in parameters and re.search(r"\bnumber: usize", head):
                yield "function that takes a kind's number", crate, path, i, name
            if re.search(r"fn refus\w+\(|fn closed\(|fn over\(", head):
                yield "function that takes a refusal out of an answer", crate, path, i, name


def bare_shape(head, body):
    """A function's body with names, literals and numbers taken out."""
    text = "\n".join(without_comment(x) for x in body)
    text = re.sub(r'b?"(?:[^"\\]|\\.)*"', "S", text)
    text = re.sub(r"b'(?:[^'\\]|\\.)+'|\b\d\w*\b", "N", text)
    text = re.sub(r"[A-Za-z_]\w*(?:::\w+)*", lambda m: m.group(0) if m.group(0) in SKIPPED_WORDS else "x", text)
    return re.sub(r"\s+", " ", text).strip()


def point_2():
    shapes = defaultdict(list)
    for crate, path, lines in sources():
        for i, name, parameters, head, body in functions(lines):
            shape = bare_shape(head, body)
            if len(shape) >= 20:
                shapes[shape].append((crate, path, i, name))
    for shape, found in shapes.items():
        if len(found) > 1:
            for crate, path, i, name in found:
                yield "function of the shape of another", crate, path, i, f"{name} ({len(found)} of one shape)"


def point_3():
    for crate, path, lines in sources():
        for i, line in enumerate(lines):
            code = without_comment(line)
            if re.match(r"\s*(while\b.*|loop) \{$", code):
                steps = "\n".join(without_comment(x) for x in lines[i:i + 40])
                end = re.search(r"\n" + " " * (len(code) - len(code.lstrip())) + r"\}", steps)
                block = steps[:end.end()] if end else steps
                if re.search(r"\b(\w+) [-+]= \d+;", block):
                    yield "loop that counts by hand", crate, path, i, code.strip()
                else:
                    yield "other loop", crate, path, i, code.strip()


def point_4():
    for crate, path, lines in sources():
        for i, name, parameters, head, body in functions(lines):
            if re.fullmatch(r"(wide|kind_of|class_of|number_of|type_of|type_bits|casing_of|position_of|alignment_of)", name):
                yield "conversion by hand", crate, path, i, name
            elif re.fullmatch(r"(larger|smaller|lesser|larger_byte|earlier|least|one_of|padding)", name):
                yield "order or equality by hand", crate, path, i, name
            elif name in ("default", "format_byte"):
                yield "method of the library by hand", crate, path, i, name
            elif crate == "wording" and re.match(r"put_(reason|token|part|kind|code|type|mnemonic|register|modifier|"
                                                 r"variable_type|number_type|data_size|operator|encoding|mode)$", name):
                yield "name of a case by hand", crate, path, i, name
            elif re.search(r"\b(show_number|show_line)\b", name):
                yield "printing by hand", crate, path, i, name


TRAVEL = [("tree", "room", "context", "levels"), ("tree", "at", "class", "levels"), ("line", "at"), ("list", "margins", "spot"),
          ("room", "state"), ("tree", "at", "count"), ("from", "firsts"), ("text", "window")]


def point_5():
    facts = defaultdict(list)
    for crate, path, lines in sources():
        for i, name, parameters, head, body in functions(lines):
            for group in TRAVEL:
                if all(p in parameters for p in group):
                    yield "parameters " + ", ".join(group), crate, path, i, name
                    break
            for clause in re.findall(r"requires(?: \w+)? \{ (.*?) \}", head):
                for fact in clause.split(" × "):
                    facts[(crate, fact.strip("() "))].append((path, i, name))
    for (crate, fact), found in sorted(facts.items()):
        if len(found) >= 3:
            for path, i, name in found:
                yield "fact in three or more contracts: " + fact, crate, path, i, name


def point_6():
    for crate, path, lines in sources():
        for i, line in enumerate(lines):
            code = without_comment(line)
            if re.search(r"\bplaces = \[", code):
                yield "texts in one literal with a list of places", crate, path, i, code.strip()
            if re.search(r"=> \d{4,},", code):
                yield "fields packed in a number", crate, path, i, code.strip()
        for i, name, parameters, head, body in functions(lines):
            if re.search(r"line: &mut \[u8\]", head) and ("at" in parameters or "used" in parameters):
                yield "buffer with its length beside", crate, path, i, name
        for i, name, body in items(lines, "struct"):
            fields = [v.split(":")[0].replace("pub ", "") for v in body if ":" in v]
            if fields and len(fields) > 4 and all(len(f) == 1 for f in fields):
                yield "fields in place of an array", crate, path, i, name
            if name == "Firsts":
                yield "fields in place of an array", crate, path, i, name


def point_7():
    for crate, path, lines in sources():
        for i, name, parameters, head, body in functions(lines):
            text = "\n".join(without_comment(x) for x in body)
            arms = re.findall(r"=> \{?\s*(?:return )?([a-z_]+(?:::[a-z_]+)*)\(", text)
            tests = re.findall(r"if command == b'", text)
            if len(arms) >= 3 or len(tests) >= 3:
                yield "switch on which step to run", crate, path, i, name


POINTS = {1: point_1, 2: point_2, 3: point_3, 4: point_4, 5: point_5, 6: point_6, 7: point_7}


def main(arguments):
    chosen = [int(arguments[1])] if arguments[:1] == ["--list"] and len(arguments) > 1 else None
    for point in chosen or POINTS:
        found = sorted(POINTS[point](), key=lambda p: (p[0].split(":")[0], p[0]))
        if chosen:
            for kind, crate, path, i, what in found:
                print(f"{path.relative_to(ROOT)}:{i + 1}: {what} -- {kind}")
        kinds = Counter(p[0] for p in found)
        print(f"point {point}: {len(found)} places")
        for kind, count in kinds.items():
            print(f"    {count:4} {kind}")


if __name__ == "__main__":
    main(sys.argv[1:])
