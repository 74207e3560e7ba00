#!/usr/bin/env python3
"""Respells the repository's own names of definitions and lemmas, once: words in snake case, types and facts as they are.

usage: python3 tools/respell.py --write    at the top of a checkout to which the port's script was already applied
       python3 tools/respell.py            only tells the names that would fall together in one file
       python3 tools/respell.py --table    prints the table old, new, and changes nothing

What is renamed: every name of crates/*/specs and crates/*/proofs that begins in lower case and has a capital inside
(allBlank becomes all_blank), and every lemma or definition there with dashes (drop-step becomes drop_step), wherever
it is cited: in definitions, proofs, clauses, must-fail edits, and between backticks in documents. Names of the
library, of functions in src/, and those that the checker makes keep their spelling. Where a definition gets the name of
a function, a field or a law, both stand apart by what they are, or the law gets `_lem`.
"""
import collections
import glob
import os
import re
import sys

TOKEN = re.compile(r"[^\s(){}\[\],;\"`λ.:→≡∷@|]+")
DEFINED = re.compile(
    r"^(?P<indent>\s*)(?:(?:abbrev|unfoldable|ruleset|data|record|pub|open)\s+)*(?P<name>[^\s:(){}.,;]+)\s*:(?!:)"
)
RULESET = re.compile(r"^(?:pub )?ruleset (?P<name>\S+)")
# What stands in a literal is a program's, and stays.
STRING = re.compile(r'"(?:[^"\\\n]|\\.)*"')


def read(path):
    with open(path, encoding="utf-8") as f:
        return f.read()


def source_files():
    return sorted(glob.glob("crates/*/src/**/*.rt", recursive=True))


def snake(name):
    name = re.sub(r"(?<=[a-z0-9])([A-Z])", lambda m: "_" + m.group(1).lower(), name)
    return name.replace("-", "_")


def proof_files():
    return sorted(glob.glob("crates/*/specs/**/*.antt", recursive=True) + glob.glob("crates/*/proofs/**/*.antt", recursive=True))


def uses(text):
    """The `use` lines of a file: path, names."""
    for m in re.finditer(r"^\s*(?:pub |ghost )*use\s+([^\s{;]+?)\.\{([^}]*)\}", text, re.M):
        for item in m.group(2).split(","):
            item = item.strip()
            if item:
                yield m.group(1), item.split(" as ")[0].strip(), item.split(" as ")[-1].strip()


def aliases(text):
    return set(m.group(2) for m in re.finditer(r"^\s*(?:pub |ghost )*use\s+(Rattle\.\S+)\s+as\s+([^\s;]+)", text, re.M) if ".std." not in m.group(1)) - {"tie"}


def gather():
    """The table of names, from the files as they stand."""
    own = set(c for c in os.listdir("crates") if os.path.isdir("crates/" + c))
    camel, dashed, kit = set(), set(), set()
    texts = {p: read(p) for p in proof_files()}
    for p, t in texts.items():
        for path, name, _ in uses(t):
            parts = path.split(".")
            if not (parts[0] == "Rattle" and len(parts) > 1 and parts[1] in own):
                kit.add(name)
        if not p.endswith(("/Proof.antt", "/Answers.antt", "/Invariants.antt")):
            dashed.update(n for n in defined_names(t) if "-" in n and re.match(r"[a-z]", n))
    for p in list(texts) + source_files():
        t = STRING.sub("", texts.get(p) or read(p))
        for w in TOKEN.findall(t):
            if re.fullmatch(r"[a-z][a-z0-9]*(?:[A-Z][a-z0-9]*)+[₀₁₂']*", w):
                camel.add(w)
    table = {n: snake(n) for n in sorted(camel - kit)}
    # A lemma that would have its definition's name gets `_lem`.
    words = set(table.values()) | set(w for t in texts.values() for w in defined_names(t))
    for n in sorted(dashed - kit):
        table[n] = snake(n) + ("_lem" if snake(n) in words else "")
    return table


# Names that the port's script had turned in crates/ (a library had the same spelling), and not in edits and documents.
TURNED = """
add-at add-start add-wide agree-on all-left all-none all-then andThen answerIn answerOf at-most at-same atStart
bit-below bitAt bits-back bits-fit bits-small bitsOf block-read both-below both-true by-bit by-kind by-number
by-parts byte-at bytes-fit cased-next chunk-end chunkOf chunks-fit chunksOf class-back classOf clear-spec closing-at
cond-both copy-spec cutOf digits-more each-append either-way else-same end-none end-refused end-rest endOf ends-at
ends-held ends-next enum-told field-told fieldAt fields-back fields-bits fields-read fieldsOf fill-spec fine-more
finish-spec first-fits first-head first-part first-piece first-read first-says first-short first-some firstOf
follows-nothing formOf format-small found-plain foundAt from-next front-length goes-moved going-on head-passed
head-read headOf held-kept held-small in-field in-order inTree index-read indexOf innerOf is-empty-spec isCode
isEmpty isLast isPlain item-on itemOf items-kept items-left items-of joined-snoc kindOf leading-lt left-out
line-small lineAt lineOf linesFrom linesOf list-read listOf moved-back new-spec next-field next-of no-byte no-bytes
no-end no-items no-mode no-operand no-other no-record none-below none-left not-in not-last number-behind number-fits
number-is number-read number-small numberAt one-below one-found one-label one-left one-less one-more oneOf only-none
only-one only-third open-spec opened-one operand-read or-left or-right orderAt orderIn own-bare own-below own-of
own-read ownAt ownOf part-count part-end part-of part-room part-slice parts-held parts-whole parts-within pieceAt
pieces-end piecesOf placeOf plain-end planOf positionOf push-spec put-spec ran-on read-back read-between read-first
read-fits read-found read-whole readOn readParts record-is refused-as rest-from restAt restOf room-of round-trip
row-first row-next run-fits run-index run-none run-past run-settled same-bit same-length same-next same-parts
same-read same-test set-first set-on size-number skip-read slice-first slice-front small-bytes some-bytes some-level
stands-on stateOf step-room stepped-kept stopAt store-step stored-back stored-bytes storedAt take-last take-spec
taken-back taken-more takes-none test-in textOf told-below too-long typeOf valueOf valuesOf walk-none walk-refused
walked-on walking-on walking-start writing-start
""".split()

# Lemmas that the port's script had turned to the very names that definitions get here: the definition, which stands in
# the lemma's own file, the lemma, its name.
LEMMAS = [("inOrder", "in_order", "in_order_lem"), ("roomOf", "room_of", "room_of_lem")]


def defined_names(text):
    """The definitions and lemmas of a file, those in sections (`module _ .. where`) too; no fields of records."""
    inside, below = "module", None
    for line in text.split("\n"):
        if line.lstrip().startswith(("--", "use ", "pub use ")) or not line.strip():
            continue
        indent = len(line) - len(line.lstrip())
        if not indent:
            inside = "module" if line.startswith("module") else "record" if re.match(r"(pub )?(record|data)\b", line) else "body"
        if below is not None and indent <= below:
            below = None
        if line.strip() == "where":
            below = indent
            continue
        m = RULESET.match(line) or DEFINED.match(line)
        if m and (not indent or below is not None and indent == below + 2 or inside == "module" and indent % 2 == 0 and indent <= 12):
            yield m.group("name")


# Names that a file gives to modules and to what it binds by `let`.
LOCAL = re.compile(r"(?:\blet |\bas )([a-z][a-z0-9_]*(?:-[a-z0-9_]+)+)(?=[\s;,}])")


def respell(text, table):
    known = aliases(text)
    words = set(TOKEN.findall(text))
    words |= set(table.get(w, w) for w in words)
    table = {n: snake(n) + ("_here" if snake(n) in words else "") for n in LOCAL.findall(text)} | table
    strings = [m.span() for m in STRING.finditer(text)]
    out, last = [], 0
    for m in TOKEN.finditer(text):
        if any(start < m.start() < end for start, end in strings):
            continue
        w = m.group()
        base = w.rstrip("₀₁₂'")
        new = table.get(w) or (table.get(base) and table[base] + w[len(base):])
        if not new:
            continue
        before = text[max(0, m.start() - 60):m.start()]
        if "-" in base and before.endswith("."):
            prefix = re.search(r"([^\s(){}\[\],.]+)\.$", before)
            if not (prefix and prefix.group(1) in known):
                continue
        out.append(text[last:m.start()] + new)
        last = m.end()
    return "".join(out) + text[last:]


def respell_document(text, table):
    def part(m):
        return respell(m.group(), table)
    return re.sub(r"`[^`\n]+`", part, text)


def collisions(table, texts):
    """Names that stand in a file already, and to which another name of that file would be turned."""
    found = collections.defaultdict(list)
    for p, t in texts.items():
        words = set(TOKEN.findall(t))
        for old, new in table.items():
            if old in words and new in words:
                found[(old, new)].append(p)
    back = collections.defaultdict(list)
    for old, new in table.items():
        back[new].append(old)
    return found, {n: o for n, o in back.items() if len(o) > 1}


def main():
    table = gather()
    if "--table" in sys.argv:
        for old, new in table.items():
            print(old, new)
        return
    paths = proof_files() + source_files() + sorted(glob.glob("crates/*/must-fail/*.edit"))
    texts = {p: read(p) for p in paths}
    found, same = collisions(table, texts)
    for (old, new), where in sorted(found.items()):
        print("together:", old, new, *where)
    for new, olds in sorted(same.items()):
        print("one name:", new, *olds)
    if "--write" not in sys.argv and (found or same):
        print("nothing was written: --write writes all the same")
        raise SystemExit(1)
    documents = ["README.md", "NOTICE"] + glob.glob("docs/**/*.md", recursive=True) + glob.glob("crates/*/*.md") + glob.glob("tools/*.md")
    turned = {n: snake(n) for n in TURNED} | table
    for p, t in texts.items():
        new = t
        for definition, old, lemma in LEMMAS:
            if "/proofs/" in p and re.search(rf"(?<![\w-]){definition}(?![\w-])", new):
                new = re.sub(r"(?<![\w.'-])" + old + r"(?![\w'-])", lemma, new)
        new = respell(new, turned if p.endswith(".edit") else table)
        if new != t:
            open(p, "w", encoding="utf-8").write(new)
    for p in documents:
        t = read(p)
        new = respell_document(t, turned)
        if new != t:
            open(p, "w", encoding="utf-8").write(new)


if __name__ == "__main__":
    main()
