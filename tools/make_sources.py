"""Makes assembler sources, and the trees that the Rust's own parser makes of them.

    python3 make_sources.py ORACLE FOLDER [--count N] [--seed S]

writes FOLDER/NAME.tree for every file in oracle/sources and for N generated sources (200), for
`compare.py --parsed FOLDER`. The same seed gives the same files.
"""

import argparse
import random
import subprocess
import tempfile
from pathlib import Path

SOURCES = Path(__file__).parent / "oracle" / "sources"
COMMENTS = ["// carry must be clear on entry", "/* c */", "/* two\n   lines */", "//", "// ;"]
EXPRESSIONS = ["1", "$ff", "%1010", "a", "a.b", "<table", ">table", "* + 2", "(1 + 2) * 3", "-1", "!x", "defined(a, 1)", '"s {p}"', "!-(a)"]
OPERANDS = ["", " #{e}", " {e}", " {e},x", " {e} , Y", " ({e}),y", " ({e},x)", " ({e})"]
MNEMONICS = "adc and asl bcc beq bit bne brk clc cmp dec dex eor inc iny jmp jsr lda ldx ldy lsr nop ora pha rol rts sbc sec sta stx txa".split()
LINES = [
    "{c}", ".byte {e}, {e} , {e}", ".word {e}", ".dword {e}", ".const a = {e}", ".var b = {e}", "* = {e}", ".align {e}",
    ".assert {e}", '.assert {e} "m {{p}}"', ".trace", ".trace ({e}, {e})", ".text {e}", ".text petscii {e}", '.file "f.bin"', "m({e}, {e})",
    '.import * from "f"', '.import a, b as c from "f"', ".segment code", "long_label_that_fills_its_margin:", "l: nop", "",
]
BLOCKS = ["{", "l: {", ".loop {e} {", ".if {e} {", ".macro m(a, b) {", '.test "t" {', '.segment "s" {', '.import a from "f" {']


class Writer:
    def __init__(self, seed):
        self.random = random.Random(seed)

    def filled(self, line):
        while "{e}" in line:
            line = line.replace("{e}", self.random.choice(EXPRESSIONS), 1)
        while "{c}" in line:
            line = line.replace("{c}", self.random.choice(COMMENTS), 1)
        return line

    def line(self):
        if self.random.random() < 0.5:
            return self.filled(self.random.choice(MNEMONICS) + self.random.choice(OPERANDS))
        return self.filled(self.random.choice(LINES)).replace("{{p}}", "{p}")

    def lines(self, depth):
        out = []
        for _ in range(self.random.randrange(1, 9)):
            behind = self.random.choice(["", "", "", "\n", " " + self.random.choice(COMMENTS)])
            if depth < 6 and self.random.random() < 0.2:
                opening = self.filled(self.random.choice(BLOCKS))
                otherwise = " else {\n" + self.lines(depth + 1) + "}" if opening.startswith(".if") and self.random.random() < 0.5 else ""
                out.append(opening + behind + "\n" + self.lines(depth + 1) + "}" + otherwise)
            else:
                out.append(self.line() + behind)
        return "\n".join(out) + "\n"


def main():
    parser = argparse.ArgumentParser()
    parser.add_argument("oracle")
    parser.add_argument("folder", type=Path)
    parser.add_argument("--count", type=int, default=200)
    parser.add_argument("--seed", type=int, default=1)
    given = parser.parse_args()
    given.folder.mkdir(parents=True, exist_ok=True)
    with tempfile.TemporaryDirectory() as made:
        sources = sorted(SOURCES.iterdir())
        for number in range(given.count):
            path = Path(made) / f"generated_{number:04}.asm"
            path.write_text(Writer(given.seed * 100000 + number).lines(0))
            sources.append(path)
        for source in sources:
            tree = subprocess.run([given.oracle, "parse", str(source)], stdout=subprocess.PIPE, stderr=subprocess.DEVNULL).stdout
            (given.folder / f"{source.stem}.tree").write_bytes(tree)
    sizes = [path.stat().st_size for path in given.folder.iterdir()]
    print(f"{len(sizes)} trees, {sum(sizes)} bytes, the longest {max(sizes)}")


if __name__ == "__main__":
    main()
