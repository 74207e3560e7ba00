"""Tables of facts in the language of the definitions, for the scripts that make them: bytes, texts and lists as they
are written there, and the comparison of a file's tables with those of a fresh run."""

import sys
import textwrap
from pathlib import Path

# Rows are broken at this width; the formatter of the definitions then sets them as it likes.
WIDTH = 116


def listed(items):
    return " ∷ ".join([*items, "[]"])


def numbers(data):
    """Bytes as a list of numbers."""
    return listed(map(str, data))


def quoted(text):
    named = {10: "\\n", 34: '\\"', 92: "\\\\"}
    return '"' + "".join(named.get(byte) or chr(byte) for byte in text) + '"'


def table(name, rows):
    """The definition of a table; a row is what stands in front of it as a comment, and its parts."""
    lines = [f"{name} ="]
    for number, (comment, parts) in enumerate(rows):
        lines.append(f"-- {comment}")
        first, *rest = parts
        for part in [("∷ " if number else "") + first, *rest]:
            lines += textwrap.wrap(part, WIDTH, break_long_words=False, break_on_hyphens=False)
    return "".join(f"    {line}\n" if number else f"{line}\n" for number, line in enumerate([*lines, "∷ []"]))


def deliver(tables):
    """Prints the tables; or, with --check FILE behind the oracle, stops unless FILE has just these, blanks aside."""
    if sys.argv[2:3] != ["--check"]:
        print("\n".join(tables), end="")
        return
    written = Path(sys.argv[3]).read_text().split()
    for made in tables:
        words = made.split()
        start = next((at for at in range(len(written)) if written[at : at + 2] == words[:2]), None)
        if start is None or written[start : start + len(words)] != words:
            raise SystemExit(f"{sys.argv[3]}: the table `{words[0]}` is not that of this run")
    print(f"{sys.argv[3]}: as this run gives it")
