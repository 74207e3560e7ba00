"""Draws docs/architecture.svg, the way of the data through the crates, and prints the table of their sizes.

    python3 tools/draw_architecture.py            writes the picture
    python3 tools/draw_architecture.py --sizes    prints the table that stands in docs/ARCHITECTURE.md
    python3 tools/draw_architecture.py --reached  prints the files of definitions that the contract of `format` reaches

The crates and what each stands on come from crates.txt, the sizes from the files, all else from the tables below. It
stops where crates.txt has a crate that the tables do not place. A crate of the tables that crates.txt does not have is
left out. A line counts where it is not blank.
"""

import argparse
import re
from html import escape
from pathlib import Path

ROOT = Path(__file__).resolve().parent.parent

# crate: left, top, width, height, what it is, in as many lines as there are parts
BOXES = {
    "exports_c": (20, 50, 124, 66, "the same as a|static library"),
    "exports": (160, 50, 200, 66, "for other languages:|one packed number"),
    "samples": (376, 50, 165, 66, "a program: document|01's samples"),
    "replay": (557, 50, 175, 66, "a program: answers|a stream of cases"),
    "lesson": (748, 50, 185, 66, "the command"),
    "wording": (949, 50, 186, 66, "what the command says"),
    "cases": (1150, 50, 112, 66, "a stream's cases"),
    "formatting": (160, 152, 975, 54, "`format`: options, walk, a check where the walk does not settle it, join; then the work room is cleared"),
    "tree": (172, 284, 166, 104, "grammar of the 43|kinds, own bytes,|read, skip, head"),
    "tokens": (397, 284, 172, 58, "tokens, blocks, `chunks`"),
    "expressions": (581, 284, 172, 58, "strings, imports, operands"),
    "leads": (397, 350, 172, 58, "what stands before a token"),
    "printers": (581, 350, 172, 58, "pushes, trivia, leaves"),
    "leaves": (397, 416, 114, 58, "records as read"),
    "events": (519, 416, 114, 58, "a tree's events"),
    "printing": (641, 416, 112, 58, "a run of events"),
    "chunks": (795, 404, 130, 70, "stored chunk:|read, judge, append"),
    "join": (967, 284, 156, 58, "the column setter"),
    "columns": (967, 416, 156, 58, "what its text is; laws"),
    "reader": (20, 532, 124, 66, "bytes and a place"),
    "tree_laws": (160, 532, 190, 66, "laws: bytes and trees|one to one"),
    "reading": (385, 532, 184, 66, "laws: reading order,|the eight places, ink"),
    "losses": (581, 532, 184, 66, "`lost`: the records that|use one of the places"),
    "options": (795, 532, 130, 66, "read, defaults|(1, 2)"),
    "text": (160, 636, 480, 44, "bytes as text: blank and ink, lines, two-byte numbers, stores"),
    "answers": (655, 636, 480, 44, "refusals by name and number; a text, its answer and its buffer"),
}

# data that goes from one stage to the next: left, top, width, height, lines
DATA = [
    (20, 316, 110, 50, "stored tree"),
    (795, 306, 130, 70, "stored chunks|in the work room"),
    (1165, 316, 95, 50, "text"),
    (960, 540, 130, 46, "stored options"),
]

# stages: left, top, width, height, name with the refusals that are met there
STAGES = [
    (160, 252, 190, 234, "check (3, 4, 5, 7)"),
    (385, 252, 380, 234, "walk: events → chunks (8)"),
    (955, 252, 180, 234, "join"),
]

STEPS = ["judge (6, 7)", "measure (9)", "write"]

# the way of the data: points of each line; the last has the arrow's head
ARROWS = [
    [(130, 341), (160, 341)],
    [(350, 341), (385, 341)],
    [(765, 341), (795, 341)],
    [(925, 341), (955, 341)],
    [(1135, 341), (1165, 341)],
    [(960, 563), (925, 563)],
    [(825, 532), (825, 508), (740, 508), (740, 486)],
    [(895, 532), (895, 508), (1000, 508), (1000, 486)],
]

# which calls it, or states laws of it: the crate, and the points of the line
CALLS = [
    ("exports_c", [(144, 83), (160, 83)]),
    ("exports", [(260, 116), (260, 152)]),
    ("samples", [(458, 116), (458, 152)]),
    ("replay", [(645, 116), (645, 152)]),
    ("lesson", [(840, 116), (840, 152)]),
    ("formatting", [(255, 206), (255, 252)]),
    ("formatting", [(575, 206), (575, 252)]),
    ("formatting", [(1045, 206), (1045, 252)]),
    ("tree_laws", [(255, 532), (255, 486)]),
    ("reading", [(477, 532), (477, 486)]),
    ("reader", [(82, 532), (82, 470), (160, 470)]),
    ("losses", [(581, 563), (569, 563)]),
]

# the time of a check in seconds, in a run of the whole gate, four crates at a time on two cores; none of the crates of
# the printers, which were written anew since
CHECK_TIMES = {
    "answers": 4, "text": 9, "options": 16, "chunks": 24, "columns": 5, "join": 69, "tree": 71, "reader": 10,
    "tree_laws": 5, "events": 7, "reading": 7, "losses": 30, "formatting": 30, "exports": 78, "wording": 106,
    "samples": 109, "replay": 119, "lesson": 118,
}

LEGEND = "brown: data; blue: a crate, and the crates it stands on; grey: calls, or states laws of; in brackets: refusals"


def crates():
    """Each crate of crates.txt with the crates that it uses, in the order of the file."""
    lines = (ROOT / "crates.txt").read_text().splitlines()
    rows = [line.split(":") for line in lines if line and not line.startswith("#")]
    return {name.split()[0]: uses.split() for name, uses in rows}


def stands_on(name, uses):
    """The crates that a crate uses and that no other crate of them uses."""
    below = {lower for used in uses[name] for lower in uses[used]}
    return [used for used in uses[name] if used not in below]


def words(left, top, text, size=12, **style):
    """A line of text; `_` stands for `-` in the names of styles."""
    given = "".join(f' {key.replace("_", "-")}="{value}"' for key, value in style.items())
    return f'<text x="{left}" y="{top}" font-size="{size}"{given}>{escape(text.replace("`", ""))}</text>'


def box(left, top, width, height, fill, line, **style):
    given = "".join(f' {key.replace("_", "-")}="{value}"' for key, value in style.items())
    return f'<rect x="{left}" y="{top}" width="{width}" height="{height}" fill="{fill}" stroke="{line}"{given}/>'


def way(points, colour, head, **style):
    given = "".join(f' {key.replace("_", "-")}="{value}"' for key, value in style.items())
    joined = " ".join(f"{left},{top}" for left, top in points)
    return f'<polyline points="{joined}" fill="none" stroke="{colour}" marker-end="url(#{head})"{given}/>'


def crate_box(name, uses):
    """A crate: its name, what it is, and the crates that it stands on."""
    left, top, width, height, what = BOXES[name]
    parts = [box(left, top, width, height, "#ffffff", "#1f5fa8", rx=4)]
    parts.append(words(left + 8, top + 16, name, 13, font_weight="bold"))
    for count, line in enumerate(what.split("|")):
        parts.append(words(left + 8, top + 31 + 13 * count, line, 11))
    lower = stands_on(name, uses)
    if lower:
        parts.append(words(left + 8, top + height - 7, "on " + ", ".join(lower), 9, fill="#777777"))
    return parts


def drawn(uses):
    """The picture's lines."""
    parts = ['<svg xmlns="http://www.w3.org/2000/svg" viewBox="0 0 1280 700" font-family="sans-serif">', "<defs>"]
    for head, colour in (("data", "#b5651d"), ("call", "#777777")):
        marker = f'<marker id="{head}" markerWidth="8" markerHeight="8" refX="7" refY="4" orient="auto">'
        parts.append(f'{marker}<path d="M0,0 L8,4 L0,8 z" fill="{colour}"/></marker>')
    parts += ["</defs>", box(0, 0, 1280, 700, "#ffffff", "none")]
    parts.append(words(20, 26, "The way of the data", 16, font_weight="bold"))
    parts.append(words(215, 26, LEGEND, 11))
    for left, top, width, height, name in STAGES:
        parts.append(box(left, top, width, height, "#eef3fa", "#9db7d8", rx=6))
        parts.append(words(left + 12, top + 21, name, 12, fill="#1f5fa8"))
    for count, step in enumerate(STEPS):
        parts.append(words(975, 364 + 20 * count, f"{count + 1}. {step}", 12))
    parts += [way(points, "#777777", "call", stroke_dasharray="4 3") for name, points in CALLS if name in uses]
    for left, top, width, height, text in DATA:
        parts.append(box(left, top, width, height, "#fbf1e6", "#b5651d", rx=16))
        lines = text.split("|")
        for count, line in enumerate(lines):
            place = top + height / 2 + 4 + 15 * count - 7 * (len(lines) - 1)
            parts.append(words(left + width / 2, place, line, 12, text_anchor="middle"))
    parts += [way(points, "#b5651d", "data", stroke_width=2) for points in ARROWS]
    for name in uses:
        parts += crate_box(name, uses)
    return parts + ["</svg>"]


def lines_of(paths):
    """How many lines of the files are not blank."""
    return sum(1 for path in paths for line in path.read_text().splitlines() if line.strip())


def is_aside(path):
    """Whether a file of definitions says of itself that it is no part of a promise."""
    return path.read_text().startswith("-- Not part of")


def size_row(name):
    folder = ROOT / "crates" / name
    specs = [path for path in folder.glob("specs/*.antt") if path.name != "Lib.antt"]
    aside = [path for path in specs if is_aside(path)]
    believed = [path for path in specs if path not in aside]
    sizes = [lines_of(folder.glob("src/**/*.rt")), lines_of(believed), lines_of(aside)]
    return sizes + [lines_of(folder.glob("proofs/**/*.antt")), len(list(folder.glob("must-fail/*.edit")))]


def size_table(uses):
    """The table of sizes, in Markdown."""
    yield "| crate | code | definitions to believe | other definitions | proofs | must-fail edits | check |"
    yield "|---|---:|---:|---:|---:|---:|---:|"
    rows = {name: size_row(name) for name in uses}
    for name, sizes in rows.items():
        time = f"{CHECK_TIMES[name]} s" if name in CHECK_TIMES else "–"
        yield f"| `{name}` | " + " | ".join(f"{size:,}" for size in sizes) + f" | {time} |"
    yield "| in all | " + " | ".join(f"{sum(column):,}" for column in zip(*rows.values())) + " | |"


def named_in(path):
    """The files of definitions that a file uses."""
    found = re.findall(r"use Rattle\.(\w+)\.specs\.(\w+)", path.read_text())
    own = [(ROOT / "crates" / crate, name) for crate, name in found if name != "declared"]
    return [folder / "specs" / f"{name}.antt" for folder, name in own if folder.is_dir()]


def reached_from(path):
    """The files of definitions that a file uses, and those that they use in turn."""
    seen, left = set(), named_in(path)
    while left:
        here = left.pop()
        if here not in seen:
            seen.add(here)
            left += named_in(here)
    return sorted(seen)


def reached_table():
    paths = reached_from(ROOT / "crates" / "formatting" / "src" / "lib.rt")
    for path in paths:
        yield f"{lines_of([path]):5} {path.relative_to(ROOT)}"
    yield f"{lines_of(paths):5} in {len(paths)} files"


def main():
    parser = argparse.ArgumentParser(description="draws docs/architecture.svg")
    parser.add_argument("--sizes", action="store_true", help="print the table of sizes instead")
    parser.add_argument("--reached", action="store_true", help="print what the contract of `format` reaches instead")
    given = parser.parse_args()
    uses = crates()
    missing = [name for name in uses if name not in BOXES]
    if missing:
        parser.error(f"no place in the tables for: {', '.join(missing)}")
    if given.sizes or given.reached:
        print("\n".join(size_table(uses) if given.sizes else reached_table()))
        return
    (ROOT / "docs" / "architecture.svg").write_text("\n".join(drawn(uses)) + "\n")


if __name__ == "__main__":
    main()
