"""Draws time against size for both sides, as SVG: a panel for lists and one for trees, axes by powers of ten."""

from math import ceil, floor, log10

SIDES = {"rust": ("#b5651d", "the Rust"), "port": ("#1f5fa8", "the port")}
WIDTH, HEIGHT, GAP = 430, 430, 150
LEFT, TOP = 70, 70
LINE, COLUMN = 12, 90  # of names: the height of one, and the width in which they could touch


class Panel:
    """A square in which points are placed by the logarithms of size and time."""

    def __init__(self, title, rows, left):
        self.title, self.rows, self.left = title, rows, left
        sizes = [log10(len(row.case.stored)) for row in rows]
        times = [log10(time_of(row, side)) for row in rows for side in SIDES]
        self.low = floor(min(sizes) * 2) / 2, floor(min(times))
        self.high = ceil(max(sizes) * 2) / 2, ceil(max(times))

    def place(self, size, time):
        across = (log10(size) - self.low[0]) / (self.high[0] - self.low[0])
        up = (log10(time) - self.low[1]) / (self.high[1] - self.low[1])
        return self.left + across * WIDTH, TOP + (1 - up) * HEIGHT

    def frame(self):
        yield text(self.left + WIDTH / 2, TOP - 18, self.title, "middle", 15)
        yield f'<rect x="{self.left}" y="{TOP}" width="{WIDTH}" height="{HEIGHT}" fill="none" stroke="#888"/>'
        for power in range(self.low[1], self.high[1] + 1):
            _, y = self.place(10 ** self.low[0], 10**power)
            yield line(self.left, y, self.left + WIDTH, y, "#ddd")
            yield text(self.left - 6, y + 4, named(10**power, "µs"), "end")
        for power in range(ceil(self.low[0]), floor(self.high[0]) + 1):
            x, _ = self.place(10**power, 10 ** self.low[1])
            yield line(x, TOP, x, TOP + HEIGHT, "#ddd")
            yield text(x, TOP + HEIGHT + 18, named(10**power, "bytes"), "middle")

    def lines(self):
        """A point for each row, a line through those of one name and side, and the name behind its last point."""
        ends = []
        for side, (colour, _) in SIDES.items():
            for name in dict.fromkeys(row.case.name for row in self.rows):
                rows = sorted((row for row in self.rows if row.case.name == name), key=lambda row: len(row.case.stored))
                points = [self.place(len(row.case.stored), time_of(row, side)) for row in rows]
                path = " ".join(f"{x:.1f},{y:.1f}" for x, y in points)
                yield f'<polyline points="{path}" fill="none" stroke="{colour}" stroke-width="1.2"/>'
                yield from (f'<circle cx="{x:.1f}" cy="{y:.1f}" r="2.6" fill="{colour}"/>' for x, y in points)
                ends.append((points[-1], name, colour))
        yield from labels(ends)


def time_of(row, side):
    """Microseconds."""
    return row.times[side] / 1000


def named(number, unit):
    return f"{number:,.0f} {unit}" if number >= 1 else f"{number:g} {unit}"


def line(x, y, to_x, to_y, colour):
    return f'<line x1="{x:.1f}" y1="{y:.1f}" x2="{to_x:.1f}" y2="{to_y:.1f}" stroke="{colour}"/>'


def text(x, y, words, anchor, size=11, colour="#333"):
    return f'<text x="{x:.1f}" y="{y:.1f}" text-anchor="{anchor}" font-size="{size}" fill="{colour}">{words}</text>'


def top(group):
    """Where the first of so many names stands when they stand around the middle of their points."""
    return sum(group) / len(group) - LINE * (len(group) - 1) / 2


def spread(heights):
    """Heights in order, moved so that names there do not touch: those that would stand around their middle."""
    groups = []
    for height in heights:
        groups.append([height])
        while len(groups) > 1 and top(groups[-1]) < top(groups[-2]) + LINE * len(groups[-2]):
            last = groups.pop()
            groups[-1] += last
    return [top(group) + LINE * number for group in groups for number in range(len(group))]


def labels(ends):
    """Names behind points, tied to them; those of one column do not touch."""
    while ends:
        left = min(x for (x, _), _, _ in ends)
        column = sorted((end for end in ends if end[0][0] < left + COLUMN), key=lambda end: end[0][1])
        ends = [end for end in ends if end not in column]
        for ((x, y), name, colour), height in zip(column, spread([y for (_, y), _, _ in column])):
            yield line(x + 3, y, x + 20, height, colour)
            yield text(x + 22, height + 4, name, "start", 11, colour)


def drawn(list_rows, tree_rows):
    """The picture. Rows with a work room of their own are left out: they have the same trees."""
    trees = [row for row in tree_rows if row.case.room is None]
    panels = [
        Panel("Chunk lists: join_chunks", list_rows, LEFT),
        Panel("Trees: format", trees, LEFT + WIDTH + GAP),
    ]
    width, height = LEFT + 2 * (WIDTH + GAP), TOP + HEIGHT + 60
    parts = [f'<svg xmlns="http://www.w3.org/2000/svg" width="{width}" height="{height}" font-family="sans-serif">']
    parts.append(f'<rect width="{width}" height="{height}" fill="white"/>')
    for number, (colour, name) in enumerate(SIDES.values()):
        parts.append(text(LEFT + 110 * number, 26, f"● {name}", "start", 14, colour))
    told = "time of a call against bytes of stored input; bench/RESULTS.md has the figures"
    parts.append(text(LEFT + 230, 26, told, "start", 12))
    for panel in panels:
        parts += [*panel.frame(), *panel.lines()]
    return "\n".join(parts + ["</svg>"]) + "\n"
