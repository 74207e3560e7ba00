"""The tables of RESULTS.md."""


def table(heads, rows):
    yield "| " + " | ".join(heads) + " |"
    yield "|---" + "|---:" * (len(heads) - 1) + "|"
    for cells in rows:
        yield "| " + " | ".join(cell if isinstance(cell, str) else f"{cell:,}" for cell in cells) + " |"
    yield ""


def microseconds(row, side):
    return f"{row.times[side] / 1000:,.1f}"


def ratio(rust, port):
    return f"{rust / port:,.1f}"


def time_ratio(row):
    return row.times["rust"] / row.times["port"]


def size(row):
    return len(row.case.stored)


def rate(row, side):
    """Bytes of stored input in a second, in millions."""
    return f"{size(row) * 1000 / row.times[side]:,.0f}"


def least(rows):
    worst = min(rows, key=time_ratio)
    return f"{time_ratio(worst):.1f} ({worst.case.name}, {size(worst):,} bytes)"


# ------------------------------------------------------------ time and instructions


def list_times(rows):
    heads = ("list", "bytes", "text", "Rust, us", "port, us", "ratio", "Rust, MB/s", "port, MB/s")
    sides = ("rust", "port")
    return table(
        heads,
        (
            (row.case.name, size(row), row.text, *(microseconds(row, side) for side in sides), f"{time_ratio(row):.1f}")
            + tuple(rate(row, side) for side in sides)
            for row in rows
        ),
    )


def tree_times(rows):
    heads = ("tree", "bytes", "room", "text", "Rust, us", "port, us", "ratio", "Rust, MB/s", "port, MB/s")
    heads += ("check, us", "with walk, us")
    return table(
        heads,
        (
            (row.case.name, size(row), row.room, row.text, microseconds(row, "rust"), microseconds(row, "port"))
            + (f"{time_ratio(row):.1f}", rate(row, "rust"), rate(row, "port"))
            + (microseconds(row, "check"), microseconds(row, "walk"))
            for row in rows
        ),
    )


def counts(rows):
    heads = ("", "bytes", "Rust", "port", "ratio", "port, for a byte")
    return table(
        heads,
        (
            (
                row.case.name,
                size(row),
                row.counts["rust"],
                row.counts["port"],
                ratio(row.counts["rust"], row.counts["port"]),
                f"{row.counts['port'] / size(row):.1f}",
            )
            for row in rows
        ),
    )


# ------------------------------------------------------------ memory


def port_memory(row):
    """All that the port holds: stored input, work room, text and stack."""
    return size(row) + row.room + row.text + row.memory["port_stack"]


def memory(rows):
    heads = ("", "bytes", "in all, Rust", "in all, port", "ratio", "input, Rust", "stack, Rust", "room, port")
    heads += ("stack, port",)
    return table(
        heads,
        (
            (
                row.case.name,
                size(row),
                row.memory["heap"] + row.memory["rust_stack"],
                port_memory(row),
                ratio(row.memory["heap"] + row.memory["rust_stack"], port_memory(row)),
                row.memory["input"],
                row.memory["rust_stack"],
                row.room,
                row.memory["port_stack"],
            )
            for row in rows
        ),
    )


# ------------------------------------------------------------ pairs


def pair_results(pairs, over):
    """Each pair, the second over the first."""
    heads = ("", "bytes", "text", "port, us", over, "port, instructions", over, "Rust, us", over)

    def figures(row):
        return row.times["port"], row.counts["port"], row.times["rust"]

    def cells(row, first):
        shares = (f"{mine / other:.2f}" for mine, other in zip(figures(row), figures(first)))
        port, count, rust = shares if row is not first else ("", "", "")
        told = (row.case.name, size(row), row.text, microseconds(row, "port"), port, row.counts["port"], count)
        return told + (microseconds(row, "rust"), rust)

    return table(heads, (cells(row, pair[0]) for pair in pairs for row in pair))


# ------------------------------------------------------------ the scan for ink


def scan_results(kinds):
    """Each kind of line, its lengths over the shortest."""
    over = f"to {len(kinds[0][0].line.stored)} bytes"
    heads = ("line", "bytes", "port, ns", over, "port, instructions", over, "Rust, ns", over, "ratio")

    def cells(row, first):
        time, count, rust = row.times["port"], row.counts["port"], row.times["rust"]
        told = (row.line.name, len(row.line.stored), f"{time:,.2f}", f"{time / first.times['port']:,.2f}")
        told += (count, f"{count / first.counts['port']:,.2f}")
        return told + (f"{rust:,.2f}", f"{rust / first.times['rust']:,.2f}", ratio(rust, time))

    return table(heads, (cells(row, kind[0]) for kind in kinds for row in kind))


def written(list_rows, tree_rows, depth_pairs, length_pairs, scans):
    """The lines of RESULTS.md."""
    rows = list_rows + tree_rows
    yield "# The Rust and the port"
    yield ""
    yield "Written by `bench/run`; README.md says what is measured. A ratio is the Rust's figure over the port's."
    yield "MB/s are millions of bytes of stored list or tree in a second. Buffers are not cleared before a call."
    yield "`docs/speed.svg` draws the times."
    yield ""
    yield f"The least ratio of times: {least(list_rows)} of the lists,"
    yield f"{least(tree_rows)} of the trees."
    yield f"Heap of the port, in bytes: {max(row.memory['port_heap'] for row in rows)}."
    yield ""
    yield "## Chunk lists: `join_chunks`"
    yield ""
    yield "The text buffer has the text's length."
    yield ""
    yield from list_times(list_rows)
    yield "## Trees: `format`"
    yield ""
    yield "The text buffer has the text's length, and the work room the length that the walk needs at most."
    yield "A full room has 1,048,576 bytes, which the call clears at its end. The last two columns: `check_tree`, and `chunks`,"
    yield "which is the check and the walk."
    yield ""
    yield from tree_times(tree_rows)
    yield "## Depth"
    yield ""
    yield "Trees of 65,535 bytes, the second of each pair twice as deep. With an indent of 4 the deeper tree has more"
    yield "text, with an indent of 0 hardly. The tags of a factor are stored behind it and printed before it: to find"
    yield "them the walk reads each factor once more for each tagged factor that it stands in, so that its time grows"
    yield "with the depth, which ends at 64."
    yield ""
    yield from pair_results(depth_pairs, "to half as deep")
    yield "## Lengths and counts above 127"
    yield ""
    yield "Pairs of lessons with as many bytes, the second of which has lengths or counts above 127. A tree that has"
    yield "one is walked and then checked; of a list that has one, every text is looked at once more. A list has no"
    yield "counts."
    for kind, name in (("tree", "`format` on trees"), ("list", "`join_chunks` on their chunk lists")):
        yield ""
        yield f"{name}:"
        yield ""
        pairs = [pair for pair in length_pairs if pair[0].case.kind == kind]
        yield from list(pair_results(pairs, "over the first"))[:-1]
    yield ""
    yield "## The scan for ink"
    yield ""
    yield "`has_ink` alone, on lines inked in their first byte, and on lines without ink, which have to be read to the"
    yield "end. The Rust asks `line.trim().is_empty()`, which looks for the last ink too."
    yield ""
    yield from scan_results(scans)
    yield "## Instructions of a call"
    yield ""
    yield from counts(rows)
    yield "## Memory of a call, in bytes"
    yield ""
    yield from memory(rows)
