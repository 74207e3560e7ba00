"""The chunk lists that the column setter is measured on, made by the Rust from generated source."""

from cases import DEFAULTS, Case
from sources import comment_lines, data_line, label_lines, lesson_lines, tree_of
from streams import run

NEWLINE = b"\0\1\0\n"
LIMIT = 1_048_576  # bytes of a list
LONG_LINE = 64  # values on a line of data


def chunks_in(oracle, folder, tree):
    """The chunks that the Rust makes of a stored tree, stored."""
    options_file, tree_file = folder / "options", folder / "tree"
    options_file.write_bytes(DEFAULTS)
    tree_file.write_bytes(tree)
    return run([oracle, "chunks", options_file, tree_file], b"")


def near_limit(stored):
    """A list repeated as often as the limit lets it, a newline behind each."""
    once = stored + NEWLINE
    return once * (LIMIT // len(once))


def lists(oracle, folder):
    """The long ones repeat a shorter one."""

    def chunks(lines, count, block=False):
        source = "".join(map(lines, range(count)))
        return chunks_in(oracle, folder, tree_of(oracle, folder, f"{{\n{source}}}\n" if block else source))

    def data(number):
        return data_line(LONG_LINE)

    lesson, table = chunks(lesson_lines, 270), chunks(data, 30)
    indented = chunks(lesson_lines, 270, block=True)
    made = [
        ("lesson", chunks(lesson_lines, 7)),
        ("lesson", chunks(lesson_lines, 59)),
        ("lesson", lesson),
        ("lesson", near_limit(lesson)),
        ("lesson in a block", chunks(lesson_lines, 7, block=True)),
        ("lesson in a block", chunks(lesson_lines, 59, block=True)),
        ("lesson in a block", indented),
        ("lesson in a block", near_limit(indented)),
        ("comments", chunks(comment_lines, 200)),
        ("labels", chunks(label_lines, 200)),
        ("data", chunks(data, 1)),
        ("data", chunks(data, 9)),
        ("data", table),
        ("data", near_limit(table)),
    ]
    return [Case("list", name, DEFAULTS, stored) for name, stored in made]
