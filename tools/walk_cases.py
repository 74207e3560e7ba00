"""Cases of the walk from a tree to chunks, and of the tree call: options and rooms for given trees."""

from streams import format_case, walk_case

from model import encode_options

# All defaults; each field on its own; margins, which the walk does not look at; and what is refused by 1 and 2.
OPTIONS = [
    b"\0",
    encode_options(brace=1),
    encode_options(mnemonic_casing=0, register_casing=0),
    encode_options(indent=0),
    encode_options(indent=64, brace=1),
    encode_options(label_margin=0, code_margin=255, alignment=0),
]
REFUSED = [b"", b"\0\0", b"\4\2", b"\x08\x41"]


def options_of(number):
    """One of the options in turn; every 40th is refused."""
    if number % 40 == 39:
        return REFUSED[number // 40 % len(REFUSED)]
    return OPTIONS[number % len(OPTIONS)]


def rooms_of(rooms, thorough):
    """The work rooms to try: the exact need; or also one byte less than each need, none at all, and one more."""
    most = max(rooms, default=0)
    tried = [most]
    if thorough:
        tried += [need - 1 for need in rooms] + [0, most + 1]
    return dict.fromkeys(room for room in tried if 0 <= room)


def walk_cases(options, tree, rooms, thorough):
    for work in rooms_of(rooms, thorough):
        yield walk_case(options, tree, work)


def format_cases(options, tree, given, thorough):
    """Both buffers at their exact need; or also one byte less of each, and none."""
    text, rooms = given
    most = max(rooms, default=0)
    length = 0 if isinstance(text, tuple) else len(text)
    pairs = [(most, length)]
    if thorough:
        pairs += [(most, length - 1), (most - 1, length), (most - 1, length - 1), (0, length), (most, 0), (most + 1, length + 3)]
    for work, room in dict.fromkeys(pair for pair in pairs if min(pair) >= 0):
        yield format_case(options, tree, work, room)
