"""How a case is measured: by the programs of rust/, and by callgrind."""

import os
import re
import subprocess
from collections import namedtuple
from pathlib import Path

from streams import run

HOME = Path(__file__).resolve().parent
REPOSITORY = HOME.parent

Programs = namedtuple("Programs", "oracle time once memory scan")

# `times` are nanoseconds, `counts` instructions, each by side; `memory` has the bytes that bin/memory.rs names.
Row = namedtuple("Row", "case text room times counts memory")
ScanRow = namedtuple("ScanRow", "line times counts")

# What callgrind counts of a side: the calls inside of this function.
INSIDE = {
    ("list", "rust"): "*join_built*",
    ("list", "port"): "felgutrosa_join_chunks",
    ("tree", "rust"): "*format_built*",
    ("tree", "port"): "felgutrosa_format",
    ("tree", "check"): "felgutrosa_check_tree",
    ("tree", "walk"): "felgutrosa_chunks",
}

# The same of the scan for ink.
INSIDE_SCAN = {"rust": "*rust_has_ink*", "port": "felgutrosa_has_ink"}


def build(sources):
    """Builds the static library, the oracle and the programs of bench/rust."""
    if "FELGUTROSA_LIB" not in os.environ:
        subprocess.run([REPOSITORY / "bin" / "staticlib"], check=True, stdout=subprocess.DEVNULL)
    folder = Path(os.environ.get("CARGO_TARGET_DIR", REPOSITORY / "target" / "bench")).resolve()
    environment = dict(os.environ, CARGO_TARGET_DIR=str(folder), MOS_CORE_SRC=str(Path(sources).resolve()))
    for project in (REPOSITORY / "tools" / "oracle", HOME / "rust"):
        command = ["cargo", "build", "--release", "--offline", "--quiet"]
        subprocess.run(command, cwd=project, env=environment, check=True)
    return Programs(*(str(folder / "release" / name) for name in Programs._fields))


def figures(command):
    """What a program prints: a name and a number on each line."""
    lines = run(command, b"").decode().splitlines()
    return {name: float(number) for name, number in map(str.split, lines)}


def instructions(command, inside):
    """Instructions that a command executes in calls of a function."""
    callgrind = ["valgrind", "--tool=callgrind", "--callgrind-out-file=/dev/null", f"--toggle-collect={inside}"]
    done = subprocess.run(callgrind + command, capture_output=True, check=True)
    return int(re.search(rb"Collected : (\d+)", done.stderr).group(1))


def measured(case, programs, folder, rounds):
    options_file, input_file = str(folder / "options"), str(folder / "input")
    Path(options_file).write_bytes(case.options)
    Path(input_file).write_bytes(case.stored)
    given = [case.kind, options_file, input_file]
    room = [] if case.room is None else [str(case.room)]
    timed = figures([programs.time, *given, str(rounds), *room])
    text, room_used = int(timed.pop("text")), int(timed.pop("room"))
    counts = {
        side: instructions([programs.once, *given, side, *room], inside)
        for (kind, side), inside in INSIDE.items()
        if kind == case.kind
    }
    held = figures([programs.memory, *given, *room])
    return Row(case, text, room_used, timed, counts, {name: int(number) for name, number in held.items()})


def scanned(line, programs, folder, rounds):
    """The scan for ink on a line."""
    line_file = folder / "line"
    line_file.write_bytes(line.stored)
    command = [programs.scan, str(line_file)]
    times = figures([*command, str(rounds)])
    counts = {side: instructions([*command, "0"], inside) for side, inside in INSIDE_SCAN.items()}
    return ScanRow(line, times, counts)
