"""Which changes of the model do the stored cases of `replay` not notice?

    python3 mutants.py FOLDER [--quick] [--only TEXT] [--list]

FOLDER is crates/replay, with its stdin and stdout. mutations.py makes every change of model/model.py that its rules
give; for each the cases that reach the changed lines are asked, the short ones first and one of each sort before a
second, until an answer differs from the stored one. A change that makes the model stop with an error, or run far longer
than before, is told too. What is told by no case is printed, but for what equal_mutants.py names as equal to the
original, with the reason; what it names and a case tells is printed as well, and a row of it that fits no change. The
exit status is 1 where one of these is printed.

--quick         does not try what equal_mutants.py names
--only TEXT     tries the changes whose line or function has the text
--list          prints each change with the case that told it
"""

import argparse
import ast
import os
import resource
import signal
import sys
import time
import types
from collections import Counter, defaultdict
from fnmatch import fnmatchcase
from multiprocessing import Pool
from pathlib import Path

from equal_mutants import EQUAL
from mutations import all_mutants, tables
from streams import read_answers, read_cases, told

MODEL = Path(__file__).parent / "model" / "model.py"
WORKERS = 2
# Inputs of more bytes come last.
LONG = 4000
# A case that takes longer than this many seconds more than before, or twenty times as long, is taken for endless.
PATIENCE = 1.0
MOST_MEMORY = 3 << 30


# How a case tells a change.
HOW = {"answer": "an answer", "error": "an error", "endless": "running on"}


class Endless(Exception):
    pass


def out_of_time(_signal, _frame):
    raise Endless


# ------------------------------------------------------------ the model, whole or changed


class Source:
    """The model's statements, compiled one by one, so that a change compiles one alone."""

    def __init__(self):
        self.whole = MODEL.read_text()
        self.lines = self.whole.splitlines()
        self.module = ast.parse(self.whole)
        self.codes = [self.compiled(top) for top in self.module.body]

    def compiled(self, top):
        return compile(ast.fix_missing_locations(ast.Module([top], [])), str(MODEL), "exec")

    def changed(self, mutant):
        """The code of the statement that has the change."""
        before = getattr(mutant.node, mutant.field)
        setattr(mutant.node, mutant.field, mutant.value)
        try:
            return self.compiled(self.module.body[mutant.top])
        finally:
            setattr(mutant.node, mutant.field, before)

    def model(self, mutant=None):
        """The model, as it stands or with a change, as a module."""
        made = types.ModuleType("model")
        for at, code in enumerate(self.codes):
            exec(self.changed(mutant) if mutant and at == mutant.top else code, made.__dict__)
        return made

    def limit_lines(self):
        """The lines that name the greatest length of a list, and what stands under such a condition."""
        for at, text in enumerate(self.lines, 1):
            if "MAX_CHUNKS" in text:
                yield from (at, at + 1) if text.endswith(":") else (at,)

    def section(self, mutant):
        """The heading under which the changed line stands in the model."""
        if mutant.where == "a wrong reading":
            return "wrong readings"
        above = self.lines[: mutant.lines[0]][::-1]
        return next((text.strip("# -") for text in above if text.startswith("# ------")), "limits")

    def text(self, mutant):
        """The first changed line."""
        return self.lines[mutant.lines[0] - 1].strip()


# ------------------------------------------------------------ the stored cases, and what they reach


class Watched(dict):
    """A table of the model that notes the lines of the rows which are used."""

    def __init__(self, rows, lines):
        super().__init__(rows)
        self.lines, self.used = lines, set()

    def __getitem__(self, key):
        self.used.update(self.lines[key])
        return super().__getitem__(key)


class Bench:
    """The stored cases with the answers that are due, and the lines of the model that each reaches."""

    def __init__(self, folder, source):
        cases = read_cases((folder / "stdin").read_bytes())
        answers, rest = read_answers((folder / "stdout").read_bytes())
        if len(cases) != len(answers) or rest:
            raise SystemExit("stdin and stdout do not fit together")
        self.pairs = list(zip(cases, answers))
        model = source.model()
        self.times = [self.timed(model, at) for at in range(len(cases))]
        rows = dict(tables(source.module))
        watched = {name: Watched(getattr(model, name), lines) for name, lines in rows.items() if lines}
        model.__dict__.update(watched)
        numbers = {}
        limits = frozenset(source.limit_lines())
        # Long lists take long: they are asked about the lines of their limit alone.
        traces = (limits if case.command == b"R" else self.traced(model, case, watched.values()) for case in cases)
        # For each case the number of its sort: cases that reach the same lines are of one.
        self.sorts = [numbers.setdefault(lines, len(numbers)) for lines in traces]
        self.reaching = defaultdict(set)
        for lines, sort in numbers.items():
            for line in lines:
                self.reaching[line].add(sort)
        self.order = self.sorted_cases()

    def timed(self, model, at):
        case, due = self.pairs[at]
        start = time.process_time()
        if told(case, model) != due:
            raise SystemExit(f"the model does not give what is stored for case {at}")
        return time.process_time() - start

    def traced(self, model, case, watched):
        lines = set()
        for table in watched:
            table.used = lines

        def line(frame, event, _):
            if event == "line":
                lines.add(frame.f_lineno)
            return line

        def call(frame, *_):
            return line if frame.f_code.co_filename == str(MODEL) else None

        sys.settrace(call)
        try:
            told(case, model)
        finally:
            sys.settrace(None)
        return frozenset(lines)

    def length(self, at):
        """The bytes of a case's list or tree."""
        case = self.pairs[at][0]
        return max(len(case.payload), case.work if case.command == b"R" else 0)

    def sorted_cases(self):
        """One of each sort of reached lines, the short ones first, then a second of each, and so on."""
        sorts = defaultdict(list)
        for at in sorted(range(len(self.pairs)), key=self.length):
            sorts[self.sorts[at]].append(at)
        ranked = [(rank, at) for sort in sorts.values() for rank, at in enumerate(sort)]
        return [at for *_, at in sorted((self.length(at) > LONG, rank, self.length(at), at) for rank, at in ranked)]

    def that_reach(self, lines):
        """The cases that reach one of these lines; all, where none does, because tables are made before any case."""
        sorts = set().union(*(self.reaching[line] for line in lines))
        found = [at for at in self.order if self.sorts[at] in sorts]
        return found or [at for at in self.order if self.pairs[at][0].command != b"R"]


# ------------------------------------------------------------ a change against the cases


class Trial:
    """Tries changes one after the other; the cases that told a change of a line are asked first about the next one."""

    def __init__(self, bench, source, mutants):
        self.bench, self.source, self.mutants = bench, source, mutants
        self.tellers = defaultdict(dict)
        self.candidates = {}

    def cases_for(self, mutant):
        """The tellers of changes nearby, then the cases that reach the change."""
        line, lines = mutant.lines[0], tuple(mutant.lines)
        if lines not in self.candidates:
            self.candidates = {lines: self.bench.that_reach(lines)}
        rest = self.candidates[lines]
        yield from list(self.tellers[line])
        yield from (at for at in rest if at not in self.tellers[line])

    def difference(self, model, at):
        """How a case tells the changed model from the original; None where it does not."""
        case, due = self.bench.pairs[at]
        signal.setitimer(signal.ITIMER_VIRTUAL, PATIENCE + 20 * self.bench.times[at])
        try:
            return None if told(case, model) == due else "answer"
        except Endless:
            return "endless"
        except Exception:
            return "error"
        finally:
            signal.setitimer(signal.ITIMER_VIRTUAL, 0)

    def verdict(self, number):
        """(number of the change, how it is told or None, the case that tells it)."""
        mutant = self.mutants[number]
        try:
            model = self.source.model(mutant)
        except Exception:
            return number, "error", None
        for at in self.cases_for(mutant):
            how = self.difference(model, at)
            if how:
                self.tellers[mutant.lines[0]][at] = True
                return number, how, at
        return number, None, None


TRIAL = None


def try_block(numbers):
    # What an earlier block of the same process found depends on the run.
    TRIAL.tellers.clear()
    return [TRIAL.verdict(number) for number in numbers]


def prepare():
    os.nice(10)
    resource.setrlimit(resource.RLIMIT_AS, (MOST_MEMORY, MOST_MEMORY))
    signal.signal(signal.SIGVTALRM, out_of_time)


def all_verdicts(trial):
    """The verdicts of all changes, by blocks of neighbours, so that tellers are found."""
    global TRIAL
    TRIAL = trial
    numbers = range(len(trial.mutants))
    blocks = [numbers[at : at + 60] for at in range(0, len(numbers), 60)]
    with Pool(WORKERS, prepare) as pool:
        for done, verdicts in enumerate(pool.imap_unordered(try_block, blocks)):
            print(f"\r{min(60 * (done + 1), len(numbers))} of {len(numbers)}", end="", file=sys.stderr)
            yield from verdicts
    print(file=sys.stderr)


# ------------------------------------------------------------ the report


def row_for(source, mutant):
    """The row of EQUAL for a change that is equal to the original, or None."""
    text = source.text(mutant)
    for row in EQUAL:
        where, lines, changes, _ = row
        if where == mutant.where and fits(text, lines) and fits(mutant.what, changes):
            return row
    return None


def fits(text, patterns):
    return any(fnmatchcase(text, pattern) for pattern in patterns)


def described(source, mutant):
    return f"{mutant.where}, line {mutant.lines[0]}: {source.text(mutant)}\n    {mutant.what}"


def is_fault(source, mutant, how, at):
    """Whether no case tells a change and no row names it, or a row names it and a case tells it; prints it then."""
    row = row_for(source, mutant)
    if how and row:
        print(f"named as equal, but told by case {at} ({how}): {described(source, mutant)}", flush=True)
    elif not how and not row:
        print(f"told by no case: {described(source, mutant)}", flush=True)
    return bool(how) == bool(row)


def print_stale(source, mutants):
    """Prints the rows of EQUAL that fit no change; how many these are."""
    used = [row_for(source, mutant) for mutant in mutants]
    stale = [row for row in EQUAL if not any(row is one for one in used)]
    for row in stale:
        print(f"fits no change: {row}")
    return len(stale)


def print_sections(source, mutants, verdicts):
    """A table: for each section of the model how many changes there are, and how they are told."""
    print(f"{'':30}" + "".join(f"{name:>8}" for name in ("changes", *HOW, "equal")))
    sections = {source.section(mutant): Counter() for mutant in mutants}
    for number, how, _ in verdicts:
        sections[source.section(mutants[number])][how or "equal"] += 1
    for name, counts in sections.items():
        numbers = [sum(counts.values())] + [counts[how] for how in (*HOW, "equal")]
        print(f"{name:30}" + "".join(f"{number:8}" for number in numbers))


def print_counts(source, mutants, verdicts):
    counts = Counter(how for _, how, _ in verdicts)
    silent = [mutants[number] for number, how, _ in verdicts if not how]
    equal = sum(row_for(source, mutant) is not None for mutant in silent)
    parts = ", ".join(f"{counts[how]} by {name}" for how, name in HOW.items())
    told_by = sum(counts[how] for how in HOW)
    print(f"{len(mutants)} changes: {told_by} told by the stored cases ({parts}),", end=" ")
    print(f"{equal} equal to the original, survivors: {len(silent) - equal} unexplained")


def main():
    parser = argparse.ArgumentParser()
    parser.add_argument("folder", type=Path)
    parser.add_argument("--quick", action="store_true")
    parser.add_argument("--only", default="")
    parser.add_argument("--list", action="store_true")
    given = parser.parse_args()
    start = time.time()
    source = Source()
    bench = Bench(given.folder, source)
    seconds = time.time() - start
    print(f"{len(bench.pairs)} stored cases, {len(set(bench.sorts))} sorts, {seconds:.0f} s", file=sys.stderr)
    every = all_mutants(source.module, source.whole)
    mutants = [one for one in every if given.only in one.where or given.only in source.text(one)]
    if given.quick:
        mutants = [one for one in mutants if not row_for(source, one)]
    faults, verdicts = print_stale(source, every), []
    for number, how, at in all_verdicts(Trial(bench, source, mutants)):
        faults += is_fault(source, mutants[number], how, at)
        verdicts.append((number, how, at))
        if given.list:
            print(f"{how}, case {at}: {described(source, mutants[number])}")
    print_sections(source, mutants, verdicts)
    print_counts(source, mutants, verdicts)
    print(f"{time.time() - start:.0f} s", file=sys.stderr)
    return 1 if faults else 0


if __name__ == "__main__":
    sys.exit(main())
