"""What every comparison with `replay` does with its cases."""

from collections import Counter
from itertools import islice

from streams import read_answers, run, stored_case


class Tally:
    """Counts answers and prints differences."""

    def __init__(self, replay):
        self.replay = replay
        self.answers = Counter()
        self.differences = 0

    def differ(self, case, due, got):
        self.differences += 1
        print("DIFFERENT", case.command.decode(), "options", case.options.hex() or "-", "buffer", case.room)
        print("  input", case.payload.hex() if len(case.payload) < 5000 else f"of {len(case.payload)} bytes")
        print("  due", shown(due))
        print("  got", shown(got))

    def compare(self, cases, dues):
        stream = b"".join(map(stored_case, cases))
        answers, rest = read_answers(run([self.replay], stream))
        for case, due, got in zip(cases, dues, answers):
            self.answers[due.number] += 1
            if due != got:
                self.differ(case, due, got)
        if len(answers) < len(cases):
            self.differ(cases[len(answers)], dues[len(answers)], None)
        elif len(cases) < len(answers) or rest:
            self.differences += 1
            print("DIFFERENT: bytes follow the last answer")

    def close(self, part):
        counts = ", ".join(f"answer {n}: {self.answers[n]}" for n in sorted(self.answers))
        print(f"{part}: {sum(self.answers.values())} cases; {counts}", flush=True)
        self.answers.clear()


def shown(answer):
    if answer is None:
        return "nothing"
    text = answer.text if len(answer.text) < 2000 else answer.text[:2000] + b"..."
    return f"number {answer.number} value {answer.value} flag {answer.flag} text {text!r}"


def batches(items, size):
    items = iter(items)
    while batch := list(islice(items, size)):
        yield batch
