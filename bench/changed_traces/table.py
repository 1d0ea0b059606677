"""Writes a table of changed traces, and how its calls end by the unverified program: table.py UNVERIFIED ROWS TABLE ENDS EXAMPLES TABLE..

Each example, and runs of the tables after it, have their trace once, and then changes of it: a row has the lines before the change, those
of the change, and the lines after it. TABLE has the calls, ENDS what the test writes of them.
"""

import sys
import tempfile
from itertools import cycle
from pathlib import Path
from random import Random

from cases import answer, of_examples, of_table, trace_of
from changes import KINDS, apply, changed

HEAD = "# Traces, each of them lawful, and then with one change. Made by bench/changed_traces/table.py."
MOST_LINES = 34
OF_TABLES = 30
# Kinds of changes of which half break the trace later than where they are.
LATE = ("the worker", "after the next line", "left out")


def features(lines):
    """The words of a trace that aren't numbers or texts."""
    return {word for line in lines for word in line.split() if word.rstrip(",").isalpha()}


def covering(found, count):
    """Picks runs whose traces have many kinds of entries and changes, each after those that have more."""
    seen, picked, left = {}, [], list(found)
    while left and len(picked) < count:
        best = max(left, key=lambda item: sum(1 / (1 + 4 * seen.get(word, 0)) for word in features(item[1])) - len(item[1]) / 40)
        left.remove(best)
        picked.append(best)
        for word in features(best[1]):
            seen[word] = seen.get(word, 0) + 1
    return picked


class Table:
    def __init__(self, program, folder):
        self.program, self.folder = program, folder
        self.rows, self.ends = [HEAD], []

    def file(self, name, text):
        self.rows.append(f"={name}")
        *lines, last = text.decode().split("\n")
        self.rows += [f"|{line}" for line in lines] + ([f".{last}"] if last else [])

    def call(self, case, answer):
        words = " ".join(["replay", *case.options, case.script, "T"])
        self.rows.append(f"& {words}")
        self.ends += [f"& {words}"] + (["lawful", "= Done"] if answer == "lawful" else [f"= Illegal({answer})"])

    def begin(self, case, lines):
        """The files of a run and its trace, which is lawful."""
        self.rows += ["", f"# The trace of {case.name}.", "@"]
        for name, text in case.needed().items():
            self.file(name, text)
        self.file("T", apply(lines, (1, 0, [])))
        self.rows.append("b")
        found = answer(self.program, self.folder, case, apply(lines, (1, 0, [])))
        assert found == "lawful", (case, found)
        self.call(case, found)

    def add(self, case, lines, kind, change, found):
        number, count, new = change
        self.rows += [f"# Line {number}: {kind}.", "=T", f"<{number}", *(f"|{line}" for line in new)]
        if number + count <= len(lines):
            self.rows.append(f">{number + count}")
        self.call(case, found)


def runs(program, folder, examples, tables):
    """The runs with their traces: all of the examples, and some of the tables."""
    found, seen = [], set()
    for case in of_examples(Path(examples)):
        found.append((case, trace_of(program, folder, case)))
    others = []
    for table in tables:
        for case in of_table(Path(table)):
            lines = trace_of(program, folder, case)
            if lines and len(lines) <= MOST_LINES and tuple(lines) not in seen and len(case.files) < 5:
                seen.add(tuple(lines))
                others.append((case, lines))
    return found, covering(others, OF_TABLES)


def is_late(lines, change, answered):
    """Whether the trace goes on after the change: it breaks later, or stays lawful where more than its end has changed."""
    number, count, new = change
    if answered == "lawful":
        return number + count <= len(lines)
    return answered > number + (count == 1 and new[:1] == lines[number - 1 : number])


class Picker:
    """Picks changes of all kinds in turn and of all runs. At most one in ten leaves its trace lawful."""

    def __init__(self, program, folder, found, count):
        self.random = Random(19)
        self.program, self.folder, self.found = program, folder, found
        self.most_lawful = count // 10
        self.places = cycle(range(len(found)))
        self.tried = set()

    def next_change(self, kind, late):
        """A change of this kind that wasn't made yet; with `late` one after which the trace goes on."""
        for _ in range(4 * len(self.found)):
            place = next(self.places)
            case, lines = self.found[place]
            change = changed(self.random, kind, lines, case.workers())
            if change is None or (place, str(change)) in self.tried:
                continue
            answered = answer(self.program, self.folder, case, apply(lines, change))
            if late and not is_late(lines, change, answered) or answered == "lawful" and self.most_lawful == 0:
                continue
            self.tried.add((place, str(change)))
            self.most_lawful -= answered == "lawful"
            return place, (kind, change, answered)
        return None

    def pick(self, count):
        picked, made = {}, 0
        for turn in cycle((True, False)):
            for kind in KINDS:
                found = self.next_change(kind, late=turn and kind in LATE)
                if found and made < count:
                    picked.setdefault(found[0], []).append(found[1])
                    made += 1
            if made == count:
                return picked


def main(program, count, table, ends, examples, *tables):
    with tempfile.TemporaryDirectory() as name:
        folder = Path(name)
        made = Table(str(Path(program).resolve()), folder)
        of_the_examples, others = runs(made.program, folder, examples, tables)
        found = of_the_examples + others
        picked = Picker(made.program, folder, found, int(count)).pick(int(count))
        for place, (case, lines) in enumerate(found):
            if place < len(of_the_examples) or place in picked:
                made.begin(case, lines)
                for change in sorted(picked.get(place, []), key=lambda item: item[1][0]):
                    made.add(case, lines, *change)
    for name, rows in ((table, made.rows), (ends, made.ends)):
        Path(name).write_text("\n".join(rows) + "\n")


if __name__ == "__main__":
    main(*sys.argv[1:])
