"""Has two programs replay traces, whole and changed: compare.py PROVED UNVERIFIED CHANGES SEED EXAMPLES TABLE..

Every second run is made by `run` of the proved program, of an input that is made; the others are of the examples and of the tables. Both
programs have to say that its trace is lawful, and to name the same line of it after each of some changes. It ends with 1 at the first that
differs, and keeps its files.
"""

import shutil
import sys
import tempfile
from collections import Counter
from concurrent.futures import ThreadPoolExecutor
from itertools import count
from pathlib import Path
from random import Random

HERE = Path(__file__).parent
sys.path.append(str(HERE.parent / "random_runs"))

from cases import Case, answer, of_examples, of_table, run, trace_of  # noqa: E402
from changes import KINDS, apply, changed  # noqa: E402
from scripts import Maker  # noqa: E402

AT_ONCE = 4
CHANGES_OF_A_RUN = 20
MOST_BYTES = 1_048_576


class Differs(Exception):
    pass


class Comparison:
    def __init__(self, proved, unverified, cases):
        self.proved, self.programs = proved, (proved, unverified)
        self.cases = cases

    def case(self, random, folder):
        """A run, and the lines of its trace."""
        if random.random() < 0.5:
            case = random.choice(self.cases)
            return case, trace_of(self.proved, folder, case)
        made = Maker(random.randrange(2**32)).case()
        files = {"script": made.script.encode(), "policy": made.policy.encode()}
        case = Case("made", [*made.options, "-f", "policy"], "script", None, files)
        case.write(folder)
        ended = run(folder, self.proved, "run", *case.options, "--print", "trace", case.script)
        return case, ended.stdout.decode().splitlines() if ended.returncode == 0 else None

    def answers(self, folder, case, trace):
        """What both programs answer, which has to be the same."""
        first, second = (answer(program, folder, case, trace) for program in self.programs)
        if first != second:
            raise Differs(f"the programs answer {first} and {second}")
        return first

    def compare(self, seed):
        """Changes the trace of one run, and returns how many changes of each kind there were, by whether they leave it lawful."""
        random, counts = Random(seed), Counter()
        folder = Path(tempfile.mkdtemp(prefix="replay-"))
        case, lines = self.case(random, folder)
        try:
            if lines and len(text := apply(lines, (1, 0, []))) <= MOST_BYTES:
                if self.answers(folder, case, text) != "lawful":
                    raise Differs("the trace of a run isn't lawful")
                for kind in random.choices(list(KINDS), k=CHANGES_OF_A_RUN):
                    change = changed(random, kind, lines, case.workers())
                    if change is not None:
                        found = self.answers(folder, case, apply(lines, change))
                        counts[kind, found == "lawful"] += 1
        except Differs as differs:
            raise Differs(f"{differs}\nseed {seed}: replay {' '.join(case.options)} {case.script} T, in {folder}") from None
        shutil.rmtree(folder)
        return counts


def main(proved, unverified, changes, seed, examples, *tables):
    cases = of_examples(Path(examples)) + [case for table in tables for case in of_table(Path(table))]
    comparison = Comparison(str(Path(proved).resolve()), str(Path(unverified).resolve()), cases)
    seeds, counts = count(int(seed)), Counter()
    with ThreadPoolExecutor(AT_ONCE) as pool:
        while counts.total() < int(changes):
            try:
                for found in pool.map(comparison.compare, [next(seeds) for _ in range(40)]):
                    counts += found
            except Differs as differs:
                pool.shutdown(cancel_futures=True)
                print(differs, file=sys.stderr)
                return 1
    print("| change | not lawful | lawful |\n|---|---|---|")
    for kind in KINDS:
        print(f"| {kind} | {counts[kind, False]} | {counts[kind, True]} |")
    print(f"{counts.total()} changed traces are answered alike")
    return 0


if __name__ == "__main__":
    sys.exit(main(*sys.argv[1:]))
