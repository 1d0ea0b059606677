"""Writes inputs of `run` as a table of tests, the calls of `step` over them: table.py COUNT."""

import sys

from scripts import Maker


def file(name, text):
    yield f"={name}"
    yield from (f"|{line}" for line in text.splitlines())


def main(count):
    for seed in range(1, int(count) + 1):
        case = Maker(seed).case()
        rows = ["@", *file("P", case.policy), *file("S", case.script), *file("C", "rest"), f"& step {' '.join(case.options)} -f P S C"]
        print("\n".join(rows))


if __name__ == "__main__":
    main(*sys.argv[1:])
