"""The parts of pages that are made and not written: each stands between marks, `<!-- NAME: .. -->` and `<!-- end -->`."""

import re

from . import markdown, tree

MEASURED = tree.TOP / "bench/measured"
# The rows of README's short table of costs: kind and text of the row of bench/README.md, and what the run does.
SHORT_COSTS = (
    ("held", "audit", "eight threads hold opens, eight workers serve them"),
    ("filters", "audit", "500 calls that the last of 4,096 filters permits"),
    ("fast", "audit", "4,076 calls that need no worker"),
    ("forks", "audit", "63 forks, and 20 held calls by each child"),
    ("questions", "audit", "500 questions to the operator, each with a reply"),
    ("learn", "audit", "1,000 calls that are learnt, and made again"),
)
SHORT_HEAD = "| what the run does | text | time, quotient | million instructions, proved | unverified | quotient | MiB, proved | unverified |"
# The columns of what bench/run_step prints that the short table has: the quotient of times, instructions, and memory.
SHORT_COLUMNS = (5, 6, 7, 8, 9, 10)


def edge(head):
    return "|" + "---|" * (head.count("|") - 1)


def row(cells):
    """Returns a row of a table."""
    return "|" + "|".join(cell or "" for cell in cells) + "|"


def quoted(names):
    return ", ".join(f"`{name}`" for name in names)


def crate_list(crates, _):
    """The names of the crates, layer by layer."""
    return [f"- *{layer}*: {quoted(crate.name for crate in each)}" for layer, each in tree.layers(crates).items()]


def crate_tables(crates, _):
    """A table of each layer."""
    head = row(("Crate", "What it does"))
    made = []
    for layer, each in tree.layers(crates).items():
        made += ["", f"### {layer[0].upper()}{layer[1:]}", "", head, edge(head)]
        made += [row((f"`{crate.name}`", crate.description())) for crate in each]
    return made[1:]


def sizes(crates, _):
    """The table of sizes, by layer."""
    head = row(("Layer", "Crates", "Code", "Definitions", "Proofs"))
    rows = [(layer, [sum(column) for column in zip(*((1, *crate.sizes()) for crate in each))]) for layer, each in tree.layers(crates).items()]
    rows.append(("all", [sum(column) for column in zip(*(counts for _, counts in rows))]))
    return [head, edge(head)] + [row((name, *(f"{count:,}" for count in counts))) for name, counts in rows]


def gate_times(crates, _):
    """How long the gate took: the last line of what bench/gate_times printed."""
    return measured("gate_times")(crates, _)[-1:]


def measured(name):
    """Returns what makes a part that is the output of a script of bench/, as it is kept in bench/measured."""
    return lambda crates, _: (MEASURED / f"{name}.md").read_text().strip().splitlines()


def short_costs(crates, _):
    """README's table of costs, out of what bench/run_step printed."""
    rows = {}
    for line in measured("run_step")(crates, _):
        cells = markdown.cells_of(line)
        rows[cells[0], cells[1]] = [cells[column] for column in SHORT_COLUMNS]
    return [SHORT_HEAD, edge(SHORT_HEAD)] + [
        row((what, text, *rows[kind, text])) for kind, text, what in SHORT_COSTS
    ]


# By page, the parts that it has to have.
PARTS = {
    "README.md": {"crates": crate_list, "costs": short_costs},
    "bench/README.md": {"sizes": sizes, "gate times": gate_times} | {name: measured(name) for name in ("run", "run_step", "run_check", "run_run")},
    "docs/ARCHITECTURE.md": {"crates": crate_tables},
}


def parts_stand(known, page):
    """Each part that is made is as it would be made now."""
    makers, found = PARTS.get(page.name, {}), markdown.marked_parts(page)
    for name in sorted(set(makers) - {name for name, _, _ in found}):
        yield 1, f"has no part <!-- {name}: .. -->"
    for name, begin, end in found:
        if name not in makers:
            yield begin, f"nothing makes the part {name}"
            continue
        here, made = page.lines[begin:end], makers[name](known.crates, page.lines[begin:end])
        if here != made:
            at = next((at for at, pair in enumerate(zip(here, made)) if pair[0] != pair[1]), min(len(here), len(made)))
            yield begin + at + 1, f"the part {name} isn't what the tree has: bench/check_docs --write"
        yield from (
            (begin + at + 1, f"the row of {cells[0]} says nothing in its last column")
            for at, cells in enumerate(map(markdown.cells_of, made))
            if len(cells) > 2 and not cells[-1]
        )


def write_parts(known, page):
    """Makes the parts of a page anew, and returns whether that changed it."""
    makers, lines = PARTS.get(page.name, {}), list(page.lines)
    for name, begin, end in reversed(markdown.marked_parts(page)):
        if name in makers:
            lines[begin:end] = makers[name](known.crates, lines[begin:end])
    if lines != page.lines:
        page.path.write_text("\n".join(lines) + "\n")
    return lines != page.lines
