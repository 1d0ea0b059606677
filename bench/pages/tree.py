"""What the checkout has: its crates, in layers, what each stands on, and how large each is."""

import os
import re
from functools import cached_property
from pathlib import Path

TOP = Path(__file__).resolve().parents[2]


def files(folder, suffix):
    """Returns the files below a folder of the checkout that end so, in order."""
    found = []
    for above, _, names in os.walk(TOP / folder):
        found += [Path(above, name) for name in names if name.endswith(suffix)]
    return sorted(found)


def count_lines(paths):
    return sum(path.read_text().count("\n") for path in paths)


class Crate:
    """A crate: its layer, which is a heading of crates.txt, and the names of what it stands on."""

    def __init__(self, name, layer, below):
        self.name, self.layer, self.below = name, layer, below
        self.folder = f"crates/{name}"

    @cached_property
    def sources(self):
        return files(f"{self.folder}/src", ".rt")

    @cached_property
    def specs(self):
        return files(f"{self.folder}/specs", ".antt")

    @cached_property
    def proofs(self):
        return files(f"{self.folder}/proofs", ".antt")

    @cached_property
    def wrong_bodies(self):
        """Returns the names of the wrong bodies that the gate tries, and of those that are tried apart from it."""
        return [[path.stem for path in files(f"{self.folder}/{folder}", ".edit")] for folder in ("must-fail", "wrong-bodies")]

    @cached_property
    def wrong_body_files(self):
        """Returns the files of all wrong bodies."""
        return [path for folder in ("must-fail", "wrong-bodies") for path in files(f"{self.folder}/{folder}", ".edit")]

    def sizes(self):
        """Returns the lines of code, of definitions and of proofs."""
        return [count_lines(paths) for paths in (self.sources, self.specs, self.proofs)]

    def description(self):
        """Returns what the comment at the head of the crate's root file begins with, up to the first full stop or colon."""
        root = next(path for path in self.sources if path.name in ("lib.rt", "main.rt"))
        lines = []
        for line in root.read_text().splitlines():
            if not re.match(r"//! *\S", line):
                break
            lines.append(line[3:].strip())
        return re.split(r"[.:](?:\s|$)", " ".join(lines))[0]


def read_crates():
    """Returns the crates of crates.txt in its order. A comment line above some crates is the name of their layer."""
    crates, layer = {}, None
    for line in (TOP / "crates.txt").read_text().splitlines():
        if line.startswith("#"):
            layer = line.lstrip("# ")
        elif line.strip():
            name, below = line.split("#")[0].split(":")
            name = name.split()[0]
            crates[name] = Crate(name, layer, below.split())
    return crates


def layers(crates):
    """Returns each layer with its crates, in the order of crates.txt."""
    found = {}
    for crate in crates.values():
        found.setdefault(crate.layer, []).append(crate)
    return found
