"""What may be cited: the names of all crates, and the words of the formats, of the kit and of the host."""

import re
from collections import defaultdict

from . import markdown, tree
from .names import Names

# Words of Rust, of the kit and of contracts that no source of this repository has to declare.
FOREIGN = set("push_as Ok Err Some None Option Result Vec VecDeque AllocError ensures requires old rt ci".split())
# A command that docs/DECISIONS.md names as not built.
NOT_BUILT = {"replay"}
WORD = re.compile(r"[A-Za-z_$][\w-]*")
LITERAL = re.compile(r'b?"((?:[^"\\]|\\.)*)"', re.S)
MAN_WORDS = re.compile(r"\.(?:Ql|Fl|Cm|Er|It|Ic|Ar|Pa)\b(.*)")


class Known:
    """Everything that a page may cite."""

    def __init__(self):
        self.crates = tree.read_crates()
        self.names = {name: Names(crate) for name, crate in self.crates.items()}
        self.kit = {below for crate in self.crates.values() for below in crate.below} - set(self.crates)
        self.homes = defaultdict(set)
        self.parts = set()
        for crate, names in self.names.items():
            self.parts |= names.parts()
            for name in (*names.items, *names.definitions, *names.lemmas):
                self.homes[name].add(crate)
        self.words = words_of_formats(self.crates) | FOREIGN | NOT_BUILT

    def is_declared(self, name):
        """Returns whether some source declares this name, or the parts of `Owner::part` and `owner.part`."""
        pieces = re.split(r"::|\.", name)
        if len(pieces) == 1:
            return name in self.homes or name in self.parts or name in self.crates or name in self.kit
        if pieces[0] in self.crates:
            return all(self.is_in(piece, pieces[0]) for piece in pieces[1:])
        return any(self.is_member(names, pieces) for names in self.names.values())

    def is_member(self, names, pieces):
        owner, part = pieces[-2:]
        if part in names.members(owner):
            return True
        return names.has(owner) and part in names.definitions and any(each.module == owner for each in names.definitions[part])

    def is_in(self, name, crate):
        """Returns whether this crate declares the name."""
        names, pieces = self.names[crate], re.split(r"::|\.", name)
        if len(pieces) > 1:
            return pieces[0] == crate or self.is_member(names, pieces)
        return names.has(name) or name in names.parts()

    def items(self, name, crate=None):
        """Returns the items of Rust that are meant by a name or by `Owner::name`, in one crate or in all."""
        *owner, last = name.split("::")
        found = []
        for each in [crate] if crate else self.names:
            for item in self.names[each].items.get(last, []):
                if not owner or owner[-1] in item.owner:
                    found.append(item)
        return found

    def items_of_type(self, name, crate=None):
        """Returns the items that have this type or trait as an owner."""
        return [item for each in ([crate] if crate else self.names) for item in self.names[each].all_items() if name in item.owner]

    def is_known(self, name):
        return self.is_declared(name) or name in self.words


def words_of_formats(crates):
    """Returns the words that stand in literals of the sources, in examples, in manual pages, and in the code of some pages."""
    texts = [path.read_text(errors="replace") for path in tree.files("examples", "")]
    for crate in crates.values():
        for path in crate.sources:
            texts += LITERAL.findall(path.read_text())
        for folder in ("args", "data"):
            texts += [path.read_text(errors="replace") for path in tree.files(f"{crate.folder}/{folder}", "")]
    for page in ("README.md", "docs/FORMATS.md", "docs/TOUR.md"):
        texts += [block.text for block in markdown.Page(tree.TOP / page).blocks if block.kind == "code"]
    for path in tree.files("man", ""):
        texts += words_of_manual(path)
    return {word for text in texts for word in (*WORD.findall(text), *re.findall(r"[\w$]+", text), *text.split())}


def words_of_manual(path):
    """Gives the literal parts of a manual page."""
    literal = False
    for line in path.read_text().splitlines():
        if line.startswith((".Bd", ".Ed")):
            literal = line.startswith(".Bd")
        elif literal:
            yield line
        elif MAN_WORDS.match(line):
            yield MAN_WORDS.match(line)[1].replace("\\&", "").replace("Fl ", "-")
