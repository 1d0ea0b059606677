"""The names that the sources have: items of Rust with the clauses of their contracts, definitions, lemmas, and words of the formats."""

import re
from collections import defaultdict

from . import tree

NAME = r"[A-Za-z_][\w'-]*"
# What begins an item at the head of a line, and one within an `impl` or a trait.
ITEM = re.compile(r"( *)(pub(?:\([\w ]+\))? )?(?:const |unsafe )*(fn|struct|enum|trait|const|static|type|mod|macro_rules!|ghost) (\w+)")
OWNER = re.compile(r"impl(?:<[^{]*?>)? (?:([\w:]+)(?:<[^{]*>)? for )?&?(?:'\w+ )?(?:mut )?(\w+)")
VARIANT = re.compile(r"    (?:pub(?:\([\w ]+\))? )?(\w+)(?: *[:({,=]|$)")
CLAUSE = re.compile(r"\s+(ensures|requires)(?: (\w+))? \{")
DEFINITION = re.compile(rf"(?:(?:abbrev|unfoldable|pub|record|data|mod) )*(◌?{NAME})[^=]* : |(?:(?:abbrev|unfoldable|pub) )*(?:record|data|mod) ({NAME})")
PART = re.compile(rf"  (?:pub )?({NAME}(?: {NAME})*) : ")
COMMENT = re.compile(r"\s*--\s?(.*)")
IMPORT = re.compile(r"(?:ghost )?use Rattle\.(\w+)\.([\w.]+?)(?:\.\{([^}]*)\}| as (\w+))?;?$")


class Item:
    """A function, type, constant or module of a source, with its contract."""

    def __init__(self, kind, name, owner, is_public, path, line):
        self.kind, self.name, self.owner, self.is_public, self.path, self.line = kind, name, owner, is_public, path, line
        self.contract, self.clauses, self.parts = [], set(), set()


class Definition:
    """A definition, with the comment before it and the names of its fields or constructors."""

    def __init__(self, name, module, is_public, comment, path, line):
        self.name, self.module, self.is_public, self.comment = name, module, is_public, comment
        self.path, self.line, self.parts = path, line, set()


class Names:
    """All names of one crate."""

    def __init__(self, crate):
        self.crate = crate
        self.items, self.definitions, self.lemmas = defaultdict(list), defaultdict(list), set()
        for path in crate.sources:
            for item in items_of(path):
                self.items[item.name].append(item)
        for path in crate.specs:
            for definition in definitions_of(path):
                self.definitions[definition.name].append(definition)
        for path in crate.proofs:
            self.lemmas.add(path.stem)
            self.lemmas.update(definition.name for definition in definitions_of(path))

    def all_items(self):
        return [item for items in self.items.values() for item in items]

    def parts(self):
        """Returns the names of all fields, variants and clauses."""
        found = set()
        for item in self.all_items():
            found |= item.parts | item.clauses
        for definitions in self.definitions.values():
            for definition in definitions:
                found |= definition.parts
        return found

    def has(self, name):
        return name in self.items or name in self.definitions or name in self.lemmas

    def members(self, owner):
        """Returns the names that may stand after `Owner::`: methods, variants and fields, whoever declares them."""
        found = {item.name for item in self.all_items() if owner in item.owner}
        for item in self.items.get(owner, []):
            found |= item.parts
        for definition in self.definitions.get(owner, []):
            found |= definition.parts
        return found


def items_of(path):
    """Returns the items of a source. An item within an `impl` or a trait has the type and the trait as its owners."""
    items, owners, of_trait, last = [], (), False, None
    for number, line in enumerate(path.read_text().splitlines(), 1):
        if line.startswith("}"):
            owners, last = (), None
        if line.startswith("impl"):
            owners = tuple(name for name in OWNER.match(line).groups() if name)
            of_trait = len(owners) > 1
            continue
        item = ITEM.match(line)
        if item and len(item[1]) <= 4:
            if not item[1]:
                owners = ()
            is_public = item[2] == "pub " or (bool(owners) and of_trait)
            last = Item(item[3], item[4], owners, is_public, path, number)
            items.append(last)
            if item[3] == "trait":
                owners, of_trait = (item[4],), True
        elif last:
            note_line(last, line)
    return items


def note_line(item, line):
    """Adds a line below an item to it: a clause of its contract, or a field or a variant."""
    clause = CLAUSE.match(line)
    if clause:
        item.clauses.add(clause[2] or "")
        item.contract.append(line.strip())
    elif item.contract and item.contract[-1].count("{") > item.contract[-1].count("}"):
        item.contract[-1] += " " + line.strip()
    elif item.kind in ("struct", "enum") and VARIANT.match(line):
        item.parts.add(VARIANT.match(line)[1])


def definitions_of(path):
    """Returns the definitions, or the lemmas, of a file."""
    found, comment = [], []
    for number, line in enumerate(path.read_text().splitlines(), 1):
        text = COMMENT.match(line)
        begins = DEFINITION.match(line)
        if text:
            comment.append(text[1])
        elif begins and not line.startswith("use "):
            name = (begins[1] or begins[2]).lstrip("◌")
            found.append(Definition(name, path.stem, " pub " in line or line.startswith("pub "), " ".join(comment), path, number))
            comment = []
        else:
            comment = []
            if found and PART.match(line):
                found[-1].parts.update(PART.match(line)[1].split())
    return found


def imports_of(path):
    """Returns for each name that a file imports the crate and the module that it comes from; a module itself comes from none."""
    found = {}
    for line in path.read_text().splitlines():
        match = IMPORT.match(line)
        if not match:
            continue
        crate, module, names, alias = match.groups()
        if names is None:
            found[alias or module.split(".")[-1]] = (crate, None)
        for name in (names or "").split(","):
            found[name.strip().strip("◌")] = (crate, module)
    return found
