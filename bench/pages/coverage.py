"""Which definitions the contracts cite that users and auditors read, and whether docs/DEFINITIONS.md has them."""

import re

from . import markdown, tree
from .names import imports_of, items_of

# The crates whose public contracts are read.
READ = """
    st_top st_reading st_command st_kernel st_machine st_decide st_law st_reached st_filter st_learn st_audit st_report st_schedule
    st_script st_policy st_reread st_fault_laws st_relearn st_round_trip
""".split()
PAGE = "docs/DEFINITIONS.md"
# A type's variants are those of the code, and so are the limits: the type is on the page.
OF_CODE = ("TheVariants", "TheConstants")


def cited_definitions(known):
    """Gives each definition that a public contract of these crates cites: its crate, its module, its name, and who cites it."""
    found = {}
    for crate in READ:
        for path in known.crates[crate].sources:
            imports = imports_of(path)
            for item in items_of(path):
                if item.kind != "fn" or not is_exported(known.crates[crate], path, item):
                    continue
                for name in re.findall(r"[A-Za-z_]\w*", " ".join(item.contract)):
                    origin, module = imports.get(name, (None, None))
                    if origin in known.crates and module and not module.endswith(OF_CODE):
                        found.setdefault((origin, module, name), f"{crate}: {item.name}")
    return found


def is_exported(crate, path, item):
    """Returns whether other crates see a function: it, or the type that it is of, stands in a public module or is passed on at the root."""
    root = next(each for each in crate.sources if each.name in ("lib.rt", "main.rt"))
    text = root.read_text()
    passed_on = {name for use in re.findall(r"^pub use ([^;]*);", text, re.M) for name in re.findall(r"\w+", use)}
    is_in_sight = path == root or f"pub mod {path.stem};" in text
    return item.is_public and (is_in_sight or bool({item.name, *item.owner} & passed_on))


def listed_names():
    """Returns the names that the page has in backticks."""
    spans = (span for block in markdown.Page(tree.TOP / PAGE).text_blocks() for span in block.spans())
    return {name for span in spans for name in re.findall(r"[A-Za-z_]\w*", span.text)}


def definitions_missing(known):
    """Returns the citations of definitions that the page lacks."""
    listed = listed_names()
    return {cited: by for cited, by in sorted(cited_definitions(known).items()) if cited[2] not in listed}


def definitions_are_listed(known, page):
    """DEFINITIONS.md has each definition that a public contract of these crates cites."""
    if page.name == PAGE:
        for (crate, module, name), by in definitions_missing(known).items():
            yield 1, f"lacks `{name}` ({module} of `{crate}`), which the contract of {by} cites"
