"""The manual pages: their cross-references, and their options."""

import re

from . import tree

XREF = re.compile(r"\.Xr (\S+) (\d)")
OPTION = re.compile(r"\.(?:It )?Fl ([\w-]+)")


def options_of_sources():
    """Returns the options that the sources of the program and of its command line have, without their first dash."""
    found = set()
    for crate in ("st_command", "st_usage", "systrace"):
        for path in tree.files(f"crates/{crate}/src", ".rt"):
            found.update(re.findall(r'"-(-?\w+)"', path.read_text()))
    return found


def faults():
    """Gives each cross-reference to a page of this repository that isn't there, and each option that the program doesn't have."""
    options, shown = options_of_sources(), set()
    for path in tree.files("man", ""):
        name = str(path.relative_to(tree.TOP))
        for number, line in enumerate(path.read_text().splitlines(), 1):
            xref, option = XREF.match(line), OPTION.match(line)
            if xref and xref[1].startswith("systrace") and not (path.parent / f"{xref[1]}.{xref[2]}").exists():
                yield name, number, f"there is no page {xref[1]}({xref[2]})"
            if option:
                shown.add(option[1])
            if option and option[1] not in options:
                yield name, number, f"the program has no option -{option[1]}"
    for option in sorted(options - shown):
        yield "man/systrace.1", 1, f"doesn't say what the option -{option} does"
