"""The checks: each gives the faults that it finds in a page, as a line and what is wrong there."""

import re
import shutil
import subprocess

from . import markdown, tree

NAME = re.compile(r"[A-Za-z_]\w*(?:(?:::|\.)\w+)*(?:\(\))?")
WITHIN = re.compile(r"(?<![\\\w$])[A-Za-z_]\w*(?:(?:::|\.)\w+)*")
SUFFIXES = ("md", "antt", "rt", "rs", "txt", "edit", "sh", "policy", "script", "schedule")
PATH = re.compile(rf"(?:\.\./)*[\w.*-]+(?:/[\w.*-]+)*(?:/|\.(?:{'|'.join(SUFFIXES)}))|(?:crates|bench|docs|examples|man)(?:/[\w.*-]+)+")
JOINS = ("", ",", "and", ", and", "or", ", or")
WRONG_BODIES = "docs/WRONG-BODIES.md"
# Under these headings clauses are cited without their function.
CLAUSES_OF = {("README.md", "The theorem"): "systrace_plain", ("docs/PROMISES.md", "End to end"): "systrace_plain"}
# Under these headings laws are of this crate, but where their row names another.
LAWS_OF = {("docs/PROMISES.md", "Laws of every run"): "st_law"}
# Columns of tables, whose names carry a promise, and those whose names are definitions.
CARRIERS = ("Carried by", "Said by", "Refused by", "Contract", "Each refusal computed in")
DEFINING = ("Is",)


# ---- names


def names_are_known(known, page):
    """Each name in backticks is declared by a source, or is a word of the formats."""
    for block in page.text_blocks():
        for span in block.spans():
            for name in names_in(span.text):
                if not known.is_known(name) and not is_ending(known, name) and not names_a_script(name):
                    yield span.line, f"`{name}` is declared nowhere"


def names_in(text):
    """Gives what has to be known of a text in backticks: all of it where it is a name, else the parts that can only be names."""
    if PATH.fullmatch(text):
        return
    if NAME.fullmatch(text):
        yield text.removesuffix("()")
    elif "/" not in text:
        for name in WITHIN.findall(text):
            if "_" in name.strip("_") or "::" in name or re.search(r"[a-z][A-Z]", name):
                yield name


def is_ending(known, name):
    """Returns whether a name is the ending of others, as `_after`."""
    return name.startswith("_") and any(each.endswith(name) for each in known.homes)


def names_a_script(name):
    """Returns whether a name is a script of bench/ or one of the kinds that a script measures."""
    scripts = [path for path in (tree.TOP / "bench").iterdir() if path.is_file()]
    return name in {path.name for path in scripts} or any(f"\n{name}() {{" in path.read_text() for path in scripts)


# ---- runs of names


class Run:
    """Names that stand beside each other in a text, with the crate or type that they are said to be of."""

    def __init__(self, role, span, subject=None):
        self.role, self.spans, self.subject, self.owners = role, [span], subject, []
        self.begins = begins_sentence(span)

    def names(self):
        """Gives the line and the name of each, where a type that one begins with counts for those after it too."""
        owner = ""
        for span in self.spans:
            name = span.text.removesuffix("()")
            yield span.line, name, owner
            if "::" in name:
                owner = name.rsplit("::", 1)[0]


def begins_sentence(span):
    """Returns whether a sentence ends, or what carries a promise begins, between a span and the one before it."""
    return bool(re.search(r"[.!?](\s|$)|Carried by:", span.lead))


def runs_of(block):
    """Returns the runs of a text. The subject of a run of clauses is the run of functions before it in its sentence."""
    runs, closed, begin = [], True, 0
    for span in block.spans():
        lead = span.lead
        if begins_sentence(span):
            begin = len(runs)
        if re.search(r"\bclauses?$", lead):
            subject = next((run for run in reversed(runs[begin:]) if run.role == "names"), None)
            runs.append(Run("clauses", span, subject))
            closed = False
        elif re.search(r"\bin the words?(?: of)?$", lead):
            runs.append(Run("words", span))
            closed = False
        elif runs and (lead == "of" or (lead == "(" and re.fullmatch(r"(st|test|bench)_\w+", span.text))):
            runs[-1].owners.append(span.text)
            closed = True
        elif lead in JOINS and not closed:
            runs[-1].spans.append(span)
        else:
            goes_on = runs and lead == "and" and runs[-1].role == "words"
            runs.append(Run("words" if goes_on else "names", span))
            closed = False
    return runs


def crate_of(known, run):
    return next((owner for owner in run.owners if owner in known.crates), None)


def owners_have_names(known, page):
    """Each name that is said to be of a crate is declared there."""
    for block in page.text_blocks():
        for run in runs_of(block) if block.kind != "heading" else ():
            crate = crate_of(known, run)
            if not crate or run.role == "clauses":
                continue
            for line, name, owner in run.names():
                is_there = known.is_in(name, crate) or known.is_in(f"{owner}::{name}", crate)
                if NAME.fullmatch(name) and name not in known.crates and not is_there:
                    yield line, f"`{name}` is not in `{crate}`"


# ---- clauses


def clauses_stand(known, page):
    """Each clause that is cited stands in the contract of the function, or of a function of the type, that is named before it."""
    for block in page.text_blocks() if page.name != WRONG_BODIES else ():
        default = default_subject(page, block)
        for run in runs_of(block):
            if run.role == "clauses":
                subjects = subject_items(known, run)
                yield from clauses_missing(run, [item for items in subjects.values() for item in items] + known.items(default))
                yield from functions_without(run, subjects) if not default else ()
        if default:
            yield from clauses_in_brackets(known, block, default)


def default_subject(page, block):
    return next((CLAUSES_OF[page.name, title] for title in block.titles if (page.name, title) in CLAUSES_OF), "")


def subject_items(known, run):
    """Returns by name the functions that a run of clauses is of; of a type these are all of its own."""
    if not run.subject:
        return {}
    crate, found = crate_of(known, run.subject), {}
    for _, name, owner in run.subject.names():
        items = known.items(f"{owner}::{name}", crate) if owner and "::" not in name else []
        for item in items or known.items(name, crate):
            found.setdefault(name, []).extend([item] if item.kind == "fn" else known.items_of_type(item.name, crate))
    return found


def functions_without(run, subjects):
    """Gives each function that has none of the clauses that are cited of it."""
    cited = {name for _, name, _ in run.names()}
    for name, items in subjects.items():
        if items and not any(cited & item.clauses for item in items):
            yield run.spans[0].line, f"the contract of {name} has no clause of {', '.join(sorted(cited))}"


def clauses_missing(run, items):
    clauses = {clause for item in items for clause in item.clauses}
    subject = ", ".join(sorted({item.name for item in items})) or "what is named before it"
    for line, name, _ in run.names():
        if name not in clauses:
            yield line, f"no clause `{name}` in the contract of {subject}"


def clauses_in_brackets(known, block, function):
    """Brackets that have nothing but names cite clauses of the section's function."""
    clauses = {clause for item in known.items(function) for clause in item.clauses}
    for match in re.finditer(r"\(((?:`\w+`(?:,\s|\sand\s)?)+)\)", block.text):
        for name in markdown.SPAN.findall(match[1]):
            if name not in clauses:
                line = block.line + block.text.count("\n", 0, match.start())
                yield line, f"no clause `{name}` in the contract of {function}"


# ---- what carries promises


def carriers_are_public(known, page):
    """What is said to carry a promise is a public function, type or law, a definition where it is cited as one, or a record and its fields."""
    for block in page.text_blocks():
        for text in carrying_texts(block):
            part = markdown.Block(block.kind, block.line + block.text.count("\n", 0, block.text.find(text)), text, block.titles)
            yield from carriers_missing(known, part, default_subject(page, block))


def carrying_texts(block):
    """Gives the texts of a block that say what carries a promise."""
    if block.kind == "row":
        return [cell for title, cell in zip(block.header, block.cells) if title in CARRIERS]
    _, found, text = block.text.partition("Carried by: ")
    return [text] if found else []


def carriers_missing(known, block, default):
    record = None
    clauses = {clause for item in known.items(default) for clause in item.clauses}
    for run in runs_of(block):
        lead = run.spans[0].lead
        if run.role == "clauses":
            continue
        for line, name, owner in run.names():
            if not NAME.fullmatch(name) or name in known.crates:
                continue
            fields = fields_of(known, record) if record and lead == ":" else set()
            if name not in fields | clauses and not is_carrier(known, name, owner, crate_of(known, run), run.role):
                yield line, f"`{name}` is no public {'definition' if run.role == 'words' else 'function, type, law or definition'}"
        if lead != ":":
            record = run.spans[-1].text


def fields_of(known, name):
    """Returns the fields of a definition, or the functions and clauses of a type."""
    found = set()
    for names in known.names.values():
        found |= names.members(name)
        found |= {clause for item in names.all_items() if name in item.owner for clause in item.clauses}
    return found


def is_carrier(known, name, owner, crate, role):
    """Returns whether something that can carry a promise has this name: public code, a type as a definition, or a lemma."""
    items = cited_items(known, name, owner, crate)
    names = [known.names[crate]] if crate else known.names.values()
    if role == "names" and any(item.is_public for item in items):
        return True
    if any(definition.is_public for each in names for definition in each.definitions.get(name, [])):
        return role == "words" or name[0].isupper()
    is_lemma = any(name in each.lemmas for each in names) and not known.items(name)
    return is_lemma or (role == "words" and bool(items))


def cited_items(known, name, owner, crate):
    """Returns the items that a citation means. A method is named with its type, or after another of its type."""
    if "::" in name:
        return known.items(name, crate)
    methods = known.items(f"{owner}::{name}", crate) if owner else []
    return methods + [item for item in known.items(name, crate) if not item.owner]


def words_are_used(known, page):
    """Each word in which a promise is said to be made stands in the contract, or in the clauses of it, that is said to carry it."""
    for block in page.text_blocks():
        default, before = default_subject(page, block), None
        for run in runs_of(block):
            if run.begins:
                before = None
            if run.role != "words":
                before = run
            elif before or default:
                contract = cited_contract(known, before, default)
                for line, name, _ in run.names():
                    if contract and name not in contract:
                        yield line, f"`{name}` is no word of the contract that is cited"


def cited_contract(known, run, default):
    """Returns the words of the clauses that a run cites, or of all that the contracts or the modules have that it names."""
    if run and run.role == "names":
        cited = [(name, cited_items(known, name, owner, crate_of(known, run))) for _, name, owner in run.names()]
        texts = [text for _, items in cited for item in items for text in item.contract]
        found = [each for name, _ in cited for names in known.names.values() for each in names.definitions.get(name, [])]
        texts += [path.read_text() for path in {each.path for each in found}]
    else:
        items = [item for found in subject_items(known, run).values() for item in found] if run else []
        clauses = {name for _, name, _ in run.names()} if run else set()
        contract = [text for item in items + known.items(default) for text in item.contract]
        texts = [text for text in contract if not clauses or any(f" {clause} {{" in text for clause in clauses)]
    return set(re.findall(r"[A-Za-z_]\w*", " ".join(texts)))


def columns_are_definitions(known, page):
    """In these columns each name is a public definition."""
    for block in page.text_blocks():
        for title, cell in zip(block.header, block.cells):
            for name in markdown.SPAN.findall(cell) if title in DEFINING else ():
                found = (each for names in known.names.values() for each in names.definitions.get(name, []))
                if name not in known.crates and not any(each.is_public for each in found):
                    yield block.line, f"`{name}` is no public definition"


def laws_are_of_their_crate(known, page):
    """Under a heading of laws each is of the crate that the heading's text names, or of one that its row names."""
    for block in page.text_blocks():
        crate = next((LAWS_OF[page.name, title] for title in block.titles if (page.name, title) in LAWS_OF), None)
        if not crate or block.kind != "row":
            continue
        crates = [crate] + [name for name in markdown.SPAN.findall(block.text) if name in known.crates]
        for text in carrying_texts(block):
            for name in markdown.SPAN.findall(text):
                if name not in known.crates and not any(known.is_in(name, each) for each in crates):
                    yield block.line, f"`{name}` is not in {' or '.join(crates)}"


# ---- crates and modules


def texts_speak_of_their_crates(known, page):
    """A name of the sources in a text about crates is of these, of one that they stand on, or is said to be of another."""
    for block, crates in texts_about_crates(known, page):
        reach = {below for crate in crates for below in known.crates[crate].below if below in known.crates} | set(crates)
        for run in runs_of(block):
            if run.owners or run.role == "clauses":
                continue
            for line, name, owner in run.names():
                if is_of_sources(known, name) and not any(known.is_in(each, crate) for each in (name, f"{owner}::{name}") for crate in reach):
                    yield line, f"`{name}` is not in {' or '.join(crates)}, nor in what it stands on"


def texts_about_crates(known, page):
    """Gives the rows of tables of crates, and the items of DEFINITIONS.md, with the crates that they are about."""
    crates = []
    for block in page.text_blocks():
        if block.kind == "row" and block.header and block.header[0] == "Crate":
            yield block, [name for name in markdown.SPAN.findall(block.cells[0]) if name in known.crates]
        if page.name == "docs/DEFINITIONS.md" and block.kind == "heading":
            crates = [name for name in markdown.SPAN.findall(block.text) if name in known.crates]
        elif page.name == "docs/DEFINITIONS.md" and crates:
            yield block, crates


def is_of_sources(known, name):
    """Returns whether a text in backticks can only mean a name of the sources."""
    is_name = NAME.fullmatch(name) and ("_" in name or name not in known.words)
    return is_name and name not in known.crates and name not in known.kit and known.is_declared(name)


def items_of_modules(known, page):
    """Gives the items of DEFINITIONS.md that begin with names of modules: these names, and the crates that they are of."""
    for block, crates in texts_about_crates(known, page):
        named = re.match(r"- ((?:`[\w.]+`(?:, |(?: and ))?)+)(?: of `(\w+)`)?", block.text)
        if named and block.kind == "paragraph":
            names = [name.removesuffix(".antt") for name in markdown.SPAN.findall(named[1])]
            yield block, names, [named[2]] if named[2] else crates


def modules_stand_under_their_crates(known, page):
    """An item of DEFINITIONS.md begins with a module, a type or a definition of a crate that its heading names."""
    for block, names, crates in items_of_modules(known, page):
        for name in names:
            if not any(is_module(known, name, crate) for crate in crates):
                yield block.line, f"`{name}` is no module or definition of {' or '.join(crates)}"


def names_stand_under_their_modules(known, page):
    """A definition that an item of DEFINITIONS.md names stands in a module of that item, or is named in an item of its own module too."""
    listed, elsewhere = set(), []
    for block, modules, crates in items_of_modules(known, page):
        here = set(modules) | {span.text for span in block.spans()}
        for span in block.spans():
            for name in WITHIN.findall(span.text):
                found = [each for crate in crates for each in known.names[crate].definitions.get(name, []) if each.module != "Lib"]
                listed |= {(each.path, name) for each in found if each.module in here}
                if found and not any(each.module in here for each in found):
                    elsewhere.append((span.line, name, found[0]))
    for line, name, definition in elsewhere:
        if (definition.path, name) not in listed:
            yield line, f"`{name}` stands in {definition.module}"


def is_module(known, name, crate):
    specs = known.crates[crate].specs
    return any(path.stem == name for path in specs) or known.is_in(name, crate)


# ---- paths and links


def paths_exist(known, page):
    """Each path in backticks is there, from the top, from the page's folder, or in the folder of a crate."""
    for block in page.text_blocks():
        for span in block.spans():
            if PATH.fullmatch(span.text) and not is_path(page, span.text) and span.text not in known.words:
                yield span.line, f"there is no {span.text}"


def is_path(page, text):
    folders = (tree.TOP, page.path.parent)
    if any((folder / text).exists() for folder in folders):
        return True
    for below in ("", "specs/", "src/", "proofs/"):
        if next(tree.TOP.glob(f"crates/*/{below}{text}"), None):
            return True
    return next(tree.TOP.glob(f"examples/{text}"), None) is not None


def links_lead_somewhere(known, page):
    """The file of each link is there, and so is the heading that it names."""
    for block in page.text_blocks():
        for match in markdown.LINK.finditer(block.text):
            line = block.line + block.text.count("\n", 0, match.start())
            target, _, anchor = match[2].partition("#")
            if re.match(r"[a-z]+:", target):
                continue
            path = page.path.parent / target if target else page.path
            if not path.exists():
                yield line, f"the link to {match[2]} leads nowhere"
            elif anchor and anchor not in markdown.Page(path.resolve()).anchors():
                yield line, f"{target or page.name} has no heading #{anchor}"


# ---- code, counts and wrong bodies


def quoted_clauses_stand(known, page):
    """Each clause that a code block quotes stands in a source, word for word but for white space."""
    quoted = [(block, line) for block in page.blocks if block.kind == "code" for line in block.text.splitlines() if "ensures" in line]
    contracts = {squeezed(clause) for names in known.names.values() for item in names.all_items() for clause in item.contract}
    for block, line in quoted:
        if squeezed(line) not in contracts:
            yield block.line, f"no source has the clause {line.strip()}"


def squeezed(text):
    return re.sub(r"\s+", "", text)


def counts_are_right(known, page):
    """Each count of what the tree has is right: of crates, of wrong bodies, of calls, and of given traces."""
    right = counts(known)
    for block in page.text_blocks():
        for words, count in right:
            for match in re.finditer(words, block.text):
                if int(match[1].replace(",", "")) != count:
                    yield block.line, f"{' '.join(match[0].split())}: there are {count}"


def counts(known):
    """Returns how pages speak of each count, and what it is."""
    given = (path.read_text() for path in known.crates["st_law"].proofs if path.stem.startswith("GivenRuns"))
    return (
        (r"(?:all|are|of) (\d[\d,]*) crates\b", len(known.crates)),
        (r"(?:all|are|of) (\d[\d,]*) wrong bodies\b", sum(len(names) for crate in known.crates.values() for names in crate.wrong_bodies)),
        (r"(?:all|of the|knows|makes|has all)\s(\d+)\s(?:system )?calls\b", sum(len(item.parts) for item in known.items("SysCall", "st_calls"))),
        (r"(\d+) traces on which two programs", sum(text.count("_input : Input") for text in given)),
    )


def toolchain_is_named(known, page):
    """README names the toolchain as `rt version` does, where there is one."""
    if page.name != "README.md" or not shutil.which("rt"):
        return
    version = subprocess.run(["rt", "version"], capture_output=True, text=True).stdout.strip()
    for block in page.text_blocks():
        for span in block.spans():
            if span.text.startswith("rattle-kit") and span.text != version:
                yield span.line, f"the toolchain is {version}, not {span.text}"


def wrong_bodies_are_listed(known, page):
    """WRONG-BODIES.md has each wrong body that the gate tries, under its crate. All have a function that is there and a clause of it."""
    if page.name != WRONG_BODIES:
        return
    listed = set()
    for block in page.text_blocks():
        crate = next((name for name in markdown.SPAN.findall(block.titles[-1]) if name in known.crates), None) if block.titles else None
        if block.kind != "row" or not crate or "Mutant" not in block.header:
            continue
        cells = dict(zip(block.header, block.cells))
        name = re.sub(r"[ -]", "_", re.sub(r"[`*]", "", cells["Mutant"]))
        listed.add((crate, name))
        if name not in known.crates[crate].wrong_bodies[0]:
            yield block.line, f"the gate tries no wrong body {name} of `{crate}`"
    there = {(crate.name, name) for crate in known.crates.values() for name in crate.wrong_bodies[0]}
    for crate, name in sorted(there - listed):
        yield 1, f"the wrong body {name} of `{crate}` is not listed"
    for crate in known.crates.values():
        for path in crate.wrong_body_files:
            for what in notes_stand(known, crate.name, path.read_text()):
                yield 1, f"{path}: {what}"


def notes_stand(known, crate, text):
    """Gives what is wrong with the notes of a wrong body on its functions and on the clause that isn't proved."""
    notes = dict(re.findall(r"^# ([\w ]+): (.+)$", text, re.M))
    items = []
    for function in notes.get("function", "").split(", "):
        items += known.items(function, crate)
        if not known.items(function, crate):
            yield f"`{function}` is no function of `{crate}`"
    clause = re.fullmatch(r"clause `(\w+)`", notes.get("not proved", ""))
    if items and clause and not any(clause[1] in item.clauses for item in items):
        yield f"no clause `{clause[1]}` in the contract of {notes['function']}"


CHECKS = (
    names_are_known,
    owners_have_names,
    clauses_stand,
    carriers_are_public,
    words_are_used,
    columns_are_definitions,
    laws_are_of_their_crate,
    texts_speak_of_their_crates,
    modules_stand_under_their_crates,
    paths_exist,
    links_lead_somewhere,
    quoted_clauses_stand,
    counts_are_right,
    toolchain_is_named,
    names_stand_under_their_modules,
    wrong_bodies_are_listed,
)
