"""Changes one line of a trace."""

import re

TOKEN = re.compile(r'"(?:[^"\\]|\\.)*"|[^ ,]+')
NUMBER, QUOTED, ERROR = re.compile(r"\d+"), re.compile(r'".*"'), re.compile(r"E[A-Z0-9]+")
# Words that stand in the same places.
GROUPS = (
    ("fast", "untraced", "held 1", "barred 1"),
    ("missing", "notdir", "dir", "file", 'link "/x"'),
    ("open", "access", "stat", "lstat", "unlink", "readlink"),
    ("getpid", "getuid", "geteuid", "exit", "fork"),
    ("setuid", "seteuid", "setgid", "setegid", "kill"),
    ("native-fsread", "native-fswrite", "native-open"),
    ("done", "refused"),
    ("filename", "string", "mode", "uid", "argv"),
    ("claimed", "learned"),
    ("used", "denied"),
    ("copied", "looked", "stored"),
    ("made", "linked", "removed", "renamed"),
    ("written", "put", "cut", "moded"),
    ("cwd", "execed", "policy"),
)
ERRORS = ("EPERM", "ENOENT", "EACCES", "EINVAL", "ELOOP", "EFAULT", "EBADF")
VERDICTS = re.compile(r"(permit \d+ ids( \d+){4}|refuse \d+ E\w+|unmatched)(?= (applied|stale)$)")
CAUSES = re.compile(r'(filter \d+|nofilter|fault|link ".*")$')


def replace(random, line, pattern, text_of, at=None):
    """Puts another text in the place of a token that the pattern matches; none if there is no such token."""
    spans = [it.span() for it in TOKEN.finditer(line) if pattern.fullmatch(it[0])]
    if not spans:
        return None
    start, end = spans[at] if at is not None else random.choice(spans)
    new = line[:start] + text_of(line[start:end]) + line[end:]
    return None if new == line else [new]


def number(random, line, _lines, _workers):
    by = random.choice((1, 1, -1, 10, 65536, 2**32))
    return replace(random, line, NUMBER, lambda word: str(abs(int(word) + by)))


def word(random, line, _lines, _workers):
    words = [(word, group) for word in TOKEN.findall(line) for group in GROUPS if word in group]
    if not words:
        return None
    old, group = random.choice(words)
    new = random.choice([word for word in group if word != old])
    return replace(random, line, re.compile(re.escape(old)), lambda _: new, 0)


def name(random, line, lines, _workers):
    others = sorted({text for each in lines for text in TOKEN.findall(each) if QUOTED.fullmatch(text)})
    changed = (
        lambda text: text[:-1] + 'x"',
        lambda text: text[:-2] + '"' if len(text) > 3 and text[-3] != "\\" else text,
        lambda _: random.choice(others),
    )
    return replace(random, line, QUOTED, random.choice(changed))


def verdict(random, line, _lines, _workers):
    if not line.startswith("answered ") or not (found := VERDICTS.search(line)):
        return None
    old, ids = found[0], re.search(r" ids( \d+){4}", line)[0]
    others = ["unmatched", "refuse 1 EPERM", "refuse 2 ENOENT", f"permit 1{ids}", f"permit 2{ids}"]
    new = random.choice([other for other in others if other != old])
    return [line.replace(f" {old} {found[3]}", f" {new} {found[3]}")]


def cause(random, line, _lines, _workers):
    if not line.startswith("denied ") or not (found := CAUSES.search(line)):
        return None
    others = ["filter 1", "filter 2", "nofilter", "fault", 'link "/etc"']
    return [line[: found.start()] + random.choice([other for other in others if other != found[0]])]


def error(random, line, _lines, _workers):
    return replace(random, line, ERROR, lambda old: random.choice([error for error in ERRORS if error != old]))


def result(random, line, _lines, _workers):
    if not line.startswith("used "):
        return None
    head, tail = line.rsplit(" = ", 1)
    _, *changes = tail.split(", ")
    if changes and random.random() < 0.5:
        return [f"{head} = {', '.join(tail.split(', ')[:-1])}"]
    return [f"{head} = {', '.join([random.choice(('0', '7', 'EPERM', 'ENOENT')), *changes])}"]


def thread(random, line, _lines, _workers):
    if line.split(" ")[0] not in ("stored", "entered", "used", "denied", "ended", "reloaded"):
        return None
    return replace(random, line, NUMBER, lambda word: str(random.choice((int(word) + 1, max(int(word) - 1, 0)))), 0)


def worker(random, line, _lines, workers):
    if line.split(" ")[0] not in ("claimed", "answered"):
        return None
    return replace(random, line, NUMBER, lambda _: str(random.randint(1, max(workers, 2))), 0)


def applied(_random, line, _lines, _workers):
    return [f"{line.removesuffix(' stale')} applied"] if line.endswith(" stale") else None


def stale(_random, line, _lines, _workers):
    return [f"{line.removesuffix(' applied')} stale"] if line.endswith(" applied") else None


def blank(random, line, _lines, _workers):
    at = random.choice([place for place, byte in enumerate(line) if byte == " "])
    second = line[:at] + " " + line[at:]
    return [random.choice((second, second, second, line[:at] + "\t" + line[at + 1 :], " " + line, line + " ", line + "\r"))]


def spelling(random, line, _lines, _workers):
    kind = random.randrange(5)
    if kind == 0:
        return [random.choice(("", f"# {line}")), line]
    if kind == 1:
        return [f"{line} # so"]
    if kind == 2:
        return replace(random, line, NUMBER, lambda word: f"0x{int(word):x}")
    if kind == 3:
        return replace(random, line, QUOTED, lambda text: text.replace("/", "\\x2f", 1))
    return replace(random, line, NUMBER, lambda word: "0" + word)


def cut(random, line, _lines, _workers):
    places = [place for place, byte in enumerate(line) if byte == " "] + [len(line) - 1]
    return [line[: random.choice(places)]]


def left_out(_random, _line, _lines, _workers):
    return []


def doubled(_random, line, _lines, _workers):
    return [line, line]


# What each kind of change is, and what it puts in the place of a line. `order` and `more` have more to do with the lines around.
KINDS = {
    "a number": number,
    "a word": word,
    "a name": name,
    "a verdict": verdict,
    "a cause": cause,
    "an error": error,
    "a result or its changes": result,
    "the thread": thread,
    "the worker": worker,
    "applied and not stale": applied,
    "stale and not applied": stale,
    "a blank": blank,
    "the spelling": spelling,
    "cut": cut,
    "left out": left_out,
    "doubled": doubled,
    "after the next line": None,
    "a line more at the end": None,
}


def changed(random, kind, lines, workers):
    """A change of this kind: the number of a line, how many lines are left out from it on, and those in their place; or none."""
    if kind == "a line more at the end":
        return len(lines) + 1, 0, [random.choice((random.choice(lines), "end", "", "ended 1"))]
    if kind == "after the next line":
        if len(lines) < 2:
            return None
        at = random.randrange(len(lines) - 1)
        return None if lines[at] == lines[at + 1] else (at + 1, 2, [lines[at + 1], lines[at]])
    places = list(range(len(lines)))
    random.shuffle(places)
    for at in places:
        new = KINDS[kind](random, lines[at], lines, workers)
        if new is not None and new != [lines[at]]:
            return at + 1, 1, new
    return None


def apply(lines, change):
    """The text of a changed trace."""
    number, count, new = change
    return "".join(f"{line}\n" for line in [*lines[: number - 1], *new, *lines[number - 1 + count :]]).encode()
