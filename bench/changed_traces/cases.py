"""The runs whose traces are changed: those of the examples, of tables of tests, and of inputs that are made."""

import re
import subprocess
from dataclasses import dataclass

SECONDS = 30


@dataclass
class Case:
    name: str
    # The options, the script and the schedule.
    options: list
    script: str
    schedule: str
    # By their names.
    files: dict

    def write(self, folder):
        for name, text in self.files.items():
            (folder / name).write_bytes(text)

    def workers(self):
        return int(self.options[self.options.index("-w") + 1]) if "-w" in self.options else 1

    def needed(self):
        """The files that the run is made of, in the order in which they are read."""
        names = [self.script, *(name for option, name in zip(self.options, self.options[1:]) if option == "-f")]
        return {name: self.files[name] for name in names if name in self.files}


def case_of(name, words, files):
    """The case of these words after `step`."""
    *options, script, schedule = words
    if "--print" in options:
        at = options.index("--print")
        del options[at : at + 2]
    return Case(name, options, script, schedule, files)


def without_comments(text):
    return b"".join(line for line in text.splitlines(keepends=True) if not line.startswith(b"#"))


def of_examples(folder):
    """The examples that `examples/try` runs by `step`."""
    found = []
    files = {path.name: without_comments(path.read_bytes()) for path in folder.iterdir() if path.suffix}
    for names, words in re.findall(r'^ +([a-z| -]+)\) echo "step ([^"]*)"', (folder / "try").read_text(), re.MULTILINE):
        for name in names.split(" | "):
            found.append(case_of(name, words.replace("$1", name).split(), files))
    return found


def of_table(path):
    """The calls of `step` in a table of tests, each with the files so far."""
    found, files, name, times = [], {}, None, 1
    for line in path.read_bytes().split(b"\n"):
        mark, rest = line[:1], line[1:]
        if mark == b"@":
            files = {}
        elif mark == b"=":
            name = rest.decode()
            files = {**files, name: b""}
        elif mark == b"x":
            times = int(rest)
        elif mark in (b"|", b"."):
            files[name] += (rest + (b"\n" if mark == b"|" else b"")) * times
            times = 1
        elif mark in (b"&", b"$", b"%"):
            words = rest.decode().split()
            if words[0] == "step" and len(words) > 2 and all(word in files for word in words[-2:]):
                found.append(case_of(f"{path.name}-{len(found) + 1}", words[1:], dict(files)))
    return found


def run(folder, *words):
    return subprocess.run(words, cwd=folder, capture_output=True, timeout=SECONDS)


def trace_of(program, folder, case):
    """The lines of the case's trace; none if it isn't run to its end."""
    case.write(folder)
    ended = run(folder, program, "step", *case.options, "--print", "trace", case.script, case.schedule)
    return ended.stdout.decode().splitlines() if ended.returncode == 0 else None


def answer(program, folder, case, trace):
    """What `replay` answers on a trace: `lawful`, the number of a line, or how else it ends."""
    case.write(folder)
    (folder / "T").write_bytes(trace)
    ended = run(folder, program, "replay", *case.options, case.script, "T")
    if ended.returncode == 10:
        return int(re.search(rb"line (\d+) is illegal|T:(\d+):", ended.stderr).expand(rb"\1\2"))
    text = ended.stdout.decode()
    return "lawful" if (ended.returncode, text) == (0, "lawful\n") else f"ends with {ended.returncode}, {text!r}"
