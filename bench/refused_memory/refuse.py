"""Refuses memory to a program, one allocation after the other: refuse.py PROGRAM LIBRARY EXAMPLES.

The library, made of refuse.c, refuses the allocation of a number. Numbers go up until a run asks for no more. The program has to end in
time, as it ends otherwise, or out of memory, with nothing written and a line on standard error. So it has to if all later allocations
are refused too, and if threads of the host are refused. It ends with 1 if it doesn't.
"""

import os
import subprocess
import sys
import tempfile
from pathlib import Path

SECONDS = 10
OUT_OF_MEMORY = 7
# Threads may ask for memory in another order each time.
TIMES = {"step": 1, "replay": 1, "run": 3}

HELD = """\
dir "/etc" 0 0 755
file "/etc/passwd" 0 0 644 "root"
file "/etc/spwd" 0 0 600 "s"
process p traced "/bin/cat" 1000 1000 "/"
thread a in p
put 0 "/etc/passwd"
call open 0 0
end
"""
HELD_POLICY = """\
Policy: /bin/cat, Emulation: native
native-fsread: filename eq "/etc/passwd" then permit
"""
CHILD = """\
dir "/bin" 0 0 755
file "/bin/ls" 0 0 755 "ls"
file "/x" 0 0 644 "x"
process p traced "/bin/sh" 0 0 "/"
thread a in p
fork c
end
thread c
put 0 "/bin/ls"
call execve 0 64
put 0 "/x"
call open 0 0
end
"""
CHILD_POLICY = """\
Policy: /bin/sh, Emulation: native
native-fork: permit
native-execve: filename eq "/bin/ls" then permit
native-fsread: permit
Policy: /bin/ls, Emulation: native
native-fsread: deny[eacces]
"""

RELOAD = HELD + """\
thread b in p
put 64 "/etc/spwd"
call open 64 0
end
policy np "/bin/cat"
native-fsread: filename eq "/etc/motd" then permit
native-fsread: filename sub "spwd" then deny[enoent]
end
policy sh "/bin/sh"
end
process q untraced "/bin/adm" 0 0 "/"
thread c in q
reload sh
reload np
end
"""

# What each input shows, with the options before its script.
INPUTS = {
    "a held call": (["-f", "held.policy"], "held.script"),
    "a child with a new binary": (["-f", "child.policy"], "child.script"),
    "a policy is learnt": (["-A", "--print", "policy"], "held.script"),
    "the policy that was learnt": (["-a", "-f", "held.policy"], "held.script"),
    "a reload": (["-f", "held.policy", "--print", "policy"], "reload.script"),
    "a held call under Linux emulation": (["--linux", "-f", "linux.policy"], "held.script"),
    "a web server": (["-c", "67:67", "-w", "2", "-f", "httpd.policy"], "httpd.script"),
}

# Of this input the trace is replayed with a line too many as well.
BROKEN, TOO_MANY = "a held call", ", and a line too many"

# What is refused, and the settings of the library.
SETTINGS = {
    "an allocation": {},
    "all from one on": {"LATER": "1"},
    "a thread": {"THREADS": "1"},
    "threads from one on": {"THREADS": "1", "LATER": "1"},
}
OF_ONE_THREAD = ["an allocation", "all from one on"]
KINDS = {"step": OF_ONE_THREAD, "replay": OF_ONE_THREAD, "run": list(SETTINGS)}


class Differs(Exception):
    pass


def words_of(command, title):
    if command == "replay":
        trace = f"{title}.trace"
        return ["replay", *unprinted(title), trace]
    options, script = INPUTS[title]
    return [command, *options, script, *(["rest.schedule"] if command == "step" else [])]


def unprinted(title):
    """The options of an input without what is printed, and its script."""
    options, script = INPUTS[title.removesuffix(TOO_MANY)]
    if "--print" in options:
        at = options.index("--print")
        options = options[:at] + options[at + 2 :]
    return [*options, script]


def lines_of(text):
    """The lines of a text without results, which depend on the order of a run."""
    return sorted(line.split(b" = ")[0] for line in text.splitlines())


class Refuser:
    def __init__(self, program, library, folder):
        self.program = os.path.abspath(program)
        self.library = os.path.abspath(library)
        self.folder = folder

    def end(self, words, settings, number):
        """How the program ends if one is refused, and how often one was."""
        read, write = os.pipe()
        settings = {"LD_PRELOAD": self.library, "REFUSED": str(number), "TOLD": str(write), **settings}
        try:
            ended = subprocess.run(
                [self.program, *words],
                cwd=self.folder,
                env=settings,
                capture_output=True,
                stdin=subprocess.DEVNULL,
                timeout=SECONDS,
                pass_fds=[write],
            )
        except subprocess.TimeoutExpired:
            raise Differs("it does not end") from None
        finally:
            os.close(write)
            told = len(os.read(read, 65536))
            os.close(read)
        return ended, told

    def compare(self, ended, own, command):
        if ended.returncode == OUT_OF_MEMORY:
            if ended.stdout:
                raise Differs(f"out of memory, and written was {ended.stdout}")
            if not ended.stderr.endswith(b"\n"):
                raise Differs("out of memory, and nothing on standard error")
            return True
        if ended.returncode != own.returncode:
            raise Differs(f"status {ended.returncode}: {ended.stderr}")
        same = ended.stdout == own.stdout if command != "run" else lines_of(ended.stdout) == lines_of(own.stdout)
        if not same:
            raise Differs(f"another text: {ended.stdout}")
        return False

    def refuse(self, command, title, settings):
        """Refuses one after the other. Returns how many there are, how many ends were out of memory, and how many as otherwise."""
        words = words_of(command, title)
        own, _ = self.end(words, {}, 0)
        number, ends = 0, [0, 0]
        while True:
            number += 1
            refused = 0
            for _ in range(TIMES[command]):
                try:
                    ended, told = self.end(words, settings, number)
                    ends[0 if self.compare(ended, own, command) else 1] += 1
                except Differs as differs:
                    raise Differs(f"{' '.join(words)}, {settings}, number {number}: {differs}") from None
                refused += told
            if refused == 0:
                return number - 1, *ends


def files(examples):
    yield from (("held.script", HELD), ("held.policy", HELD_POLICY), ("child.script", CHILD), ("child.policy", CHILD_POLICY))
    yield "linux.policy", HELD_POLICY.replace("native", "linux")
    yield "reload.script", RELOAD
    yield "rest.schedule", "rest\n"
    for name in ("httpd.script", "httpd.policy"):
        yield name, Path(examples, name).read_text()


def make_traces(refuser):
    """Writes the traces that are replayed."""
    for title in INPUTS:
        ended, _ = refuser.end(["step", "--print", "trace", *unprinted(title), "rest.schedule"], {}, 0)
        Path(refuser.folder, f"{title}.trace").write_bytes(ended.stdout)
        if title == BROKEN:
            Path(refuser.folder, f"{title}{TOO_MANY}.trace").write_bytes(ended.stdout + b"ended 1\n")


def trials():
    """Each command with an input, and what is refused."""
    for command in TIMES:
        for title in [*INPUTS, *([BROKEN + TOO_MANY] if command == "replay" else [])]:
            for kind in KINDS[command]:
                yield command, title, kind


def main(program, library, examples):
    differs = 0
    with tempfile.TemporaryDirectory() as folder:
        for name, text in files(examples):
            Path(folder, name).write_text(text)
        refuser = Refuser(program, library, folder)
        make_traces(refuser)
        print("| command | input | refused | in all | ends out of memory | ends as otherwise |\n|---|---|---|---|---|---|")
        for command, title, kind in trials():
            try:
                counts = refuser.refuse(command, title, SETTINGS[kind])
                print("|", " | ".join(map(str, (command, title, kind, *counts))), "|", flush=True)
            except Differs as fault:
                print(fault, file=sys.stderr)
                differs = 1
    return differs


if __name__ == "__main__":
    sys.exit(main(*sys.argv[1:]))
