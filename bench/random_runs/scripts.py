"""Makes inputs of `run`: a script, a policy and options. The same seed makes the same input."""

from dataclasses import dataclass
from random import Random

DIRECTORIES = ("/a", "/a/b", "/t", "/bin")
FILES = ("/a/f", "/a/b/g", "/t/h", "/bin/p0", "/bin/p1", "/bin/p2")
LINKS = (("/l", "/a"), ("/a/m", "../t/h"), ("/t/n", "o"), ("/t/o", "/t/n"), ("/t/p", "/a/b"))
NAMES = FILES + ("/l/f", "/a/m", "/t/n", "/t/p/g", "/t/p", "f", "../t/h", "//t/./h", "/a/../a/b", "/new", "/t/new", "/t/d", "")
BINARIES = ("/bin/p0", "/bin/p1", "/bin/p2")
IDS = (0, 67, 1000)
# Where the bodies have names, an address and what is read, in bytes of memory. At the last one there is an argument vector without parts.
NAME_PLACES, ADDRESS, BUFFER, VECTOR = (0, 64, 128), 512, 1024, 4096
ONE_NAME = ("access", "chdir", "chmod", "chown", "lstat", "mkdir", "open", "readlink", "rmdir", "stat", "truncate", "unlink")
TWO_NAMES = ("link", "rename", "symlink")
SET_IDS = ("setuid", "seteuid", "setgid", "setegid")
OTHERS = ("bind", "close", "connect", "dup", "getuid", "kill", "lseek", "read", "socket", "write")
ALIASES = ("fsread", "fswrite")
# The flags of an open, by the emulation: each access alone, two with O_CREAT, one with O_TRUNC, and one with O_CREAT and O_EXCL.
FLAGS = {"native": (0, 1, 2, 0x201, 0x202, 0x402, 0xA01), "linux": (0, 1, 2, 0x41, 0x42, 0x202, 0xC1)}
# What a policy most often permits without a question, and with a look at the arguments.
PERMITTED = ("close", "fork", "seteuid", "setuid", "socket")
HELD = (*ALIASES, *TWO_NAMES, "chdir", "chmod", "execve", "truncate")


@dataclass
class Case:
    script: str
    policy: str
    options: list


class Maker:
    def __init__(self, seed):
        self.random = Random(seed)
        pick = self.random.choice
        self.mode = pick(("", "-a", "-t", "-t", "-A", "-A"))
        self.grants = self.random.random() < 0.3
        self.emulation = pick(("native", "native", "native", "linux"))
        # Long bodies, so that a thread of the host still runs when the next one has begun; short ones, so that threads end.
        self.longest = pick((4, 12, 60, 250))
        # Many calls that set ids, so that calls of other threads get new numbers.
        self.sets_ids = pick((0.05, 0.05, 0.3))
        # Policies of the script, to be reloaded while calls are held.
        self.policies = [f"n{i}" for i in range(pick((0, 1, 2, 4)))]

    def case(self):
        options = ["-w", str(self.random.randint(1, 8))]
        options += [self.mode] if self.mode else []
        options += ["-c", "67:67"] if self.grants else []
        options += ["--linux"] if self.emulation == "linux" else []
        options += [word for word in ("-i", "-u") if self.random.random() < 0.2]
        return Case(self.script(), self.policy(), options)

    def script(self):
        pick = self.random.choice
        rows = ['user root 0 0 "/root"', 'user www 67 67 "/a"', "group wheel 0"]
        rows += [f'dir "{name}" {pick(IDS)} 0 {pick((755, 777))}' for name in DIRECTORIES]
        rows += [f'file "{name}" {pick(IDS)} 0 {pick((644, 755, 600))} "text"' for name in FILES]
        rows += [f'link "{name}" 0 0 "{target}"' for name, target in LINKS]
        for name in self.policies:
            rows += [f'policy {name} "{pick(BINARIES)}"', *self.filters(), "end"]
        processes = [f"q{i}" for i in range(pick((1, 1, 2, 3)))]
        for name in processes:
            traced = "traced" if self.random.random() < 0.85 else "untraced"
            rows.append(f'process {name} {traced} "{pick(BINARIES)}" {pick(IDS)} 0 "{pick(("/", "/a"))}"')
        if self.random.random() < 0.3:
            rows += self.swapper()
        if self.may_reload():
            rows += self.administrator()
        children = [f"c{i}" for i in range(self.random.randint(0, 5))]
        to_fork = list(children)
        for i in range(self.random.randint(1, 7)):
            rows += [f"thread t{i} in {pick(processes)}", *self.body(to_fork), "end"]
        for name in children:
            rows += [f"thread {name}", *self.body(to_fork), "end"]
        if self.mode == "-t":
            rows += [f'reply "{pick(BINARIES)}" {self.filter(pick(ALIASES), may_ask=False)}' for _ in range(self.random.randint(0, 40))]
        return "\n".join(rows) + "\n"

    def swapper(self):
        """Makes a process that none watches, which puts a link in the place of a file and a file in the place of the link."""
        swap = ["call unlink 0", "call symlink 64 0", "call unlink 0", f"call open 0 {FLAGS[self.emulation][3]} 420", "call close 3"]
        names = [f'put 0 "{self.random.choice(FILES[:3])}"', 'put 64 "/bin/p0"']
        return ['process x untraced "/bin/p0" 0 0 "/"', "thread x in x", *names, *swap * self.random.randint(1, 12), "end"]

    def may_reload(self):
        return bool(self.policies) and self.mode != "-A"

    def reload(self):
        return f"reload {self.random.choice(self.policies)}"

    def administrator(self):
        """Makes a process that may reload policies, but while its user is another one."""
        rows = []
        for _ in range(self.random.randint(1, 30)):
            kind = self.random.random()
            rows.append(f"call seteuid {self.random.choice(IDS)}" if kind < 0.1 else "call getuid" if kind < 0.3 else self.reload())
        return ['process y untraced "/bin/p1" 0 0 "/"', "thread y in y", *rows, "end"]

    def body(self, to_fork):
        """Makes the instructions of a thread. Each fork takes its thread from those that no other fork names."""
        pick = self.random.choice
        rows = [f'put {place} "{pick(NAMES)}"' for place in NAME_PLACES]
        rows.append(f"store {ADDRESS // 8} {pick(('0x50000210', '0x901f0210', '0x10'))}")
        for _ in range(self.random.randint(0, self.longest)):
            kind = self.random.random()
            if kind < 0.1:
                rows.append(f'put {pick(NAME_PLACES)} "{pick(NAMES)}"')
            elif kind < 0.15:
                rows.append(f"store {pick(NAME_PLACES) // 8} 0x{self.random.getrandbits(24):x}")
            elif kind < 0.2 and to_fork:
                rows.append(f"fork {to_fork.pop()}")
            elif kind < 0.22 and self.may_reload():
                rows.append(self.reload())
            else:
                rows.append(self.call())
        return rows

    def call(self):
        pick, kind = self.random.choice, self.random.random()
        if self.random.random() < self.sets_ids:
            call, registers = pick(SET_IDS), (pick(IDS),)
        elif kind < 0.65:
            call = pick(ONE_NAME)
            registers = (pick(NAME_PLACES), *self.registers_after_name(call))
        elif kind < 0.8:
            call, registers = pick(TWO_NAMES), (pick(NAME_PLACES), pick(NAME_PLACES))
        elif kind < 0.8 + min(0.01, 0.2 / self.longest):
            call, registers = "exit", ()
        elif kind < 0.82:
            call, registers = "execve", (pick(NAME_PLACES), VECTOR)
        else:
            call = pick(OTHERS)
            registers = self.other_registers(call)
        return " ".join(["call", call, *map(str, registers)])

    def registers_after_name(self, call):
        pick = self.random.choice
        match call:
            case "open":
                return pick(FLAGS[self.emulation]), 0o644
            case "stat" | "lstat":
                return (BUFFER,)
            case "readlink":
                return BUFFER, 16
            case "chown":
                return pick(IDS), pick(IDS)
            case "chmod" | "mkdir":
                return (pick((0o755, 0o700, 0o644)),)
            case _:
                return (self.random.randint(0, 8),)

    def other_registers(self, call):
        pick, descriptor = self.random.choice, self.random.randint(0, 6)
        match call:
            case "kill":
                return self.random.randint(0, 8), pick((0, 0, 0, 9))
            case "read" | "write":
                return descriptor, pick((BUFFER, 0)), pick((0, 8, 20))
            case "lseek":
                return descriptor, self.random.randint(0, 9), self.random.randint(0, 3)
            case "bind" | "connect":
                return descriptor, ADDRESS, 16
            case "socket":
                return pick((1, 2)), pick((1, 2))
            case _:
                return (descriptor,)

    def policy(self):
        rows = []
        for binary in BINARIES:
            if self.random.random() < 0.1:
                continue
            rows += [f"Policy: {binary}, Emulation: {self.emulation}", *self.filters()]
        return "".join(row + "\n" for row in rows)

    def filters(self):
        """Makes the filters of a policy."""
        rows, prefix = [], f"{self.emulation}-"
        covered = 0.3 if self.mode in ("-t", "-A") else 0.8
        if self.random.random() < 0.3:
            # Judging takes some time, in which a call may be withdrawn.
            rows += [f'{prefix}{rule}: filename sub "x{i}" then deny' for i in range(300) for rule in ALIASES]
        rows += [f"{prefix}{rule}: permit" for rule in PERMITTED if self.random.random() < 0.7]
        rows += [self.filter(self.rule(), may_ask=self.mode != "-A") for _ in range(self.random.randint(0, 30))]
        rows += [f'{prefix}{rule}: filename match "/*" then permit' for rule in HELD if self.random.random() < covered]
        return rows

    def rule(self):
        return self.random.choice(ALIASES * 6 + ONE_NAME + TWO_NAMES + SET_IDS + OTHERS + ("execve", "fork", "exit"))

    def filter(self, rule, may_ask):
        pick = self.random.choice
        test = self.test(rule)
        action = pick(("permit", "permit", "permit", "deny", "deny[enoent]") + (("ask",) if may_ask else ()))
        tail = ""
        if self.grants and action == "permit" and rule not in SET_IDS and self.random.random() < 0.3:
            tail = pick((" as root", " as www:wheel", " as :0"))
        tail += pick(("", "", " log"))
        tail += pick(("", "", "", ", if user = root", ", if group != 0"))
        return f"{self.emulation}-{rule}: {test}{action}{tail}"

    def test(self, rule):
        pick, kind = self.random.choice, self.random.random()
        if kind < 0.3 or rule in OTHERS + SET_IDS + ("fork", "exit"):
            return pick(("", "true then "))
        name = pick(NAMES[:-1])
        other = pick(("match", "sub", "nsub", "inpath", "neq"))
        part = pick(("/*", "/a/*", "/t", "b", "/?/[a-h]"))
        if kind < 0.6:
            return f'filename eq "{name}" then '
        if kind < 0.85:
            return f'filename {other} "{part}" then '
        return f'filename eq "{name}" or not filename {other} "{part}" and filename sub "/" then '
