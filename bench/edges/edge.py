"""Has the program meet what a host may do to files and standard output: edge.py PROGRAM MANUAL.

Each case has the status, the message, and the text of which the whole or a front is written. Statuses and messages have to stand in the
manual. It ends with 1 if an answer is another one.
"""

import fcntl
import os
import resource
import signal
import subprocess
import sys
import tempfile
import threading
import time
from dataclasses import dataclass, field
from pathlib import Path

SECONDS = 20
NOBODY = 65534
POLICY = 'Policy: /bin/a, Emulation: native\nnative-getpid: permit\n'
# As much text as many pipes hold.
LARGE = 'process p traced "/bin/a" 0 0 "/"\nthread a in p\n' + "call getpid\n" * 4000 + "end\n"
SMALL = 'process p traced "/bin/a" 0 0 "/"\nthread a in p\ncall getpid\nend\n'
SMALL_TEXT = b'1.1 "/bin/a" native-getpid fast = 1\n'
LARGE_TEXT = SMALL_TEXT * 4000
LAWFUL = b"lawful\n"
LONG = "n" * 5000
# Those that don't end a program.
SIGNALS = (signal.SIGSTOP, signal.SIGCONT, signal.SIGWINCH, signal.SIGURG, signal.SIGCHLD)
UNWRITTEN = "standard output could not be written"


class Differs(Exception):
    pass


@dataclass
class Ended:
    status: int
    text: bytes | None
    message: bytes


@dataclass
class Case:
    name: str
    status: int
    words: list = field(default_factory=lambda: ["step", "-f", "policy", "small", "rest"])
    # With FILE for the name of the file, as in the manual.
    message: str = ""
    file: str = ""
    # The whole text; what is written is this or, where the status is 6, a front of it.
    text: bytes = b""
    # How the program is started: a method of Host.
    start: str = "plainly"


def over(script):
    return ["step", "-f", "policy", script, "rest"]


def replay(trace):
    return ["replay", "-f", "policy", "small", trace]


FILES = [
    Case("a file that is missing", 1, over("nothing"), "FILE: no such file", "nothing"),
    Case("a link that leads nowhere", 1, over("nowhere"), "FILE: no such file", "nowhere"),
    Case("an empty name", 1, over(""), "FILE: no such file", ""),
    Case("a directory", 5, over("directory"), "FILE: is a directory", "directory"),
    Case("a file that may not be read", 5, over("shut"), "FILE: permission denied", "shut", start="as_nobody"),
    Case("a file in a shut folder", 5, over("closed/small"), "FILE: permission denied", "closed/small", start="as_nobody"),
    Case("a name through a file", 5, over("small/x"), "FILE: cannot be read", "small/x"),
    Case("links in a circle", 5, over("circle"), "FILE: cannot be read", "circle"),
    Case("a name of 5,000 bytes", 5, over(LONG), "FILE: cannot be read", LONG),
    Case("a device that can't be read", 5, over("/proc/self/mem"), "FILE: cannot be read", "/proc/self/mem"),
    Case("a device without end", 9, over("/dev/zero"), "FILE: holds more than 1048576 bytes", "/dev/zero"),
    Case("a device that is empty", 0, over("/dev/null")),
    Case("a policy that is a directory", 5, ["step", "-f", "directory", "small", "rest"], "FILE: is a directory", "directory"),
    Case("a schedule that is a directory", 5, ["step", "-f", "policy", "small", "directory"], "FILE: is a directory", "directory"),
    Case("a run over a directory", 5, ["run", "-f", "directory", "small"], "FILE: is a directory", "directory"),
    Case("a check of a directory", 5, ["check", "directory"], "FILE: is a directory", "directory"),
    Case("a trace that is missing", 1, replay("nothing"), "FILE: no such file", "nothing"),
    Case("a trace that is a directory", 5, replay("directory"), "FILE: is a directory", "directory"),
    Case("a trace without end", 9, replay("/dev/zero"), "FILE: holds more than 1048576 bytes", "/dev/zero"),
    Case("a trace that is empty", 0, replay("/dev/null"), text=LAWFUL),
    Case("a FIFO that is written in pieces", 0, over("fifo"), text=SMALL_TEXT, start="from_fifo"),
    Case("signals in the middle of a read", 0, over("fifo"), text=SMALL_TEXT, start="from_fifo_with_signals"),
    Case("a FIFO that nothing is written to", 0, over("fifo"), start="from_silent_fifo"),
]
OUTPUTS = [
    Case("standard output", 0, text=SMALL_TEXT),
    Case("a full disk", 6, message=UNWRITTEN, start="to_full_disk"),
    Case("a full disk, of a run", 6, ["run", "-f", "policy", "small"], UNWRITTEN, start="to_full_disk"),
    Case("a full disk, of a check", 6, ["check", "policy"], UNWRITTEN, start="to_full_disk"),
    Case("a full disk, of a replay", 6, replay("/dev/null"), UNWRITTEN, start="to_full_disk"),
    Case("a full disk, of a generated run", 6, ["gen", "1"], UNWRITTEN, start="to_full_disk"),
    Case("a full disk, of the help", 6, ["--help"], UNWRITTEN, start="to_full_disk"),
    Case("a full disk, and nothing to write", 0, ["step", "-f", "policy", "/dev/null", "rest"], start="to_full_disk"),
    Case("closed standard output", 6, message=UNWRITTEN, start="to_closed"),
    Case("standard output that was opened for reading", 6, message=UNWRITTEN, start="to_read_only"),
    Case("a file that may not grow", 6, over("large"), UNWRITTEN, text=LARGE_TEXT, start="to_limited_file"),
    Case("a reader that is gone", 6, message=UNWRITTEN, start="to_gone_reader"),
    Case("a reader that closes after a line", 6, over("large"), UNWRITTEN, text=LARGE_TEXT, start="to_closing_reader"),
    Case("the same, of a run", 6, ["run", "-f", "policy", "large"], UNWRITTEN, text=LARGE_TEXT, start="to_closing_reader"),
    Case("a slow reader", 0, over("large"), text=LARGE_TEXT, start="to_slow_reader"),
    Case("standard output that doesn't block, and is full", 6, over("large"), UNWRITTEN, text=LARGE_TEXT, start="to_full_pipe"),
    Case("signals in the middle of a write", 0, over("large"), text=LARGE_TEXT, start="with_signals"),
    Case("standard error that is closed", 1, over("nothing"), start="without_error"),
    Case("standard error that is full", 1, over("nothing"), start="with_full_error"),
    Case("standard input that is closed", 0, text=SMALL_TEXT, start="without_input"),
]


def opened_fifo():
    """The FIFO to be written, once the program has opened it."""
    for _ in range(SECONDS * 100):
        try:
            return open(os.open("fifo", os.O_WRONLY | os.O_NONBLOCK), "wb", buffering=0)
        except OSError:
            time.sleep(0.01)
    raise Differs("it does not open the FIFO")


class Host:
    """Starts the program in the ways that cases name."""

    def __init__(self, program):
        self.program = program

    def begin(self, words, **more):
        settings = {"stdin": subprocess.DEVNULL, "stdout": subprocess.PIPE, "stderr": subprocess.PIPE, **more}
        return subprocess.Popen([self.program, *words], **settings)

    def finish(self, child):
        try:
            text, message = child.communicate(timeout=SECONDS)
        except subprocess.TimeoutExpired:
            child.kill()
            child.communicate()
            raise Differs("it does not end") from None
        return Ended(child.returncode, text, message or b"")

    def plainly(self, words):
        return self.finish(self.begin(words))

    def as_nobody(self, words):
        # The superuser may read all files.
        ids = {"user": NOBODY, "group": NOBODY, "extra_groups": []} if os.geteuid() == 0 else {}
        return self.finish(self.begin(words, **ids))

    def from_fifo(self, words, pieces=(SMALL[:20], SMALL[20:50], SMALL[50:]), signals=()):
        child = self.begin(words)
        with opened_fifo() as fifo:
            for piece in pieces:
                fifo.write(piece.encode())
                time.sleep(0.1)
                for sign in signals:
                    child.send_signal(sign)
                    time.sleep(0.02)
        return self.finish(child)

    def from_fifo_with_signals(self, words):
        return self.from_fifo(words, signals=SIGNALS)

    def from_silent_fifo(self, words):
        return self.from_fifo(words, ())

    def to(self, words, output):
        return self.finish(self.begin(words, stdout=output))

    def to_full_disk(self, words):
        with open("/dev/full", "wb") as disk:
            return self.to(words, disk)

    def to_closed(self, words):
        return self.finish(self.begin(words, stdout=None, preexec_fn=lambda: os.close(1)))

    def to_read_only(self, words):
        with open("small", "rb") as file:
            return self.to(words, file)

    def to_limited_file(self, words):
        def limit():
            signal.signal(signal.SIGXFSZ, signal.SIG_IGN)
            resource.setrlimit(resource.RLIMIT_FSIZE, (5000, 5000))

        with open("limited", "wb") as file:
            ended = self.finish(self.begin(words, stdout=file, preexec_fn=limit))
        ended.text = Path("limited").read_bytes()
        return ended

    def to_gone_reader(self, words):
        read, write = os.pipe()
        os.close(read)
        try:
            return self.to(words, write)
        finally:
            os.close(write)

    def piped(self, words, act, flags=0):
        """Has an act do with the pipe and the program what it may, and returns what it has read."""
        read, write = os.pipe()
        fcntl.fcntl(write, fcntl.F_SETFL, flags)
        child = self.begin(words, stdout=write)
        os.close(write)
        texts = []
        actor = threading.Thread(target=lambda: texts.append(act(read, child)))
        actor.start()
        ended = self.finish(child)
        actor.join()
        ended.text = texts[0]
        return ended

    def to_closing_reader(self, words):
        def read_line(read, _child):
            with open(read, "rb", buffering=0) as reader:
                text = b""
                while not text.endswith(b"\n"):
                    text += reader.read(1)
            return text

        return self.piped(words, read_line)

    def to_slow_reader(self, words):
        def read_slowly(read, _child):
            with open(read, "rb", buffering=0) as reader:
                time.sleep(0.5)
                text = b""
                while part := reader.read(7000):
                    text += part
                    time.sleep(0.005)
            return text

        return self.piped(words, read_slowly)

    def to_full_pipe(self, words):
        def read_late(read, child):
            child.wait()
            with open(read, "rb") as reader:
                return reader.read()

        return self.piped(words, read_late, os.O_NONBLOCK)

    def with_signals(self, words):
        def read_between(read, child):
            with open(read, "rb", buffering=0) as reader:
                time.sleep(0.5)
                text = reader.read(10000)
                for sign in SIGNALS * 5:
                    child.send_signal(sign)
                    time.sleep(0.02)
                    text += reader.read(1000)
                while part := reader.read(65536):
                    text += part
            return text

        return self.piped(words, read_between)

    def without_error(self, words):
        return self.finish(self.begin(words, stderr=None, preexec_fn=lambda: os.close(2)))

    def with_full_error(self, words):
        with open("/dev/full", "wb") as disk:
            return self.finish(self.begin(words, stderr=disk))

    def without_input(self, words):
        return self.finish(self.begin(words, stdin=None, preexec_fn=lambda: os.close(0)))


def prepare():
    """Makes the files of the cases in this folder, which others may enter."""
    for name, text in (("policy", POLICY), ("small", SMALL), ("large", LARGE), ("rest", "rest\n"), ("shut", SMALL)):
        Path(name).write_text(text)
    for name in ("directory", "closed"):
        Path(name).mkdir()
    Path("closed/small").write_text(SMALL)
    Path("nowhere").symlink_to("nothing")
    Path("circle").symlink_to("circle")
    os.mkfifo("fifo")
    for name, mode in (("shut", 0), ("closed", 0), (".", 0o755)):
        Path(name).chmod(mode)


def compare(case, ended, manual):
    if ended.status != case.status:
        raise Differs(f"status {ended.status}: {ended.message.decode(errors='replace')}")
    if f".It {case.status}\n" not in manual or case.message not in manual:
        raise Differs("the manual has another answer")
    is_told = case.message and case.start not in ("without_error", "with_full_error")
    message = f"systrace: {case.message.replace('FILE', case.file)}\n" if is_told else ""
    if ended.message.decode() != message:
        raise Differs(f"message {ended.message}")
    is_front = case.status == 6 and case.text.startswith(ended.text or b"") and len(ended.text or b"") <= len(case.text)
    if (ended.text or b"") != case.text and not is_front:
        raise Differs(f"text {(ended.text or b'')[:200]}")
    return len(ended.text or b"")


def main(program, manual):
    host, manual = Host(os.path.abspath(program)), Path(manual).read_text()
    differs = 0
    with tempfile.TemporaryDirectory() as folder:
        os.chdir(folder)
        prepare()
        print("| case | status | message | bytes written |\n|---|---|---|---|")
        for case in FILES + OUTPUTS:
            try:
                written = compare(case, getattr(host, case.start)(case.words), manual)
                print(f"| {case.name} | {case.status} | {case.message or '-'} | {written} |", flush=True)
            except Differs as fault:
                print(f"{case.name}: {fault}", file=sys.stderr)
                differs = 1
        os.chdir("/")
        Path(folder, "closed").chmod(0o700)
    return differs


if __name__ == "__main__":
    sys.exit(main(*sys.argv[1:]))
