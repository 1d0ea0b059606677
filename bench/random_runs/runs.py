"""Has `run` make runs of inputs, and plays each again by `step`: runs.py PROVED UNVERIFIED [RUNS [SEED]].

The proved program makes two runs of each input. It prints the trace of the one, whose entries tell the choices, and the schedule of the other.
Both programs play these choices by `step`, and then `rest`. They must write the same trace, which is the one that was printed, with one entry for
each choice: then each choice was enabled, and after the last one nobody could move. It ends with 1 at the first run that differs, and keeps
its input.
"""

import shutil
import subprocess
import sys
import tempfile
from concurrent.futures import ThreadPoolExecutor
from itertools import groupby
from pathlib import Path

from scripts import Maker

SECONDS = 30
AT_ONCE = 4


class Differs(Exception):
    pass


def output(*words):
    """Returns what a program writes that has to end with 0, and in time."""
    try:
        ended = subprocess.run(words, capture_output=True, timeout=SECONDS)
    except subprocess.TimeoutExpired:
        raise Differs(f"{words[0]} {words[1]} does not end") from None
    if ended.returncode != 0:
        raise Differs(f"{words[0]} {words[1]} ends with {ended.returncode}: {ended.stderr.decode()}")
    return ended.stdout.decode()


def choices_of_trace(trace):
    """Gives the choice that each entry was made by."""
    worker_at = {}
    for line in trace.splitlines():
        kind, *words = line.split(" ", 3)
        match kind:
            case "stored" | "entered" | "used" | "denied" | "ended" | "reloaded":
                yield f"thread {words[0]}"
            case "claimed":
                worker_at[words[1]] = words[0]
                yield f"worker {words[0]}"
            case "copied" | "looked" | "faulted":
                yield f"worker {worker_at[words[0]]}"
            case "answered":
                yield f"worker {words[0]}"
            case "replied" | "learned":
                yield "operator"
            case _:
                raise Differs(f"no entry of a trace: {line}")


def choices_of_schedule(schedule):
    for line in schedule.splitlines():
        words = line.split(" ")
        length = 1 if words[0] == "operator" else 2
        count = int(words[length]) if len(words) > length else 1
        yield from [" ".join(words[:length])] * count


def schedule_of(choices):
    """The lines of a schedule: equal neighbours are joined."""
    for choice, group in groupby(choices):
        count = len(list(group))
        yield f"{choice} {count}\n" if count > 1 else f"{choice}\n"


class Hammer:
    def __init__(self, proved, unverified):
        self.runner = proved
        self.players = (proved, unverified)

    def hammer(self, seed):
        """Makes two runs of the input of this seed, and returns how many choices they have, and lines of their schedules."""
        folder = Path(tempfile.mkdtemp(prefix="run-"))
        case = Maker(seed).case()
        for name, text in (("script", case.script), ("policy", case.policy)):
            (folder / name).write_text(text)
        words = [*case.options, "-f", str(folder / "policy")]
        try:
            counts = [self.play_again(folder, words, kind) for kind in ("trace", "schedule")]
        except Differs as differs:
            raise Differs(f"{differs}\nseed {seed}: {' '.join(words)}, in {folder}") from None
        shutil.rmtree(folder)
        return [sum(count) for count in zip(*counts)]

    def play_again(self, folder, options, kind):
        script, schedule = str(folder / "script"), folder / f"schedule-of-{kind}"
        printed = output(self.runner, "run", *options, "--print", kind, script)
        (folder / kind).write_text(printed)
        read = choices_of_trace if kind == "trace" else choices_of_schedule
        choices = list(read(printed))
        lines = list(schedule_of(choices))
        if kind == "schedule" and "".join(lines) != printed:
            raise Differs("the schedule is not as schedules are printed")
        schedule.write_text("".join(lines) + "rest\n")
        traces = [output(player, "step", *options, "--print", "trace", script, str(schedule)) for player in self.players]
        if traces[0] != traces[1]:
            raise Differs(f"the programs make different runs of {schedule.name}")
        if kind == "trace" and traces[0] != printed:
            raise Differs("the trace played again is another one")
        if traces[0].count("\n") != len(choices):
            raise Differs(f"{schedule.name} does not end where nobody can move")
        return len(choices), len(lines)


def main(proved, unverified, runs="10000", seed="1"):
    hammer = Hammer(proved, unverified)
    seeds = range(int(seed), int(seed) + int(runs) // 2)
    with ThreadPoolExecutor(AT_ONCE) as pool:
        try:
            choices, lines = map(sum, zip(*pool.map(hammer.hammer, seeds)))
        except Differs as differs:
            pool.shutdown(cancel_futures=True)
            print(differs, file=sys.stderr)
            return 1
    print(f"{2 * len(seeds)} runs differ nowhere: {choices} choices, in {lines} lines of schedules")
    return 0


if __name__ == "__main__":
    sys.exit(main(*sys.argv[1:]))
