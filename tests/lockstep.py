"""The C library in lockstep with the model of document 01: lists of calls by chance, and everything compared after each call.

Prints the coverage table, which must have no hole, and a summary. For a difference, or a death at a guard page, it prints the seed
and a list of calls that shows it, made as short as it gets. --planted puts faults into the model, and each must be found."""
import argparse
import mmap
import os
import pickle
import random
import signal
import struct
import sys
import tempfile
import time
import traceback
from collections import Counter, namedtuple
from pathlib import Path

import coverage
import guarded
import impostors
import marks
import model
from bench import Bench
from crash import Difference
from histories import lived, made_up

ROOT = Path(__file__).resolve().parent.parent
ARCHIVE = ROOT / "target/staticlib/libfirmware.a"
SEED, CALLS, LIVED_EVERY, LARGE_EVERY = 1, 150000, 4, 150
PUBLISHED = {b"": 0xcbf29ce484222325, b"a": 0xaf63dc4c8601ec8c, b"foobar": 0x85944171f73967e8}

Done = namedtuple("Done", "calls histories seen")
Found = namedtuple("Found", "what index steps")
Run = namedtuple("Run", "library seed calls seconds bench", defaults=(float("inf"), Bench))


def history(seed, index, bench):
    """The steps of the history with this index; each is chosen by the state that the one before it left."""
    chance = random.Random("%d/%d" % (seed, index))
    kind, turn = (lived, index // LIVED_EVERY) if index % LIVED_EVERY == 0 else (made_up, index)
    return kind(chance, bench, turn % LARGE_EVERY == LARGE_EVERY - 1)


# ---- a process of its own, since a stray access ends it

def in_child(work):
    """What the work returns, or a line that says how its process died."""
    reading, writing = os.pipe()
    child = os.fork()
    if child == 0:
        try:
            with open(writing, "wb") as pipe:
                pickle.dump(work(), pipe)
            os._exit(0)
        except BaseException:
            traceback.print_exc()
        os._exit(1)
    os.close(writing)
    with open(reading, "rb") as pipe:
        result = pipe.read()
    status = os.waitstatus_to_exitcode(os.waitpid(child, 0)[1])
    if status:
        return "the call died: %s" % (signal.Signals(-status).name if status < 0 else "an error of the test")
    return pickle.loads(result)


class Place:
    """Where a run is: the history and the step, in memory that the process shares with the one that started it."""

    def __init__(self):
        self.shared = mmap.mmap(-1, 16)

    def set(self, index, step):
        self.shared[:] = struct.pack("<2Q", index, step)

    def get(self):
        return struct.unpack("<2Q", self.shared[:])


# ---- a run

def carried_out(run, index, steps, done=None, place=None):
    """A bench after these steps, which are a list or a function of the bench. Steps begun are added to `done`."""
    bench = run.bench(run.library, index % 2 == 0)
    try:
        for number, step in enumerate(steps(bench) if callable(steps) else steps):
            if done is not None:
                done.append(step)
            if place:
                place.set(index, number)
            bench.perform(step)
    finally:
        bench.close()
    return bench


def all_histories(run, place):
    """Histories until there are so many calls, or the time is over, or something differs."""
    seen, calls, index, start = Counter(), 0, 0, time.monotonic()
    while calls < run.calls and time.monotonic() - start < run.seconds:
        steps = []
        try:
            bench = carried_out(run, index, lambda b: history(run.seed, index, b), steps, place)
        except Difference as difference:
            return Found(str(difference), index, steps)
        seen.update(bench.seen)
        calls += bench.calls
        index += 1
    return Done(calls, index, seen)


def again(run, index, last):
    """The steps of a history up to this one, by the model alone."""
    bench, steps = Bench(), []
    for step in history(run.seed, index, bench):
        steps.append(step)
        if len(steps) > last:
            break
        bench.perform(step)
    return steps


def compared(run):
    """What a run came to: Done, or Found with the steps that led there."""
    place = Place()
    result = in_child(lambda: all_histories(run, place))
    if isinstance(result, str):
        index, last = place.get()
        return Found(result, index, again(run, index, last))
    return result


# ---- the list of calls that shows a difference

def differs(run, index, steps):
    """What differs, or None."""
    def work():
        try:
            carried_out(run, index, steps)
        except Difference as difference:
            return str(difference)
    return in_child(work)


def shrunk(run, index, steps):
    """Leaves out runs of steps, half of them at first, for as long as something still differs."""
    size = len(steps) // 2
    while size:
        at = 1
        while at < len(steps):
            fewer = steps[:at] + steps[at + size:]
            if differs(run, index, fewer):
                steps = fewer
            else:
                at += size
        size //= 2
    return steps


def told(step):
    words = [marks.told(*step.arguments)] if step.call == "cut" else map(str, step.arguments)
    return " ".join([step.call, *words, *("(%s of %d bytes)" % odd for odd in step.odd)])


def show(run, found):
    """The lines that tell of a difference: the seed, and the calls in order. A made-up state is given by N, its seed and faults."""
    steps = shrunk(run, found.index, found.steps)
    yield "lockstep: seed %d, history %d, step %d: %s" % (run.seed, found.index, len(found.steps) - 1, found.what)
    yield from ("    " + told(step) for step in steps)
    yield "    here: %s" % differs(run, found.index, steps)


# ---- the commands

def lockstep(run):
    """Prints what a run found; the exit status."""
    start = time.monotonic()
    result = compared(run)
    if isinstance(result, Found):
        print("\n".join(show(run, result)))
        return 1
    print("\n".join(coverage.report(result.seen)))
    cells, holes = len(list(coverage.required())), coverage.holes(result.seen)
    for hole in holes:
        print("lockstep: a hole: %s" % " / ".join(word for word in hole if word))
    disks = sum(result.seen["cases", "demand 3, the %s disk found" % which, ""] for which in ("old", "new"))
    made = lambda *calls: sum(result.seen["causes", call, number] for call in calls for number in coverage.NUMBERS)
    print("lockstep: %d calls in %d histories compared with the model, %d inquiries with the library's own call, %d lists with its own gets, "
          "%d disks after a recovery read back, 0 differences, %d of %d cells covered (seed %d, %d s)"
          % (result.calls, result.histories, made(*model.COSTS), made("get_list"), disks, cells - len(holes), cells, run.seed,
             time.monotonic() - start))
    return 1 if holes else 0


def planted(run):
    """Puts each impostor into the model. The exit status is 1 if one is not found."""
    missed = 0
    for impostor in impostors.IMPOSTORS:
        with impostors.planted(impostor):
            result = compared(run)
            lines = list(show(run, result)) if isinstance(result, Found) else ["lockstep: no difference"]
        print("planted in the model: %s: %s" % (impostor.__doc__, "found in %d steps" % (len(lines) - 2) if len(lines) > 1 else "NOT FOUND"))
        missed += len(lines) == 1
    return 1 if missed else 0


def main():
    parser = argparse.ArgumentParser(description=__doc__.split("\n")[0])
    parser.add_argument("--seed", type=int, default=SEED)
    parser.add_argument("--calls", type=int, default=CALLS, help="how many to compare")
    parser.add_argument("--seconds", type=float, default=float("inf"), help="when to stop before that")
    parser.add_argument("--archive", type=Path, default=ARCHIVE)
    parser.add_argument("--planted", action="store_true", help="faults in the model, each of which must be found")
    words = parser.parse_args()
    if any(model.fnv(text) != total for text, total in PUBLISHED.items()):
        raise SystemExit("lockstep: the model's sum is not the published one")
    with tempfile.TemporaryDirectory() as folder:
        library = guarded.link(words.archive, Path(folder, "libtrapcard.so"))
        return (planted if words.planted else lockstep)(Run(library, words.seed, words.calls, words.seconds))


if __name__ == "__main__":
    sys.exit(main())
