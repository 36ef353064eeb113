#!/usr/bin/env python3
"""Has the program `ledger_bench` make histories of 1,000, 10,000 and 100,000 entries, measures what calls cost after them, in instructions and time, and prints
both with their ratios to those after the first.

Needs    the program that ledger_program.py makes, and valgrind with its vgdb
Usage    chain_growth.py PROGRAM [ENTRIES ..]   (a copy of ledger_bench; other numbers of entries are multiples of 200)
Expect   for each number of entries a line for each call, and ratios of instructions of at most GREATEST; else status 1. The calls are a Submit and an Enqueue of
         a payment of one input and two outputs, a Round of ten such, a Look of a key with ten outputs, a Look of the bank's key, whose outputs were all spent
         but one (`spent`), a Look of a thread of one step, `resolve` of a payment, and a Look of a thread of 400 steps (`long`). The last line of each number is
         what an entry of the history took, with the growth of all that is kept: a part of the processor time of the whole run. README.md has what was measured.
Mind     a history has, of each twenty entries, ten payments by Submit, one by Enqueue and Round, a Publish, two starts, three steps, a Look and an Advance, by
         sixteen seats. Each payment and start spends the one output under the bank's key and puts another there. Half of the payments go to the shop's key; of
         the others each to a key of its own, and ten to the key that is looked at, evenly over the history. So each is longer by that: what is unspent, under
         one key and under many, and what was spent under one; the ids, what is published, the threads, the entries and those of each seat.
         Calls are measured in windows of some at once, made ready before. Instructions: callgrind runs without counting, the program waits for a line before
         and after each window, and there counting is switched on and off; a window without calls, which has all but the calls, is taken off. That is exact but for
         a few instructions a window. Of WINDOWS windows the least counts, and of RUNS runs the least time: where a list or a map happens to be doubled within a
         window, one call in thousands pays for all. Times also grow once a history no longer fits a processor's cache; nothing is asked of them.
"""
import os
import re
import resource
import subprocess
import sys
import tempfile

ENTRIES = [1_000, 10_000, 100_000]
CALLS = {"submit": 20, "enqueue": 20, "round": 4, "look": 20, "spent": 20, "thread": 20, "resolve": 20, "long": 20}
WINDOWS = 3
RUNS = 3
GREATEST = 1.2


class Measured:
    """The program with windows to be measured, each waiting for its line."""

    def __init__(self, program, entries, windows, before=()):
        words = [str(word) for window in windows for word in window]
        pipes = {"stdin": subprocess.PIPE, "stdout": subprocess.PIPE, "stderr": subprocess.DEVNULL, "text": True}
        self.process = subprocess.Popen([*before, program, "history", str(entries), *words], **pipes)

    def line(self):
        """What it says, which it says once it waits for a line."""
        said = self.process.stdout.readline().strip()
        if not said:
            sys.exit(f"the program ended, with status {self.process.wait()}")
        return said

    def go(self):
        self.process.stdin.write("\n")
        self.process.stdin.flush()

    def end(self):
        self.process.stdin.close()
        if self.process.wait():
            sys.exit("the program answered otherwise")

    def tell(self, *words):
        """Tells valgrind."""
        subprocess.run(["vgdb", f"--pid={self.process.pid}", *words], stdout=subprocess.DEVNULL, stderr=subprocess.DEVNULL, check=True)


def all_windows():
    return [window for _ in range(WINDOWS) for window in CALLS.items()]


def instructions(program, entries):
    """How many instructions each call takes after so many entries."""
    windows = [("look", 0), *all_windows()]
    counts = []
    with tempfile.TemporaryDirectory() as folder:
        out = os.path.join(folder, "counts")
        measured = Measured(program, entries, windows, ["valgrind", "--tool=callgrind", "--instr-atstart=no", f"--callgrind-out-file={out}"])
        for place, _ in enumerate(windows, 1):
            measured.line()
            measured.tell("instrumentation", "on")
            measured.go()
            measured.line()
            measured.tell("dump")
            measured.tell("instrumentation", "off")
            measured.go()
            with open(f"{out}.{place}") as file:
                counts.append(int(re.search(r"(?m)^totals: (\d+)", file.read())[1]))
        measured.end()
    return least([(word, (count - counts[0]) / times) for (word, times), count in zip(windows[1:], counts[1:])])


def times(program, entries):
    """How many microseconds each call takes after so many entries."""
    windows = all_windows()
    found = []
    for _ in range(RUNS):
        measured = Measured(program, entries, windows)
        for word, count in windows:
            measured.line()
            measured.go()
            found.append((word, int(measured.line()) / count))
            measured.go()
        measured.end()
    return least(found)


def least(found):
    return {word: min(cost for other, cost in found if other == word) for word in CALLS}


def spent():
    """The processor time that the programs which have ended took, in seconds."""
    used = resource.getrusage(resource.RUSAGE_CHILDREN)
    return used.ru_utime + used.ru_stime


def history(program, entries):
    """How many microseconds of processor time an entry of a history takes."""
    before = spent()
    Measured(program, entries, []).end()
    return 1e6 * (spent() - before) / entries


def main():
    if len(sys.argv) < 2:
        sys.exit(__doc__)
    program = os.path.abspath(sys.argv[1])
    first, steeper = None, False
    for entries in [int(word) for word in sys.argv[2:]] or ENTRIES:
        print(f"after {entries} entries", flush=True)
        found = {"counts": instructions(program, entries), "times": times(program, entries)}
        first = first or found
        for word in CALLS:
            (count, grown), (time, later) = ((found[sort][word], found[sort][word] / first[sort][word]) for sort in ("counts", "times"))
            steeper |= grown > GREATEST
            print(f"  {word:8} {count / 1e3:10.1f} thousand instructions, times {grown:6.2f} {time:10.1f} us, times {later:6.2f}", flush=True)
        print(f"  an entry of the history took {history(program, entries):.1f} us", flush=True)
    sys.exit(1 if steeper else 0)


if __name__ == "__main__":
    main()
