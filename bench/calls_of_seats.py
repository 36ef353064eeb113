#!/usr/bin/env python3
"""Has 1, 2, 4 and 16 seats of a hub, each in a thread of its own, submit the same number of payments in all, and prints calls a second beside those of one seat; and the
time of Submits by one seat with checks made before (`admit`) beside that without (`call`), all of which is under the lock but for a copy of each transaction.

Build the program first: (cd crates/rows_chain && rt run -- data/workers.txt)
The program measures by the clock, so run this on a machine that does nothing else. Of RUNS times the least is taken.
What to expect: about as many calls a second from many seats as from one, since they take turns under one lock; some less, for the turns themselves.
"""
import os
import subprocess
import sys
import tempfile

HERE = os.path.dirname(os.path.abspath(__file__))
PROGRAM = os.path.join(HERE, "..", "crates", "rows_chain", "out", "rows_chain")
CALLS = 320
SEATS = (1, 2, 4, 16)
RUNS = 7


def microseconds(rows):
    """What the program measures at each row."""
    with tempfile.TemporaryDirectory() as folder:
        with open(os.path.join(folder, "rows.txt"), "w") as file:
            file.write("".join(f"{row}\n" for row in rows))
        ended = subprocess.run([PROGRAM, "rows.txt"], cwd=folder, capture_output=True, text=True)
    if ended.returncode or "no such row" in ended.stdout:
        sys.exit("the program answered otherwise")
    return [int(line) for line in ended.stdout.splitlines()]


def least(row):
    return min(microseconds([row] * RUNS))


def main():
    one = None
    for seats in SEATS:
        took = least(f"time_calls {seats} {CALLS // seats} 4")
        rate = CALLS / took * 1e6
        one = one or rate
        print(f"{seats:2} seats: {rate:8.0f} calls a second, {rate / one:.2f} of one seat's")
    for inputs in (1, 16):
        call = least(f"time_calls 1 {CALLS} {inputs}")
        admit = least(f"time_admits 1 {CALLS} {inputs}")
        print(f"payments of {inputs} inputs: a Submit with its check at hand takes {admit / call:.2f} of one without")


if __name__ == "__main__":
    main()
