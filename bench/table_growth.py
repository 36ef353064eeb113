#!/usr/bin/env python3
"""Has `marlowe table` compile and print contracts whose texts have 64 KiB to 1 MiB, and prints instructions, processor seconds and bytes written, each per byte of the text.

Build the program first: (cd crates/marlowe && rt run -- --version); another one may be named as the argument. Needs valgrind and /usr/bin/time.
Expect: from each size to the next, twice as long, the instructions grow by at most GREATEST times; else the script ends with status 1.
Instructions are exact and the same on a busy machine. The seconds, the least of RUNS, are not, and nothing is asked of them.
"""
import json
import os
import re
import subprocess
import sys
import tempfile

from growth import PROGRAM, TIME, deep_arithmetic, many_forms, wide_pays, wide_when

SIZES = [64 << 10, 128 << 10, 256 << 10, 512 << 10, 1 << 20]
RUNS = 5
GREATEST = 2.3


def text_of(make, size):
    """The longest text of this family that has at most so many bytes."""
    count = lambda n: len(json.dumps(make(n)[0], separators=(",", ":")))
    step = 100 if make is deep_arithmetic else 1
    low, high = 1, size // step
    while low < high:
        middle = (low + high + 1) // 2
        low, high = (middle, high) if count(middle * step) <= size else (low, middle - 1)
    return json.dumps(make(low * step)[0], separators=(",", ":"))


def instructions(program, path):
    """How many instructions the program executes, and how many bytes it writes."""
    with tempfile.NamedTemporaryFile() as out:
        words = ["valgrind", "--tool=callgrind", f"--callgrind-out-file={out.name}", program, "table", path]
        run = subprocess.run(words, capture_output=True)
    if run.returncode:
        sys.exit(f"status {run.returncode}")
    return int(re.search(rb"Collected : (\d+)", run.stderr)[1]), len(run.stdout)


def seconds(program, path):
    """The least processor seconds of several runs."""
    found = []
    for _ in range(RUNS):
        run = subprocess.run([TIME, "-f", "%U %S", program, "table", path], stdout=subprocess.DEVNULL, stderr=subprocess.PIPE, text=True)
        found.append(sum(map(float, run.stderr.split()[-2:])))
    return min(found)


def main():
    program = sys.argv[1] if len(sys.argv) > 1 else PROGRAM
    steeper = False
    with tempfile.TemporaryDirectory() as folder:
        path = os.path.join(folder, "contract.json")
        for make in (wide_when, many_forms, wide_pays, deep_arithmetic):
            print(make.__doc__)
            before = None
            for size in SIZES:
                text = text_of(make, size)
                with open(path, "w") as file:
                    file.write(text)
                count, written = instructions(program, path)
                line = f"  {len(text):8} bytes: {count / 1e6:8.1f} million instructions, {count / len(text):6.1f} a byte; {seconds(program, path):.3f} s; {written} bytes written"
                if before:
                    line += f"; times {count / before:.2f}"
                    steeper |= count > GREATEST * before
                print(line, flush=True)
                before = count
    sys.exit(1 if steeper else 0)


if __name__ == "__main__":
    main()
