#!/usr/bin/env python3
"""Compiles two contracts of 65,000 equal closes by the program of table rows, as this checkout builds it and as one from before equal nodes were shared
does, and prints for each the least processor time of a compile and the memory that its table takes while it is made, with the ratios.

Needs    (cd crates/rows_commands && rt run -- values/tables.txt), and in a checkout of 4907a8e^1 (cd crates/rows_tables && rt run); Debian's packages `time` and `libc-devtools`
         4907a8e^1 lacks the row `grid`: bring over `grid` and the arm that names it, of crates/rows_values/src/tables.rt
Usage    sharing.py EARLIER [OURS]   (as ../earlier/crates/rows_tables/out/rows_tables; OURS is this checkout's unless it is named)
Expect   at most 1.5 times the time (some 0.7 is usual); of the widest contract a 44th of the memory, of the When of Whens less than a 2,000th
Else     a program without one of the rows, and status 1
Mind     memory is what the program asks the allocator for, at its peak: exact, and the same on a busy machine. A busy machine makes times waver.

A row `wide 65533` is the widest contract: 65,533 cases that wait for what is true and are each followed by close, so all closes are equal, and all
cases. A row `grid 255 254` is a When of 255 such cases, each followed by an equal When of 254 that are followed by close: 65,026 closes in 65,282
continuations, of which a contract may have 65,535.

What a table takes is the peak with its row less that with a row whose tree takes as much and is refused before a table is begun: `wide 65534` and
`grid 255 255`, of one case more in each list. The room of a list doubles as it grows, and has a place for that case either way.

While a table is made its index has a copy of each node, and so of each list of case numbers, 4 bytes a number. Of what the widest contract's takes half is
left once it is made, and that is its list of 65,533: a 90th of what the table took, and no table that holds the list takes less. The other one's has
two lists, of 254 and of 255.
"""
import os
import re
import subprocess
import sys
import tempfile

from growth import TIME

HERE = os.path.dirname(os.path.abspath(__file__))
OURS = os.path.join(HERE, "..", "crates", "rows_commands", "out", "rows_commands")
CONTRACTS = (("the widest contract", "wide 65533", "wide 65534"), ("a When of equal Whens", "grid 255 254", "grid 255 255"))
RUNS = 5
TIMES = 20


def run(words, lines):
    """Runs the program on a file of these lines."""
    with tempfile.NamedTemporaryFile("w", suffix=".txt") as file:
        file.write("".join(line + "\n" for line in lines))
        file.flush()
        done = subprocess.run([*words, file.name], capture_output=True, text=True)
    if done.returncode != 0:
        sys.exit(f"{words[-1]}: status {done.returncode}, {done.stderr}")
    return done


def seconds(program, row):
    """The least processor seconds of a row, over several runs."""
    runs = (run([TIME, "-f", "%U %S", program], [row] * TIMES) for _ in range(RUNS))
    return min(sum(map(float, done.stderr.split()[-2:])) for done in runs) / TIMES


def peak(program, row):
    """The most bytes of the heap that are taken at once."""
    return int(re.search(r"heap peak: (\d+)", run(["memusage", program], [row]).stderr)[1])


def taken(program, made, refused):
    """Milliseconds of processor time and bytes that making the table of a row takes."""
    if not run([program], [made]).stdout.startswith("root k") or run([program], [refused]).stdout.strip() != "TooManyNodes":
        sys.exit(f"{program} has no such row as {made}")
    return (seconds(program, made) - seconds(program, refused)) * 1000, peak(program, made) - peak(program, refused)


def main():
    if len(sys.argv) not in (2, 3):
        sys.exit(__doc__)
    ours = sys.argv[2] if len(sys.argv) == 3 else OURS
    for name, made, refused in CONTRACTS:
        before, now = taken(sys.argv[1], made, refused), taken(ours, made, refused)
        print(f"{name} ({made}): {before[0]:.1f} ms and {before[1]:,} bytes earlier, {now[0]:.1f} ms and {now[1]:,} bytes now")
        print(f"  times {now[0] / before[0]:.2f}; 1/{before[1] / now[1]:,.0f} of the memory")


if __name__ == "__main__":
    main()
