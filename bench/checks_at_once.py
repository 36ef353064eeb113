#!/usr/bin/env python3
"""Has a round's 1,024 payments of 16 inputs each checked by one worker and by four, in turn, by the program of rows, and prints the least time of each and their ratio.

Build the program first: (cd crates/rows_chain && rt run -- data/workers.txt); another one may be named as the argument.
Expect: on four processors that nothing else uses, four workers are at least LEAST times as fast as one; else the script ends with status 1.
The program measures by the clock, from the first job to the last answer. Where it may, as root, the script gives it real-time priority for the seconds
that it runs, so that other processes wait. That frees processors, but not what lies below a virtual machine: there a processor is half as
fast while its neighbour works. So the least of many is taken, and the last line says what the machine gave: how much more four processes, with one worker
each and nothing shared, check at once than one alone, which is 4.0 on four free processors.
"""
import os
import statistics
import subprocess
import sys
import tempfile

HERE = os.path.dirname(os.path.abspath(__file__))
PROGRAM = os.path.join(HERE, "..", "crates", "rows_chain", "out", "rows_chain")
PAYMENTS = 1024
INPUTS = 16
RUNS = 10
TIMES = 40
LEAST = 3.2


def with_priority():
    """Real-time priority for this process, where it may have that."""
    try:
        os.sched_setscheduler(0, os.SCHED_FIFO, os.sched_param(40))
    except PermissionError:
        pass


def microseconds(program, rows, processes=1):
    """What the program measures at each row, by so many processes at once."""
    with tempfile.TemporaryDirectory() as folder:
        with open(os.path.join(folder, "rows.txt"), "w") as file:
            file.write("".join(f"{row}\n" for row in rows))
        how = {"cwd": folder, "stdout": subprocess.PIPE, "text": True, "preexec_fn": with_priority}
        running = [subprocess.Popen([program, "rows.txt"], **how) for _ in range(processes)]
        printed = [process.communicate()[0] for process in running]
    if any(process.returncode for process in running) or "no such row" in printed[0]:
        sys.exit("the program answered otherwise")
    return [int(line) for text in printed for line in text.splitlines()]


def what_the_machine_gives(program):
    """How much more four processes check at once than one alone."""
    rows = [f"time 1 {PAYMENTS // 4} {INPUTS}"] * TIMES
    alone = [statistics.median(microseconds(program, rows)) for _ in range(5)]
    at_once = [statistics.median(microseconds(program, rows, 4)) for _ in range(5)]
    return 4 * min(alone) / statistics.median(at_once)


def main():
    program = os.path.abspath(sys.argv[1]) if len(sys.argv) > 1 else PROGRAM
    found = {1: [], 4: []}
    for _ in range(RUNS):
        for workers, times in found.items():
            times += microseconds(program, [f"time {workers} {PAYMENTS} {INPUTS}"] * TIMES)
    for workers, times in found.items():
        print(f"{PAYMENTS} payments of {INPUTS} inputs, workers {workers}: least {min(times)} us, median {statistics.median(times):.0f}")
    given = what_the_machine_gives(program)
    one, four = min(found[1]), min(found[4])
    print(f"four workers are {one / four:.2f} times as fast by the least, {statistics.median(found[1]) / statistics.median(found[4]):.2f} by the medians")
    print(f"four processes that share nothing check {given:.2f} times as much as one alone")
    if one < LEAST * four:
        sys.exit(f"less than {LEAST} times as fast, on {os.cpu_count()} processors")


if __name__ == "__main__":
    main()
