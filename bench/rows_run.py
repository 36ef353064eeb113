"""What a run of the program of rows costs, for the scripts beside this one that measure by it.

Needs    (cd crates/rows_chain && rt run), and valgrind where instructions are counted
"""
import os
import re
import resource
import subprocess
import sys
import tempfile

HERE = os.path.dirname(os.path.abspath(__file__))
PROGRAM = os.path.join(HERE, "..", "crates", "rows_chain", "out", "rows_chain")


def run(lines, before=()):
    """Runs the program over these lines, behind the words of a command that measures it, and gives what that command wrote."""
    with tempfile.TemporaryDirectory() as folder:
        with open(os.path.join(folder, "rows.txt"), "w") as file:
            file.write("\n".join(lines) + "\n")
        ended = subprocess.run([*before, PROGRAM, "rows.txt"], cwd=folder, capture_output=True, text=True)
    if ended.returncode or "no such row" in ended.stdout:
        sys.exit("the program answered otherwise")
    return ended.stderr


def spent():
    """The processor time that the programs which have ended took, in seconds."""
    used = resource.getrusage(resource.RUSAGE_CHILDREN)
    return used.ru_utime + used.ru_stime


def seconds(lines):
    """The processor time of a run over these lines."""
    before = spent()
    run(lines)
    return spent() - before


def instructions(lines):
    """How many instructions a run over these lines takes."""
    said = run(lines, ["valgrind", "--tool=cachegrind", "--cache-sim=no", "--cachegrind-out-file=/dev/null"])
    return int(re.search(r"I +refs: +([0-9,]+)", said)[1].replace(",", ""))
