#!/usr/bin/env python3
"""Measures what docs/performance.md shows of the program `marlowe`, and writes it into files of measurements/, for plots.py.

Needs    (cd crates/marlowe && rt run -- --version), Debian's package `time`, and for `runs` the plain program that the head of beside_plain.py says how to build
Usage    measure.py runs PLAIN    writes runs.csv: runs and tables of texts of 1/16 to 1 MiB, by both programs
         measure.py plays         writes plays.csv: plays of 250 to 2,000 intents, in turn and at once
         WHERE="a machine of .." measure.py ..   says in the file where that was
Expect   some minutes, on a machine that does nothing else. Of RUNS runs the least time is taken. plots.py --write then draws it.
Mind     a program that was made without its proofs (`rt try`) looks for faults as it runs, also of memory: its times and its memory are not those of the program.
"""
import json
import os
import sys
import tempfile

import beside_plain
import plays

HERE = os.path.dirname(os.path.abspath(__file__))
FILES = os.path.join(HERE, "measurements")
PARTS = (16, 8, 4, 2, 1)
RUNS = 5


def write(name, what, by, head, rows):
    where = os.environ.get("WHERE", "a machine that its file doesn't name")
    with open(os.path.join(FILES, name), "w", encoding="utf-8") as file:
        file.write(f"# {what}\n# measured by {by}, a proved program, on {where}\n{','.join(head)}\n")
        file.writelines(",".join(map(str, row)) + "\n" for row in rows)


def texts(make, size):
    return [json.dumps(value, separators=(",", ":")) for value in make(size)]


def runs(plain):
    for make, most in beside_plain.FAMILIES:
        for part in PARTS:
            given = texts(make, max(100, most // part // 100 * 100))
            with tempfile.TemporaryDirectory() as folder:
                paths = [os.path.join(folder, name) for name in ("contract", "state", "transaction")]
                for path, text in zip(paths, given):
                    with open(path, "w", encoding="utf-8") as file:
                        file.write(text)
                yield from measured(make.__name__.replace("_", " "), max(map(len, given)), plain, ["run", *paths])
                if len(given[0]) > max(map(len, given)) // 2:
                    yield from measured(make.__name__.replace("_", " "), len(given[0]), plain, ["table", paths[0]])


def measured(name, size, plain, words):
    """A row for each program: what it did, on which text of how many bytes, its least milliseconds and its peak of memory in MiB."""
    for program, path in (("plain", plain), ("marlowe", beside_plain.PROGRAM)):
        memory = min(beside_plain.child(path, words)[1] for _ in range(RUNS))
        seconds = min(beside_plain.cpu(path, words) for _ in range(RUNS))
        yield program, words[0], name, size, f"{1000 * seconds:.2f}", f"{memory / 1024:.1f}"


def played():
    for intents in plays.SIZES:
        told = plays.scenario(intents)
        in_turn, at_once = plays.least(intents, ["--one"]), plays.least(intents, [])
        yield intents, plays.entries(told, intents), f"{in_turn[0]:.4f}", f"{in_turn[1]:.4f}", f"{at_once[1]:.4f}", f"{memory_of(told):.1f}"


def memory_of(told):
    with tempfile.TemporaryDirectory() as folder:
        path = os.path.join(folder, "scenario.json")
        with open(path, "w", encoding="utf-8") as file:
            json.dump(told, file, separators=(",", ":"))
        return min(beside_plain.child(plays.PROGRAM, ["play", path, "--one"])[1] for _ in range(RUNS)) / 1024


def main(words):
    if words[:1] == ["runs"] and len(words) == 2:
        write("runs.csv", "the least processor milliseconds and the peak memory of a run or a table, by the size of its longest text", "measure.py",
              ("program", "command", "family", "bytes", "milliseconds", "MiB"), runs(words[1]))
    elif words == ["plays"]:
        write("plays.csv", "the least seconds of a play of so many intents by four plans: of a processor and by the clock in turn, by the clock at once", "measure.py",
              ("intents", "entries", "seconds", "clock", "at once", "MiB"), played())
    else:
        sys.exit(__doc__)


if __name__ == "__main__":
    main(sys.argv[1:])
