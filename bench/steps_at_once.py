#!/usr/bin/env python3
"""Plays scenarios in which eight threads are stepped again and again by the built program, once with all eight in one transaction and once with a transaction for
each, and prints what they take; with an earlier program beside it, what a transaction of one contract takes now beside then.

Needs    (cd crates/marlowe && rt run -- --version), and for the second part a program built of an earlier checkout
Usage    steps_at_once.py [EARLIER]
Expect   the processor time of a step in a transaction of eight, and in one of its own. With EARLIER: how many times as long as then the play with a transaction for
         each step takes; at most 1.05 is wanted.
Mind     a step is a deposit of 1 ada, so each transaction spends the change of the one before. Eight looks come before a transaction of eight, one before one of one.
         The play without any step is taken off. Of RUNS runs the least time is taken. Run it on a machine that does nothing else.
"""
import json
import os
import subprocess
import sys
import tempfile

import plays

THREADS = 8
STEPS = 40
RUNS = 9


def step(thread):
    given = {"input_from_party": {"address": "p"}, "that_deposits": 1, "of_token": plays.ADA, "into_account": {"address": "p"}}
    return {"step": f"t{thread}", "inputs": [given]}


def scenario(rounds, together):
    """A plan that steps all threads so many times."""
    interval = {"from": 0, "to": 10}
    each = [{"steps": [step(thread) for thread in range(THREADS)], **interval}] if together else [{**step(thread), **interval} for thread in range(THREADS)]
    return {"tick": 0,
            "genesis": [{"address": name, "amount": [[plays.ADA, 1000000]]} for name in ("p", "bank")],
            "contracts": [{"name": "p", "currency": "aa", "contract": plays.contract("p")}],
            "threads": [{"name": f"t{thread}", "contract": "p", "by": "bank", "accounts": [], "minTime": 0} for thread in range(THREADS)],
            "plans": [{"name": "p", "keys": ["p"], "change": "p", "intents": each * rounds}]}


def processor(program, path):
    before = plays.spent()
    ended = subprocess.run([program, "play", path, "--one"], capture_output=True, text=True)
    if ended.returncode or "refused" in ended.stdout:
        sys.exit("the program answered otherwise")
    return plays.spent() - before


def least(program, rounds, together):
    with tempfile.TemporaryDirectory() as folder:
        path = os.path.join(folder, "scenario.json")
        with open(path, "w") as file:
            json.dump(scenario(rounds, together), file, separators=(",", ":"))
        return min(processor(program, path) for _ in range(RUNS))


def a_step(program, together):
    """The time of a step, in milliseconds."""
    return 1e3 * (least(program, STEPS, together) - least(program, 0, together)) / (STEPS * THREADS)


def main(words):
    eight, one = a_step(plays.PROGRAM, True), a_step(plays.PROGRAM, False)
    print(f"a step in a transaction of {THREADS}: {eight:.3f} ms, in one of its own: {one:.3f} ms, which is {one / eight:.2f} times as long")
    if words:
        print(f"a step in a transaction of its own takes {one / a_step(words[0], False):.3f} times as long as then")


if __name__ == "__main__":
    main(sys.argv[1:])
