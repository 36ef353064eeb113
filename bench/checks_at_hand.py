#!/usr/bin/env python3
"""Measures by the program of rows what checks at hand spare: a round of payments with all checks at hand beside none, and the judgement of a step on a
contract of many parts with an equal check beside judging it anew.

Needs    (cd crates/rows_chain && rt run)
Usage    checks_at_hand.py
Expect   two rounds of 1,000 payments in milliseconds, two judgements of a step in microseconds, and the ratio of these two, which is far above 1: an equal
         check costs a comparison of the published objects in full, and spares the script alone (docs/DECISIONS.md, "An equal check").
Mind     a cost is what something adds to the processor time of a run, the least of RUNS runs. The judgement of a step is what a `recheck` adds to a `resolve`.
"""
import json
import sys

from rows_run import seconds

RUNS = 9
PAYMENTS = 1000
INPUTS = 16
TIMES = 1000
CASES = 14500


def least(lines):
    """The least processor time of some runs over these lines."""
    return min(seconds(lines) for _ in range(RUNS))


def pool(checks):
    """A pool of payments of INPUTS inputs each, checked before its round or not."""
    lines = ["# a pool", f"geneses {PAYMENTS * INPUTS} key bank ada 1", "begin 0"]
    for i in range(PAYMENTS):
        lines += [f"in genesis.{i * INPUTS + j} none" for j in range(INPUTS)]
        lines += [f"out key ann ada {INPUTS}", "from 0 to 10", "signer bank", f"enqueue 0 t{i}"]
    return lines + [f"checks {PAYMENTS}"] * checks


def large():
    """A contract whose text has nearly a mebibyte: it waits for one of many notifies, each of which leads to a contract of its own."""
    cases = [{"case": {"notify_if": True}, "then": {"let": "x", "be": i, "then": "close"}} for i in range(CASES)]
    return json.dumps({"when": cases, "timeout": 100, "timeout_continuation": "close"}, separators=(",", ":"))


def step():
    """A chain on which a step of the large contract is written."""
    return ["# a step", "let large " + large(), "genesis key bank ada 1", "begin 0", "publish 0 large aa $large", "in genesis.0 none",
            "out contract @large root empty", "out key bank ada 1", "from 0 to 10", "signer bank", "submit 0 start", "in start.0 step notify", "from 0 to 10"]


def main():
    for checks, what in ((0, "none"), (1, "all of its checks")):
        before, whole = least(pool(checks)), least(pool(checks) + [f"round 0 {PAYMENTS}"])
        print(f"a round of {PAYMENTS} payments of {INPUTS} inputs with {what} at hand: {1000 * (whole - before):.1f} ms", flush=True)
    costs = []
    for check, what in (([], "judged anew"), (["keep"], "with an equal check at hand")):
        resolved, rechecked = (least(step() + check + [word] * TIMES) for word in ("resolve", "recheck"))
        costs.append((rechecked - resolved) / TIMES)
        print(f"a step on a contract of {2 * CASES} parts {what}: {1e6 * costs[-1]:.1f} us", flush=True)
    print(f"at hand beside anew: {costs[1] / costs[0]:.2f}")


if __name__ == "__main__":
    sys.exit(main())
