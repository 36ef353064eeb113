#!/usr/bin/env python3
"""Makes inputs of n, 2n and 4n, runs the built program on them, prints their tables with it, and prints time, peak memory and the ratios.

Needs    (cd crates/marlowe && rt run -- --version), and Debian's package `time`
Usage    growth.py
Expect   seven families, for each a run and a table (of the last two a run alone) of three sizes, the largest near 1 MiB of text; after the first size
         each ratio of time and memory near 2, since work and memory grow as the text does, and what reading its JSON alone takes.
Mind     start-up, the time and memory of the smallest run, is taken off before a ratio is formed. A busy machine makes times waver.
"""
import json
import os
import random
import subprocess
import sys
import tempfile
import time

HERE = os.path.dirname(os.path.abspath(__file__))
PROGRAM = os.path.join(HERE, "..", "crates", "marlowe", "out", "marlowe")
TIME = "/usr/bin/time"  # tells the peak memory; Debian's package `time`
LIMIT = 1_048_576
ADA = {"currency_symbol": "", "token_name": ""}
NO_STATE = {"accounts": [], "choices": [], "boundValues": [], "minTime": 0}


def transaction(start, end, inputs):
    return {"tx_interval": {"from": start, "to": end}, "tx_inputs": inputs}


def wide_when(n):
    """A When of n Notify cases of which the last matches."""
    case = {"case": {"notify_if": False}, "then": "close"}
    last = {"case": {"notify_if": True}, "then": "close"}
    contract = {"when": [case] * (n - 1) + [last], "timeout": 100, "timeout_continuation": "close"}
    return contract, NO_STATE, transaction(0, 10, ["input_notify"])


def many_accounts(n):
    """A Close that pays out n accounts, which are given in no order."""
    names = [f"r{i:06}" for i in range(n)]
    random.Random(1).shuffle(names)
    accounts = [[[{"role_token": name}, ADA], 1] for name in names]
    return "close", dict(NO_STATE, accounts=accounts), transaction(0, 10, [])


def many_values(n):
    """A state of n bound values, which are given in no order, behind a Close with one account."""
    names = [f"v{i:06}" for i in range(n)]
    random.Random(1).shuffle(names)
    values = [[name, i] for i, name in enumerate(names)]
    state = dict(NO_STATE, accounts=[[[{"role_token": "a"}, ADA], 1]], boundValues=values)
    return "close", state, transaction(0, 10, [])


def balanced(values):
    """The sum of values, as a balanced tree of additions."""
    while len(values) > 1:
        pairs = [{"add": a, "and": b} for a, b in zip(values[::2], values[1::2])]
        values = pairs + values[len(pairs) * 2:]
    return values[0]


def deep_arithmetic(n):
    """A Let whose value has n operations: sums of differences that are nested a hundred deep."""
    chains = []
    for _ in range(n // 100):
        value = 1
        for _ in range(100):
            value = {"value": value, "minus": 1}
        chains.append(value)
    return {"let": "x", "be": balanced(chains), "then": "close"}, NO_STATE, transaction(0, 10, [])


def many_forms(n):
    """A When of n cases of which each waits for a deposit of its own, and the last matches."""
    cases = []
    for i in range(n):
        deposit = {"party": {"role_token": "a"}, "deposits": i, "of_token": ADA, "into_account": {"role_token": "a"}}
        cases.append({"case": deposit, "then": "close"})
    contract = {"when": cases, "timeout": 100, "timeout_continuation": "close"}
    last = {"input_from_party": {"role_token": "a"}, "that_deposits": n - 1, "of_token": ADA, "into_account": {"role_token": "a"}}
    return contract, NO_STATE, transaction(0, 10, [last])


def wide_pays(n):
    """A When of n cases of which each goes on with a Pay of its own, and the last matches."""
    cases = []
    for i in range(n):
        pay = {"pay": i, "token": ADA, "from_account": {"role_token": "a"}, "to": {"party": {"address": "x"}}, "then": "close"}
        cases.append({"case": {"notify_if": i == n - 1}, "then": pay})
    contract = {"when": cases, "timeout": 100, "timeout_continuation": "close"}
    state = dict(NO_STATE, accounts=[[[{"role_token": "a"}, ADA], n]])
    return contract, state, transaction(0, 10, ["input_notify"])


def long_remainder(n):
    """A When whose one case goes on with a When of n Notify cases, which remains and is written."""
    case = {"case": {"notify_if": False}, "then": "close"}
    rest = {"when": [case] * n, "timeout": 200, "timeout_continuation": "close"}
    first = {"case": {"notify_if": True}, "then": rest}
    contract = {"when": [first], "timeout": 100, "timeout_continuation": "close"}
    return contract, NO_STATE, transaction(0, 10, ["input_notify"])


def only_json(parts):
    """The same texts, of which the first that is long has no form: they are read as JSON and no further."""
    contract, state, inputs = parts
    if contract == "close":
        return contract, {"json": state}, inputs
    return {"json": contract}, state, inputs


def child(words):
    """Runs the program once; gives seconds, peak memory in KiB and status."""
    begin = time.perf_counter()
    run = subprocess.run(
        [TIME, "-f", "%M", PROGRAM, *words],
        stdout=subprocess.DEVNULL,
        stderr=subprocess.PIPE,
        text=True,
    )
    seconds = time.perf_counter() - begin
    return seconds, int(run.stderr.split()[-1]), run.returncode


def measure(parts, status=0, word="run"):
    """The least time and peak memory of five runs, or tables, which end with this status."""
    with tempfile.TemporaryDirectory() as folder:
        paths = []
        for name, value in zip(("contract", "state", "transaction"), parts):
            text = json.dumps(value, separators=(",", ":"))
            if len(text) > LIMIT:
                sys.exit(f"a {name} of {len(text)} bytes is too long")
            paths.append(os.path.join(folder, name))
            with open(paths[-1], "w") as file:
                file.write(text)
        words = ["run", *paths] if word == "run" else ["table", paths[0]]
        runs = [child(words) for _ in range(5)]
    if any(run[2] != status for run in runs):
        sys.exit(f"the program ended with another status than {status}")
    return min(run[0] for run in runs), min(run[1] for run in runs)


def main():
    start = measure(("close", dict(NO_STATE, accounts=[[[{"role_token": "a"}, ADA], 1]]), transaction(0, 10, [])))
    print(f"start-up: {start[0] * 1000:.1f} ms, {start[1]} KiB")
    families = ((wide_when, 5_500), (many_forms, 1_300), (deep_arithmetic, 11_000), (wide_pays, 1_250), (long_remainder, 5_500), (many_accounts, 2_250), (many_values, 10_000))
    for make, least in families:
        print(make.__doc__)
        for word in ("run", "table"):
            before = None
            for n in (least, 2 * least, 4 * least):
                seconds, peak = measure(make(n), 0, word)
                seconds, peak = seconds - start[0], peak - start[1]
                line = f"  {word:5} {n:6}: {seconds * 1000:8.1f} ms, {peak:7} KiB"
                if before:
                    line += f", times {seconds / before[0]:.2f} and {peak / before[1]:.2f}"
                print(line)
                before = (seconds, peak)
            if make in (many_accounts, many_values):
                break
        alone = measure(only_json(make(4 * least)), 1)[1] - start[1]
        print(f"  reading the JSON alone takes {alone} KiB")


if __name__ == "__main__":
    main()
