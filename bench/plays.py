#!/usr/bin/env python3
"""Plays scenarios of 250, 500, 1,000 and 2,000 intents by the built program, and prints what they take and which part of it is the walk over the
history.

Needs    (cd crates/marlowe && rt run -- --version)
Usage    plays.py
Expect   for each size the processor time of a play in turn (`--one`), the time an intent, and the part that grows with the square of the intents: each look and each
         submit walks over the entries before it. Then, for 1,000 intents, the time by the clock in turn and with all plans at once.
Mind     the part comes from the times alone: a start, a time for each intent and a time for each pair of intents are fitted to them. Each intent is a deposit
         of 1 ada by the plan's address, which spends the thread's output and the change of the deposit before. A thread takes 40. Of RUNS
         runs the least time is taken. Run it on a machine that does nothing else.
"""
import json
import os
import resource
import subprocess
import sys
import tempfile
import time

HERE = os.path.dirname(os.path.abspath(__file__))
PROGRAM = os.path.join(HERE, "..", "crates", "marlowe", "out", "marlowe")
SIZES = (250, 500, 1000, 2000)
STEPS = 40
PLANS = 4
RUNS = 5
ADA = {"currency_symbol": "", "token_name": ""}


def deposit_of(address):
    return {"party": {"address": address}, "deposits": 1, "of_token": ADA, "into_account": {"address": address}}


def contract(address):
    """A contract that takes STEPS deposits, one after the other."""
    left = "close"
    for _ in range(STEPS):
        left = {"when": [{"case": deposit_of(address), "then": left}], "timeout": 100, "timeout_continuation": "close"}
    return left


def scenario(intents):
    """The plans take so many steps in all, each of threads of its own."""
    names = [f"p{place}" for place in range(PLANS)]
    given = {name: {"input_from_party": {"address": name}, "that_deposits": 1, "of_token": ADA, "into_account": {"address": name}} for name in names}
    threads, plans = [], {name: [] for name in names}
    for step in range(intents):
        turn, place = divmod(step, PLANS)
        name = names[place]
        thread = f"{name}.{turn // STEPS}"
        if turn % STEPS == 0:
            threads.append({"name": thread, "contract": name, "by": "bank", "accounts": [], "minTime": 0})
        plans[name].append({"step": thread, "inputs": [given[name]], "from": 0, "to": 10})
    return {"tick": 0,
            "genesis": [{"address": name, "amount": [[ADA, 1000000]]} for name in names + ["bank"]],
            "contracts": [{"name": name, "currency": "aa", "contract": contract(name)} for name in names],
            "threads": threads,
            "plans": [{"name": name, "keys": [name], "change": name, "intents": plans[name]} for name in names]}


def entries(told, intents):
    """How many entries the play has: publishings, looks and starts, looks and steps."""
    return len(told["contracts"]) + 2 * len(told["threads"]) + 2 * intents


def spent():
    """The processor time that the programs which have ended took, in seconds."""
    used = resource.getrusage(resource.RUSAGE_CHILDREN)
    return used.ru_utime + used.ru_stime


def played(path, flags, last):
    """The processor time and the time by the clock of a play that ends with this line."""
    before, begun = spent(), time.perf_counter()
    ended = subprocess.run([PROGRAM, "play", path, *flags], capture_output=True, text=True)
    took = spent() - before, time.perf_counter() - begun
    if ended.returncode or not ended.stdout.endswith(last) or "refused" in ended.stdout:
        sys.exit("the program answered otherwise")
    return took


def least(intents, flags):
    """The least processor time and the least time by the clock of RUNS plays."""
    told = scenario(intents)
    with tempfile.TemporaryDirectory() as folder:
        path = os.path.join(folder, "scenario.json")
        with open(path, "w") as file:
            json.dump(told, file, separators=(",", ":"))
        times = [played(path, flags, f"\nentries {entries(told, intents)}\n") for _ in range(RUNS)]
    return min(processor for processor, _ in times), min(clock for _, clock in times)


def determinant(rows):
    (a, b, c), (d, e, f), (g, h, i) = rows
    return a * (e * i - f * h) - b * (d * i - f * g) + c * (d * h - e * g)


def fitted(times):
    """The start, the time for each intent and that for each pair of them which come nearest to the times, each in parts of its own size."""
    rows = [((1 / took, size / took, size * size / took), 1) for size, took in times]
    normal = [[sum(row[i] * row[j] for row, _ in rows) for j in range(3)] for i in range(3)]
    right = [sum(row[i] * told for row, told in rows) for i in range(3)]
    whole = determinant(normal)
    return [determinant([[right[i] if j == k else normal[i][j] for j in range(3)] for i in range(3)]) / whole for k in range(3)]


def main():
    times = [(size, least(size, ["--one"])[0]) for size in SIZES]
    _, _, square = fitted(times)
    for size, took in times:
        print(f"{size:5} intents: {took:7.2f} s, {1e3 * took / size:6.2f} ms an intent, {100 * square * size * size / took:3.0f} % the walk over the history")
    in_turn, at_once = (least(1000, flags)[1] for flags in (["--one"], []))
    print(f" 1000 intents by {PLANS} plans: {in_turn:.2f} s by the clock in turn, {at_once:.2f} s at once")


if __name__ == "__main__":
    main()
