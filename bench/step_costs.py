#!/usr/bin/env python3
"""Plays scenarios by the built program, and prints what a step takes in instructions, what it does once, and what it leaves in memory, each beside its bound.

Needs    (cd crates/marlowe && rt run -- --version), and valgrind
Usage    step_costs.py [PROGRAM]   (another program than the built one)
Expect   seven lines and status 0, in half a minute:
         - a step: what FEW to MANY deposits add to a run, by callgrind. A step is two calls, a look and a submit, with the copies that its seat keeps. Each
           transaction is encoded and hashed once, where it is checked; more work than the bound allows is done again and again;
         - what is done once for each step: its transaction's id, by one encoding and one hash, where the party checks it; at the Submit the comparison of
           that check, with the transaction, with what is found, and with what is published. Each is a call of one function, which callgrind counts;
         - a step's room: what the same steps add to the peak of the heap. Entries stay, and so do the ids and the moves of their transactions. What was
           spent leaves its place to what comes;
         - locks' names: how much more the peak is where each of CHAIN parties sends its change to the next one than where all are one party, whose name is as
           long. An address without outputs leaves no name.
Else     `too many` behind what is above its bound, `not once` behind what is done less or more often, and status 1
Mind     both are exact, and the same on a busy machine. FEW and MANY are powers of two: so the lists and maps of both have the same share of free room. The
         bounds are of the program as it is built from proofs; one built by `rt try` takes more instructions and room.
"""
import json
import os
import re
import subprocess
import sys
import tempfile

import plays

FEW, MANY = 64, 128
CHAIN = 40
INSTRUCTIONS = 1_000_000
ROOM = 9_600
NAMES = 2_000
# What each step calls once, by the beginnings of the functions' names.
ONCE = {
    "encodes and hashes its transaction": "eutxo_types::id::tx_id",
    "compares its transaction with a check": "eutxo_types::tx::TxSame::same",
    "compares what is found with a check": "eutxo::resolved::Resolved::equals",
    "compares what is published with a check": "roles::published::PublishedSame::same",
}


def chained(own):
    """A scenario of so many parties, each of which deposits 1 ada once into the first one's account, and sends what it has left to the next one; or of one
    party in their place."""
    names = [f"p{place if own else 0:02}" for place in range(CHAIN + 1)]
    left, account = "close", {"address": names[0]}
    for name in reversed(names[:-1]):
        deposit = {"party": {"address": name}, "deposits": 1, "of_token": plays.ADA, "into_account": account}
        left = {"when": [{"case": deposit, "then": left}], "timeout": 100, "timeout_continuation": "close"}
    given = [{"input_from_party": {"address": name}, "that_deposits": 1, "of_token": plays.ADA, "into_account": account} for name in names]
    return {"tick": 0,
            "genesis": [{"address": name, "amount": [[plays.ADA, 1000]]} for name in (names[0], "bank")],
            "contracts": [{"name": "p", "currency": "aa", "contract": left}],
            "threads": [{"name": "t", "contract": "p", "by": "bank", "accounts": [], "minTime": 0}],
            "plans": [{"name": f"plan{place:02}", "keys": [names[place]], "change": names[place + 1], "intents": [{"step": "t", "inputs": [given[place]], "from": 0, "to": 10}]}
                      for place in range(CHAIN)]}


def played(program, told, steps, before):
    """What a program that measures says of a play in turn with so many steps."""
    with tempfile.TemporaryDirectory() as folder:
        path = os.path.join(folder, "scenario.json")
        with open(path, "w", encoding="utf-8") as file:
            json.dump(told, file, separators=(",", ":"))
        run = subprocess.run([*before, program, "play", path, "--one"], capture_output=True, text=True)
    if run.returncode or run.stdout.count(" submit accepted\n") != steps + len(told["threads"]):
        sys.exit("the program answered otherwise")
    return run.stderr


def counted(program, told, steps):
    """The instructions of a play, and how often it calls what each step calls once."""
    with tempfile.TemporaryDirectory() as folder:
        path = os.path.join(folder, "calls")
        said = played(program, told, steps, ["valgrind", "--tool=callgrind", "--compress-strings=no", f"--callgrind-out-file={path}"])
        with open(path, encoding="utf-8") as file:
            calls = re.findall(r"^cfn=(.*)\n(?:cfi.*\n|cfl.*\n)*calls=(\d+)", file.read(), re.M)
    once = [sum(int(count) for name, count in calls if name.startswith(begins)) for begins in ONCE.values()]
    return int(re.search(r"Collected : (\d+)", said)[1]), *once


def peak(program, told, steps):
    """The most bytes of the heap that are taken at once."""
    said = played(program, told, steps, ["valgrind", "--tool=dhat", "--dhat-out-file=/dev/null"])
    return int(re.search(r"At t-gmax: ([0-9,]+) bytes", said)[1].replace(",", "")),


def of_steps(measured, program):
    """What each of the steps that MANY are more than FEW adds, of each count."""
    many, few = measured(program, plays.scenario(MANY), MANY), measured(program, plays.scenario(FEW), FEW)
    return [(more - less) / (MANY - FEW) for more, less in zip(many, few)]


def main(words):
    program = os.path.abspath(words[0]) if words else plays.PROGRAM
    takes, *once = of_steps(counted, program)
    leaves, = of_steps(peak, program)
    names = peak(program, chained(True), CHAIN)[0] - peak(program, chained(False), CHAIN)[0]
    found = [("a step takes", takes, INSTRUCTIONS, "instructions"), ("a step leaves", leaves, ROOM, "bytes"), (f"{CHAIN} names of locks leave", names, NAMES, "bytes")]
    for what, count in zip(ONCE, once):
        print(f"a step {what} " + ("once" if count == 1 else f"{count:g} times: not once"), flush=True)
    for what, count, most, unit in found:
        print(f"{what} {count:,.0f} {unit}, of at most {most:,}" + ("" if count <= most else ": too many"), flush=True)
    sys.exit(1 if any(count > most for _, count, most, _ in found) or any(count != 1 for count in once) else 0)


if __name__ == "__main__":
    main(sys.argv[1:])
