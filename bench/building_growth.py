#!/usr/bin/env python3
"""Builds on n, 2n and 4n offers and accounts by the program of rows, counts what a build costs by valgrind, and prints it with the ratios.

Needs    (cd crates/rows_chain && rt run), and valgrind
Usage    building_growth.py
Expect   steps and starts, three sizes each, and ratios a little above 2: a builder takes n log n in what is wanted and offered.
Mind     the cost is what MORE builds add to the instructions of a run, with the program's own reading of what is offered.
"""
import json

from rows_run import instructions

MORE = 3
DEPOSIT = {"input_from_party": {"address": "x"}, "that_deposits": 255, "of_token": {"currency_symbol": "", "token_name": ""}, "into_account": {"address": "x"}}
TIMEOUT = {"when": [], "timeout": 100, "timeout_continuation": "close"}
WAITS = {"when": [{"case": {"party": {"address": "x"}, "deposits": 255, "of_token": {"currency_symbol": "", "token_name": ""}, "into_account": {"address": "x"}}, "then": "close"}],
         "timeout": 100, "timeout_continuation": "close"}


def text(value):
    return json.dumps(value, separators=(",", ":"))


def steps(n):
    """Steps with n offers, of which 255 are spent."""
    start = ["let contract " + text(WAITS), "let deposit " + text(DEPOSIT), "# steps", f"geneses {n} key x ada 1", "genesis key bank ada 1", "begin 0",
             "publish 0 waits aa $contract", f"in genesis.{n} none", "out contract @waits root empty", "out key bank ada 1", "from 0 to 0", "signer bank",
             "submit 0 start", "look 0 thread start.0"]
    return start, [f"offers {n} key x ada 1", "from 0 to 10", "signer x", "build step x $deposit"]


def starts(n):
    """Starts with n accounts, each of a token of its own, and n offers behind the one that holds these tokens."""
    names = [f"t{i}" for i in range(n)]
    accounts = [[[{"address": "x"}, {"currency_symbol": "aa", "token_name": name}], 1] for name in names]
    state = {"accounts": sorted(accounts, key=lambda a: a[0][1]["token_name"]), "boundValues": [], "choices": [], "minTime": 0}
    start = ["let contract " + text(TIMEOUT), "let state " + text(state), "# starts", "genesis key x " + " ".join(f"aa.{name} 1" for name in names), f"geneses {n} key x ada 1",
             "begin 0", "publish 0 ends aa $contract", "look 0 key x"]
    return start, ["offer genesis.0", *(f"offer genesis.{i + 1}" for i in range(n)), "from 0 to 10", "signer x", "build start ends $state x"]


def main():
    for build in (steps, starts):
        print(build.__doc__)
        before = None
        for n in (1000, 2000, 4000):
            start, calls = build(n)
            cost = (instructions(start + calls * MORE) - instructions(start)) / MORE / 1e6
            print(f"  {n:5}: {cost:10.1f} million instructions" + (f", times {cost / before:.2f}" if before else ""), flush=True)
            before = cost


if __name__ == "__main__":
    main()
