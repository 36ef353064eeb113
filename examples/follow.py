#!/usr/bin/env python3
"""Follows a contract to its end by `marlowe --json`, and tells ten faults: a tool that branches on the status and the name of a fault alone.

Usage    follow.py PROGRAM [CONTRACT]
Needs    the built program; without CONTRACT a sale of 50 ADA is followed.
Expect   a line for each transaction, with what it pays; `closed`; then a line for each of ten faults, with what is to be done; status 0.
Else     a line with what came in place of what was expected; then status 1.
"""
import json
import pathlib
import subprocess
import sys
import tempfile

ADA = {"currency_symbol": "", "token_name": ""}
BUYS = {"party": {"role_token": "b"}, "deposits": 50, "of_token": ADA, "into_account": {"role_token": "s"}}
SALE = {"when": [{"case": BUYS, "then": "close"}], "timeout": 100, "timeout_continuation": "close"}
START = {"accounts": [], "choices": [], "boundValues": [], "minTime": 0}
FOLDER = pathlib.Path(tempfile.mkdtemp())


def ask(*words):
    """The status, the answer and the refusal of a command; texts are put into files."""
    paths = []
    for place, word in enumerate(words):
        if not isinstance(word, str) or word.startswith(" "):
            (FOLDER / f"{place}.json").write_text(word if isinstance(word, str) else json.dumps(word))
            word = str(FOLDER / f"{place}.json")
        paths.append(word)
    done = subprocess.run([sys.argv[1], *paths, "--json"], capture_output=True, text=True, check=False)
    last = json.loads(done.stdout.splitlines()[-1]) if done.stdout else {}
    return done.returncode, last, last.get("refused", {})


def transaction(at, inputs, to=None):
    return {"tx_interval": {"from": at, "to": at if to is None else to}, "tx_inputs": inputs}


def chosen(told, now):
    """The first input that applies, or the time when the contract waits no longer."""
    applicable = told["applicable_inputs"]
    for it in applicable["deposits"]:
        deposit = {"input_from_party": it["party"], "that_deposits": int(it["can_deposit"]), "of_token": it["of_token"], "into_account": it["into_account"]}
        return transaction(now, [deposit])
    for it in applicable["choices"]:
        return transaction(now, [{"for_choice_id": it["for_choice"], "input_that_chooses_num": int(it["can_choose_between"][0]["from"])}])
    if applicable["notify"]:
        return transaction(now, ["input_notify"])
    return transaction(now if told["waits_until"] is None else told["waits_until"] + 1, [])


def follow(contract, state):
    while contract != "close" or state["accounts"]:
        status, told, _ = ask("next", contract, state, "--text-numbers")
        status, outcome, refused = ask("run", contract, state, chosen(told, state["minTime"]), "--text-numbers")
        if status:
            sys.exit(f"refused: {refused}")
        print("pays", json.dumps(outcome["payments"]))
        contract, state = outcome["contract"], outcome["state"]
    print("closed")


# what is to be done, by the status and the name
TO_DO = {
    (2, "unreadable"): "look for {file}",
    (4, "NotJson"): "mend {file} at {line}:{column}, {reason}",
    (4, "NoForm"): "mend {file} at {line}:{column}, {hint}",
    (4, "NotWhole"): "write a whole number in {file} at {line}:{column}",
    (4, "BadState"): "mend the state at {line}:{column}, {hint}",
    (1, "InvalidInterval"): "let the interval end after it begins",
    (1, "IntervalInPast"): "let the interval begin at {least}",
    (1, "Ambiguous"): "let the interval end before {timeout}, or begin there",
    (1, "NoMatch"): "hand in something else as input {input}",
    (1, "Useless"): "wait until {next[waits_until]}",
}


def faults():
    ones = [
        ("table", "no_such_file.json"), ("table", " {"), ("table", {"when": []}), ("run", SALE, {**START, "minTime": 0.5}, transaction(0, [])),
        ("run", SALE, {**START, "boundValues": [["x", 1], ["x", 1]]}, transaction(0, [])), ("run", SALE, START, transaction(10, [], 0)),
        ("run", SALE, {**START, "minTime": 20}, transaction(0, [])), ("run", SALE, START, transaction(0, [], 100)),
        ("run", SALE, START, transaction(0, ["input_notify"])), ("run", SALE, START, transaction(0, [])),
    ]
    for words, expected in zip(ones, TO_DO, strict=True):
        status, _, refused = ask(*words)
        if (status, refused.get("name")) != expected:
            sys.exit(f"expected {expected}, and there came {status}, {refused}")
        print(TO_DO[expected].format(**{**refused, "file": pathlib.Path(refused.get("file", "")).name}))


follow(json.loads(pathlib.Path(sys.argv[2]).read_text()) if len(sys.argv) > 2 else SALE, START)
faults()
