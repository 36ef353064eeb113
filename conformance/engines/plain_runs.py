#!/usr/bin/env python3
"""An engine for the suite: the plain Rust of bench/plain, in a process for each transaction. It has one word for all texts that it doesn't
read, `refused a text`, so a refusal of a text has no name here.

Usage    run.py python3 engines/plain_runs.py PROGRAM
Expect   for each line of standard input one line on standard output, flushed before the next one is read.

What is only read is put where the program reads it, as it stands in the line: a contract and a state are seen in the outcome of a transaction that
changes nothing.
"""
import json
import os
import re
import subprocess
import sys
import tempfile

from marlowe_runs import INSIDE, PARTS

PROGRAM = os.path.abspath(sys.argv[1])
START = json.loads(PARTS["state"])
NOTHING = {"tx_interval": {"from": 0, "to": 0}, "tx_inputs": []}
READ = re.compile(r'\{"id":\d+,"read":\{"(contract|state|transaction|input)":(.*)\}\}\n?')
# The levels of a text that a part takes which is put into another.
INSIDE_LEVELS, DEEPEST = 5, 127


def run_texts(folder, texts):
    for name, text in texts.items():
        with open(os.path.join(folder, name), "w", encoding="utf-8") as file:
            file.write(text)
    done = subprocess.run([PROGRAM, "run", "contract", "state", "transaction"], cwd=folder, capture_output=True, encoding="utf-8")
    if done.returncode == 0:
        return {"ok": json.loads(done.stdout)}
    return {"refused": {} if "a text" in done.stderr else {"of": "transaction", "name": done.stderr.split()[-1]}}


def run(folder, *parts):
    return run_texts(folder, {name: json.dumps(part, ensure_ascii=False) for name, part in zip(PARTS, parts)})


def trace(folder, contract, transactions, state=START):
    """Each transaction from what the one before it left, as long as its numbers are ones that JSON has; once all texts can be read."""
    outcomes, texts = [], [(contract, state, NOTHING)] + [("close", START, transaction) for transaction in transactions]
    for number, parts in enumerate(texts):
        if run(folder, *parts) == {"refused": {}}:
            return {"refused": {"number": number} if number else {}}
    for number, transaction in enumerate(transactions, 1):
        if any(isinstance(row[1], str) for rows in ("accounts", "choices", "boundValues") for row in state[rows]):
            return {"unable": "trace"}
        came = run(folder, contract, state, transaction)
        if "refused" in came:
            return {"ok": outcomes, "refused": {**came["refused"], "number": number}}
        outcomes.append(came["ok"])
        contract, state = came["ok"]["contract"], came["ok"]["state"]
    return {"ok": outcomes}


def read(folder, of, text):
    """What is written back of a contract or a state. Of the others it is only seen that they aren't read."""
    name, inside = INSIDE[of]
    came = run_texts(folder, {**PARTS, name: inside.replace("%s", text)})
    if came == {"refused": {}}:
        return came
    if "refused" in came or name == "transaction":
        return {"unable": "read"}
    return {"ok": came["ok"]["contract"]["when"][0]["then"] if of == "contract" else came["ok"]["state"]}


def depth(data):
    return 1 + max(map(depth, data.values() if isinstance(data, dict) else data), default=0) if isinstance(data, (dict, list)) else 0


def answered(folder, line, request):
    if "run" in request:
        return run(folder, *({"state": START, **request["run"]}[name] for name in PARTS))
    if "trace" in request:
        return trace(folder, **request["trace"])
    found = READ.fullmatch(line)
    is_one = found and len(request["read"]) == 1 and depth(request) + INSIDE_LEVELS <= DEEPEST
    return read(folder, *found.groups()) if is_one else {"unable": "read"}


def parsed(line):
    """The request of a line, as far as Python and the program agree on what JSON is."""
    request = json.loads(line, parse_int=lambda digits: float(digits) if digits == "-0" else int(digits))
    json.dumps(request, ensure_ascii=False, allow_nan=False).encode()
    return request


with tempfile.TemporaryDirectory() as folder:
    for line in sys.stdin.buffer:
        try:
            request = parsed(line.decode())
            told = {"id": request["id"], **answered(folder, line.decode(), request)}
        except (ValueError, KeyError, TypeError, RecursionError):
            told = {"id": None, "unable": "line"}
        print(json.dumps(told, ensure_ascii=False), flush=True)
