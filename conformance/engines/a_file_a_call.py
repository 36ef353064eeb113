#!/usr/bin/env python3
"""An engine for the suite: any program that is called with the files of a contract, a state and a transaction, and prints the outcome as JSON, or
`refused NAME`. The worked one is checks/interpreter.py. What it is called with otherwise, and what it falls over, it can't do.

Usage    run.py python3 conformance/engines/a_file_a_call.py python3 checks/interpreter.py
"""
import json
import os
import subprocess
import sys
import tempfile

PARTS = {"contract": None, "state": {"accounts": [], "choices": [], "boundValues": [], "minTime": 0}, "transaction": None}


def answered(folder, request):
    paths = [os.path.join(folder, part) for part in PARTS]
    for path, part in zip(paths, PARTS):
        with open(path, "w", encoding="utf-8") as file:
            json.dump({**PARTS, **request["run"]}[part], file)
    printed = subprocess.run(sys.argv[1:] + paths, capture_output=True, check=True, encoding="utf-8").stdout
    return {"refused": {"of": "transaction", "name": printed.split()[1]}} if printed.startswith("refused") else {"ok": json.loads(printed)}


with tempfile.TemporaryDirectory() as folder:
    for line in sys.stdin.buffer:
        given = None
        try:
            given = json.loads(line.decode()).get("id")
            told = answered(folder, json.loads(line.decode()))
        except (ValueError, KeyError, TypeError, AttributeError, RecursionError, subprocess.CalledProcessError):
            told = {"unable": "this"}
        print(json.dumps({"id": given, **told}), flush=True)
