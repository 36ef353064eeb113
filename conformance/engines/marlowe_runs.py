#!/usr/bin/env python3
"""An engine for the suite: the program `marlowe`, in a process for each request.

Usage    run.py python3 engines/marlowe_runs.py PROGRAM
Expect   for each line of standard input one line on standard output, flushed before the next one is read.

A contract is read and written back where it is what follows a case that nobody can take; a state, where it is what a transaction leaves that
changes nothing. Of what else is read the program writes nothing back, and it has no lines that could be at fault.
"""
import json
import os
import subprocess
import sys
import tempfile

LONGEST = 4 * 1_048_576 + 1
FAULTS = ("InvalidInterval", "IntervalInPast", "Ambiguous", "NoMatch", "Useless", "Leaves128")
WAITS = '{"assert":true,"then":{"when":[%s],"timeout":9223372036854775807,"timeout_continuation":"close"}}'
PARTS = {"contract": WAITS % "", "state": '{"accounts":[],"choices":[],"boundValues":[],"minTime":0}',
         "transaction": '{"tx_interval":{"from":-9223372036854775808,"to":9223372036854775806},"tx_inputs":[]}'}
# How a part is put where the program reads it.
INSIDE = {"contract": ("contract", WAITS % '{"case":{"notify_if":false},"then":%s}'), "state": ("state", "%s"), "transaction": ("transaction", "%s"),
          "input": ("transaction", '{"tx_interval":{"from":0,"to":0},"tx_inputs":[%s]}')}


def called(folder, command, texts):
    """What the program prints, line by line, and its refusal: `refused contract NoForm`, `refused transaction 2 NoMatch`, `refused Useless`."""
    for name, text in texts.items():
        with open(os.path.join(folder, name), "w", encoding="utf-8") as file:
            file.write(text)
    done = subprocess.run([os.path.abspath(sys.argv[1]), *command.split()], cwd=folder, capture_output=True, encoding="utf-8")
    told = {"ok": [json.loads(line) for line in done.stdout.splitlines()]}
    if done.returncode == 0:
        return told
    _, *words, name = done.stderr.split()
    refusal = {"of": words[0] if words else "transaction", "name": name, **({"number": int(words[1])} if words[1:] else {})}
    return {**(told if words[1:] and name in FAULTS else {}), "refused": refusal}


def answered(folder, request):
    word = next(word for word in ("run", "trace", "read") if word in request)
    texts = {name: json.dumps(part, ensure_ascii=False) for name, part in request[word].items()}
    if word == "trace":
        return called(folder, "trace contract transactions" + " --state state" * ("state" in texts), texts)
    if word == "run":
        came = called(folder, "run contract state transaction", {"state": PARTS["state"], **texts})
        return came if "refused" in came else {"ok": came["ok"][0]}
    (of, text), = texts.items()
    name, inside = INSIDE[of]
    came = called(folder, "run contract state transaction", {**PARTS, name: inside.replace("%s", text)})
    if "refused" in came and came["refused"]["name"] not in FAULTS:
        return {"refused": {**came["refused"], "of": of}}
    if "refused" in came or name == "transaction":
        return {"unable": "read"}
    return {"ok": came["ok"][0]["contract"]["when"][0]["then"] if of == "contract" else came["ok"][0]["state"]}


def main():
    with tempfile.TemporaryDirectory() as folder:
        for line in sys.stdin.buffer:
            try:
                request = json.loads(line.decode(), parse_int=lambda digits: float(digits) if digits == "-0" else int(digits))
                told = {"id": request["id"], **answered(folder, request)}
                if len(line) > LONGEST or len(request) > 2 or told.get("refused", {}).get("name") in ("NotJson", "TooLong"):
                    raise ValueError("the line is at fault, or may be")
            except (ValueError, TypeError, KeyError, StopIteration, RecursionError):
                told = {"id": None, "unable": "line"}
            print(json.dumps(told, ensure_ascii=False), flush=True)


if __name__ == "__main__":
    main()
