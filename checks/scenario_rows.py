#!/usr/bin/env python3
"""Reads the scenarios of `rows_commands` in plain Python, apart from the program, and compares that with the answers that stand below them; and
writes random scenarios as rows of plays.

Needs    plays.py, readings.py and rows.py beside it, and nothing built. `commands.py --apart` compares the rows of plays.
Usage    scenario_rows.py                compares all rows
         scenario_rows.py --write        writes each answer below its row, in place of what stood there
         scenario_rows.py --random [COUNT [SEED [FILE]]]   writes short random scenarios as rows, each above its answer
Expect   `N rows as written`. The random rows of 100 by seed 1 are the first of `rows_commands/data/plays/compared.txt`.
Else     the first row that differs, with what is written and what comes here, and status 1.
"""
import os
import sys

HERE = os.path.dirname(os.path.abspath(__file__))
sys.path.insert(0, HERE)
import plays
import random_scenarios
import readings
import rows
from ledger import compact

TITLE = "# random scenarios, as a program written apart plays them"
READ = os.path.join(rows.CRATES, "rows_commands", "data", "values", "scenarios.txt")
PLAYED = os.path.join(rows.CRATES, "rows_commands", "data", "plays", "compared.txt")
ROW = "read scenario"


# ---- what is read, as it is printed

def amounts(rows):
    word = {True: "ada"}
    ordered = sorted(rows, key=lambda row: (bytes.fromhex(row[0]["currency_symbol"]), row[0]["token_name"].encode()))
    return "".join(f" {word.get(not of['currency_symbol'] + of['token_name']) or of['currency_symbol'] + '.' + of['token_name']} {number}"
                   for of, number in ordered)


def by_account(row):
    (owner, of), _ = row
    (kind, name), = owner.items()
    return kind, name.encode(), bytes.fromhex(of["currency_symbol"]), of["token_name"].encode()


def state(thread):
    return compact({"accounts": sorted(thread["accounts"], key=by_account), "boundValues": [], "choices": [], "minTime": thread["minTime"]})


def intent_lines(intent):
    if "step" in intent:
        yield f" {'pooled step' if intent['pool'] else 'step'} {intent['step']} from {intent['from']} to {intent['to']}"
        for given in intent["inputs"]:
            yield "  " + compact(given)
    elif "steps" in intent:
        yield f" {'pooled steps' if intent['pool'] else 'steps'} from {intent['from']} to {intent['to']}"
        for step in intent["steps"]:
            yield f"  step {step['step']}"
            for given in step["inputs"]:
                yield "  " + compact(given)
    elif "claim" in intent:
        yield f" claim {intent['claim']} {intent['role']} from {intent['from']} to {intent['to']}"
    elif "round" in intent:
        yield f" round {intent['round']} by {intent['workers']}"
    else:
        yield f" advance {intent['advance']}"


def told(text):
    try:
        scenario = readings.scenario(text)
    except readings.Fault as fault:
        return [str(fault)]
    lines = [f"tick {scenario['tick']}"]
    lines += [f"genesis {funds['address']}{amounts(funds['amount'])}" for funds in scenario["genesis"]]
    lines += [f"contract {each['name']} {each['currency']} {compact(each['contract'])}" for each in scenario["contracts"]]
    lines += [f"thread {each['name']} of {each['contract']} by {each['by']} {state(each)}" for each in scenario["threads"]]
    for plan in scenario["plans"]:
        stop = "" if plan["stop_after"] is None else f" stops after {plan['stop_after']}"
        lines += [f"plan {plan['name']}{stop}"] + [f" key {key}" for key in plan["keys"]] + [f" change {plan['change']}"]
        lines += [line for intent in plan["intents"] for line in intent_lines(intent)]
    return lines


def answer(given, line):
    """What a row prints, or None for a line that is no row."""
    word, _, rest = line.partition(" ")
    try:
        if given.keeps(word, rest):
            return None
        if line != ROW and not line.startswith(ROW + " "):
            raise rows.NoSuchRow
        text = line.removeprefix(ROW).removeprefix(" ")
        return told(given.whole(text) if text else given.files["text"])
    except rows.NoSuchRow:
        return ["no such row"]


def answers(lines):
    """Each line that is no answer, with its answer, or None where it has none, and with what is written below it."""
    given = rows.Given()
    return [(line, answer(given, line), written) for line, written in rows.answered(lines)]


def compare():
    count = 0
    for line, came, written in answers(rows.lines_of(READ)):
        if came is not None and came != written:
            sys.exit(f"{line}\nwritten " + "\n        ".join(written) + "\nhere    " + "\n        ".join(came))
        count += came is not None
    print(f"{count} rows as written")


def write(path, lines):
    with open(path, "w", encoding="utf-8") as file:
        file.write(rows.with_answers(lines))


def write_random(count, seed, path):
    kept, number = [(TITLE, [])], 0
    while len(kept) <= count:
        text = random_scenarios.text(f"{seed}.{number}", plays.Play)
        number += 1
        if 0 < len(text) <= 3000 and b"$" not in text:
            output, refusal, _ = plays.wanted(text)
            kept.append(("play " + text.decode(), rows.in_lines(output, refusal, 1 if refusal else 0)))
    write(path, kept)


if sys.argv[1:2] == ["--write"]:
    write(READ, [(line, came or []) for line, came, _ in answers(rows.lines_of(READ))])
elif sys.argv[1:2] == ["--random"]:
    words = sys.argv[2:]
    write_random(int(words[0]) if words else 100, words[1] if words[1:] else "1", words[2] if words[2:] else PLAYED)
else:
    compare()
