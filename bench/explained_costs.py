#!/usr/bin/env python3
"""Has `marlowe run` and `marlowe table` refuse the longest and the deepest texts, and prints the instructions with --explain beside those without it.

Needs    (cd crates/marlowe && rt run -- --version), another program may be named as the argument; valgrind
Usage    explained_costs.py [PROGRAM [NAME..]]
Expect   of each text its refusal, and at most three times as many instructions with --explain as without. Else the script ends with status 1.
Mind     instructions are exact and the same on a busy machine. What is started with the program counts on both sides: so it is taken off first.
"""
import json
import os
import re
import subprocess
import sys
import tempfile

from growth import ADA, LIMIT, NO_STATE, PROGRAM, many_accounts, many_forms, transaction, wide_pays, wide_when

MOST_TIMES, LEVELS = 3, 4000
NOTIFY = transaction(0, 10, ["input_notify"])
NOTHING = transaction(0, 10, [])
CHOICE = transaction(0, 10, [{"for_choice_id": {"choice_name": "x", "choice_owner": {"address": "a"}}, "input_that_chooses_num": 1}])
FILES = ["contract", "state", "transaction"]


def compact(it):
    return it if isinstance(it, str) else json.dumps(it, separators=(",", ":"))


def longest(make, which):
    """The three texts of a family of `growth.py` of which one, by its index, is nearly as long as may be."""
    room = LIMIT - 8000
    few, many = (len(compact(make(n)[which])) for n in (100, 1100))
    count = 100 + (room - few) * 1000 // (many - few)
    while len(compact(make(count)[which])) > room:
        count -= 10
    return [json.dumps(it, separators=(",", ":")) for it in make(count)]


def deepest(opens, inside, closes, levels=LEVELS):
    """A contract that nests so deep, with a state and a transaction."""
    return [opens * levels + inside + closes * levels, compact(NO_STATE), compact(NOTHING)]


def at_end(texts, which, old, new):
    """The texts, of which one has something else in the place of its last part like this."""
    before, behind = texts[which].rsplit(old, 1)
    return [*texts[:which], before + new + behind, *texts[which + 1 :]]


def many_inputs(n):
    """As many inputs as a text has room for, of which a contract takes the first."""
    waits = {"when": [{"case": {"notify_if": True}, "then": "close"}], "timeout": 100, "timeout_continuation": "close"}
    return waits, NO_STATE, transaction(0, 10, ["input_notify"] * n)


def ifs(levels):
    """Ifs in a row that are too deep for a table, each with a When of some cases beside the way."""
    case = '{"case":{"notify_if":true},"then":"close"}'
    beside = '{"when":[' + ",".join([case] * 18) + '],"timeout":100,"timeout_continuation":"close"}'
    return deepest(f'{{"if":true,"then":{beside},"else":', '"close"', "}", levels)


def texts_of():
    """Of each name of what is refused, or passed over, the command, its three texts, and its flags."""
    when, forms, pays = longest(wide_when, 0), longest(many_forms, 0), longest(wide_pays, 0)
    accounts, inputs = longest(many_accounts, 1), longest(many_inputs, 2)
    lets = deepest('{"let":"x","be":1,"then":', '"close"', "}")
    first = re.match(r'.*?"accounts":\[(.*?,1\])', accounts[1])[1]
    hundred = "".join(f',"note{i}":1' for i in range(100))
    deep = ["--depth", str(LEVELS)]
    return {
        "the end lacks": ("run", at_end(forms, 0, "}", ""), []),
        "the last contract is none": ("run", at_end(when, 0, '"close"', '"clos"'), []),
        "the last number is none": ("run", at_end(pays, 0, '"pay":', '"pay":0.5,"was":'), []),
        "the first key is none": ("run", [forms[0].replace('"when"', '"wen"', 1), *forms[1:]], []),
        "the last entry of a state is none": ("run", at_end(accounts, 1, "1]", "0]"), []),
        "an entry of a state stands again": ("run", at_end(accounts, 1, "]]", f"],{first}]"), []),
        "the last input is none": ("run", at_end(inputs, 2, '"input_notify"', '"notify"'), []),
        "none of many cases takes an input": ("run", [*when[:2], compact(CHOICE)], []),
        "the second of many inputs is taken by none": ("run", inputs, []),
        "there is nothing to do": ("run", [*forms[:2], compact(NOTHING)], []),
        "the interval has a timeout in it": ("run", [*forms[:2], compact(transaction(0, 200, []))], []),
        "the deepest contract is none": ("run", [lets[0].replace('"close"', '"clos"'), *lets[1:]], deep),
        "the end lacks of the deepest": ("run", [lets[0][:-1], *lets[1:]], deep),
        "nothing takes an input at the deepest place": ("run", [lets[0], lets[1], compact(NOTIFY)], deep),
        "no table is so deep": ("table", lets, deep),
        "no table is so deep, with much beside the way": ("table", ifs(1100), deep),
        "a key isn't read": ("run", at_end([*pays[:2], compact(NOTHING)], 0, '"pay":', '"note":1,"pay":'), []),
        "a hundred keys at the beginning aren't read": ("run", ["{" + hundred[1:] + "," + forms[0][1:], forms[1], compact(NOTHING)], []),
        "a hundred keys at the end aren't read": ("run", at_end([*forms[:2], compact(NOTHING)], 0, "}", hundred + "}"), []),
    }


def asked(program, word, folder, flags):
    """The instructions, and the first line on standard error."""
    files = [os.path.join(folder, f"{it}.json") for it in (FILES if word == "run" else FILES[:1])]
    with tempfile.NamedTemporaryFile() as out:
        line = ["valgrind", "--tool=callgrind", f"--callgrind-out-file={out.name}", "-q", program, word, *files, *flags]
        run = subprocess.run(line, capture_output=True, check=False)
        total = re.search(rb"^(?:summary|totals): (\d+)", out.read(), re.M)
    if run.returncode not in (0, 1):
        sys.exit(f"{word} ended with status {run.returncode}: {run.stderr[-300:]}")
    return int(total[1]), run.stderr.decode().split("\n")[0]


def main():
    program, names = os.path.abspath(sys.argv[1] if len(sys.argv) > 1 else PROGRAM), sys.argv[2:]
    failed = False
    with tempfile.TemporaryDirectory() as folder:
        def counted(word, texts, flags):
            for name, text in zip(FILES, texts):
                with open(os.path.join(folder, f"{name}.json"), "w") as file:
                    file.write(text)
            return asked(program, word, folder, flags)

        # (a refusal of nearly nothing)
        started, _ = counted("run", ["0", "0", "0"], [])
        for name, (word, texts, flags) in texts_of().items():
            if names and name not in names:
                continue
            plain, line = counted(word, texts, flags)
            more, _ = counted(word, texts, [*flags, "--explain"])
            times = (more - started) / (plain - started)
            is_over = times > MOST_TIMES
            failed |= is_over
            told = f"{name}: {line or 'an answer'}: {plain - started} instructions, {times:.2f} times as many explained"
            print(told + (f", more than {MOST_TIMES}" if is_over else ""), flush=True)
    sys.exit(1 if failed else 0)


if __name__ == "__main__":
    main()
