#!/usr/bin/env python3
"""Asks each command of the deepest texts of each sort, and tells how much memory each answer took, which is more than it took of stack.

A text of each sort nests as deep as is asked: operations on values and observations, on either side, and each form of contract that has another one
inside. It is as long as a text may be, at most. What is answered isn't compared, only that the program reads the text and answers: status 0, 1, 3 or 4, and
no signal. With --explain a text is also refused for its deepest part, which is told. Commands run in a thread with a stack of its own, so that of
the process may be small. Memory below that of this script isn't seen: the system counts it as the program's.

Needs    a program `marlowe`: (cd crates/marlowe && rt run -- --version), or one that tools/marlowe compiled without proofs, which takes about twice as
         much stack
Usage    checks/depth.py [PROGRAM] [--levels N] [--stack KIB] [--sort NAME]
         N is 4,000, and the stack of the process KIB, 8,192; with --sort one sort alone
Expect   a line for each sort and command, with the status, the seconds and the most memory that it had, then `all answered` and status 0; a few minutes
Else     what is wrong behind each that ended by a signal, or whose text was read, or refused, where it shouldn't be; then status 1
"""
import argparse
import os
import re
import resource
import subprocess
import sys
import tempfile
import time

TOP = os.path.join(os.path.dirname(os.path.abspath(__file__)), "..")
ADA = '{"currency_symbol":"","token_name":""}'
A = '{"role_token":"a"}'
LONGEST = 1_048_576
PAY = f'{{"pay":1,"token":{ADA},"from_account":{A},"to":{{"%s":{A}}},"then":'
END = '}],"timeout":100,"timeout_continuation":"close"}'
DEPOSIT = f'{{"input_from_party":{A},"that_deposits":1,"of_token":{ADA},"into_account":{A}}}'
CHOICE = f'{{"for_choice_id":{{"choice_name":"x","choice_owner":{A}}},"input_that_chooses_num":1}}'
CHOOSES = f'{{"for_choice":{{"choice_name":"x","choice_owner":{A}}},"choose_between":[{{"from":0,"to":1}}]}}'
DEPOSITS = f'{{"party":{A},"deposits":1,"of_token":{ADA},"into_account":{A}}}'

# The line of a text that isn't read.
UNREAD = re.compile(rb"refused (?:contract|state|transaction|scenario) (?:NotJson|TooLong|NoForm|NotWhole|OutOfRange|BadHex|BadState|Merkleized)\n")

# the name, what stands before all levels, what opens a level, what is inside, what closes a level, what stands behind all, the input of a level
SORTS = [
    ("not", '{"assert":', '{"not":', "true", "}", ',"then":"close"}', None),
    ("both, the first", '{"assert":', '{"both":', "true", ',"and":true}', ',"then":"close"}', None),
    ("either, the second", '{"assert":', '{"either":false,"or":', "true", "}", ',"then":"close"}', None),
    ("add, the first", '{"let":"x","be":', '{"add":', "1", ',"and":1}', ',"then":"close"}', None),
    ("add, the second", '{"let":"x","be":', '{"add":1,"and":', "1", "}", ',"then":"close"}', None),
    ("negate", '{"let":"x","be":', '{"negate":', "1", "}", ',"then":"close"}', None),
    ("divide", '{"let":"x","be":', '{"divide":', "1", ',"by":1}', ',"then":"close"}', None),
    ("if, of values", '{"let":"x","be":', '{"if":true,"then":', "1", ',"else":2}', ',"then":"close"}', None),
    ("pay to an account", "", PAY % "account", '"close"', "}", "", None),
    ("pay to a party", "", PAY % "party", '"close"', "}", "", None),
    ("let", "", '{"let":"x","be":1,"then":', '"close"', "}", "", None),
    ("assert", "", '{"assert":true,"then":', '"close"', "}", "", None),
    ("if, then", "", '{"if":true,"then":', '"close"', ',"else":"close"}', "", None),
    ("if, else", "", '{"if":false,"then":"close","else":', '"close"', "}", "", None),
    ("when, after its timeout", "", '{"when":[],"timeout":1,"timeout_continuation":', '"close"', "}", "", None),
    ("when, before its timeout", "", '{"when":[],"timeout":100,"timeout_continuation":', '"close"', "}", "", None),
    ("when, a notify", "", '{"when":[{"case":{"notify_if":true},"then":', '"close"', END, "", '"input_notify"'),
    ("when, a deposit", "", f'{{"when":[{{"case":{DEPOSITS},"then":', '"close"', END, "", DEPOSIT),
    ("when, a choice", "", f'{{"when":[{{"case":{CHOOSES},"then":', '"close"', END, "", CHOICE),
]


def depth(text):
    """How deep lists and objects of a text nest; no text of this script has a bracket in a string."""
    level = deepest = 0
    for letter in text:
        if letter in "[{":
            level += 1
            deepest = max(deepest, level)
        elif letter in "]}":
            level -= 1
    return deepest


def nested(sort, times, inside=None):
    """The text of a sort that nests so often, with another part inside if one is given."""
    _, before, opens, own, closes, behind, _ = sort
    return before + opens * times + (inside or own) + closes * times + behind


def deepest(sort, levels):
    """How often the deepest text of a sort nests."""
    least, each = depth(nested(sort, 1)), depth(nested(sort, 2)) - depth(nested(sort, 1))
    long = len(nested(sort, 1)) - len(nested(sort, 0))
    return min(1 + (levels - least) // each, (LONGEST - 1000 - len(nested(sort, 0))) // long)


def scenario(contract):
    return (
        f'{{"tick":0,"genesis":[{{"address":"bank","amount":[[{ADA},9000]]}}],"contracts":[{{"name":"c","currency":"c0","contract":{contract}}}],'
        f'"threads":[{{"name":"d","contract":"c","by":"bank","accounts":[[[{A},{ADA}],5000]],"minTime":0}}],"plans":[{{"name":"p","keys":["bank"],'
        '"change":"bank","intents":[{"step":"d","from":2,"to":9,"inputs":[]}]}]}'
    )


def command_lines(folder, sort, levels):
    """Writes the files of a sort, and gives its command lines, each with whether all its texts are read."""
    times = deepest(sort, levels)
    inputs = ",".join([sort[-1]] * min(times, 256)) if sort[-1] else ""
    files = {
        "contract.json": nested(sort, times),
        "unread.json": nested(sort, times, '"none"'),
        "state.json": f'{{"accounts":[[[{A},{ADA}],5000]],"choices":[],"boundValues":[],"minTime":0}}',
        "transaction.json": f'{{"tx_interval":{{"from":2,"to":9}},"tx_inputs":[{inputs}]}}',
        "scenario.json": scenario(nested(sort, deepest(sort, levels - 3))),
    }
    for name, content in files.items():
        with open(os.path.join(folder, name), "w") as file:
            file.write(content)
    return [
        (["run", "contract.json", "state.json", "transaction.json", "--explain"], True),
        (["run", "unread.json", "state.json", "transaction.json", "--explain"], False),
        (["trace", "contract.json", "transaction.json", "--state", "state.json", "--explain"], True),
        (["next", "contract.json", "state.json", "--from", "2", "--explain"], True),
        (["table", "contract.json", "--explain"], True),
        (["table", "unread.json", "--explain"], False),
        (["analyse", "contract.json", "state.json"], True),
        (["analyse", "contract.json", "state.json", "--json"], True),
        (["play", "scenario.json", "--one"], True),
        (["play", "scenario.json", "--explain"], True),
    ]


def answer(program, words, folder, kib):
    """The status, below 0 for a signal, the seconds, the most memory in KiB, and the first line on standard error."""
    begun = time.time()
    with tempfile.TemporaryFile() as errors:
        started = subprocess.Popen(
            [program] + words,
            cwd=folder,
            stdin=subprocess.DEVNULL,
            stdout=subprocess.DEVNULL,
            stderr=errors,
            preexec_fn=lambda: resource.setrlimit(resource.RLIMIT_STACK, (kib * 1024, kib * 1024)),
        )
        _, status, used = os.wait4(started.pid, 0)
        seconds = time.time() - begun
        errors.seek(0)
        return os.waitstatus_to_exitcode(status), seconds, used.ru_maxrss, errors.readline()


def fault_of(status, line, is_read):
    """What is wrong with an answer, or None."""
    if status not in (0, 1, 3, 4):
        return "no answer"
    if is_read == bool(UNREAD.fullmatch(line)):
        return line.decode().strip() or "its text is read"
    return None


def main():
    parser = argparse.ArgumentParser(description=__doc__, formatter_class=argparse.RawDescriptionHelpFormatter)
    parser.add_argument("program", nargs="?", default=os.path.join(TOP, "crates/marlowe/out/marlowe"))
    parser.add_argument("--levels", type=int, default=4000)
    parser.add_argument("--stack", type=int, default=8192)
    parser.add_argument("--sort")
    asked = parser.parse_args()
    program, faults = os.path.abspath(asked.program), 0
    with tempfile.TemporaryDirectory() as folder:
        for sort in SORTS:
            if asked.sort not in (None, sort[0]):
                continue
            for words, is_read in command_lines(folder, sort, asked.levels):
                status, seconds, kib, line = answer(program, words + ["--depth", str(asked.levels)], folder, asked.stack)
                fault = fault_of(status, line, is_read)
                faults += fault is not None
                print(f"{sort[0]}: {' '.join(words[:2])}: status {status}, {seconds:.2f} s, {kib} KiB" + (f", {fault}" if fault else ""), flush=True)
    print("all answered" if faults == 0 else f"{faults} at fault")
    return 1 if faults else 0


if __name__ == "__main__":
    sys.exit(main())
