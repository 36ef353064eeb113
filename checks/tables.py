#!/usr/bin/env python3
"""Compiles contracts in plain Python, apart from the program, and compares the tables of the examples with that.

Needs    readings.py beside it, and nothing built. It is written from docs/tables.md and docs/formats.md, and shares no code with the program.
Usage    tables.py                 compares `table.txt` of each folder of crates/rows_commands/data/examples
         tables.py CONTRACT        prints what `marlowe table CONTRACT` has to print
Expect   `N tables as written`; or the lines of the table, or `refused contract FAULT` and status 1.
Else     the first folder whose table differs, and status 1.
"""
import json
import os
import sys

HERE = os.path.dirname(os.path.abspath(__file__))
sys.path.insert(0, HERE)
import readings

EXAMPLES = os.path.join(HERE, "..", "crates", "rows_commands", "data", "examples")
VALUES = [("amount_of_token", "in_account"), ("negate",), ("add", "and"), ("value", "minus"), ("multiply", "times"), ("divide", "by"), ("value_of_choice",),
          ("use_value",), ("if", "then", "else")]
OBSERVATIONS = [("both", "and"), ("either", "or"), ("not",), ("chose_something_for",), ("value", "ge_than"), ("value", "gt"), ("value", "lt"),
                ("value", "le_than"), ("value", "equal_to")]


def told(json_value):
    """A term as compact JSON, the keys in the order of their bytes."""
    return json.dumps(json_value, separators=(",", ":"), sort_keys=True, ensure_ascii=False)


def form_of(term, forms):
    """The keys of the first form that are all there."""
    return next(keys for keys in forms if all(key in term for key in keys))


class Table:
    """Four lists of lines, in which no line stands twice."""

    def __init__(self):
        self.lists = {kind: {} for kind in "vock"}

    def put(self, kind, line):
        known = self.lists[kind]
        return f"{kind}{known.setdefault(line, len(known))}"

    def value(self, value):
        if isinstance(value, int):
            return self.put("v", f"constant {value}")
        if isinstance(value, str):
            return self.put("v", value)
        keys = form_of(value, VALUES)
        if keys[0] == "amount_of_token":
            return self.put("v", f"amount_of_token {told(value['amount_of_token'])} {told(value['in_account'])}")
        if keys[0] in ("value_of_choice", "use_value"):
            return self.put("v", f"{keys[0]} {told(value[keys[0]])}")
        parts = [(self.observation if key == "if" else self.value)(value[key]) for key in keys]
        return self.put("v", " ".join(["minus" if keys[0] == "value" else keys[0], *parts]))

    def observation(self, observation):
        if isinstance(observation, bool):
            return self.put("o", told(observation))
        keys = form_of(observation, OBSERVATIONS)
        if keys[0] == "chose_something_for":
            return self.put("o", f"chose_something_for {told(observation['chose_something_for'])}")
        if keys[0] == "value":
            return self.put("o", " ".join([keys[1], *(self.value(observation[key]) for key in keys)]))
        return self.put("o", " ".join([keys[0], *(self.observation(observation[key]) for key in keys)]))

    def case(self, case):
        action = case["case"]
        if "deposits" in action:
            value = self.value(action["deposits"])
            head = f"deposit {told(action['into_account'])} {told(action['party'])} {told(action['of_token'])} {value}"
        elif "for_choice" in action:
            head = f"choice {told(action['for_choice'])} {told(action['choose_between'])}"
        else:
            head = f"notify {self.observation(action['notify_if'])}"
        return self.put("c", f"{head} {self.contract(case['then'])}")

    def contract(self, contract):
        if contract == "close":
            return self.put("k", "close")
        if "pay" in contract:
            value, after = self.value(contract["pay"]), self.contract(contract["then"])
            return self.put("k", f"pay {value} {told(contract['token'])} {told(contract['from_account'])} {told(contract['to'])} {after}")
        if "if" in contract:
            return self.put("k", " ".join(["if", self.observation(contract["if"]), self.contract(contract["then"]), self.contract(contract["else"])]))
        if "when" in contract:
            cases = [self.case(case) for case in contract["when"]]
            return self.put("k", f"when [{','.join(cases)}] {contract['timeout']} {self.contract(contract['timeout_continuation'])}")
        if "let" in contract:
            return self.put("k", f"let {told(contract['let'])} {self.value(contract['be'])} {self.contract(contract['then'])}")
        return self.put("k", f"assert {self.observation(contract['assert'])} {self.contract(contract['then'])}")


def lines(text):
    """The lines of the table of a contract's text, or the one that tells why there is none. No text has more nodes than a table may have."""
    try:
        contract = readings.contract(readings.parsed(text))
    except readings.Fault as fault:
        return [f"refused contract {fault}"]
    table = Table()
    root = table.contract(contract)
    return [f"{kind}{place} {line}" for kind, known in table.lists.items() for line, place in known.items()] + [f"root {root}"]


def read(path):
    with open(path, "rb") as file:
        return file.read()


def main(words):
    sys.setrecursionlimit(10_000)
    if words:
        printed = lines(read(words[0]))
        print("\n".join(printed))
        sys.exit(int(printed[0].startswith("refused ")))
    names = sorted(os.listdir(EXAMPLES))
    for name in names:
        folder = os.path.join(EXAMPLES, name)
        if lines(read(os.path.join(folder, "contract.json"))) != read(os.path.join(folder, "table.txt")).decode().splitlines():
            sys.exit(f"{name}: another table")
    print(len(names), "tables as written")


if __name__ == "__main__":
    main(sys.argv[1:])
