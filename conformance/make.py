#!/usr/bin/env python3
"""Makes the suite's cases: those written by hand, whose answers must be the interpreter's, and random ones until each subject has its number.

Usage    make.py             writes crates/rows_suite/data/SUBJECT.jsonl, and the arguments of the row program `rows_suite` and what it prints
         make.py --check     sees that the files are as it would write them
Needs    nothing built; some minutes.
Expect   a line for each subject: its cases, how many of them are by hand, how many paths are new, and the bytes.
Else     a case by hand that the interpreter answers otherwise, or files that differ, and status 1.

A random case is kept where its path is new: the rules that it takes, in their order, or of a text the lines of readings.py. Where a subject has its
number, runs of checks/compare.py are added as long as they bring two rules one after the other that no case has yet. At last the longest are left out.
"""
import importlib
import json
import multiprocessing
import os
import sys
from collections import Counter

import random_cases
import reference
import rules
import shrink
import suite

BY_HAND = ("evaluation", "division", "intervals", "reductions", "warned_of", "payments", "inputs", "bits", "long", "readings", "faults",
    "round_trips", "streams", "rows")
# How many random cases a subject has, and the most bytes that one takes in its file.
QUOTAS = {"evaluation": (860, 700), "division": (420, 700), "intervals": (440, 800), "reductions": (640, 1100), "warnings": (480, 1300),
          "payments": (640, 1500), "inputs": (640, 1300), "bits": (560, 1100), "traces": (420, 2400), "gallery": (40, 7000), "warned": (220, 1900),
          "faults": (420, 600),
          "round_trips": (320, 1400), "readings": (260, 900)}
# How many paths stay once the longest random cases are left out, the least part of a subject that stays, and of a rule.
PATHS, PART, OF_A_RULE = 6_400, 0.6, 12
# How many runs of compare.py are looked through for new pairs, in how many tries one is made smaller, and the most bytes of one.
MIXED, SHRINKS, LARGEST_MIXED = 100_000, 600, 5000
TRIES = 40
# How many processes work, and how many cases are made at once. They make no difference to what is made.
PROCESSES, BLOCK = 8, 160
NUMBERS_OF = {"BadState": "states", "NotWhole": "whole numbers", "OutOfRange": "times", "Merkleized": "merkleized"}


# ---- on which choices of ours a case rests

def outcomes(answer):
    told = answer.get("ok")
    return told if isinstance(told, list) else [told] if isinstance(told, dict) and "payments" in told else []


def has_order(state):
    return any(len(state[key]) > 1 for key in suite.ROWS)


def has_digits(data):
    if isinstance(data, dict):
        return any(has_digits(part) for part in data.values())
    if isinstance(data, list):
        return any(has_digits(part) for part in data)
    return isinstance(data, str) and len(data) > 18 and data.removeprefix("-").isdecimal()


def choices_of(case, path):
    """The choices that the answer of a case shows by itself."""
    refused, found = case["answer"].get("refused", {}), set()
    if any(rule.startswith("Leaves128") for rule in map(str, path)):
        found.add("128 bits")
    if refused.get("name") in NUMBERS_OF:
        found.add(NUMBERS_OF[refused["name"]])
    if "pay to an account:itself" in path:
        found.add("paying account first")
    told = case["answer"].get("ok")
    if isinstance(told, dict) and all(key in told for key in suite.ROWS) and has_order(told):
        found.add("orders")
    for outcome in outcomes(case["answer"]):
        found |= choices_of_outcome(outcome)
    return found


def choices_of_outcome(outcome):
    found, refunds = set(), [payment for payment in outcome["payments"] if payment["to"] == {"party": payment["payment_from"]}]
    if has_order(outcome["state"]) or len(refunds) > 1:
        found.add("orders")
    if any("account" in payment["to"] or payment["amount"] == 0 for payment in outcome["payments"]):
        found.add("records")
    if any(warning["warning"] == "Shadowing" and warning["old"] == warning["new"] for warning in outcome["warnings"]):
        found.add("shadowing")
    if has_digits({key: outcome[key] for key in ("payments", "state", "warnings")}):
        found.add("texts of digits")
    return found


# ---- the rule that a random case is for

def rules_of(path, case):
    """The rules that a path shows, those named in it and those that its order shows."""
    names = {str(rule).split(":")[0] for rule in path} & set(rules.RULES)
    marks, answers = Counter(path), outcomes(case["answer"])
    shown = {"record of 0": "pay in part:nothing" in marks, "pay to itself": "pay to an account:itself" in marks,
        "name bound again": "let:again" in marks,
             "assertion fails": "assert:false" in marks,
                 "order of accounts": marks["refund"] > 1 or any(len(each["state"]["accounts"]) > 1 for each in answers),
             "order of payments": any(len(each["payments"]) > 1 for each in answers),
                 "order of warnings": any(len(each["warnings"]) > 1 for each in answers),
             "order of choices": any(len(each["state"]["choices"]) > 1 for each in answers),
                 "digits": reference.interpreter.WIDE in marks and bool(answers),
             "fits": reference.interpreter.WIDE in marks and bool(answers),
                 "signs of a quotient": any(mark.startswith("quotient:") and "above" not in mark for mark in map(str, marks))}
    return names | {name for name, is_shown in shown.items() if is_shown}


OF_TEXTS = {"round_trips": "canonical", "readings": "first form"}
RULES_OF_SORTS = {"contract": "contract", "state": "state", "transaction": "input", "input": "input"}


def rule_for(subject, case, path, counts):
    """The rule of the subject that fewest random cases have so far, of those that a case shows."""
    if subject in ("traces", "gallery"):
        return "stops" if "refused" in case["answer"] else "goes on"
    if subject == "warned":
        return "run to " + outcomes(case["answer"])[-1]["warnings"][0]["warning"]
    if suite.is_unread(case["answer"]):
        return case["answer"]["refused"]["name"]
    if subject == "faults":
        return RULES_OF_SORTS[next(iter(case["ask"]["read"]))]
    if subject in OF_TEXTS:
        return "rows in order" if subject == "round_trips" and "state" in case["ask"]["read"] else OF_TEXTS[subject]
    shown = rules_of(path, case)
    own = [name for name in shown if rules.RULES[name][0] == subject] or list(shown)
    return min(sorted(own), key=lambda name: counts[name])


# ---- the whole

class Suite:
    """The cases so far, with their paths and pairs."""

    def __init__(self):
        self.cases, self.paths, self.pairs, self.counts, self.names = {subject: [] for subject in rules.SUBJECTS}, set(), set(), Counter(), set()
        self.new, self.path_of, self.hand, self.random_counts = Counter(), {}, set(), Counter()

    def put(self, case, path):
        name = (case["subject"], case["name"])
        if name in self.names:
            sys.exit(f"{name}: twice")
        self.names.add(name)
        case["choices"] = sorted(set(case["choices"]) | choices_of(case, path))
        self.cases[case["subject"]].append(case)
        self.path_of[name] = path
        self.new[case["subject"]] += path not in self.paths
        self.paths.add(path)
        self.pairs |= suite.pairs_of(path)
        self.counts[case["rule"]] += 1

    def by_hand(self):
        for module in BY_HAND:
            for case in importlib.import_module("by_hand." + module).CASES:
                line, given = suite.line_of(case)
                told, path = suite.told_by(line)
                if suite.compact(told) != suite.compact({"id": given, **case["answer"]}):
                    sys.exit(f"{case['subject']}: {case['name']}\nby hand {suite.compact(case['answer'])}\nhere    {suite.compact(told)}")
                if case["subject"] is None:
                    case["subject"], case["rule"] = self.place_of(case, path)
                self.put(case, path)
                self.hand.add((case["subject"], case["name"]))

    def place_of(self, case, path):
        """The subject and the rule of a case that is made of a row: those that its path shows."""
        asked = json.loads("{" + case["text"] + "}")
        subject = "traces" if "trace" in asked else None
        rule = rule_for(subject, {**case, "ask": asked}, path, self.counts)
        return subject_for(subject, {**case, "rule": rule, "ask": asked}, path) or rules.RULES[rule][0], rule

    def random(self, subject, seed, made, largest):
        """Puts a random case, where it is short and its path new."""
        ask, told, path = made
        if ask is None:
            return False
        case = {"subject": subject, "name": f"random {seed}", "rule": "", "choices": [], "ask": ask, "answer": told}
        if len(suite.written(case)) > largest or path in self.paths or not fits(subject, case, path):
            return False
        case["rule"] = rule_for(subject, case, path, self.random_counts)
        self.random_counts[case["rule"]] += 1
        case["subject"] = subject_for(subject, case, path)
        case["name"] = f"{case['rule']}, {subject} {seed}"
        self.put(case, path)
        return True

    def fill(self, subject, pool):
        count, largest = QUOTAS[subject]
        seed = found = 0
        while found < count and seed < count * TRIES:
            for made in pool.starmap(made_of, [(subject, seed + more) for more in range(BLOCK)], BLOCK // 16):
                found += found < count and self.random(subject, seed, made, largest)
                seed += 1

    def mixed(self, pool):
        """Puts a case for each pair of rules that no case has yet, made smaller as long as it has that pair."""
        first = {}
        for seed, pairs in enumerate(pool.imap(mixed_pairs, range(MIXED), BLOCK)):
            for pair in pairs - self.pairs:
                first.setdefault(pair, seed)
        jobs = sorted((seed, pair) for pair, seed in first.items())
        for (seed, pair), made in zip(jobs, pool.imap(mixed_with, jobs)):
            if pair not in self.pairs:
                self.random("mixed", f"{seed} with {pair[0]}, {pair[1]}", made, LARGEST_MIXED)

    def slim(self):
        """Leaves out the longest random cases, but for those that alone have a pair of rules, and such as their subject or rule has too few of."""
        pairs = Counter(pair for path in self.path_of.values() for pair in suite.pairs_of(path))
        least = {subject: int(len(cases) * PART) for subject, cases in self.cases.items()}
        random = [case for cases in self.cases.values() for case in cases if (case["subject"], case["name"]) not in self.hand]
        for case in sorted(random, key=lambda case: (-len(suite.written(case)), case["subject"], case["name"])):
            subject = case["subject"]
            own = suite.pairs_of(self.path_of[subject, case["name"]])
            if sum(self.new.values()) <= PATHS:
                break
            if len(self.cases[subject]) > least[subject] and self.counts[case["rule"]] > OF_A_RULE and all(pairs[pair] > 1 for pair in own):
                self.cases[subject].remove(case)
                self.new[subject] -= 1
                self.counts[case["rule"]] -= 1
                pairs.subtract(own)


def made_of(subject, seed):
    """What a random case asks, its answer and its path."""
    ask = random_cases.asked(subject, seed)
    return (None, None, None) if ask is None else (ask, *answer_and_path(subject, ask))


def mixed_pairs(seed):
    return suite.pairs_of(taken_by(random_cases.asked("mixed", seed)))


def mixed_with(job):
    """The same of a run of compare.py that has a pair of rules, made smaller."""
    seed, pair = job
    less, _ = shrink.shrunk(random_cases.asked("mixed", seed), lambda less: pair in suite.pairs_of(taken_by(less)), SHRINKS)
    return less, *answer_and_path("mixed", less)


def answer_and_path(subject, ask):
    """The answer of a request without its id, and its path. Texts that may not be read go through the line."""
    taken = []
    told = reference.answered(ask, taken) if subject not in ("faults", "readings", "round_trips") else {}
    if not taken:
        told, taken = suite.told_by(suite.line_of({"ask": ask})[0])
        del told["id"]
    return told, tuple(taken)


def taken_by(ask):
    """The rules that a request takes whose texts can be read."""
    taken = []
    reference.answered(ask, taken)
    return taken


def fits(subject, case, path):
    """Whether a case is of use to the subject that it was made for."""
    if subject == "bits":
        return is_large(path)
    return subject != "faults" or "read" in case["ask"] or suite.is_unread(case["answer"])


def is_large(path):
    return any(rule == reference.interpreter.WIDE or str(rule).startswith("Leaves128") for rule in path)


def subject_for(subject, case, path):
    """The subject of a random case: what reads otherwise than it was meant to is a fault, and numbers that are large stand apart."""
    if suite.is_unread(case["answer"]):
        return "faults"
    if subject == "faults":
        return "readings"
    if is_large(path) and "run" in case["ask"]:
        return "bits"
    return rules.RULES[case["rule"]][0] if subject == "mixed" else "traces" if subject == "gallery" else subject


def made():
    found = Suite()
    found.by_hand()
    hand = {subject: len(cases) for subject, cases in found.cases.items()}
    with multiprocessing.Pool(PROCESSES) as pool:
        for subject in QUOTAS:
            found.fill(subject, pool)
            print(f"{subject} filled", file=sys.stderr, flush=True)
        found.mixed(pool)
    found.slim()
    return found, hand


def kept(name):
    with open(os.path.join(suite.CRATE, name), encoding="utf-8", newline="\n") as file:
        return file.read()


def text_of(cases):
    lines = [suite.written(case, number) for number, case in enumerate(cases, 1)]
    if any(line.count("\t") != 4 for line in lines):
        sys.exit("a tab stands inside a case")
    return "".join(line + "\n" for line in lines)


def main():
    found, hand = made()
    texts = {}
    for subject, cases in found.cases.items():
        text = texts[os.path.join("data", subject + ".jsonl")] = text_of(cases)
        print(f"{subject:12} {len(cases):5} cases, {hand[subject]:4} by hand, {found.new[subject]:5} paths, {len(text.encode()):8} bytes")
    texts.update(suite.rows_of({subject: len(cases) for subject, cases in found.cases.items()}))
    differ = [] if sys.argv[1:] != ["--check"] else [name for name, text in texts.items() if kept(name) != text]
    if sys.argv[1:] != ["--check"]:
        for name, text in texts.items():
            with open(os.path.join(suite.CRATE, name), "w", encoding="utf-8", newline="\n") as file:
                file.write(text)
    total = sum(map(len, found.cases.values()))
    print(f"{total} cases, {sum(hand.values())} by hand, {sum(found.new.values())} paths, {len(found.pairs)} pairs of rules")
    if differ:
        sys.exit("files differ: " + ", ".join(differ))


if __name__ == "__main__":
    main()
