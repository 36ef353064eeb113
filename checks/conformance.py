#!/usr/bin/env python3
"""Holds the suite of ../conformance against interpreter.py and readings.py, and sees that it is as docs/conformance.md says. The gate holds the program
against it, by the row program `rows_suite`; and so does this, by a program that answers requests line by line.

Needs    nothing built, but for the program.
Usage    conformance.py                       the cases against Python, and what the suite claims
         conformance.py --pairs COUNT         also whether each pair of rules that so many random runs of compare.py take is in the suite
         conformance.py --program PROGRAM ..  also this program, as `crates/marlowe/out/marlowe serve`
Expect   `N cases agree`, how many paths, rules and pairs they take, and status 0.
Else     a line for each fault, and status 1.
"""
import multiprocessing
import os
import re
import subprocess
import sys
from collections import Counter

HERE = os.path.dirname(os.path.abspath(__file__))
TOP = os.path.join(HERE, "..")
CONFORMANCE = os.path.join(TOP, "conformance")
sys.path[:0] = [CONFORMANCE, HERE]
import interpreter
import make
import reference
import rules
import suite

PATHS, OF_A_RULE, OF_A_FAULT = 6000, 10, 5
# How many cases a process takes at once.
CHUNK = 20
OF_RUNS = ("evaluation", "division", "intervals", "reductions", "warnings", "payments", "inputs", "bits")
FAULTS = ("NotJson", "TooLong", "NoObject", "NoRequest", "NoForm", "NotWhole", "OutOfRange", "BadHex", "Merkleized", "BadState")


class Counts:
    """What the cases take and are about."""

    def __init__(self):
        self.subjects = Counter()
        self.cases, self.paths, self.rules, self.taken, self.pairs, self.faults = 0, set(), Counter(), set(), set(), Counter()

    def put(self, case, path):
        self.subjects[case["subject"]] += 1
        self.cases += 1
        self.rules[case["rule"]] += 1
        self.paths.add(path)
        self.faults[case["answer"].get("refused", {}).get("name")] += 1
        if path[:1] != ("read",):
            self.taken |= set(path)
            self.pairs |= suite.pairs_of(path)


def faults_of_cases(cases, pool, counts):
    """Each case with another answer, or whose words aren't known."""
    names = set()
    for case, (told, path) in zip(cases, pool.imap(suite.told_by, [case["sent"] for case in cases], CHUNK)):
        name = f"{case['subject']}: {case['name']}"
        if suite.compact(told) != suite.compact({"id": case["id"], **case["answer"]}):
            yield f"{name}: the interpreter answers {suite.compact(told)[:300]}"
        if name in names:
            yield f"{name}: twice"
        if case["subject"] not in rules.SUBJECTS or case["rule"] not in rules.RULES or any(choice not in rules.CHOICES for choice in case["choices"]):
            yield f"{name}: no such subject, rule or choice"
        names.add(name)
        counts.put(case, path)


def faults_of_claims(counts):
    for name, text in suite.rows_of(counts.subjects).items():
        with open(os.path.join(suite.CRATE, name), encoding="utf-8") as file:
            if file.read() != text:
                yield f"crates/rows_suite/{name} isn't as conformance/make.py writes it"
    if len(counts.paths) < PATHS:
        yield f"{len(counts.paths)} paths in place of {PATHS}"
    for rule in rules.RULES:
        if counts.rules[rule] < OF_A_RULE and rule not in FAULTS:
            yield f"{rule}: {counts.rules[rule]} cases in place of {OF_A_RULE}"
    yield from (f"{fault}: {counts.faults[fault]} cases in place of {OF_A_FAULT}" for fault in FAULTS if counts.faults[fault] < OF_A_FAULT)
    for rule in sorted(named_rules()):
        if not any(taken.startswith(rule) for taken in counts.taken):
            yield f"{rule}: interpreter.py can take it, and no case does"
    known = {*rules.RULES, interpreter.WIDE, reference.NEXT}
    yield from (f"{rule}: taken, and not in rules.py" for rule in sorted({rule.split(":")[0] for rule in counts.taken} - known))


def named_rules():
    """The rules that interpreter.py names, with the ways in which they go."""
    with open(interpreter.__file__, encoding="utf-8") as file:
        names = re.findall(r'"([A-Za-z0-9 ]+(?::[^"{}]+)?)"', file.read())
    return {name for name in names if rules.RULES.get(name.split(":")[0], ("",))[0] in OF_RUNS}


def faults_of_lines(cases, pool):
    """The lines of the transaction function in interpreter.py that no case goes through."""
    functions = [part.__code__ for part in vars(interpreter.Transaction).values() if hasattr(part, "__code__")]
    functions += [interpreter.finished.__code__, interpreter.quotient.__code__]
    wanted = {line for code in functions for _, _, line in code.co_lines() if line and line != code.co_firstlineno}
    gone = set().union(*pool.imap(lines_of, [case["ask"] for case in cases if "ask" in case], CHUNK))
    yield from (f"interpreter.py, line {line}: no case goes through it" for line in sorted(wanted - gone))


def lines_of(ask):
    """The lines of interpreter.py that a request goes through."""
    gone = set()

    def note(frame, event, _):
        gone.add(frame.f_lineno)
        return note

    sys.settrace(lambda frame, event, _: note if frame.f_code.co_filename == interpreter.__file__ else None)
    try:
        reference.answered(ask, [])
    finally:
        sys.settrace(None)
    return gone


def faults_of_pages():
    """Words that rules.py quotes and the page hasn't."""
    quoted = [(name, page, quote) for name, (_, _, page, quote) in rules.RULES.items()] + [(name, page, quote) for name,
        (_, page, quote, _) in rules.CHOICES.items()]
    pages = {}
    for name, page, quote in quoted:
        if page not in pages:
            with open(os.path.join(TOP, page), encoding="utf-8") as file:
                pages[page] = " ".join(file.read().split())
        if " ".join(quote.split()) not in pages[page]:
            yield f"{name}: {page} hasn't the words \"{quote}\""


def faults_of_pairs(count, pool, counts):
    """Pairs of rules that random runs take, and no case. Those of the first 100,000 were put when it was made."""
    missing = Counter()
    for pairs in pool.imap(make.mixed_pairs, range(count), CHUNK):
        missing.update(pairs - counts.pairs)
    yield from (f"{first}, then {second}: in {times} of {count} random runs, and in no case" for (first, second), times in missing.most_common())


def held_by(program):
    return subprocess.run([sys.executable, os.path.join(CONFORMANCE, "run.py"), *program]).returncode


def main(words):
    counts, cases = Counts(), list(suite.load())
    with multiprocessing.Pool(make.PROCESSES) as pool:
        faults = [*faults_of_cases(cases, pool, counts), *faults_of_claims(counts), *faults_of_pages(), *faults_of_lines(cases, pool)]
        if words[:1] == ["--pairs"]:
            faults += faults_of_pairs(int(words[1]), pool, counts)
    for fault in faults:
        print(fault)
    word = "looked at" if faults else "agree"
    print(f"{counts.cases} cases {word}, {len(counts.paths)} paths, {len(counts.taken)} rules and ways, {len(counts.pairs)} pairs of them")
    status = int(bool(faults))
    return status or (held_by(words[1:]) if words[:1] == ["--program"] else 0)


if __name__ == "__main__":
    sys.exit(main(sys.argv[1:]))
