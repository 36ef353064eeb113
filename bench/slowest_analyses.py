#!/usr/bin/env python3
"""Looks at random for the contracts that hold `marlowe analyse` longest for their length, and prints what the slowest take of what a text of that length may take.

Needs    (cd crates/marlowe && rt run -- --version), another program may be named; valgrind
Usage    slowest_analyses.py [--seconds N] [--workers N] [--seed N] [--keep N] [--longest BYTES] [--program FILE] [--into FOLDER]
         for N seconds (60) with so many workers (1), each a process; of the slowest so many (1,000) are measured at the end, each as valgrind counts its instructions;
         texts have at most so many bytes (8,192); --into writes the ten slowest into a folder
Expect   the number of texts, the ten slowest with their bytes, instructions and share of the line of docs/DECISIONS.md, and `N texts, none over the line`
Else     the texts over the line in the folder, or in one that is named; then status 1
Mind     while it looks it goes by processor time, which wavers; only what it keeps is measured by instructions, at fifty times the time.

The first texts are the short ones of all families of analysis_growth.py and the contracts of the rows of analyses. A worker changes one of its slowest by one to four
changes: a number, a part doubled beside itself, wrapped in a choice, a Let, an Assert or an If, exchanged for a part of another text of the same sort, or left out.
Where the new text is slower for its length than the fastest of what is kept, it takes its place.
"""
import argparse
import copy
import glob
import json
import multiprocessing
import os
import random
import signal
import subprocess
import sys
import tempfile
import time

from analysis_growth import FAMILIES, SECOND, choice, chooses, chosen, holds, instructions, most_instructions, text_of
from growth import PROGRAM

HERE = os.path.dirname(os.path.abspath(__file__))
ROWS = os.path.join(HERE, "..", "crates", "rows_*", "data", "**", "*.txt")
# The seconds after which a text is given up.
LONGEST_SECONDS = 20
COMPARISONS = ("ge_than", "gt", "lt", "le_than", "equal_to")
NUMBERS = [0, 1, 2, 3, 5, 7, 10, 99, 100, 1000, 10**6, 2**31, 2**62, 2**63 - 1, -1, -2, -7, -100, -(10**6), -(2**62)]


def sort_of(part):
    """What stands at a place, so that another of the same sort can: a contract, a value or number, an observation, a case, bounds."""
    if part == "close" or isinstance(part, dict) and any(it in part for it in ("pay", "when", "let", "assert", "timeout")):
        return "contract"
    if isinstance(part, bool) or isinstance(part, dict) and any(it in part for it in ("both", "either", "not", "chose_something_for", *COMPARISONS)):
        return "observation"
    if isinstance(part, dict) and "if" in part:
        return "contract" if sort_of(part.get("then")) == "contract" else "value"
    if isinstance(part, dict) and "case" in part:
        return "case"
    if isinstance(part, dict) and set(part) == {"from", "to"}:
        return "bounds"
    if isinstance(part, int) or isinstance(part, dict) and any(it in part for it in ("add", "subtract", "multiply", "divide", "negate", "value_of_choice", "use_value", "amount_of_token")):
        return "value"
    return None


def places(tree):
    """Each list or object with a key or an index: where a part stands."""
    found, left = [], [tree]
    while left:
        part = left.pop()
        keys = part.keys() if isinstance(part, dict) else range(len(part)) if isinstance(part, list) else ()
        for key in keys:
            found.append((part, key))
            left.append(part[key])
    return found


def wrapped(chance, part):
    """A part in another form of its sort."""
    i = chance.randrange(4)
    if sort_of(part) == "contract":
        return chance.choice([
            chooses(i, part, chance.choice(NUMBERS), chance.choice(NUMBERS)),
            {"let": f"y{i}", "be": {"multiply": chosen(i), "times": chosen(chance.randrange(4))}, "then": part},
            holds({"not": {"value": {"use_value": f"y{i}"}, "equal_to": chance.choice(NUMBERS)}}, part),
            {"if": {"value": chosen(i), "gt": chance.choice(NUMBERS)}, "then": part, "else": copy.deepcopy(part)},
        ])
    if sort_of(part) == "value":
        word, other = chance.choice([("add", "and"), ("multiply", "times"), ("divide", "by")])
        return {word: part, other: chance.choice([chosen(i), copy.deepcopy(part), chance.choice(NUMBERS)])}
    if sort_of(part) == "observation":
        return chance.choice([{"not": part}, {"both": part, "and": {"value": chosen(i), chance.choice(COMPARISONS): chance.choice(NUMBERS)}},
                              {"either": part, "or": {"chose_something_for": choice(i)}}])
    return part


def changed(chance, tree, others):
    tree = copy.deepcopy({"contract": tree})
    for _ in range(chance.randint(1, 4)):
        of = places(tree)
        under, key = chance.choice(of)
        part, what = under[key], chance.randrange(6)
        if what == 0 or isinstance(part, int) and not isinstance(part, bool) and what < 3:
            if isinstance(part, int) and not isinstance(part, bool):
                under[key] = chance.choice([chance.choice(NUMBERS), part + 1, part - 1, 2 * part, 3 * part + 1])
        elif what == 1 and isinstance(under, list):
            for _ in range(chance.choice([1, 1, 2, 5, 20])):
                under.insert(key, copy.deepcopy(part))
        elif what == 2 and isinstance(under, list) and len(under) > 1:
            del under[key]
        elif what == 3:
            under[key] = wrapped(chance, part)
        elif what == 4 and sort_of(part):
            same = [it[at] for it, at in places({"contract": chance.choice(others)}) if sort_of(it[at]) == sort_of(part)]
            if same:
                under[key] = copy.deepcopy(chance.choice(same))
        elif what == 5 and isinstance(part, dict) and sort_of(part):
            inner = [it[at] for it, at in places(part) if sort_of(it[at]) == sort_of(part)]
            if inner:
                under[key] = copy.deepcopy(chance.choice(inner))
    return tree["contract"]


def first_texts(longest):
    """The texts with which it begins: of each family the longest of a few lengths, and the contracts of rows."""
    for make in FAMILIES:
        for size in (1 << 10, 2 << 10, 4 << 10, longest):
            parts = 1
            while len(text_of(make, parts + 1)) <= size:
                parts += max(1, parts // 8)
            if len(text_of(make, parts)) <= longest:
                yield text_of(make, parts)
    for path in glob.glob(ROWS, recursive=True):
        with open(path, encoding="utf-8") as file:
            for line in file:
                word, _, text = line.strip().partition(" ")
                if word == "contract" and text.startswith("{") and "$" not in text and len(text) <= longest:
                    yield text


def seconds_of(program, path):
    """Processor seconds of an analysis, or None where the text is refused."""
    with open(os.devnull, "w") as nothing:
        child = subprocess.Popen([program, "analyse", path], stdout=nothing, stderr=nothing)
        signal.alarm(LONGEST_SECONDS)
        try:
            _, status, used = os.wait4(child.pid, 0)
        except TimeoutError:
            child.kill()
            os.wait4(child.pid, 0)
            return float(LONGEST_SECONDS)
        finally:
            signal.alarm(0)
    child.returncode = os.waitstatus_to_exitcode(status)
    return used.ru_utime + used.ru_stime if child.returncode in (0, 3) else None


def given_up(*_):
    raise TimeoutError


def worker(asked):
    """The slowest texts that one worker found, each with its seconds by what a text of its length may take, and how many it looked at."""
    options, number = asked
    chance, end, looked = random.Random(f"{options.seed}.{number}"), time.time() + options.seconds, 0
    signal.signal(signal.SIGALRM, given_up)
    kept = {}
    with tempfile.TemporaryDirectory() as folder:
        path = os.path.join(folder, "contract.json")

        def look(text):
            nonlocal looked
            with open(path, "w", encoding="utf-8") as file:
                file.write(text)
            seconds, looked = seconds_of(options.program, path), looked + 1
            if seconds is None:
                return
            kept[text] = seconds * SECOND / most_instructions(len(text))
            if len(kept) > options.keep:
                del kept[min(kept, key=kept.get)]

        for text in sorted(set(first_texts(options.longest)), key=len)[number::options.workers]:
            look(text)
        while time.time() < end:
            best = sorted(kept, key=kept.get, reverse=True)
            one = best[min(int(chance.expovariate(1 / 40)), len(best) - 1)]
            text = json.dumps(changed(chance, json.loads(one), [json.loads(chance.choice(best)) for _ in range(3)]), separators=(",", ":"))
            if len(text) <= options.longest and text not in kept:
                look(text)
    return looked, kept


def measured(asked):
    program, text = asked
    with tempfile.NamedTemporaryFile("w", suffix=".json") as file:
        file.write(text)
        file.flush()
        return text, instructions(program, "analyse", file.name)


def main():
    parser = argparse.ArgumentParser(usage=__doc__)
    for name, kind, value in (("seconds", int, 60), ("workers", int, 1), ("seed", int, 1), ("keep", int, 1000), ("longest", int, 8192), ("program", str, PROGRAM), ("into", str, None)):
        parser.add_argument(f"--{name}", type=kind, default=value)
    options = parser.parse_args()
    options.program = os.path.abspath(options.program)
    with multiprocessing.Pool(options.workers) as pool:
        found = pool.map(worker, [(options, number) for number in range(options.workers)], 1)
        print(f"{sum(looked for looked, _ in found)} texts looked at", flush=True)
        kept = {text: share for _, some in found for text, share in some.items()}
        slowest = sorted(kept, key=kept.get, reverse=True)[:options.keep]
        counted = pool.map(measured, [(options.program, text) for text in slowest], 1)
    shares = sorted(((count / most_instructions(len(text)), count, text) for text, count in counted), reverse=True)
    over = [text for share, _, text in shares if share > 1]
    for share, count, text in shares[:10]:
        print(f"  {len(text):8} bytes {count:14} instructions {share:5.2f} of the line")
    into = options.into or (tempfile.mkdtemp() if over else None)
    if into:
        os.makedirs(into, exist_ok=True)
        for number, text in enumerate(over or [text for _, _, text in shares[:10]]):
            with open(os.path.join(into, f"{number}.json"), "w", encoding="utf-8") as file:
                file.write(text)
    print(f"{len(shares)} texts, {f'{len(over)} over the line, in {into}' if over else 'none over the line'}")
    sys.exit(1 if over else 0)


if __name__ == "__main__":
    main()
