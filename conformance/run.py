#!/usr/bin/env python3
"""Holds an engine against the suite, and tells what it answers otherwise.

Needs    an engine that answers requests line by line (docs/conformance.md): a command, or an adapter of engines/ around one.
Usage    run.py [OPTIONS] ENGINE..       as: run.py python3 conformance/engines/in_python.py
         --profile unbounded             leaves out what our 128 bits decide, and compares without our orders
         --subject NAME                  this subject alone; it may stand several times
         --seconds N                     how long an answer may take, 10 where nothing else is said
         --show N                        how many differing cases of a subject are named, 5 where nothing else is said
         --no-shrink                     shows the first one as it is
         --ours "PROGRAM serve"          asks this program what is wanted of a case that was made smaller, in place of the interpreter
Expect   a line for each subject, `N agree`, and status 0.
Else     for each subject how many differ; the smallest one, made smaller while it differs, with its rule and where the rule stands, the choices of ours
         that it rests on, what was asked, wanted and answered; the names of the next ones; and status 1. An engine that gives no answer in time,
         ends, or answers no JSON, is told with the case, and started anew; after five of these in a subject its other cases aren't asked.
"""
import argparse
import json
import queue
import shlex
import subprocess
import sys
import threading

import reference
import rules
import shrink
import suite

TRIES, TROUBLES = 1000, 5
LONGEST_SHOWN = 2000
LATE = "no answer"


class Engine:
    """An engine that is asked line by line, and started anew where it ended or gave no answer."""

    def __init__(self, words, seconds):
        self.words, self.seconds, self.process, self.lines = words, seconds, None, None

    def start(self):
        try:
            self.process = subprocess.Popen(self.words, stdin=subprocess.PIPE, stdout=subprocess.PIPE)
        except OSError as error:
            sys.exit(f"the engine can't be started: {error}")
        self.lines = queue.Queue()
        threading.Thread(target=listen, args=(self.process.stdout, self.lines), daemon=True).start()

    def stop(self):
        if self.process is not None:
            self.process.kill()
            self.process.wait()
            self.process = None

    def ask(self, line):
        """The answer to a line, or what is wrong with the engine as a text."""
        if self.process is None:
            self.start()
        threading.Thread(target=say, args=(self.process.stdin, line), daemon=True).start()
        try:
            came = self.lines.get(timeout=self.seconds)
        except queue.Empty:
            self.stop()
            return f"{LATE} within {self.seconds:g} seconds"
        if came is None:
            status, self.process = self.process.wait(), None
            return f"the engine ended with status {status}"
        try:
            told = json.loads(came)
        except ValueError:
            told = None
        return told if isinstance(told, dict) else f"no JSON object: {came[:200]!r}"


def listen(stream, lines):
    for line in stream:
        lines.put(line)
    lines.put(None)


def say(stream, line):
    try:
        stream.write(line + b"\n")
        stream.flush()
    except (OSError, ValueError):
        pass


# ---- one case

class Held:
    """What came of a subject: cases that agree, that the engine couldn't be asked, and that differ, each with its answer."""

    def __init__(self):
        self.agree = self.unable = self.left_out = self.nameless = 0
        self.differ, self.order_alone, self.not_asked = [], 0, 0


def is_late(came):
    return isinstance(came, str) and came.startswith(LATE)


def is_left_out(case, loosely):
    return loosely and any(rules.CHOICES[choice][3] == rules.LEFT_OUT for choice in case["choices"])


def agrees(wanted, came, given, loosely):
    return isinstance(came, dict) and suite.compact(came.get("id")) == suite.compact(given) and suite.is_wanted(wanted, came, loosely)


def hold(engine, cases, loosely):
    held, troubles = Held(), 0
    for case in cases:
        if is_left_out(case, loosely):
            held.left_out += 1
            continue
        if troubles == TROUBLES:
            held.not_asked += 1
            continue
        given, came = case["id"], engine.ask(case["sent"])
        troubles += isinstance(came, str)
        if isinstance(came, dict) and "unable" in came:
            held.unable += 1
        elif agrees(case["answer"], came, given, loosely):
            held.agree += 1
            held.nameless += "refused" in came and "name" not in came["refused"]
        else:
            held.differ.append((case, came))
            held.order_alone += not loosely and agrees(case["answer"], came, given, True)
    return held


def rules_taken(line):
    taken = []
    reference.answer(line, taken)
    return {str(rule).split(":")[0] for rule in taken}


def smallest(engine, case, came, loosely, wanted_of):
    """A case made smaller while it differs and takes its rule, each time with the answer that is wanted of it; with how many tries it took. Where the
    engine gives no answer in time to some of these, no more are asked."""
    seen, rule = {"late": 0}, {case["rule"]} & rules_taken(case["sent"])

    def differs(ask):
        line, given = suite.line_of({"ask": ask})
        wanted = wanted_of(line)
        if seen["late"] == TROUBLES or not isinstance(wanted, dict) or suite.is_unread(case["answer"]) != suite.is_unread(wanted):
            return False
        if not rule <= rules_taken(line):
            return False
        told = engine.ask(line)
        seen["late"] += is_late(told)
        is_another = not (isinstance(told, dict) and "unable" in told) and not agrees(wanted, told, given, loosely)
        if is_another:
            seen["last"] = (wanted, told)
        return is_another

    if "ask" not in case or is_late(came):
        return case, came, 0
    ask, tries = shrink.shrunk(case["ask"], differs, TRIES)
    if "last" not in seen:
        return case, came, tries
    wanted, told = seen["last"]
    return {**case, "sent": suite.line_of({"ask": ask})[0], "answer": {key: part for key, part in wanted.items() if key != "id"}}, told, tries


# ---- what is told

def short(text):
    return text if len(text) <= LONGEST_SHOWN else f"{text[:LONGEST_SHOWN]} .. ({len(text)} letters)"


def show(case, came, tries):
    _, words, page, quote = rules.RULES[case["rule"]]
    print(f"  {case['name']}" + (f", made smaller in {tries} tries" if tries else ""))
    print(f"    rule    {words} ({page}: \"{quote}\")")
    for choice in case["choices"]:
        words, page, quote, _ = rules.CHOICES[choice]
        print(f"    rests   on a choice of ours: {words} ({page}: \"{quote}\")")
    print("    asked   " + short(case["sent"].decode(errors="replace")))
    print("    wanted  " + short(suite.compact(case["answer"])))
    print("    came    " + short(came if isinstance(came, str) else suite.compact(came)))


def tell(engine, subject, held, options, wanted_of):
    words = [f"{held.agree:5} agree"] + [f"{count} {word}" for count, word in (
        (len(held.differ), "differ"), (held.order_alone, "of them in an order or in texts of digits alone"),
            (held.unable, "that the engine has no request for"),
        (held.left_out, "left out"), (held.nameless, "refusals without a name"), (held.not_asked, "not asked any more")) if count]
    print(f"{subject:12} " + ", ".join(words))
    differ = sorted(held.differ, key=lambda pair: len(pair[0]["sent"]))
    if differ:
        case, came = differ[0]
        show(*((case, came, 0) if options.no_shrink else smallest(engine, case, came, options.profile is not None, wanted_of)))
    for case, _ in differ[1:options.show]:
        print(f"  {case['name']} ({case['rule']})")
    if len(differ) > max(options.show, 1):
        print(f"  and {len(differ) - max(options.show, 1)} more")


def main():
    options = argparse.ArgumentParser(usage=__doc__)
    options.add_argument("--profile", choices=["unbounded"])
    options.add_argument("--subject", action="append", choices=list(rules.SUBJECTS))
    options.add_argument("--seconds", type=float, default=10)
    options.add_argument("--show", type=int, default=5)
    options.add_argument("--no-shrink", action="store_true")
    options.add_argument("--ours")
    options.add_argument("engine", nargs=argparse.REMAINDER)
    options = options.parse_args()
    if not options.engine:
        sys.exit(__doc__)
    engine, totals = Engine(options.engine, options.seconds), [0, 0, 0]
    ours = Engine(shlex.split(options.ours), options.seconds) if options.ours else None
    for subject in options.subject or rules.SUBJECTS:
        held = hold(engine, suite.load([subject]), options.profile is not None)
        tell(engine, subject, held, options, ours.ask if ours else reference.answer)
        totals = [total + more for total, more in zip(totals, (held.agree, len(held.differ), held.unable + held.left_out + held.not_asked))]
    engine.stop()
    if ours:
        ours.stop()
    print("{} agree, {} differ, {} not asked or not to be had".format(*totals))
    return int(totals[1] > 0)


if __name__ == "__main__":
    sys.exit(main())
