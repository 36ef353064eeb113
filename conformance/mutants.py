#!/usr/bin/env python3
"""Wrong engines, each made of checks/interpreter.py or checks/readings.py by one change: whether the suite notices each, and by the right subject.

Needs    nothing built; a minute.
Usage    mutants.py
Expect   a line for each wrong engine: how many cases of the subject that its rule belongs to notice it, at least three; and status 0.
Else     `NOT NOTICED`, with how many cases there are, and status 1.
"""
import multiprocessing
import os
import sys
import types

import reference
import rules
import suite

# By how many cases a wrong engine is to be noticed, and how long the lines are that it is asked.
LEAST, LONGEST = 3, 100_000
INTERPRETER, READINGS = reference.interpreter.__file__, reference.readings.__file__

# The rule that is broken, what the engine does wrong, and the change.
OF_RUNS = [
    ("quotient", "a quotient is rounded down", ', {way}", -whole', ', {way}", a // b'),
    ("quotient", "a quotient is rounded to the nearest", ', {way}", whole', ', {way}", whole + (2 * rest >= abs(b))'),
    ("quotient by 0", "a quotient by 0 is its dividend", 'return "quotient by 0", 0', 'return "quotient by 0", a'),
    ("signs of a quotient", "the sign of a divisor is lost", "if (a < 0) == (b < 0):", "if a >= 0:"),
    ("subtract", "a difference is the other way round", 'self.value(v["value"]) - self.value(v["minus"])',
        '-self.value(v["value"]) + self.value(v["minus"])'),
    ("negate", "a sign makes a number positive", '-self.value(v["negate"])', 'abs(self.value(v["negate"]))'),
    ("cond", "the branches of a Cond are exchanged", 'v["then" if self.truth("cond"', 'v["then" if not self.truth("cond"'),
    ("money", "what an account holds of other tokens counts", '(party(v["in_account"]), token(v["amount_of_token"])))',
     'next((key for key in self.accounts if key[0] == party(v["in_account"])), None))'),
    ("chosen", "a choice of 0 wasn't made", 'choice_id(o["chose_something_for"]) in self.choices',
        'self.choices.get(choice_id(o["chose_something_for"]), 0) != 0'),
    ("ge_than", "greater or equal is greater", "lambda a, b: a >= b", "lambda a, b: a > b"),
    ("le_than", "less or equal is less", "lambda a, b: a <= b", "lambda a, b: a < b"),
    ("InvalidInterval", "an interval in the past may end before it starts", 'if interval["to"] < interval["from"]:',
        'if state["minTime"] <= interval["to"] < interval["from"]:'),
    ("IntervalInPast", "an interval that ends at the minimum time is past", 'if interval["to"] < state["minTime"]:',
        'if interval["to"] <= state["minTime"]:'),
    ("start moved up", "the start isn't moved up", 'self.start = self.min_time = max(interval["from"], state["minTime"])',
     'self.start, self.min_time = interval["from"], max(interval["from"], state["minTime"])'),
    ("time goes on", "the minimum time stays", 'self.start = self.min_time = max(interval["from"], state["minTime"])',
     'self.start, self.min_time = max(interval["from"], state["minTime"]), state["minTime"]'),
    ("timed out", "a timeout at the interval's start isn't over", 'if self.start < c["timeout"]:', 'if self.start <= c["timeout"]:'),
    ("Ambiguous", "a When whose timeout is the interval's end waits", 'if self.end < c["timeout"]:', 'if self.end <= c["timeout"]:'),
    ("if", "the branches of an If are exchanged", 'c["then" if self.truth("if"', 'c["then" if not self.truth("if"'),
    ("Useless", "a transaction that does nothing is taken", "if not run.turned:", "if False:"),
    ("refund", "a Close that pays counts as nothing",
        "            self.payments.append((owner, (\"party\", owner), coin, amount))\n            self.turned = True\n",
     "            self.payments.append((owner, (\"party\", owner), coin, amount))\n"),
    ("pay in part", "a partial pay is taken as full", "paid = min(balance, due)", "paid = due"),
    ("pay in part", "a partial pay doesn't warn", "        if paid < due:\n            self.warn", "        if paid > due:\n            self.warn"),
    ("pay of nothing", "a Pay of 0 doesn't warn", '            self.warn("NonPositivePay", amount=due, **told)',
        '            due and self.warn("NonPositivePay", amount=due, **told)'),
    ("name bound again", "a Let with the same number doesn't warn", "                if name in self.bound:\n",
        "                if self.bound.get(name, number) != number:\n"),
    ("name bound again", "the old number and the new are exchanged", "new=number, old=self.bound[name]", "old=number, new=self.bound[name]"),
    ("name bound again", "a name keeps its first number", "self.bound[name] = number", "self.bound.setdefault(name, number)"),
    ("assertion fails", "an assertion warns where it holds", 'if not self.truth("assert"', 'if self.truth("assert"'),
    ("order of warnings", "the last warning stands first", 'self.warnings.append({"warning": warning, **keys})',
        'self.warnings.insert(0, {"warning": warning, **keys})'),
    ("deposit of nothing", "a deposit of nothing matches no case", '!= given["that_deposits"]:',
        '!= given["that_deposits"] or given["that_deposits"] <= 0:'),
    ("deposit of nothing", "a deposit below 0 takes away", "            if amount <= 0:", "            if amount == 0:"),
    ("pay in full", "an account that is emptied stays", "        if amount == 0:\n            self.accounts.pop(account, None)",
        "        if amount is None:\n            self.accounts.pop(account, None)"),
    ("pay to a party", "a payment to a party goes into its account", '        if target[0] == "account":', "        if target:"),
    ("pay to an account", "a payment to an account isn't recorded", "        self.payments.append((source, target, coin, paid))",
     '        target[0] == "party" and self.payments.append((source, target, coin, paid))'),
    ("record of 0", "a payment of 0 isn't recorded", "        self.payments.append((source, target, coin, paid))",
        "        paid and self.payments.append((source, target, coin, paid))"),
    ("pay to itself", "the payee's account grows before the paying one is reduced", "self.visited(rule, self.accounts.get(account, 0) + paid)",
     "self.visited(rule, (balance if target[1] == source else self.accounts.get(account, 0)) + paid)"),
    ("order of payments", "the last payment stands first", "self.payments.append((source, target, coin, paid))",
        "self.payments.insert(0, (source, target, coin, paid))"),
    ("order of accounts", "refunds stand in the order of entry", "for (owner, coin), amount in sorted(self.accounts.items(), key=account_order):",
        "for (owner, coin), amount in self.accounts.items():"),
    ("order of accounts", "roles stand before addresses", "return owner[0], owner[1].encode(), symbol, name.encode()",
        "return -owner[0], owner[1].encode(), symbol, name.encode()"),
    ("order of accounts", "tokens stand by name before symbol", "owner[1].encode(), symbol, name.encode()",
        "owner[1].encode(), name.encode(), symbol"),
    ("deposit", "a deposit into any account matches", 'if party(given["into_account"]) != party(action["into_account"]):', "if False:"),
    ("deposit", "a deposit by anybody matches", 'if party(given["input_from_party"]) != party(action["party"]):', "if False:"),
    ("deposit", "a deposit of any token matches", 'if token(given["of_token"]) != token(action["of_token"]):', "if False:"),
    ("deposit", "a deposit of more than is asked matches", 'if self.value(action["deposits"]) != given["that_deposits"]:',
        'if self.value(action["deposits"]) > given["that_deposits"]:'),
    ("choice", "the greater bound is left out", 'given["input_that_chooses_num"] <= b["to"]', 'given["input_that_chooses_num"] < b["to"]'),
    ("choice", "the lesser bound is left out", 'if b["from"] <= given', 'if b["from"] < given'),
    ("choice", "only the first bounds count", 'enumerate(action["choose_between"])', 'enumerate(action["choose_between"][:1])'),
    ("choice", "the owner of a choice isn't looked at", 'choice_id(given["for_choice_id"]) != choice_id(action["for_choice"])',
        'choice_id(given["for_choice_id"])[0] != choice_id(action["for_choice"])[0]'),
    ("recorded", "an earlier choice stays", 'self.choices[choice] = given["input_that_chooses_num"]',
        'self.choices.setdefault(choice, given["input_that_chooses_num"])'),
    ("notify", "a notify matches whatever holds", 'self.truth("notify", self.holds(action["notify_if"]))',
        'self.truth("notify", self.holds(action["notify_if"]) or True)'),
    ("first match", "the last case that matches is taken", 'else c["when"]:\n', 'else c["when"][::-1]:\n'),
    ("order of choices", "choices stand by owner before name", "return name.encode(), owner[0], owner[1].encode()",
        "return owner[0], owner[1].encode(), name.encode()"),
    ("long transaction", "inputs behind the twentieth are left out", 'for given in transaction["tx_inputs"]:',
        'for given in transaction["tx_inputs"][:20]:'),
    ("Leaves128", "numbers wrap at 128 bits", '            self.refuse("Leaves128", f":{rule}")',
        "            number = (number - LEAST) % 2**128 + LEAST"),
    ("fits", "2^127 - 1 doesn't fit", "LEAST, GREATEST = -2**127, 2**127 - 1", "LEAST, GREATEST = -2**127, 2**127 - 2"),
    ("fits", "-2^127 doesn't fit", "LEAST, GREATEST = -2**127, 2**127 - 1", "LEAST, GREATEST = -2**127 + 1, 2**127 - 1"),
    ("not visited", "AndObs visits its right side always", 'if not self.holds(o["both"]):',
        'if not self.holds(o["both"]) and (self.holds(o["and"]) or True):'),
    ("not visited", "OrObs visits its right side always", 'if self.holds(o["either"]):',
        'if self.holds(o["either"]) and (self.holds(o["or"]) or True):'),
    ("not visited", "a Cond visits both branches", 'return self.value(v["then" if self.truth("cond", self.holds(v["if"])) else "else"])',
     'return [self.value(v["else"]), self.value(v["then"])][self.truth("cond", self.holds(v["if"]))]'),
    ("looked into", "a deposit's value is visited for any deposit", 'if party(given["into_account"]) != party(action["into_account"]):',
     'if self.value(action["deposits"]) is None or party(given["into_account"]) != party(action["into_account"]):'),
    ("digits", "numbers from 2^63 on are texts", "return number if -2**63 <= number < 2**64 else str(number)",
        "return number if -2**63 <= number < 2**63 else str(number)"),
]
OF_TEXTS = [
    ("NotWhole", "-0 is 0", ' or found[0] == "-0"', ""),
    ("NotWhole", "2^64 is read", "GREATEST_TIME, GREATEST_NUMBER, LEAST_NUMBER = 2**63 - 1, 2**64 - 1, -2**63",
        "GREATEST_TIME, GREATEST_NUMBER, LEAST_NUMBER = 2**63 - 1, 2**64, -2**63"),
    ("OutOfRange", "a time has no sign", "GREATEST_TIME, GREATEST_NUMBER, LEAST_NUMBER = 2**63 - 1, 2**64 - 1, -2**63",
        "GREATEST_TIME, GREATEST_NUMBER, LEAST_NUMBER = 2**64 - 1, 2**64 - 1, -2**63"),
    ("BadHex", "an odd number of digits is read", '"([0-9a-fA-F]{2})*"', '"[0-9a-fA-F]*"'),
    ("Merkleized", "a hash has no form", 'raise Fault("Merkleized")', 'raise Fault("NoForm")'),
    ("BadState", "an account of 0 is read", "if amount <= 0 or any", "if amount < 0 or any"),
    ("BadState", "a key may stand twice", "        if any(key == known for known, _ in rows):\n            raise",
        "        if False:\n            raise"),
    ("NoForm", "a name may be a number", "    no_form(not isinstance(json, str))\n    return json", "    return str(json)"),
    ("first fault", "the last key of a form is read first", "return {key: own.get(key, contract)(json[key]) for key in keys.split()}",
        "return {key: own.get(key, contract)(json[key]) for key in keys.split()[::-1]}"),
    ("first form", "an Assert comes before a Let", '"let be then", "assert then")', '"assert then", "let be then")'),
    ("last of a key", "the first value of a key counts", "members[key] = self.value(depth)", "members.setdefault(key, self.value(depth))"),
    ("canonical", "a symbol keeps its capital digits", "    return json.lower()", "    return json"),
]


def changed(path, old, new):
    """A module with one change."""
    with open(path, encoding="utf-8") as file:
        text = file.read()
    if text.count(old) != 1:
        sys.exit(f"{os.path.basename(path)}: the text that is changed is there {text.count(old)} times: {old}")
    module = types.ModuleType(os.path.basename(path).removesuffix(".py"))
    module.__file__ = path
    exec(compile(text.replace(old, new), path, "exec"), module.__dict__)
    return module


def noticed(cases, answer):
    """How many cases are answered otherwise; a wrong engine that falls over is noticed too."""
    count = 0
    for case in cases:
        try:
            told = answer(case)
        except Exception:
            told = None
        count += told is None or suite.compact(told) != case["wanted"]
    return count


def of_line(case):
    """The answer of a line, without its id."""
    told = reference.answer(case["sent"])
    return {key: part for key, part in told.items() if key != "id"}


def of_request(case):
    """The answer of a request that was taken apart before, which is sooner."""
    return reference.answered(case["request"], [])


def known(case):
    """A case with its line, what that is as JSON data, and its answer as a text."""
    line = case["sent"]
    try:
        request = reference.readings.parsed(line, reference.LONGEST, reference.DEEPEST)
    except reference.readings.Fault:
        request = None
    return {"sent": line, "request": request, "wanted": suite.compact(case["answer"])}


def put(name, module):
    """Has the reference use a module in place of its own."""
    setattr(reference, name, module)
    readers = reference.readings
    reference.READERS = {"contract": readers.contract, "state": readers.state, "transaction": readers.transaction, "input": readers.given}


CASES = {}
KINDS = (("interpreter", INTERPRETER, OF_RUNS, of_request), ("readings", READINGS, OF_TEXTS, of_line))


def count_of(job):
    """How many cases of its subject notice a wrong engine."""
    kind, row = job
    name, path, rows, answer = KINDS[kind]
    rule, _, old, new = rows[row]
    right = getattr(reference, name)
    put(name, changed(path, old, new))
    try:
        return noticed(CASES[rules.RULES[rule][0]], answer)
    finally:
        put(name, right)


def main():
    for case in suite.load():
        if len(case["sent"]) < LONGEST:
            CASES.setdefault(case["subject"], []).append(known(case))
    jobs, failed = [(kind, row) for kind, (_, _, rows, _) in enumerate(KINDS) for row in range(len(rows))], 0
    with multiprocessing.get_context("fork").Pool() as pool:
        for (kind, row), count in zip(jobs, pool.imap(count_of, jobs)):
            rule, wrong, _, _ = KINDS[kind][2][row]
            failed += count < LEAST
            print(f"{'' if count >= LEAST else 'NOT NOTICED '}{wrong}: {count} of {len(CASES[rules.RULES[rule][0]])} cases of {rules.RULES[rule][0]}")
    print(f"{len(OF_RUNS)} wrong interpreters, {len(OF_TEXTS)} wrong readers, {failed} not noticed")
    return int(failed > 0)


if __name__ == "__main__":
    sys.exit(main())
