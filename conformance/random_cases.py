"""Random cases by subject, over the random contracts of checks/compare.py. Each has what is asked; its answer is worked out by reference.py.

Usage    make.py imports it. `asked(subject, seed)` gives a request of that subject, the same for the same seed.
"""
import glob
import json
import os

import reference
import words
from words import (A, ADA, B, CLOSE, END, NOTIFY, START, T, X, choice, choose, chooses, deposit, deposits, divide, ensure, into, let, money,
    notify,
                   pay, state, to, transaction, when)

import compare

R = compare.R
LARGE, NUMBERS = compare.large, list(compare.NUMBERS)
SMALL = [0, 1, -1, 2, 3, 4, 5, 7, -7, 10]


def one(*items):
    return R.choice(items)


def some(count, make):
    return [make() for _ in range(count)]


def with_numbers(numbers, large):
    compare.NUMBERS[:], compare.large = numbers, large


def rows(keys, numbers, most):
    keys = R.sample(keys, R.randrange(min(most, len(keys)) + 1))
    return [[key, R.choice(numbers)] for key in keys]


KEYS = [[party, token] for party in (A, B, X) for token in (ADA, T)]
IDS = [words.choice_id(name, party) for name in ("x", "y") for party in (A, B, X)]


def small_state(accounts=1, choices=1, bound=1):
    return state(rows(KEYS, [1, 2, 3, 5, 10], accounts), rows(IDS, SMALL, choices), rows(["x", "y"], SMALL, bound), one(0, 0, 0, 0, 4, 5))


def run(contract, before, *inputs, within=None):
    return {"run": {"contract": contract, "state": before, "transaction": transaction(*inputs,
        within=within or one((0, 10), (3, 8), (5, 5), (5, 9)))}}


# ---- by subject

def evaluation():
    body = let("v", compare.value(R.randrange(4))) if R.random() < 0.5 else ensure(compare.observation(R.randrange(1, 4)))
    return run(body, small_state())


def division():
    def part(depth):
        return divide(part(depth - 1),
            part(depth - 1)) if depth and R.random() < 0.6 else compare.value(R.randrange(2)) if R.random() < 0.4 else R.randrange(-12, 13)
    body = divide(part(2), part(1))
    return run(let("v", one(body, {"negate": body}, {"add": body, "and": part(1)}, {"value": part(1), "minus": body},
        {"if": compare.observation(1), "then": body, "else": part(2)})), small_state(1, 1, 1))


def timed(depth):
    """Whens that time out, one behind another, and little between."""
    if depth == 0:
        return one(CLOSE, CLOSE, let("s", START), let("e", END), pay(1, A, to(B)))
    body = timed(depth - 1)
    return one(lambda: when(some(R.randrange(3), lambda: (one(notify(), notify(False), deposit(one(START, END, 1), B, A)), timed(max(depth - 2, 0)))),
        R.randrange(0, 14), body),
               lambda: when([], R.randrange(0, 14), body), lambda: let(one("s", "e"), one(START, END), body),
                   lambda: ensure({"value": START, "lt": R.randrange(12)}, body))()


def intervals():
    start = R.randrange(-2, 15)
    given = some(one(0, 0, 0, 1, 2), lambda: one(NOTIFY, NOTIFY, deposits(1, B, A)))
    return run(timed(R.randrange(1, 5)), state(rows(KEYS[:2], [1, 3], 2), time=one(0, 0, 3, 6, 11)), *given,
        within=(start, start + one(0, 0, 0, 0, 1, 1, 2, 4, 8, -1)))


def steps(depth, *makers):
    body = CLOSE if R.random() < 0.7 else when([], one(100, 100, 5))
    for _ in range(depth):
        body = R.choice(makers)(body)
    return body


def pays(body):
    party = one(A, B, X)
    amount = compare.value(1) if R.random() < 0.1 else one(1, 2, 3, 5, 8, 0, -1, 4, money(party), money(one(A, B, X), T))
    return pay(amount, party, one(to, into)(one(A, B, X)), body, one(ADA, ADA, T))


def lets(body):
    return let(one("x", "y"), compare.value(R.randrange(2)), body)


def asserts(body):
    return ensure(compare.observation(R.randrange(2)), body)


def branches(body):
    other = steps(R.randrange(2), lets, asserts)
    return choose(compare.observation(R.randrange(2)), *one((body, other), (other, body)))


def waits(body):
    return when([(notify(compare.observation(R.randrange(2))), body)], one(20, 20, 5), one(CLOSE, body))


def inputs_of(contract):
    """Inputs that cases of a contract name, in the order of the contract."""
    found, left = [], contract
    while left != CLOSE and len(found) < 4:
        if "when" in left and left["when"]:
            case = R.choice(left["when"])
            found.append(compare.answer(case["case"]))
            left = case["then"]
        else:
            left = left.get("then", left.get("timeout_continuation", CLOSE))
    return found[:R.randrange(len(found) + 1)] if R.random() < 0.3 else found


def reductions():
    body = steps(R.randrange(2, 6), lets, lets, asserts, branches, pays, waits)
    return run(body, small_state(), *inputs_of(body))


def warnings():
    def nothing(body):
        return when([(deposit(one(0, -1, 0, 1), one(A, X), one(A, B), one(ADA, T)), body)], 20)
    body = steps(R.randrange(2, 6), lets, asserts, pays, pays, nothing)
    return run(body, small_state(1, 0, 2), *inputs_of(body))


def payments():
    body = steps(R.randrange(1, 4), pays)
    if R.random() < 0.3:
        body = when([(deposit(one(1, 3), B, one(A, B), one(ADA, T)), body)], 20)
    return run(body, state(rows(KEYS, [1, 2, 3, 5, 10], 3)), *inputs_of(body))


def action():
    return one(lambda: deposit(one(1, 2, 2, money(A), 0), one(A, B), one(A, B), one(ADA, ADA, T)),
        lambda: choice(one("x", "y"), one(A, B), *some(R.randrange(4), bound)),
               lambda: notify(one(True, compare.observation(R.randrange(2)))))()


def bound():
    start = R.randrange(-1, 6)
    return start, start + one(-1, 0, 0, 1, 3)


def given_for(actions):
    near = R.choice(actions)
    if R.random() < 0.15:
        return one(NOTIFY, deposits(one(0, 1, 2), one(A, B), one(A, B)), chooses(one("x", "y"), one(A, B), R.randrange(-1, 7)))
    if "party" in near:
        amount = near["deposits"] if isinstance(near["deposits"], int) else R.randrange(3)
        return deposits(amount + one(0, 0, 0, 0, 0, 1), near["party"], near["into_account"], near["of_token"])
    if "for_choice" in near:
        ends = [end for each in near["choose_between"] for end in each.values()]
        return {"for_choice_id": near["for_choice"], "input_that_chooses_num": R.choice(ends) if ends and R.random() < 0.7 else R.randrange(-1, 8)}
    return NOTIFY


def inputs():
    first, second = some(R.randrange(1, 5), action), some(R.randrange(1, 3), action)
    body = when([(each, let("t", place, when([(other, CLOSE) for other in second])) if R.random() < 0.5 else let("t", place)) for place,
        each in enumerate(first, 1)])
    return run(body, small_state(1, 1, 0), *[given_for(actions) for actions in (first, second)[:one(1, 1, 2)]])


def large_value():
    """A value in which a number about the edges stands, deep in it or not."""
    value = LARGE()
    for _ in range(R.randrange(4)):
        other = compare.value(R.randrange(2))
        value = one({"add": value, "and": other}, {"add": other, "and": value}, {"value": other, "minus": value}, {"value": value, "minus": other},
                    {"divide": value, "by": other}, {"multiply": other, "times": value}, {"negate": value},
                    {"if": compare.observation(1), "then": value, "else": other}, {"if": compare.observation(1), "then": other, "else": value})
    return value


def large_observation():
    body = {"value": large_value(), one("gt", "lt", "equal_to", "ge_than", "le_than"): compare.value(1)}
    return one(body, {"both": compare.observation(1), "and": body}, {"either": compare.observation(1), "or": body}, {"not": body},
        {"both": body, "and": compare.observation(1)})


def bits():
    with_numbers([2**63, 2**64 - 1, -2**63, 0, 1, -1, 2], LARGE)
    before = state(rows(KEYS, [1, 2**64 - 1], 1), rows(IDS, [2**63, -2**63], 1), rows(["x", "y"], [2**64 - 1, -1], 1))
    kind = R.randrange(5)
    if kind < 2:
        return run(one(let("v", large_value()), ensure(large_observation())), before)
    if kind == 2:
        actions = some(R.randrange(1, 4), lambda: one(deposit(one(large_value(), 0, 1), one(A, B), A), notify(one(large_observation(), False, True))))
        return run(when([(action, let("t", place)) for place, action in enumerate(actions, 1)]), before,
            one(NOTIFY, deposits(one(0, 1), one(A, B), A)))
    body = steps(R.randrange(1, 3), lets, asserts, pays)
    return run(one(let("x", large_value(), body), pay(large_value(), A, one(to, into)(B), body), choose(large_observation(), body, CLOSE)), before)


def mixed():
    """A case of checks/compare.py as it is."""
    contract, before, given = compare.case()
    return {"run": {"contract": contract, "state": before, "transaction": given}}


# ---- many transactions

def waiting(depth):
    """A contract that waits again and again."""
    if depth == 0:
        return one(CLOSE, CLOSE, pay(one(1, 2, money(A)), A, to(B)))
    def follows():
        return steps_to(waiting(depth - 1))
    return when(some(R.randrange(1, 3), lambda: (action(), follows())), 20 * depth + R.randrange(20), one(CLOSE, CLOSE, waiting(0)))


def steps_to(body):
    for _ in range(R.randrange(2)):
        body = one(lets, asserts, pays)(body)
    return body


def walk(contract, before, length):
    """Transactions from a contract: mostly such as it takes, with an input each, or a timeout."""
    given, at, left = [], 0, contract
    for _ in range(length):
        at += one(0, 0, 1, 5, 20)
        cases = left["when"] if left != CLOSE and "when" in left else []
        chosen = [given_for([case["case"] for case in cases])] if cases and R.random() < 0.85 else []
        given.append(transaction(*chosen, within=(at, at + one(0, 3, 9, 9))))
        told = reference.answered({"trace": {"contract": contract, "state": before, "transactions": given}}, [])
        if "refused" in told:
            if R.random() < 0.85:
                given.pop()
                continue
            break
        left = told["ok"][-1]["contract"]
    return given


def traces():
    contract, before = steps_to(waiting(R.randrange(1, 4))), small_state(1, 0, 1)
    ask = {"contract": contract, "state": before, "transactions": walk(contract, before, R.randrange(2, 5))}
    if before == state():
        del ask["state"]
    return {"trace": ask}


def gallery():
    """Transactions of a contract of the gallery."""
    contract = R.choice(GALLERY)
    return {"trace": {"contract": contract, "transactions": walk(contract, state(), R.randrange(3, 7))}}


def warned():
    """A run up to its first warning, or one that closes without any."""
    contract, before = steps_to(waiting(R.randrange(1, 4))), small_state(1, 0, 1)
    given = walk(contract, before, R.randrange(2, 5))
    for length in range(1, len(given) + 1):
        told = reference.answered({"trace": {"contract": contract, "state": before, "transactions": given[:length]}}, [])
        if "refused" in told:
            break
        if told["ok"][-1]["warnings"]:
            return {"trace": {"contract": contract, "state": before, "transactions": given[:length]}}
    return None


# ---- texts

def of_any_sort():
    contract, before, given = compare.case()
    contract = steps_to(waiting(R.randrange(3))) if R.random() < 0.7 else contract
    parts = [("contract", contract), ("contract", contract), ("state", before), ("transaction", given)]
    return R.choice(parts + [("input", each) for each in given["tx_inputs"][:1]])


def places(data, path=()):
    """The paths to all parts of JSON data."""
    yield path
    for key, part in data.items() if isinstance(data, dict) else enumerate(data) if isinstance(data, list) else ():
        yield from places(part, path + (key,))


def at(data, path):
    for key in path:
        data = data[key]
    return data


def changed(data, path, make):
    """The data with another part at a path."""
    if not path:
        return make(data)
    copy = dict(data) if isinstance(data, dict) else list(data)
    copy[path[0]] = changed(copy[path[0]], path[1:], make)
    return copy


def spoil(part):
    """Another part in place of one, mostly one that isn't read there."""
    if isinstance(part, dict):
        kept = list(part.items())
        R.shuffle(kept)
        way = R.randrange(4)
        if way == 0 and kept:
            return dict(kept[1:])
        if way == 1 and "case" in part and "then" in part:
            return {"case": part["case"], "merkleized_then": "aa"}
        if way == 2 and "currency_symbol" in part:
            return {**part, "currency_symbol": one("a", "zz", "aab", "AB", "é")}
        return one(None, [], "x", 1, {}, list(part.values()))
    if isinstance(part, list):
        return one({}, part + part[-1:], part[:-1], "x", None, part[::-1])
    if isinstance(part, bool) or part is None:
        return one(1, "true", None, {})
    if isinstance(part, (int, float)):
        return one(1.5, 2**63, 2**64, -2**63 - 1, 1e2, "1", 0, -1, True)
    return one("a", 1, None, [part], "close", "input_notify", "time_interval_start")


def faults():
    of, data = of_any_sort()
    for _ in range(one(1, 1, 2)):
        data = changed(data, R.choice(list(places(data))), spoil)
    if R.random() < 0.15 and of != "input":
        texts = {"contract": CLOSE, "state": state(), "transaction": transaction()}
        return {"run": {**texts, of: data}}
    return {"read": {of: data}}


def decorated(data):
    """The same data otherwise written: keys and rows in another order, further keys, capital digits."""
    if isinstance(data, dict):
        items = [(key, part.upper() if key == "currency_symbol" else decorated(part)) for key, part in data.items()]
        if R.random() < 0.2:
            items.append((one("note", "comment", ""), one(None, 1.5, [], {"a": 1})))
        R.shuffle(items)
        return dict(items)
    return [decorated(part) for part in data] if isinstance(data, list) else data


def round_trips():
    of, data = of_any_sort()
    return {"read": {of: decorated(data)}}


OTHERS = [{"pay": 1, "token": ADA}, {"then": CLOSE, "assert": True}, {"else": CLOSE}, {"let": "x", "be": 1}, {"value": 1}, {"add": 1, "and": 2},
    {"gt": 1}, {"lt": 2}, {"negate": 1}, {"both": True},
          {"not": False}, {"notify_if": True}, {"address": "x"}, {"account": A}, {"merkleized_then": "aa"}, {"equal_to": 3}, {"use_value": "x"},
              {"timeout": 5}]


def readings():
    """Data in which one object has keys of another form as well."""
    of, data = of_any_sort()
    objects = [path for path in places(data) if isinstance(at(data, path), dict)]
    if not objects:
        return {"read": {of: data}}
    return {"read": {of: changed(data, R.choice(objects), lambda part: {**one(*OTHERS), **part})}}


# The contracts of the gallery that have at most so many bytes.
LARGEST, GALLERY = 3000, []
TOP = os.path.join(os.path.dirname(os.path.abspath(__file__)), "..")
for path in sorted(glob.glob(os.path.join(TOP, "crates", "rows_commands", "data", "gallery", "*", "contract.json"))):
    if os.path.getsize(path) <= LARGEST:
        with open(path, encoding="utf-8") as file:
            GALLERY.append(json.load(file))

MAKERS = {make.__name__: make for make in (evaluation, division, intervals, reductions, warnings, payments, inputs, bits, mixed, traces, gallery, warned,
    faults, round_trips, readings)}


def asked(subject, seed):
    R.seed(f"{subject}.{seed}")
    with_numbers(NUMBERS if subject == "mixed" else SMALL, LARGE if subject == "mixed" else lambda: R.choice(SMALL))
    return MAKERS[subject]()
