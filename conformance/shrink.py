"""Smaller requests made of one: sub-contracts, sub-values and sub-observations, fewer cases, inputs and rows, smaller numbers.

Usage    run.py imports it.
"""
import json

# The parts of each sort that can be made smaller, by their keys: a sort, or a list of one.
SORTS = {
    "contract": {"pay": "value", "if": "observation", "then": "contract", "else": "contract", "when": ["case"], "timeout": "number",
                 "timeout_continuation": "contract", "be": "value", "assert": "observation"},
    "case": {"case": "action", "then": "contract"},
    "action": {"deposits": "value", "choose_between": ["bound"], "notify_if": "observation"},
    "value": {"negate": "value", "add": "value", "and": "value", "value": "value", "minus": "value", "multiply": "value", "times": "value",
              "divide": "value", "by": "value", "if": "observation", "then": "value", "else": "value"},
    "observation": {"both": "observation", "and": "observation", "either": "observation", "or": "observation", "not": "observation",
                    "value": "value", "ge_than": "value", "gt": "value", "lt": "value", "le_than": "value", "equal_to": "value"},
    "bound": {"from": "number", "to": "number"},
    "state": {"accounts": ["row"], "choices": ["row"], "boundValues": ["row"], "minTime": "number"},
    "row": {1: "number"},
    "transaction": {"tx_interval": "bound", "tx_inputs": ["input"]},
    "input": {"that_deposits": "number", "input_that_chooses_num": "number"},
    "run": {"contract": "contract", "state": "state", "transaction": "transaction"},
    "trace": {"contract": "contract", "state": "state", "transactions": ["transaction"]},
    "read": {"contract": "contract", "state": "state", "transaction": "transaction", "input": "input"},
    "request": {"run": "run", "trace": "trace", "read": "read"},
}
LEAST = {"contract": ["close"], "value": [0, 1], "observation": [True, False]}


def weight(request):
    """Shorter is smaller, and of equal length what has smaller numbers."""
    return len(json.dumps(request)), sum(map(abs, numbers(request)))


def numbers(data):
    if isinstance(data, bool):
        return
    if isinstance(data, (int, float)):
        yield data
    elif isinstance(data, (dict, list)):
        for part in data.values() if isinstance(data, dict) else data:
            yield from numbers(part)


def parts(sort, data):
    """The parts of data that has a sort: the key, the sort and the part."""
    for key, inner in SORTS.get(sort, {}).items():
        if isinstance(data, dict) and key in data or isinstance(data, list) and isinstance(key, int) and key < len(data):
            yield key, inner, data[key]


def smaller(sort, data):
    """Data in place of data of a sort, each with one thing less, the greatest steps first."""
    if isinstance(sort, list):
        yield from smaller_lists(sort, data)
        return
    yield from (least for least in LEAST.get(sort, []) if least != data)
    yield from (part for _, inner, part in parts(sort, data) if inner == sort)
    if sort in ("number", "value") and isinstance(data, int) and not isinstance(data, bool):
        yield from nearer_to_0(data)
    for key, inner, part in parts(sort, data):
        for less in smaller(inner, part):
            copy = dict(data) if isinstance(data, dict) else list(data)
            copy[key] = less
            yield copy


def nearer_to_0(number):
    """Whole numbers between a number and 0, in halves of the way: 0 first, and last the one beside the number."""
    step, sign = abs(number), 1 if number > 0 else -1
    while step > 1:
        yield number - sign * step
        step = (step + 1) // 2
    if step:
        yield number - sign


def smaller_lists(sort, data):
    if not isinstance(data, list):
        return
    if len(data) > 3:
        yield from (data[:len(data) // 2], data[len(data) // 2:])
    yield from (data[:place] + data[place + 1:] for place in range(len(data)))
    for place, item in enumerate(data):
        yield from (data[:place] + [less] + data[place + 1:] for less in smaller(sort[0], item))


def shrunk(request, differs, most):
    """A request that is as small as can be found in so many tries, and still differs; and the number of tries. The search goes on at the place where it
    found a smaller one, and begins anew until a whole round finds none."""
    tries, place, has_found, least = 0, 0, False, weight(request)
    while True:
        for at, less in enumerate(smaller("request", request)):
            if at < place or weight(less) >= least:
                continue
            if tries == most:
                return request, tries
            tries += 1
            if differs(less):
                request, place, has_found, least = less, at, True, weight(less)
                break
        else:
            if not has_found:
                return request, tries
            place, has_found = 0, False
