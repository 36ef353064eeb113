"""What a line of the stream is answered, worked out by checks/readings.py and checks/interpreter.py.

Needs    nothing: it has no code of the program, and shares none of its definitions.
Usage    the scripts beside it import it, and engines/in_python.py, which makes an engine of it.
Expect   `answer(line)` to give the answer of a line of bytes, as JSON data. A list that is handed over gets the rules that are taken.
"""
import os
import sys

HERE = os.path.dirname(os.path.abspath(__file__))
sys.path.append(os.path.join(HERE, "..", "checks"))
import interpreter
import readings

# A line may have so many bytes, and nests two levels deeper than a text.
LONGEST, DEEPEST = 4 * 1_048_576, readings.DEEPEST + 2
START = {"accounts": [], "choices": [], "boundValues": [], "minTime": 0}
READERS = {"contract": readings.contract, "state": readings.state, "transaction": readings.transaction, "input": readings.given}
# What stands between the rules of two transactions.
NEXT = "next transaction"
# With what the transaction function refuses.
REFUSALS = ("InvalidInterval", "IntervalInPast", "Ambiguous", "NoMatch", "Useless", "Leaves128")
# The requests of the stream, in the order in which they are sought. Three of them are answered here.
WORDS = ("run", "trace", "next", "table", "analyse", "play", "read", "bytes", "define", "forget")


class Refusal(Exception):
    """What is told in place of an answer."""

    def __init__(self, of, name, **more):
        super().__init__(of, name)
        self.told = {"of": of, "name": name, **more}


def part_of(asked, key, where_absent=None):
    """What stands at a key of a request; where there is none, what no text has, or what is given."""
    return asked[key] if isinstance(asked, dict) and key in asked else where_absent


def read(of, part, **more):
    try:
        return READERS[of](part)
    except readings.Fault as fault:
        raise Refusal(of, str(fault), **more) from None


def computed(contract, state, transaction, taken, **more):
    try:
        return interpreter.finished(contract, state, transaction, taken)
    except interpreter.Refused as fault:
        raise Refusal("transaction", str(fault), **more) from None


def in_order(state):
    """A state with its rows in the order of their keys."""
    return interpreter.state_json(interpreter.Transaction(state, {"from": state["minTime"], "to": state["minTime"]}), int)


# ---- requests

def run(asked, taken):
    contract = read("contract", part_of(asked, "contract"))
    state = read("state", part_of(asked, "state", START))
    transaction = read("transaction", part_of(asked, "transaction"))
    return {"ok": interpreter.outcome_of(*computed(contract, state, transaction, taken))}


def trace(asked, taken):
    contract = read("contract", part_of(asked, "contract"))
    state = read("state", part_of(asked, "state", START))
    given = part_of(asked, "transactions", [])
    transactions = [read("transaction", each, number=number) for number, each in enumerate(given if isinstance(given, list) else [given], 1)]
    outcomes = []
    for number, transaction in enumerate(transactions, 1):
        taken.append(NEXT)
        try:
            ended, contract = computed(contract, state, transaction, taken, number=number)
        except Refusal as refusal:
            return {"ok": outcomes, "refused": refusal.told}
        outcomes.append(interpreter.outcome_of(ended, contract))
        state = interpreter.state_json(ended, int)
    return {"ok": outcomes}


def written(asked, _):
    """The canonical JSON of what is read."""
    of = next((of for of in READERS if isinstance(asked, dict) and of in asked), None)
    if of is None:
        raise Refusal("read", "NoForm")
    told = read(of, asked[of])
    return {"ok": in_order(told) if of == "state" else told}


REQUESTS = {"run": run, "trace": trace, "read": written}


def answered(request, taken):
    """The answer of a request, without its id."""
    try:
        if not isinstance(request, dict):
            raise Refusal("line", "NoObject")
        word = next((word for word in WORDS if word in request), None)
        if word is None:
            raise Refusal("line", "NoRequest")
        return REQUESTS[word](request[word], taken)
    except Refusal as refusal:
        return {"refused": refusal.told}


def answer(line, taken=None):
    """The answer of a line."""
    try:
        request = readings.parsed(line, LONGEST, DEEPEST)
    except readings.Fault as fault:
        return {"id": None, "refused": {"of": "line", "name": str(fault)}}
    given = request.get("id") if isinstance(request, dict) else None
    return {"id": given, **answered(request, [] if taken is None else taken)}
