#!/usr/bin/env python3
"""Makes small contracts and runs at random, judges by the definition in which of them a party keeps up, and looks whether such a run leaves a When
by its timeout that `kept_up` never leaves so; and with a program, whether it pays the party less, or leaves it further down, than `analyse --party` says.

Needs    nothing built; with MARLOWE=PATH that program
Usage    checks/keeps_up.py [CONTRACTS [SEED]]     20,000 contracts from the seed 0 on, where nothing else is said; 12 runs of each
Expect   how many runs there were, in how many the party kept up and how many of those closed, how many Whens are never left; with a program
         how many bounds it told and how many of them a run reached; and `N contracts, N runs, no difference`
Else     the contract, the state, and the timeouts or the bound, and status 1.

The definition is that of crates/keeping_up/specs/KeepsUp.antt, tried at every moment from the minimum time on: times lie below 14. Which Whens are
never left is that of crates/loss_walk/specs/Cuts.antt.
"""
import collections, json, os, random, subprocess, sys

sys.path.insert(0, os.path.dirname(os.path.abspath(__file__)))
import interpreter
from interpreter import Refused, Transaction, has

PARTY, OTHER = {"role_token": "p"}, {"role_token": "q"}
ADA = {"currency_symbol": "", "token_name": ""}
TIMES = ("time_interval_start", "time_interval_end")
COMPARISONS = ("ge_than", "gt", "lt", "le_than", "equal_to")
RUNS, MOST_TRANSACTIONS, LATEST = 12, 6, 9


# ---- contracts

class Maker:
    """Makes a contract form by form, of two parties, one token and small numbers."""

    def __init__(self, chance):
        self.chance = chance

    def one(self, *many):
        return self.chance.choice(many)

    def choice_id(self):
        return {"choice_name": "c", "choice_owner": self.one(PARTY, OTHER)}

    def value(self, depth=2):
        kind = self.chance.random()
        if kind < 0.3 or not depth:
            return self.one(0, 1, 2, 3, 5)
        if kind < 0.45:
            return self.one(*TIMES)
        if kind < 0.7:
            return {"value_of_choice": self.choice_id()}
        if kind < 0.8:
            return {"use_value": "x"}
        if kind < 0.9:
            return {"amount_of_token": ADA, "in_account": self.one(PARTY, OTHER)}
        return {"add": self.value(depth - 1), "and": self.value(depth - 1)}

    def observation(self):
        kind = self.chance.random()
        if kind < 0.15:
            return {"chose_something_for": self.choice_id()}
        if kind < 0.2:
            return {"not": self.observation()}
        return {"value": self.value(), self.one(*COMPARISONS): self.value()}

    def action(self):
        kind = self.chance.random()
        if kind < 0.4:
            return {"party": self.one(PARTY, OTHER), "deposits": self.value(1), "of_token": ADA, "into_account": self.one(PARTY, OTHER)}
        if kind < 0.8:
            low = self.one(0, 0, 1, 2)
            return {"for_choice": self.choice_id(), "choose_between": [{"from": low, "to": low + self.one(-1, 0, 1, 3)}]}
        return {"notify_if": self.observation()}

    def contract(self, depth):
        if not depth or self.chance.random() < 0.08:
            return "close"
        kind = self.chance.random()
        if kind < 0.6:
            cases = [{"case": self.action(), "then": self.contract(depth - 1)} for _ in range(self.one(0, 1, 1, 2, 2))]
            return {"when": cases, "timeout": self.chance.randrange(LATEST), "timeout_continuation": self.contract(depth - 1)}
        if kind < 0.7:
            to = {"party": self.one(PARTY, OTHER)}
            return {"pay": self.value(), "token": ADA, "from_account": self.one(PARTY, OTHER), "to": to, "then": self.contract(depth - 1)}
        if kind < 0.85:
            return {"if": self.observation(), "then": self.contract(depth - 1), "else": self.contract(depth - 1)}
        if kind < 0.95:
            return {"let": "x", "be": self.value(), "then": self.contract(depth - 1)}
        return {"assert": self.observation(), "then": self.contract(depth - 1)}


# ---- the definition

def is_own(action):
    """Whether the party can take an action by itself."""
    if has(action, "deposits"):
        return action["party"] == PARTY
    if has(action, "for_choice"):
        return action["for_choice"]["choice_owner"] == PARTY and any(b["from"] <= b["to"] for b in action["choose_between"])
    return False


def asks(c):
    return any(is_own(case["case"]) for case in c["when"])


def waits_until(contract, state, moment):
    """The time up to which a contract waits for the party at a moment, if it does."""
    machine = Transaction({**state, "minTime": moment}, {"from": moment, "to": moment})
    left = machine.settle(contract)
    return left["timeout"] if left != "close" and asks(left) else None


def is_in_time(contract, state, start):
    """Whether a transaction begins before each such time."""
    waits = (waits_until(contract, state, moment) for moment in range(state["minTime"], start + 1))
    return all(time is None or start < time for time in waits)


# ---- what the walk never leaves

def reads_time(it):
    if isinstance(it, dict):
        return any(map(reads_time, it.values()))
    return it in TIMES if isinstance(it, str) else False


def cut(contract, start):
    """The Whens that aren't left by their timeouts, as objects."""
    found, todo = [], [(contract, start, True)]
    while todo:
        c, latest, timeless = todo.pop()
        if c == "close":
            continue
        if has(c, "when"):
            if asks(c) and timeless and latest < c["timeout"]:
                found.append(c)
            todo += [(case["then"], c["timeout"] - 1, True) for case in c["when"]]
            todo.append((c["timeout_continuation"], max(latest, c["timeout"]), timeless))
            continue
        read = next((c[key] for key in ("pay", "if", "be") if key in c), None)
        todo += [(c[key], latest, timeless and not reads_time(read)) for key in ("then", "else") if key in c]
    return found


# ---- runs

class Noting(Transaction):
    """A transaction that notes which Whens it leaves by their timeouts."""

    def __init__(self, state, interval):
        super().__init__(state, interval)
        self.left = []

    def settle(self, c):
        while c != "close" and not (has(c, "when") and self.start < c["timeout"]):
            if has(c, "when"):
                self.left.append(c)
                self.turned, c = True, c["timeout_continuation"]
            elif has(c, "pay"):
                self.pay(c)
                self.turned, c = True, c["then"]
            elif has(c, "if"):
                self.turned, c = True, c["then" if self.holds(c["if"]) else "else"]
            elif has(c, "let"):
                self.bound[c["let"]] = self.value(c["be"])
                self.turned, c = True, c["then"]
            else:
                self.holds(c["assert"])
                self.turned, c = True, c["then"]
        return super().settle(c)


def made_input(chance, machine, action):
    if has(action, "deposits"):
        return {"input_from_party": action["party"], "that_deposits": machine.value(action["deposits"]), "of_token": ADA, "into_account": action["into_account"]}
    if has(action, "for_choice"):
        bound = chance.choice(action["choose_between"])
        return {"for_choice_id": action["for_choice"], "input_that_chooses_num": chance.choice([bound["from"], bound["to"]])}
    return "input_notify"


def brought(given):
    """What an input brings of the party's."""
    return max(given["that_deposits"], 0) if has(given, "that_deposits") and given["input_from_party"] == PARTY else 0


def paid(machine):
    """What a transaction pays the party."""
    me = ("party", interpreter.party(PARTY))
    return sum(amount for _, target, _, amount in machine.payments if target == me)


def played(chance, contract, state):
    """A random transaction at its end, what it leaves and what the party brings; and where it starts."""
    start = max(0, state["minTime"] + chance.choice([-1, 0, 0, 1, 2, 3]))
    machine = Noting(state, {"from": start, "to": start + chance.choice([0, 0, 0, 1, 3])})
    left, brings = machine.settle(contract), 0
    for _ in range(chance.choice([0, 0, 1, 1, 1, 2, 3])):
        if left == "close" or not left["when"]:
            break
        given = made_input(chance, machine, chance.choice(left["when"])["case"])
        left = machine.settle(machine.apply(given, left))
        brings += brought(given)
    if not machine.turned:
        machine.refuse("Useless")
    return start, machine, left, brings


def run(chance, contract, state, count):
    """A random run: the Whens that it left by their timeouts, whether the party kept up, and what it was paid and brought where all is out."""
    keeps, left, sums = True, [], [0, 0]
    for _ in range(MOST_TRANSACTIONS):
        try:
            start, machine, behind, brings = played(chance, contract, state)
        except Refused:
            continue
        keeps = keeps and is_in_time(contract, state, start)
        left += machine.left
        sums = [sums[0] + paid(machine), sums[1] + brings]
        contract, state = behind, interpreter.state_json(machine, int)
        if contract == "close":
            break
    count["runs"] += 1
    count["in which it kept up"] += keeps
    count["of them closed"] += keeps and contract == "close"
    return keeps, left, sums if contract == "close" and not state["accounts"] else None


# ---- what the program says

class Told:
    """A program that is asked in a stream what the party is sure of."""

    def __init__(self, path):
        self.program = subprocess.Popen([path, "serve"], stdin=subprocess.PIPE, stdout=subprocess.PIPE, text=True) if path else None

    def bounds(self, contract, state):
        """What it is paid at least and loses at most, or nothing where that isn't told."""
        if not self.program:
            return None
        asked = {"analyse": {"contract": contract, "state": state, "no_runs": True, "party": PARTY}}
        self.program.stdin.write(json.dumps(asked) + "\n")
        self.program.stdin.flush()
        tokens = json.loads(self.program.stdout.readline())["ok"]["while_keeping_up"]["tokens"]
        if tokens is None:
            return None
        one = next((it for it in tokens if it["token"] == ADA), {"least": 0, "down": 0})
        return int(one["least"]), None if one["down"] is None else int(one["down"])


def differs(bounds, sums, count):
    """Whether sums break the bounds; and those that are reached are counted."""
    (least, most), (got, brings) = bounds, sums
    count["runs that reach what is told"] += got == least or brings - got == most
    return got < least or (most is not None and brings - got > most)


def main():
    given = [int(it) for it in sys.argv[1:]]
    contracts, seed = (given + [20_000, 0][len(given):])[:2]
    count, told = collections.Counter(), Told(os.environ.get("MARLOWE"))
    for number in range(contracts):
        chance = random.Random(f"{seed}.{number}")
        contract = Maker(chance).contract(chance.choice([2, 3, 4, 5]))
        state = {"accounts": [], "boundValues": [], "choices": [], "minTime": chance.choice([0, 0, 2, 4])}
        never, bounds = cut(contract, state["minTime"]), told.bounds(contract, state)
        count["contracts of which bounds are told"] += bounds is not None
        count["Whens that are never left"] += len(never)
        for _ in range(RUNS):
            keeps, left, sums = run(chance, contract, state, count)
            if keeps and sums and bounds and differs(bounds, sums, count):
                print(f"{seed}.{number}", contract, state, bounds, sums, sep="\n")
                return 1
            wrong = [it for it in left if any(it is other for other in never)]
            if keeps and wrong:
                print(f"{seed}.{number}", contract, state, [it["timeout"] for it in wrong], sep="\n")
                return 1
            count["others that left one"] += not keeps and bool(wrong)
    for kind, many in count.items():
        print(f"{many:9} {kind}")
    print(f"{contracts} contracts, {count['runs']} runs, no difference")
    return 0


if __name__ == "__main__":
    sys.exit(main())
