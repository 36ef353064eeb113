#!/usr/bin/env python3
"""Makes contracts and runs at random, and compares what the built program's `run` says of each run with what its `analyse` said of all.

Needs    (cd crates/marlowe && rt run -- --version)
Usage    checks/analysed.py [--seconds N] [--seed N] [--workers N] [--runs N] [--program FILE] [--contract FILE [--state FILE]] [--show SEED.NUMBER]
         for N seconds (60) with so many workers (1), each a process; so many runs of each contract (20); a worker makes the same contracts in the
         same order again for the same seed; --program asks another program; --contract plays runs of that contract alone, from that state; --show prints one contract and its analysis
Expect   how many contracts, runs and transactions there were, which alarms were raised, with a run or not known, which warnings came, and
         `N contracts, N runs, no difference`
Else     what differs, and a folder with the contract, the state and the transactions; then status 1

Half of the contracts are made form by form: choices, deposits, Lets, Ifs and Pays of amounts that may be asked for or held, so that some never
warn. The others are those of rows_commands/data/analyses with a few numbers, parties or comparisons changed. Of each it asks:
- status 0 and no alarm, or status 3 and alarms;
- each run that is told is accepted up to its last transaction, which warns of that kind at that place, or is refused with Leaves128, where the first number
  that leaves 128 bits is visited there;
- in no random run a warning of a kind comes at a place without such an alarm, not even in a transaction that is refused, nor Leaves128 without its alarm
  at the place;
- none starts at a part that is told as never reached, goes through it or stops there; such parts stand in order, none below another;
- in each what a party was paid of a token is never above its `most`, 0 where it has no line, and no less than its `least` once all is closed;
- alarms stand in the order of the contract, none twice, and no `least` is told where a transaction at the last timeout doesn't close the contract.
- for people, of alarms of one kind at equal parts the first with a run is told, and how many others there are;
- each run that is told with a bound is accepted, by interpreter.py, and comes to that very bound; of a least and of a loss it closes the contract;
- from the time on that is told, after each accepted transaction of a run, one without inputs takes all out, by interpreter.py.
A random run takes choices at the ends of their bounds and elsewhere, intervals about timeouts, deposits as asked, and now and then others.
"""
import argparse, collections, copy, glob, json, multiprocessing, os, random, re, subprocess, sys, tempfile, time

ROOT = os.path.dirname(os.path.dirname(os.path.abspath(__file__)))
sys.path.insert(0, f"{ROOT}/checks")
import interpreter
from interpreter import has, party, token

PROGRAM = f"{ROOT}/crates/marlowe/out/marlowe"
WRITTEN = -2**63, 2**64 - 1
MOST_TRANSACTIONS, MOST_FAULTS = 14, 20
PARTIES = [{"role_token": "a"}, {"role_token": "b"}, {"role_token": "c"}, {"address": "x"}]
TOKENS = [{"currency_symbol": "", "token_name": ""}] * 3 + [{"currency_symbol": "aa", "token_name": "t"}]
ADA = TOKENS[0]
COMPARISONS = ["ge_than", "gt", "lt", "le_than", "equal_to"]
SMALL = [0, 1, 2, 3, 5, 7, 10, 50, 100]
LARGE = [-1, -7, 2**31, 2**62, 2**63 - 1, 2**63, 2**64 - 1, -2**63]
EMPTY = {"accounts": [], "boundValues": [], "choices": [], "minTime": 0}


# ---- contracts

class Maker:
    """Makes a contract form by form. It knows which choices and names there may be, what was deposited, and which Conds it has made."""

    def __init__(self, chance):
        self.chance, self.time, self.choices, self.names, self.amounts, self.conds = chance, 0, [], [], [], []

    def one(self, *many):
        return self.chance.choice(many)

    def number(self):
        return self.chance.choice(SMALL if self.chance.random() < 0.9 else LARGE)

    def choice_id(self):
        return {"choice_name": self.one("n", "m"), "choice_owner": self.chance.choice(PARTIES)}

    def value(self, depth):
        kind = self.chance.randrange(6 if depth <= 0 else 14)
        if kind < 2:
            return self.number()
        if kind == 2 and self.choices:
            return {"value_of_choice": self.chance.choice(self.choices)}
        if kind == 3 and self.names:
            return {"use_value": self.chance.choice(self.names)}
        if kind == 4:
            return {"amount_of_token": self.chance.choice(TOKENS), "in_account": self.chance.choice(PARTIES)}
        if kind == 5:
            return self.one("time_interval_start", "time_interval_end", {"value_of_choice": self.choice_id()}, self.number())
        if kind == 6:
            return {"negate": self.value(depth - 1)}
        if kind in (7, 8):
            return {"add": self.value(depth - 1), "and": self.value(depth - 1)}
        if kind == 9:
            return {"value": self.value(depth - 1), "minus": self.value(depth - 1)}
        if kind == 10:
            return {"multiply": self.value(depth - 1), "times": self.value(depth - 1)}
        if kind == 11:
            return {"divide": self.value(depth - 1), "by": self.one(self.value(depth - 1), 2, 3, 100, -2)}
        if kind == 12:
            return self.cond(depth)
        return self.number()

    def cond(self, depth):
        """A Cond: a new one, or one that was made before, as it was or with a little changed."""
        if self.conds and self.chance.random() < 0.5:
            made = self.chance.choice(self.conds)
            return made if self.chance.random() < 0.6 else changed(self.chance, made)
        made = {"if": self.observation(depth - 1), "then": self.value(depth - 1), "else": self.value(depth - 1)}
        self.conds.append(made)
        return made

    def observation(self, depth):
        kind = self.chance.randrange(4 if depth <= 0 else 10)
        if kind == 0:
            return self.chance.random() < 0.5
        if kind == 1:
            return {"chose_something_for": self.chance.choice(self.choices) if self.choices else self.choice_id()}
        if kind == 2 and depth > 0:
            return {"not": self.observation(depth - 1)}
        if kind == 3 and depth > 0:
            one, other = self.one(("both", "and"), ("either", "or"))
            return {one: self.observation(depth - 1), other: self.observation(depth - 1)}
        return {"value": self.value(depth), self.chance.choice(COMPARISONS): self.value(depth)}

    def amount(self):
        """An amount for a deposit or a Pay: mostly a number above 0 or something that was asked for before."""
        kind = self.chance.random()
        if kind < 0.4 and self.amounts:
            return self.chance.choice(self.amounts)[2]
        if kind > 0.9:
            return self.cond(2)
        return self.chance.choice(SMALL[1:]) if kind < 0.75 else self.value(2)

    def contract(self, depth):
        if depth <= 0 or self.chance.random() < 0.04:
            return "close"
        kind = self.chance.random()
        kept = self.time, list(self.choices), list(self.names), list(self.amounts)
        if kind < 0.42:
            made = self.when(depth)
        elif kind < 0.67:
            made = self.pay(depth)
        elif kind < 0.82:
            o = self.observation(2)
            made = {"if": o, "then": self.contract(depth - 1), "else": self.contract(depth - 2)}
        elif kind < 0.95:
            name, bound = f"x{len(self.names)}" if self.chance.random() < 0.9 else "x0", self.value(3)
            self.names.append(name)
            made = {"let": name, "be": bound, "then": self.contract(depth - 1)}
        else:
            made = {"assert": self.observation(2), "then": self.contract(depth - 1)}
        self.time, self.choices, self.names, self.amounts = kept
        return made

    def pay(self, depth):
        if self.amounts and self.chance.random() < 0.8:
            account, coin, amount = self.chance.choice(self.amounts)
            amount = amount if self.chance.random() < 0.7 else {"amount_of_token": coin, "in_account": account} if self.chance.random() < 0.4 else self.amount()
        else:
            account, coin, amount = self.chance.choice(PARTIES), self.chance.choice(TOKENS), self.amount()
        to = {self.one("party", "party", "account"): self.chance.choice(PARTIES)}
        pay = {"pay": amount, "token": coin, "from_account": account, "to": to, "then": self.contract(depth - 1)}
        if self.chance.random() < 0.3:
            return {"if": {"value": amount, "gt": 0}, "then": pay, "else": "close"}
        return pay

    def when(self, depth):
        timeout = self.time + self.one(10, 10, 10, 50, 1, 0, -5)
        self.time = max(self.time, timeout)
        cases = []
        for _ in range(self.one(0, 1, 1, 1, 2, 3)):
            kept = list(self.choices), list(self.amounts)
            kind = self.chance.random()
            if kind < 0.5:
                account, coin, amount = self.chance.choice(PARTIES), self.chance.choice(TOKENS), self.amount()
                action = {"party": self.chance.choice(PARTIES), "deposits": amount, "of_token": coin, "into_account": account}
                self.amounts.append((account, coin, amount))
            elif kind < 0.9:
                name = self.choice_id()
                low = self.one(0, 1, 1, 1, 5, -3)
                action = {"for_choice": name, "choose_between": [{"from": low, "to": low + self.one(0, 1, 4, 99, -1)} for _ in range(self.one(1, 1, 1, 2))]}
                self.choices.append(name)
            else:
                action = {"notify_if": self.observation(2)}
            cases.append({"case": action, "then": self.contract(depth - 1)})
            self.choices, self.amounts = kept
        return {"when": cases, "timeout": timeout, "timeout_continuation": self.contract(depth - 2)}


def made_state(chance):
    if chance.random() < 0.6:
        return EMPTY
    accounts = [[[p, t], chance.choice([1, 5, 10, 100, 2**63])] for p in PARTIES for t in (ADA, TOKENS[-1]) if chance.random() < 0.3]
    choices = [[{"choice_name": n, "choice_owner": p}, chance.choice([0, 1, 7, -1])] for n in "nm" for p in PARTIES if chance.random() < 0.1]
    bound = [[x, chance.choice([0, 1, 5])] for x in ("x0", "x1") if chance.random() < 0.1]
    return {"accounts": accounts, "boundValues": bound, "choices": choices, "minTime": chance.choice([0, 0, 5, 20, -10])}


def places(json, found):
    """All places of a contract's text where something may be changed: its holder and its key."""
    todo = [json]
    while todo:
        it = todo.pop()
        for key, part in (it.items() if isinstance(it, dict) else enumerate(it) if isinstance(it, list) else ()):
            if isinstance(part, int) or isinstance(part, dict) and (has(part, "role_token") or has(part, "address")):
                found.append((it, key))
            if isinstance(it, dict) and key in COMPARISONS:
                found.append((it, key))
            if not isinstance(part, int):
                todo.append(part)
    return found


def changed(chance, contract):
    """A contract with a few numbers, parties or comparisons changed."""
    contract = copy.deepcopy(contract)
    for _ in range(chance.choice([0, 1, 1, 2, 3])):
        where = places([contract], [])
        if not where:
            break
        it, key = chance.choice(where)
        if key in COMPARISONS and chance.random() < 0.5:
            other = chance.choice(COMPARISONS)
            it[other] = it.pop(key)
        elif isinstance(it[key], bool):
            it[key] = not it[key]
        elif isinstance(it[key], int):
            it[key] = min(max(chance.choice([it[key] + 1, it[key] - 1, 0, 1, it[key] * 2, it[key] // 2]), -2**63), 2**63 - 1)
        elif isinstance(it[key], dict) and len(where) > 1:
            others = [part[name] for part, name in where if isinstance(part[name], dict) and (has(part[name], "role_token") or has(part[name], "address"))]
            if others and (has(it[key], "role_token") or has(it[key], "address")):
                it[key] = copy.deepcopy(chance.choice(others))
    return contract


def made(given, number, corpus):
    """The contract and the state of a number, or those that are given."""
    chance = random.Random(f"{given.seed}.{number}")
    if given.contract:
        return chance, loaded(given.contract), loaded(given.state) if given.state else EMPTY
    if chance.random() < 0.5:
        return chance, Maker(chance).contract(chance.choice([2, 4, 6, 8])), made_state(chance)
    contract, state = chance.choice(corpus)
    return chance, changed(chance, contract), state


def loaded(name):
    with open(name) as file:
        return json.load(file)


NAME = re.compile(r"\$(\w+)\$")


def rows_of(file):
    """The rows of a file: the number of the line, the contract, the state, the word, the rest and the answer."""
    names, contract, state, row = {}, None, None, None
    for number, line in enumerate(open(file), 1):
        line = line.rstrip("\n")
        if line.startswith("= "):
            row[5].append(line[2:])
            continue
        if row:
            yield row
            row = None
        word, _, rest = line.partition(" ")
        if word in ("", "#"):
            continue
        if word == "let":
            name, _, rest = rest.partition(" ")
            names[name] = NAME.sub(lambda it: names[it[1]], rest)
            continue
        rest = NAME.sub(lambda it: names[it[1]], rest)
        if word == "contract":
            contract, state = rest, ""
        elif word == "state":
            state = rest
        else:
            row = (number, contract, state, word, rest, [])
    if row:
        yield row


def contracts_of_rows():
    found = {}
    for file in sorted(glob.glob(f"{ROOT}/crates/rows_commands/data/analyses/*.txt")):
        for _, contract, state, _, _, _ in rows_of(file):
            found[contract + state] = json.loads(contract), json.loads(state) if state else EMPTY
    return list(found.values())


# ---- runs

class Program:
    """Asks the program, over files of its own."""

    def __init__(self, program, room):
        self.line, self.room = [program], room

    def ask(self, word, *texts, flags=()):
        files = []
        for name, it in zip(("contract", "state", "transaction"), texts):
            files.append(f"{self.room}/{name}.json")
            with open(files[-1], "w") as file:
                json.dump(it, file)
        done = subprocess.run([*self.line, word, *files, *flags], capture_output=True, text=True)
        return done.returncode, done.stdout, done.stderr.strip()


def timeouts(c, found):
    todo = [c]
    while todo and len(found) < 40:
        it = todo.pop()
        if isinstance(it, dict):
            if "timeout" in it:
                found.append(it["timeout"])
            todo += it.values()
        elif isinstance(it, list):
            todo += it
    return found


def made_interval(chance, state, contract):
    now, some = state["minTime"], timeouts(contract, [])[:6]
    ends = [now, now + 1, now + 100] + [t + d for t in some for d in (-1, -1, 0, 0, 1)]
    start = now if chance.random() < 0.5 else chance.choice(ends)
    end = start if chance.random() < 0.5 else max(start, chance.choice(ends))
    if chance.random() < 0.03:
        start, end = chance.choice([(now - 5, now - 1), (end, start), (now - 3, end), (now, 2**63 - 1)])
    return {"from": max(-2**63, min(2**63 - 1, start)), "to": max(-2**63, min(2**63 - 1, end))}


def made_input(chance, machine, case):
    """An input for a case, where it can be made and written."""
    action = case["case"]
    if has(action, "party", "deposits", "of_token", "into_account"):
        try:
            amount = machine.value(action["deposits"])
        except interpreter.Refused:
            amount = 1
        if chance.random() < 0.03:
            amount += chance.choice([-1, 1])
        amount = amount if WRITTEN[0] <= amount <= WRITTEN[1] else 1
        return {"input_from_party": action["party"], "that_deposits": amount, "of_token": action["of_token"], "into_account": action["into_account"]}
    if has(action, "for_choice", "choose_between"):
        bounds = [b for b in action["choose_between"] if b["from"] <= b["to"]] or [{"from": 0, "to": 0}]
        b = chance.choice(bounds)
        kind = chance.random()
        number = b["from"] if kind < 0.35 else b["to"] if kind < 0.7 else chance.randint(b["from"], b["to"])
        return {"for_choice_id": action["for_choice"], "input_that_chooses_num": max(WRITTEN[0], min(WRITTEN[1], number))}
    return "input_notify"


def made_transaction(chance, contract, state):
    """A transaction that likely does something: its inputs are for the cases that the contract comes to."""
    interval, inputs = made_interval(chance, state, contract), []
    try:
        machine = interpreter.Transaction(state, interval)
        left = machine.settle(contract)
        for _ in range(chance.choice([0, 1, 1, 1, 1, 2, 3])):
            if left == "close" or not left["when"]:
                break
            inputs.append(made_input(chance, machine, chance.choice(left["when"])))
            left = machine.settle(machine.apply(inputs[-1], left))
    except interpreter.Refused:
        pass
    return {"tx_inputs": inputs, "tx_interval": interval}


class Placed(interpreter.Transaction):
    """A transaction that notes where in the contract's text it is: the keys to what remained before it, and what it warned of at which place."""

    def __init__(self, state, interval, at):
        super().__init__(state, interval)
        self.at, self.here, self.told, self.passed = list(at), None, [], [tuple(at)]

    def go(self, *keys):
        self.at += keys
        self.passed.append(tuple(self.at))

    def warn(self, warning, **keys):
        super().warn(warning, **keys)
        self.told.append((warning, self.here))

    def settle(self, c):
        while c != "close":
            form = next(key for key in ("pay", "if", "when", "let", "assert") if key in c)
            self.here = (*self.at, form)
            step = "then"
            if form == "pay":
                self.pay(c)
            elif form == "if":
                step = "then" if self.holds(c["if"]) else "else"
            elif form == "when":
                if self.end < c["timeout"]:
                    return c
                if self.start < c["timeout"]:
                    raise interpreter.Refused("Ambiguous")
                step = "timeout_continuation"
            elif form == "let":
                number = self.value(c["be"])
                if c["let"] in self.bound:
                    self.warn("Shadowing")
                self.bound[c["let"]] = number
            elif not self.holds(c["assert"]):
                self.warn("AssertionFailed")
            self.go(step)
            c, self.turned = c[step], True
        self.close()
        return c

    def apply(self, given, c):
        for index, case in enumerate([] if c == "close" else c["when"]):
            action = next(key for key in ("deposits", "choose_between", "notify_if") if key in case["case"])
            self.here = (*self.at, "when", index, "case", action)
            if self.matches(given, case["case"]):
                self.take(given)
                self.turned = True
                self.go("when", index, "then")
                return case["then"]
        raise interpreter.Refused("NoMatch")


def placed(contract, state, tx, at):
    """What a transaction tells of at which places, the places that it comes to, and the keys to what remains: those from before where it is refused."""
    told, passed = [], [tuple(at)]
    try:
        machine = Placed(state, tx["tx_interval"], at)
        told, passed = machine.told, machine.passed
        left = machine.settle(contract)
        for given in tx["tx_inputs"]:
            left = machine.settle(machine.apply(given, left))
        return told, passed, machine.at if machine.turned else at
    except interpreter.Refused as fault:
        # (one that is refused for its interval was never anywhere)
        return told + ([("Leaves128", machine.here)] if str(fault) == "Leaves128" else []), passed, at


class Difference(Exception):
    """What the analysis said, and what came."""

    def __init__(self, text, transactions=()):
        super().__init__(text)
        self.transactions = list(transactions)


def is_read_again(state):
    """Whether JSON has each number of a state that was printed."""
    return all(isinstance(n, int) for key in ("accounts", "boundValues", "choices") for _, n in state[key])


def whole(number):
    return int(number) if isinstance(number, str) else number


STEPS = {"then": 1, "else": 2, "timeout_continuation": 4}
KINDS = ["NonPositiveDeposit", "NonPositivePay", "PartialPay", "Shadowing", "AssertionFailed", "Leaves128"]


def place_order(place):
    """Numbers by which a place stands before others: those of its steps."""
    keys, numbers = list(place), []
    while keys:
        step = keys.pop(0)
        if step == "when":
            number, what = keys.pop(0), keys.pop(0)
            numbers.append((3, number, int(what == "then")))
        else:
            numbers.append((STEPS[step], 0, 0))
    return numbers


def standing(alarm):
    """Numbers by which an alarm stands before others: those of its steps, and then its kind."""
    return place_order(alarm["place"][:-1]) + [(0, KINDS.index(alarm["kind"]), 0)]


def last_timeout(contract):
    """The last timeout to which a transaction without inputs comes."""
    last, todo = WRITTEN[0], [contract]
    while todo:
        it = todo.pop()
        if it != "close":
            last = max(last, it.get("timeout", last))
            todo += [it[key] for key in ("then", "else", "timeout_continuation") if key in it]
    return last


def all_timeouts(contract):
    """All timeouts of a contract, those in its cases too."""
    todo = [contract]
    while todo:
        it = todo.pop()
        if it != "close":
            yield from [it["timeout"]] if "timeout" in it else []
            todo += [it[key] for key in ("then", "else", "timeout_continuation") if key in it] + [case["then"] for case in it.get("when", [])]


def leaves_nothing(contract, state, time):
    """Whether a transaction without inputs, from a time on, leaves nothing in a contract, or nothing was left."""
    if contract == "close" and not state["accounts"]:
        return True
    interval = {"from": time, "to": max(time, state["minTime"])}
    try:
        return interpreter.Transaction(state, interval).settle(contract) == "close"
    except interpreter.Refused:
        return False


def closes(contract, state):
    """Whether a transaction without inputs closes a contract from its last timeout on, or it is closed."""
    time = max(last_timeout(contract), state["minTime"])
    try:
        machine = interpreter.Transaction(state, {"from": time, "to": time})
        return machine.settle(contract) == "close"
    except interpreter.Refused:
        return False


def analysis_of(program, contract, state):
    status, out, err = program.ask("analyse", contract, state, flags=["--json"])
    if status not in (0, 3):
        raise Difference(f"analyse ended with status {status}: {err}")
    told = json.loads(out)
    if (status == 3) != bool(told["alarms"]):
        raise Difference(f"status {status} with {len(told['alarms'])} alarms")
    order = [standing(it) for it in told["alarms"]]
    if any(one >= other for one, other in zip(order, order[1:])):
        raise Difference("alarms don't stand in order, or one stands twice")
    parts = [place_order(it) for it in told.get("unreached", [])]
    if any(one >= other or other[:len(one)] == one for one, other in zip(parts, parts[1:])):
        raise Difference("parts that are never reached don't stand in order, or one lies below another")
    if not closes(contract, state) and any(it["least"] is not None for it in told["ranges"]):
        raise Difference("a least is told of a contract that nothing closes")
    time = None if "Leaves128" in {it["kind"] for it in told["alarms"]} else max(all_timeouts(contract), default=state["minTime"])
    if (told["down"] is None) != (time is None):
        raise Difference("what parties can lose is told, or not, whatever leaves 128 bits")
    if told["out_from"] != time:
        raise Difference(f"all can be taken out from {time} on, and not from {told['out_from']}")
    return told


def replay(program, contract, state, alarm):
    """Plays a run that is told, up to its warning."""
    run, at, place = alarm["run"], [], (alarm["kind"], tuple(alarm["place"]))
    for number, tx in enumerate(run, 1):
        status, out, err = program.ask("run", contract, state, tx)
        is_last = number == len(run)
        told, _, at = placed(contract, state, tx, at)
        if is_last and place not in told:
            raise Difference(f"the run to {alarm['kind']} at {alarm['place']} ends elsewhere: {told}", run)
        if is_last and alarm["kind"] == "Leaves128":
            if err != "refused Leaves128":
                raise Difference(f"the run to Leaves128 ends with status {status}: {err}", run)
            return
        if status:
            raise Difference(f"transaction {number} of the run to {alarm['kind']} is {err}", run)
        answer = json.loads(out)
        contract, state = answer["contract"], answer["state"]
        if not is_last and not is_read_again(state):
            raise Difference(f"transaction {number} of the run to {alarm['kind']} leaves a state that isn't read again", run)
        if is_last and alarm["kind"] not in {it["warning"] for it in answer["warnings"]}:
            raise Difference(f"the run to {alarm['kind']} at {alarm['place']} doesn't warn so", run)
    if not run:
        raise Difference(f"the run to {alarm['kind']} has no transaction")


def part_at(contract, place):
    """What stands at an alarm's place: a contract, or of an action its case."""
    at = contract
    for key in place[:-1]:
        at = at if key == "case" else at[key]
    return at


def told_once(program, contract, state, told, count):
    """Compares the lines of alarms for people with the list for tools: of one kind at equal parts the first with a run, and how many others."""
    alike = collections.defaultdict(list)
    for alarm in told["alarms"]:
        alike[alarm["kind"], json.dumps(part_at(contract, alarm["place"]), sort_keys=True)].append(alarm)
    heads = {id(next((it for it in group if it["run"] is not None), group[0])): len(group) - 1 for group in alike.values()}
    lines = []
    for alarm in told["alarms"]:
        if id(alarm) in heads:
            others = heads[id(alarm)]
            place = "".join(f"[{key}]" if isinstance(key, int) else f".{key}" for key in alarm["place"])
            lines.append(f"{alarm['kind']} at {place}" + (", not known" if alarm["run"] is None else ", by this run:"))
            lines += [json.dumps(tx, separators=(",", ":"), ensure_ascii=False) for tx in alarm["run"] or []]
            lines += [f"and at {others} more place{'s' * (others > 1)}"] if others else []
            count["alarms that are told with another"] += others
    out = program.ask("analyse", contract, state)[1].splitlines()
    if out[:len(lines)] != (lines or out[:0]) or not lines and out[0] != "never warns, stays within 128 bits":
        raise Difference(f"the lines of alarms aren't {lines}, but {out[:len(lines)]}")


def sums(contract, state, run):
    """What each party is paid and brings by a run, and whether it leaves nothing in the contract, by interpreter.py."""
    paid, brought = collections.Counter(), collections.Counter()
    for tx in run:
        try:
            it = interpreter.outcome(contract, state, tx)
        except interpreter.Refused as fault:
            raise Difference(f"a run that reaches a bound is refused: {fault}", run)
        for payment in it["payments"]:
            if "party" in payment["to"]:
                paid[party(payment["to"]["party"]), token(payment["token"])] += whole(payment["amount"])
        for given in tx["tx_inputs"]:
            if has(given, "that_deposits"):
                brought[party(given["input_from_party"]), token(given["of_token"])] += max(0, given["that_deposits"])
        contract, state = it["contract"], it["state"]
    return paid, brought, contract == "close" and not state["accounts"]


def reached(contract, state, told, count):
    """Plays each run that is told with a bound."""
    for it in told["ranges"]:
        for end in ("least", "most"):
            count[f"bounds, {end}"] += bool(it[end])
            if it[f"{end}_run"] is not None:
                count[f"bounds, {end}, by a run"] += 1
                paid, _, spent = sums(contract, state, it[f"{end}_run"])
                if paid[party(it["party"]), token(it["token"])] != whole(it[end]) or end == "least" and not spent or not whole(it[end]):
                    raise Difference(f"the run to the {end} {it[end]} doesn't come to it", it[f"{end}_run"])
    for it in told["down"] or []:
        count["bounds, down"] += bool(it["most"])
        if it["run"] is not None:
            count["bounds, down, by a run"] += 1
            paid, brought, spent = sums(contract, state, it["run"])
            who = party(it["party"]), token(it["token"])
            if brought[who] - paid[who] != whole(it["most"]) or not spent or not whole(it["most"]):
                raise Difference(f"the run to a loss of {it['most']} doesn't come to it", it["run"])


def play(program, chance, contract, state, told, count):
    """Plays a random run, and looks whether all that comes was said."""
    kinds, alarms, at = {it["kind"] for it in told["alarms"]}, {(it["kind"], tuple(it["place"])) for it in told["alarms"]}, []
    unreached = {tuple(it) for it in told.get("unreached", [])}
    bounds = {(party(it["party"]), token(it["token"])): (whole(it["least"]), whole(it["most"])) for it in told["ranges"]}
    down = None if told["down"] is None else {(party(it["party"]), token(it["token"])): whole(it["most"]) for it in told["down"]}
    paid, brought, transactions = collections.Counter(), collections.Counter(), []
    for _ in range(MOST_TRANSACTIONS):
        tx = made_transaction(chance, contract, state)
        transactions.append(tx)
        status, out, err = program.ask("run", contract, state, tx)
        count["transactions"] += 1
        come, passed, at = placed(contract, state, tx, at)
        for place in passed:
            if place in unreached:
                raise Difference(f"a transaction comes to {list(place)}, which is told as never reached", transactions)
        for kind, place in come:
            if (kind, place) not in alarms:
                raise Difference(f"{kind} comes at {list(place)}, without an alarm there", transactions)
        if status:
            count[err] += 1
            if err == "refused Leaves128" and "Leaves128" not in kinds:
                raise Difference("a number leaves 128 bits, without an alarm", transactions)
            continue
        answer = json.loads(out)
        for it in answer["warnings"]:
            count[f"warned of {it['warning']}"] += 1
            if it["warning"] not in kinds:
                raise Difference(f"{it['warning']} comes, without an alarm", transactions)
        for it in answer["payments"]:
            if "party" in it["to"]:
                paid[party(it["to"]["party"]), token(it["token"])] += whole(it["amount"])
        for given in tx["tx_inputs"]:
            if has(given, "that_deposits"):
                brought[party(given["input_from_party"]), token(given["of_token"])] += max(0, given["that_deposits"])
        for who, amount in paid.items():
            most = bounds.get(who, (0, 0))[1]
            if most is not None and amount > most:
                raise Difference(f"{who} is paid {amount}, more than {most}", transactions)
        contract, state = answer["contract"], answer["state"]
        if told["out_from"] is not None:
            count["times at which all was taken out"] += 1
            if not leaves_nothing(contract, state, told["out_from"]):
                raise Difference(f"at {told['out_from']} not all can be taken out", transactions)
        if contract == "close" and not state["accounts"]:
            count["runs that closed"] += 1
            for who, (least, _) in bounds.items():
                if least is not None and paid[who] < least:
                    raise Difference(f"{who} is paid {paid[who]}, less than {least}", transactions)
            for who, amount in {} if down is None else brought.items():
                count["losses"] += 1
                count["losses as great as told"] += amount - paid[who] == down.get(who, 0)
                if down.get(who, 0) is not None and amount - paid[who] > down.get(who, 0):
                    raise Difference(f"{who} is {amount - paid[who]} down, more than {down.get(who, 0)}", transactions)
            return
        if not is_read_again(state):
            count["runs to a state that isn't read again"] += 1
            return


def kept(contract, state, transactions):
    """A folder with copies of all that shows a difference."""
    folder = tempfile.mkdtemp(prefix="analysed-")
    for name, it in [("contract", contract), ("state", state), *((f"transaction_{n}", it) for n, it in enumerate(transactions))]:
        with open(f"{folder}/{name}.json", "w") as file:
            json.dump(it, file)
    return folder


def work(arguments):
    """A worker's part: how many there were of each kind, and what differs."""
    number, given = arguments
    count, faults, ends = collections.Counter(), [], time.monotonic() + given.seconds
    corpus = contracts_of_rows()
    with tempfile.TemporaryDirectory(prefix="analysed-", dir="/dev/shm") as room:
        program = Program(given.program, room)
        while time.monotonic() < ends and len(faults) < MOST_FAULTS:
            name = f"{given.seed}.{number}"
            chance, contract, state = made(given, number, corpus)
            number += given.workers
            try:
                told = analysis_of(program, contract, state)
                count["contracts"] += 1
                count["contracts that never warn"] += not told["alarms"]
                for alarm in told["alarms"]:
                    count[f"alarm of {alarm['kind']}, {'not known' if alarm['run'] is None else 'by a run'}"] += 1
                    if alarm["run"] is not None:
                        replay(program, contract, state, alarm)
                reached(contract, state, told, count)
                if number % 8 == 0:
                    told_once(program, contract, state, told, count)
                for _ in range(given.runs):
                    play(program, chance, contract, state, told, count)
                    count["runs"] += 1
                    if time.monotonic() > ends:
                        break
            except Difference as fault:
                faults.append(f"{name}: {fault}: {kept(contract, state, fault.transactions)}")
    return count, faults


def main():
    words = argparse.ArgumentParser(description="compares random runs with what was said of all runs")
    words.add_argument("--seconds", type=float, default=60)
    words.add_argument("--seed", type=int, default=0)
    words.add_argument("--workers", type=int, default=1)
    words.add_argument("--runs", type=int, default=20)
    words.add_argument("--program", default=PROGRAM)
    words.add_argument("--contract", default="")
    words.add_argument("--state", default="")
    words.add_argument("--show", default="")
    given = words.parse_args()
    if not os.path.exists(given.program):
        sys.exit(f"{given.program} isn't built")
    if given.show:
        given.seed, number = given.show.split(".")
        _, contract, state = made(given, int(number), contracts_of_rows())
        print(json.dumps(contract), json.dumps(state), sep="\n")
        with tempfile.TemporaryDirectory(prefix="analysed-") as room:
            print(*Program(given.program, room).ask("analyse", contract, state)[1:], sep="")
        return 0
    with multiprocessing.Pool(given.workers) as pool:
        told = pool.map(work, [(it, given) for it in range(given.workers)])
    count, faults = sum((it[0] for it in told), collections.Counter()), [it for part in told for it in part[1]]
    for kind, many in sorted(count.items()):
        print(f"{many:9} {kind}")
    for fault in faults:
        print(fault)
    print(f"{count['contracts']} contracts, {count['runs']} runs, {len(faults) or 'no'} difference{'s' * (len(faults) > 1)}")
    return 1 if faults else 0


if __name__ == "__main__":
    sys.exit(main())
