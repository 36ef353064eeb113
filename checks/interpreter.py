"""A small interpreter of Marlowe in plain Python, written from docs/semantics.md and docs/formats.md, to compare the program with.

Needs    nothing: it has no code of the program, and shares none of its definitions.
Usage    compare.py, ledger.py and the suite in ../conformance import it.
         interpreter.py CONTRACT STATE TRANSACTION       prints the same of these files
Expect   `printed(contract, state, transaction)` to give the text that `marlowe run` prints. It reads contracts as JSON data, takes each
         form at its word, and says nothing of malformed input. A list that is handed over as `taken` gets the rules that a transaction takes, in
         their order: the names of ../conformance/rules.py, some with the way in which it goes behind a colon.
"""
import json
import sys

LEAST, GREATEST = -2**127, 2**127 - 1
# Stands in `taken` behind a rule that comes to a number that JSON doesn't have.
WIDE = "wide"


class Refused(Exception):
    """The transaction is refused with the fault of this name."""


# ---- names, as tuples that can be keys

def party(p):
    return (0, p["address"]) if "address" in p else (1, p["role_token"])


def token(t):
    return bytes.fromhex(t["currency_symbol"]), t["token_name"]


def choice_id(i):
    return i["choice_name"], party(i["choice_owner"])


def payee(p):
    return ("account", party(p["account"])) if "account" in p else ("party", party(p["party"]))


def party_json(p):
    return {("address", "role_token")[p[0]]: p[1]}


def token_json(t):
    return {"currency_symbol": t[0].hex(), "token_name": t[1]}


def choice_json(i):
    return {"choice_name": i[0], "choice_owner": party_json(i[1])}


def payee_json(p):
    return {p[0]: party_json(p[1])}


def account_order(entry):
    (owner, (symbol, name)), _ = entry
    return owner[0], owner[1].encode(), symbol, name.encode()


def choice_order(entry):
    (name, owner), _ = entry
    return name.encode(), owner[0], owner[1].encode()


def has(form, *keys):
    return isinstance(form, dict) and all(key in form for key in keys)


def quotient(a, b):
    """A quotient, truncated toward zero, and the rule for it."""
    if b == 0:
        return "quotient by 0", 0
    whole, rest = divmod(abs(a), abs(b))
    way = "a rest" if rest else "exact"
    if (a < 0) == (b < 0):
        return f"quotient:{'below 0 both' if b < 0 else 'above 0'}, {way}", whole
    return f"quotient:{'below 0' if a < 0 else 'by below 0'}, {way}", -whole


COMPARISONS = {
    "ge_than": lambda a, b: a >= b,
    "gt": lambda a, b: a > b,
    "lt": lambda a, b: a < b,
    "le_than": lambda a, b: a <= b,
    "equal_to": lambda a, b: a == b,
}


class Transaction:
    """One transaction on its way: the fixed interval, the state, and the warnings, payments and rules so far."""

    def __init__(self, state, interval, taken=None):
        # a number that JSON doesn't have is a text of its digits
        self.accounts = {(party(p), token(t)): int(n) for (p, t), n in state["accounts"]}
        self.choices = {choice_id(i): int(n) for i, n in state["choices"]}
        self.bound = {name: int(n) for name, n in state["boundValues"]}
        self.warnings, self.payments, self.turned = [], [], False
        self.taken = [] if taken is None else taken
        if interval["to"] < interval["from"]:
            self.refuse("InvalidInterval")
        if interval["to"] < state["minTime"]:
            self.refuse("IntervalInPast")
        self.took("start moved up" if interval["from"] < state["minTime"] else "start kept")
        self.start = self.min_time = max(interval["from"], state["minTime"])
        self.end = interval["to"]

    # ---- the rules that are taken

    def took(self, rule):
        self.taken.append(rule)

    def refuse(self, fault, way=""):
        self.took(fault + way)
        raise Refused(fault)

    def visited(self, rule, number):
        """A number to which a rule comes."""
        if not LEAST <= number <= GREATEST:
            self.refuse("Leaves128", f":{rule}")
        self.took(rule)
        if wide(number) != number:
            self.took(WIDE)
        return number

    def found(self, rule, numbers, key):
        """What the state has under a key, or 0."""
        return self.visited(f"{rule}:{'there' if key in numbers else 'absent'}", numbers.get(key, 0))

    def truth(self, rule, holds):
        self.took(f"{rule}:{'true' if holds else 'false'}")
        return holds

    # ---- values and observations

    def value(self, v):
        if isinstance(v, int):
            return self.visited("constant", v)
        if v == "time_interval_start":
            return self.visited("interval start", self.start)
        if v == "time_interval_end":
            return self.visited("interval end", self.end)
        if has(v, "amount_of_token", "in_account"):
            return self.found("money", self.accounts, (party(v["in_account"]), token(v["amount_of_token"])))
        if has(v, "negate"):
            return self.visited("negate", -self.value(v["negate"]))
        if has(v, "add", "and"):
            return self.visited("add", self.value(v["add"]) + self.value(v["and"]))
        if has(v, "value", "minus"):
            return self.visited("subtract", self.value(v["value"]) - self.value(v["minus"]))
        if has(v, "multiply", "times"):
            return self.visited("multiply", self.value(v["multiply"]) * self.value(v["times"]))
        if has(v, "divide", "by"):
            return self.visited(*quotient(self.value(v["divide"]), self.value(v["by"])))
        if has(v, "value_of_choice"):
            return self.found("number chosen", self.choices, choice_id(v["value_of_choice"]))
        if has(v, "use_value"):
            return self.found("name", self.bound, v["use_value"])
        return self.value(v["then" if self.truth("cond", self.holds(v["if"])) else "else"])

    def holds(self, o):
        if isinstance(o, bool):
            return self.truth("constant truth", o)
        if has(o, "both", "and"):
            if not self.holds(o["both"]):
                return self.truth("both:by the left", False)
            return self.truth("both", self.holds(o["and"]))
        if has(o, "either", "or"):
            if self.holds(o["either"]):
                return self.truth("either:by the left", True)
            return self.truth("either", self.holds(o["or"]))
        if has(o, "not"):
            return self.truth("not", not self.holds(o["not"]))
        if has(o, "chose_something_for"):
            return self.truth("chosen", choice_id(o["chose_something_for"]) in self.choices)
        word = next(word for word in COMPARISONS if word in o)
        a, b = self.value(o["value"]), self.value(o[word])
        self.took(f"{word}:{'less' if a < b else 'equal' if a == b else 'greater'}")
        return COMPARISONS[word](a, b)

    # ---- reductions

    def set_account(self, account, amount):
        if amount == 0:
            self.accounts.pop(account, None)
        else:
            self.accounts[account] = amount

    def warn(self, warning, **keys):
        self.warnings.append({"warning": warning, **keys})

    def pay(self, c):
        due = self.value(c["pay"])
        source, target, coin = party(c["from_account"]), payee(c["to"]), token(c["token"])
        told = {"account": party_json(source), "payee": payee_json(target), "token": token_json(coin)}
        if due <= 0:
            self.took("pay of nothing:0" if due == 0 else "pay of nothing:below 0")
            self.warn("NonPositivePay", amount=due, **told)
            return
        balance = self.accounts.get((source, coin), 0)
        paid = min(balance, due)
        self.took(f"pay in part:{'something' if paid else 'nothing'}" if paid < due else f"pay in full:{'a rest' if paid < balance else 'all'}")
        self.set_account((source, coin), balance - paid)
        if target[0] == "account":
            account = (target[1], coin)
            rule = "pay to an account:" + ("itself" if target[1] == source else "that holds" if account in self.accounts else "new")
            self.set_account(account, self.visited(rule, self.accounts.get(account, 0) + paid))
        else:
            self.took("pay to a party")
        if paid < due:
            self.warn("PartialPay", paid=paid, expected=due, **told)
        self.payments.append((source, target, coin, paid))

    def close(self):
        for (owner, coin), amount in sorted(self.accounts.items(), key=account_order):
            self.took("refund")
            self.payments.append((owner, ("party", owner), coin, amount))
            self.turned = True
        self.took("close is quiet")
        self.accounts = {}

    def settle(self, c):
        """Reduces until all is quiet, and gives the contract that is left."""
        while c != "close":
            if has(c, "pay", "token", "from_account", "to", "then"):
                self.pay(c)
                c = c["then"]
            elif has(c, "if", "then", "else"):
                c = c["then" if self.truth("if", self.holds(c["if"])) else "else"]
            elif has(c, "when", "timeout", "timeout_continuation"):
                if self.end < c["timeout"]:
                    self.took("when waits")
                    return c
                if self.start < c["timeout"]:
                    self.refuse("Ambiguous")
                self.took("timed out")
                c = c["timeout_continuation"]
            elif has(c, "let", "be", "then"):
                name, number = c["let"], self.value(c["be"])
                self.took("let:again" if name in self.bound else "let:new")
                if name in self.bound:
                    self.warn("Shadowing", name=name, new=number, old=self.bound[name])
                self.bound[name] = number
                c = c["then"]
            else:
                if not self.truth("assert", self.holds(c["assert"])):
                    self.warn("AssertionFailed")
                c = c["then"]
            self.turned = True
        self.close()
        return c

    # ---- inputs

    def matches(self, given, action):
        if has(action, "party", "deposits", "of_token", "into_account"):
            return self.is_of_kind(has(given, "that_deposits")) and self.is_deposit(given, action)
        if has(action, "for_choice", "choose_between"):
            return self.is_of_kind(has(given, "for_choice_id")) and self.is_choice(given, action)
        return self.is_of_kind(given == "input_notify") and self.truth("notify", self.holds(action["notify_if"]))

    def is_of_kind(self, same):
        if not same:
            self.took("case of another kind")
        return same

    def is_deposit(self, given, action):
        if party(given["into_account"]) != party(action["into_account"]):
            return self.no("deposit:another account")
        if party(given["input_from_party"]) != party(action["party"]):
            return self.no("deposit:another party")
        if token(given["of_token"]) != token(action["of_token"]):
            return self.no("deposit:another token")
        if self.value(action["deposits"]) != given["that_deposits"]:
            return self.no("deposit:another amount")
        self.took("deposit:matches")
        return True

    def is_choice(self, given, action):
        if choice_id(given["for_choice_id"]) != choice_id(action["for_choice"]):
            return self.no("choice:another")
        for index, b in enumerate(action["choose_between"]):
            if b["from"] <= given["input_that_chooses_num"] <= b["to"]:
                self.took("choice:a later bound" if index else "choice:the first bound")
                return True
        return self.no("choice:out of bounds")

    def no(self, rule):
        self.took(rule)
        return False

    def take(self, given):
        if has(given, "that_deposits"):
            account, amount = (party(given["into_account"]), token(given["of_token"])), given["that_deposits"]
            if amount <= 0:
                self.took("deposit of nothing:0" if amount == 0 else "deposit of nothing:below 0")
                self.warn("NonPositiveDeposit", account=party_json(account[0]), amount=amount,
                          party=party_json(party(given["input_from_party"])), token=token_json(account[1]))
            else:
                rule = "deposited:more" if account in self.accounts else "deposited:new"
                self.set_account(account, self.visited(rule, self.accounts.get(account, 0) + amount))
        elif has(given, "for_choice_id"):
            choice = choice_id(given["for_choice_id"])
            self.took("recorded:again" if choice in self.choices else "recorded:new")
            self.choices[choice] = given["input_that_chooses_num"]

    def apply(self, given, c):
        """Applies an input, and gives the contract of the first case that matches."""
        for case in [] if c == "close" else c["when"]:
            if self.matches(given, case["case"]):
                self.take(given)
                self.turned = True
                return case["then"]
        self.refuse("NoMatch", ":closed" if c == "close" else "")


def wide(number):
    return number if -2**63 <= number < 2**64 else str(number)


def finished(contract, state, transaction, taken=None):
    """A transaction at its end, and the contract that is left."""
    run = Transaction(state, transaction["tx_interval"], taken)
    left = run.settle(contract)
    for given in transaction["tx_inputs"]:
        left = run.settle(run.apply(given, left))
    if not run.turned:
        run.refuse("Useless")
    run.took("done")
    return run, left


def state_json(run, told):
    """The state that a transaction leaves, its numbers told by a function."""
    accounts = [[[party_json(p), token_json(t)], told(n)] for (p, t), n in sorted(run.accounts.items(), key=account_order)]
    choices = [[choice_json(i), told(n)] for i, n in sorted(run.choices.items(), key=choice_order)]
    bound = [[x, told(n)] for x, n in sorted(run.bound.items(), key=lambda entry: entry[0].encode())]
    return {"accounts": accounts, "boundValues": bound, "choices": choices, "minTime": run.min_time}


def outcome(contract, state, transaction):
    """What a transaction leaves, as JSON data."""
    return outcome_of(*finished(contract, state, transaction))


def outcome_of(run, left):
    """What a transaction at its end leaves."""
    payments = [{"payment_from": party_json(a), "to": payee_json(p), "token": token_json(t), "amount": wide(n)} for a, p, t, n in run.payments]
    warnings = [{key: wide(v) if isinstance(v, int) else v for key, v in w.items()} for w in run.warnings]
    return {"contract": left, "payments": payments, "state": state_json(run, wide), "warnings": warnings}


def printed(contract, state, transaction):
    """What the program should print, without its line feed."""
    try:
        return json.dumps(outcome(contract, state, transaction), separators=(",", ":"), sort_keys=True, ensure_ascii=False)
    except Refused as fault:
        return f"refused {fault}"


def data_of(path):
    with open(path, encoding="utf-8") as file:
        return json.load(file)


if __name__ == "__main__":
    print(printed(*map(data_of, sys.argv[1:4])))
