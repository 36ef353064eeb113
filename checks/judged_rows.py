"""Judges the transactions of `rows_chain/data/transactions` by the rules of docs/ledger_rules.md, apart from the programs, and compares that with
the verdicts in those of these files whose rows are checks.

Needs    interpreter.py, ledger.py and transactions.py beside it; nothing built.
Usage    judged_rows.py
Expect   `FILE ok N verdicts` for each of seven files, in some seconds.
Else     the first verdict that differs, as it is written and as it is here, and status 1.
"""
import hashlib
import json
import os
import sys
from collections import namedtuple

import interpreter
import ledger
import transactions
from transactions import DATA, NoSuchRow, wanted, whole

FILES = ("rules.txt", "starts.txt", "steps.txt", "roles.txt", "order.txt", "blocks.txt", "stubborn.txt")
CONTRACTS = 8

# A lock is ("key", address), ("payout", currency, role) or ("contract", script, digest).
Output = namedtuple("Output", "lock amount")
Datum = namedtuple("Datum", "number state")
Input = namedtuple("Input", "reference kind given")
Published = namedtuple("Published", "script currency contracts")


def numbered(contract, found):
    """Puts a contract's parts before it, each once: the contracts by their numbers."""
    if contract != "close":
        for case in contract.get("when", []):
            numbered(case["then"], found)
        for key in ("then", "else", "timeout_continuation"):
            if key in contract:
                numbered(contract[key], found)
    if contract not in found:
        found.append(contract)
    return found


def spelled(datum):
    return transactions.datum(str(datum.number), datum.state)


def form(word):
    return {"accounts": [], "choices": [], "boundValues": [], "minTime": 0} if word == "empty" else json.loads(word)


def named(amount):
    """What the accounts of a state hold, with the tokens as amounts have them."""
    return {of: number for of, number in amount.items() if number}


class Refused(Exception):
    """A rule refuses the transaction with this fault."""


class Desk:
    """What is written for the next row."""

    def __init__(self):
        self.published = {}
        self.begin()

    def begin(self):
        self.inputs, self.finds, self.outputs, self.signers, self.interval, self.data = [], [], [], [], (0, 0), []

    # ---- lines

    def take(self, word, rest):
        words = rest.split()
        if word == "script":
            contract, currency = json.loads(rest.split(" ", 2)[2]), bytes.fromhex(words[1])
            script = bytes.fromhex(ledger.script_id(contract, currency))
            self.published[words[0]] = Published(script, currency, numbered(contract, []))
        elif word == "in":
            self.inputs.append(self.spend(words))
        elif word == "finds":
            self.find(words)
        elif word == "many":
            for index in range(int(words[0])):
                self.inputs.append(Input(("genesis", str(index)), "none", []))
                self.finds.append(Output(("key", words[1]), {transactions.ADA: 1}))
        elif word == "out":
            output, datum = self.output(words)
            self.outputs.append(output)
            self.data += [datum] if datum else []
        elif word == "from":
            self.interval = whole(words[0]), whole(words[2])
        elif word == "signer":
            self.signers.append(rest)
        elif word == "datums":
            self.data = [Datum(whole(number), state) for number, state in zip(words[::2], words[1::2])]
        else:
            raise NoSuchRow

    def spend(self, words):
        origin, _, index = words[0].partition(".")
        given = words[2:]
        if words[1] == "notifies":
            given = ["notify"] * int(words[2])
        kind = {"notifies": "step"}.get(words[1], words[1])
        return Input((origin, index), kind, [contract_input(word) for word in given])

    def find(self, words):
        if words == ["nothing"]:
            self.finds.append(None)
            return
        output, datum = self.output(words)
        self.finds.append(output)
        if datum:
            made = sum(each.lock[0] == "contract" for each in self.outputs)
            self.data.insert(max(len(self.data) - made, 0), datum)

    def output(self, words):
        sort, *rest = words
        if sort == "key":
            return Output(("key", rest[0]), transactions.amounts(rest[1:])), None
        if sort == "payout":
            return Output(("payout", bytes.fromhex(rest[0]), rest[1]), transactions.amounts(rest[2:])), None
        wanted(sort == "contract")
        if rest[0].startswith("@"):
            published = self.published[rest[0][1:]]
            script, root = published.script, len(published.contracts) - 1
        else:
            script, root = bytes.fromhex(rest[0]), 0
        datum = Datum(root if rest[1] == "root" else whole(rest[1]), rest[2])
        digest = hashlib.sha256(spelled(datum)).digest()
        return Output(("contract", script, digest), transactions.amounts(rest[3:])), datum

    # ---- the rules

    def verdict(self, stubborn):
        try:
            self.judge(stubborn)
        except Refused as fault:
            return f"refused {fault}"
        return "accepted"

    def judge(self, stubborn):
        if not self.inputs:
            raise Refused("NoInputs")
        if len(self.inputs) > 256 or any(len(each.given) > 256 for each in self.inputs):
            raise Refused("TooMany")
        for place, each in enumerate(self.inputs):
            if each.reference in [before.reference for before in self.inputs[:place]]:
                raise Refused(f"RepeatedInput({place})")
        self.scripts = {each.script: each for each in self.published.values()}
        locks = [each.lock for each in self.finds + self.outputs if each]
        if None in self.finds or any(lock[0] == "contract" and lock[1] not in self.scripts for lock in locks):
            return
        self.judge_spent(stubborn)

    def judge_spent(self, stubborn):
        self.spent = list(zip(self.inputs, self.finds))
        self.held = ledger.added(*(output.amount for _, output in self.spent if output.lock[0] == "key"))
        for place, (_, output) in enumerate(self.spent):
            if output.lock[0] == "key" and output.lock[1] not in self.signers:
                raise Refused(f"NotSigned({place})")
        steps = [(each, output) for each, output in self.spent if output.lock[0] == "contract"]
        if len(steps) > CONTRACTS:
            raise Refused("TooManyContracts")
        for place, (each, output) in enumerate(self.spent):
            if each.kind != {"key": "none", "payout": "claim", "contract": "step"}[output.lock[0]]:
                raise Refused(f"WrongRedeemer({place})")
        for place, (_, output) in enumerate(self.spent):
            if output.lock[0] == "payout" and (stubborn or not self.held.get((output.lock[1], output.lock[2].encode()))):
                raise Refused(f"RoleMissing({place})")
        datum_fault = self.wrong_datum(steps)
        if not datum_fault:
            self.judge_steps(steps, stubborn)
        self.judge_sums()
        if datum_fault:
            raise Refused(datum_fault)

    def wrong_datum(self, steps):
        """19"""
        made = [output for output in self.outputs if output.lock[0] == "contract"]
        digests = [output.lock[2] for output in [each for _, each in steps] + made]
        brought = [hashlib.sha256(spelled(datum)).digest() for datum in self.data]
        for place in range(max(len(digests), len(brought))):
            if digests[place:place + 1] != brought[place:place + 1]:
                return f"WrongDatum({place})"
        return None

    def judge_steps(self, steps, stubborn):
        """12 to 17"""
        faults, goes_on, start = [], set(), 0
        for place, (each, output) in enumerate(steps):
            found, size, on = self.block(each, output, self.data[place], start, len(steps), stubborn)
            faults += [found] if found else []
            goes_on |= {start} if on else set()
            start += size
        if faults:
            raise Refused(min(faults, key=lambda fault: fault[0])[1])
        for place, output in enumerate(self.outputs):
            if output.lock[0] != "contract":
                continue
            if steps and place not in goes_on:
                raise Refused(f"StrayContract({place})")
            if not steps and not stubborn and not self.starts(output, self.datum_of(place, 0)):
                raise Refused(f"WrongStart({place})")

    def block(self, each, output, datum, start, steps, stubborn):
        """The block of a contract from a place: its fault with its number, how many outputs it has, and whether the contract goes on."""
        if stubborn:
            return (14, "WrongContinuation"), 1, True
        published = self.scripts[output.lock[1]]
        told = {"tx_interval": {"from": self.interval[0], "to": self.interval[1]}, "tx_inputs": each.given}
        try:
            if datum.number >= len(published.contracts):
                raise interpreter.Refused("NoMatch")
            run, left = interpreter.finished(published.contracts[datum.number], form(datum.state), told)
        except interpreter.Refused as fault:
            return (12, f"Semantics({fault})"), 0, False
        due = [payment for payment in (ledger.payment_output(published.currency, payment) for payment in run.payments) if payment]
        on = left != "close"
        size = on + len(due)
        barred = self.barred(published.currency, each.given)
        if barred:
            return (13, f"NotAuthorised({barred})"), size, on
        if on and not self.continues(output.lock[1], published, run, left, start, steps):
            return (14, "WrongContinuation"), size, on
        for place, payment in enumerate(due, start + on):
            there = self.outputs[place] if place < len(self.outputs) else None
            if there is None or there.lock != payment.lock or there.amount != payment.amount:
                return (15, f"WrongPayment({place})"), size, on
        return None, size, on

    def barred(self, currency, given):
        for party in filter(None, map(ledger.needed, given)):
            if "address" in party and party["address"] not in self.signers:
                return "address " + party["address"]
            if "role_token" in party and not self.held.get(ledger.role_token(currency, party)):
                return "role " + party["role_token"]
        return None

    def continues(self, script, published, run, left, place, steps):
        if place >= len(self.outputs) or self.outputs[place].lock[:2] != ("contract", script):
            return False
        state = interpreter.state_json(run, int)
        wanted_datum = Datum(published.contracts.index(left), json.dumps(state))
        return spelled(self.datum_of(place, steps)) == spelled(wanted_datum) and self.outputs[place].amount == named(ledger.sums(state))

    def datum_of(self, place, steps):
        """The datum that is brought for the contract output at a place."""
        return self.data[steps + sum(each.lock[0] == "contract" for each in self.outputs[:place])]

    def starts(self, output, datum):
        state = form(datum.state)
        return (datum.number == len(self.scripts[output.lock[1]].contracts) - 1 and not state["choices"] and not state["boundValues"]
                and output.amount == named(ledger.sums(state)))

    def judge_sums(self):
        """18"""
        spent, made = (ledger.added(*(each.amount for each in part)) for part in (self.finds, self.outputs))
        other = [of for of in spent | made if spent.get(of, 0) != made.get(of, 0)]
        if other:
            raise Refused(f"NotPreserved({transactions.name_of(min(other))})")


def contract_input(word):
    if word == "notify":
        return "input_notify"
    if word.startswith("deposit:"):
        party, account, amount = word.split(":")[1:]
        ada = {"currency_symbol": "", "token_name": ""}
        return {"input_from_party": {"address": party}, "into_account": {"address": account}, "of_token": ada, "that_deposits": int(amount)}
    return json.loads(word)


def lines_of(name):
    """The lines of a file, those of the files that it uses in their places."""
    with open(os.path.join(DATA, name)) as file:
        for line in file.read().splitlines():
            if line.startswith("use "):
                yield from lines_of(line[4:])
            else:
                yield line


def compare(name):
    desk, verdict, count = Desk(), None, 0
    for line in lines_of(name):
        word, _, rest = line.partition(" ")
        if word == "=":
            if verdict is not None and rest != verdict:
                sys.exit(f"{name}, verdict {count}: written {rest}\nhere {verdict}")
        elif word == "check":
            verdict, count = desk.verdict(rest == "stubborn"), count + 1
            desk.begin()
        elif word == "transaction":
            verdict = None
            desk.begin()
        elif word not in ("", "-"):
            verdict = None
            desk.take(word, rest)
    print(f"{name} ok {count} verdicts")


if __name__ == "__main__":
    for each in FILES:
        compare(each)
