"""A ledger of contracts and its builders in plain Python, written from docs/ledger.md, docs/building.md and docs/formats.md.

Needs    interpreter.py and transactions.py beside it; it has no code of the program, and shares none of its definitions.
Usage    plays.py imports it.
Expect   `Chain.call` to give the reply to a call, and `built_steps`, `built_start` and `built_claim` a transaction, or the `Hindered` that
         stands in its way. An output is named by the place of its transaction among the accepted ones, and not by a hash; a chain judges only
         what a built transaction can be refused for.
"""
import hashlib
import json
from collections import namedtuple

import interpreter
import transactions
from interpreter import has

GREATEST = 2**127 - 1
INPUTS, PARTS, PENDING = 256, 8, 1024
ADA = (b"", b"")

# A transaction tells of each contract that it spends the place of the output in which it goes on, by the reference, or None where it is over.
# A lock is ("key", address), ("payout", currency, role) or ("contract", script, contract, state): the last has its datum where the ledger's has
# the datum's digest, so that a transaction lists no data. An amount maps tokens to numbers above 0.
Output = namedtuple("Output", "lock amount")
Transaction = namedtuple("Transaction", "inputs outputs interval signers goes_on", defaults=({},))
Published = namedtuple("Published", "script contract currency")
Ask = namedtuple("Ask", "thread keys payouts")
Look = namedtuple("Look", "tick thread keys payouts")
Reply = namedtuple("Reply", "text look fault", defaults=(None, None))


class Hindered(Exception):
    """The request is refused with the fault of this text."""


# ---- terms

def compact(form):
    return json.dumps(form, separators=(",", ":"), sort_keys=True, ensure_ascii=False)


def token(form):
    return bytes.fromhex(form["currency_symbol"]), form["token_name"].encode()


def token_json(of):
    return {"currency_symbol": of[0].hex(), "token_name": of[1].decode()}


def amount(rows):
    return {token(of): number for of, number in rows}


def added(*amounts):
    total = {}
    for each in amounts:
        for of, number in each.items():
            total[of] = total.get(of, 0) + number
    return total


def less(held, taken):
    left = {of: number - taken.get(of, 0) for of, number in held.items()}
    return {of: number for of, number in left.items() if number}


def sums(state):
    """What the accounts of a state hold together."""
    return added(*({token(of): number} for (_, of), number in state["accounts"]))


# ---- scripts

VALUES = ["amount_of_token in_account", "", "negate", "add and", "value minus", "multiply times", "divide by", "value_of_choice", "", "",
          "use_value", "if then else"]
OBSERVATIONS = ["both and", "either or", "not", "chose_something_for", "value ge_than", "value gt", "value lt", "value le_than", "value equal_to"]
CONTRACTS = ["", "pay token from_account to then", "if then else", "when timeout timeout_continuation", "let be then", "assert then"]


def form_of(forms, form):
    """The tag of a form and its keys."""
    tag = next(tag for tag, keys in enumerate(forms) if keys and set(keys.split()) == set(form))
    return bytes([tag]), forms[tag].split()


def value_bytes(form):
    if isinstance(form, int):
        return b"\1" + transactions.signed(form, 16)
    if isinstance(form, str):
        return {"time_interval_start": b"\x08", "time_interval_end": b"\x09"}[form]
    tag, keys = form_of(VALUES, form)
    if "in_account" in keys:
        return tag + transactions.party(form["in_account"]) + transactions.token(form["amount_of_token"])
    own = {"value_of_choice": transactions.choice_id, "use_value": transactions.text, "if": observation_bytes}
    return tag + b"".join(own.get(key, value_bytes)(form[key]) for key in keys)


def observation_bytes(form):
    if isinstance(form, bool):
        return b"\x09" if form else b"\x0a"
    tag, keys = form_of(OBSERVATIONS, form)
    if "value" in keys:
        return tag + b"".join(value_bytes(form[key]) for key in keys)
    own = {"chose_something_for": transactions.choice_id}
    return tag + b"".join(own.get(key, observation_bytes)(form[key]) for key in keys)


def payee_bytes(form):
    (key, who), = form.items()
    return bytes([["account", "party"].index(key)]) + transactions.party(who)


def action_bytes(form):
    if "deposits" in form:
        return (b"\0" + transactions.party(form["into_account"]) + transactions.party(form["party"]) + transactions.token(form["of_token"])
                + value_bytes(form["deposits"]))
    if "for_choice" in form:
        ends = [transactions.signed(bound["from"], 16) + transactions.signed(bound["to"], 16) for bound in form["choose_between"]]
        return b"\1" + transactions.choice_id(form["for_choice"]) + transactions.items(ends)
    return b"\2" + observation_bytes(form["notify_if"])


def contract_bytes(form):
    if form == "close":
        return b"\0"
    tag, _ = form_of(CONTRACTS, form)
    if "pay" in form:
        return (tag + transactions.party(form["from_account"]) + payee_bytes(form["to"]) + transactions.token(form["token"])
                + value_bytes(form["pay"]) + contract_bytes(form["then"]))
    if "if" in form:
        return tag + observation_bytes(form["if"]) + contract_bytes(form["then"]) + contract_bytes(form["else"])
    if "when" in form:
        cases = [action_bytes(case["case"]) + contract_bytes(case["then"]) for case in form["when"]]
        return tag + transactions.items(cases) + transactions.signed(form["timeout"], 8) + contract_bytes(form["timeout_continuation"])
    if "let" in form:
        return tag + transactions.text(form["let"]) + value_bytes(form["be"]) + contract_bytes(form["then"])
    return tag + observation_bytes(form["assert"]) + contract_bytes(form["then"])


def script_id(contract, currency):
    return hashlib.sha256(contract_bytes(contract) + transactions.string(currency)).hexdigest()


# ---- what is built

def covers(held, wanted):
    return all(held.get(of, 0) >= number for of, number in wanted.items())


def shortest_front(offered, least, roles, wanted):
    """The first of the offered outputs, as few as hold these tokens and cover what is wanted, and no fewer than `least`."""
    for count in range(least, len(offered) + 1):
        front = offered[:count]
        held = added(*(output.amount for _, output in front))
        if all(held.get(role, 0) > 0 for role in roles) and covers(held, wanted):
            return front
    raise AssertionError("a front was looked for where none suffices")


def least_lacking(offered, wanted):
    held = added(*(output.amount for _, output in offered))
    return min((of for of, number in wanted.items() if held.get(of, 0) < number), default=None)


def signed_by(offered, signers):
    return all(output.lock[0] == "key" and output.lock[1] in signers for _, output in offered)


def names_twice(references):
    return len(set(references)) < len(references)


def too_many(spent):
    return len(spent) > INPUTS or any(number > GREATEST for number in added(*(output.amount for _, output in spent)).values())


def no_funds(of):
    return Hindered("NoFunds " + compact(token_json(of)))


def not_authorised(party):
    return Hindered("NotAuthorised " + compact(party))


def key_outputs(address, *amounts):
    """An output for each amount in which there is something."""
    return [Output(("key", address), held) for held in amounts if held]


def needed(given):
    """Who has to act for an input: the depositor, the owner of the choice, or nobody."""
    if given == "input_notify":
        return None
    return given["input_from_party"] if "input_from_party" in given else given["for_choice_id"]["choice_owner"]


def deposits(inputs):
    rows = [(given["of_token"], given["that_deposits"]) for given in inputs if has(given, "that_deposits")]
    return added(*({token(of): number} for of, number in rows if number > 0))


def role_token(currency, party):
    return currency, party["role_token"].encode()


def payment_output(currency, payment):
    """The output of a payment to a party, or None where it takes none."""
    _, (kind, party), (symbol, name), paid = payment
    if kind != "party" or paid == 0:
        return None
    lock = ("key", party[1]) if party[0] == 0 else ("payout", currency, party[1])
    return Output(lock, {(symbol, name.encode()): paid})


def too_many_in(parts):
    return len(parts) > PARTS or any(len(inputs) > INPUTS for _, inputs in parts)


def check_actors(currency, inputs, signers, held):
    """Whether each party of a part may act, by a signature or by a role token of the part's currency."""
    for party in filter(None, map(needed, inputs)):
        signs = "address" in party and party["address"] in signers
        if not signs and ("address" in party or not held.get(role_token(currency, party))):
            raise not_authorised(party)


def run_of(thread, interval, inputs):
    """What a thread's contract makes of its inputs, and what is left of it."""
    _, output, _ = thread
    _, _, contract, state = output.lock
    try:
        return interpreter.finished(contract, state, {"tx_interval": interval, "tx_inputs": inputs})
    except interpreter.Refused as fault:
        raise Hindered(f"Semantics {fault}") from None


def block_of(thread, run, left):
    """The outputs of a part: the one in which the contract goes on, where it isn't over, and the payments."""
    _, output, published = thread
    outputs = [each for each in (payment_output(published.currency, payment) for payment in run.payments) if each]
    if left == "close":
        return outputs
    state = interpreter.state_json(run, int)
    return [Output(("contract", output.lock[1], left, state), sums(state))] + outputs


def built_steps(parts, interval, signers, offered, change):
    """Steps of the threads that looks show, each with its inputs, in one transaction."""
    threads = [look.thread for look, _ in parts]
    if not threads or None in threads:
        raise Hindered("NoThread")
    runs = [run_of(thread, interval, inputs) for thread, (_, inputs) in zip(threads, parts)]
    if not signed_by(offered, signers):
        raise Hindered("NotSigned")
    held = added(*(each.amount for _, each in offered))
    for (_, _, published), (_, inputs) in zip(threads, parts):
        check_actors(published.currency, inputs, signers, held)
    wanted = added(*(deposits(inputs) for _, inputs in parts))
    lacking = least_lacking(offered, wanted)
    if lacking is not None:
        raise no_funds(lacking)
    roles = {role_token(published.currency, party) for (_, _, published), (_, inputs) in zip(threads, parts)
             for party in map(needed, inputs) if party and "role_token" in party}
    front = shortest_front(offered, 0, roles, wanted)
    own = [(reference, output) for reference, output, _ in threads]
    if too_many_in(parts) or too_many(own + front):
        raise Hindered("TooMany")
    if names_twice([each for each, _ in own + offered]):
        raise Hindered("Repeated")
    outputs, goes_on = [], {}
    for (reference, _, _), thread, (run, left) in zip(threads, threads, runs):
        goes_on[reference] = None if left == "close" else len(outputs)
        outputs += block_of(thread, run, left)
    return laid_out(own + front, outputs, interval, signers, change)._replace(goes_on=goes_on)


def laid_out(spent, outputs, interval, signers, change):
    """A transaction whose rest goes to the address for the change."""
    rest = less(added(*(each.amount for _, each in spent)), added(*(each.amount for each in outputs)))
    return Transaction([each for each, _ in spent], outputs + key_outputs(change, rest), interval, signers)


def built_start(published, state, interval, signers, offered, change):
    if not signed_by(offered, signers):
        raise Hindered("NotSigned")
    wanted = sums(state)
    lacking = least_lacking(offered, wanted) if offered else ADA
    if lacking is not None:
        raise no_funds(lacking)
    front = shortest_front(offered, 1, [], wanted)
    if too_many(front):
        raise Hindered("TooMany")
    if names_twice([each for each, _ in offered]):
        raise Hindered("Repeated")
    begun = {"accounts": state["accounts"], "choices": [], "boundValues": [], "minTime": state["minTime"]}
    return laid_out(front, [Output(("contract", published.script, published.contract, begun), wanted)], interval, signers, change)


def built_claim(payouts, interval, signers, offered, to, change):
    if not payouts or any(output.lock[0] != "payout" for _, output in payouts):
        raise Hindered("NoThread")
    if not signed_by(offered, signers):
        raise Hindered("NotSigned")
    held = added(*(each.amount for _, each in offered))
    for _, output in payouts:
        _, currency, role = output.lock
        if not held.get((currency, role.encode())):
            raise not_authorised({"role_token": role})
    roles = {(output.lock[1], output.lock[2].encode()) for _, output in payouts}
    front = shortest_front(offered, 0, roles, {})
    if too_many(payouts + front):
        raise Hindered("TooMany")
    if names_twice([each for each, _ in payouts + offered]):
        raise Hindered("Repeated")
    claimed, rest = (added(*(output.amount for _, output in part)) for part in (payouts, front))
    return Transaction([each for each, _ in payouts + front], key_outputs(to, claimed) + key_outputs(change, rest), interval, signers)


# ---- the chain

class Chain:
    """What stands after the calls so far. `unspent` is in order of creation; `spender` tells which accepted transaction spends an output."""

    def __init__(self, outputs, tick):
        self.tick, self.published, self.pending, self.tickets = tick, {}, [], 0
        self.unspent = {("genesis", place): output for place, output in enumerate(outputs)}
        self.accepted, self.spender, self.starts = [], {}, set()

    def call(self, word, *given):
        return getattr(self, word)(*given)

    def publish(self, contract, currency):
        script = script_id(contract, currency)
        known = self.published.setdefault(script, Published(script, contract, currency))
        return Reply("publish published" if known[1:] == (contract, currency) else "publish in use")

    def advance(self, tick):
        if tick < self.tick:
            return Reply("advance backward")
        self.tick = tick
        return Reply("advance advanced")

    def look(self, ask):
        shown = list(self.unspent.items())
        keys = [each for each in shown if each[1].lock[0] == "key" and each[1].lock[1] in ask.keys]
        payouts = [each for each in shown if each[1].lock[0] == "payout" and each[1].lock[1:] in ask.payouts]
        return Reply(f"look tick {self.tick}", Look(self.tick, self.shown_thread(ask.thread), keys, payouts))

    def shown_thread(self, start):
        end = self.spine(start)[1] if start in self.starts else None
        if end is None:
            return None
        output = self.unspent[end]
        return end, output, self.published[output.lock[1]]

    def spine(self, start):
        """How many accepted steps a thread has, and its output that is unspent, if it has one."""
        steps, end = 0, start
        while end in self.spender:
            place = self.spender[end]
            index = self.accepted[place].goes_on[end]
            steps, end = steps + 1, None if index is None else (place, index)
        return steps, end

    def submit(self, transaction):
        fault = self.judged(transaction)
        return Reply(f"submit refused {fault}" if fault else "submit accepted", fault=fault)

    def enqueue(self, transaction):
        if len(self.pending) == PENDING:
            return Reply("enqueue full")
        self.pending.append((self.tickets, transaction))
        self.tickets += 1
        return Reply(f"enqueue ticket {self.tickets - 1}")

    def round(self, count):
        taken, self.pending = self.pending[:count], self.pending[count:]
        told = []
        for ticket, transaction in taken:
            fault = self.judged(transaction)
            told.append(f"{ticket} refused {fault}" if fault else f"{ticket} accepted")
        return Reply("round " + (", ".join(told) or "none"))

    def judged(self, transaction):
        """Why a built transaction is refused; where it isn't, it is accepted."""
        for place, reference in enumerate(transaction.inputs):
            if reference not in self.unspent:
                return f"NotUnspent {place}"
        if not transaction.interval["from"] <= self.tick <= transaction.interval["to"]:
            return "OutsideInterval"
        self.accept(transaction)
        return None

    def accept(self, transaction):
        number = len(self.accepted)
        spent = [self.unspent.pop(reference) for reference in transaction.inputs]
        if added(*(each.amount for each in spent)) != added(*(each.amount for each in transaction.outputs)):
            raise AssertionError("a built transaction makes or loses money")
        self.accepted.append(transaction)
        self.spender.update((reference, number) for reference in transaction.inputs)
        steps = any(each.lock[0] == "contract" for each in spent)
        for place, output in enumerate(transaction.outputs):
            self.unspent[number, place] = output
            if output.lock[0] == "contract" and not steps:
                self.starts.add((number, place))
