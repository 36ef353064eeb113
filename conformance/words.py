"""Short words for contracts, states, transactions and outcomes, in which cases are written by hand.

Usage    by_hand/ and random_cases.py import it.
"""
CLOSE, NOTIFY, START, END = "close", "input_notify", "time_interval_start", "time_interval_end"
LEAST_NUMBER, GREATEST_NUMBER, GREATEST_TIME = -2**63, 2**64 - 1, 2**63 - 1


# ---- names

def role(name):
    return {"role_token": name}


def address(name):
    return {"address": name}


def token(symbol, name):
    return {"currency_symbol": symbol, "token_name": name}


def choice_id(name, owner):
    return {"choice_name": name, "choice_owner": owner}


def to(party):
    """The payee that is a party outside."""
    return {"party": party}


def into(party):
    """The payee that is an account."""
    return {"account": party}


A, B, C, X, Y = role("a"), role("b"), role("c"), address("x"), address("y")
ADA, T, U = token("", ""), token("aa", "t"), token("aa", "u")


# ---- contracts

def pay(value, source, payee, then=CLOSE, token=ADA):
    return {"pay": value, "token": token, "from_account": source, "to": payee, "then": then}


def when(cases, timeout=100, then=CLOSE):
    return {"when": [{"case": action, "then": follows} for action, follows in cases], "timeout": timeout, "timeout_continuation": then}


def let(name, value, then=CLOSE):
    return {"let": name, "be": value, "then": then}


def ensure(observation, then=CLOSE):
    """An assertion."""
    return {"assert": observation, "then": then}


def choose(observation, then, otherwise):
    """A branch, of contracts or of values."""
    return {"if": observation, "then": then, "else": otherwise}


def deposit(value, party, account, token=ADA):
    return {"party": party, "deposits": value, "of_token": token, "into_account": account}


def choice(name, owner, *bounds):
    return {"for_choice": choice_id(name, owner), "choose_between": [{"from": a, "to": b} for a, b in bounds]}


def notify(observation=True):
    return {"notify_if": observation}


# ---- values and observations

def money(party, token=ADA):
    return {"amount_of_token": token, "in_account": party}


def chosen(name, owner):
    return {"value_of_choice": choice_id(name, owner)}


def use(name):
    return {"use_value": name}


def negate(a):
    return {"negate": a}


def add(a, b):
    return {"add": a, "and": b}


def subtract(a, b):
    return {"value": a, "minus": b}


def multiply(a, b):
    return {"multiply": a, "times": b}


def divide(a, b):
    return {"divide": a, "by": b}


def both(a, b):
    return {"both": a, "and": b}


def either(a, b):
    return {"either": a, "or": b}


def no(a):
    return {"not": a}


def has_chosen(name, owner):
    return {"chose_something_for": choice_id(name, owner)}


def compare(word, a, b):
    return {"value": a, word: b}


# ---- states and transactions

def account(party, amount, token=ADA):
    return [[party, token], amount]


def made(name, owner, number):
    """A choice that was made."""
    return [choice_id(name, owner), number]


def state(accounts=(), choices=(), bound=(), time=0):
    return {"accounts": list(accounts), "choices": list(choices), "boundValues": [list(row) for row in bound], "minTime": time}


def transaction(*inputs, within=(0, 10)):
    return {"tx_interval": {"from": within[0], "to": within[1]}, "tx_inputs": list(inputs)}


def deposits(amount, party, account, token=ADA):
    return {"input_from_party": party, "that_deposits": amount, "of_token": token, "into_account": account}


def chooses(name, owner, number):
    return {"for_choice_id": choice_id(name, owner), "input_that_chooses_num": number}


# ---- answers

def digits(number):
    """A number as an outcome has it."""
    return number if LEAST_NUMBER <= number <= GREATEST_NUMBER else str(number)


def paid(source, payee, amount, token=ADA):
    return {"payment_from": source, "to": payee, "token": token, "amount": digits(amount)}


def refund(party, amount, token=ADA):
    return paid(party, to(party), amount, token)


def pays_nothing(account, payee, amount, token=ADA):
    return {"warning": "NonPositivePay", "account": account, "payee": payee, "token": token, "amount": digits(amount)}


def pays_part(account, payee, paid, expected, token=ADA):
    return {"warning": "PartialPay", "account": account, "payee": payee, "token": token, "paid": digits(paid), "expected": digits(expected)}


def deposits_nothing(party, account, amount, token=ADA):
    return {"warning": "NonPositiveDeposit", "party": party, "account": account, "token": token, "amount": amount}


def shadows(name, old, new):
    return {"warning": "Shadowing", "name": name, "old": digits(old), "new": digits(new)}


FAILS = {"warning": "AssertionFailed"}


def ok(contract=CLOSE, payments=(), accounts=(), choices=(), bound=(), time=0, warnings=()):
    """An outcome. What isn't said is empty, the contract closed and the time 0."""
    rows = {"accounts": [[key, digits(n)] for key, n in accounts], "choices": [[key, digits(n)] for key, n in choices],
            "boundValues": [[key, digits(n)] for key, n in bound], "minTime": time}
    return {"ok": {"contract": contract, "payments": list(payments), "state": rows, "warnings": list(warnings)}}


def refused(name, of="transaction", **more):
    return {"refused": {"of": of, "name": name, **more}}


# ---- cases

def run(subject, name, rule, contract, answer, before=None, given=None, choice=None):
    """A case that runs one transaction, in a state without entries from 0 to 10 where nothing else is said."""
    ask = {"run": {"contract": contract, "state": before or state(), "transaction": given or transaction()}}
    return case(subject, name, rule, ask, answer, choice)


def case(subject, name, rule, ask, answer, choice=None):
    choices = [choice] if isinstance(choice, str) else list(choice or [])
    return {"subject": subject, "name": name, "rule": rule, "choices": choices, "ask": ask, "answer": answer}


def text_case(subject, name, rule, of, text, told, choice=None):
    """A case that reads a text as it stands, with what it is told: a fault's name, or the data that are written back under `ok`."""
    answer = told if isinstance(told, dict) and set(told) == {"ok"} else refused(told, of)
    return {**without_ask(case(subject, name, rule, None, answer, choice)), "text": '"read":{"%s":%s}' % (of, text)}


def line_case(subject, name, rule, line, answer, choice=None):
    """A case that sends a line as it stands; an answer without an id."""
    return {**without_ask(case(subject, name, rule, None, answer, choice)), "line": line, "id": None}


def without_ask(made):
    return {key: part for key, part in made.items() if key != "ask"}
