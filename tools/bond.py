#!/usr/bin/env python3
"""Writes a bond as a contract of Marlowe Core, with the state and the transaction in which it begins.

Needs    nothing but Python.
Usage    tools/bond.py FOLDER [MONTHS]      MONTHS is 36 where it isn't given
Expect   in FOLDER contract.json, state.json and transaction.json. The investor lends 36,000 until the first of January 2025. Then the issuer
         pays 100 each month, and 36,000 more in the last one. Each sum is of lovelace. Who doesn't pay until the first of the next month
         ends the bond. Beside them transactions.json has all transactions until it is paid back, one on each line.
Depth    A deposit and the payment behind it take four levels of lists and objects, so a bond of N months nests 4 N + 6 deep: with 36 months
         150, which `marlowe` reads with `--depth 150`.
"""
import datetime
import json
import os
import sys

ADA = {"currency_symbol": "", "token_name": ""}
PRINCIPAL, COUPON = 36_000, 100


def first_of(month):
    """The first of a month, counted from January 2025, in POSIX milliseconds."""
    day = datetime.datetime(2025 + month // 12, month % 12 + 1, 1, tzinfo=datetime.timezone.utc)
    return int(day.timestamp()) * 1000


def role(name):
    return {"role_token": name}


def paid(amount, by, to, until, then):
    """Someone deposits an amount until a time, it is paid to someone else, and the contract goes on."""
    pay = {"pay": amount, "token": ADA, "from_account": role(by), "to": {"party": role(to)}, "then": then}
    deposit = {"party": role(by), "deposits": amount, "of_token": ADA, "into_account": role(by)}
    return {"when": [{"case": deposit, "then": pay}], "timeout": until, "timeout_continuation": "close"}


def amounts(months):
    """What is paid, by whom and to whom, until when: the loan, the coupons, and with the last one all that was lent."""
    steps = [(PRINCIPAL, "investor", "issuer", first_of(0))]
    for month in range(1, months + 1):
        steps.append((COUPON + (PRINCIPAL if month == months else 0), "issuer", "investor", first_of(month)))
    return steps


def bond(months):
    contract = "close"
    for amount, by, to, until in reversed(amounts(months)):
        contract = paid(amount, by, to, until, contract)
    return contract


def transaction(amount, by, until):
    """A deposit on the day before it is due."""
    deposit = {"input_from_party": role(by), "that_deposits": amount, "of_token": ADA, "into_account": role(by)}
    return {"tx_interval": {"from": until - 86_400_000, "to": until - 1}, "tx_inputs": [deposit]}


def text(value):
    return json.dumps(value, separators=(",", ":"))


def main():
    if len(sys.argv) not in (2, 3):
        sys.exit(__doc__)
    months = int(sys.argv[2]) if len(sys.argv) == 3 else 36
    lines = [text(transaction(amount, by, until)) for amount, by, _, until in amounts(months)]
    files = {
        "contract.json": text(bond(months)),
        "state.json": text({"accounts": [], "choices": [], "boundValues": [], "minTime": 0}),
        "transaction.json": lines[0],
        "transactions.json": "\n".join(lines),
    }
    os.makedirs(sys.argv[1], exist_ok=True)
    for name, content in files.items():
        with open(os.path.join(sys.argv[1], name), "w") as file:
            file.write(content + "\n")


if __name__ == "__main__":
    sys.setrecursionlimit(100_000)
    main()
