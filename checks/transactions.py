"""Spells transactions and data in bytes by the tables of docs/formats.md, "Bytes", and adds and subtracts amounts, apart from the
programs, and compares that with the answers in those files of transactions of `rows_chain` that have no checks.

Needs    nothing built.
Usage    transactions.py
Expect   `FILE ok N answers` for each of three files, in a second.
Else     the first answer that differs, as it is written and as it is here, and status 1.
"""
import hashlib
import json
import os
import re
import sys

DATA = os.path.join(os.path.dirname(os.path.abspath(__file__)), "..", "crates", "rows_chain", "data", "transactions")
ADA = (b"", b"")
LIMIT = 2**127


class NoSuchRow(Exception):
    """The line is none of the program's."""


def wanted(holds):
    if not holds:
        raise NoSuchRow


# ---- the parts of a spelling

def unsigned(number, size):
    wanted(0 <= number < 256**size)
    return number.to_bytes(size, "big")


def signed(number, size):
    wanted(-(256**size // 2) <= number < 256**size // 2)
    return number.to_bytes(size, "big", signed=True)


def string(letters):
    return unsigned(len(letters), 8) + letters


def text(letters):
    return string(letters.encode())


def items(spelled):
    return unsigned(len(spelled), 8) + b"".join(spelled)


def party(form):
    (key, name), = form.items()
    return bytes([["address", "role_token"].index(key)]) + text(name)


def token(form):
    return string(bytes.fromhex(form["currency_symbol"])) + text(form["token_name"])


def choice_id(form):
    return text(form["choice_name"]) + party(form["choice_owner"])


def contract_input(word):
    if word == "notify":
        return b"\2"
    form = json.loads(word)
    if "input_from_party" in form and "into_account" in form:
        return (b"\0" + party(form["into_account"]) + party(form["input_from_party"]) + token(form["of_token"])
                + signed(form["that_deposits"], 16))
    wanted("for_choice_id" in form)
    return b"\1" + choice_id(form["for_choice_id"]) + signed(form["input_that_chooses_num"], 16)


def datum(number, word):
    return unsigned(whole(number), 4) + state(word)


def by_party(form):
    (key, name), = form.items()
    return key == "role_token", name.encode()


def by_token(form):
    return bytes.fromhex(form["currency_symbol"]), form["token_name"].encode()


def state(word):
    if word == "empty":
        return bytes(32)
    form = json.loads(word)
    accounts = sorted(form["accounts"], key=lambda row: (by_party(row[0][0]), by_token(row[0][1])))
    choices = sorted(form["choices"], key=lambda row: (row[0]["choice_name"].encode(), by_party(row[0]["choice_owner"])))
    bound = sorted(form["boundValues"], key=lambda row: row[0].encode())
    return (items([party(owner) + token(of) + signed(held, 16) for (owner, of), held in accounts])
            + items([choice_id(key) + signed(number, 16) for key, number in choices])
            + items([text(name) + signed(number, 16) for name, number in bound])
            + signed(form["minTime"], 8))


# ---- amounts

def whole(word):
    wanted(re.fullmatch(r"-?[0-9]+", word))
    return int(word)


def id_of(word):
    wanted(re.fullmatch(r"[0-9a-f]{64}", word))
    return bytes.fromhex(word)


def amounts(words):
    wanted(len(words) % 2 == 0)
    held = {}
    for name, amount in zip(words[::2], words[1::2]):
        of = ADA
        if name != "ada":
            symbol, _, name = name.partition(".")
            of = bytes.fromhex(symbol), name.encode()
        wanted(of not in held and 0 < whole(amount) < LIMIT)
        held[of] = whole(amount)
    return held


def amounts_spelled(words):
    return items([string(of[0]) + string(of[1]) + signed(held, 16) for of, held in sorted(amounts(words).items())])


def name_of(of):
    return "ada" if of == ADA else f"{of[0].hex()}.{of[1].decode()}"


def told(answer, held):
    return "".join([answer, ":"] + [f" {name_of(of)} {held[of]}" for of in sorted(held)])


def both(rest):
    wanted("/" in rest)
    return [amounts(side.split()) for side in rest.split("/")]


def added(rest):
    held, more = both(rest)
    total = {of: held.get(of, 0) + more.get(of, 0) for of in held | more}
    return told("TooLarge", held) if any(n >= LIMIT for n in total.values()) else told("done", total)


def subtracted(rest):
    held, less = both(rest)
    lacking = sorted(of for of in less if held.get(of, 0) < less[of])
    if lacking:
        return told(f"Short {name_of(lacking[0])}", held)
    return told("done", {of: held[of] - less.get(of, 0) for of in held if held[of] != less.get(of, 0)})


# ---- transactions

def spend(words):
    named, redeemer, *rest = words
    origin, _, place = named.partition(".")
    reference = b"\0" if origin == "genesis" else b"\1" + id_of(origin)
    wanted(redeemer in ("none", "claim", "step"))
    spelled = {"none": b"\0", "claim": b"\1", "step": b"\2"}[redeemer]
    if redeemer == "step":
        spelled += items([contract_input(word) for word in rest])
    return reference + unsigned(whole(place), 8) + spelled


def output(words):
    """Its bytes, and the data that are brought for it."""
    sort, *rest = words
    if sort == "key":
        return b"\0" + text(rest[0]) + amounts_spelled(rest[1:]), []
    if sort == "payout":
        return b"\1" + string(bytes.fromhex(rest[0])) + text(rest[1]) + amounts_spelled(rest[2:]), []
    wanted(sort == "contract")
    brought = datum(rest[1], rest[2])
    return b"\2" + id_of(rest[0]) + hashlib.sha256(brought).digest() + amounts_spelled(rest[3:]), [brought]


class Transaction:
    def __init__(self):
        self.inputs, self.outputs, self.interval, self.signers, self.data = [], [], bytes(16), [], []

    def take(self, word, rest):
        """Takes a line that writes the transaction."""
        words = rest.split()
        if word == "in":
            self.inputs.append(spend(words))
        elif word == "out":
            spelled, brought = output(words)
            self.outputs.append(spelled)
            self.data += brought
        elif word == "from":
            self.interval = signed(whole(words[0]), 8) + signed(whole(words[2]), 8)
        elif word == "datums":
            wanted(len(words) % 2 == 0)
            self.data = [datum(*pair) for pair in zip(words[::2], words[1::2])]
        else:
            wanted(word == "signer")
            self.signers.append(text(rest))

    def spelled(self):
        return items(self.inputs) + items(self.outputs) + self.interval + items(self.signers) + items(self.data)


def rows(lines):
    """The lines that the rows answer."""
    transaction = Transaction()
    for line in lines:
        word, _, rest = line.partition(" ")
        try:
            if word in ("-", "="):
                continue
            if word == "transaction":
                spelled = transaction.spelled()
                yield spelled.hex()
                yield hashlib.sha256(spelled).hexdigest()
                transaction = Transaction()
            elif word == "datum_hash":
                spelled = datum(*rest.split())
                yield spelled.hex()
                yield hashlib.sha256(spelled).hexdigest()
            elif word in ("add", "subtract"):
                yield {"add": added, "subtract": subtracted}[word](rest)
            elif line:
                transaction.take(word, rest)
        except NoSuchRow:
            yield "no such row"


def compare(name):
    """Compares what the rows of a file answer with what stands below them."""
    with open(os.path.join(DATA, name)) as file:
        lines = file.read().splitlines()
    written, answered = [line[2:] for line in lines if line.startswith("=")], list(rows(lines))
    for place, (theirs, ours) in enumerate(zip(written, answered), 1):
        if theirs != ours:
            sys.exit(f"{name}, answer {place}: written {theirs}\nhere {ours}")
    if len(written) != len(answered):
        sys.exit(f"{name}: {len(written)} answers are written, here are {len(answered)}")
    print(f"{name} ok {len(written)} answers")


if __name__ == "__main__":
    for name in ("transactions.txt", "parts.txt", "sums.txt"):
        compare(name)
