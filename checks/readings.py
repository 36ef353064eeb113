"""Reads the JSON texts of contracts, states, transactions and scenarios, with their faults, in plain Python, written from docs/formats.md.

Needs    nothing: it has no code of the program, and shares none of its definitions.
Usage    plays.py, commands.py and the suite in ../conformance import it.
Expect   `scenario(bytes)`, or `contract(parsed(bytes))` and the like, to give what is read as JSON data with the keys of its forms alone,
         currencies in lower case, or to raise the `Fault` that the text is refused with. Texts are read by a parser of their own, since
         Python's takes more than JSON.
"""
import re

GREATEST_TIME, GREATEST_NUMBER, LEAST_NUMBER = 2**63 - 1, 2**64 - 1, -2**63
LONGEST, DEEPEST, PLANS = 1_048_576, 127, 63


class Fault(Exception):
    """The text is refused with the fault of this name."""


class Float:
    """A number that isn't kept as a whole one."""


# ---- JSON

BLANK = re.compile(r"[ \t\n\r]*")
PLAIN = re.compile(r'[^"\\\x00-\x1f]*')
NUMBER = re.compile(r"-?(?:0|[1-9][0-9]*)(\.[0-9]+)?([eE][+-]?[0-9]+)?")
ESCAPES = {'"': '"', "\\": "\\", "/": "/", "b": "\b", "f": "\f", "n": "\n", "r": "\r", "t": "\t"}
WORDS = {"true": True, "false": False, "null": None}


class Text:
    """A JSON text and the place at which it is read."""

    def __init__(self, text, deepest=DEEPEST):
        self.text, self.place, self.deepest = text, 0, deepest

    def rest(self, pattern):
        found = pattern.match(self.text, self.place)
        if not found:
            raise Fault("NotJson")
        self.place = found.end()
        return found

    def taken(self, letters):
        """Goes over these letters, where they stand next."""
        if not self.text.startswith(letters, self.place):
            return False
        self.place += len(letters)
        return True

    def want(self, letters):
        if not self.taken(letters):
            raise Fault("NotJson")

    def value(self, depth=0):
        self.rest(BLANK)
        if self.taken('"'):
            return self.string()
        if self.taken("["):
            return self.list(depth + 1)
        if self.taken("{"):
            return self.object(depth + 1)
        for word, value in WORDS.items():
            if self.taken(word):
                return value
        return self.number()

    def number(self):
        found = self.rest(NUMBER)
        if float(found[0]) in (float("inf"), float("-inf")):
            raise Fault("NotJson")
        if found[1] or found[2] or found[0] == "-0" or not LEAST_NUMBER <= int(found[0]) <= GREATEST_NUMBER:
            return Float()
        return int(found[0])

    def unit(self):
        digits = self.rest(re.compile("[0-9a-fA-F]{4}"))[0]
        return int(digits, 16)

    def string(self):
        parts = []
        while True:
            parts.append(self.rest(PLAIN)[0])
            if self.taken('"'):
                return "".join(parts)
            self.want("\\")
            if not self.taken("u"):
                letter = self.text[self.place:self.place + 1]
                self.place += 1
                if letter not in ESCAPES:
                    raise Fault("NotJson")
                parts.append(ESCAPES[letter])
                continue
            first = self.unit()
            if 0xD800 <= first < 0xDC00:
                self.want("\\u")
                second = self.unit()
                if not 0xDC00 <= second < 0xE000:
                    raise Fault("NotJson")
                first = 0x10000 + (first - 0xD800) * 0x400 + second - 0xDC00
            elif 0xDC00 <= first < 0xE000:
                raise Fault("NotJson")
            parts.append(chr(first))

    def deep(self, depth):
        if depth > self.deepest:
            raise Fault("NotJson")
        self.rest(BLANK)

    def list(self, depth):
        self.deep(depth)
        items = []
        if self.taken("]"):
            return items
        while True:
            items.append(self.value(depth))
            self.rest(BLANK)
            if self.taken("]"):
                return items
            self.want(",")

    def object(self, depth):
        self.deep(depth)
        members = {}
        if self.taken("}"):
            return members
        while True:
            self.rest(BLANK)
            self.want('"')
            key = self.string()
            self.rest(BLANK)
            self.want(":")
            members[key] = self.value(depth)
            self.rest(BLANK)
            if self.taken("}"):
                return members
            self.want(",")


def parsed(text, longest=LONGEST, deepest=DEEPEST):
    if len(text) > longest:
        raise Fault("TooLong")
    try:
        reader = Text(text.decode(), deepest)
    except UnicodeDecodeError:
        raise Fault("NotJson") from None
    value = reader.value()
    reader.rest(BLANK)
    if reader.place != len(reader.text):
        raise Fault("NotJson")
    return value


# ---- what a form is made of

def no_form(holds):
    if holds:
        raise Fault("NoForm")


def has(json, keys):
    return isinstance(json, dict) and all(key in json for key in keys.split())


def first_form(json, *forms):
    """The keys of the first form that are all there."""
    for keys in forms:
        if has(json, keys):
            return keys
    raise Fault("NoForm")


def text(json):
    no_form(not isinstance(json, str))
    return json


def items(json):
    no_form(not isinstance(json, list))
    return json


def pair(json):
    no_form(not isinstance(json, list) or len(json) != 2)
    return json


def number(json):
    if isinstance(json, Float):
        raise Fault("NotWhole")
    no_form(not isinstance(json, int) or isinstance(json, bool))
    return json


def within(json, least, greatest):
    whole = number(json)
    if not least <= whole <= greatest:
        raise Fault("OutOfRange")
    return whole


def time(json):
    return within(json, LEAST_NUMBER, GREATEST_TIME)


def symbol(json):
    if not re.fullmatch("([0-9a-fA-F]{2})*", text(json)):
        raise Fault("BadHex")
    return json.lower()


def read(json, **readers):
    """An object with these keys, read in this order."""
    return {key: reader(json[key]) for key, reader in readers.items()}


# ---- contracts and inputs

def party(json):
    key = first_form(json, "address", "role_token")
    return {key: text(json[key])}


def token(json):
    first_form(json, "currency_symbol token_name")
    return read(json, currency_symbol=symbol, token_name=text)


def choice_id(json):
    first_form(json, "choice_name choice_owner")
    return read(json, choice_name=text, choice_owner=party)


def payee(json):
    key = first_form(json, "account", "party")
    return {key: party(json[key])}


def bound(json):
    first_form(json, "from to")
    return {"from": number(json["from"]), "to": number(json["to"])}


def bounds(json):
    return [bound(item) for item in items(json)]


def value(json):
    if isinstance(json, (int, Float)) and not isinstance(json, bool):
        return number(json)
    if json in ("time_interval_start", "time_interval_end"):
        return json
    keys = first_form(json, "amount_of_token in_account", "negate", "add and", "value minus", "multiply times", "divide by", "value_of_choice",
                      "use_value", "if then else")
    own = {"amount_of_token": token, "in_account": party, "value_of_choice": choice_id, "use_value": text, "if": observation}
    return {key: own.get(key, value)(json[key]) for key in keys.split()}


def observation(json):
    if isinstance(json, bool):
        return json
    keys = first_form(json, "both and", "either or", "not", "chose_something_for", "value ge_than", "value gt", "value lt", "value le_than",
                      "value equal_to")
    if keys.startswith("value"):
        return {key: value(json[key]) for key in keys.split()}
    own = {"chose_something_for": choice_id}
    return {key: own.get(key, observation)(json[key]) for key in keys.split()}


def action(json):
    keys = first_form(json, "party deposits of_token into_account", "for_choice choose_between", "notify_if")
    own = {"party": party, "deposits": value, "of_token": token, "into_account": party, "for_choice": choice_id, "choose_between": bounds,
           "notify_if": observation}
    return {key: own[key](json[key]) for key in keys.split()}


def case(json):
    if first_form(json, "case then", "case merkleized_then") == "case merkleized_then":
        raise Fault("Merkleized")
    return read(json, case=action, then=contract)


def cases(json):
    return [case(item) for item in items(json)]


def contract(json):
    if isinstance(json, str):
        no_form(json != "close")
        return json
    keys = first_form(json, "pay token from_account to then", "if then else", "when timeout timeout_continuation", "let be then", "assert then")
    own = {"pay": value, "token": token, "from_account": party, "to": payee, "if": observation, "when": cases, "timeout": time, "let": text,
           "be": value, "assert": observation}
    return {key: own.get(key, contract)(json[key]) for key in keys.split()}


def given(json):
    """An input of a contract."""
    if json == "input_notify":
        return json
    keys = first_form(json, "input_from_party that_deposits of_token into_account", "for_choice_id input_that_chooses_num")
    own = {"input_from_party": party, "that_deposits": number, "of_token": token, "into_account": party, "for_choice_id": choice_id,
           "input_that_chooses_num": number}
    return {key: own[key](json[key]) for key in keys.split()}


# ---- states and transactions

def held(rows, json, key_of):
    """Rows of keys and numbers above 0, each key once."""
    for item in items(json):
        first, second = pair(item)
        key, amount = key_of(first), number(second)
        if amount <= 0 or any(key == known for known, _ in rows):
            raise Fault("BadState")
        rows.append([key, amount])
    return rows


def account(json):
    owner, of = pair(json)
    return [party(owner), token(of)]


def accounts(json):
    return held([], json, account)


def keyed(json, key_of):
    """Rows of keys and numbers, each key once."""
    rows = []
    for item in items(json):
        first, second = pair(item)
        key = key_of(first)
        if any(key == known for known, _ in rows):
            raise Fault("BadState")
        rows.append([key, number(second)])
    return rows


def state(json):
    first_form(json, "accounts choices boundValues minTime")
    return read(json, accounts=accounts, choices=lambda rows: keyed(rows, choice_id), boundValues=lambda rows: keyed(rows, text), minTime=time)


def interval(json):
    first_form(json, "from to")
    return read(json, **{"from": time, "to": time})


def inputs(json):
    return [given(item) for item in items(json)]


def transaction(json):
    first_form(json, "tx_interval tx_inputs")
    return read(json, tx_interval=interval, tx_inputs=inputs)


# ---- scenarios

def amount(json):
    return held([], json, token)


def funds(json):
    first_form(json, "address amount")
    return read(json, address=text, amount=amount)


class Names:
    """The names of a list, each with its place."""

    def __init__(self):
        self.places = {}

    def new(self, json):
        no_form(text(json) in self.places)
        self.places[json] = len(self.places)
        return json

    def place(self, json):
        no_form(text(json) not in self.places)
        return self.places[json]


class Scenario:
    """A scenario as far as it is read: the names that stand in its lists."""

    def __init__(self):
        self.contracts, self.threads, self.plans = Names(), Names(), Names()

    def contract(self, json):
        first_form(json, "name currency contract")
        return read(json, name=self.contracts.new, currency=symbol, contract=contract)

    def thread(self, json):
        first_form(json, "name contract by accounts minTime")
        return read(json, name=self.threads.new, contract=self.contracts.place, by=text, accounts=accounts, minTime=time)

    def plan(self, json):
        no_form(len(self.plans.places) == PLANS)
        first_form(json, "name keys change intents")
        plan = read(json, name=self.plans.new, keys=lambda keys: [text(key) for key in items(keys)], change=text,
                    intents=lambda intents: [self.intent(item) for item in items(intents)])
        plan["stop_after"] = within(json["stop_after"], 0, GREATEST_TIME) if "stop_after" in json else None
        return plan

    def intent(self, json):
        keys = first_form(json, "step inputs from to", "steps from to", "claim role from to", "round workers", "advance")
        own = {"step": self.threads.place, "inputs": inputs, "steps": lambda steps: [self.step_item(item) for item in items(steps)],
               "from": time, "to": time,
               "claim": self.contracts.place, "role": text, "round": lambda count: within(count, 0, GREATEST_NUMBER), "workers": workers,
               "advance": time}
        intent = {key: own[key](json[key]) for key in keys.split()}
        if "step" in intent or "steps" in intent:
            intent["pool"] = json.get("pool", False)
            no_form(not isinstance(intent["pool"], bool))
        return intent

    def step_item(self, json):
        first_form(json, "step inputs")
        return {"step": self.threads.place(json["step"]), "inputs": inputs(json["inputs"])}

    def whole(self, json):
        first_form(json, "tick genesis contracts threads plans")
        return {"tick": time(json["tick"]),
                "genesis": [funds(item) for item in items(json["genesis"])],
                "contracts": [self.contract(item) for item in items(json["contracts"])],
                "threads": [self.thread(item) for item in items(json["threads"])],
                "plans": [self.plan(item) for item in items(json["plans"])]}


def workers(json):
    no_form(not 1 <= number(json) <= 16)
    return json


def scenario(bytes_of_text):
    """The scenario of a text."""
    return Scenario().whole(parsed(bytes_of_text))
