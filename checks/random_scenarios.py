"""Makes random scenarios: several contracts, threads and plans, intents that mostly fit what stands when they come, and some texts that can't
be read.

Needs    compare.py and interpreter.py beside it, whose contracts it makes.
Usage    plays.py imports it.
Expect   `text(seed, Play)` to give the bytes of a scenario, the same for the same seed. `Play` plays it while it is made, so that an
         intent can fit; only which intents come depends on that.
"""
import json
import random

import compare
import interpreter

R = random.Random()
ADA = {"currency_symbol": "", "token_name": ""}
ADDRESSES = ["ann", "bob", "x", "bank"]
ROLES = ["a", "b"]
CURRENCIES = ["aa", "bb", "aa", ""]
NAMES = ["deal", "escrow", "t", "u", "swap \"1\"", "käse", "a/b", ""]
OTHERS = [{"currency_symbol": "aa", "token_name": "t"}, {"currency_symbol": "cc", "token_name": "gold"}]


def text(seed, play_of):
    """A scenario's text."""
    R.seed(seed)
    compare.R = R
    scenario = begun()
    guided(scenario, play_of)
    scenario = json.loads(json.dumps(scenario))
    if R.random() < 0.15:
        spoil(scenario)
    if R.random() < 0.3:
        note(scenario)
    written = json.dumps(shuffled(scenario) if R.random() < 0.3 else scenario, ensure_ascii=R.random() < 0.5)
    if R.random() < 0.03:
        written = R.choice([written[:R.randrange(len(written))], written + "]", written.replace(":", "::", 1), "\ufeff" + written])
    return written.encode()


# ---- what it begins with

def names(count):
    return R.sample(NAMES, count)


def amount():
    rows = [[ADA, R.choice([1, 5, 10, 20, 40, 80, 300])]] if R.random() < 0.9 else []
    for of in [role_token(R.choice(CURRENCIES), R.choice(ROLES)), R.choice(OTHERS)]:
        if R.random() < 0.4 and all(of != each for each, _ in rows):
            rows.append([of, R.choice([1, 1, 2, 30])])
    R.shuffle(rows)
    return rows


def role_token(currency, role):
    return {"currency_symbol": currency, "token_name": role}


def begun():
    """A scenario without intents."""
    contracts = [{"name": name, "currency": R.choice(CURRENCIES), "contract": contract()} for name in names(R.randrange(1, 4))]
    threads = [thread(name, R.choice(contracts)["name"]) for name in names(R.choice([0, 1, 1, 2, 2, 3, 3, 3]))]
    plans = [plan(name) for name in names(R.choice([0, 1, 2, 3, 4]))]
    genesis = [{"address": R.choice(ADDRESSES), "amount": amount()} for _ in range(R.choice([2, 5, 8, 12]))]
    genesis += [{"address": R.choice(ADDRESSES[:3]), "amount": [[role_token(each["currency"], role), 1], [ADA, 30]]}
                for each in contracts for role in ROLES if R.random() < 0.7 and each["currency"] + role]
    genesis += [{"address": "bank", "amount": [[of, R.choice([50, 500])] for of in [ADA] + OTHERS]}] * (R.random() < 0.95)
    tick = R.choice([0, 0, 0, 0] * 4 + [3, -5, 60])
    return {"tick": tick, "genesis": genesis, "contracts": contracts, "threads": threads, "plans": plans}


def thread(name, of_contract):
    keys = [[party, of] for party in compare.PARTIES for of in [ADA, OTHERS[0]]]
    accounts = [[key, R.choice([1, 2, 5, 7, 20])] for key in R.sample(keys, R.choice([0, 0, 1, 2]))]
    by = "bank" if R.random() < 0.9 else R.choice(ADDRESSES)
    return {"name": name, "contract": of_contract, "by": by, "accounts": accounts, "minTime": R.choice([0, 0, 0, 0] * 4 + [-3, 4, 200])}


def plan(name):
    keys = [R.choice(ADDRESSES) for _ in range(R.choice([0, 1, 2, 3]))] if R.random() < 0.4 else R.sample(ADDRESSES, R.choice([2, 3, 4]))
    made = {"name": name, "keys": keys, "change": R.choice(keys or ADDRESSES) if R.random() < 0.9 else "other", "intents": []}
    if R.random() < 0.2:
        made["stop_after"] = R.choice([0, 1, 2, 3, 5, 8, 100])
    return made


def contract():
    return walk(R.choice([1, 3, 4, 5])) if R.random() < 0.75 else compare.contract(5, [])


def walk(depth):
    """A contract that mostly waits for something."""
    sort = R.randrange(1 if depth <= 0 else 10)
    if sort == 0:
        return "close"
    if sort == 1:
        return {"pay": small(), "token": coin(), "from_account": compare.party(), "to": compare.payee(), "then": walk(depth - 1)}
    if sort == 2:
        return {"if": compare.observation(1), "then": walk(depth - 1), "else": walk(depth - 1)}
    if sort == 3:
        return {"let": R.choice(compare.NAMES), "be": small(), "then": walk(depth - 1)}
    cases = [{"case": action(), "then": walk(depth - 1)} for _ in range(R.choice([1, 1, 2]))]
    return {"when": cases, "timeout": R.choice([5, 30, 50, 100, 1000]), "timeout_continuation": walk(depth - 2)}


def coin():
    return R.choice([ADA, ADA, OTHERS[0]])


def small():
    return R.choice([1, 2, 5, 0, {"add": 1, "and": compare.value(0)}, compare.value(1)]) if R.random() < 0.7 else R.choice([3, 7])


def action():
    if R.random() < 0.4:
        return {"party": compare.party(), "deposits": R.choice([1, 2, 5, 30]), "of_token": coin(), "into_account": compare.party()}
    return compare.action(1)


# ---- what the parties mean to do

def guided(scenario, play_of):
    """Gives the plans their intents, each made once those before it were played."""
    play = play_of(json.dumps(scenario).encode())
    try:
        run(play, 0, play.setup())
        starts = list(range(len(scenario["threads"])))
    except Exception as fault:
        if type(fault).__name__ != "Refused":
            raise
        starts = []
    for place, made in enumerate(scenario["plans"]):
        for _ in range(R.choice([0, 1, 2, 4, 6, 10])):
            own = intent(scenario, play, starts)
            made["intents"].append(own)
            if starts == list(range(len(scenario["threads"]))):
                follow(scenario, play, place, made, own)


def follow(scenario, play, place, made, own):
    """Plays one intent, as far as its plan goes on."""
    if play.answered[place + 1] < made.get("stop_after", 100):
        run(play, place + 1, play.intent(made, placed(scenario, own)))


def placed(scenario, told):
    """An intent, or a step of several, with places for names."""
    by_place = {"step": "threads", "claim": "contracts"}
    read = {key: [each["name"] for each in scenario[by_place[key]]].index(each) if key in by_place else each for key, each in told.items()}
    if "steps" in told:
        read["steps"] = [placed(scenario, step) for step in told["steps"]]
    return read


def run(play, seat, calls):
    reply = None
    while True:
        try:
            reply = play.answer(seat, calls.send(reply))
        except StopIteration:
            return


def intent(scenario, play, starts):
    sort = R.random()
    if play.chain.pending and R.random() < 0.2:
        sort = 0.1
    if sort < 0.05:
        return {"advance": play.chain.tick + R.choice([0, 1, 3, 10, 30, -1])}
    if sort < 0.13:
        return {"round": R.choice([0, 1, 2, 3, 10, 2**64 - 1]), "workers": R.choice([1, 2, 4, 16])}
    claims = due(scenario, play)
    if claims and sort > 0.7:
        return {**R.choice(claims), **interval(play)}
    if sort < 0.2 or not scenario["threads"]:
        return {"claim": R.choice(scenario["contracts"])["name"], "role": R.choice(ROLES), **interval(play)}
    told = interval(play)
    if R.random() < 0.3:
        made = {"steps": [step(scenario, play, starts, told) for _ in range(R.choice([1, 2, 2, 2, 3, 0, 9]))], **told}
    else:
        made = {**step(scenario, play, starts, told), **told}
    if R.random() < 0.35:
        made["pool"] = R.random() < 0.8
    return made


def step(scenario, play, starts, told):
    """A thread and inputs for it."""
    place = R.randrange(len(scenario["threads"]))
    if place in starts and play.chain.spine(play.starts[place])[1] is None:
        place = R.randrange(len(scenario["threads"]))
    inputs = fitting(play, place, told) if place in starts and R.random() < 0.85 else wrong()
    return {"step": scenario["threads"][place]["name"], "inputs": inputs}


def due(scenario, play):
    """Claims for which there are payouts."""
    locks = {output.lock[1:] for output in play.chain.unspent.values() if output.lock[0] == "payout"}
    return [{"claim": each["name"], "role": role} for each in scenario["contracts"] for currency, role in sorted(locks)
            if bytes.fromhex(each["currency"]) == currency]


def interval(play):
    tick = play.chain.tick
    begin = tick - R.choice([0, 0, 0, 2, 5] * 4 + [10, -3])
    return {"from": begin, "to": begin + R.choice([2, 5, 10, 15] * 8 + [0, 40, 2000, -1])}


def wrong():
    return [compare.answer(compare.action(0)) for _ in range(R.choice([0, 1, 2]))]


def fitting(play, place, told):
    """Inputs that the thread takes, or nearly."""
    end = play.chain.spine(play.starts[place])[1]
    if end is None:
        return wrong()
    _, _, contract_left, state = play.chain.unspent[end].lock
    inputs = []
    try:
        transaction = interpreter.Transaction(state, told)
        left = transaction.settle(contract_left)
        for _ in range(R.choice([0] + [1, 1, 1, 2, 3] * 3)):
            if left == "close" or not left["when"]:
                break
            inputs.append(compare_answer(transaction, R.choice(left["when"])["case"]))
            left = transaction.settle(transaction.apply(inputs[-1], left))
    except interpreter.Refused:
        pass
    return inputs


def compare_answer(transaction, asked):
    given = compare.answer(asked)
    if "deposits" in asked:
        number = transaction.value(asked["deposits"])
        given["that_deposits"] = number if -2**63 <= number < 2**64 else 5
    elif "for_choice" in asked and asked["choose_between"] and R.random() < 0.8:
        given["input_that_chooses_num"] = R.choice(asked["choose_between"])["from"]
    return given


# ---- texts that are odd, or can't be read

def nodes(json_value, found):
    """Every list and object, outer ones first."""
    if isinstance(json_value, (dict, list)):
        found.append(json_value)
        for each in json_value.values() if isinstance(json_value, dict) else json_value:
            nodes(each, found)
    return found


ODD = [None, True, 0, -1, 17, 1.5, 2**63, 2**64, -0.0, "", "deal", "a0", "abc", [], {}, [[], 1], {"address": "x"}, "close", "input_notify"]


def spoil(scenario):
    """Makes up to two changes somewhere."""
    for _ in range(R.choice([1, 1, 2])):
        place = R.choice([each for each in nodes(scenario, []) if each])
        if isinstance(place, dict):
            key = R.choice(list(place))
            if R.random() < 0.3:
                del place[key]
            elif R.random() < 0.2 and isinstance(place[key], list):
                place[key] = place[key] * R.choice([2, 70])
            else:
                place[key] = R.choice(ODD)
        elif R.random() < 0.3:
            place.append(R.choice(place))
        else:
            place[R.randrange(len(place))] = R.choice(ODD)


def note(scenario):
    """Adds keys that say nothing."""
    for each in nodes(scenario, []):
        if isinstance(each, dict) and R.random() < 0.2:
            each[R.choice(["note", "merkleized_then"])] = R.choice([None, 1.5, [{}]])


def shuffled(json_value):
    if isinstance(json_value, list):
        return [shuffled(each) for each in json_value]
    if not isinstance(json_value, dict):
        return json_value
    keys = list(json_value)
    R.shuffle(keys)
    return {key: shuffled(json_value[key]) for key in keys}
