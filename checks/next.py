#!/usr/bin/env python3
"""Makes random contracts and states, works out what can be done with each over an interval, tries candidates by the interpreter, and
compares what the built program prints.

Needs    (cd crates/marlowe && rt run -- --version); with `--apart` nothing built
Usage    next.py [--apart] [COUNT [SEED]]     1000 contracts by seed 1, where nothing else is said; MARLOWE=PATH names another program
Expect   `1000 contracts agree`, then how many inputs were tried, and how many were taken, left a number or matched nothing.
Else     `differs` with the seed and the contract, the input, what was wanted and what came, and status 1.

Tried are: a deposit of each account, party and token that a case names, of each amount that a case evaluates to and one more and less;
numbers about each bound of each choice, and of the same name and another owner; a notify. The program is asked for lines and for JSON,
of half the contracts behind one or two transactions (`--after`), and without times, with one, and with both.
"""
import copy, json, os, subprocess, sys, tempfile
HERE = os.path.dirname(os.path.abspath(__file__))
sys.path.insert(0, HERE)
import compare
from interpreter import Refused, Transaction, choice_id, has, party, party_json, payee_json, state_json, token, token_json, wide
PROGRAM = os.environ.get("MARLOWE", os.path.join(HERE, "..", "crates", "marlowe", "out", "marlowe"))
ENDS = [-2**63, 2**64 - 1]
FORMS = ("pay", "if", "when", "let", "assert")


class Placed(Transaction):
    """A transaction that notes where in the contract it is, as keys, and where each warning comes."""

    def __init__(self, state, interval, path=()):
        super().__init__(state, interval)
        self.path, self.placed = list(path), []

    def settle(self, c):
        while c != "close":
            form, before = next(word for word in FORMS if word in c), len(self.warnings)
            left, step = self.step(c, form)
            self.placed += [(self.path + [form], w) for w in self.warnings[before:]]
            if step is None:
                return c
            self.path, c, self.turned = self.path + [step], left, True
        self.close()
        return c

    def step(self, c, form):
        """One reduction: what is gone on with, and by which key; or no key, where it waits."""
        if form == "pay":
            self.pay(c)
        elif form == "if":
            key = "then" if self.holds(c["if"]) else "else"
            return c[key], key
        elif form == "when":
            if self.end < c["timeout"]:
                return c, None
            if self.start < c["timeout"]:
                raise Refused("Ambiguous")
            return c["timeout_continuation"], "timeout_continuation"
        elif form == "let":
            name, number = c["let"], self.value(c["be"])
            if name in self.bound:
                self.warn("Shadowing", name=name, new=number, old=self.bound[name])
            self.bound[name] = number
        elif not self.holds(c["assert"]):
            self.warn("AssertionFailed")
        return c["then"], "then"

    def apply(self, given, c):
        for index, case in enumerate(cases_of(c)):
            if self.matches(given, case["case"]):
                self.take(given)
                self.path, self.turned = self.path + ["when", index, "then"], True
                return case["then"]
        raise Refused("NoMatch")


def opened(contract, state, interval, path=()):
    """A transaction up to its inputs, and the contract that is left then."""
    run = Placed(state, interval, path)
    return run, run.settle(contract)


def cases_of(left):
    return [] if left == "close" else left["when"]


def is_deposit(action):
    return has(action, "party", "deposits", "of_token", "into_account")


def is_choice(action):
    return has(action, "for_choice", "choose_between")


# ---- what is wanted: each input tried by itself

def tried(run, left, given):
    """The case that an input takes, by its index; or `Leaves128 N` where a number of the case N leaves, or `NoMatch`."""
    for index, case in enumerate(cases_of(left)):
        try:
            if run.matches(given, case["case"]):
                return index
        except Refused:
            return f"Leaves128 {index}"
    return "NoMatch"


def candidates(run, left):
    """Inputs about all that the cases name."""
    ways, amounts, ids, numbers, found = [], {0}, [], {0}, []
    for case in cases_of(left):
        action = case["case"]
        if is_deposit(action):
            way = {"input_from_party": action["party"], "of_token": action["of_token"], "into_account": action["into_account"]}
            if way not in ways:
                ways.append(way)
            try:
                amounts.add(run.value(action["deposits"]))
            except Refused:
                pass
        elif is_choice(action):
            ids += [i for i in [action["for_choice"]] + [{**action["for_choice"], "choice_owner": p} for p in compare.PARTIES] if i not in ids]
            for b in action["choose_between"]:
                numbers |= {b["from"], b["to"]}
    about = sorted({n + d for n in amounts for d in (-1, 0, 1)} | {5, -7})
    found += [{**way, "that_deposits": n} for way in ways for n in about]
    found += [{"for_choice_id": i, "input_that_chooses_num": n} for i in ids for n in sorted({n + d for n in numbers for d in (-1, 0, 1)})]
    return found + ["input_notify"]


# ---- what is listed, written apart: no input is tried

def less(ranges, bounds):
    """Ranges without the numbers in some bounds."""
    for b in bounds:
        if b[0] <= b[1]:
            ranges = [part for a in ranges for part in ((a[0], min(a[1], b[0] - 1)), (max(a[0], b[1] + 1), a[1])) if part[0] <= part[1]]
    return ranges


def joined(ranges):
    """The same numbers in ranges that lie apart and in order."""
    found = []
    for a, b in sorted(r for r in ranges if r[0] <= r[1]):
        if found and a <= found[-1][1] + 1:
            found[-1] = (found[-1][0], max(found[-1][1], b))
        else:
            found.append((a, b))
    return found


def listed(run, left):
    """What each case offers: ("deposit", N), ("choice", ranges), ("notify",), ("Leaves128",) or None."""
    stopped, taken, bounds_before, notified, offers = set(), set(), {}, False, []
    for case in cases_of(left):
        action, offer = case["case"], None
        if is_deposit(action):
            way = party(action["into_account"]), party(action["party"]), token(action["of_token"])
            if way not in stopped:
                try:
                    amount = run.value(action["deposits"])
                    offer = None if (way, amount) in taken else ("deposit", amount)
                    taken.add((way, amount))
                except Refused:
                    offer = ("Leaves128",)
                    stopped.add(way)
        elif is_choice(action):
            way = choice_id(action["for_choice"])
            bounds = [(b["from"], b["to"]) for b in action["choose_between"]]
            rest = less(joined(bounds), bounds_before.get(way, []))
            bounds_before[way] = bounds_before.get(way, []) + bounds
            offer = ("choice", rest) if rest else None
        elif not notified:
            try:
                notified = run.holds(action["notify_if"])
                offer = ("notify",) if notified else None
            except Refused:
                notified, offer = True, ("Leaves128",)
        offers.append(offer)
    return offers


def offered(left, offers, given):
    """The case whose offer has an input, or None."""
    found = [index for index, (case, offer) in enumerate(zip(cases_of(left), offers)) if offer and has_input(case["case"], offer, given)]
    assert len(found) < 2, (found, given)
    return found[0] if found else None


def has_input(action, offer, given):
    if offer[0] == "deposit":
        return (has(given, "that_deposits") and given["that_deposits"] == offer[1] and party(given["input_from_party"]) == party(action["party"])
                and party(given["into_account"]) == party(action["into_account"]) and token(given["of_token"]) == token(action["of_token"]))
    if offer[0] == "choice":
        return (has(given, "for_choice_id") and choice_id(given["for_choice_id"]) == choice_id(action["for_choice"])
                and any(a <= given["input_that_chooses_num"] <= b for a, b in offer[1]))
    return offer[0] == "notify" and given == "input_notify"


# ---- what is printed

def compact(data):
    return json.dumps(data, separators=(",", ":"), sort_keys=True, ensure_ascii=False)


def behind(run, case, given):
    """Why what follows the case is refused, or None."""
    tried_run = copy.deepcopy(run)
    try:
        tried_run.take(given)
        tried_run.settle(case["then"])
        return None
    except Refused as fault:
        return str(fault)


def deposit_of(action, amount):
    return {"input_from_party": action["party"], "that_deposits": amount, "of_token": action["of_token"], "into_account": action["into_account"]}


def place_text(keys):
    return "".join(f"[{key}]" if isinstance(key, int) else f".{key}" for key in keys)


def token_text(t):
    return "ADA" if token(t) == (b"", "") else compact(token_json(token(t)))


def paid_text(payment):
    source, target, coin, amount = payment
    return f"{amount} {token_text(token_json(coin))} from {compact(party_json(source))} to {compact(payee_json(target))}"


def offer_line(run, index, case, offer):
    action, then = case["case"], place_text(run.path + ["when", index, "then"])
    if is_deposit(action):
        who = f"by {compact(party_json(party(action['party'])))} into {compact(party_json(party(action['into_account'])))}"
        coin = token_text(action["of_token"])
        if offer[0] == "Leaves128":
            return f"deposit {who} of {coin}: Leaves128"
        fault = behind(run, case, deposit_of(action, offer[1]))
        warns = ", warns NonPositiveDeposit" if offer[1] <= 0 else ""
        return f"deposit {offer[1]} {coin} {who}{warns}, then {then}" + (f", refused {fault}" if fault else "")
    if is_choice(action):
        numbers = ", ".join(str(a) if a == b else f"{a} to {b}" for a, b in offer[1])
        name, owner = choice_id(action["for_choice"])
        return f"choose {compact(name)} of {compact(party_json(owner))}: {numbers}, then {then}"
    if offer[0] == "Leaves128":
        return "notify: Leaves128"
    fault = behind(run, case, "input_notify")
    return f"notify, then {then}" + (f", refused {fault}" if fault else "")


def lines_of(run, left, offers):
    if left == "close":
        if not run.turned:
            lines = ["closed"]
        else:
            lines = ["closes, and pays " + (", ".join(map(paid_text, run.payments)) or "nothing")]
    else:
        lines = [offer_line(run, n, case, offer) for n, (case, offer) in enumerate(zip(left["when"], offers)) if offer]
        lines.append(f"waits until {left['timeout'] - 1}; from {left['timeout']} on {place_text(run.path + ['timeout_continuation'])}")
        lines += [f"pays on the way {paid_text(p)}" for p in run.payments]
    lines += [f"warns on the way: {w['warning']} at {place_text(keys)}" for keys, w in run.placed]
    return "".join(line + "\n" for line in lines)


def json_of(run, left, offers):
    deposits, choices, notify, leaving = [], [], None, []
    for n, (case, offer) in enumerate(zip(cases_of(left), offers)):
        action = case["case"]
        if offer is None:
            continue
        if offer[0] == "Leaves128":
            leaving.append(n)
        elif offer[0] == "deposit":
            deposits.append({"party": party_json(party(action["party"])), "can_deposit": wide(offer[1]), "of_token": token_json(token(action["of_token"])),
                             "into_account": party_json(party(action["into_account"])), "case_index": n, "is_merkleized_continuation": False,
                             "refused": behind(run, case, deposit_of(action, offer[1])), "warns": offer[1] <= 0})
        elif offer[0] == "choice":
            name, owner = choice_id(action["for_choice"])
            choices.append({"for_choice": {"choice_name": name, "choice_owner": party_json(owner)}, "case_index": n, "is_merkleized_continuation": False,
                            "can_choose_between": [{"from": a, "to": b} for a, b in offer[1]]})
        else:
            notify = {"case_index": n, "is_merkleized_continuation": False, "refused": behind(run, case, "input_notify")}
    payments = [{"payment_from": party_json(a), "to": payee_json(p), "token": token_json(t), "amount": wide(n)} for a, p, t, n in run.payments]
    return compact({"applicable_inputs": {"choices": choices, "deposits": deposits, "leaves_128": leaving, "notify": notify}, "at": run.path,
                    "can_reduce": run.turned, "payments": payments, "waits_until": None if left == "close" else left["timeout"] - 1,
                    "warnings": [{"at": keys, "kind": w["warning"]} for keys, w in run.placed]}) + "\n"


# ---- the comparison

def crowd(contract):
    """Lets cases meet: copies a case, or gives its action another's account, party and token or choice."""
    R = compare.R
    if contract == "close":
        return
    for key in ("then", "else", "timeout_continuation"):
        if key in contract:
            crowd(contract[key])
    cases = contract.get("when", [])
    for case in cases:
        crowd(case["then"])
    for _ in range(R.randrange(4) if cases else 0):
        case = copy.deepcopy(R.choice(cases))
        action = case["case"]
        if is_deposit(action) and R.random() < 0.7:
            action["deposits"] = compare.value(2)
        if is_choice(action):
            action["choose_between"] = [compare.bound() for _ in range(R.randrange(1, 5))]
            if R.random() < 0.1:
                action["choose_between"].append({"from": R.choice(ENDS), "to": R.choice(ENDS)})
        cases.insert(R.randrange(len(cases) + 1), case)


def case(seed, n):
    compare.R.seed(f"{seed}.{n}")
    contract, state, transaction = compare.case()
    crowd(contract)
    return contract, state, transaction["tx_interval"]


def differs(seed, n, parts, *words):
    print("differs", seed, n, json.dumps(parts))
    print(*words)
    sys.exit(1)


def compare_one(seed, n, parts, counts):
    """Tries candidates, and holds what is listed against them."""
    contract, state, interval = parts
    try:
        run, left = opened(contract, state, interval)
    except Refused as fault:
        counts[f"refused {fault}"] = counts.get(f"refused {fault}", 0) + 1
        return
    offers = listed(run, left)
    for given in candidates(run, left):
        want = tried(run, left, given)
        got = offered(left, offers, given)
        if (want if isinstance(want, int) else None) != got:
            differs(seed, n, parts, json.dumps(given), "want", want, "got", got)
        if isinstance(want, str) and want.startswith("Leaves128") and offers[int(want.split()[1])] != ("Leaves128",):
            differs(seed, n, parts, json.dumps(given), "want", want, "got", offers)
        kind = "taken" if isinstance(want, int) else want.split()[0]
        counts[kind] = counts.get(kind, 0) + 1


def answer(parts, after, words, form):
    """What the program should print and its status: behind some transactions, over the interval that the words leave."""
    contract, state, _ = parts
    path = []
    for index, transaction in enumerate(after):
        try:
            run, contract = finished(contract, state, transaction, path)
        except Refused as fault:
            return f"refused transaction {index + 1} {fault}\n", 1
        state, path = state_json(run, int), run.path
    first = words.get("--from", state["minTime"])
    last = words.get("--to", first)
    try:
        run, left = opened(contract, state, {"from": first, "to": last}, path)
    except Refused as fault:
        return f"refused {fault}\n", 1
    return form(run, left, listed(run, left)), 0


def finished(contract, state, transaction, path):
    """A transaction at its end, and the contract that is left."""
    run = Placed(state, transaction["tx_interval"], path)
    left = run.settle(contract)
    for given in transaction["tx_inputs"]:
        left = run.settle(run.apply(given, left))
    if not run.turned:
        raise Refused("Useless")
    return run, left


def is_refused_so(got, want):
    """Whether a refusal, as an object, is the one of this line, whose last words are the number of a transaction of many, and its fault."""
    if not (got[0].startswith('{"refused":') and want[0].startswith("refused ")):
        return False
    refused = json.loads(got[0])["refused"]
    told = [str(refused[key]) for key in ("number", "name") if key in refused]
    return (want[0].split()[-len(told):], want[1]) == (told, got[1])


def ask(folder, seed, n, parts, counts):
    """Asks the program, once for lines or for JSON."""
    contract, state, interval = parts
    after = [{"tx_interval": interval, "tx_inputs": []}, compare.case()[2]][:compare.R.randrange(3)] if n % 2 else []
    words = {key: interval[end] for key, end in (("--from", "from"), ("--to", "to")) if compare.R.random() < 0.6}
    form, flags = ((lines_of, []), (json_of, ["--json"]))[n // 2 % 2]
    paths = [os.path.join(folder, name) for name in ("contract", "state")]
    for path, part in zip(paths, (contract, state)):
        with open(path, "w") as file:
            json.dump(part, file)
    for index, transaction in enumerate(after):
        path = os.path.join(folder, f"after{index}")
        with open(path, "w") as file:
            json.dump(transaction, file)
        flags += ["--after", path]
    run = subprocess.run([PROGRAM, "next", *paths, *(f"{key}={time}" for key, time in words.items()), *flags], capture_output=True, text=True)
    got, want = (run.stdout + run.stderr, run.returncode), answer(parts, after, words, form)
    if not is_refused_so(got, want) and got != want:
        differs(seed, n, parts, json.dumps(after), json.dumps(words), flags, "\nwant", *want, "\ngot ", *got)
    kind = f"asked, status {want[1]}"
    counts[kind] = counts.get(kind, 0) + 1


def main():
    words = [word for word in sys.argv[1:] if word != "--apart"]
    count, seed = int(words[0]) if words else 1000, int(words[1]) if words[1:] else 1
    counts = {}
    with tempfile.TemporaryDirectory() as folder:
        for n in range(count):
            parts = case(seed, n)
            compare_one(seed, n, parts, counts)
            if "--apart" not in sys.argv:
                ask(folder, seed, n, parts, counts)
    print(count, "contracts agree")
    for kind in sorted(counts):
        print(f"  {counts[kind]:8} {kind}")


if __name__ == "__main__":
    main()
