#!/usr/bin/env python3
"""Makes random contracts, states and transactions, and compares what the built program prints with the interpreter beside this file.

Needs    (cd crates/marlowe && rt run -- --version)
Usage    compare.py [COUNT [SEED]]          1000 runs by seed 1, where nothing else is said
         compare.py --rows [COUNT [SEED]]   writes short ones as rows, each above the interpreter's answer, and prints their line of `stdout`
Expect   `1000 runs agree`, then how many had each warning or fault; the same for the same seed. The rows by seed 1 are those that are there.
Else     `differs` with the seed and the case, what was wanted and what came, and status 1.
"""
import json, os, random, subprocess, sys, tempfile
HERE = os.path.dirname(os.path.abspath(__file__))
sys.path.insert(0, HERE)
from interpreter import printed
PROGRAM = os.path.join(HERE, "..", "crates", "marlowe", "out", "marlowe")
ROWS = os.path.join(HERE, "..", "crates", "rows_commands", "data", "values")
TITLE = "# random contracts, as a program written apart answers"
R = random.Random()
PARTIES = [{"role_token": "a"}, {"role_token": "b"}, {"address": "x"}]
TOKENS = [{"currency_symbol": "", "token_name": ""}, {"currency_symbol": "aa", "token_name": "t"}]
NAMES = ["x", "y"]
NUMBERS = [0, 1, -1, 2, 3, 5, 7, -7, 10, 100, 2**63, 2**64 - 1, -2**63]
def party(): return R.choice(PARTIES)
def token(): return R.choice(TOKENS)
def choice_id(): return {"choice_name": R.choice(NAMES), "choice_owner": party()}
def value(d):
    k = R.randrange(5 if d <= 0 else 14)
    if k < 2: return R.choice(NUMBERS)
    if k == 2: return {"use_value": R.choice(NAMES)}
    if k == 3: return R.choice(["time_interval_start", "time_interval_end", {"value_of_choice": choice_id()}])
    if k == 4: return {"amount_of_token": token(), "in_account": party()}
    if k == 5: return R.choice([{"negate": value(d - 1)}, large()])
    if k in (6, 7): return {"add": value(d - 1), "and": value(d - 1)}
    if k == 8: return {"value": value(d - 1), "minus": value(d - 1)}
    if k in (9, 10): return {"multiply": value(d - 1), "times": value(d - 1)}
    if k in (11, 12): return {"divide": value(d - 1), "by": value(d - 1)}
    return {"if": observation(d - 1), "then": value(d - 1), "else": value(d - 1)}
def large():
    """A number about 2^127, from either side of it."""
    product = {"multiply": {"multiply": R.choice([2**63, -2**63]), "times": 2**63}, "times": 2}
    return product if R.random() < 0.3 else {"value": {"multiply": 2**63, "times": 2**64 - 1}, "minus": R.choice([0, -2**63, 2**63, {"negate": 2**64 - 1}])}
def observation(d):
    k = R.randrange(3 if d <= 0 else 11)
    if k < 2: return k == 0
    if k == 2: return {"chose_something_for": choice_id()}
    if k == 3: return {"both": observation(d - 1), "and": observation(d - 1)}
    if k == 4: return {"either": observation(d - 1), "or": observation(d - 1)}
    if k == 5: return {"not": observation(d - 1)}
    return {"value": value(d - 1), ["ge_than", "gt", "lt", "le_than", "equal_to"][k - 6]: value(d - 1)}
def payee(): return {R.choice(["account", "party"]): party()}
def bound():
    a = R.choice([-1, 0, 1, 2, 5]); return {"from": a, "to": a + R.choice([-1, 0, 1, 4])}
def action(d):
    k = R.randrange(3)
    if k == 0: return {"party": party(), "deposits": R.choice([value(d), R.choice([0, 1, 5, -1])]), "of_token": token(), "into_account": party()}
    if k == 1: return {"for_choice": choice_id(), "choose_between": [bound() for _ in range(R.randrange(3))]}
    return {"notify_if": observation(d)}
def contract(d, inputs):
    k = R.randrange(1 if d <= 0 else 8)
    if k == 0: return "close"
    if k == 1: return {"pay": value(2), "token": token(), "from_account": party(), "to": payee(), "then": contract(d - 1, inputs)}
    if k == 2: return {"if": observation(2), "then": contract(d - 1, inputs), "else": contract(d - 1, inputs)}
    if k == 3: return {"let": R.choice(NAMES), "be": value(3), "then": contract(d - 1, inputs)}
    if k == 4: return {"assert": observation(2), "then": contract(d - 1, inputs)}
    cases = []
    for _ in range(R.randrange(4)):
        a = action(1)
        if R.random() < 0.6: inputs.append(answer(a))
        cases.append({"case": a, "then": contract(d - 1, inputs)})
    return {"when": cases, "timeout": R.choice([5, 20, 50, 51]), "timeout_continuation": contract(d - 2, inputs)}
def answer(a):
    if "party" in a:
        n = a["deposits"] if isinstance(a["deposits"], int) else R.choice([0, 1, 5])
        return {"input_from_party": a["party"], "that_deposits": n, "of_token": a["of_token"], "into_account": a["into_account"]}
    if "for_choice" in a: return {"for_choice_id": a["for_choice"], "input_that_chooses_num": R.choice([0, 1, 2, 3, 5])}
    return "input_notify"
def pairs(keys, numbers):
    keys = list(keys); R.shuffle(keys)
    return [[k, R.choice(numbers)] for k in keys[:R.randrange(len(keys) + 1)]]
def case():
    wanted = []
    c = contract(6, wanted)
    state = {"accounts": pairs([[p, t] for p in PARTIES for t in TOKENS], [1, 3, 5, 2**64 - 1, 2**63]),
        "choices": pairs([{"choice_name": n, "choice_owner": p} for n in NAMES for p in PARTIES], NUMBERS),
        "boundValues": pairs(NAMES, NUMBERS), "minTime": R.choice([0, 0, 0, 0, 0, 4, 30])}
    a = R.choice([0, 0, 6, 20, 21, 50]); b = a + R.choice([0, 3, 10, 10, 10, 10, 10, 29, -1])
    xs = wanted[:R.randrange(4)] if R.random() < 0.8 else [R.choice(wanted)] if wanted else []
    return c, state, {"tx_interval": {"from": a, "to": b}, "tx_inputs": xs}
def write_rows(count, seed):
    """Writes rows of runs whose texts are short, each with the interpreter's answer below it."""
    lines, rows, n = [TITLE], 0, 0
    while rows < count:
        R.seed(f"{seed}.{n}")
        n += 1
        parts = case()
        texts = [json.dumps(part, separators=(",", ":")) for part in parts]
        if sum(map(len, texts)) > 1200: continue
        lines += [f"{word} {text}" for word, text in zip(("contract", "state", "both"), texts)]
        lines.append("= " + printed(*parts))
        rows += 1
    with open(os.path.join(ROWS, "compared.txt"), "w") as file: file.write("\n".join(lines) + "\n")
    print(f"values/compared.txt ok {rows} rows")
def main():
    if sys.argv[1:2] == ["--rows"]:
        words = sys.argv[2:]
        return write_rows(int(words[0]) if words else 100, int(words[1]) if words[1:] else 1)
    count = int(sys.argv[1]) if len(sys.argv) > 1 else 1000
    seed = int(sys.argv[2]) if len(sys.argv) > 2 else 1
    told = {}
    with tempfile.TemporaryDirectory() as folder:
        paths = [os.path.join(folder, n) for n in ("contract", "state", "transaction")]
        for n in range(count):
            R.seed(f"{seed}.{n}")
            parts = case()
            for path, part in zip(paths, parts):
                with open(path, "w") as file: json.dump(part, file)
            want = printed(*parts)
            run = subprocess.run([PROGRAM, "run", *paths], capture_output=True, text=True)
            got = (run.stdout or run.stderr).rstrip("\n")
            if got != want:
                print("differs", seed, n, json.dumps(parts)); print("want", want); print("got ", got); sys.exit(1)
            kinds = {w["warning"] for w in json.loads(want)["warnings"]} or {"no warning"} if want[0] == "{" else {want}
            for kind in kinds: told[kind] = told.get(kind, 0) + 1
    print(count, "runs agree")
    for kind in sorted(told): print(f"  {told[kind]:6} with {kind}")
if __name__ == "__main__": main()
