#!/usr/bin/env python3
"""Asks `marlowe serve` random requests by one stream, names that come and go among them, and compares each answer with one worked out apart: outcomes by
the interpreter beside this file, plays by plays.py, canonical texts by Python's own JSON, bytes by ledger.py. Of each stream some requests are also given to the
command, and compared with what it prints, what explains a refusal included. Of these some have a part that was spoiled, and some are plays.

Needs    (cd crates/marlowe && rt run -- --version)
Usage    serve.py [--requests N] [--seed S] [--commands N] [--jobs N] [PROGRAM WORDS..]
         N requests (100,000) by seed S (1), in streams of 2,000, of which --jobs many (as many as there are processors) run at once; of each stream --commands
         many requests (2) are given to the command too. Without a program the built `marlowe serve`
Expect   `100000 answers agree`, then how many of each sort; some 3 minutes for 1,000,000 on four processors, and two hours with 2 commands of each stream
Else     `differs` with the request, what was wanted and what came, and status 1
"""
import collections, hashlib, json, multiprocessing, os, random, subprocess, sys, tempfile
HERE = os.path.dirname(os.path.abspath(__file__))
sys.path.insert(0, HERE)
import compare, ledger, plays, random_scenarios, spoiled, transactions
from interpreter import printed
MARLOWE = os.environ.get("MARLOWE") or os.path.join(HERE, "..", "crates", "marlowe", "out", "marlowe")
R = random.Random()
IDS = [7, -1, "a", "\u00e9\n", None, True, [1, {"b": 1, "a": []}], {}, 2**63]
NAMES = ["deal", "x", "", "\u00e9"]
BATCH = 2_000
class Told(list):
    """What is told of a play: objects whose keys stay in their order."""
def text(value): return json.dumps(value, separators=(",", ":"), sort_keys=not isinstance(value, Told), ensure_ascii=False)
def refused(of, name, **more): return {"refused": {"of": of, "name": name, **more}}
def outcome(parts):
    """What is told of a run: the outcome, or why there is none."""
    want = printed(*parts)
    return {"ok": json.loads(want)} if want[0] == "{" else refused("transaction", want.split()[-1])
def bad_line(number):
    """A line that asks nothing."""
    line, name, key = R.choice([("", "NotJson", None), ("{", "NotJson", None), ("7", "NoObject", None), ("[]", "NoObject", None), ('{"id":7}', "NoRequest", 7), ('{"id":7,"ran":{}}', "NoRequest", 7)])
    return line, {"id": key, **refused("line", name, line=number)}
def traced(contract, state, transaction):
    """What is told of a trace of one transaction, or of the same twice."""
    first = outcome((contract, state, transaction))
    if R.random() < 0.5 or "refused" in first:
        told = {"ok": [first["ok"]]} if "ok" in first else {"ok": [], "refused": {**first["refused"], "number": 1}}
        return [transaction], told
    second = outcome((first["ok"]["contract"], {**first["ok"]["state"]}, transaction)) if fits(first["ok"]["state"]) else None
    if second is None: return [transaction], {"ok": [first["ok"]]}
    told = {"ok": [first["ok"], second["ok"]]} if "ok" in second else {"ok": [first["ok"]], "refused": {**second["refused"], "number": 2}}
    return [transaction, transaction], told
def scenario():
    """A random scenario, which may have faults, or be another value."""
    kept = compare.R
    try:
        while True:
            try: return json.loads(random_scenarios.text(str(R.random()), plays.Play))
            except ValueError: pass
    finally: compare.R = kept
def played():
    """A scenario whose setup isn't refused, and what is told of it."""
    while True:
        value = scenario()
        lines, why, status = plays.wanted(json.dumps(value).encode(), "json")
        if not status: return value, {"ok": Told(json.loads(line) for line in lines.split("\n")[:-1])}
        if why.startswith("refused scenario "): return value, refused("scenario", why.split()[2])
def fits(state):
    """Whether all numbers of a written state are numbers, so that the interpreter takes it."""
    return all(isinstance(row[1], int) for key in ("accounts", "choices", "boundValues") for row in state[key])
def request(named, number):
    """A line, and the answer to it."""
    if R.random() < 0.05: return bad_line(number)
    if R.random() < 0.01:
        value, told = played()
        return json.dumps({"id": number, "play": {"scenario": value}}, separators=(",", ":")), {"id": number, **told}
    contract, state, transaction = compare.case()
    key, sort = R.choice(IDS), R.randrange(10)
    line, name = {"id": key} if key is not None or R.random() < 0.5 else {}, R.choice(NAMES)
    if sort == 0:
        line["define"], told = {name: contract}, {"ok": True}
        named[name] = contract
    elif sort == 1:
        line["forget"], told = name, {"ok": named.pop(name, None) is not None}
    elif sort == 2:
        line["define"] = R.choice([{name: {"when": []}}, {}, {"a": "close", "b": "close"}, 7])
        told = refused("contract" if name in line["define"] else "define", "NoForm") if isinstance(line["define"], dict) else refused("define", "NoForm")
        if line["define"] == {"a": "close", "b": "close"} or line["define"] == {}: told = refused("define", "NoForm")
    elif sort == 3:
        line, told = {**line, **R.choice([{"read": {"contract": contract}}, {"read": {"transaction": transaction}}, {"bytes": {"contract": contract, "currency": "00ff"}}])}, {}
        told["ok"] = encoded(contract) if "bytes" in line else next(iter(line["read"].values()))
    elif sort == 4:
        transactions, told = traced(contract, state, transaction)
        line["trace"] = {"contract": contract, "state": state, "transactions": transactions}
    else:
        if sort > 6:
            given = {"name": name}
            contract = named.get(name)
        else: given = contract
        line["run"] = {"contract": given, "state": state, "transaction": transaction}
        told = refused("contract", "Undefined") if contract is None else outcome((contract, state, transaction))
    return json.dumps(line, separators=(",", ":")), {"id": key, **told}
def encoded(contract):
    """The bytes of a script, and its id."""
    script = ledger.contract_bytes(contract) + transactions.string(b"\0\xff")
    return {"bytes": script.hex(), "id": hashlib.sha256(script).hexdigest()}
def spoilt(value):
    """A value whose text was spoiled until it was another JSON value, which Python writes as it reads it."""
    while True:
        try:
            whole = text(value).encode()
            other = json.loads(spoiled.spoiled(R, whole, [whole])[0], parse_constant=int)
            json.dumps(other, allow_nan=False)
            return other
        except (ValueError, RecursionError): pass
PARTIES = [*compare.PARTIES, {"role_token": "nobody"}, {"role": "a"}, 7, None]
def others(contract, state, transaction):
    """Requests whose answers only the command has."""
    parts = {"contract": contract, "state": state}
    sort = R.randrange(7)
    if sort == 3:
        body = {**parts, "transaction": transaction}
        key = R.choice(list(body))
        return {"run": {**body, key: spoilt(body[key])}}
    if sort == 6: return {"play": {"scenario": scenario()}}
    if sort > 3:
        many = [transaction] * R.randrange(4)
        many.insert(R.randrange(len(many) + 1), spoilt(transaction))
        return {"trace": {**parts, "transactions": many}} if sort == 4 else {"next": {**parts, "after": many}}
    if sort == 0: return {"next": {**parts, "after": [transaction] * R.randrange(2), **R.choice([{}, {"from": 3}, {"from": 3, "to": 9}])}}
    if sort == 1: return {"table": {"contract": contract}}
    party = R.choice([{}, {"party": R.choice(PARTIES)}])
    return {"analyse": {**parts, "no_runs": R.random() < 0.5, "notes": R.random() < 0.5, **party}}
class Differs(Exception): pass
OF_TEXTS = ("file", "line", "column", "first", "names")
def stands_so(told, other):
    """Whether two numbers are told to stand there that are one: of one that 64 bits don't hold a text may have its own spelling, and a long one is cut."""
    if told.endswith("..") and "e" in other: return told.lstrip("-")[:12] == other.lstrip("-").replace(".", "")[:12]
    try: return float(told) == float(other)
    except ValueError: return False
def explained(printed, told):
    """The refusal that a command prints, as a stream has it: without what only a text has."""
    if "wanted" in printed and stands_so(printed["stands"], told.get("stands", "")): printed = {**printed, "stands": told["stands"]}
    return {key: it for key, it in printed.items() if key not in OF_TEXTS}
def told_first(refused):
    """What is refused, and the name of the fault: what stands before what explains it."""
    return {key: it for key, it in refused.items() if key in ("of", "name", "number") or key == "line" and refused["of"] == "line"}
def asked(words, lines):
    """The answers to lines, as one stream gives them."""
    run = subprocess.run(words, input=("\n".join(lines) + "\n").encode(), capture_output=True)
    if run.returncode != 0: raise Differs(f"status {run.returncode}, {run.stderr.decode()}")
    return run.stdout.decode().split("\n")[:-1]
def differs(line, want, got): raise Differs(f"\nasked {line}\nwant  {want if isinstance(want, str) else text(want)}\ngot   {got}")
def words_of(name, body, path):
    """The command that asks the same, its parts in files."""
    if name == "play": return [MARLOWE, "play", path("scenario"), "--one", "--json"]
    words = [name, path("contract")]
    if name == "run": words += [path("state"), path("transaction")]
    if name == "next": words += [path("state")]
    if name == "analyse": words += [path("state")] + ["--no-runs"] * body["no_runs"] + ["--notes"] * body["notes"]
    if "party" in body: words += ["--party", json.dumps(body["party"])]
    if name == "trace": words += [path("transactions"), "--state", path("state")]
    if name == "next" and body["after"]: words += ["--after", path("after")]
    for key in ("from", "to"): words += [f"--{key}", str(body[key])] if key in body else []
    return [MARLOWE, *words, "--json"]
def by_command(line, answer):
    """The same by the command, as it prints JSON."""
    asked, told = json.loads(line), json.loads(answer)
    name = next(key for key in ("run", "trace", "next", "table", "analyse", "play") if key in asked)
    body = asked[name]
    with tempfile.TemporaryDirectory() as folder:
        def path(key):
            with open(os.path.join(folder, key), "w") as file: json.dump(body[key], file)
            return file.name
        run = subprocess.run(words_of(name, body, path), capture_output=True, encoding="utf-8")
    printed = [json.loads(it) for it in run.stdout.split("\n")[:-1]]
    want, unread = {}, False
    if printed and "refused" in printed[-1]:
        why = printed.pop()["refused"]
        want["refused"], unread = explained(why, told.get("refused", {})), "file" in why
    if name == "play" and printed: want["ok"] = printed
    elif name == "trace" and not unread: want["ok"] = printed
    elif printed: want["ok"] = printed[0]
    # A part that is no JSON, a number beyond all that are read, makes its line none.
    if told.get("refused", {}).get("of") == "line" and want["refused"]["name"] == told["refused"]["name"] == "NotJson": return
    if {**want, "id": told["id"]} != told: differs(line, want, answer)
def ended_so(got, begins, refused):
    """Whether an answer begins so, and ends there or with a refusal that begins so."""
    if refused is None: return got == begins + "}"
    front = begins + ',"refused":' + json.dumps(refused, separators=(",", ":"))[:-1]
    return got.startswith(front) and got[len(front)] in ",}" and got.endswith("}}")
def stream(given):
    """How many answers of one stream are of each sort, or how one differs."""
    words, seed, count, commands = given
    compare.R.seed(seed); R.seed(seed)
    named, pairs, told = {}, [], collections.Counter()
    for number in range(1, count + 1): pairs.append(request(named, number))
    some = [(json.dumps({"id": None, **others(*compare.case())}), None) for _ in range(commands)]
    try:
        answers = asked(words, [line for line, _ in pairs + some])
        if len(answers) != len(pairs) + len(some): raise Differs(f"{len(pairs) + len(some)} lines, {len(answers)} answers")
        for (line, want), got in zip(pairs, answers):
            answer = json.loads(got)
            if "refused" in answer: answer["refused"] = told_first(answer["refused"])
            if answer != want: differs(line, want, got)
            if "ok" in want and not ended_so(got, '{"id":' + text(want["id"]) + ',"ok":' + text(want["ok"]), want.get("refused")): differs(line, want, got)
            told[want["refused"]["of"] + " " + want["refused"]["name"] if "refused" in want else "ok"] += 1
        whole = [(line, got) for (line, _), got in zip(pairs, answers) if line[:1] == "{" and ('"run":{' in line or '"trace":{' in line) and '"contract":{"name":' not in line]
        for line, got in R.sample(whole, min(commands, len(whole))) + [(line, got) for (line, _), got in zip(some, answers[len(pairs):])]:
            by_command(line, got)
            told["by the command too"] += 1
    except Differs as why: return str(why)
    return told
def main():
    words, flags = sys.argv[1:], {"--requests": 100_000, "--seed": 1, "--commands": 2, "--jobs": os.cpu_count()}
    while words and words[0] in flags: flags[words[0]], words = int(words[1]), words[2:]
    count, sums = flags["--requests"], collections.Counter()
    streams = [(words or [MARLOWE, "serve"], f"{flags['--seed']}.{done}", min(BATCH, count - done), flags["--commands"]) for done in range(0, count, BATCH)]
    with multiprocessing.Pool(flags["--jobs"]) as pool:
        for told in pool.imap_unordered(stream, streams):
            if isinstance(told, str): sys.exit(f"differs: {told}")
            sums += told
    print(count, "answers agree")
    for kind in sorted(sums): print(f"  {sums[kind]:8} {kind}")
if __name__ == "__main__": main()
