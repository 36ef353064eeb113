#!/usr/bin/env python3
"""Makes random contracts, states and lists of transactions, and compares what the built program's `trace` prints with the interpreter, one
transaction after another, and with its own `run`, one by one.

Needs    (cd crates/marlowe && rt run -- --version)
Usage    traces.py [COUNT [SEED]]     1000 lists by seed 1, where nothing else is said; MARLOWE=PATH names another program
         traces.py --alarms           hands each run that `analyse` prints for the gallery's and the rows' contracts to `trace`
Expect   `1000 traces agree`, then how many had how many outcomes; of `--alarms` how many runs end in their alarm.
Else     `differs` with the seed and the case, what was wanted and what came, and status 1.

A list is handed over as one file with a list, as lines, or as a file for each transaction, in turn; every third time with `--last`. States
are read with `--text-numbers`, so that `run` can go on from each.
"""
import glob, json, os, subprocess, sys, tempfile
HERE = os.path.dirname(os.path.abspath(__file__))
sys.path.insert(0, HERE)
import compare
from interpreter import Refused, finished, outcome, state_json
PROGRAM = os.environ.get("MARLOWE", os.path.join(HERE, "..", "crates", "marlowe", "out", "marlowe"))
DATA = os.path.join(HERE, "..", "crates", "rows_commands", "data")


def compact(data):
    return json.dumps(data, separators=(",", ":"), sort_keys=True, ensure_ascii=False)


def transactions(first):
    """One to four transactions, whose intervals mostly don't go back; the first one is the case's own."""
    found, at = [first], first["tx_interval"]["from"]
    for _ in range(compare.R.randrange(4)):
        more = compare.case()[2]
        length = more["tx_interval"]["to"] - more["tx_interval"]["from"]
        at += compare.R.choice([0, 0, 0, 5, 20, -1])
        inputs = compare.R.choice([[], more["tx_inputs"][:1], first["tx_inputs"][-1:]])
        found.append({"tx_interval": {"from": at, "to": at + length}, "tx_inputs": inputs})
    return found


def wanted(contract, state, given, last):
    """What `trace` should print on each stream, and its status."""
    lines, refusal = [], ""
    for index, transaction in enumerate(given):
        try:
            lines.append(compact(outcome(contract, state, transaction)) + "\n")
            run, contract = finished(contract, state, transaction)
            state = state_json(run, int)
        except Refused as fault:
            refusal = f"refused transaction {index + 1} {fault}\n"
            break
    if last:
        lines = [] if refusal else lines[-1:]
    return "".join(lines), refusal, 1 if refusal else 0


def asked(*words):
    run = subprocess.run([PROGRAM, *words], capture_output=True, text=True)
    return run.stdout, run.stderr, run.returncode


def written(folder, name, text):
    path = os.path.join(folder, name)
    with open(path, "w") as file:
        file.write(text)
    return path


def files_of(folder, given, way):
    if way == 0:
        return [written(folder, "list", json.dumps(given))]
    if way == 1:
        return [written(folder, "lines", "\n\r\n".join(map(json.dumps, given)))]
    return [written(folder, f"tx{index}", json.dumps(transaction, indent=1)) for index, transaction in enumerate(given)]


def differs(*words):
    print("differs", *words)
    sys.exit(1)


def by_run(folder, contract, state, given):
    """What `run` prints, one by one, each from what the one before it printed."""
    lines = []
    for transaction in given:
        paths = [written(folder, name, part) for name, part in (("c", contract), ("s", state), ("t", json.dumps(transaction)))]
        out, _, status = asked("run", *paths, "--text-numbers")
        if status:
            break
        lines.append(out)
        told = json.loads(out)
        contract, state = json.dumps(told["contract"]), json.dumps(told["state"])
    return "".join(lines)


def compare_one(folder, seed, n, counts):
    compare.R.seed(f"{seed}.{n}")
    contract, state, first = compare.case()
    given, last = transactions(first), n % 3 == 2
    want = wanted(contract, state, given, last)
    paths = [written(folder, name, json.dumps(part)) for name, part in (("contract", contract), ("state", state))]
    words = ["trace", paths[0], *files_of(folder, given, n // 3 % 3), "--state", paths[1], *["--last"] * last]
    got = asked(*words)
    if got != want:
        differs(seed, n, json.dumps([contract, state, given]), words, "\nwant", *want, "\ngot ", *got)
    if n % 10 == 0 and not last and by_run(folder, json.dumps(contract), json.dumps(state), given) != want[0]:
        differs(seed, n, json.dumps([contract, state, given]), "run one by one")
    kind = f"{want[0].count(chr(10))} outcomes" + (", then " + want[1].split()[-1] if want[1] else "")
    counts[kind] = counts.get(kind, 0) + 1


# ---- the runs that `analyse` prints

def alarm_ends(contract_path, alarm, folder):
    """Whether the run of an alarm, handed to `trace`, ends in it."""
    path = written(folder, "run", json.dumps(alarm["run"]))
    out, errors, status = asked("trace", contract_path, path)
    if alarm["kind"] == "Leaves128":
        return errors == f"refused transaction {len(alarm['run'])} Leaves128\n" and status == 1
    outcomes = [json.loads(line) for line in out.splitlines()]
    return status == 0 and len(outcomes) == len(alarm["run"]) and any(w["warning"] == alarm["kind"] for w in outcomes[-1]["warnings"])


def alarms():
    found = 0
    with tempfile.TemporaryDirectory() as folder:
        for path in sorted(glob.glob(os.path.join(DATA, "**", "*.json"), recursive=True)):
            out, _, status = asked("analyse", path, "--json")
            if status not in (0, 3):
                continue
            for alarm in json.loads(out)["alarms"]:
                if alarm["run"] is None:
                    continue
                if not alarm_ends(path, alarm, folder):
                    differs(path, json.dumps(alarm))
                found += 1
    print(found, "runs end in their alarm")


def main():
    if sys.argv[1:] == ["--alarms"]:
        return alarms()
    count = int(sys.argv[1]) if sys.argv[1:] else 1000
    seed = int(sys.argv[2]) if sys.argv[2:] else 1
    counts = {}
    with tempfile.TemporaryDirectory() as folder:
        for n in range(count):
            compare_one(folder, seed, n, counts)
    print(count, "traces agree")
    for kind in sorted(counts):
        print(f"  {counts[kind]:8} {kind}")


if __name__ == "__main__":
    main()
