"""Steps the escrow to its end by one `marlowe serve`: python3 step_escrow.py PROGRAM WORDS.. (as `marlowe serve`)."""
import json
import pathlib
import subprocess
import sys

EXAMPLES = pathlib.Path(__file__).parents[2] / "crates/rows_commands/data/examples"
engine = subprocess.Popen(sys.argv[1:], stdin=subprocess.PIPE, stdout=subprocess.PIPE)


def file(folder, name):
    return json.loads((EXAMPLES / folder / f"{name}.json").read_text())


def ask(number, **request):
    engine.stdin.write(json.dumps({"id": number, **request}).encode() + b"\n")
    engine.stdin.flush()
    answer = json.loads(engine.stdout.readline())
    if answer["id"] != number or "refused" in answer:
        raise RuntimeError(answer)
    return answer["ok"]


steps = ["escrow_1_the_buyer_deposits", "escrow_2_the_buyer_releases"]
ask(0, define={"escrow": file(steps[0], "contract")})
there = {"contract": {"name": "escrow"}, "state": file(steps[0], "state")}
for number, folder in enumerate(steps, 1):
    there = ask(number, run={"contract": there["contract"], "state": there["state"], "transaction": file(folder, "transaction")})
    print(json.dumps(there["payments"], separators=(",", ":")))
print(json.dumps(there["contract"]))
