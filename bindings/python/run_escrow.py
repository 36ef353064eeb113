"""Runs the escrow to its end by the library, and prints each answer: python3 run_escrow.py LIBRARY (as `bindings/out/libmarlowe.so`)."""
import json
import pathlib
import sys

from marlowe import Marlowe

EXAMPLES = pathlib.Path(__file__).parents[2] / "crates/rows_commands/data/examples"


def file(folder, name):
    return json.loads((EXAMPLES / folder / f"{name}.json").read_text(encoding="utf-8"))


engine = Marlowe(sys.argv[1])
first, second = "escrow_1_the_buyer_deposits", "escrow_2_the_buyer_releases"
contract, state = file(first, "contract"), file(first, "state")
for folder in (first, second):
    request = {"run": {"contract": contract, "state": state, "transaction": file(folder, "transaction")}}
    answer = engine.answer(json.dumps(request).encode())
    sys.stdout.buffer.write(answer)
    outcome = json.loads(answer)["ok"]
    contract, state = outcome["contract"], outcome["state"]
