#!/usr/bin/env python3
"""Works out the notes on contracts by a reading of their JSON, and compares them with what the built program's `analyse --notes` prints.

Needs    (cd crates/marlowe && rt run -- --version)
Usage    checks/slips.py [COUNT [SEED]]     400 random contracts by seed 1, behind those of the gallery, the examples and the rows; MARLOWE=PATH names another program
Expect   `N contracts agree`, then how many notes there were of each kind
Else     `differs` with the contract, the state, what was wanted and what came, and status 1

The reading is of docs/analysis.md ("Notes"), and order and form are of docs/formats.md. It goes by the text alone: a Let binds its name in what follows it, a
case makes its choice in what follows the case, and the start state has what it has. Of one contract in four the lines for people are compared too. The random
contracts are those of `analysed.py` and those of `compare.py` in turn, from the start states of `analysed.py`.
"""
import collections, glob, json, os, random, sys, tempfile

sys.path.insert(0, os.path.dirname(os.path.abspath(__file__)))
import analysed, compare
from interpreter import has, party, party_json

PROGRAM = os.environ.get("MARLOWE", analysed.PROGRAM)
DATA = f"{analysed.ROOT}/crates/rows_commands/data"
# The keys under which the parts of a value or an observation stand: of each form in the order in which they are read.
PARTS = ["if", "negate", "add", "multiply", "divide", "value", "both", "either", "not", "and", "minus", "times", "by", "or", "then", "else", *analysed.COMPARISONS]


def source(it):
    """A name or a choice, as the text of its JSON."""
    return json.dumps(it, sort_keys=True, separators=(",", ":"), ensure_ascii=False)


def walked(it):
    """A value or an observation and the parts of it, in the order in which they are read."""
    yield it
    for key in PARTS if isinstance(it, dict) else ():
        if key in it:
            yield from walked(it[key])


def read_in(it):
    """The names and choices whose numbers a value or an observation reads, each once."""
    return dict.fromkeys(source(part[key]) for part in walked(it) for key in ("use_value", "value_of_choice") if has(part, key))


def named_in(it):
    """The parties that it names."""
    for part in walked(it):
        yield from [part["in_account"]] if has(part, "amount_of_token") else []
        yield from (part[key]["choice_owner"] for key in ("value_of_choice", "chose_something_for") if has(part, key))


def stands(c):
    """What stands at a contract: the keys to it, what is looked at, the parties that it names beside, what it gives, whether there is to be a note if nothing
    reads that, and what follows it with the keys there."""
    if has(c, "pay"):
        yield ["pay"], c["pay"], [c["from_account"], *c["to"].values()], None, False, [(["then"], c["then"])]
    elif has(c, "if"):
        yield ["if"], c["if"], [], None, False, [(["then"], c["then"]), (["else"], c["else"])]
    elif has(c, "let"):
        yield ["let"], c["be"], [], source(c["let"]), True, [(["then"], c["then"])]
    elif has(c, "assert"):
        yield ["assert"], c["assert"], [], None, False, [(["then"], c["then"])]
    elif has(c, "when"):
        for index, case in enumerate(c["when"]):
            it, at, behind = case["case"], ["when", index, "case"], [(["when", index, "then"], case["then"])]
            if has(it, "deposits"):
                yield [*at, "deposits"], it["deposits"], [it["party"], it["into_account"]], None, False, behind
            elif has(it, "notify_if"):
                yield [*at, "notify_if"], it["notify_if"], [], None, False, behind
            else:
                numbers = {end for bound in it["choose_between"] if bound["from"] <= bound["to"] for end in bound.values()}
                yield [*at, "choose_between"], None, [it["for_choice"]["choice_owner"]], source(it["for_choice"]), len(numbers) > 1, behind
        yield [], None, [], None, False, [(["timeout_continuation"], c["timeout_continuation"])]


def reads(c, wanted):
    """Whether something in a contract reads a name or a choice."""
    return any(wanted in read_in(it) or any(reads(part, wanted) for _, part in behind) for _, it, _, _, _, behind in stands(c))


def named(c):
    """The parties that a contract names, as often as it does."""
    for _, it, parties, _, _, behind in stands(c):
        yield from [*parties, *named_in(it)]
        for _, part in behind:
            yield from named(part)


def noted(c, place, known):
    """The notes on names and choices in a contract to which a place leads, and where these are known: kind, place and source."""
    for keys, it, _, given, is_noted, behind in stands(c):
        yield from (("unbound", place + keys, wanted) for wanted in read_in(it) if wanted not in known)
        if is_noted and not any(reads(part, given) for _, part in behind):
            yield "unread", place + keys, given
        for then, part in behind:
            yield from noted(part, place + then, known | {given})


def notes(contract, state):
    """The notes on a contract, as an object."""
    known = {source(it) for key in ("boundValues", "choices") for it, _ in state[key]}
    count = collections.Counter(map(party, named(contract)))
    once = sorted((it for it, many in count.items() if many == 1), key=lambda it: (it[0], it[1].encode()))
    numbers = [{"kind": kind, "place": place, "source": json.loads(wanted)} for kind, place, wanted in noted(contract, [], known)]
    return {"named_once": [party_json(it) for it in once], "numbers": numbers}


def lines(told):
    """The same, as lines."""
    for it in told["numbers"]:
        place = "".join(f"[{key}]" if isinstance(key, int) else f".{key}" for key in it["place"])
        yield f"note: {source(it['source'])} " + (f"is 0 at {place}, where nothing has set it" if it["kind"] == "unbound" else f"of {place} is read nowhere behind it")
    yield from (f"note: {source(it)} is named once" for it in told["named_once"])


def cases(count, seed):
    """Contracts and their states: of the gallery, the examples and the rows, and random ones."""
    for path in sorted(glob.glob(f"{DATA}/gallery/*/contract.json") + glob.glob(f"{DATA}/gallery/*/broken.json") + glob.glob(f"{DATA}/examples/*/contract.json")):
        state = os.path.join(os.path.dirname(path), "state.json")
        if "/not_json/" not in path:
            yield analysed.loaded(path), analysed.loaded(state) if os.path.exists(state) else analysed.EMPTY
    yield from analysed.contracts_of_rows()
    for number in range(count):
        chance = compare.R = random.Random(f"{seed}.{number}")
        yield compare.contract(6, []) if number % 2 else analysed.Maker(chance).contract(7), analysed.made_state(chance)


def main():
    count, seed = int(sys.argv[1]) if sys.argv[1:] else 400, int(sys.argv[2]) if sys.argv[2:] else 1
    many, kinds = 0, collections.Counter()
    with tempfile.TemporaryDirectory() as room:
        program = analysed.Program(PROGRAM, room)
        for contract, state in cases(count, seed):
            want, flags = notes(contract, state), ["--notes", "--no-runs"]
            status, out, err = program.ask("analyse", contract, state, flags=[*flags, "--json"])
            if status == 4:
                continue  # a text of the rows that isn't read has no notes
            got, wanted = json.loads(out)["notes"] if status in (0, 3) else err, want
            if got == want and many % 4 == 0:
                out = program.ask("analyse", contract, state, flags=flags)[1]
                got, wanted = [line for line in out.splitlines() if line.startswith("note: ")], [*lines(want)]
            if got != wanted:
                sys.exit(f"differs: {json.dumps(contract)} {json.dumps(state)}\nwant {json.dumps(wanted)}\ngot  {json.dumps(got)}")
            many += 1
            kinds.update([it["kind"] for it in want["numbers"]] + ["named once"] * len(want["named_once"]))
    print(many, "contracts agree")
    for kind in sorted(kinds):
        print(f"  {kinds[kind]:8} {kind}")


if __name__ == "__main__":
    main()
