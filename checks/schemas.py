#!/usr/bin/env python3
"""Whether the schemas of docs/schema say which texts have a form, as readings.py does, and which texts the program prints.

Usage    schemas.py [--count N]
Needs    nothing built. With --count it spoils so many texts of each sort (300).
Expect   how many texts of each sort have a form, how many have none, and how many are printed; `N texts, none at fault`, status 0; a few seconds.
Else     the sort, the text, and what each says of it; then status 1.

The texts: those of the examples, the gallery, the tutorial and the plays in crates/rows_commands/data, those of the readings in crates/rows_suite/data, each of
them spoiled in the ways of spoiled.py, and texts with the keys of two forms, of which the first counts. Asked is:
- that a text which is read has the schema's form, and one that is NoForm has not. Of other faults (a number that isn't whole, a time beyond its range, bytes
  that aren't hexadecimal, an account of 0, a merkleized case) a schema may say either. It doesn't know which names a scenario has.
- that an outcome, an answer of `next --json`, `table --json` and `analyse --json`, and a refusal has its form; and that it has none once a key
  of it is taken away, but for those that are there only where they are asked for.
- of the rows in crates/rows_serve: that each answer has its form, and what stands at `ok` the form of what was asked; that a request with an `ok` has its form,
  and a line that is no request, or in which something but a state or a name of a scenario is NoForm, has none. A schema allows texts for numbers of a
  state.

A schema is JSON Schema, draft 7, of these words alone, which are checked here: `type`, `required`, `properties`, `items`, `minItems`, `maxItems`, `enum`, `pattern`,
`if`, `then`, `else`, `$ref`, and `definitions`, `title`, `$schema` beside them. As that draft says, what stands beside a `$ref` is passed over.
"""
import argparse
import collections
import functools
import json
import pathlib
import random
import re
import sys

import readings
import rows
import spoiled

TOP = pathlib.Path(__file__).resolve().parent.parent
SCHEMAS = TOP / "docs" / "schema"
DATA = TOP / "crates" / "rows_commands" / "data"
CASES = TOP / "crates" / "rows_suite" / "data"
WORDS = {"type", "required", "properties", "items", "minItems", "maxItems", "enum", "pattern", "if", "then", "else", "$ref", "definitions", "title", "$schema"}


# ---- schemas

@functools.cache
def schema_of(name):
    return json.loads((SCHEMAS / name).read_text())


def led_to(name, reference):
    """The file and the schema that a reference in a file leads to."""
    other, _, path = reference.partition("#")
    name = other or name
    schema = schema_of(name)
    for key in filter(None, path.split("/")):
        schema = schema[key]
    return name, schema


def is_whole(value):
    return isinstance(value, int) and not isinstance(value, bool)


TYPES = {
    "string": lambda value: isinstance(value, str), "integer": is_whole, "boolean": lambda value: isinstance(value, bool),
    "null": lambda value: value is None, "array": lambda value: isinstance(value, list), "object": lambda value: isinstance(value, dict),
}


def among(value, values):
    """Whether a value is one of these: 1 isn't true, nor 0 false."""
    return any(type(value) is type(other) and value == other for other in values)


def items_are(name, items, value):
    if isinstance(items, list):
        return all(has_form(name, item, one) for item, one in zip(items, value))
    return all(has_form(name, items, one) for one in value)


def has_form(name, schema, value):
    """Whether a value has the form of a schema in the file of that name."""
    if "$ref" in schema:
        return has_form(*led_to(name, schema["$ref"]), value)
    if "type" in schema and not TYPES[schema["type"]](value) or "enum" in schema and not among(value, schema["enum"]):
        return False
    if isinstance(value, str) and not re.search(schema.get("pattern", ""), value):
        return False
    if isinstance(value, list):
        if not schema.get("minItems", 0) <= len(value) <= schema.get("maxItems", len(value)) or not items_are(name, schema.get("items", {}), value):
            return False
    if isinstance(value, dict):
        if not all(key in value for key in schema.get("required", [])):
            return False
        if not all(has_form(name, part, value[key]) for key, part in schema.get("properties", {}).items() if key in value):
            return False
    if "if" not in schema:
        return True
    return has_form(name, schema.get("then" if has_form(name, schema["if"], value) else "else", {}), value)


def faults_of_schema(name, schema, is_map=False):
    """The words that a schema has beside those that are checked, and its references that lead nowhere."""
    for key, part in schema.items():
        if not is_map and key not in WORDS:
            yield f"{name}: the word {key}"
        if key == "$ref" and not is_map:
            try:
                led_to(name, part)
            except (KeyError, OSError):
                yield f"{name}: {part} leads nowhere"
        for one in part if isinstance(part, list) else [part]:
            if isinstance(one, dict):
                yield from faults_of_schema(name, one, not is_map and key in ("properties", "definitions"))


# ---- texts that are read

class AnyName(readings.Names):
    """Names of which any may stand anywhere."""

    def new(self, json):
        return readings.text(json)

    place = new


class ScenarioOfAnyNames(readings.Scenario):
    def __init__(self):
        self.contracts, self.threads, self.plans = AnyName(), AnyName(), AnyName()


READERS = {"contract": readings.contract, "state": readings.state, "transaction": readings.transaction, "input": readings.given}


def fault_of(reader, value):
    try:
        reader(value)
    except readings.Fault as fault:
        return fault.args[0]
    return None


def faults_of(sort, value):
    """The fault of a text, and the one that it has whatever names stand in it."""
    if sort == "scenario":
        return fault_of(readings.Scenario().whole, value), fault_of(ScenarioOfAnyNames().whole, value)
    fault = fault_of(READERS[sort], value)
    return fault, fault


def parsed(text):
    """The JSON of a text as the readings have it, or None where it is none."""
    try:
        return readings.parsed(text)
    except (readings.Fault, RecursionError):
        return None


# The sort of the text that a row of this word has behind it.
OF_ROWS = {"run": "transaction", "table": "contract", "play": "scenario", "last": "scenario", "threads": "scenario"}


def sort_of(name):
    """The sort of a file's text, by its name."""
    for sort in [*READERS, "scenario"]:
        if name.startswith(sort) and not name.startswith("transactions"):
            return sort
    return None


def sort_by_keys(value):
    """The sort of a text that its name doesn't tell."""
    keys = {"tick": "scenario", "tx_inputs": "transaction", "accounts": "state", "when": "contract", "pay": "contract"}
    return next((sort for key, sort in keys.items() if isinstance(value, dict) and key in value), None)


def texts_of_rows(path):
    """The texts that rows give, and those that stand behind their words."""
    given, known = rows.Given(), {}
    for line, _ in rows.answered(path.read_text().splitlines()):
        word, _, rest = line.partition(" ")
        if given.keeps(word, rest):
            continue
        for name, text in given.files.items():
            if known.get(name) != text:
                known[name] = text
                yield sort_of(name.split("/")[-1]), text
        if word in OF_ROWS and rest.startswith(("{", "$", '"')):
            yield OF_ROWS[word], given.whole(rest)


def with_files(path):
    """A file's text, in which a file of its folder that it names stands in the place of what names it."""
    def named(found):
        file = path.parent / found[1].decode()
        return file.read_bytes() if file.exists() else found[0]

    return re.sub(rb'\{"file":"([^"]*)"\}', named, path.read_bytes())


def texts_at_hand():
    """The sorts and texts of the files, of rows and of the suite's readings."""
    for path in sorted(DATA.rglob("*.json")):
        text = with_files(path)
        yield sort_of(path.name) or sort_by_keys(parsed(text)), text
    for path in sorted(DATA.rglob("*.txt")):
        yield from texts_of_rows(path)
    for line in (CASES / "readings.jsonl").read_text(encoding="utf-8").removesuffix("\n").split("\n"):
        asked = parsed(line.split("\t")[1].encode())
        for sort, value in (asked.get("read", {}) if isinstance(asked, dict) else {}).items():  # a list has the pieces of a line
            if sort in READERS and not isinstance(value, readings.Float):
                yield sort, json.dumps(value, default=lambda _: 0.5).encode()


# Texts with the keys of two forms. The first form in the order of docs/formats.md counts: so each stands beside whether it is read.
ADA = {"currency_symbol": "", "token_name": ""}
ROLE = {"role_token": "a"}
PAY = {"pay": 1, "token": ADA, "from_account": ROLE, "to": {"party": ROLE}}
IF = {"if": True, "then": "close", "else": "close"}


def waits(action):
    """A contract that waits for one action."""
    return {"when": [{"case": action, "then": "close"}], "timeout": 1, "timeout_continuation": "close"}


def plays(intent):
    """A scenario in which one party has one intent."""
    return {
        "tick": 0, "genesis": [], "contracts": [{"name": "c", "currency": "", "contract": "close"}],
        "threads": [{"name": "t", "contract": "c", "by": "a", "accounts": [], "minTime": 0}],
        "plans": [{"name": "p", "keys": ["a"], "change": "a", "intents": [intent]}],
    }


OF_TWO_FORMS = [
    ("contract", {**IF, **PAY}, True), ("contract", {**IF, **PAY, "pay": "one"}, False), ("contract", {**PAY, **IF, "if": 7}, True),
    ("contract", {**IF, "when": 7, "timeout": 1, "timeout_continuation": "close"}, True), ("contract", {**IF, "if": 7, "assert": True}, False),
    ("contract", {"let": 1, "be": 1, "then": "close", "assert": True}, False), ("contract", {"let": "x", "be": 1, "then": "close", "assert": 7}, True),
    ("contract", {"assert": {"value": 1, "ge_than": 1, "gt": "x"}, "then": "close"}, True),
    ("contract", {"assert": {"value": 1, "ge_than": "x", "gt": 1}, "then": "close"}, False),
    ("contract", {"assert": {"both": True, "and": True, "either": 1, "or": 1}, "then": "close"}, True),
    ("contract", {"assert": {"not": 1, "chose_something_for": {"choice_name": "n", "choice_owner": ROLE}}, "then": "close"}, False),
    ("contract", {"let": "x", "be": {"negate": 1, "add": "x", "and": "x"}, "then": "close"}, True),
    ("contract", {"let": "x", "be": {"add": 1, "and": 1, "value": "x", "minus": "x"}, "then": "close"}, True),
    ("contract", {"let": "x", "be": {"use_value": 7, "if": True, "then": 1, "else": 1}, "then": "close"}, False),
    ("contract", {"let": "x", "be": {"amount_of_token": ADA, "in_account": {"address": "x", "role_token": 7}}, "then": "close"}, True),
    ("contract", {"let": "x", "be": {"amount_of_token": ADA, "in_account": {"address": 7, "role_token": "x"}}, "then": "close"}, False),
    ("contract", {**PAY, "to": {"account": ROLE, "party": 7}, "then": "close"}, True), ("contract", {**PAY, "to": {"account": 7, "party": ROLE}, "then": "close"}, False),
    ("contract", waits({"party": ROLE, "deposits": 1, "of_token": ADA, "into_account": ROLE, "for_choice": 7, "choose_between": 7}), True),
    ("contract", waits({"party": ROLE, "deposits": "one", "of_token": ADA, "into_account": ROLE, "notify_if": True}), False),
    ("contract", waits({"for_choice": {"choice_name": "n", "choice_owner": ROLE}, "choose_between": [{"from": 0, "to": 1}], "notify_if": 7}), True),
    ("contract", waits({"for_choice": 7, "choose_between": [], "notify_if": True}), False),
    ("contract", {**IF, "then": {**waits({"notify_if": True}), **PAY}}, True), ("contract", {**IF, "then": {**waits({"notify_if": 7}), "assert": True, "then": "close"}}, False),
    ("scenario", plays({"step": "t", "inputs": [], "from": 0, "to": 1, "steps": 7}), True), ("scenario", plays({"step": 7, "inputs": [], "steps": [], "from": 0, "to": 1}), False),
    ("scenario", plays({"steps": [], "from": 0, "to": 1, "claim": 7, "role": 7}), True), ("scenario", plays({"claim": 7, "role": "r", "from": 0, "to": 1, "advance": 1}), False),
    ("scenario", plays({"round": 1, "workers": 1, "advance": "now"}), True), ("scenario", plays({"round": 1, "workers": 17, "advance": 1}), False),
    ("input", {"for_choice_id": {"choice_name": "n", "choice_owner": ROLE}, "input_that_chooses_num": 1, "that_deposits": "x"}, True),
    ("input", {"for_choice_id": 7, "input_that_chooses_num": 7, "input_from_party": ROLE, "that_deposits": 1, "of_token": ADA, "into_account": ROLE}, True),
]


def of_two_forms():
    for sort, value, is_read in OF_TWO_FORMS:
        if (faults_of(sort, value)[0] is None) != is_read:
            yield f"{sort} {json.dumps(value)}: readings.py reads otherwise than is written here"
        yield from fault_of_text(sort, value)


def fault_of_text(sort, value):
    """What is wrong with what a schema says of a text's JSON."""
    fault, with_any_names = faults_of(sort, value)
    holds = has_form(f"{sort}.json", schema_of(f"{sort}.json"), value)
    if fault is None and not holds or with_any_names == "NoForm" and holds:
        yield f"{sort} {json.dumps(value, default=repr)[:400]}: {fault or 'read'}, and by its schema {'it has a form' if holds else 'it has none'}"


# ---- texts that are printed

def printed():
    """Answers of the program, as the rows have them, with the schema of each: a refusal has its own, whatever was asked."""
    for name, text in answers():
        yield "refusal.json" if text.startswith('{"refused":') else name, text


def answers():
    for path in sorted(DATA.rglob("output.json")):
        yield "outcome.json", path.read_text()
    for path in sorted(DATA.rglob("*.txt")):
        for line, written in rows.answered(path.read_text().splitlines()):
            words, answer = line.split(), rows.output_of(written)
            if not words or not answer or not answer[0].startswith("{"):
                continue
            if words[0] in ("run", "trace") or words[:2] in (["marlowe", "run"], ["marlowe", "trace"]):
                yield from (("outcome.json", each) for each in answer)
            elif words[:2] == ["marlowe", "table"]:
                yield "table.json", answer[0]
            elif words[:2] == ["marlowe", "next"] and "--json" in words:
                yield "next.json", answer[0]
            elif words[:2] == ["marlowe", "play"] and "--json" in words:
                yield from (("play.json", each) for each in answer)
            elif words[0] == "json" or words[:2] == ["marlowe", "analyse"] and "--json" in words:
                yield "analysis.json", answer[0]


# Keys that are there only where they are asked for.
ASKED_FOR = {"analysis.json": {"notes", "while_keeping_up"}}


def faults_of_printed(counts):
    for name, text in printed():
        value = json.loads(text)
        counts[f"{name}: printed"] += 1
        if not has_form(name, schema_of(name), value):
            yield f"{name}: {text[:400]}: is printed and has no form"
        for key in value.keys() - ASKED_FOR.get(name, set()):
            if has_form(name, schema_of(name), {other: value[other] for other in value if other != key}):
                yield f"{name}: {text[:400]}: has a form without {key}"


# ---- a stream of requests

STREAM = TOP / "crates" / "rows_serve"
REQUESTS = ["run", "trace", "next", "table", "analyse", "play", "read", "bytes", "define", "forget"]
OF_REQUESTS = {
    "run": "outcome.json", "trace": "answer.json#/definitions/outcomes", "next": "next.json", "table": "table.json", "analyse": "analysis.json",
    "play": "answer.json#/definitions/played", "bytes": "answer.json#/definitions/bytes", "define": "answer.json#/definitions/truth", "forget": "answer.json#/definitions/truth",
}
OF_READ = {"contract": "contract.json", "state": "state_with_texts.json", "transaction": "transaction.json", "input": "input.json"}


def schema_of_ok(asked):
    """The schema of what stands at `ok` of an answer."""
    word = next(word for word in REQUESTS if word in asked)
    return OF_REQUESTS[word] if word != "read" else next(OF_READ[key] for key in OF_READ if key in asked["read"])


def json_or_none(line):
    try:
        return json.loads(line)
    except ValueError:
        return None


def faults_of_answer(line, answer):
    """What is wrong with what the schemas say of a line of a stream and of its answer."""
    asked = json_or_none(line)
    if not has_form("answer.json", schema_of("answer.json"), answer):
        yield f"answer.json: {json.dumps(answer)[:400]}: is printed and has no form"
    if "ok" not in answer and has_form("answer.json", schema_of("answer.json"), {"id": answer["id"]}):
        yield f"answer.json: {json.dumps(answer)[:400]}: has a form without refused"
    is_request = has_form("request.json", schema_of("request.json"), asked)
    if "ok" in answer and not is_request:
        yield f"request.json: {line[:400]}: is answered and has no form"
    if "ok" in answer and not has_form("answer.json", {"$ref": schema_of_ok(asked)}, answer["ok"]):
        yield f"{schema_of_ok(asked)}: {json.dumps(answer)[:400]}: is printed and has no form"
    if "ok" not in answer and is_request and wants_form(asked, answer["refused"]):
        yield f"request.json: {line[:400]}: has a form and is refused as {answer['refused']['name']}"


def wants_form(asked, refused):
    """Whether a request that is refused so lacks a form, as far as a schema tells: it doesn't know which names a scenario has."""
    of_a_name = refused.get("wanted", "").endswith((" of the scenario", "new name"))
    return refused["name"] in ("NoObject", "NoRequest", "NoForm") and refused["of"] != "state" and "define" not in asked and not of_a_name


def lines_and_answers():
    """The lines of streams, each with its answer: those of rows_serve, and of the rows of `marlowe serve`."""
    yield from zip((STREAM / "stdin").read_text().split("\n"), (STREAM / "stdout").read_text().split("\n"))
    given = rows.Given()
    for line, written in rows.answered((DATA / "standard_input.txt").read_text().splitlines()):
        word, _, rest = line.partition(" ")
        if not given.keeps(word, rest) and line.startswith("marlowe serve") and "--help" not in line:
            yield from zip(given.files["-"].decode().split("\n"), rows.output_of(written))


def faults_of_stream(counts):
    for line, text in lines_and_answers():
        answer = json.loads(text)
        counts[f"a stream: {'ok' if 'ok' in answer else 'refused'}"] += 1
        yield from faults_of_answer(line, answer)


# ---- all

def faults(count, counts):
    for path in sorted(SCHEMAS.glob("*.json")):
        yield from faults_of_schema(path.name, schema_of(path.name))
    at_hand = collections.defaultdict(list)
    for sort, text in texts_at_hand():
        if sort:
            at_hand[sort].append(text)
    chance = random.Random(1)
    every = [text for texts in at_hand.values() for text in texts if text]
    for sort, texts in at_hand.items():
        spoilt = [spoiled.spoiled(chance, chance.choice(texts), every)[0] for _ in range(count)]
        for text in texts + spoilt:
            value = parsed(text)
            if value is not None:
                counts[f"{sort}.json: {'read' if faults_of(sort, value)[0] is None else 'not read'}"] += 1
                yield from fault_of_text(sort, value)
    yield from of_two_forms()
    counts["of two forms"] += len(OF_TWO_FORMS)
    yield from faults_of_printed(counts)
    yield from faults_of_stream(counts)


def main():
    sys.setrecursionlimit(100_000)
    asked = argparse.ArgumentParser()
    asked.add_argument("--count", type=int, default=300)
    counts, found = collections.Counter(), []
    for fault in faults(asked.parse_args().count, counts):
        found.append(fault)
        print(fault)
    for name, number in sorted(counts.items()):
        print(f"{name} {number}")
    print(f"{sum(counts.values())} texts, {len(found) or 'none'} at fault")
    sys.exit(bool(found))


if __name__ == "__main__":
    main()
