"""The worked rows of crates/rows_commands that run transactions, its examples and its tutorial, whose answers were written there."""
import json
import os

import reference
import rows
from words import case, refused, without_ask

DATA = os.path.join(os.path.dirname(os.path.abspath(__file__)), "..", "..", "crates", "rows_commands", "data")
FILES = ["runs.txt", "traces.txt", "trace_forms.txt", "tutorial/rows.txt", "refusals.txt"]
# How long what is asked may be.
LONGEST = 5000
NAMED = {"run": "run contract.json state.json transaction.json", "trace": "trace contract.json transactions.json"}


class NoCase(Exception):
    """The row isn't one that can be asked by a stream."""


def text_of(given, path):
    """The text of a file: one that a line gave, or one that lies there."""
    if path in given.files:
        return given.files[path]
    try:
        with open(os.path.join(DATA, path), "rb") as file:
            return file.read()
    except OSError:
        raise NoCase from None


def part_of(given, path):
    """The same where it can stand in a line."""
    text = text_of(given, path)
    try:
        reference.readings.parsed(text)
        part = text.decode().strip()
    except (reference.readings.Fault, UnicodeDecodeError):
        raise NoCase from None
    if len(text) > 4000 or "\n" in part or "\t" in part or "\r" in part:
        part = json.dumps(json.loads(text), separators=(",", ":"), ensure_ascii=False)
        if json.loads(part) != json.loads(text) or len(part) > 4000:
            raise NoCase
    return part


def transactions_of(given, paths):
    """The transactions of files, each a list, or one, or one on each line."""
    parts = []
    for path in paths:
        try:
            part = part_of(given, path)
            parts += [json.dumps(each, separators=(",", ":"), ensure_ascii=False) for each in json.loads(part)] if part.startswith("[") else [part]
        except NoCase:
            parts += [line for line in text_of(given, path).decode().split("\n") if line.strip()]
    for part in parts:
        try:
            reference.readings.parsed(part.encode())
        except reference.readings.Fault:
            raise NoCase from None
    return "[" + ",".join(parts) + "]"


def wanted(written, is_trace):
    """The answer that is written below a row."""
    outcomes = [json.loads(line) for line in written if line.startswith("{")]
    errors = [line.split()[2:] for line in written if line.startswith("stderr refused")]
    if not errors:
        return {"ok": outcomes if is_trace else outcomes[0]}
    *words, name = errors[0]
    more = {"number": int(words[1])} if words[1:] else {}
    refusal = refused(name, words[0] if words else "transaction", **more)
    return {"ok": outcomes, **refusal} if is_trace and name in reference.REFUSALS else refusal


def asked(given, words):
    """What a command line asks of a stream, as the text behind the id."""
    if words[0] not in NAMED or any(word.startswith("--") and word != "--state" for word in words):
        raise NoCase
    paths, parts = words[1:], {}
    if "--state" in paths:
        place = paths.index("--state")
        parts["state"] = part_of(given, paths[place + 1])
        paths = paths[:place] + paths[place + 2:]
    parts["contract"] = part_of(given, paths[0])
    if words[0] == "run":
        parts["state"], parts["transaction"] = part_of(given, paths[1]), part_of(given, paths[2])
    else:
        parts["transactions"] = transactions_of(given, paths[1:])
    return '"%s":{%s}' % (words[0], ",".join(f'"{key}":{parts[key]}' for key in ("contract", "state", "transaction", "transactions") if key in parts))


def words_of(given, line):
    """The command line of a row, with the text of the row kept where the row says."""
    word, _, rest = line.partition(" ")
    if word == "marlowe":
        return rest.split()
    if word not in NAMED:
        raise NoCase
    if rest:
        given.keep(NAMED[word].split()[-1], rest)
    return NAMED[word].split() + ["--state", "state.json"] * (word == "trace" and given.has_state)


def cases_of(path):
    given, about, place, seen = rows.Given(), "", 0, set()
    for line, written in rows.answered(rows.lines_of(os.path.join(DATA, path))):
        if line.startswith("#"):
            about, place = line.lstrip("#-. "), 0
        try:
            word, _, rest = line.partition(" ")
            if given.keeps(word, rest):
                continue
            text = asked(given, words_of(given, line))
            answer = wanted(written, text.startswith('"trace"'))
        except (NoCase, rows.NoSuchRow, IndexError, KeyError, ValueError):
            continue
        place += 1
        if len(text) <= LONGEST and "TooMany" not in str(answer) and (text, str(answer)) not in seen:
            seen.add((text, str(answer)))
            yield of_row(f"{about} ({path}, {place})", text, answer)


def of_row(name, text, answer):
    """A case of a row, whose rule and subject are those that its path shows."""
    return {**without_ask(case(None, name, None, None, answer)), "text": text}


def examples():
    for name in sorted(os.listdir(os.path.join(DATA, "examples"))):
        folder = os.path.join("examples", name)
        given = rows.Given()
        try:
            text = asked(given, ["run"] + [os.path.join(folder, part + ".json") for part in ("contract", "state", "transaction")])
        except NoCase:
            continue
        output = os.path.join(DATA, folder, "output.json")
        with open(output if os.path.exists(output) else os.path.join(DATA, folder, "refusal.txt"), encoding="utf-8") as file:
            told = file.read().strip()
        yield of_row(f"the example {name.replace('_', ' ')}", text, wanted([told if told.startswith("{") else "stderr " + told], False))


CASES = [*examples(), *(each for path in FILES for each in cases_of(path))]
