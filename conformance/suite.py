"""The cases of the suite: how they are kept, what line each sends, which answer is the wanted one, and which path it takes.

Usage    the scripts beside it import it.

A case is a line of crates/rows_suite/data/SUBJECT.jsonl, an object with `subject`, `name`, `rule` (a name of rules.py), `choices` (names of its CHOICES), `ask` and
`answer`. Tabs stand around the last two, so a line has five parts for whoever doesn't read JSON. `ask` is a request as it is sent; its id is the
number of the line. Or it is the list of the pieces of a line: texts, bytes by their numbers, and `[count, text]` for a text so many times.

Where a case is made it has no `answer` under an id, and in place of a request with its id either `ask`, its data; or `text`, what stands behind the id;
or `line`, a text or the pieces, with the `id` that its answer has.
"""
import json
import os
import sys

import reference
import rules

HERE = os.path.dirname(os.path.abspath(__file__))
CRATE = os.path.join(HERE, "..", "crates", "rows_suite")
FOLDER = os.path.join(CRATE, "data")
REFUSAL = ("of", "name", "number")
ROWS = ("accounts", "choices", "boundValues")
HEAD = ("subject", "name", "rule", "choices")


def compact(data):
    return json.dumps(data, separators=(",", ":"), sort_keys=True, ensure_ascii=False)


def as_given(data):
    return json.dumps(data, separators=(",", ":"), ensure_ascii=False)


# ---- how a case is kept

def asked_text(case, number):
    """What a case asks, as it stands in its file."""
    if "line" in case:
        return as_given([case["line"]] if isinstance(case["line"], str) else case["line"])
    text = '{"id":%d,%s}' % (number, case["text"]) if "text" in case else as_given({"id": number, **case["ask"]})
    return as_given([text]) if "\t" in text else text


def answer_text(given, answer):
    """An answer to a request of this id, as `marlowe serve` writes it. Of a refusal it has what is compared."""
    parts = ['"id":' + compact(given)]
    if "ok" in answer:
        parts.append('"ok":' + compact(answer["ok"]))
    if "refused" in answer:
        parts.append('"refused":' + as_given({key: answer["refused"][key] for key in REFUSAL if key in answer["refused"]}))
    return "{" + ",".join(parts) + "}"


def written(case, number=1):
    """A case as it stands in its file, on a line of this number."""
    head = as_given({key: case[key] for key in HEAD})[:-1]
    given = case["id"] if "line" in case else number
    return f'{head},"ask":\t{asked_text(case, number)}\t,"answer":\t{answer_text(given, case["answer"])}\t}}'


def read(line):
    """A case of a file: its head, the line that is `sent`, the `id` of its answer, and the `answer` without it. What is asked is there as data where
    that is written as it was."""
    case, asked = json.loads(line), line.split("\t")[1]
    data, answer = case["ask"], case["answer"]
    case["id"] = answer.pop("id")
    case["sent"] = joined(data) if isinstance(data, list) else asked.encode()
    if isinstance(data, list) or as_given(data) != asked:
        del case["ask"]
    else:
        del data["id"]
    return case


def load(subjects=None):
    for subject in subjects or rules.SUBJECTS:
        path = os.path.join(FOLDER, subject + ".jsonl")
        if os.path.exists(path):
            with open(path, encoding="utf-8", newline="\n") as file:
                yield from map(read, file)


def rows_of(counts):
    """The files beside those of the cases by which the gate holds the program against them: the arguments of `rows_suite`, and what it prints where all
    are answered so. `counts` are numbers of cases by subject."""
    files = {subject + ".jsonl": count for subject, count in counts.items()}
    return {"args": "".join(name + "\n" for name in files), "stdout": "".join(f"{name}: {count} of {count} cases\n" for name, count in files.items())}


def joined(pieces):
    """The line that is made of these pieces."""
    return b"".join(bytes([piece]) if isinstance(piece, int) else (piece if isinstance(piece, str) else piece[0] * piece[1]).encode() for piece in pieces)


def line_of(case, number=0):
    """The line that a case which is made sends, without its line feed, and the id that its answer has."""
    text = asked_text(case, number)
    return joined(json.loads(text)) if text.startswith("[") else text.encode(), case["id"] if "line" in case else number


# ---- answers

def is_unread(answer):
    """Whether an answer says that a text, or the line, isn't read."""
    name = answer.get("refused", {}).get("name")
    return name is not None and name not in reference.REFUSALS


def is_wanted(wanted, came, loosely=False):
    """Whether an answer is the wanted one. A refusal without a name, or without what it is of, is compared in what it says."""
    if ("ok" in wanted) != ("ok" in came) or ("refused" in wanted) != ("refused" in came):
        return False
    if "ok" in wanted and compact(came["ok"]) != compact(wanted["ok"]) and not (loosely and is_loosely(wanted["ok"], came["ok"])):
        return False
    told = came.get("refused", {})
    return isinstance(told, dict) and all(told[key] == wanted["refused"].get(key) for key in REFUSAL if key in told)


def is_loosely(wanted, came):
    try:
        return compact(without_choices(wanted)) == compact(without_choices(came))
    except (KeyError, IndexError, TypeError, AttributeError, ValueError):
        return False


def without_choices(told):
    """What is told, without our orders and our texts of digits: rows and refunds are sorted, and such a text is its number."""
    if isinstance(told, list):
        return [without_choices(outcome) for outcome in told]
    if isinstance(told, dict) and "payments" in told and "state" in told:
        return {"contract": told["contract"], "payments": without_refunds(told), "state": in_any_order(told["state"]),
                "warnings": [numbered(warning) for warning in told["warnings"]]}
    return in_any_order(told) if isinstance(told, dict) and all(key in told for key in ROWS) else told


def numbered(item):
    """A payment or a warning with numbers in place of texts of digits."""
    return {key: number(part) if key in ("amount", "paid", "expected", "old", "new") else part for key, part in item.items()}


def number(told):
    return int(told) if isinstance(told, str) and told.removeprefix("-").isdecimal() else told


def in_any_order(state):
    return {**state, **{key: sorted(([row[0], number(row[1])] for row in state[key]), key=compact) for key in ROWS}}


def without_refunds(outcome):
    """The payments in their order, and the last ones that go from an account to its owner sorted, since Close may have made them."""
    payments, end = [numbered(payment) for payment in outcome["payments"]], len(outcome["payments"])
    while end and outcome["contract"] == "close" and payments[end - 1]["to"] == {"party": payments[end - 1]["payment_from"]}:
        end -= 1
    return payments[:end] + sorted(payments[end:], key=compact)


# ---- paths

def told_by(line):
    """The answer of a line, and its path: the rules that a run or a trace takes; of what is only read, or isn't read, the lines of readings.py
    that it goes through."""
    taken = []
    told = reference.answer(line, taken)
    if taken:
        return told, tuple(taken)
    is_line = told.get("refused", {}).get("of") == "line"
    return told, ("read", *lines_read(line, 0 if is_line else FORMS_BEGIN))


FORMS_BEGIN = reference.readings.no_form.__code__.co_firstlineno


def lines_read(line, begin):
    """The lines of readings.py from a line on that are gone through."""
    lines = []

    def note(frame, event, _):
        if event == "line":
            lines.append(frame.f_lineno)
        return note

    def follow(frame, event, _):
        code = frame.f_code
        return note if code.co_filename == reference.readings.__file__ and code.co_firstlineno >= begin else None

    sys.settrace(follow)
    try:
        reference.answer(line)
    finally:
        sys.settrace(None)
    return lines


def pairs_of(path):
    """The pairs of rules that come one right after the other, of a path of a run."""
    rules_taken = [rule for rule in path if rule != reference.interpreter.WIDE] if path[:1] != ("read",) else []
    return set(zip(rules_taken, rules_taken[1:]))
