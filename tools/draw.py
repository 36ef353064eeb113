#!/usr/bin/env python3
"""Draws what `marlowe table` prints: a contract as a picture.

Needs    nothing but Python; for a picture Graphviz (`dot`).
Usage    marlowe table contract.json | tools/draw.py                       prints the drawing in DOT, Graphviz's language
         marlowe table contract.json | tools/draw.py --svg contract.svg    has Graphviz draw it
         tools/draw.py table.txt [--svg contract.svg]                      takes the table from a file
         with --numbers each box has its number in the table, too
Expect   a box for each continuation that the root leads to, and an arrow for each way to go on: a case, with who does what; a timeout,
         dashed, with its time; a branch. What the contract does before it waits again stands in one box after another. A continuation that
         several lead to is drawn once, as it stands once in the table.
Names    A role is written as it is, an address with an `@` before it, a token by its name; ada is counted in lovelace.
Else     one line on standard error: status 1 for a text that is no table, 2 for a command line or a file at fault, or where there is no `dot`.
"""
import json
import re
import subprocess
import sys

WIDEST = 26  # characters of a line in a box
WIDEST_AT_ARROW = 24
LONGEST = 160  # characters of a value or an observation
NO_BREAK = "\u00a0"  # a space at which no line ends
MARGIN = 2 * NO_BREAK  # between an arrow and the words beside it
FONT = 'fontname="Helvetica,Arial,sans-serif"'


class NoTable(Exception):
    """The text isn't what `marlowe table` prints."""


# ---- reading

def words(line):
    """The words of a line: spaces within a JSON text part none."""
    found, word, quoted, escaped = [], "", False, False
    for letter in line:
        if letter == " " and not quoted:
            found.append(word)
            word = ""
            continue
        word += letter
        if quoted and not escaped and letter == "\\":
            escaped = True
            continue
        if letter == '"' and not escaped:
            quoted = not quoted
        escaped = False
    return found + [word]


def read(text):
    """The nodes by their numbers, and the number of the root."""
    nodes, root = {}, None
    for line in text.splitlines():
        number, *rest = words(line)
        if number == "root":
            root = rest[0]
        elif re.fullmatch(r"[vock][0-9]+", number) and rest:
            nodes[number] = rest
        else:
            raise NoTable(line)
    if root not in nodes:
        raise NoTable("no root")
    return nodes, root


# ---- names

def party(text):
    """A role as it is, an address behind an `@`."""
    found = json.loads(text) if isinstance(text, str) else text
    return found["role_token"] if "role_token" in found else "@" + found["address"]


def token(text):
    found = json.loads(text)
    if not found["currency_symbol"] and not found["token_name"]:
        return "lovelace"
    return found["token_name"] or found["currency_symbol"]


def bounds(text):
    spans = [str(each["from"]) if each["from"] == each["to"] else f"{each['from']} to {each['to']}" for each in json.loads(text)]
    return " or ".join(spans) or "nothing"


def choice(text):
    found = json.loads(text)
    return found["choice_name"], party(found["choice_owner"])


# ---- values and observations, as one would write them

SIGNS = {
    "add": "+", "minus": "-", "multiply": "×", "divide": "/", "ge_than": "≥", "gt": ">", "lt": "<", "le_than": "≤", "equal_to": "=",
    "both": "and", "either": "or",
}


class Terms:
    """What the table's values and observations say. A term that others hold stands in brackets there, if it has parts."""

    def __init__(self, nodes):
        self.nodes = nodes

    def term(self, number):
        form, *parts = self.nodes[number]
        if form in SIGNS:
            return f"{self.part(parts[0])} {SIGNS[form]}{NO_BREAK}{self.part(parts[1])}"
        if form == "if":
            return f"{self.part(parts[1])} if {self.part(parts[0])} else {self.part(parts[2])}"
        return self.whole(form, parts)

    def whole(self, form, parts):
        if form == "constant":
            return parts[0]
        if form == "use_value":
            return json.loads(parts[0])
        if form in ("value_of_choice", "chose_something_for"):
            name, owner = choice(parts[0])
            return f"“{name}” of {owner}" if form == "value_of_choice" else f"{owner} chose “{name}”"
        if form == "amount_of_token":
            return f"{token(parts[0])} of {party(parts[1])}"
        if form in ("negate", "not"):
            return {"negate": "-", "not": "not "}[form] + self.part(parts[0])
        return {"time_interval_start": "start of the interval", "time_interval_end": "end of the interval"}.get(form, form)

    def part(self, number):
        text = self.term(number)
        return f"({text})" if self.nodes[number][0] in (*SIGNS, "if") else text

    def cut(self, number):
        text = self.term(number)
        return text if len(text) <= LONGEST else text[:LONGEST] + " .."

    def amount(self, number, coin):
        """So much of a token."""
        return f"{self.cut(number)}{NO_BREAK}{coin}" if self.nodes[number][0] == "constant" else f"{self.cut(number)}, in{NO_BREAK}{coin}"


# ---- the drawing

def folded(text, widest=WIDEST):
    """The text in lines of some width, broken at spaces."""
    lines = [""]
    for word in text.split(" "):
        if lines[-1] and len(lines[-1]) + 1 + len(word) > widest:
            lines.append(word)
        else:
            lines[-1] = f"{lines[-1]} {word}" if lines[-1] else word
    return lines


def at_arrow(who, what=""):
    """The lines beside an arrow: who does it, and what, together where they are short."""
    both = f"{who} {what}" if what else who
    return [who, *folded(what, WIDEST_AT_ARROW)] if what and len(both) > WIDEST_AT_ARROW else folded(both, WIDEST_AT_ARROW)


def quoted(lines):
    escaped = [line.replace("\\", "\\\\").replace('"', '\\"') for line in lines]
    return '"' + "\\n".join(escaped) + '"'


class Drawing:
    def __init__(self, text, numbered):
        self.nodes, self.root = read(text)
        self.terms, self.numbered = Terms(self.nodes), numbered
        self.boxes, self.arrows = {}, []

    def lines(self):
        """The drawing in DOT."""
        waiting = [self.root]
        while waiting:
            number = waiting.pop()
            if number not in self.boxes:
                waiting += reversed(self.draw(number))
        yield "digraph contract {"
        yield f'  graph [rankdir=TB nodesep=0.25 ranksep=0.4 {FONT}];'
        yield f'  node [shape=box style=filled fillcolor="#f4f4f4" color="#555555" fontsize=11 margin="0.12,0.06" {FONT}];'
        yield f'  edge [color="#555555" fontsize=10 arrowsize=0.7 {FONT}];'
        yield '  begin [shape=point width=0.12 color="#555555"];'
        yield from (f"  {number} [{looks}];" for number, looks in self.boxes.items())
        yield f"  begin -> {self.root};"
        yield from (f"  {arrow};" for arrow in self.arrows)
        yield "}"

    def draw(self, number):
        """Draws a continuation with its arrows, and gives those that they lead to."""
        form, *parts = self.nodes[number]
        drawn = {"close": self.close, "pay": self.pay, "if": self.branch, "when": self.wait, "let": self.let, "assert": self.claim}
        if form not in drawn:
            raise NoTable(f"{number} {form}")
        lines, looks, arrows = drawn[form](parts)
        shown = [number, *lines] if self.numbered else lines
        self.boxes[number] = f"label={quoted(shown)} {looks}"
        for other, label, dashed in arrows:
            style = ' style=dashed' if dashed else ""
            beside = quoted([MARGIN + line + MARGIN for line in label])
            self.arrows.append(f"{number} -> {other} [label={beside}{style}]" if label else f"{number} -> {other}")
        return [other for other, _, _ in arrows]

    # The lines and the looks of each form's box, and its arrows: where each leads, with which lines, and whether it is dashed.

    def close(self, _):
        return ["close"], 'style="filled,bold" fillcolor="#dddddd"', []

    def pay(self, parts):
        value, coin, source, payee, after = parts
        (kind, to), = json.loads(payee).items()
        whom = f"to {party(to)}" if kind == "party" else f"to the account of {party(to)}"
        lines = [*folded(f"pay {self.terms.amount(value, token(coin))}"), f"from the account of {party(source)}", whom]
        return lines, 'fillcolor="#e3f0dc"', [(after, [], False)]

    def branch(self, parts):
        observation, yes, no = parts
        return folded("if " + self.terms.cut(observation)), 'fillcolor="#fdf3d0"', [(yes, ["yes"], False), (no, ["no"], False)]

    def wait(self, parts):
        cases, time, late = parts
        numbers = [each for each in cases.strip("[]").split(",") if each]
        arrows = [(self.nodes[each][-1], self.case(each), False) for each in numbers]
        lines = ["wait" if numbers else "wait for the time"]
        return lines, 'style="filled,rounded" fillcolor="#dce9f6"', arrows + [(late, [f"from {time} on"], True)]

    def case(self, number):
        form, *parts = self.nodes[number]
        if form == "deposit":
            account, giver, coin, value, _ = parts
            own = party(account) == party(giver)
            lines = at_arrow(f"{party(giver)} deposits", self.terms.amount(value, token(coin)))
            return lines if own else [*lines, f"for the account of {party(account)}"]
        if form == "choice":
            name, owner = choice(parts[0])
            return at_arrow(f"{owner} chooses", f"“{name}”:{NO_BREAK}{bounds(parts[1]).replace(' ', NO_BREAK)}")
        return at_arrow(f"anybody, if {self.terms.cut(parts[0])}")

    def let(self, parts):
        name, value, after = parts
        return folded(f"let {json.loads(name)} be {self.terms.cut(value)}"), 'fillcolor="#fdf3d0"', [(after, [], False)]

    def claim(self, parts):
        observation, after = parts
        return folded(f"assert {self.terms.cut(observation)}"), 'fillcolor="#fdf3d0"', [(after, [], False)]


def drawn(text, numbered=False):
    try:
        return "\n".join(Drawing(text, numbered).lines()) + "\n"
    except (KeyError, IndexError, ValueError, TypeError) as fault:
        raise NoTable(fault) from None


def draw_picture(dot, path):
    try:
        done = subprocess.run(["dot", "-Tsvg", "-o", path], input=dot.encode(), capture_output=True)
    except FileNotFoundError:
        fail("no `dot`: Graphviz isn't installed", 2)
    if done.returncode:
        fail(done.stderr.decode().strip(), 2)


def fail(line, status):
    print(line, file=sys.stderr)
    sys.exit(status)


def main(given):
    picture, numbered = None, "--numbers" in given
    given = [word for word in given if word != "--numbers"]
    if "--svg" in given:
        place = given.index("--svg")
        picture, given = given[place + 1:place + 2], given[:place] + given[place + 2:]
    if len(given) > 1 or picture == [] or any(word.startswith("-") for word in given):
        fail(__doc__, 2)
    try:
        if given:
            with open(given[0], encoding="utf-8") as file:
                text = file.read()
        else:
            text = sys.stdin.read()
    except OSError as fault:
        fail(fault, 2)
    try:
        dot = drawn(text, numbered)
    except NoTable as fault:
        fail(f"no table: {fault}", 1)
    if picture:
        draw_picture(dot, picture[0])
    else:
        sys.stdout.write(dot)


if __name__ == "__main__":
    main(sys.argv[1:])
