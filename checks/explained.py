#!/usr/bin/env python3
"""Compares what `--explain` says of texts that aren't read with the texts: places, what stands there, and what mends it.

Needs    (cd crates/marlowe && rt run -- --version)
Usage    checks/explained.py [--program FILE]; spoiled.py --explain imports it
Expect   a line for each way in which a text of rows_commands/data/explained_*.txt was mended, and `N texts mended, none at fault`
Else     the text, what it was told, and what is wrong; then status 1

Each row there that is about a text of its own has the mended text in a comment behind `# mended`: it must be read. Where the lines name a key that
was misspelled, put a number into quotation marks or want a number that is one, just that is mended in the refused text, and it must be the mended one.

Of any text that is refused and explained it is asked: that the line and the column are those of the part to which the path leads; that this part is
not read as the sort that is told, with the fault of the first line, by `readings.py`; that what stands there is told as it stands; and that with a
smallest value of the sort in the part's place the text is read, or stops at another part that isn't in this one.
"""
import argparse, json, os, re, subprocess, sys, tempfile
import readings
from rows import CRATES, Given, answered, lines_of

ROOT = os.path.dirname(os.path.dirname(os.path.abspath(__file__)))
PROGRAM = f"{ROOT}/crates/marlowe/out/marlowe"
ROWS = [f"{CRATES}/rows_commands/data/explained_{what}.txt" for what in ("texts", "states", "scenarios")]
MOST_SHOWN, MOST_OF_PATH, LONGEST = 60, 400, 1_048_576

PARTY, TOKEN = '{"address":"a"}', '{"currency_symbol":"","token_name":""}'
# One that no text has, so that it is no second amount of a token.
OTHER_TOKEN = '{"currency_symbol":"6d656e646564","token_name":"mended"}'
CHOICE = '{"choice_name":"","choice_owner":%s}' % PARTY
ENTRIES = {"amount": f"[{TOKEN},1]", "accounts": f"[[{PARTY},{TOKEN}],1]", "choices": f"[{CHOICE},0]", "boundValues": '["",0]'}


def amount(json):
    if readings.number(json) <= 0:
        raise readings.Fault("BadState")


def repeated(json):
    raise readings.Fault("BadState")


def truth(json):
    readings.no_form(not isinstance(json, bool))


def of_scenario(read):
    """What reads a part of a scenario that has nothing yet."""
    return lambda json: read(readings.Scenario(), json)


NEW = '"no such name"'


# Of each sort its reader, if it is sure, and a smallest text that it reads. (That an entry is a second one shows in its list alone.)
SORTS = {
    "contract": (readings.contract, '"close"'), "list of cases": (readings.cases, "[]"), "case": (readings.case, '{"case":{"notify_if":true},"then":"close"}'),
    "action": (readings.action, '{"notify_if":true}'), "value": (readings.value, "0"), "observation": (readings.observation, "true"),
    "list of bounds": (readings.bounds, "[]"), "bound": (readings.bound, '{"from":0,"to":0}'), "choice id": (readings.choice_id, CHOICE),
    "token": (readings.token, TOKEN), "party": (readings.party, PARTY), "payee": (readings.payee, '{"party":%s}' % PARTY), "text": (readings.text, '""'),
    "text of hexadecimal digits": (readings.symbol, '""'), "whole number": (readings.number, "1"), "time": (readings.time, "0"),
    "transaction": (readings.transaction, '{"tx_interval":{"from":0,"to":0},"tx_inputs":[]}'), "interval": (readings.interval, '{"from":0,"to":0}'),
    "list of inputs": (readings.inputs, "[]"), "input": (readings.given, '"input_notify"'),
    "state": (readings.state, '{"accounts":[],"choices":[],"boundValues":[],"minTime":0}'), "list of accounts": (readings.accounts, "[]"),
    "entry of accounts": (lambda json: readings.accounts([json]), ENTRIES["accounts"]), "account": (readings.account, f"[{PARTY},{TOKEN}]"),
    "list of choices": (lambda json: readings.keyed(json, readings.choice_id), "[]"),
    "entry of choices": (lambda json: readings.keyed([json], readings.choice_id), ENTRIES["choices"]),
    "list of bound values": (lambda json: readings.keyed(json, readings.text), "[]"),
    "entry of bound values": (lambda json: readings.keyed([json], readings.text), ENTRIES["boundValues"]),
    "number": (None, "0"), "number above 0": (amount, "1"), "second entry for one key": (repeated, None),
    "scenario": (of_scenario(readings.Scenario.whole), '{"tick":0,"genesis":[],"contracts":[],"threads":[],"plans":[]}'),
    "genesis": (readings.items, "[]"), "entry of genesis": (readings.funds, '{"address":"","amount":[]}'), "list of amounts": (readings.amount, "[]"),
    "entry of amounts": (lambda json: readings.amount([json]), f"[{OTHER_TOKEN},1]"), "list of contracts": (readings.items, "[]"),
    "named contract": (of_scenario(readings.Scenario.contract), '{"name":%s,"currency":"","contract":"close"}' % NEW), "list of threads": (readings.items, "[]"),
    "thread": (of_scenario(readings.Scenario.thread), None), "list of plans": (readings.items, "[]"),
    "plan": (None, '{"name":%s,"keys":[],"change":"","intents":[]}' % NEW), "list of keys": (readings.items, "[]"), "list of intents": (readings.items, "[]"),
    "intent": (of_scenario(readings.Scenario.intent), '{"advance":0}'), "list of steps": (readings.items, "[]"),
    "step": (of_scenario(readings.Scenario.step_item), None), "new name": (None, NEW), "contract of the scenario": (None, None), "thread of the scenario": (None, None),
    "number of transactions": (lambda json: readings.within(json, 0, readings.GREATEST_NUMBER), "0"), "number of workers": (readings.workers, "1"),
    "number of calls": (lambda json: readings.within(json, 0, readings.GREATEST_TIME), "0"), "truth value": (truth, "false"),
    "hexadecimal digits": (readings.symbol, '""'), "contract follows": (readings.case, '{"case":{"notify_if":true},"then":"close"}'),
}
FIRST = re.compile(r"refused (contract|state|transaction|scenario)(?: (\d+))? (\w+)")
NAMES = re.compile(r"  (?:there are no \w+|the \w+ are (?P<names>\".*))")
PLACE = re.compile(r"  (?P<file>.*?):(?P<line>\d+):(?P<column>\d+)(?: at (?P<path>[.\[]\S*))?: (?P<rest>.*)")
WHY = re.compile(r"no (?:form of an? )?(?P<sort>[a-z ]+0?)(?:, but its hash|; (?P<stands>.*))")
STEP = re.compile(r"\.(\w+)|\[(\d+)\]")
BLANK = re.compile(r"[ \t\r\n]*")
PLAIN = re.compile(r'"(?:[^"\\]|\\.)*"|[-+.\w]+', re.DOTALL)


class Wrong(Exception):
    """What is told isn't so."""


def see(is_so, what):
    if not is_so:
        raise Wrong(what)


class Part:
    """A part of a JSON text: from where to where it goes, and the parts in it by their keys, or by their indexes."""

    def __init__(self, begin, end, keys, parts):
        self.begin, self.end, self.keys, self.parts = begin, end, keys, parts

    def behind(self, key, index):
        if index:
            return self.parts[int(index)]
        return self.parts[len(self.keys) - 1 - [word for word, _ in self.keys][::-1].index(key)]


def part_of(text, place=0):
    """The part that begins behind blanks at a place of a JSON text."""
    begin = place = BLANK.match(text, place).end()
    if text[place] not in "{[":
        return Part(begin, PLAIN.match(text, place).end(), None, [])
    closing, keys, parts = "}" if text[place] == "{" else "]", [], []
    place = BLANK.match(text, place + 1).end()
    while text[place] != closing:
        if closing == "}":
            key = PLAIN.match(text, place)
            keys.append((json.loads(key[0], strict=False), key.span()))
            place = BLANK.match(text, key.end()).end() + 1
        parts.append(part_of(text, place))
        place = BLANK.match(text, parts[-1].end).end()
        place = BLANK.match(text, place + 1).end() if text[place] == "," else place
    return Part(begin, place + 1, keys if closing == "}" else None, parts)


def shown(text):
    """A text or a number as it is shown: cut, with nothing that a terminal obeys."""
    return text[:MOST_SHOWN] + ".." if len(text) > MOST_SHOWN else text


def spot_of(text, place):
    return text.count("\n", 0, place) + 1, place - text.rfind("\n", 0, place)


class Explained:
    """What was told of a text that isn't read: the part at fault, its sort and the lines behind the first."""

    def __init__(self, text, lines, fault, beginning=0):
        """`beginning` is where in the text the part begins from which the path leads."""
        found = PLACE.fullmatch(lines[0])
        see(found, f"no place: {lines[0]}")
        self.text, self.fault, self.lines, self.found = text, fault, lines[1:], found
        self.path = found["path"] or ""
        self.why = WHY.fullmatch(found["rest"])
        see(self.why and self.why["sort"] in SORTS, f"no sort: {found['rest']}")
        self.reader, self.smallest = SORTS[self.why["sort"]]
        see(STEP.sub("", self.path) == "", f"no path: {self.path}")
        if self.why["sort"].endswith("of the scenario"):
            self.see_names()
        elif self.why["sort"] == "second entry for one key":
            self.smallest = ENTRIES[re.findall(r"\.(\w+)\[\d+\]$", self.path)[0]]
        self.beginning = beginning
        self.part = part_of(text, beginning)
        for key, index in STEP.findall(self.path):
            self.part = self.part.behind(key, index)

    def see_names(self):
        """Sees which names are told to be there; the first of them is one that the part may be."""
        names = NAMES.fullmatch(self.lines[-1])
        see(names, f"no names: {self.lines}")
        # (one that is cut at its end has no second quotation mark)
        if (names["names"] or "").split(", ")[0].endswith('"'):
            self.smallest = json.dumps(json.JSONDecoder(strict=False).raw_decode(names["names"])[0])

    def see_place(self):
        told = int(self.found["line"]), int(self.found["column"])
        see(told == spot_of(self.text, self.part.begin), f"{told} in place of {spot_of(self.text, self.part.begin)}")

    def see_part(self):
        own = self.text[self.part.begin : self.part.end]
        # (what a text of digits stands for is the command's to say)
        if self.reader and not (self.fault == "BadState" and own[0] == '"'):
            try:
                self.reader(readings.parsed(own.encode()))
                raise Wrong(f"{own[:200]} is a {self.why['sort']}")
            except readings.Fault as fault:
                see(str(fault) == self.fault, f"{own[:200]} has {fault} and not {self.fault}")
        stands = self.why["stands"] or ""
        if stands.startswith("here stands"):
            kind = "an object" if own[0] == "{" else "a list" if own[0] == "[" else None
            # (of a text that has escapes only that it is a text is asked)
            see(stands == f"here stands {kind or shown(own)}" or "\\" in own + stands, f"{stands}, and there is {own[:80]}")
        elif stands.startswith("the first stands at"):
            self.see_first(stands.removeprefix("the first stands at "))
        elif stands.startswith("its keys are"):
            see(own[0] == "{" and self.part.keys, "keys of no object")
            see(f'"{self.part.keys[0][0]}"'[:MOST_SHOWN] in stands or "\\" in stands, f"{stands}, and there is {own[:80]}")

    def see_first(self, told):
        """Sees that the entry that is told to be the first begins there, stands before the other in the same list, and has the same key."""
        spot, path = told.split(", ", 1)
        see(re.sub(r"\d+\]$", "", path) == re.sub(r"\d+\]$", "", self.path), f"{path} is of another list than {self.path}")
        places = [STEP.findall(it) for it in (path, self.path)]
        see(int(places[0][-1][1]) < int(places[1][-1][1]), f"{path} isn't before {self.path}")
        keys = []
        for place in places:
            part = part_of(self.text, self.beginning)
            for key, index in place:
                part = part.behind(key, index)
            if not keys:
                see(spot == "%d:%d" % spot_of(self.text, part.begin), f"{path} doesn't begin at {spot}")
            keys.append(json.loads(self.text[part.parts[0].begin : part.parts[0].end], strict=False))
        # (of objects with keys that aren't read only that they are there is asked)
        see(keys[0] == keys[1] or not isinstance(keys[0], str), f"the keys of {path} and {self.path} differ")

    def with_smallest(self):
        """The text with a smallest part in the place of the one at fault; or None, where that may not be read either."""
        return self.smallest and self.text[: self.part.begin] + self.smallest + self.text[self.part.end :]

    def mended(self):
        """The text with just that mended that the lines name: a key or a number; or None."""
        wants = re.fullmatch(r"  an? \S.* wants \"(\w+)\"", self.lines[0]) if self.lines else None
        near = re.fullmatch(r"  nearest to it is (\".*\")", self.lines[1]) if self.lines[1:] else None
        if wants and near:
            begin, end = next(span for key, span in self.part.keys if key == json.loads(near[1]))
            return self.text[:begin] + f'"{wants[1]}"' + self.text[end:]
        if self.lines == ["  a number stands without quotation marks"]:
            return self.text[: self.part.begin] + self.text[self.part.begin + 1 : self.part.end - 1] + self.text[self.part.end :]
        return None


def explained(text, lines, fault):
    """What was told of a text, once it is seen to be so; None where the text is no JSON, or too long."""
    see(lines, "nothing is told")
    see(all(re.match("  [^ ]", line) for line in lines), "a line that isn't behind two blanks")
    if fault == "TooLong":
        see(re.fullmatch(rf"  .*: {min(len(text), LONGEST + 1)} bytes, and {LONGEST} are read", lines[0]), lines[0])
        return None
    if fault == "NotJson":
        found = PLACE.fullmatch(lines[0])
        see(found, lines[0])
        rows = text.split(b"\n")
        line, column = int(found["line"]), int(found["column"])
        see(1 <= line <= len(rows) and 1 <= column <= len(rows[line - 1]) + 1, f"{line}:{column} isn't in the text")
        return None
    see(len(lines) in (2, 3), f"{len(lines)} lines")
    if len(re.match(r"[^ ]*", lines[0].partition(" at ")[2])[0]) >= MOST_OF_PATH:
        return None
    told = Explained(text.decode(), lines, fault)
    told.see_place()
    told.see_part()
    return told


def is_inside(path, other):
    return path == other or path.startswith((other + ".", other + "["))


# ---- the rows

def told_by(program, room, files, words):
    """The lines on standard error of a command over these files."""
    for name, text in files.items():
        os.makedirs(os.path.dirname(f"{room}/{name}") or room, exist_ok=True)
        with open(f"{room}/{name}", "wb") as it:
            it.write(text)
    got = subprocess.run([program, *words], cwd=room, capture_output=True, check=False)
    return got.stderr.decode().split("\n")[:-1]


def mended_row(program, given, mended, words, whole):
    """How the text of a row is mended by what is told of it; where that isn't so it is wrong."""
    name, text = given.last, given.files[given.last]
    with tempfile.TemporaryDirectory(prefix="explained-") as room:
        first, *lines = told_by(program, room, given.files, words)
        found = FIRST.fullmatch(first)
        see(found, f"no refusal of a text: {first}")
        after = told_by(program, room, {**given.files, name: mended}, words)
        see(not after or not FIRST.fullmatch(after[0]), f"the mended text isn't read: {after}")
        told = explained(text, lines, found[3])
        made = told and told.mended()
        if made is None:
            return "by hand"
        see(json.loads(made) == json.loads(mended), f"mended otherwise: {made}")
        return "a key" if "wants" in lines[1] else "a number"


def main():
    words = argparse.ArgumentParser(description="mends the texts of the rows by what is told of them")
    words.add_argument("--program", default=PROGRAM)
    asked = words.parse_args()
    program = os.path.abspath(asked.program)
    given, mended, ways, faults = Given(), None, {}, 0
    for line, _ in (row for rows in ROWS for row in answered(lines_of(rows))):
        word, _, rest = line.partition(" ")
        if line.startswith("# mended "):
            mended = given.whole(line.removeprefix("# mended "))
        elif not given.keeps(word, rest) and mended is not None:
            try:
                way = mended_row(program, given, mended, rest.split(), line)
                ways[way] = ways.get(way, 0) + 1
            except (Wrong, LookupError, ValueError, readings.Fault) as fault:
                faults += 1
                print(f"{type(fault).__name__}: {fault}: {given.files[given.last].decode()}")
            mended = None
    for way, count in sorted(ways.items()):
        print(f"{count:4} mended by {way}" if way != "by hand" else f"{count:4} mended by hand")
    print(f"{sum(ways.values()) + faults} texts mended, {faults or 'none'} at fault")
    return 1 if faults else 0


if __name__ == "__main__":
    sys.exit(main())
