#!/usr/bin/env python3
"""Adds keys to texts of the examples and the gallery that no form has or that stand again, and compares the notes on them with those of a reader here.

Needs    (cd crates/marlowe && rt run -- --version)
Usage    checks/notes.py [--program FILE] [--seed N] [--seconds N] [--rows]
         for N seconds (20); --rows compares nothing with a program, but the notes in rows_commands/data/explained_notes.txt with those worked out here
Expect   `N texts, M notes, none differs`
Else     the text, what was wanted and what came; then status 1

A reader that keeps all members in their order (`Reader`) goes through a text by the tables of json_forms/specs/Forms.antt: of each sort the forms with
their keys, and what stands behind each. The output and the status must be those of the text as it was: what is added isn't read.
"""
import argparse, glob, json, os, random, re, subprocess, sys, tempfile, time

ROOT = os.path.dirname(os.path.dirname(os.path.abspath(__file__)))
DATA = f"{ROOT}/crates/rows_commands/data"
PROGRAM = f"{ROOT}/crates/marlowe/out/marlowe"
SORTS = {"contract": "Contract", "state": "State", "transaction": "Transaction", "scenario": "Scenario"}
LISTS = dict(Cases="Case", Bounds="Bound", Inputs="Input", Accounts="AccountEntry", Choices="ChoiceEntry", BoundValues="BoundEntry",
             Amounts="AmountEntry", Genesis="Funds", Contracts="NamedContract", Threads="NamedThread", Plans="Plan", Intents="Intent", Steps="OneStep")
PAIRS = dict(AccountEntry=("Account", None), Account=("Party", "Token"), ChoiceEntry=("ChoiceId", None), AmountEntry=("Token", None))
MOST = 100


def bare(name: str) -> str:
    """The name of a sort or a form without its module and what it holds."""
    return re.sub(r"\w+\.|[()]|OfScenario ", "", name).split()[0]


class Forms:
    """The tables: of each sort its forms, and of each form its keys with what is read behind them."""

    def __init__(self) -> None:
        with open(f"{ROOT}/crates/json_forms/specs/Forms.antt") as file:
            text = file.read()
        words = dict(re.findall(r'^key_word keys\.(\w+) = codes "([^"]*)"', text, re.M))
        field = re.compile(r"\(keys\.(\w+), (.*?)\)(?= ∷|$)")
        self.keys = {bare(name): {words[key]: bare(sort) for key, sort in field.findall(row)}
                     for name, row in re.findall(r"^fields_of (.*?) = (.*)$", text, re.M)}
        self.more = {bare(name): {words[key]: bare(sort)} for name, row in re.findall(r"^more_of (.*?) = Some (.*)$", text, re.M)
                     for key, sort in field.findall(row)}
        self.of = {bare(name): [bare(form) for form in row.split(" ∷ ") if form != "[]"]
                   for name, row in re.findall(r"^(?:forms_of|scenario_forms) (.*?) = (.*)$", text, re.M) if name != "other" and "OfScenario" not in name}

    def read(self, sort: str | None, keys: list[str]) -> dict[str, str]:
        """The keys that are read of an object, with the sort behind each."""
        for form in self.of.get(sort or "", []):
            if all(key in keys for key in self.keys[form]):
                return {**self.keys[form], **self.more.get(form, {})}
        return {}


class Reader:
    """A text as objects, lists and others, each object as a list of (offset of the key, key, value)."""

    def __init__(self, text: str) -> None:
        self.text, self.at = text, 0

    def next(self) -> str:
        while self.text[self.at] in " \t\r\n,:":
            self.at += 1
        return self.text[self.at]

    def value(self):
        mark = self.next()
        if mark == "{":
            self.at += 1
            members = []
            while self.next() != "}":
                at = self.at
                key = self.value()[1]
                members.append((at, key, self.value()))
            self.at += 1
            return "object", members
        if mark == "[":
            self.at += 1
            items = []
            while self.next() != "]":
                items.append(self.value())
            self.at += 1
            return "list", items
        if mark == '"':
            text, self.at = json.decoder.scanstring(self.text, self.at + 1)
            return "text", text
        found = re.compile(r"[-+.\w]+").match(self.text, self.at)
        self.at = found.end()
        return "other", found.group()


def walk(forms: Forms, sort: str | None, value, path: str, notes: list) -> None:
    """Adds (offset, path, key, why) of each member that isn't read."""
    kind, inside = value
    if kind == "list":
        for index, item in enumerate(inside):
            of = LISTS.get(sort or "") or (PAIRS[sort][min(index, 1)] if sort in PAIRS else None)
            walk(forms, of, item, f"{path}[{index}]", notes)
    elif kind == "object":
        keys = [member[1] for member in inside]
        read = forms.read(sort, keys)
        for index, (at, key, part) in enumerate(inside):
            if key not in read:
                notes.append((at, path, key, "is not read"))
            elif key in keys[index + 1:]:
                notes.append((at, path, key, "stands again; the last is read"))
            else:
                walk(forms, read[key], part, f"{path}.{key}", notes)


def shown(key: str) -> str:
    text = json.dumps(key, ensure_ascii=False)
    hidden = lambda c: c < 32 or 127 <= c <= 159 or 8206 <= c <= 8207 or 8232 <= c <= 8238 or 8294 <= c <= 8297
    return "".join(f"\\u{ord(c):04x}" if hidden(ord(c)) else c for c in text[:60]) + (".." if len(text) > 60 else "")


def notes_on(forms: Forms, file: str, sort: str, text: str) -> list[str]:
    """The lines of the notes on a text."""
    notes: list = []
    walk(forms, SORTS[sort], Reader(text).value(), "", notes)
    lines = []
    for at, path, key, why in notes[:MOST]:
        line, column = text.count("\n", 0, at) + 1, at - text.rfind("\n", 0, at)
        where = path if len(path) <= 400 else path[:199] + ".." + path[-199:]
        lines.append(f"note: {file}:{line}:{column}{' at ' + where if path else ''}: the key {shown(key)} {why}")
    return lines + ([f"note: {file}: .. and more"] if len(notes) > MOST else [])


def rows(forms: Forms) -> tuple[int, int]:
    """Compares the rows; how many texts and notes there were."""
    lets: dict[str, str] = {}
    files: dict[str, str] = {}
    full = lambda text: re.sub(r"\$(\w+)\$", lambda found: lets[found.group(1)], text)
    texts = count = 0
    with open(f"{DATA}/explained_notes.txt") as file:
        lines = file.read().split("\n")
    last = ""
    for number, line in enumerate(lines):
        word, _, rest = line.partition(" ")
        name, _, text = rest.partition(" ")
        if word == "let":
            lets[name] = full(text)
        elif word == "file":
            files[name], last = full(text), name
        elif word == "more":
            files[last] += full(rest)
        elif word == "hex":
            files[last] += bytes.fromhex(rest).decode()
        elif word == "marlowe":
            wanted = [answer[9:] for answer in lines[number + 1:lines.index("", number)] if answer.startswith("= stderr note: ")]
            found = []
            for path in rest.split() if "--explain" in rest else []:
                if path.endswith(".json"):
                    found += notes_on(forms, path, path[:-5], files[path])
            texts, count = texts + 1, count + len(wanted)
            if found != wanted:
                differs(line, wanted, found)
    return texts, count


def differs(what: str, wanted: list[str], found: list[str]) -> None:
    print(what, *[f"wanted {line}" for line in wanted], *[f"came   {line}" for line in found], sep="\n")
    sys.exit(1)


def texts_there() -> list[tuple[str, str]]:
    """Texts of contracts and scenarios that are read, with their sort."""
    found = []
    for path in sorted(glob.glob(f"{DATA}/**/*.json", recursive=True)):
        name = os.path.basename(path)
        sort = "contract" if name == "contract.json" else "scenario" if "/gallery/" in path and name != "broken.json" else None
        if sort and "refus" not in path:
            with open(path, newline="") as file:
                text = file.read()
            with open(os.path.join(os.path.dirname(path), "contract.json"), newline="") as file:
                text = text.replace('{"file":"contract.json"}', file.read())
            if re.search(r'\{\s*"', text):
                found.append((sort, text))
    return found


def with_more(pick: random.Random, text: str) -> str:
    """The text with a few members more: with a new key, or with a key that stands further on in the same object."""
    for _ in range(pick.randint(1, 4)):
        at = pick.choice([found.start() for found in re.finditer(r'\{\s*"', text)]) + 1
        key = re.compile(r'\s*("(?:[^"\\]|\\.)*")').match(text, at).group(1)
        key = pick.choice([key, '"note"', '"pay"', '"\\u0000"', '"ü😀"', '"then"', f'"{"k" * pick.randint(50, 70)}"'])
        if key != '"then"' or '"then"' in text[at:at + 40]:
            space = pick.choice(["", " ", "\n", "\r\n\t"])
            text = f'{text[:at]}{space}{key}:{space}{pick.choice(["0", "[{}]", "{}", chr(34) * 2])},{text[at:]}'
    return text


def asked(program: str, folder: str, sort: str, text: str) -> tuple[int, str, list[str]]:
    with open(f"{folder}/text.json", "w", newline="") as file:
        file.write(text)
    words = ["table", "--explain", "text.json"] if sort == "contract" else ["play", "--one", "--explain", "text.json"]
    done = subprocess.run([program, *words], cwd=folder, capture_output=True, text=True)
    return done.returncode, done.stdout, [line for line in done.stderr.split("\n") if line.startswith("note: ")]


def compared(forms: Forms, program: str, seed: int, seconds: float) -> tuple[int, int]:
    pick = random.Random(seed)
    there = texts_there()
    texts = count = 0
    with tempfile.TemporaryDirectory() as folder:
        end = time.time() + seconds
        while time.time() < end:
            sort, text = pick.choice(there)
            status, output, _ = asked(program, folder, sort, text)
            if status:
                continue
            more = with_more(pick, text)
            wanted = notes_on(forms, "text.json", sort, more)
            got = asked(program, folder, sort, more)
            if got != (status, output, wanted):
                differs(more, wanted, got[2])
            texts, count = texts + 1, count + len(wanted)
    return texts, count


def main() -> None:
    words = argparse.ArgumentParser()
    words.add_argument("--program", default=PROGRAM)
    words.add_argument("--seed", type=int, default=1)
    words.add_argument("--seconds", type=float, default=20)
    words.add_argument("--rows", action="store_true")
    asked_for = words.parse_args()
    forms = Forms()
    texts, count = rows(forms) if asked_for.rows else compared(forms, os.path.abspath(asked_for.program), asked_for.seed, asked_for.seconds)
    print(f"{texts} texts, {count} notes, none differs")


if __name__ == "__main__":
    main()
