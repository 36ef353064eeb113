#!/usr/bin/env python3
"""Has the built program run the command lines of `rows_commands`, and compares what it prints with the answers that stand below them.

Needs    the built program, crates/marlowe/out/marlowe: (cd crates/marlowe && rt run -- --version); or the path of one.
Usage    commands.py [PROGRAM]               compares all files of command lines that crates/rows_commands/args names
         commands.py --write FILE [PROGRAM]  writes into the file below each row what the program prints, in place of what stood there
         commands.py --apart                 compares them, but for those of `analyse`, with a Marlowe, its tables and a ledger in Python, which share
                                             no code with the program (interpreter.py, tables.py, plays.py); it needs nothing built
Expect   `FILE ok N rows` for each file: both streams and the status are as written.
Else     the first row that differs, with what is written and what comes here, and status 1.
"""
import json
import os
import re
import shutil
import subprocess
import sys
import tempfile

HERE = os.path.dirname(os.path.abspath(__file__))
sys.path.insert(0, HERE)
import interpreter
import plays
import readings
import rows
import tables

CRATE = os.path.join(rows.CRATES, "rows_commands")
DATA = os.path.join(CRATE, "data")
PROGRAM = os.path.join(rows.CRATES, "marlowe", "out", "marlowe")
# The command line of a row, and the file that holds its text.
ROWS = {
    "run": ("run contract.json state.json transaction.json", "transaction.json"),
    "trace": ("trace contract.json transactions.json", "transactions.json"),
    "table": ("table contract.json", "contract.json"),
    "play": ("play scenario.json --one", "scenario.json"),
    "last": ("play scenario.json --one", "scenario.json"),
    "threads": ("play scenario.json", "scenario.json"),
}
ANALYSES = {"analyse": "", "alarms": "", "json": " --json"}
# How a line begins that tells what a party is paid.
OF_RANGE = ('{"address"', '{"role_token"')
# And one that tells a transaction of a run.
OF_RUN = '{"tx_inputs"'


class Folder(rows.Given):
    """A copy of the data, in which the files that lines give are written."""

    def __init__(self):
        super().__init__()
        self.place = tempfile.mkdtemp()
        self.path = os.path.join(self.place, "data")
        shutil.copytree(DATA, self.path)

    def written(self):
        """The folder, with each file that is given, but for `-`, which standard input gives."""
        for name, text in self.files.items():
            if name == "-":
                continue
            path = os.path.join(self.path, name)
            os.makedirs(os.path.dirname(path), exist_ok=True)
            with open(path, "wb") as file:
                file.write(text)
        return self.path

    def read(self, name):
        if name in self.files:
            return self.files[name]
        with open(os.path.join(self.path, name), "rb") as file:
            return file.read()

    def command(self, word, rest):
        """The command line of a row, whose text is kept first."""
        if word == "marlowe":
            return rest
        if word in ANALYSES:
            return "analyse contract.json" + " state.json" * self.has_state + ANALYSES[word]
        if word == "next":
            return f"next contract.json{' state.json' * self.has_state} {rest}"
        if word not in ROWS:
            raise rows.NoSuchRow
        line, name = ROWS[word]
        if rest:
            self.keep(name, rest)
        return line + " --state state.json" * (word == "trace" and self.has_state)


def part_of(word, count, output):
    """The lines of standard output that a row prints."""
    lines, kept, is_of_bound = output.removesuffix("\n").split("\n"), [], False
    for line in lines:
        is_of_bound = word == "alarms" and (line.startswith(OF_RANGE) or is_of_bound and line.startswith(OF_RUN))
        kept += [] if is_of_bound else [line]
    return "\n".join(kept[-count:] if word == "last" else kept)


def answer(folder, line, streams):
    """What a row prints, where `streams` tells what comes of a command line: both streams and the status; None where it tells nothing."""
    word, _, rest = line.partition(" ")
    try:
        if folder.keeps(word, rest):
            return None
        if word == "example":
            return example(folder, rest, streams)
        count, rest = (int(rest.split(" ")[0]), rest.partition(" ")[2]) if word == "last" else (0, rest)
        came = streams(folder, folder.command(word, rest))
        return came and rows.in_lines(part_of(word, count, came[0]), *came[1:])
    except rows.NoSuchRow:
        return ["no such row"]


def example(folder, path, streams):
    run = streams(folder, f"run {path}/contract.json {path}/state.json {path}/transaction.json")
    table = streams(folder, f"table {path}/contract.json")
    if not is_as_in(folder, path, run, "output.json", "refusal.txt"):
        return rows.in_lines(*run)
    return ["as written" if is_as_in(folder, path, table, "table.txt", "table.txt") else "another table"]


def is_as_in(folder, path, streams, output, refusal):
    printed, told, status = streams
    try:
        return status in (0, 1) and folder.read(f"{path}/{refusal if status else output}").decode() == (told if status else printed)
    except OSError:
        return False


def of_program(program):
    """What the built program prints for a command line."""
    def streams(folder, line):
        done = subprocess.run([program, *line.split()], cwd=folder.written(), input=folder.files.get("-", b""), capture_output=True)
        return done.stdout.decode(), done.stderr.decode(), done.returncode
    return streams


READERS = {"contract": readings.contract, "state": readings.state, "transaction": readings.transaction}


def read_apart(texts):
    """What texts stand for, each with the name of its sort; or the first of them that can't be read raises its line."""
    found = []
    for name, text in texts:
        try:
            found.append(READERS[name](readings.parsed(text)))
        except readings.Fault as fault:
            raise readings.Fault(f"refused {name} {fault}") from None
    return found


def run_apart(*texts):
    """What `marlowe run` prints for three texts."""
    return interpreter.printed(*read_apart(zip(("contract", "state", "transaction"), texts)))


def table_apart(text):
    return "\n".join(tables.lines(text))


def play_apart(text):
    output, refusal, _ = plays.wanted(text)
    return (output + refusal).removesuffix("\n")


# A contract that is given as a file, in a scenario of the rows.
FILE = re.compile(rb'\{\s*"file"\s*:\s*"([^"]*)"\s*\}')


class NotJoined(Exception):
    """Why a scenario has no text with its files: a line on standard error, and a status."""


def with_files(folder, name):
    """The text of a scenario, with the text of each file in the place of what names it."""
    text, place = folder.read(name), os.path.dirname(name)
    files = {path: os.path.join(place, path.decode()) for path in FILE.findall(text)}
    for path in files.values():
        if not os.path.exists(os.path.join(folder.path, path)):
            raise NotJoined(f"unreadable {path}\n", 2)
    for each in json.loads(text)["contracts"] if files else []:
        if FILE.fullmatch(json.dumps(each["contract"]).encode()):
            try:
                readings.contract(readings.parsed(folder.read(os.path.join(place, each["contract"]["file"]))))
            except readings.Fault as fault:
                raise NotJoined(f"refused contract {each['name']} {fault}\n", 1) from None
    return FILE.sub(lambda found: folder.read(files[found[1]]).replace(b"\n", b" "), text)


def explained_apart(text):
    output, refusal, _ = plays.wanted(text, True)
    return (output + refusal).removesuffix("\n")


# Words of the program, each with how many files it takes.
APART = {"run": (3, run_apart), "table": (1, table_apart), "play": (1, play_apart), "play --explain": (1, explained_apart)}


def apart(folder, line):
    """What Python says that the program prints, or None for a line of which it says nothing: one that is at fault, or asks for help or for an analysis."""
    command, *names = [word for word in line.split() if word not in ("--one", "--files")]
    of_files = "--files" in line.split()
    if command == "play" and "--explain" in names:
        command, names = "play --explain", [name for name in names if name != "--explain"]
    count, answered = APART.get(command, (None, None))
    if len(names) != count or any(name.startswith("-") for name in names):
        return None
    try:
        texts = [with_files(folder, name) if of_files else folder.read(name) for name in names]
    except NotJoined as told:
        return None if "--explain" in line.split() else ("", *told.args)
    except OSError:
        return None
    try:
        told = answered(*texts)
    except readings.Fault as fault:
        told = str(fault)
    return ("", told + "\n", 1) if told.startswith("refused ") else (told + "\n", "", 0)


def answers(lines, streams):
    """Each line that is no answer, with its answer, or None where it has none, and with what is written below it."""
    folder = Folder()
    try:
        for line, written in rows.answered(lines):
            yield line, answer(folder, line, streams), written
    finally:
        shutil.rmtree(folder.place)


def compare(name, streams):
    count = 0
    for line, came, written in answers(rows.lines_of(os.path.join(DATA, name)), streams):
        if came is not None and (came or [""]) != written:
            sys.exit(f"{name}: {line}\nwritten " + "\n        ".join(written) + "\nhere    " + "\n        ".join(came))
        count += came is not None
    print(f"{name} ok {count} rows")


def write(path, streams):
    text = rows.with_answers([(line, came or []) for line, came, _ in answers(rows.lines_of(path), streams)])
    with open(path, "w", encoding="utf-8") as file:
        file.write(text)


def main(words):
    names = [name for name in rows.lines_of(os.path.join(CRATE, "args")) if name and not name.startswith("values/")]
    if words == ["--apart"]:
        for name in names:
            compare(name, apart)
        return
    to_write, words = words[:1] == ["--write"], words[words[:1] == ["--write"]:]
    streams = of_program(os.path.abspath(words[to_write] if len(words) > to_write else PROGRAM))
    if to_write:
        write(words[0], streams)
    else:
        for name in names:
            compare(name, streams)


if __name__ == "__main__":
    main(sys.argv[1:])
