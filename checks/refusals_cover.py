#!/usr/bin/env python3
"""Whether docs/refusals.md explains each name that the program or a ledger can answer with, by a row that the gate runs.

Usage    refusals_cover.py          prints what is missing, a line each, and ends with status 1 where there is anything
         refusals_cover.py --left   prints the names that have no row, with the reason
Needs    nothing built: it reads the sources, the page and the rows.
Expect   no line. It is told
         - a name of the sources that has no heading in the page's chapter for its sort, and a heading that is no name;
         - a heading without an example, which isn't in LEFT; and an example that doesn't stand, line for line, in the data of a row program, or whose
           answer hasn't the heading's name."""
import re
import sys
from pathlib import Path

TOP = Path(__file__).resolve().parent.parent
PAGE = TOP / "docs" / "refusals.md"

# The chapters whose headings are the variants of an enum, and the file that has it.
ENUMS = {
    "Texts": ("JsonFault", "json_read_names"),
    "Tables": ("CompileFault", "compiler"),
    "The transaction function": ("SemFault", "contract"),
    "Warnings": ("Warning", "contract"),
    "The analysis": ("AlarmKind", "analysis_spec"),
    "Builders": ("BuildFault", "builder_spec"),
    "Rules": ("TxFault", "eutxo_types"),
    "Beginnings": ("GenesisFault", "ledger_spec"),
}
# Answers of calls that refuse nothing, in the words of a play's lines.
GRANTED = ["publish published", "advance advanced", "look tick", "submit accepted", "enqueue ticket"]
# .. and those that name a rule.
RULED = ["submit refused"]
# What stands behind the place of an alarm where there is no run.
UNKNOWN = ["not known"]
# The faults of a trace that stand for others.
WITHIN = ["Run", "Text", "Refused"]
# What a heading ends in where the same name stands in a chapter before it.
ENDS = (" of a builder", " of an analysis", " of a trace")
# What `clap` tells of a command line: its library has more, which no command line of ours can give.
WORDS = ["unrecognized subcommand", "required arguments were not provided", "unexpected argument", "invalid value"]
MEMORY = "needs little memory: checks/refused_memory.py"
SHA = "needs two things of one SHA-256"
LEFT = {
    "Memory": MEMORY,
    "IdInUse": SHA,
    "publish in use": SHA,
    "unwritable": "needs an output that is closed or full: checks/failing_files.py",
    "no text in UTF-8": "needs a word in other bytes: examples/check.sh",
}


def variants(name, crate):
    """The variants of an enum, but Memory, which has a chapter of its own."""
    for path in sorted((TOP / "crates" / crate / "src").rglob("*.rt")):
        found = re.search(rf"^pub enum {name} \{{\n(.*?)^\}}", path.read_text(), re.M | re.S)
        if found:
            return [each for each in re.findall(r"^    ([A-Z]\w*)", found[1], re.M) if each != "Memory"]
    sys.exit(f"no enum {name} in {crate}")


def call_answers():
    """What calls answer that refuses something, in the words of a play's lines."""
    text = (TOP / "crates/play_lines/src/entries.rt").read_text()
    code = text[text.index("fn print_reply"):text.index("// A ticket with its verdict")]
    told = [re.sub(r" *\{.*", "", each).strip() for each in re.findall(r'"([^"]+)"', code)]
    words = [f"round {each}" if each == "none" else each for each in told if each not in ("round", ",", "")]
    return [each for each in words if each not in GRANTED + RULED]


def program_answers():
    """What the program itself tells, beside the texts of `clap`."""
    text = "".join((TOP / "crates" / path).read_text() for path in ("marlowe_commands/src/said.rt", "marlowe/src/main.rt"))
    told = re.findall(r'"((?:unreadable|unwritable|error:)[^"]*?)(?:\\n)?"', text)
    names = ["no text in UTF-8" if "no text in UTF-8" in each else each.split(" ")[0] for each in told]
    return list(dict.fromkeys(names)) + WORDS


def names():
    """The names of each chapter."""
    found = {chapter: variants(*enum) for chapter, enum in ENUMS.items()}
    found["The analysis"] += UNKNOWN
    found["Traces"] = [name for name in variants("TraceFault", "marlowe_refusals") if name not in WITHIN]
    return {**found, "Calls": call_answers(), "The command line": program_answers(), "Memory": ["Memory"]}


def chapters():
    """The headings of each chapter, each with the examples below it."""
    found, chapter, heading, block = {}, None, None, None
    for line in PAGE.read_text().splitlines():
        if line == "```":
            if block is not None:
                found.setdefault(chapter, {}).setdefault(heading, []).append(block)
            block = [] if block is None else None
        elif block is not None:
            block.append(line)
        elif line.startswith("## "):
            chapter, heading = line[3:], None
        elif line.startswith("### "):
            heading = line[4:]
            for end in ENDS:
                heading = heading.removesuffix(end)
            found.setdefault(chapter, {}).setdefault(heading, [])
    return found


DATA = ["\n" + path.read_text(errors="replace") + "\n" for path in sorted(TOP.glob("crates/rows_*/data/**/*.txt"))]


def faults_of(heading, example):
    text = "\n" + "\n".join(example) + "\n"
    if not any(text in data for data in DATA):
        yield "an example that is no row"
    answers = "\n".join(line for line in example if line.startswith("="))
    if heading and not re.search(rf"\b{re.escape(heading)}\b", answers) and not all(word in answers for word in heading.split(" ")[1:] or [heading]):
        yield "an example that doesn't answer so"


def missing():
    page = chapters()
    for chapter, known in names().items():
        headings = page.get(chapter, {})
        yield from (f"{chapter}: {name}: no heading" for name in known if name not in headings)
        yield from (f"{chapter}: {name}: no such name" for name in headings if name and name not in known)
        for heading, examples in headings.items():
            yield from (f"{chapter}: {heading}: {fault}" for example in examples for fault in faults_of(heading, example))
            if heading and not examples and heading not in LEFT:
                yield f"{chapter}: {heading}: no example"
            if examples and heading in LEFT:
                yield f"{chapter}: {heading}: is left out, but has an example"


def main():
    if sys.argv[1:] == ["--left"]:
        for name, reason in LEFT.items():
            print(f"{name}: {reason}")
        return 0
    lines = list(missing())
    for line in lines:
        print(line)
    return int(bool(lines))


sys.exit(main())
