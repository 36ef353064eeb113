#!/usr/bin/env python3
"""Which names of the libraries no row prints, runs or copies.

    checks/rows_cover.py            prints them, a line for each, and ends with status 1 where there are any
    checks/rows_cover.py --left     prints the names that are left out, with the reason

A clause "memory aside" lets a body answer Memory in place of any other answer. A row has ample memory, so it shows that this isn't
so, and this script that there is a row for each name. It reads the sources and the rows, and needs nothing else:

- faults: each variant of each enum `..Fault` stands by its name in an answer of the row programs that print it, or is named in a
  test; and the text that it displays stands in an answer below a row `texts ENUM`;
- replies and verdicts: the word for each variant begins an answer, or stands in one;
- calls: each function and method of the crates PUBLIC whose result can be Memory is called in a source of a row program, of
  `marlowe_commands` or of `tests`. Methods are found by their names alone;
- copies: each type with `TryClone` has a row that copies it; `==`: each public type that has it stands in a row that compares.

What no row can print, or need not, is in LEFT, with the reason. Expect no line."""

import re
import sys
from pathlib import Path

TOP = Path(__file__).resolve().parent.parent
CRATES = [line.split(":")[0].split()[0] for line in (TOP / "crates.txt").read_text().splitlines() if ":" in line and line[0] != "#"]
ROWS = [crate for crate in CRATES if crate.startswith("rows_")]
TESTS = ["tests"]
LIBRARIES = [crate for crate in CRATES if crate not in ROWS + TESTS + ["marlowe", "uses"]]
# The crates whose calls a user makes.
PUBLIC = """marlowe_commands marlowe_refusals marlowe_run marlowe_analyse marlowe_play marlowe_cli marlowe_io contract_json json_read_scenarios evaluation semantics states compiler table machine contract_bytes
            bundle eutxo_types eutxo parallel_check roles ledger chain builder hub parties""".split()

# Where the names of an enum's variants are printed, and for a variant that isn't printed by its own name, how.
PRINTED = {
    "SemFault": (["rows_commands"], {}),
    "StateFault": (["rows_commands/values"], {"Memory": "Memory$"}),
    "CompileFault": (["rows_commands/values"], {"Memory": "Memory$"}),
    "JsonFault": (["rows_commands/values"], {"Memory": "Memory$"}),
    "WriteFault": (["rows_commands/values"], {"Memory": "Memory$"}),
    "RunFault": (["rows_commands/values"], {"Contract": "refused contract ", "State": "refused state ", "Transaction": "refused transaction ", "Semantics": "refused Useless$",
                                   "Write": "refused OutOfRange$"}),
    "TableFault": (["rows_commands/values"], {"Contract": "refused contract ", "Compile": "refused TooDeep$"}),
    "PlayFault": (["rows_commands"], {"Scenario": "refused scenario ", "Setup": "refused thread "}),
    "SetupFault": (["rows_commands"], {"Refused": "refused thread "}),
    "FilesFault": (["rows_commands"], {"Contract": "refused contract my deal NoForm$"}),
    "JoinFault": ([], {}),
    "DefineFault": (["rows_serve"], {}),
    "LineFault": (["rows_serve"], {}),
    "GenesisFault": (["rows_chain"], {}),
    "BundleFault": (["rows_chain/transactions"], {}),
    "TxFault": (["rows_chain/transactions", "rows_chain"], {}),
    "StepFault": (["rows_chain/transactions"], {}),
    "BuildFault": (["rows_chain"], {}),
    "LoadFault": (["rows_commands/values"], {"Unreadable": "unreadable$", "Memory": "Memory$"}),
    "Fault": (["rows_commands"], {"Run": "refused NoMatch$", "Table": "refused contract ", "Trace": r"refused transaction \d+ NoMatch$"}),
    "TraceFault": (["rows_commands"], {"Run": "refused state ", "Text": r"refused transaction \d+ NotJson$", "Refused": r"refused transaction \d+ NoMatch$"}),
    "ReadFault": (["rows_commands"], {"Text": r"refused transaction \d+ NotJson$"}),
    "WordsFault": ([], {}),
    "Verdict": (["rows_chain"], {"Accepted": r"\d+ accepted", "Refused": r"\d+ refused "}),
    "Reply": (["rows_chain"], {"Published": "published ", "NotCompiled": "refused TooDeep$", "IdInUse": "in use$", "Advanced": "advanced$", "Backward": "backward$",
                               "Look": "tick ", "Accepted": "accepted ", "Refused": "refused NoInputs$", "Ticket": "ticket ", "Full": "full$", "Round": r"\d+ accepted"}),
}

# What copies a type, and compares the copy by `==`: a row program or a folder of its data, and how a row of it begins. ROW has what compares only.
COPIED = {
    "rows_commands/values copy contract": "Contract Boxed Items",
    "rows_commands/values copy value": "Value",
    "rows_commands/values copy observation": "Observation",
    "rows_commands/values copy action": "Action",
    "rows_commands/values copy case": "Case",
    "rows_commands/values copy input": "Input",
    "rows_commands/values copy party": "Party Text",
    "rows_commands/values copy token": "Token Bytes",
    "rows_commands/values copy choice_id": "ChoiceId",
    "rows_commands/values copy payee": "Payee",
    "rows_commands/values copy bound": "Bound",
    "rows_commands/values copy state": "State Account Entries",
    "rows_commands/values copy transaction": "Transaction",
    "rows_commands/values both": "Outcome Warning Payment",
    "rows_commands/values copies": "Table Entry ValueNode ObservationNode CaseNode ContNode Cont",
    "rows_chain/transactions copies transaction": "Tx Spend OutputRef Redeemer Output Lock Datum Bundle",
    "rows_chain/transactions copies found": "Resolved Scripts",
    "rows_chain/transactions copies published": "Published",
    "rows_chain/transactions recheck": "Shared",
    "rows_chain/transactions copies checks": "Checked Verdict",
    "rows_chain/transactions copies TxFault": "TxFault",
    "rows_chain copies BuildFault": "BuildFault",
    "rows_chain copies 9": "Call Reply Ticketed",
    "rows_chain record_copies": "StepRecord",
    "rows_chain look": "Look Ask PayoutLock Unspent ThreadOutput",
}
COMPARED = {
    "rows_commands/values texts SemFault": "SemFault",
    "rows_commands/values texts StateFault": "StateFault",
    "rows_commands/values texts CompileFault": "CompileFault",
    "rows_commands/values texts JsonFault": "JsonFault",
    "rows_commands/values texts WriteFault": "WriteFault",
    "rows_commands/values texts RunFault": "RunFault",
    "rows_commands/values texts TableFault": "TableFault",
    "rows_commands/values compare transaction": "Interval Transaction",
    "rows_commands/values texts PlayFault": "PlayFault",
    "rows_chain/transactions texts BundleFault": "BundleFault",
    "rows_chain/transactions apart StepFault": "StepFault",
    "rows_chain/transactions apart StepAnswer": "StepAnswer",
    "rows_chain/transactions totals": "WideSum",
    "rows_commands/values apart LoadFault": "LoadFault",
    "rows_commands/values apart WordsFault": "WordsFault",
    "rows_commands/values apart Fault": "Fault",
    "rows_commands/values apart Task": "Task",
    "rows_chain texts GenesisFault": "GenesisFault",
    "rows_chain copies 2": "Entry",
    "rows_chain record_copies ": "StepRecord",
}

# What no row prints, runs or copies, and why.
MEMORY = "answered only where memory was refused"
EXACT = "its clause is an equation without \"memory aside\", and its one fault is Leaves128"
ONE = "it has one value"
KNOWN = "each If that rows_commands analyses copies what is known"
TRACED = "each row of `marlowe trace` or `next` calls it"
COMMANDED = "each row of the command calls it"
WITHIN = "it is the call with a depth, at 127 levels, which each row of the command calls"
DERIVED = "derived, and compared by no call"
LEFT = {
    "fault ReadFault::Memory": MEMORY,
    "call contract_json::read_contract_within": COMMANDED,
    "call json_read_scenarios::read_scenario_within": COMMANDED,
    "call marlowe_analyse::analysis_for": COMMANDED,
    "call marlowe_play::play_watched": "it is the call that is asked more, asked nothing more, which each row of `marlowe play` calls",
    "call marlowe_run::printed_table": COMMANDED,
    "call marlowe_run::run_with_texts": WITHIN,
    "call marlowe_run::table_text": WITHIN,
    "== Face": DERIVED,
    "== SetupRefusal": DERIVED,
    "== Cause": DERIVED,
    "== Telling": DERIVED,
    "== Kind": DERIVED,
    "== DefineFault": DERIVED,
    "== LineFault": DERIVED,
    "== Part": DERIVED,
    "== Ended": DERIVED,
    "fault DefineFault::Memory": MEMORY,
    "call marlowe_run::outcome_line": TRACED,
    "call marlowe_run::read_start": TRACED,
    "call semantics::apply": TRACED,
    "call semantics::matches": TRACED,
    "call semantics::Log::warn": TRACED,
    "call semantics::Log::pay": TRACED,
    "call semantics::reduce": TRACED,
    "call semantics::fix": TRACED,
    "== ReadFault": DERIVED,
    "== TraceFault": DERIVED,
    "fault SemFault::Memory": MEMORY,
    "fault CompileFault::Memory": MEMORY,
    "fault JsonFault::Memory": MEMORY,
    "fault WriteFault::Memory": MEMORY,
    "fault PlayFault::Memory": MEMORY,
    "fault SetupFault::Memory": MEMORY,
    "fault FilesFault::Memory": MEMORY,
    "fault FilesFault::NotJoined": "no scenario is known that has it",
    "fault JoinFault::Memory": MEMORY,
    "fault JoinFault::NotJoined": "no scenario is known that has it",
    "fault GenesisFault::Memory": MEMORY,
    "fault BundleFault::Memory": MEMORY,
    "fault BuildFault::Memory": MEMORY,
    "fault StateFault::Memory": MEMORY,
    "fault LoadFault::Memory": MEMORY,
    "fault WordsFault::Memory": MEMORY,
    "fault TxFault::IdInUse": "needs two transactions of one SHA-256: one that comes again names what it spent (rule 4)",
    "reply Reply::IdInUse": "needs two contracts of one SHA-256",
    "== Lane": "no crate above can name it; claims are settled by its order",
    "== LockName": "no crate above can name it; the looks of rows_chain compare it",
    "copy Carried": "no crate above can name it; each call by a seat is copied in it",
    "copy Linear": KNOWN,
    "copy Terms": KNOWN,
    "copy Part": KNOWN,
    "copy Ranges": KNOWN,
    "copy SharedBranch": KNOWN,
    "copy Named": KNOWN,
    "copy Operations": KNOWN,
    "copy Symbols": KNOWN,
    "copy Known": KNOWN,
    "copy View": KNOWN,
    "call marlowe_play::play": "is play_watched with a watch that does nothing; each row of a play calls that",
    "call evaluation::known": EXACT,
    "call evaluation::negation": EXACT,
    "call evaluation::sum": EXACT,
    "call evaluation::difference": EXACT,
    "call evaluation::product": EXACT,
    "call evaluation::quotient": EXACT,
    "call evaluation::value": EXACT,
    "call evaluation::holds": EXACT,
    "call semantics::matching_case": EXACT,
    "call contract_json::read_state_with_texts": "each command of a row with `--text-numbers` reads a state by it",
    "call states::State::set_money": "each payment and each deposit of a run that a row prints makes it",
    "call states::State::set_choice": "each choice of a run that a row prints makes it",
    "call states::State::set_bound": "each Let of a run that a row prints makes it",
    "call table::Table::push_value": "each value of a table that a row prints was put there by it",
    "call table::Table::push_observation": "each observation of a table that a row prints was put there by it",
    "call table::Table::push_case": "each case of a table that a row prints was put there by it",
    "call table::Table::push_cont": "each continuation of a table that a row prints was put there by it",
    "call eutxo::id_at_hand": "each Submit and each place of a round of rows_chain has its id by it",
    "call eutxo::kept_among": "each Submit and each place of a round of rows_chain is judged by it, with a check at hand or without",
    "call eutxo::rejudge": "each row of a check at hand prints what `recheck` makes of its answer",
    "call roles::only": "each output for a payment that a row's built step prints holds it",
    "call roles::put_due": "each built step of a row prints what it puts",
    "call roles::continuation": "each built start of a row prints what it makes",
    "call ledger::judge": "each Submit and Round of a row answers what it answers",
    "call json_read_scenarios::scenario_from_json": "each reading of a scenario's text is its answer",
    "== Refusal": "the reader within json_tree has two faults, which rows print as JsonFault's",
    "== Leaves128": ONE,
    "== Unwritable": ONE,
    "== SinkFault": ONE,
    "== AlarmKind": "no call gives one yet",
    "== PathStep": "no call gives one yet",
    "== SourceFault": ONE,
    "copy Holder": "each line of what is held, of a play that a row explains, has one",
    "copy Holding": "each line of what is held, of a play that a row explains, is one",
}


def read(path):
    return path.read_text()


def sources(crate):
    return [path for path in sorted((TOP / "crates" / crate / "src").rglob("*.rt"))]


def code(crates):
    return "".join(read(path) for crate in crates for path in sources(crate))


def lines(part):
    """The lines of a row program's data, but for those of the folders that are parts of their own, or of such a folder."""
    program, _, folder = part.partition("/")
    data = TOP / "crates" / program / "data"
    paths = [path for path in sorted((data / folder).rglob("*.txt")) if folder or f"{program}/{path.relative_to(data).parts[0]}" not in FOLDERS]
    return [line for path in paths for line in read(path).splitlines()]


FOLDERS = ["rows_commands/values", "rows_chain/transactions"]
LINES = {part: lines(part) for part in [program for program in ROWS if (TOP / "crates" / program / "data").is_dir()] + FOLDERS}
ANSWERS = {program: [line[2:].removeprefix("stderr ") for line in rows if line.startswith("= ")] for program, rows in LINES.items()}
# What `rows_serve` prints, line by line.
ANSWERS["rows_serve"] = read(TOP / "crates/rows_serve/stdout").splitlines()
# `marlowe_commands` is what the command lines of rows_commands call. The name of a function where it is defined is no call.
RUN = re.sub(r"\bfn \w+", "fn", code(ROWS + TESTS + ["marlowe_commands"]))
TESTED = code(TESTS)


def passed_on(crate):
    """The names that a library passes on."""
    text = read(TOP / "crates" / crate / "src/lib.rt")
    return {name for names in re.findall(r"^pub use [\w:]+(?:::\{([^}]*)\}|(?=;))", text, re.M) for name in re.findall(r"\w+", names)} | set(
        re.findall(r"^pub use (?:\w+::)+(\w+);", text, re.M))


def enums():
    """Each public enum of the libraries: its variants, and the text that each displays."""
    for crate in LIBRARIES:
        for name, body in re.findall(r"^pub enum (\w+) \{\n(.*?)^\}", code([crate]), re.M | re.S):
            variants = re.findall(r"^    ([A-Z]\w*)", body, re.M)
            texts = re.findall(r'#\[error\("(.*?)"\)\]', body)
            yield name, variants, texts


def below(program, row):
    """The answers below the rows that begin so."""
    answers, inside = [], False
    for line in LINES[program]:
        if line.startswith("= "):
            answers += [line[2:]] if inside else []
        else:
            inside = line.startswith(row)
    return answers


def is_printed(name, variant):
    programs, otherwise = PRINTED[name]
    word = "^" + otherwise[variant] if variant in otherwise else rf"\b{variant}\b"
    return any(re.search(word, answer) for program in programs for answer in ANSWERS[program]) or f"{name}::{variant}" in TESTED


def is_displayed(name, text):
    pattern = ".+".join(re.escape(part) for part in re.split(r"\{\d\}", text))
    return any(re.fullmatch(pattern, answer) for program in LINES for answer in below(program, f"texts {name}"))


def missing_faults():
    for name, variants, texts in enums():
        if not name.endswith("Fault") and name not in PRINTED:
            continue
        kind = "fault" if name.endswith("Fault") else "reply"
        if name not in PRINTED:
            yield f"{kind} {name}", "no row program is said to print it"
            continue
        for variant in variants:
            if not is_printed(name, variant):
                yield f"{kind} {name}::{variant}", "no row prints it"
        for text in texts:
            if not is_displayed(name, text):
                yield f"text {name}: {text}", f"no row texts {name} prints it"


CAN_BE_MEMORY = re.compile(r"\) -> (?:io::)?Result<.*?(?:Memory|\w*Fault|AllocError|Unwritable)>", re.S)


def calls(crate):
    """The calls of a library whose result can be Memory: the name, and the pattern by which a source calls it."""
    names = passed_on(crate)
    for path in sources(crate):
        text = read(path)
        for name, rest in re.findall(r"^pub fn (\w+)(.*?)^\{", text, re.M | re.S):
            if name in names and CAN_BE_MEMORY.search(rest):
                yield name, rf"\b{name}(?:::<[^;{{}}]*?>)?\("
        for owner, body in re.findall(r"^impl(?:<.*?>)? (\w+)(?:<[^{]*?>)?(?:\s+where[^{]*)? \{\n(.*?)^\}", text, re.M | re.S):
            for name, rest in re.findall(r"^    pub fn (\w+)(.*?)^    \{", body, re.M | re.S):
                if owner in names and CAN_BE_MEMORY.search(rest):
                    has_self = re.match(r"(?:<[^(]*>)?\(\s*(?:&mut |&)?self", rest)
                    yield f"{owner}::{name}", rf"\.{name}(?:::<[^;{{}}]*?>)?\(" if has_self else rf"\b{owner}(?:::<[^;{{}}]*?>)?::{name}\b"


def missing_calls():
    for crate in PUBLIC:
        for name, pattern in calls(crate):
            if not re.search(pattern, RUN):
                yield f"call {crate}::{name}", "no row program and no test calls it"


def with_rows(table):
    """The types of a table whose rows stand in the data."""
    found = set()
    for row, types in table.items():
        program, _, beginning = row.partition(" ")
        if any(line.startswith(beginning) for line in LINES[program]):
            found |= set(types.split())
    return found


def missing_copies():
    copied, compared = with_rows(COPIED), with_rows(COPIED) | with_rows(COMPARED)
    for crate in LIBRARIES:
        text = code([crate])
        for name in re.findall(r"^impl(?:<.*?>)? TryClone for ([A-Z]\w*)", text, re.M):
            if name not in copied:
                yield f"copy {name}", "no row copies it"
        derived = re.findall(r"^#\[derive\([^)]*\bPartialEq\b[^)]*\)\]\npub (?:struct|enum) (\w+)", text, re.M)
        for name in re.findall(r"^impl(?:<.*?>)? PartialEq for ([A-Z]\w*)", text, re.M) + derived:
            if name not in compared:
                yield f"== {name}", "no row compares it"


def main():
    if sys.argv[1:] == ["--left"]:
        for name, reason in LEFT.items():
            print(f"{name}: {reason}")
        return 0
    missing = [*missing_faults(), *missing_calls(), *missing_copies()]
    for name, reason in missing:
        if name not in LEFT:
            print(f"{name}: {reason}")
    for name in LEFT:
        if name not in {name for name, _ in missing}:
            print(f"{name}: is left out, but isn't missing")
    return 1 if any(name not in LEFT for name, _ in missing) or len(LEFT) > len({name for name, _ in missing} & set(LEFT)) else 0


sys.exit(main())
