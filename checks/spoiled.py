#!/usr/bin/env python3
"""Spoils the texts of the examples and the rows of transactions, and asks the built programs what they make of each.

Needs    (cd crates/marlowe && rt run -- --version); for --rows also (cd crates/rows_chain && rt run -- transactions/sums.txt)
Usage    checks/spoiled.py [--seconds N] [--seed N] [--workers N] [--words WORD,..] [--program FILE] [--slow N] [--explain] [--count N] [--rows]
         for N seconds (60) with so many workers (1), each a process; the same seed spoils the same texts, however many workers share them;
         --explain asks each refusal again with that flag, and --count N asks about the first N texts of the seed;
         --words takes some of run, table, play and analyse in place of all; --program asks another program, which may take --slow N times as long;
         --rows spoils the rows of transactions in place of the texts
Expect   how many texts there were of each command, were spoiled in each way and were answered in each kind, and `N spoiled texts, none at fault`;
         beside other work some 700 to 1,900 a second with four workers
Else     what is wrong, the command line over copies of its files, and what it was told; then status 1

Each text is spoiled once or a few times: a byte changed, a part cut out or doubled, a key renamed, a number put to an end of its range,
a name in some script of the world, a number written as a text or a text as a number, a part exchanged for one of another text. A play is in
threads or, with --one, in turn; an analysis has a state or none, and is for people or, with --json, for tools. It is also of the contracts of
the analyses of rows_commands, which have alarms of all kinds.
Of each answer it asks: status 0, with a text on standard output alone, or status 1, with one line `refused ..` on standard error alone; at
most a second; at most 64 MiB. Of rows: status 0 or 1, and nothing on standard error. What takes longer than a second beside the other workers
is asked again alone before it is at fault.
An analysis may take two seconds, as the search for runs does what the bound on its work allows, and its text may have status 3 too. Among its texts are those whose
search costs most, of bench/analysis_growth.py: many bounds of a choice, far constants, squares, alarms without a run. It is also asked:
- that with and without --json the status is the same, and all that is told: kinds, places, runs, parties, tokens and numbers; of a text that isn't read the status is 4 with --json,
  which has the refusal as an object;
- that it has the lines, or the keys, of docs/formats.md, in its order; that its places are in the contract's text, with a form that can warn so;
- that it has alarms where its status is 3, and none where it is 0;
- that it refuses the contract or the state just where `run` does, by the same line.
With --explain status, standard output and the first line stay, and the lines behind it are what `explained.py` says that they must be. 100,000 texts
are a long run: `--explain --count 100000 --workers 4 --seconds 7200`.
"""
import argparse, collections, glob, itertools, json, multiprocessing, os, random, re, shutil, signal, sys, tempfile, time, typing
import explained
import readings
from analysed import EMPTY, rows_of
from interpreter import has

ROOT = os.path.dirname(os.path.dirname(os.path.abspath(__file__)))
sys.path.append(f"{ROOT}/bench")
from analysis_growth import SEARCHED, texts_of

PROGRAM = f"{ROOT}/crates/marlowe/out/marlowe"
ROWS = f"{ROOT}/crates/rows_chain/out/rows_chain"
WORDS = ["run", "table", "play", "analyse"]
MOST_SECONDS, MOST_KIB, MOST_FAULTS = 1.0, 64 * 1024, 100
# What an analysis may take: the bound on the work of its search, at 5,000,000,000 instructions a second.
ANALYSIS_SECONDS = 2
# The bytes of the longest texts of an analysis whose search costs most.
HOSTILE_BYTES = 64 << 10
# The other files of a `run` of an analysed contract.
BESIDE = f"{ROOT}/crates/rows_commands/data/examples/escrow_1_the_buyer_deposits"
# The bytes of a spoiled text at most: twice those that a program reads of a file.
MOST_BYTES = 1 << 21

NUMBERS = [
    "0", "-0", "1", "-1", "1.0", "1e2", "0.5", "1e400", "-1e-400", "01", "1e", "9223372036854775807", "9223372036854775808",
    "-9223372036854775808", "-9223372036854775809", "18446744073709551615", "18446744073709551616", "170141183460469231731687303715884105727",
    "170141183460469231731687303715884105728", "-170141183460469231731687303715884105728", "9" * 400, "4611686018427387904", "999", "1000",
]
# a first and a last code point of some letters of each script; the last line has what isn't a letter: marks, digits, signs, joiners
SCRIPTS = [
    (0x41, 0x7A), (0xC0, 0x17F), (0x250, 0x2AF), (0x370, 0x3FF), (0x400, 0x4FF), (0x531, 0x587), (0x5D0, 0x5EA), (0x620, 0x64A), (0x710, 0x74A),
    (0x780, 0x7B1), (0x7C0, 0x7EA), (0x904, 0x939), (0x985, 0x9B9), (0xA05, 0xA39), (0xA85, 0xAB9), (0xB05, 0xB39), (0xB85, 0xBB9), (0xC05, 0xC39),
    (0xC85, 0xCB9), (0xD05, 0xD39), (0xD85, 0xDC6), (0xE01, 0xE30), (0xE81, 0xEB0), (0xF40, 0xF6C), (0x1000, 0x102A), (0x10A0, 0x10FF), (0x1100, 0x11FF),
    (0x1200, 0x135A), (0x13A0, 0x13F5), (0x1401, 0x166C), (0x1680, 0x169A), (0x16A0, 0x16EA), (0x1780, 0x17B3), (0x1820, 0x1877), (0x1B05, 0x1B33),
    (0x2C00, 0x2C5F), (0x2D30, 0x2D67), (0x3041, 0x3096), (0x30A1, 0x30FA), (0x3105, 0x312F), (0x4E00, 0x9FFF), (0xA000, 0xA48C), (0xAC00, 0xD7A3),
    (0x10000, 0x1005D), (0x10300, 0x1031F), (0x10400, 0x1044F), (0x12000, 0x12399), (0x13000, 0x1342E), (0x1D400, 0x1D7FF), (0x20000, 0x2A6DF),
    (0x300, 0x36F), (0x660, 0x669), (0x200B, 0x200F), (0x202A, 0x202E), (0x1F300, 0x1F5FF), (0xE000, 0xE0FF), (0xFFF0, 0xFFFD), (0x0, 0x1F), (0x10FFF0, 0x10FFFF),
]
ESCAPES = ['"\\ud800"', '"\\udc00\\ud800"', '"\\ud83d\\ude00"', '"\\u0000"', '"\\x"', '"\\u12"', '"\\"', '"\\n\\t\\b\\f\\r\\/"']
# Words of rows that make so many things: a row of millions takes what it is asked to take.
COUNTED = re.compile(rb"(notifies|many|keys) \d{5,}")

VERDICT = re.compile(r"(?:at hand |anew )?(accepted|refused [A-Z]\w+|no such row|done|same|other|TooLarge|Short)")
NAME = re.compile(r"[a-z]{4,}|[A-Z]\w+")
NUMBER = re.compile(rb'(?<![\w".])-?\d+(?![\w".])')
TEXT = re.compile(rb'(?<![^\s{[,:])"(?:[^"\\]|\\.)*"')
KEY = re.compile(rb'(?<![^\s{,])"(?:[^"\\]|\\.)*"\s*:')
PART = re.compile(rb'\{[^{}]*\}|\[[^][]*\]|(?<![^\s{[,:])"(?:[^"\\]|\\.)*"|-?\d+|true|false|null')


CLEAR = "never warns, stays within 128 bits"
FROM_NOTHING = "from a start without accounts"
OUT = re.compile(r"all can be taken out (?:at once|from (0|-?[1-9][0-9]*) on)")
DOWN = re.compile(r"(?:at most (?P<most>[1-9]\d*) down|never down|down not known)(?P<given> from the given state)?")
UNREACHED = "never reached: "
MORE = re.compile(r"and at ([1-9]\d*) more places?")
REACHED = re.compile(r"at (?P<end>least|most) (?P<number>-?[1-9]\d*)(?P<down> down)?, by this run:")
ALARM = re.compile(r"(\w+) at (\S+)(?:, by this run:|(, not known))")
CASE = r"\.when\[(?:0|[1-9]\d*)\]"
PLACE = re.compile(rf"(?:\.then|\.else|\.timeout_continuation|{CASE}\.then)*(?:\.(?:pay|if|let|assert)|{CASE}\.case\.(?:deposits|notify_if))")
RANGE = re.compile(r"at least (?P<least>0|-?[1-9]\d*)(?:, at most (?P<most>0|-?[1-9]\d*))?|at most (?P<only>0|-?[1-9]\d*)|not known")
# The kinds of alarms in their order, each with the keys of the forms that have it; Leaves128 is had by all.
ALARMS = {
    "NonPositiveDeposit": ["deposits"], "NonPositivePay": ["pay"], "PartialPay": ["pay"], "Shadowing": ["let"], "AssertionFailed": ["assert"],
    "Leaves128": ["pay", "if", "let", "assert", "deposits", "notify_if"],
}
# The forms of contracts with their keys, but for close.
FORMS = {
    "pay": ("pay", "token", "from_account", "to", "then"), "if": ("if", "then", "else"), "when": ("when", "timeout", "timeout_continuation"),
    "let": ("let", "be", "then"), "assert": ("assert", "then"),
}
# The forms of contracts that each step of a place goes on from.
STEPS = {"then": ("pay", "let", "assert", "if"), "else": ("if",), "timeout_continuation": ("when",), "when": ("when",)}
TEXT_FAULTS = "NotJson|TooLong|NoForm|NotWhole|OutOfRange|BadHex"
NOT_READ = re.compile(rf"refused (?:contract (?:{TEXT_FAULTS}|Merkleized)|state (?:{TEXT_FAULTS}|BadState))\n".encode())
# A note on a text that is read.
NOTE = re.compile(r'note: .*(?::\d+:\d+(?: at [.\[]\S*)?: the key ".* (?:is not read|stands again; the last is read)|: \.\. and more)')
INPUTS = [{"for_choice_id", "input_that_chooses_num"}, {"input_from_party", "into_account", "of_token", "that_deposits"}]


def one_of(chance, pattern, text):
    """What matches the pattern next behind some place of the text, or the first, or None."""
    return pattern.search(text, chance.randrange(len(text) + 1)) or pattern.search(text)


def put(text, found, new):
    return text if found is None else text[: found.start()] + new + text[found.end() :]


def name_of(chance):
    if chance.random() < 0.1:
        return chance.choice(ESCAPES).encode()
    first, last = chance.choice(SCRIPTS)
    letters = "".join(map(chr, chance.choices(range(first, last + 1), k=chance.choice([1, 1, 3, 12, 200]))))
    return json.dumps(letters, ensure_ascii=chance.random() < 0.3).encode("utf-8", "surrogatepass")


def changed_byte(chance, text, others):
    place = chance.randrange(len(text) + 1)
    byte = chance.choice([chance.randrange(256), *b'{}[]",:0\\ -.e\n'])
    return text[:place] + bytes([byte]) + text[place + chance.randrange(2) :]


def cut(chance, text, others):
    one, other = sorted(chance.randrange(len(text) + 1) for _ in range(2))
    return chance.choice([text[:one], text[one:], text[:one] + text[other:]])


def doubled(chance, text, others):
    one, other = sorted(chance.randrange(len(text) + 1) for _ in range(2))
    times = chance.choice([2, 2, 3, 50])
    return (text[:one] + text[one:other] * min(times, 1 + MOST_BYTES // len(text)) + text[other:])[:MOST_BYTES] if text else text


def renamed_key(chance, text, others):
    given = one_of(chance, KEY, chance.choice([text, chance.choice(others)]))
    return put(text, one_of(chance, KEY, text), given[0]) if given else text


def end_of_range(chance, text, others):
    return put(text, one_of(chance, NUMBER, text), chance.choice(NUMBERS).encode())


def another_script(chance, text, others):
    return put(text, one_of(chance, TEXT, text), name_of(chance))


def number_as_text(chance, text, others):
    found = one_of(chance, NUMBER, text)
    return put(text, found, b'"' + found[0] + b'"') if found else text


def text_as_number(chance, text, others):
    return put(text, one_of(chance, TEXT, text), chance.choice(NUMBERS).encode())


def exchanged_part(chance, text, others):
    """A part in brackets, or another value, put in the place of one."""
    given = one_of(chance, PART, chance.choice(others))
    return put(text, one_of(chance, PART, text), given[0] if given else b"null")


SPOILERS = [changed_byte, cut, doubled, renamed_key, end_of_range, another_script, number_as_text, text_as_number, exchanged_part]


def spoiled(chance, text, others):
    """The text spoiled once or a few times, so that it is another, and the names of what was done to it."""
    new, done = text, []
    while new == text:
        done = chance.choices(SPOILERS, k=chance.choice([1, 1, 1, 2, 4]))
        for spoil in done:
            new = spoil(chance, new, others)
    return new, [f"done {it.__name__}" for it in done]


class Answer(typing.NamedTuple):
    """What a program left: its status, both streams, the seconds from its start to its end, the KiB that it took at most.

    The system counts as the program's what the process that starts it held at most: so no KiB are below those of a worker, which holds no long text.
    """

    status: int
    out: bytes
    err: bytes
    seconds: float
    kib: int


class Runner:
    """Runs one program after another. Their streams are files in memory, and a clock ends a program that stays."""

    def __init__(self, slow=1.0, explains=False):
        self.slow, self.explains = slow, explains
        self.streams = os.memfd_create("out"), os.memfd_create("err")
        self.actions = [(os.POSIX_SPAWN_DUP2, it, number) for number, it in enumerate(self.streams, 1)]
        self.pid, self.begun, self.most = 0, 0.0, 0.0

    def __enter__(self):
        signal.signal(signal.SIGALRM, self.end_what_stays)
        signal.setitimer(signal.ITIMER_REAL, MOST_SECONDS / 8, MOST_SECONDS / 8)
        return self

    def __exit__(self, *_):
        signal.setitimer(signal.ITIMER_REAL, 0)

    def end_what_stays(self, *_):
        if self.pid and time.monotonic() - self.begun > self.most:
            os.kill(self.pid, signal.SIGKILL)

    def most_of(self, word):
        """The seconds that a command may take."""
        return self.slow * (ANALYSIS_SECONDS if word == "analyse" else MOST_SECONDS)

    def ask(self, word, line):
        """Runs a command line without an environment."""
        self.most = self.most_of(word)
        self.begun = time.monotonic()
        self.pid = pid = os.posix_spawn(line[0], line, {}, file_actions=self.actions)
        # (it has ended, but its number is still its own: the clock can't end another)
        os.waitid(os.P_PID, pid, os.WEXITED | os.WNOWAIT)
        self.pid = 0
        _, status, used = os.wait4(pid, 0)
        seconds = time.monotonic() - self.begun
        return Answer(os.waitstatus_to_exitcode(status), *map(take, self.streams), seconds, used.ru_maxrss)


def take(stream):
    """What was written to a file in memory, which is empty afterwards."""
    length = os.lseek(stream, 0, os.SEEK_CUR)
    if not length:
        return b""
    text = os.pread(stream, length, 0)
    os.ftruncate(stream, 0)
    os.lseek(stream, 0, os.SEEK_SET)
    return text


def judged(runner, word, line, text):
    """The answer to a command line about a text, and what is wrong with it, or None."""
    answer = runner.ask(word, line)
    fault = fault_of(runner, word, text, answer)
    if not fault and word == "analyse":
        fault = fault_beside(runner, line, answer)
    if not fault and runner.explains and answer.status == 1:
        fault = fault_explained(runner, word, line, answer)
    return answer, fault


def fault_of(runner, word, text, answer):
    """What is wrong with an answer, or None."""
    if answer.seconds > runner.most_of(word):
        return f"took {answer.seconds:.1f} s or longer"
    if answer.kib > MOST_KIB:
        return f"took {answer.kib} KiB"
    return fault_of_rows(text, answer) if word == "rows" else fault_of_command(word, answer)


def is_late(fault):
    return re.search(r"took [\d.]+ s", fault) is not None


def fault_of_command(word, answer):
    """What is wrong with the status and the streams of `marlowe`, or None."""
    status, out, err = answer[:3]
    if status == 0 or status == 3 and word == "analyse":
        return None if out and not err else "an answer, and not on standard output alone"
    if status == 1:
        is_line = err.startswith(b"refused ") and err.endswith(b"\n") and err.count(b"\n") == 1
        return None if is_line and not out else "a refusal that isn't one line on standard error alone"
    if status == 4 and word == "analyse":
        return None if line_of_object(out) and not err else "a refusal for tools that isn't one object on standard output alone"
    return f"status {status}"


def line_of_object(out):
    """The line of a refusal that is an object for tools, or nothing where there is no such object."""
    try:
        refused = json.loads(out)["refused"]
        return f"refused {refused['of']} {refused['name']}\n".encode() if out.endswith(b"\n") and out.count(b"\n") == 1 else b""
    except (ValueError, LookupError, TypeError):
        return b""


def refused_by(answer):
    """The line of a refusal, for people or for tools."""
    return line_of_object(answer.out) if answer.status == 4 else answer.err


def fault_beside(runner, line, answer):
    """What is wrong with an analysis, beside that for the other reader and a `run` of the same texts, or None."""
    files = [it for it in line[2:] if it != "--json"]
    other = runner.ask("analyse", [*line[:2], *files] if "--json" in line else [*line, "--json"])
    run = runner.ask("run", [line[0], "run", *(files if files[1:] else [files[0], f"{BESIDE}/state.json"]), f"{BESIDE}/transaction.json"])
    for word, what, it in (("analyse", "for the other reader", other), ("run", "of a run", run)):
        if fault := fault_of(runner, word, b"", it):
            return f"{what}: {fault}"
    refused = run.err if NOT_READ.fullmatch(run.err) else b""
    if refused_by(answer) != refused or refused_by(other) != refused:
        return f"refused otherwise than by run, {refused!r}"
    for_tools, for_people = (answer, other) if "--json" in line else (other, answer)
    if refused and (for_tools.status, for_people.status) != (4, 1):
        return f"status {for_tools.status} for tools and {for_people.status} for people"
    if not refused and answer.status != other.status:
        return f"status {answer.status}, and {other.status} for the other reader"
    try:
        if not refused:
            told = told_by_json(for_tools)
            see_same(told, told_by_lines(for_people))
            see(bool(told.alarms) == (answer.status == 3), f"status {answer.status} with {len(told.alarms)} alarms")
            see_told(json.loads(text_of(files[0]).decode()), told)
        return None
    except (ValueError, LookupError, TypeError, AttributeError, StopIteration) as fault:
        return f"{type(fault).__name__}: {fault}"


def fault_explained(runner, word, line, answer):
    """What is wrong with the lines that explain a refusal, or None."""
    again = runner.ask(word, [*line, "--explain"])
    if again[:2] != answer[:2] or not again.err.startswith(answer.err):
        return f"explained otherwise: status {again.status}, {again.err[:300]!r}"
    try:
        first, *lines = again.err.decode().split("\n")[:-1]
        found = explained.FIRST.fullmatch(first)
        if not found:
            see_untold(word, first, lines)
        else:
            see_explained(runner, word, line, found, lines)
        return None
    except (explained.Wrong, readings.Fault, ValueError, LookupError, TypeError, AttributeError) as fault:
        return f"explained: {type(fault).__name__}: {fault}: {again.err[:500]!r}"


def see_untold(word, first, lines):
    """Sees of a refusal once all texts are read that lines explain it, but for one of a play, and that there are but notes on the texts behind them."""
    notes = [it for it in lines if it.startswith("note: ")]
    told = lines[: len(lines) - len(notes)]
    see(bool(told) == (word != "play") and all(it.startswith("  ") for it in told), f"{len(told)} lines are told of {first}")
    see(all(map(NOTE.fullmatch, notes)), f"no notes: {notes[:3]}")


def see_explained(runner, word, line, found, lines):
    """Sees that what is told of a text is so, and that reading goes on once a smallest part is in the place of the one at fault."""
    place = 2 + ["contract", "state", "transaction", "scenario"].index(found[1]) % 3
    told = explained.explained(text_of(line[place]), lines, found[3])
    if told is None or told.with_smallest() is None:
        return
    file = f"{line[place]}.mended"
    with open(file, "wb") as it:
        it.write(told.with_smallest().encode())
    after = runner.ask(word, [*line[:place], file, *line[place + 1 :], "--explain"])
    os.remove(file)
    first, *rest = after.err.decode().split("\n")[:-1] or [""]
    stops = explained.FIRST.fullmatch(first)
    if stops and stops[1] == found[1] and rest and (where := explained.PLACE.fullmatch(rest[0])):
        see(not explained.is_inside(where["path"] or "", told.path), f"with {told.smallest} there it stops at {where['path']}")


def see(is_so, what):
    if not is_so:
        raise ValueError(what)


class Told(typing.NamedTuple):
    """What an analysis says.

    Of each alarm the kind, the place as for people, the run or None, and at how many other places it is told by this one, which is always 0 for tools;
    of each range the party, the token, the least and the most; whether it says from when on all can be taken out; the parts that no run
    reaches, as for people; and of each bound that a run reaches the party, the token, its name, the number and the run.
    """

    alarms: list
    ranges: list
    is_out: bool
    unreached: list
    bounds: list


def told_of(answer):
    return told_by_json(answer) if answer.out.startswith(b'{"alarms"') else told_by_lines(answer)


def lines_in(answer):
    text = answer.out.decode()
    see(text.endswith("\n"), "no line feed at the end")
    return collections.deque(text.split("\n")[:-1])


def told_by_lines(answer):
    """What an analysis says to people: its lines in their order."""
    lines, told = lines_in(answer), Told([], [], False, [], [])
    if lines[0] == CLEAR:
        lines.popleft()
    while lines and (found := ALARM.fullmatch(lines[0])):
        lines.popleft()
        run = None if found[3] else run_in(lines)
        more = MORE.fullmatch(lines[0]) if lines else None
        told.alarms.append((found[1], found[2], run, int(more[1]) if more else 0))
        if more:
            lines.popleft()
    see(told.alarms or answer.out.startswith(CLEAR.encode()), "no alarm and not that it never warns")
    while lines and lines[0].startswith(UNREACHED):
        told.unreached.append(lines.popleft().removeprefix(UNREACHED))
    while lines and (found := named_in(lines[0], RANGE)):
        lines.popleft()
        least, most = (None if it is None else int(it) for it in (found[2]["least"], found[2]["most"] or found[2]["only"]))
        told.ranges.append((*found[:2], least, most))
    is_out = bool(lines and OUT.fullmatch(lines[0]))
    if is_out:
        lines.popleft()
    losses = []
    while lines and (found := named_in(lines[0], DOWN)):
        lines.popleft()
        losses.append(found[:2])
    see(is_out or not losses, "losses are told, but not from when on all can be taken out")
    see_in_order(losses)
    if lines and lines[0] == FROM_NOTHING:
        lines.popleft()
    while lines and (found := named_in(lines[0], REACHED)):
        lines.popleft()
        told.bounds.append((*found[:2], "down" if found[2]["down"] else found[2]["end"], int(found[2]["number"]), run_in(lines)))
    see(not lines, f"a line that there isn't, or not there: {lines and lines[0][:200]}")
    return told._replace(is_out=is_out)


def run_in(lines):
    """The transactions of a run, which stand before other lines."""
    run = []
    while lines and lines[0].startswith('{"tx_'):
        run.append(compact(lines.popleft()))
    return run


def named_in(line, pattern):
    """The party and the token of a line, and what is said of them in this way; or None."""
    if not line.startswith(('{"address":', '{"role_token":')):
        return None
    _, one = json.JSONDecoder().raw_decode(line)
    see(line[one] == " ", f"no blank behind a party: {line[:200]}")
    _, two = json.JSONDecoder().raw_decode(line, one + 1)
    found = pattern.fullmatch(line, two + 1)
    return (compact(line[:one]), compact(line[one + 1 : two]), found) if line[two] == " " and found else None


def see_same(told, lines):
    """Sees that an analysis says the same to people as to tools: but of some alarms only at how many other places there is such a one."""
    heads = [it[:3] for it in lines.alarms]
    rest = iter(it[:3] for it in told.alarms)
    see(all(it in rest for it in heads), "alarms for people that aren't those for tools, in their order")
    counts = collections.Counter(it[0] for it in told.alarms)
    counts.subtract({kind: sum(1 + it[3] for it in lines.alarms if it[0] == kind) for kind in counts})
    see(not any(counts.values()), f"more alarms, or fewer, for people: {counts}")
    see(told[1:] == lines[1:], f"another analysis for people: {told[1:]} and {lines[1:]}"[:400])


def see_in_order(losses):
    order = [((list(party) == ["role_token"], *map(str.encode, party.values())), (bytes.fromhex(token["currency_symbol"]), token["token_name"].encode()))
             for party, token in losses]
    see(order == sorted(set(order)), "losses out of order")


def told_by_json(answer):
    """What an analysis says to tools."""
    lines = lines_in(answer)
    see(len(lines) == 1, f"{len(lines)} lines for tools")
    told = compact(lines[0])
    see(list(told) == ["alarms", "down", "out_from", "ranges", "unreached"], f"keys {list(told)}")
    number_of(told["out_from"])
    see((told["down"] is None) == (told["out_from"] is None), "losses are told, or not, where from when on all can be taken out isn't, or is")
    keys = {"alarms": ["kind", "place", "run"], "down": ["most", "party", "run", "token"], "ranges": ["least", "least_run", "most", "most_run", "party", "token"]}
    for name, some in keys.items():
        see(all(list(it) == some for it in told[name] or []), f"keys other than {some}")
    down = told["down"] or []
    see(all((number_of(it["most"]) or 0) >= 0 for it in down), "a loss below 0")
    see_in_order([(it["party"], it["token"]) for it in down])
    alarms = [(it["kind"], place_of(it["place"]), it["run"], 0) for it in told["alarms"]]
    ranges = [(it["party"], it["token"], number_of(it["least"]), number_of(it["most"])) for it in told["ranges"]]
    bounds = [(it["party"], it["token"], end, number_of(it[end]), it[f"{end}_run"])
              for it in told["ranges"] for end in ("least", "most") if it[f"{end}_run"] is not None]
    bounds += [(it["party"], it["token"], "down", number_of(it["most"]), it["run"]) for it in down if it["run"] is not None]
    return Told(alarms, ranges, told["out_from"] is not None, [place_of(it) for it in told["unreached"]], bounds)


def place_of(keys):
    """A place as it is told to people."""
    return "".join(f"[{key}]" if type(key) is int else f".{key}" for key in keys)


def number_of(it):
    """A number or None; outside -2^63 to 2^64 - 1 it is a text of its digits."""
    see(it is None or type(it) in (int, str) and str(int(it)) == str(it) and (-(2**63) <= int(it) < 2**64) == (type(it) is int), f"no number: {it!r}")
    return None if it is None else int(it)


def compact(text):
    """What a JSON text says, which has no blanks, and its keys in order."""
    it = json.loads(text, object_pairs_hook=in_order)
    # (how a text spells what must be escaped isn't asked)
    see("\\" in text or json.dumps(it, ensure_ascii=False, separators=(",", ":")) == text, f"JSON that isn't compact: {text[:200]}")
    return it


def in_order(pairs):
    keys = [key for key, _ in pairs]
    see(keys == sorted(set(keys)), f"keys out of order: {keys}")
    return dict(pairs)


def see_told(contract, told):
    """Sees that what an analysis says may be said of the contract of a text: the places, the runs' forms, the order, when all can be taken out."""
    alarms, ranges, is_out, unreached, bounds = told
    see(all(number and run and all(map(is_transaction, run)) for *_, number, run in bounds), "no run to a bound, or one to 0")
    order = []
    for kind, place, run, _ in alarms:
        steps = re.findall(r"\w+", place)
        see(kind in ALARMS and PLACE.fullmatch(place) and steps[-1] in ALARMS[kind], f"no alarm: {kind} at {place}")
        see(form_at(contract, steps) == steps[-1], f"{place} isn't in the contract")
        see(run is None or run and all(map(is_transaction, run)), f"no run to {kind} at {place}: {run}")
        order.append((order_of(steps), list(ALARMS).index(kind)))
    see(order == sorted(set(order)), "alarms out of order")
    see(is_out == all(kind != "Leaves128" for kind, *_ in alarms), "when all can be taken out is told, or not, whatever leaves 128 bits")
    parts = []
    for place in unreached:
        steps = re.findall(r"\w+", place) + [""]
        form_at(contract, steps)
        parts.append(order_of(steps))
    see(parts == sorted(set(parts)), "parts that no run reaches out of order")
    see(all(other[: len(one)] != one for one, other in zip(parts, parts[1:])), "a part that no run reaches below another")
    order = [((list(party) == ["role_token"], *map(str.encode, party.values())), (bytes.fromhex(token["currency_symbol"]), token["token_name"].encode()))
             for party, token, _, _ in ranges]
    see(order == sorted(set(order)), "ranges out of order")
    see(all(list(party) in (["address"], ["role_token"]) and list(token) == ["currency_symbol", "token_name"] for party, token, _, _ in ranges),
        "no party or no token")
    # (a run without a transaction pays nothing)
    see(all(most is None or most >= 0 for _, _, _, most in ranges), "at most less than 0")


def form_of(c):
    return "close" if c == "close" else next(word for word, keys in FORMS.items() if has(c, *keys))


def action_of(a):
    if has(a, "party", "deposits", "of_token", "into_account"):
        return "deposits"
    return "choose_between" if has(a, "for_choice", "choose_between") else "notify_if"


def form_at(contract, steps):
    """The key by which the form is known to which the steps but the last lead through the contract's text."""
    it, form, way = contract, form_of, iter(steps[:-1])
    for step in way:
        see(form_of(it) in STEPS[step], f"no {step} there")
        if step == "when":
            it, step = it["when"][int(next(way))], next(way)
            form = action_of if step == "case" else form_of
        it = it[step]
    return form(it)


def order_of(steps):
    """The order of a place in the contract: before those that go on from it, cases by their numbers, and the timeout's continuation last."""
    order, way = [], iter(steps[:-1])
    for step in way:
        order.append((int(next(way)), next(way) == "then") if step == "when" else (["then", "else", "timeout_continuation"].index(step) << 64, False))
    return tuple(order)


def is_transaction(it):
    interval = it["tx_interval"]
    inputs = all(one == "input_notify" or set(one) in INPUTS for one in it["tx_inputs"])
    return inputs and list(it) == ["tx_inputs", "tx_interval"] and list(interval) == ["from", "to"] and all(type(n) is int for n in interval.values())


def fault_of_rows(text, answer):
    """What is wrong with those of the row program, or None. Of a file that is no text in UTF-8 it plays nothing, with status 2."""
    is_right = answer.status in ((0, 1) if is_utf8(text) else (2,)) and not answer.err
    return None if is_right else f"status {answer.status}"


def is_utf8(text):
    try:
        text.decode()
        return True
    except UnicodeDecodeError:
        return False


def kinds_of(word, answer):
    """The kinds of an answer: of rows each line's verdict, else of a refusal its names without what is particular to the text."""
    if word == "rows":
        return [f"{word}: {it[1]}" for it in map(VERDICT.match, answer.out.decode("utf-8", "replace").split("\n")) if it]
    if word == "analyse" and answer.status not in (1, 4):
        return [f"{word}: {kind} {'not known' if run is None else 'with a run'}" for kind, _, run, _ in told_of(answer).alarms] or [f"{word}: never warns"]
    if answer.status == 0:
        return [f"{word}: an answer"]
    return [f"{word}: {' '.join(filter(NAME.fullmatch, refused_by(answer).decode('utf-8', 'replace').split()))}"]


def texts_of_examples():
    """For each command the texts of its examples, of each of which one is spoiled."""
    folders = sorted(glob.glob(f"{ROOT}/crates/rows_commands/data/examples/*/"))
    runs = [[text_of(f"{folder}/{it}.json") for it in ("contract", "state", "transaction")] for folder in folders]
    plays = [[text_of(it)] for it in sorted(glob.glob(f"{ROOT}/examples/plays/*/scenario.json"))]
    analyses = {(contract, state or json.dumps(EMPTY)) for it in glob.glob(f"{ROOT}/crates/rows_commands/data/analyses/*.txt") for _, contract, state, *_ in rows_of(it)}
    analyses = [texts[:2] for texts in runs] + [[it.encode() for it in texts] for texts in sorted(analyses)]
    analyses += [[text.encode(), json.dumps(EMPTY).encode()] for make in SEARCHED for text in itertools.takewhile(is_short, texts_of(make))]
    return {"run": runs, "table": [texts[:1] for texts in runs], "play": plays, "analyse": analyses}


def is_short(text):
    return len(text) <= HOSTILE_BYTES


def text_of(file):
    with open(file, "rb") as it:
        return it.read()


def rows_of_transactions():
    """For each file of rows what common.txt and the file itself publish, and its other lines without the answers."""
    folder = f"{ROOT}/crates/rows_chain/data/transactions"
    common, found = text_of(f"{folder}/common.txt").split(b"\n"), []
    for file in sorted(glob.glob(f"{folder}/*.txt")):
        lines = [it for it in text_of(file).split(b"\n") if it and not it.startswith((b"=", b"-", b"use "))]
        published = [it for it in lines if it.startswith(b"script ")]
        if len(published) < len(lines):
            found.append(([*common, *published], [it for it in lines if it not in published]))
    return found


def spoils_texts(room, given):
    """What spoils a text of an example by chance: it gives what is asked about which text, and what was done to it."""
    examples = texts_of_examples()
    everything = [it for some in examples.values() for texts in some for it in texts]
    files = {word: [files_of(f"{room}/{word}_{number}", it) for number, it in enumerate(some)] for word, some in examples.items()}

    def spoil(chance):
        word = chance.choice(given.words)
        number = chance.randrange(len(examples[word]))
        line, texts = [given.program, word, *files[word][number]], examples[word][number]
        place = chance.randrange(len(texts))
        line[2 + place] = f"{room}/spoiled"
        text, done = spoiled(chance, texts[place], everything)
        if word == "analyse" and place == 0 and chance.random() < 0.5:
            line.pop()
        flags = {"play": ["--one"], "analyse": ["--json"]}.get(word, []) if chance.random() < 0.5 else []
        return word, [*line, *flags], text, done

    return spoil


def spoils_rows(room, given):
    """What spoils a line among some rows of transactions by chance."""
    rows = rows_of_transactions()
    everything = [it for some in texts_of_examples().values() for texts in some for it in texts]

    def spoil(chance):
        published, lines = chance.choice(rows)
        at = chance.randrange(len(lines))
        few = [*published, *lines[max(0, at - 12) : at + 12]]
        place = chance.randrange(len(few))
        few[place], done = spoiled(chance, few[place], everything)
        text = b"\n".join(few) + b"\n"
        return spoil(chance) if COUNTED.search(text) else ("rows", [ROWS, f"{room}/spoiled"], text, done)

    return spoil


def files_of(beginning, texts):
    """The names of new files that hold the texts."""
    files = [f"{beginning}_{number}.json" for number in range(len(texts))]
    for file, text in zip(files, texts):
        with open(file, "wb") as it:
            it.write(text)
    return files


def kept(line):
    """The command line, with copies of its files in a folder of their own."""
    folder = tempfile.mkdtemp(prefix="spoiled-")
    return [shutil.copy(it, folder) if os.path.isfile(it) and it != line[0] else it for it in line]


def work(arguments):
    """A worker's part: how many there were of each kind, the inputs at fault, and the most seconds and KiB of one that isn't.

    Texts are numbered through all workers: of N workers each takes every Nth. How a text is spoiled depends on the seed and its number alone.
    """
    worker, given = arguments
    ends = time.monotonic() + given.seconds
    kinds, faults, seconds, kib = collections.Counter(), [], 0, 0
    with tempfile.TemporaryDirectory(prefix="spoiled-", dir="/dev/shm") as room, Runner(given.slow, given.explain) as runner:
        spoil = (spoils_rows if given.rows else spoils_texts)(room, given)
        file = os.open(f"{room}/spoiled", os.O_WRONLY | os.O_CREAT)
        for number in itertools.count(worker, given.workers):
            if time.monotonic() > ends or len(faults) == MOST_FAULTS or given.count and number >= given.count:
                break
            word, line, text, done = spoil(random.Random(f"{given.seed} {number}"))
            os.pwrite(file, text, 0)
            os.ftruncate(file, len(text))
            answer, fault = judged(runner, word, line, text)
            if fault:
                faults.append((word, kept(line), text, answer, fault))
            else:
                kinds.update(kinds_of(word, answer))
                seconds, kib = max(seconds, answer.seconds), max(kib, answer.kib)
            kinds.update([f"asked {word}", *done])
    return kinds, faults, seconds, kib


def ask_again(faults, slow, explains):
    """Of the inputs at fault those that are so still. What was late beside other workers is asked again alone."""
    still = []
    with Runner(slow, explains) as runner:
        for word, line, text, answer, fault in faults:
            if is_late(fault):
                answer, fault = judged(runner, word, line, text)
            if fault:
                still.append((line, answer, fault))
    return still


def main():
    words = argparse.ArgumentParser(description="spoils texts and asks the programs what they make of them")
    words.add_argument("--seconds", type=float, default=60)
    words.add_argument("--seed", type=int, default=0)
    words.add_argument("--workers", type=int, default=1)
    words.add_argument("--words", type=lambda it: it.split(","), default=WORDS)
    words.add_argument("--program", default=PROGRAM)
    words.add_argument("--slow", type=float, default=1)
    words.add_argument("--rows", action="store_true")
    words.add_argument("--explain", action="store_true")
    words.add_argument("--count", type=int, default=0)
    given = words.parse_args()
    if not set(given.words) <= set(WORDS):
        words.error(f"--words takes some of {','.join(WORDS)}")
    program = ROWS if given.rows else given.program
    if not os.path.exists(program):
        sys.exit(f"{program} isn't built")
    begun = time.monotonic()
    with multiprocessing.Pool(given.workers) as pool:
        told = pool.map(work, [(it, given) for it in range(given.workers)])
    took = time.monotonic() - begun
    kinds, faults = sum((it[0] for it in told), collections.Counter()), [it for part in told for it in part[1]]
    for kind, count in sorted(kinds.items()):
        print(f"{count:9} {kind}")
    late, still = sum(is_late(it[4]) for it in faults), ask_again(faults, given.slow, given.explain)
    for line, answer, fault in still:
        print(f"{fault}: {' '.join(line)}: {answer.err[:300]!r}")
    asked = sum(count for kind, count in kinds.items() if kind.startswith("asked "))
    most = f"{max(it[2] for it in told):.2f} s and {max(it[3] for it in told)} KiB"
    print(f"{asked / took:.0f} a second, at most {most}, {late} asked again alone")
    print(f"{asked} spoiled texts, {len(still) or 'none'} at fault")
    return 1 if still else 0


if __name__ == "__main__":
    sys.exit(main())
