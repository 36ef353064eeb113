#!/usr/bin/env python3
"""Draws what `marlowe play` prints: who called when, what came of it, and how far each thread is.

Needs    nothing but Python.
Usage    marlowe play scenario.json --one --json | tools/timeline.py > play.svg              draws all that the objects tell
         marlowe play scenario.json --one | tools/timeline.py > play.svg                     draws the lines alone
         marlowe play scenario.json --one | tools/timeline.py --scenario scenario.json       draws also what the scenario says of them
         tools/timeline.py lines.txt ..                                                      takes the lines from a file
Expect   a picture in SVG. Time goes down: a row for each entry, with its number, and the tick where it changes. There is a lane for the
         setup and for each plan, which has the plan's calls; a call that was refused is red. From a scenario come the names of the plans, and
         what each call was for; then each thread has a lane as well, which begins at its start, has each accepted step with its number, and
         ends where the contract is closed. Objects tell as much, and also what hindered an intent. With neither, the threads' last states
         stand below.
Else     one line on standard error: status 1 for lines that are no play, or not one of this scenario; 2 for a command line or a file at fault.
"""
import json
import re
import sys
from xml.sax.saxutils import escape

LINE_OF_TEXT, TOP, LEFT, LANE, THREAD, GAP = 11.5, 78, 84, 122, 72, 8  # pixels
WIDEST, WIDEST_BELOW = 19, 21  # letters of a line: what a call was for, what came of it
WIDEST_LANE, WIDEST_THREAD = 15, 9  # .. and the name of a lane
MOST = 6  # lines of what came of a call
NO_BREAK = "\u00a0"  # a space at which no line ends
BLUE, RED, GREEN, GREY, LINE = "#dce9f6", "#f7d9d6", "#e3f0dc", "#eeeeee", "#555555"
TRIES = 17  # so often is built where another party was faster


class NoPlay(Exception):
    """The lines aren't those of a play, or not of this scenario."""


class Entry:
    def __init__(self, number, seat, told):
        self.number, self.seat, self.told = number, seat, told
        self.subject, self.result = "", told.partition(" ")[2]  # what it was for, and what came of it
        self.steps = []  # the threads that it steps or starts

    @property
    def is_refused(self):
        return "refused" in self.told or self.told in ("advance backward", "enqueue full", "publish in use")


# ---- reading

ENTRY = re.compile(r"([0-9]+) ([0-9]+)\.([0-9]+) (.+)")
LAST = re.compile(r"thread (.*) steps ([0-9]+) (open|closed)")


def read(text):
    """The entries, and the name, the steps and the state of each thread."""
    entries, threads, lines = [], [], text.splitlines()
    if not lines or lines[-1].split(" ")[0] != "entries":
        raise NoPlay("no line `entries N` at the end")
    for line in lines[:-1]:
        entry, last = ENTRY.fullmatch(line), LAST.fullmatch(line)
        if entry and int(entry[1]) == len(entries):
            entries.append(Entry(len(entries), int(entry[2]), entry[4]))
        elif last:
            threads.append((last[1], int(last[2]), last[3]))
        else:
            raise NoPlay(line)
    if lines[-1] != f"entries {len(entries)}":
        raise NoPlay(lines[-1])
    return entries, threads


# ---- reading objects

def told_of_members(entry):
    """A call and its reply as the lines have them."""
    call, reply = entry["call"], entry["reply"]
    if call == "look":
        return f"look tick {entry['tick']}"
    if call == "round":
        return "round " + (", ".join(f"{each['ticket']} {told_of_reply(each)}" for each in entry["tickets"]) or "none")
    return f"{call} ticket {entry['ticket']}" if reply == "pooled" else f"{call} {told_of_reply(entry)}"


def told_of_reply(told):
    return f"refused {told['fault']}" if told["reply"] == "refused" else told["reply"]


def read_objects(text):
    """The entries, the threads, and the names of the plans by their seats."""
    objects = [json.loads(line) for line in text.splitlines()]
    entries = [Entry(each["entry"], each["seat"], told_of_members(each)) for each in objects if "number" in each]
    threads = [(each["thread"], each["steps"], "closed" if each["closed"] else "open") for each in objects if "thread" in each]
    if [each["entries"] for each in objects if "entries" in each] != [len(entries)] or any(entry.number != place for place, entry in enumerate(entries)):
        raise NoPlay("the entries aren't all there")
    tell_setup([entry for entry in entries if entry.seat == 0], [name for name, _, _ in threads])
    plans = {each["seat"]: each["plan"] for each in objects if "plan" in each}
    for each in objects:
        if "left_out" in each:
            entry, fault = entries[each["entry"]], each["fault"].split(" ")[0] if "fault" in each else each["why"]
            entry.subject, entry.result = f"look for {told_of_intent(each['left_out'])}", f"{entry.result}, nothing is built: {fault}"
        elif "step" in each:
            entries[each["entry"]].steps.append(each["step"])
        elif "plan" in each and "entry" in each and is_of(entries[each["entry"]], each):
            entries[each["entry"]].subject = told_of_intent(each["intent"])
    return entries, threads, plans


def tell_setup(calls, names):
    """The accepted Submits of the setup start the threads, in order."""
    starts = [place for place, entry in enumerate(calls) if entry.told == "submit accepted"]
    for name, place in zip(names, starts):
        calls[place].subject, calls[place].steps = f"start {name}", [name]
        calls[place - 1].subject = f"look for {name}"


def is_of(entry, ended):
    """Whether the entry at which an intent ended is a call of its own: a round takes what others put into the pool."""
    return not entry.told.startswith("round ") or "round" in ended["intent"]


def told_of_intent(intent):
    if "steps" in intent:
        return f"steps {', '.join(intent['steps'])}"
    return f"claim as {intent['role']}" if "claim" in intent else " ".join(f"{key} {value}" for key, value in intent.items())


# ---- which call is of which intent

def explain(entries, scenario):
    """Says of each entry what it was for, and which threads it steps."""
    waiting = {}
    explain_setup([entry for entry in entries if entry.seat == 0], scenario)
    for place, plan in enumerate(scenario["plans"]):
        calls = [entry for entry in entries if entry.seat == place + 1]
        explain_plan(calls, plan["intents"], waiting)
        if calls and len(calls) == plan.get("stop_after"):
            calls[-1].result += ", and stops"
        elif calls and calls[-1].told.startswith("look"):
            calls[-1].result += ", nothing is built"
    for entry in entries:
        if entry.told.startswith("round "):
            for ticket in re.findall(r"([0-9]+) accepted", entry.told):
                entry.steps += waiting.get(int(ticket), [])


def explain_setup(calls, scenario):
    calls = iter(calls)
    for contract in scenario["contracts"]:
        following(calls).subject = f"publish {contract['name']}"
    for thread in scenario["threads"]:
        following(calls).subject = f"look for {thread['name']}"
        start = following(calls)
        start.subject, start.steps = f"start {thread['name']}", [thread["name"]]


def following(calls):
    try:
        return next(calls)
    except StopIteration:
        raise NoPlay("a call of the setup is missing") from None


# The forms of an intent in their order, by the keys that they want.
FORMS = {"step": ("step", "inputs", "from", "to"), "steps": ("steps", "from", "to"), "claim": ("claim", "role", "from", "to"),
         "round": ("round", "workers"), "advance": ("advance",)}


def form_of(intent):
    return next(form for form, keys in FORMS.items() if all(key in intent for key in keys))


def steps_of(intent):
    """The steps of an intent that are in one transaction: none of a claim."""
    return {"step": [intent], "steps": intent.get("steps")}.get(form_of(intent), [])


def explain_plan(calls, intents, waiting):
    """Goes over a seat's calls and its intents side by side."""
    place = 0
    for intent in intents:
        if place == len(calls):
            return
        if form_of(intent) in ("step", "steps", "claim"):
            place = explain_tries(calls, place, intent, waiting)
        else:
            calls[place].subject = "round" if form_of(intent) == "round" else f"advance to {intent['advance']}"
            place += 1
    if place < len(calls):
        raise NoPlay(f"entry {calls[place].number} is of no intent")


def explain_tries(calls, place, intent, waiting):
    """The calls of a step, steps or a claim: looks, and what was built on each round of them, if anything was."""
    threads = [step["step"] for step in steps_of(intent)]
    looks = [f"look for {intent['role']}"] if form_of(intent) == "claim" else [f"look at {thread}" for thread in threads]
    for _ in range(TRIES if looks else 0):
        for subject in looks:
            if place == len(calls):
                return place
            if not calls[place].told.startswith("look "):
                raise NoPlay("a look is missing")
            calls[place].subject = subject
            place += 1
        if place == len(calls):
            return place
        if calls[place].told.split(" ")[0] not in ("submit", "enqueue"):
            calls[place - 1].result += ", nothing is built"
            return place
        call = calls[place]
        place += 1
        call.subject = told_of(intent)
        if call.told == "submit accepted":
            call.steps = threads
        if call.told.startswith("enqueue ticket "):
            waiting[int(call.told.split(" ")[2])] = threads
        if not call.told.startswith("submit refused NotUnspent"):
            return place
    return place


def told_of(intent):
    """Steps by their inputs, a claim by its role."""
    if form_of(intent) == "claim":
        return f"claim as {intent['role']}"
    words = [", ".join(told_of_input(given) for given in step["inputs"]) or "no input" for step in steps_of(intent)]
    return ", ".join(words)


def told_of_input(given):
    if given == "input_notify":
        return "notify"
    if "that_deposits" in given:
        token = given["of_token"]
        name = token["token_name"] or token["currency_symbol"]
        return f"deposit {given['that_deposits']}" + (f" {name}" if name else "")
    return f"{given['for_choice_id']['choice_name']}:{NO_BREAK}{given['input_that_chooses_num']}"


# ---- the picture

def folded(text, widest, most=MOST):
    """The text in lines of some width. One that is too long is broken behind each comma, and at spaces."""
    if len(text) <= widest:
        return [text]
    lines = []
    for part in re.split("(?<=,) ", text):
        lines.append("")
        for word in part.split(" "):
            if lines[-1] and len(lines[-1]) + 1 + len(word) > widest:
                lines.append("")
            lines[-1] = cut(f"{lines[-1]} {word}" if lines[-1] else word, widest)
    return lines if len(lines) <= most else lines[:most - 1] + [".."]


class Box:
    """What is written for an entry: lines with their sizes and colours."""

    def __init__(self, entry):
        if entry.subject:
            result = re.sub("(?<=[A-Za-z]) (?=[0-9]+(,|$))", NO_BREAK, entry.result)  # the place behind a fault
            above, below = folded(entry.subject, WIDEST), folded(result, WIDEST_BELOW)
        else:
            above, below = folded(entry.told, WIDEST), []
        self.lines = [(line, 10, "") for line in above] + [(line, 9, ' fill="#444444"') for line in below]
        self.height = 6 + LINE_OF_TEXT * len(self.lines)


class Picture:
    def __init__(self, entries, threads, scenario, names=None):
        self.entries, self.threads, self.scenario = entries, threads, scenario
        plans = [plan["name"] for plan in scenario["plans"]] if scenario else []
        last = max([entry.seat for entry in entries] + [len(plans)])
        self.lanes = ["setup"] + (plans or [(names or {}).get(seat, f"seat {seat}") for seat in range(1, last + 1)])
        if last >= len(self.lanes):
            raise NoPlay("there are more seats than plans")
        self.shown = threads if scenario or names is not None else []
        self.parts = []
        self.heads = [folded(name, WIDEST_LANE) for name in self.lanes] + [folded(name, WIDEST_THREAD) for name, _, _ in self.shown]
        self.boxes = [Box(entry) for entry in entries]
        self.top = TOP + LINE_OF_TEXT * (max(map(len, self.heads)) - 1)
        self.rows = [self.top]
        for box in self.boxes:
            self.rows.append(self.rows[-1] + box.height + 6)

    def lane(self, seat):
        return LEFT + seat * (LANE + GAP)

    def thread_lane(self, place):
        return self.lane(len(self.lanes)) + place * (THREAD + GAP)

    def row(self, number):
        """The upper end of an entry's box; of the number behind the last, where the picture's rows end."""
        return self.rows[number]

    def middle(self, number):
        return self.rows[number] + self.boxes[number].height / 2

    def text(self, x, y, text, size=11, anchor="middle", more=""):
        self.parts.append(f'<text x="{x:g}" y="{y:g}" font-size="{size}" text-anchor="{anchor}"{more}>{escape(text)}</text>')

    def line(self, x, y, to_x, to_y, more=""):
        self.parts.append(f'<line x1="{x:g}" y1="{y:g}" x2="{to_x:g}" y2="{to_y:g}" stroke="{LINE}"{more}/>')

    def box(self, x, y, width, height, colour):
        self.parts.append(f'<rect x="{x:g}" y="{y:g}" width="{width:g}" height="{height:g}" rx="4" fill="{colour}" stroke="{LINE}" stroke-width="0.7"/>')

    def draw(self):
        width = self.thread_lane(len(self.shown))
        below = [] if self.shown else [f"thread {name}: {steps} steps, {state}" for name, steps, state in self.threads]
        height = self.row(len(self.entries)) + 16 + 18 * len(below)
        self.draw_heads()
        self.draw_threads()
        for entry in self.entries:
            self.draw_entry(entry)
        for place, words in enumerate(below):
            self.text(LEFT, self.row(len(self.entries)) + 12 + 18 * place, words, anchor="start")
        yield (f'<svg xmlns="http://www.w3.org/2000/svg" width="{width:g}" height="{height:g}" viewBox="0 0 {width:g} {height:g}" '
               f'font-family="Helvetica,Arial,sans-serif" fill="#222222">')
        yield f'<rect width="{width:g}" height="{height:g}" fill="#ffffff"/>'
        yield from self.parts
        yield "</svg>"

    def draw_heads(self):
        end = self.row(len(self.entries))
        self.text(34, self.top - 22, "entry", 10)
        self.text(66, self.top - 22, "tick", 10)
        for seat in range(len(self.lanes)):
            middle = self.lane(seat) + LANE / 2
            self.line(middle, self.top - 12, middle, end - 4, ' stroke-width="0.5" stroke-dasharray="2 4"')
            self.draw_head(middle, self.heads[seat])
        if self.shown:
            self.text(self.lane(0), 24, "what each plan called", 11, "start")
            self.text(self.thread_lane(0), 24, "the threads", 11, "start")
        for place in range(len(self.shown)):
            self.draw_head(self.thread_lane(place) + THREAD / 2, self.heads[len(self.lanes) + place])

    def draw_head(self, middle, lines):
        for place, line in enumerate(reversed(lines)):
            self.text(middle, self.top - 22 - LINE_OF_TEXT * place, line, 11, more=' font-weight="bold"')

    def draw_entry(self, entry):
        box, y = self.boxes[entry.number], self.row(entry.number)
        self.text(34, self.middle(entry.number) + 3.5, str(entry.number), 10)
        tick = self.tick_at(entry.number)
        if entry.number == 0 or tick != self.tick_at(entry.number - 1):
            self.text(66, self.middle(entry.number) + 3.5, "?" if tick is None else str(tick), 10)
        self.box(self.lane(entry.seat), y, LANE, box.height, colour_of(entry))
        for place, (line, size, more) in enumerate(box.lines):
            self.text(self.lane(entry.seat) + LANE / 2, y + LINE_OF_TEXT * (place + 1), line, size, more=more)

    def tick_at(self, number):
        """The tick after an entry, as far as the lines or the scenario tell it."""
        tick = self.scenario["tick"] if self.scenario else None
        for entry in self.entries[:number + 1]:
            if entry.told.startswith("look tick "):
                tick = int(entry.told.split(" ")[2])
            elif entry.told == "advance advanced" and entry.subject:
                tick = int(entry.subject.rpartition(" ")[2])
        return tick

    def draw_threads(self):
        for place, (name, steps, state) in enumerate(self.shown):
            rows = [entry.number for entry in self.entries for each in entry.steps if each == name]
            if len(rows) != steps + 1:
                raise NoPlay(f"thread {name} has {steps} steps, and {max(len(rows) - 1, 0)} are found")
            self.draw_thread(self.thread_lane(place) + THREAD / 2, rows, state)

    def draw_thread(self, x, rows, state):
        middles = [self.middle(number) for number in rows]
        end = middles[-1] if state == "closed" else self.row(len(self.entries)) - 6
        self.line(x, middles[0], x, end, ' stroke-width="6" stroke-opacity="0.35"')
        for step, (number, y) in enumerate(zip(rows, middles)):
            seat = self.entries[number].seat
            self.line(self.lane(seat) + LANE, y, x, y, ' stroke-width="0.5" stroke-dasharray="1 3"')
            self.parts.append(f'<circle cx="{x}" cy="{y}" r="9" fill="{GREEN}" stroke="{LINE}"/>')
            self.text(x, y + 3.5, str(step) if step else "▸", 10)
        if state == "closed":
            self.line(x - 14, end + 10, x + 14, end + 10, ' stroke-width="3"')
            self.text(x, end + 22, "closed", 9)
        else:
            self.text(x + 12, end - 2, "open", 9, "start")


def colour_of(entry):
    if entry.is_refused:
        return RED
    if entry.told.startswith("look"):
        return GREY
    return GREEN if "accepted" in entry.told else BLUE


def cut(text, letters):
    return text if len(text) <= letters else text[:letters - 3] + " .."


def drawn(text, scenario):
    if text.startswith("{"):
        entries, threads, names = read_objects(text)
        return "\n".join(Picture(entries, threads, None, names).draw()) + "\n"
    entries, threads = read(text)
    if scenario:
        explain(entries, scenario)
    return "\n".join(Picture(entries, threads, scenario).draw()) + "\n"


def fail(line, status):
    print(line, file=sys.stderr)
    sys.exit(status)


def main(given):
    scenario = None
    if "--scenario" in given:
        place = given.index("--scenario")
        scenario, given = given[place + 1:place + 2], given[:place] + given[place + 2:]
    if len(given) > 1 or scenario == [] or any(word.startswith("-") for word in given):
        fail(__doc__, 2)
    try:
        if scenario:
            with open(scenario[0], encoding="utf-8") as file:
                scenario = json.load(file)
        if given:
            with open(given[0], encoding="utf-8") as file:
                text = file.read()
        else:
            text = sys.stdin.read()
    except (OSError, ValueError) as fault:
        fail(fault, 2)
    try:
        sys.stdout.write(drawn(text, scenario))
    except (NoPlay, KeyError, IndexError, TypeError, StopIteration) as fault:
        fail(f"no play: {fault}", 1)


if __name__ == "__main__":
    main(sys.argv[1:])
