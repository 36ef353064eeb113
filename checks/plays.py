#!/usr/bin/env python3
"""Plays a scenario in plain Python, apart from the program, and compares the program with it.

Needs    readings.py, ledger.py and random_scenarios.py beside it, and for `--compare` the built program:
         (cd crates/marlowe && rt run -- --version)
Usage    plays.py SCENARIO                      prints what `marlowe play --one SCENARIO` has to print
         plays.py --explain SCENARIO            the same of `marlowe play --one --explain SCENARIO`
         plays.py --json SCENARIO               the same of `marlowe play --one --json SCENARIO`
         plays.py --strict SCENARIO [NAME ..]   `well` or `not well`, as `marlowe play --one --strict` has status 0 or 3; threads with these names may stay open
         plays.py --replay SCENARIO PRINTED     makes the calls of a printed play again, in its order
         plays.py --compare N SEED PROGRAM      compares the program on N random scenarios, played in turn and at once, in lines, explained and as objects, and
                                                whether they went well
         plays.py --race N SEED PROGRAM         has the program play N times, with ten plans of a hundred steps each that race for twenty threads
Expect   the lines of the play and status 0, or one line `refused ..` on standard error and status 1;
         `replayed N entries`, where each printed verdict is the one that comes here, seat by seat;
         `N scenarios agree`, then how many lines of each kind there were; the same for the same seed.
         for each race how many entries it has, how often another plan's entry came next, how many entries were refused since another was faster, and that
         they were replayed.
Else     the first line that differs, or `differs` with the seed and the scenario's file, or `in turn` where no race has a plan's entry between two of another
         plan, and status 1.
"""
import collections
import json
import os
import random
import re
import subprocess
import sys
import tempfile

sys.path.insert(0, os.path.dirname(os.path.abspath(__file__)))
import interpreter
import ledger
import random_scenarios
import readings

AGAIN = 16


class Refused(Exception):
    """The play ends with this line."""


class Differs(Exception):
    """A printed line isn't the one that comes here."""


class Play:
    """A play so far: its chain, the lines of its entries, and where its threads start."""

    def __init__(self, text):
        try:
            self.scenario = readings.scenario(text)
        except readings.Fault as fault:
            raise Refused(f"refused scenario {fault}") from None
        genesis = [ledger.Output(("key", funds["address"]), ledger.amount(funds["amount"])) for funds in self.scenario["genesis"]]
        self.chain, self.lines, self.starts = ledger.Chain(genesis, self.scenario["tick"]), [], []
        self.replies, self.taken, self.intents_told = [], {}, [Told(plan) for plan in self.scenario["plans"]]
        self.answered = collections.Counter()

    def answer(self, seat, call):
        """Makes a call for a seat, and its line."""
        reply = self.chain.call(*call)
        self.replies.append((seat, self.answered[seat], reply.text))
        self.taken.update((int(ticket), (len(self.lines), verdict == "accepted")) for ticket, verdict in tickets(reply.text))
        self.lines.append(f"{len(self.lines)} {seat}.{self.answered[seat]} {reply.text}")
        self.answered[seat] += 1
        return reply

    def whole(self):
        """All that is printed at the end."""
        threads = [f"thread {thread['name']} {self.steps(start)}" for thread, start in zip(self.scenario["threads"], self.starts)]
        return self.lines + threads + [f"entries {len(self.lines)}"]

    def explained(self):
        """The same with what is told behind the entries, how each intent ended, and who holds what."""
        notes = self.noted([refusals(reply) for _, _, reply in self.replies], self.unbuilt_lines, self.step_lines)
        lines = self.whole()
        noted = [line for place, entry in enumerate(self.lines) for line in [entry] + ["    " + note for note in notes[place]]]
        return noted + lines[len(self.lines):] + self.endings() + self.holdings()

    def objects(self):
        """The same, an object a line."""
        entries = [[{"entry": place, "seat": seat, "number": number, **reply_members(reply)}] for place, (seat, number, reply) in enumerate(self.replies)]
        told = [each for notes in self.noted(entries, self.unbuilt_objects, self.step_objects) for each in notes]
        for thread, start in zip(self.scenario["threads"], self.starts):
            steps, end = self.chain.spine(start)
            told.append({"thread": thread["name"], "steps": steps, "closed": not end})
        told.append({"entries": len(self.lines)})
        for seat, (plan, each) in enumerate(zip(self.scenario["plans"], self.intents_told), 1):
            told += [{"plan": plan["name"], "seat": seat, "place": place, "intent": self.intent_members(intent), **ending_members(self.ending(each.ended(place)))}
                     for place, intent in enumerate(plan["intents"])]
        told += [{**self.holder_members(holder), "token": ledger.token_json(of), "amount": interpreter.wide(number)} for holder, of, number in self.held()]
        return [json.dumps(each, separators=(",", ":"), ensure_ascii=False) for each in told]

    def is_well(self, kept_open=()):
        """Whether each intent is done and each thread closed, but for those that may stay open."""
        done = all(self.ending(told.ended(place)).startswith("done at ")
                   for plan, told in zip(self.scenario["plans"], self.intents_told) for place in range(len(plan["intents"])))
        return done and all(thread["name"] in kept_open or not self.chain.spine(start)[1] for thread, start in zip(self.scenario["threads"], self.starts))

    def noted(self, notes, unbuilt, stepped):
        """What is told behind each entry: these notes, then of each plan what was left out, and what its steps did."""
        for told in self.intents_told:
            for place, intent, looks, fault in told.unbuilt:
                notes[place] = notes[place] + unbuilt(place, intent, looks, fault)
            for ending, intent, looks in told.steps:
                place = self.done_at(ending)
                if place is not None:
                    notes[place] = notes[place] + stepped(place, intent, looks)
        return notes

    def done_at(self, ending):
        """The place of the entry at which something was done: of what was pooled that of the round."""
        if isinstance(ending, int):
            place, accepted = self.taken.get(ending, (None, False))
            return place if accepted else None
        return int(ending.removeprefix("done at "))

    def endings(self):
        return [f"plan {ledger.compact(plan['name'])} {self.intent_text(intent)}: {self.ending(told.ended(place))}"
                for plan, told in zip(self.scenario["plans"], self.intents_told) for place, intent in enumerate(plan["intents"])]

    def ending(self, ending):
        """The ending of an intent: a ticket for what was pooled."""
        if isinstance(ending, str):
            return ending
        if ending not in self.taken:
            return f"in the pool, ticket {ending}"
        place, accepted = self.taken[ending]
        return f"done at {place}" if accepted else f"refused in round at {place}, ticket {ending}"

    def thread_text(self, place):
        return ledger.compact(self.scenario["threads"][place]["name"])

    def intent_text(self, intent):
        if "round" in intent:
            return f"round {intent['round']}"
        if "advance" in intent:
            return f"advance {intent['advance']}"
        if "claim" in intent:
            return f"claim {ledger.compact(self.scenario['contracts'][intent['claim']]['name'])} {ledger.compact(intent['role'])}"
        return " ".join(["steps" if "steps" in intent else "step"] + [self.thread_text(step["step"]) for step in steps_of(intent)])

    def intent_members(self, intent):
        if "round" in intent:
            return {"round": intent["round"]}
        if "advance" in intent:
            return {"advance": intent["advance"]}
        if "claim" in intent:
            return {"claim": self.scenario["contracts"][intent["claim"]]["name"], "role": intent["role"]}
        names = [self.scenario["threads"][step["step"]]["name"] for step in steps_of(intent)]
        return {"steps": names} if "steps" in intent else {"step": names[0]}

    def unbuilt_lines(self, place, intent, looks, fault):
        """What hindered an intent, in words."""
        if "claim" in intent and fault == "NoThread":
            return [f"{self.intent_text(intent)}: nothing to claim"]
        return [f"{self.intent_text(intent)}: not built: {fault}: {build_words(intent, looks, fault)}"]

    def unbuilt_objects(self, place, intent, looks, fault):
        if "claim" in intent and fault == "NoThread":
            why = {"why": "nothing to claim"}
        else:
            why = {"fault": fault, "why": build_words(intent, looks, fault)}
        return [{"left_out": self.intent_members(intent), "entry": place, **why}]

    def step_lines(self, place, intent, looks):
        """What the steps of an intent did, by its looks."""
        return [f"step {self.thread_text(step['step'])}: {line}" for look, step in self.stepped(intent, looks)
                for line in step_lines(look, interval_of(intent), step["inputs"])]

    def step_objects(self, place, intent, looks):
        return [{"step": self.scenario["threads"][step["step"]]["name"], "entry": place, **step_members(look, interval_of(intent), step["inputs"])}
                for look, step in self.stepped(intent, looks)]

    def stepped(self, intent, looks):
        return [] if "claim" in intent else zip(looks, steps_of(intent))

    def steps(self, start):
        steps, end = self.chain.spine(start)
        return f"steps {steps} {'open' if end else 'closed'}"

    def holdings(self):
        return [f"{self.told(holder)} {token_text(of)} {number}" for holder, of, number in self.held()]

    def held(self):
        """Who holds what at the end: of a contract the first thread that a look shows there."""
        ends = [self.chain.spine(start)[1] for start in self.starts]
        held = collections.Counter()
        for reference, output in self.chain.unspent.items():
            for of, number in output.amount.items():
                held[self.holder(ends, reference, output.lock), of] += number
        return [(holder, of, number) for (holder, of), number in sorted(held.items()) if number > 0]

    def holder(self, ends, reference, lock):
        if lock[0] == "key":
            return 0, lock[1].encode(), b""
        if lock[0] == "payout":
            return 1, lock[1], lock[2].encode()
        return 2, ends.index(reference), b""

    def told(self, holder):
        kind, first, second = holder
        if kind == 0:
            return f"holds {text_json(first)}"
        if kind == 1:
            return f'unclaimed "{first.hex()}" {text_json(second)}'
        return f"in thread {ledger.compact(self.scenario['threads'][first]['name'])}"

    def holder_members(self, holder):
        kind, first, second = holder
        if kind == 0:
            return {"holds": first.decode()}
        if kind == 1:
            return {"unclaimed": first.hex(), "role": second.decode()}
        return {"in_thread": self.scenario["threads"][first]["name"]}

    # The calls of a seat, one after the other; each is sent its reply.

    def setup(self):
        """The calls of seat 0."""
        for contract in self.scenario["contracts"]:
            yield "publish", contract["contract"], bytes.fromhex(contract["currency"])
        for thread in self.scenario["threads"]:
            reply = yield "look", ledger.Ask(None, [thread["by"]], [])
            tick = self.scenario["tick"]
            try:
                transaction = ledger.built_start(self.published(thread["contract"]), thread, {"from": tick, "to": tick}, [thread["by"]],
                                                 reply.look.keys, thread["by"])
            except ledger.Hindered as fault:
                raise Refused(f"refused thread {thread['name']} {fault}") from None
            yield "submit", transaction
            self.starts.append((len(self.chain.accepted) - 1, 0))

    def published(self, place):
        contract = self.scenario["contracts"][place]
        return self.chain.published[ledger.script_id(contract["contract"], bytes.fromhex(contract["currency"]))]

    def plan(self, plan, told):
        """The calls of a plan's seat, up to where it stops."""
        return stopped(self.intents(plan, told), plan["stop_after"])

    def intents(self, plan, told):
        for place, intent in enumerate(plan["intents"]):
            told.endings[place] = yield from self.intent(plan, intent, told)

    def intent(self, plan, intent, told=None):
        """Makes the calls of an intent: how it ended. Where nobody is told, what hindered it is dropped."""
        told = told or Told(plan)
        if "round" in intent:
            yield "round", intent["round"]
            return self.at("done")
        if "advance" in intent:
            reply = yield "advance", intent["advance"]
            return self.at(reply.text.removeprefix("advance ").replace("advanced", "done"))
        return (yield from self.tried(plan, intent, told))

    def at(self, word):
        """What happened at the last entry."""
        return f"{word} at {len(self.lines) - 1}"

    def tried(self, plan, intent, told):
        """Looks at all that is asked for, builds and submits, again where an output was spent meanwhile; or enqueues, once. How it ended."""
        pool = intent.get("pool", False)
        for _ in range(1 + AGAIN):
            looks, last = [], None
            for ask in self.asks(plan, intent):
                reply = yield "look", ask
                looks.append(reply.look)
                last = len(self.lines) - 1
            try:
                transaction = built(plan, intent, looks)
            except ledger.Hindered as fault:
                if looks:
                    told.unbuilt.append((last, intent, looks, str(fault)))
                return "nothing to claim" if "claim" in intent and str(fault) == "NoThread" else "not built"
            reply = yield "enqueue" if pool else "submit", transaction
            if reply.text == "enqueue full":
                return self.at("pool full")
            if pool or not reply.fault:
                ending = int(reply.text.removeprefix("enqueue ticket ")) if pool else self.at("done")
                told.steps.append((ending, intent, looks))
                return ending
            if not reply.fault.startswith("NotUnspent"):
                return self.at("refused")
        return self.at("given up")

    def asks(self, plan, intent):
        """What an intent asks to be shown: several steps ask for each of their threads."""
        if "claim" in intent:
            currency = bytes.fromhex(self.scenario["contracts"][intent["claim"]]["currency"])
            return [ledger.Ask(None, plan["keys"], [(currency, intent["role"])])]
        return [ledger.Ask(self.starts[step["step"]], plan["keys"], []) for step in steps_of(intent)]


class Told:
    """What is told of a plan: how its intents ended, what hindered some of them, behind which entry, and what its steps did."""

    def __init__(self, plan):
        self.plan, self.endings, self.unbuilt, self.steps = plan, {}, [], []

    def ended(self, place):
        """A plan that stopped builds no more; only of steps of no thread the builder is asked."""
        return self.endings.get(place, "not built" if self.plan["intents"][place].get("steps") == [] else "stopped")


def ending_members(ending):
    """How an intent ended, as members of an object."""
    found = re.fullmatch("(.+?)(?: at ([0-9]+))?(?:, ticket ([0-9]+))?", ending)
    numbers = {"entry": found[2], "ticket": found[3]}
    return {"ended": found[1], **{key: int(number) for key, number in numbers.items() if number}}


def refusal_members(fault):
    return {"reply": "refused", "fault": fault, "why": rule_words(fault)}


def ticket_object(ticket, verdict):
    return {"ticket": int(ticket), **({"reply": "accepted"} if verdict == "accepted" else refusal_members(verdict.removeprefix("refused ")))}


def reply_members(reply):
    """A call and its reply, as members of an object."""
    call, _, told = reply.partition(" ")
    if call == "look":
        return {"call": call, "reply": "shown", "tick": int(told.removeprefix("tick "))}
    if call == "round":
        return {"call": call, "reply": "taken", "tickets": [ticket_object(ticket, verdict) for ticket, verdict in tickets(reply)]}
    if told.startswith("ticket "):
        return {"call": call, "reply": "pooled", "ticket": int(told.removeprefix("ticket "))}
    if call == "submit" and told != "accepted":
        return {"call": call, **refusal_members(told.removeprefix("refused "))}
    if told.startswith("refused "):
        return {"call": call, "reply": "refused", "fault": told.removeprefix("refused ")}
    return {"call": call, "reply": told, **({"why": refusals(reply)[0]} if told in ("full", "backward") else {})}


RULES = {
    "NotUnspent": "rule 4: what input {} spends was spent before, or never was",
    "OutsideInterval": "rule 6: the ledger's tick isn't in the interval",
}
BUILDS = {
    "NoThread": "there is no thread to step, or no payout to claim",
    "Semantics": "the contract refuses its inputs: {}",
    "NotSigned": "an output is offered whose address isn't among the signers",
    "NotAuthorised": "no offered output holds the token of {}",
    "TooMany": "there are too many contracts, inputs or outputs for one transaction, or they hold too much",
    "Repeated": "an output is offered twice, or a thread is stepped twice",
}


def build_words(intent, looks, fault):
    name, _, of = fault.partition(" ")
    if name == "NoFunds":
        return f"the offered outputs lack {lacking(intent, looks, ledger.token(json.loads(of)))} {token_text(ledger.token(json.loads(of)))}"
    if name == "NotAuthorised" and "address" in json.loads(of):
        return f"{of} isn't among the signers"
    return BUILDS[name].format(of)


def lacking(intent, looks, of):
    """What an intent deposits of a token, less what it is offered."""
    wanted = ledger.added(*(ledger.deposits(step["inputs"]) for step in steps_of(intent)))
    return wanted.get(of, 0) - ledger.added(*(output.amount for _, output in looks[0].keys)).get(of, 0)


def rule_words(fault):
    name, _, of = fault.partition(" ")
    return RULES[name].format(of)


def tickets(reply):
    """The tickets that a round took, each with its verdict."""
    return re.findall("([0-9]+) (accepted|refused [A-Za-z]+(?: [0-9]+)?)", reply.removeprefix("round ")) if reply.startswith("round ") else []


def refusals(reply):
    """What is told of a reply: of each refusal the rule, in words."""
    if reply == "advance backward":
        return ["the tick is later already"]
    if reply == "enqueue full":
        return ["the pool has 1024 transactions, and takes no more"]
    if reply.startswith("submit refused "):
        return [rule_words(reply.removeprefix("submit refused "))]
    return [f"ticket {ticket}: {rule_words(verdict.removeprefix('refused '))}" for ticket, verdict in tickets(reply) if verdict != "accepted"]


def interval_of(intent):
    return {"from": intent["from"], "to": intent["to"]}


def sorted_json(form):
    """A form whose objects have their keys in the order of their bytes."""
    return json.loads(ledger.compact(form))


def step_members(look, interval, inputs):
    """What a step did, as members of an object."""
    run, left = ledger.run_of(look.thread, interval, inputs)
    outcome = sorted_json(interpreter.outcome_of(run, left))
    told = {"payments": outcome["payments"], "warnings": outcome["warnings"], "waits_for": [], "waits_until": None}
    if left != "close":
        state = interpreter.state_json(run, int)
        at = max(look.tick, state["minTime"])
        machine = interpreter.Transaction(state, {"from": at, "to": at})
        told["waits_for"] = [waited_object(machine, case["case"]) for case in left["when"]]
        told["waits_until"] = left["timeout"] - 1
    return told


def or_null(number, value):
    """A number or a truth, or None where a number leaves 128 bits."""
    try:
        return number(value)
    except interpreter.Refused:
        return None


def waited_object(machine, action):
    if "deposits" in action:
        number = or_null(machine.value, action["deposits"])
        return {"deposit": None if number is None else interpreter.wide(number), "token": sorted_json(action["of_token"]),
                "by": sorted_json(action["party"]), "into": sorted_json(action["into_account"])}
    if "for_choice" in action:
        choice = action["for_choice"]
        return {"choose": choice["choice_name"], "of": sorted_json(choice["choice_owner"]),
                "bounds": [{"from": interpreter.wide(each["from"]), "to": interpreter.wide(each["to"])} for each in action["choose_between"]]}
    return {"notify": or_null(machine.holds, action["notify_if"])}


def step_lines(look, interval, inputs):
    """What a step did: its payments, its warnings, and what its contract waits for then."""
    run, left = ledger.run_of(look.thread, interval, inputs)
    told = [f"pays {number} {token_text((of[0], of[1].encode()))} from {ledger.compact(interpreter.party_json(source))}"
            f" to {ledger.compact(interpreter.payee_json(target))}" for source, target, of, number in run.payments]
    told += [f"warns {warning['warning']}" for warning in run.warnings]
    if left == "close":
        return told + ["closed"]
    state = interpreter.state_json(run, int)
    at = max(look.tick, state["minTime"])
    for case in left["when"]:
        told += waited(interpreter.Transaction(state, {"from": at, "to": at}), case["case"])
    return told + [f"waits until {left['timeout'] - 1}"]


def waited(machine, action):
    """What a case waits for, as a list of one line or none."""
    try:
        if "deposits" in action:
            who = f"by {ledger.compact(action['party'])} into {ledger.compact(action['into_account'])}"
            return [f"waits for deposit {machine.value(action['deposits'])} {token_text(ledger.token(action['of_token']))} {who}"]
        if "for_choice" in action:
            choice = action["for_choice"]
            bounds = ", ".join(str(each["from"]) if each["from"] == each["to"] else f"{each['from']} to {each['to']}" for each in action["choose_between"])
            return [f"waits for choose {ledger.compact(choice['choice_name'])} of {ledger.compact(choice['choice_owner'])}: {bounds}"]
        return ["waits for notify"] if machine.holds(action["notify_if"]) else []
    except interpreter.Refused as fault:
        return [f"waits for deposit {who}: {fault}" if "deposits" in action else f"waits for notify: {fault}"]


def text_json(text):
    return ledger.compact(text.decode())


def token_text(of):
    return "ADA" if of == (b"", b"") else ledger.compact(ledger.token_json(of))


def steps_of(intent):
    return intent["steps"] if "steps" in intent else [intent]


def built(plan, intent, looks):
    """The transaction of a step, of several at once or of a claim: the key outputs of the first look are offered."""
    interval = {"from": intent["from"], "to": intent["to"]}
    offered = looks[0].keys if looks else []
    if "claim" in intent:
        return ledger.built_claim(looks[0].payouts, interval, plan["keys"], offered, plan["change"], plan["change"])
    parts = [(look, step["inputs"]) for look, step in zip(looks, steps_of(intent))]
    return ledger.built_steps(parts, interval, plan["keys"], offered, plan["change"])


def stopped(calls, limit):
    """The first calls, so many as the limit says, or all where there is none. After the last of them the party still builds on what it was shown."""
    reply, answered = None, 0
    while True:
        try:
            call = calls.send(reply)
        except StopIteration:
            return
        if answered == limit:
            return
        reply = yield call
        answered += 1


def next_call(calls, reply):
    """The call that a seat makes after this reply, or None."""
    try:
        return calls.send(reply)
    except StopIteration:
        return None


def in_turn(text):
    """A play whose plans take turns, each whole, on one thread."""
    play = Play(text)
    run_whole(play, 0, play.setup())
    for place, plan in enumerate(play.scenario["plans"]):
        run_whole(play, place + 1, play.plan(plan, play.intents_told[place]))
    return play


def played(text, explain=False):
    """The lines of such a play; explained, with what stands behind them and at the end; or as objects, an object a line."""
    return told_by(in_turn(text), explain)


def run_whole(play, seat, calls):
    call = next_call(calls, None)
    while call:
        call = next_call(calls, play.answer(seat, call))


ENTRY = re.compile(r"[0-9]+ ([0-9]+)\.[0-9]+ ")


class Seats:
    """The seats of a play and the call that each makes next. The plans begin once the setup has ended."""

    def __init__(self, play):
        self.play, self.calls, self.next = play, [], []
        self.add(play.setup())
        self.begin_plans()

    def add(self, calls):
        self.calls.append(calls)
        self.next.append(next_call(calls, None))

    def begin_plans(self):
        if len(self.calls) == 1 and self.next[0] is None:
            for plan, told in zip(self.play.scenario["plans"], self.play.intents_told):
                self.add(self.play.plan(plan, told))

    def answer(self, seat):
        """Makes a seat's next call. Whether it has one."""
        if seat >= len(self.next) or self.next[seat] is None:
            return False
        reply = self.play.answer(seat, self.next[seat])
        self.next[seat] = next_call(self.calls[seat], reply)
        self.begin_plans()
        return True

    def waiting(self):
        """The seats that have a call left."""
        return [seat for seat, call in enumerate(self.next) if call]


def seats_of(lines, face):
    """The seats of the entries of a printed play, in order, each with the line of its entry where that is one of lines."""
    for line in lines:
        if face == "json":
            told = json.loads(line)
            if "entries" in told:
                return
            if "seat" in told:
                yield told["seat"], None
        elif found := ENTRY.match(line):
            yield int(found[1]), line
        elif not line.startswith("    "):
            return


def told_by(play, face):
    """All that is told of a play: explained, as objects, or in lines alone."""
    return play.objects() if face == "json" else play.explained() if face else play.whole()


def replayed(text, lines, face=False):
    """Makes the calls of a printed play in its order, and gives the number of its entries."""
    play = Play(text)
    seats = Seats(play)
    for seat, line in seats_of(lines, face):
        if not seats.answer(seat):
            raise Differs(f"{line}\nhere that seat makes no call then")
        if line and play.lines[-1] != line:
            raise Differs(f"{line}\nhere {play.lines[-1]}")
    if seats.waiting():
        raise Differs(f"the entries end\nhere seat {seats.waiting()[0]} makes a call then")
    rest = told_by(play, face)
    for place in range(max(len(rest), len(lines))):
        theirs, ours = (part[place] if place < len(part) else "(nothing)" for part in (lines, rest))
        if theirs != ours:
            raise Differs(f"{theirs}\nhere {ours}")
    return len(play.lines)


def lines_of(text):
    return text.decode().removesuffix("\n").split("\n")


def wanted(text, explain=False):
    """What the program writes on standard output and on standard error, and its status."""
    try:
        return "".join(line + "\n" for line in played(text, explain)), "", 0
    except Refused as line:
        return "", f"{line}\n", 1


def differs(seed, number, text, want, got):
    path = os.path.join(tempfile.gettempdir(), f"scenario.{seed}.{number}.json")
    with open(path, "wb") as file:
        file.write(text)
    sys.exit(f"differs {seed} {number} {path}\nwant {want}\ngot  {got}")


def run(program, *words):
    done = subprocess.run([program, "play", *words], capture_output=True)
    return done.stdout.decode(), done.stderr.decode(), done.returncode


FACES = {False: [], True: ["--explain"], "json": ["--json"]}


def in_lines(face, streams, want):
    """A refusal of a play by its line alone: lines that explain it are left out, so are notes on keys, and members are read. A refused setup that has no
    members but its name counts as what is wanted where the statuses agree."""
    printed, told, status = streams
    if face == "json" and printed.startswith('{"refused":'):
        refused = json.loads(printed)["refused"]
        if refused["of"] == "scenario":
            return "", f"refused scenario {refused['name']}\n", 1 if status == 4 else status
        if "fault" not in refused:
            return want if (refused["of"], status) == ("setup", want[2]) else streams
        kind = next((kind for kind in ("contract", "thread") if kind in refused), "genesis")
        return "", f"refused {' '.join(word for word in (kind, refused.get(kind), refused['fault']) if word is not None)}\n", status
    return printed, "".join([line for line in told.splitlines(True) if not line.startswith("note: ")][:1]), status


def compare(count, seed, program):
    told = collections.Counter()
    with tempfile.TemporaryDirectory() as folder:
        path = os.path.join(folder, "scenario.json")
        for number in range(count):
            text = random_scenarios.text(f"{seed}.{number}", Play)
            with open(path, "wb") as file:
                file.write(text)
            for face, flags in FACES.items():
                want = wanted(text, face)
                for ways in ["--one"], []:
                    got = in_lines(face, run(program, path, *ways, *flags), want)
                    if (ways or want[2]) and want != got:
                        differs(seed, number, text, want, got)
                    if not ways and not want[2]:
                        compare_many(seed, number, text, got, face)
                if not face:
                    told.update(kind(line) for line in (want[0] + want[1]).splitlines())
            told["strict: " + compare_strict(seed, number, text, run(program, path, "--one", "--strict"))] += 1
    print(count, "scenarios agree")
    for word in sorted(told):
        print(f"  {told[word]:6} {word}")


def compare_many(seed, number, text, many, face):
    try:
        replayed(text, lines_of(many[0].encode()), face)
    except Differs as line:
        differs(seed, number, text, line, many)


def compare_strict(seed, number, text, got):
    """Whether a play went well, which a status of 3 denies: in a word."""
    try:
        want, word = (0, "well") if in_turn(text).is_well() else (3, "not well")
    except Refused:
        want, word = 1, "refused"
    if got[2] != want:
        differs(seed, number, text, want, got)
    return word


def race_of(seed):
    """Ten plans of a hundred steps each, for twenty threads that take forty steps each."""
    chance = random.Random(seed)
    ada = {"currency_symbol": "", "token_name": ""}
    left = "close"
    for _ in range(40):
        left = {"when": [{"case": {"notify_if": True}, "then": left}], "timeout": 100, "timeout_continuation": "close"}
    threads = [{"name": f"t{place}", "contract": "steps", "by": "bank", "accounts": [[[{"role_token": "a"}, ada], 1]], "minTime": 0} for place in range(20)]
    plans = []
    for place in range(10):
        steps = [{"step": f"t{chance.randrange(20)}", "inputs": ["input_notify"], "from": 0, "to": 10} for _ in range(100)]
        plans.append({"name": f"p{place}", "keys": [f"p{place}"], "change": f"p{place}", "intents": steps})
    scenario = {
        "tick": 0,
        "genesis": [{"address": "bank", "amount": [[ada, 100]]}],
        "contracts": [{"name": "steps", "currency": "aa", "contract": left}],
        "threads": threads,
        "plans": plans,
    }
    return json.dumps(scenario, separators=(",", ":")).encode()


def turns(lines):
    """How often the next entry is of another plan, from the first entry of a plan on."""
    seats = [found[1] for found in map(ENTRY.match, lines) if found and found[1] != "0"]
    return sum(one != other for one, other in zip(seats, seats[1:]))


def race(count, seed, program):
    mixed = False
    with tempfile.TemporaryDirectory() as folder:
        path = os.path.join(folder, "scenario.json")
        for number in range(count):
            text = race_of(f"{seed}.{number}")
            with open(path, "wb") as file:
                file.write(text)
            output, refusal, status = run(program, path)
            if status:
                raise Differs(f"{refusal}\nhere the race is played")
            lines = lines_of(output.encode())
            # in turn there are as many as plans but one
            mixed |= turns(lines) >= 10
            print(f"{replayed(text, lines)} entries, {turns(lines)} turns,", output.count("NotUnspent"), "entries refused since another was faster: replayed")
    if not mixed:
        raise Differs("in turn")


def kind(line):
    """A line without its numbers and names."""
    line = ENTRY.sub("", line)
    words = line.split(" ")
    if words[0] in ("thread", "entries", "look"):
        return words[0] + (" " + words[-1] if words[0] == "thread" and "steps" in words else "")
    if words[0] == "round":
        return "round " + ("none" if words[1:] == ["none"] else "with " + ", ".join(sorted(set(re.findall("accepted|refused [A-Za-z]+", line)))))
    if words[:2] == ["refused", "thread"]:
        return "refused thread " + re.search("NoFunds|TooMany|NotSigned", line)[0]
    return " ".join(words[:3]) if words[1] != "ticket" else "enqueue ticket"


def main(words):
    if words[:1] == ["--compare"]:
        return compare(int(words[1]), words[2], words[3])
    if words[:1] == ["--race"]:
        return race(int(words[1]), words[2], words[3])
    if words[:1] == ["--replay"]:
        with open(words[1], "rb") as scenario, open(words[2], "rb") as printed:
            print("replayed", replayed(scenario.read(), lines_of(printed.read())), "entries")
        return None
    face = {"--explain": True, "--json": "json"}.get(words[0], False)
    if words[0] == "--strict":
        with open(words[1], "rb") as file:
            print("well" if in_turn(file.read()).is_well(words[2:]) else "not well")
        return None
    with open(words[bool(face)], "rb") as file:
        output, refusal, status = wanted(file.read(), face)
    sys.stdout.write(output)
    sys.stderr.write(refusal)
    sys.exit(status)


if __name__ == "__main__":
    try:
        main(sys.argv[1:])
    except (Refused, Differs) as line:
        sys.exit(str(line))
