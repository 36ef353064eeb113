"""Intervals beside the minimum time and timeouts."""
from words import (A, B, END, GREATEST_TIME, NOTIFY, START, account, let, notify, ok, pay, refund, refused, run, state, to, transaction, use, when,
    paid)

LEAST_TIME = -2**63
HELD = [account(A, 1)]
PAID = [refund(A, 1)]
INVALID, PAST, AMBIGUOUS, USELESS = (refused(name) for name in ("InvalidInterval", "IntervalInPast", "Ambiguous", "Useless"))

# interval, minimum time, what a close with one account answers: a fault, or the time that it leaves
CLOSED = [
    ((20, 10), 0, "InvalidInterval"), ((1, 0), 0, "InvalidInterval"), ((0, -1), 0, "InvalidInterval"), ((20, 10), 6, "InvalidInterval"),
    ((20, 10), 30, "InvalidInterval"), ((20, 10), 15, "InvalidInterval"), ((GREATEST_TIME, LEAST_TIME), 0, "InvalidInterval"),
    ((0, LEAST_TIME), 0, "InvalidInterval"), ((GREATEST_TIME, 0), 0, "InvalidInterval"), ((-1, -2), -5, "InvalidInterval"),
    ((0, 5), 6, "IntervalInPast"), ((5, 5), 6, "IntervalInPast"), ((-3, -1), 0, "IntervalInPast"), ((0, 0), 1, "IntervalInPast"),
    ((LEAST_TIME, LEAST_TIME), 0, "IntervalInPast"), ((0, 10), GREATEST_TIME, "IntervalInPast"), ((-9, -5), -4, "IntervalInPast"),
    ((0, GREATEST_TIME - 1), GREATEST_TIME, "IntervalInPast"), ((LEAST_TIME, -1), 0, "IntervalInPast"), ((0, 10), 11, "IntervalInPast"),
    ((0, 6), 6, 6), ((0, 10), 6, 6), ((5, 10), 6, 6), ((0, 10), 10, 10), ((-5, 5), 0, 0), ((-5, 5), -4, -4), ((LEAST_TIME, 5), 5, 5),
    ((LEAST_TIME, GREATEST_TIME), GREATEST_TIME, GREATEST_TIME), ((0, GREATEST_TIME), GREATEST_TIME, GREATEST_TIME), ((1, 2), 2, 2),
    ((6, 10), 6, 6), ((7, 10), 6, 7), ((0, 0), 0, 0), ((10, 10), 0, 10), ((-5, -5), -5, -5), ((-5, 0), -9, -5),
    ((LEAST_TIME, LEAST_TIME), LEAST_TIME, LEAST_TIME), ((LEAST_TIME, 0), LEAST_TIME, LEAST_TIME), ((GREATEST_TIME, GREATEST_TIME), 0, GREATEST_TIME),
    ((GREATEST_TIME, GREATEST_TIME), LEAST_TIME, GREATEST_TIME), ((3, GREATEST_TIME), 2, 3), ((3, 3), 2, 3),
]


def closed(within, time, told):
    if isinstance(told, str):
        return told, refused(told)
    return ("start moved up" if within[0] < time else "start kept"), ok(payments=PAID, time=told)


CASES = []
for row, (within, time, told) in enumerate(CLOSED, 1):
    rule, answer = closed(within, time, told)
    CASES.append(run("intervals", f"an interval beside the minimum time ({row})", rule, "close", answer, state(HELD, time=time),
        transaction(within=within)))

# interval, minimum time, timeout, what a When without cases answers: a fault, or "out" where it is timed out
TIMEOUTS = [
    ((50, 99), 0, 100, "Useless"), ((50, 100), 0, 100, "Ambiguous"), ((99, 100), 0, 100, "Ambiguous"), ((99, 101), 0, 100, "Ambiguous"),
    ((100, 100), 0, 100, "out"), ((100, 200), 0, 100, "out"), ((101, 200), 0, 100, "out"), ((99, 99), 0, 100, "Useless"), ((0, 0), 0, 1, "Useless"),
    ((0, 1), 0, 1, "Ambiguous"), ((1, 1), 0, 1, "out"), ((0, 0), 0, 0, "out"), ((-1, 0), -1, 0, "Ambiguous"), ((-1, -1), -1, 0, "Useless"),
    ((-5, -4), -9, -4, "Ambiguous"), ((-5, -5), -9, -4, "Useless"), ((-4, -4), -9, -4, "out"), ((-3, 3), -9, -4, "out"),
    ((0, GREATEST_TIME), 0, GREATEST_TIME, "Ambiguous"), ((0, GREATEST_TIME - 1), 0, GREATEST_TIME, "Useless"),
    ((GREATEST_TIME, GREATEST_TIME), 0, GREATEST_TIME, "out"), ((LEAST_TIME, LEAST_TIME), LEAST_TIME, LEAST_TIME, "out"),
    ((0, 5), 0, LEAST_TIME, "out"), ((LEAST_TIME, GREATEST_TIME), LEAST_TIME, 0, "Ambiguous"),
    # the start that counts is the one that was moved up
    ((50, 150), 100, 100, "out"), ((50, 150), 99, 100, "Ambiguous"), ((50, 150), 120, 100, "out"), ((0, 100), 100, 100, "out"),
    ((0, 99), 99, 100, "Useless"), ((0, 100), 99, 100, "Ambiguous"), ((0, 200), 150, 200, "Ambiguous"), ((0, 200), 200, 200, "out"),
    # faults of the interval come before
    ((100, 50), 0, 75, "InvalidInterval"), ((0, 10), 20, 5, "IntervalInPast"), ((200, 100), 150, 100, "InvalidInterval"),
]
RULE_OF = {"Useless": "when waits", "Ambiguous": "Ambiguous", "out": "timed out", "InvalidInterval": "InvalidInterval",
    "IntervalInPast": "IntervalInPast"}
for row, (within, time, timeout, told) in enumerate(TIMEOUTS, 1):
    answer = ok(payments=PAID, time=max(within[0], time)) if told == "out" else refused(told)
    CASES.append(run("intervals", f"a timeout beside the interval ({row})", RULE_OF[told], when([], timeout), answer, state(HELD, time=time),
                     transaction(within=within)))

WAITS = when([], 100)
CHAIN = when([], 10, when([], 20, when([], 30)))
MORE = [
    ("two timeouts are over", "timed out", when([], 5, when([], 8)), (8, 9), ok(payments=PAID, time=8)),
    ("the first of two timeouts is over", "timed out", when([], 5, WAITS), (8, 9), ok(WAITS, accounts=HELD, time=8)),
    ("the second of two timeouts is ambiguous", "Ambiguous", when([], 5, when([], 9)), (8, 9), AMBIGUOUS),
    ("of three timeouts none is over", "when waits", CHAIN, (0, 9), USELESS),
    ("of three timeouts one is over", "timed out", CHAIN, (10, 19), ok(when([], 20, when([], 30)), accounts=HELD, time=10)),
    ("of three timeouts two are over", "timed out", CHAIN, (20, 29), ok(when([], 30), accounts=HELD, time=20)),
    ("of three timeouts all are over", "timed out", CHAIN, (30, 30), ok(payments=PAID, time=30)),
    ("the last of three timeouts is ambiguous", "Ambiguous", CHAIN, (20, 30), AMBIGUOUS),
    ("a timeout that lies before the one around it", "timed out", when([], 20, when([], 10)), (20, 20), ok(payments=PAID, time=20)),
    ("an ambiguous When behind a Let", "Ambiguous", let("x", 1, when([], 5)), (0, 9), AMBIGUOUS),
    ("an ambiguous When behind a Pay", "Ambiguous", pay(1, A, to(B), when([], 5)), (0, 9), AMBIGUOUS),
    ("the start as a Let binds it at a timeout", "timed out", when([], 7, let("x", START)), (7, 9), ok(payments=PAID, bound=[("x", 7)], time=7)),
    ("the end as a Let binds it at a timeout", "timed out", when([], 7, let("x", END)), (7, 9), ok(payments=PAID, bound=[("x", 9)], time=7)),
    ("a Pay by a timeout", "timed out", when([], 7, pay(1, A, to(B))), (7, 7), ok(payments=[paid(A, to(B), 1)], time=7)),
]
CASES += [run("intervals", name, rule, contract, answer, state(HELD), transaction(within=within)) for name, rule, contract, within, answer in MORE]

# with inputs
ONE = when([(notify(), "close")], 100)
NEXT = when([(notify(), when([(notify(), "close")], 5))], 100)
INPUTS = [
    ("an input just before the timeout", "when waits", ONE, (0, 99), ok(payments=PAID)),
    ("an input at the timeout is too late", "Ambiguous", ONE, (0, 100), AMBIGUOUS),
    ("an input after the timeout finds the contract closed", "timed out", ONE, (100, 110), refused("NoMatch")),
    ("what follows an input is ambiguous", "Ambiguous", NEXT, (0, 9), AMBIGUOUS),
    ("what follows an input is timed out", "timed out", when([(notify(), when([], 5))], 100), (5, 9), ok(payments=PAID, time=5)),
    ("what follows an input waits", "when waits", when([(notify(), WAITS)], 90), (0, 9), ok(WAITS, accounts=HELD)),
    ("an input to what a timeout leads to", "timed out", when([], 5, ONE), (5, 9), ok(payments=PAID, time=5)),
    ("an input makes no transaction of an interval that is past", "InvalidInterval", ONE, (9, 8), INVALID),
]
CASES += [run("intervals", name, rule, contract, answer, state(HELD), transaction(NOTIFY, within=within)) for name, rule, contract, within,
    answer in INPUTS]

# the minimum time that is left, of a contract that binds the start
KEPT = [((3, 9), 0, 3), ((3, 9), 3, 3), ((3, 9), 4, 4), ((3, 9), 9, 9), ((-3, 9), -5, -3), ((-3, 9), -1, -1), ((0, 9), -1, 0), ((9, 9), 8, 9),
    ((0, 1), 1, 1), ((0, 0), -9, 0)]
CASES += [run("intervals", f"the minimum time that is left ({row})", "time goes on", let("x", START, let("y", use("x"))),
              ok(bound=[("x", after), ("y", after)], time=after), state(time=time), transaction(within=within), choice="orders")
          for row, (within, time, after) in enumerate(KEPT, 1)]
