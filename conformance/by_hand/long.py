"""Long contracts and long transactions, whose answers can be told from how they are made."""
from words import (A, B, CLOSE, NOTIFY, X, account, add, both, choice, choose, chooses, deposit, deposits, either, ensure, let, line_case, made,
                   negate, no, notify, ok, paid, pay, refund, refused, role, run, state, to, transaction, use, when)

WAIT = when([], 100)


def is_long(name, rule, contract, answer, before=None, given=None, choice=None):
    return run("long", name, rule, contract, answer, before, given, choice)


def numbered(actions):
    return when([(action, let("taken", place)) for place, action in enumerate(actions, 1)])


def repeated(times, wrap, inner):
    for place in range(times):
        inner = wrap(place, inner)
    return inner


CASES = []

# one of many cases is taken
COUNT = 100
for place in (1, 50, 100, 0):
    notifies = numbered([notify(each == place) for each in range(1, COUNT + 1)])
    CASES.append(is_long(f"of a hundred notifies the one at place {place}" if place else "of a hundred notifies none", "long contract", notifies,
                         ok(bound=[("taken", place)]) if place else refused("NoMatch"), given=transaction(NOTIFY)))
DEPOSITS = numbered([deposit(amount, B, A) for amount in range(1, COUNT + 1)])
for amount in (1, 64, 100, 101):
    CASES.append(is_long(f"of a hundred deposits the one of {amount}", "long contract", DEPOSITS,
                         ok(payments=[refund(A, amount)], bound=[("taken", amount)]) if amount <= COUNT else refused("NoMatch"),
                             given=transaction(deposits(amount, B, A))))
CHOICES = numbered([choice(f"n{each:02}", A, (each, each + 1)) for each in range(COUNT)])
for each in (0, 37, 99):
    CASES.append(is_long(f"of a hundred choices the one called n{each:02}", "long contract", CHOICES,
        ok(choices=[made(f"n{each:02}", A, each + 1)], bound=[("taken", each + 1)]),
                         given=transaction(chooses(f"n{each:02}", A, each + 1))))
BOUNDS = when([(choice("n", A, *((2 * each, 2 * each) for each in range(COUNT))), CLOSE)])
for number in (0, 100, 198, 99, 200):
    CASES.append(is_long(f"a hundred bounds and the number {number}", "long contract", BOUNDS,
                         ok(choices=[made("n", A, number)]) if number % 2 == 0 and number < 200 else refused("NoMatch"),
                             given=transaction(chooses("n", A, number))))

# one reduction after another
NAMES = [f"n{each:02}" for each in range(60)]
CASES += [
    is_long("sixty Lets, each of one more", "long contract", repeated(60, lambda place,
        body: let(NAMES[59 - place], add(use(NAMES[58 - place]), 1) if place < 59 else 1, body), CLOSE),
            ok(bound=[(name, number) for number, name in enumerate(NAMES, 1)]), choice="orders"),
    is_long("a hundred assertions", "long contract", repeated(100, lambda _, body: ensure(True, body), CLOSE), ok()),
    is_long("a hundred branches to the left", "long contract", repeated(100, lambda _, body: choose(True, body, CLOSE), let("x", 1)),
        ok(bound=[("x", 1)])),
    is_long("a hundred branches to the right", "long contract", repeated(100, lambda _, body: choose(False, CLOSE, body), let("x", 1)),
        ok(bound=[("x", 1)])),
    is_long("forty payments of 1", "long contract", repeated(40, lambda _, body: pay(1, A, to(B), body), CLOSE),
        ok(payments=[paid(A, to(B), 1)] * 40 + [refund(A, 2)]), state([account(A, 42)])),
    is_long("a hundred timeouts that are over", "long contract", repeated(100, lambda place, body: when([], 100 - place, body), CLOSE),
        ok(payments=[refund(A, 1)], time=100), state([account(A, 1)]),
            transaction(within=(100, 110))),
    is_long("a hundred timeouts, of which the last is ambiguous", "long contract",
        repeated(100, lambda place, body: when([], 100 - place, body), CLOSE), refused("Ambiguous"), state([account(A, 1)]),
            transaction(within=(99, 110))),
    is_long("a hundred timeouts, of which 98 are over", "long contract", repeated(100, lambda place, body: when([], 100 - place, body), CLOSE),
        ok(when([], 99, when([], 100)), accounts=[account(A, 1)], time=98),
            state([account(A, 1)]), transaction(within=(98, 98))),
    is_long("forty refunds", "long contract", CLOSE, ok(payments=[refund(role(f"p{each:02}"), each + 1) for each in range(40)]),
            state([account(role(f"p{each:02}"), each + 1) for each in reversed(range(40))]), choice="orders"),
    is_long("a name of a thousand letters", "long contract", let("n" * 1000, 1, let("n" * 999, use("n" * 1000))),
        ok(bound=[("n" * 999, 1), ("n" * 1000, 1)]), choice="orders"),
    is_long("a party of a thousand letters", "long contract", pay(1, role("p" * 1000), to(X)), ok(payments=[paid(role("p" * 1000), to(X), 1)]),
        state([account(role("p" * 1000), 1)])),
]

# one value, one observation
VALUES = [
    ("a sum of a hundred ones", repeated(99, lambda _, body: add(body, 1), 1), 100),
        ("a sum of a hundred ones from the right", repeated(99, lambda _, body: add(1, body), 1), 100),
    ("a hundred signs", repeated(100, lambda _, body: negate(body), 7), 7), ("101 signs", repeated(101, lambda _, body: negate(body), 7), -7),
    ("a hundred branches of values", repeated(100, lambda place, body: choose(False, place, body), 7), 7),
    ("2^60 by doubling", repeated(60, lambda _, body: {"multiply": 2, "times": body}, 1), 2**60),
        ("2^60 halved sixty times", repeated(60, lambda _, body: {"divide": body, "by": 2}, 2**60), 1),
]
CASES += [is_long(name, "long contract", let("x", value), ok(bound=[("x", number)])) for name, value, number in VALUES]
OBSERVATIONS = [
    ("a hundred sides of And", repeated(99, lambda _, body: both(True, body), True), 1),
        ("a hundred sides of And, the last false", repeated(99, lambda _, body: both(True, body), False), 0),
    ("a hundred sides of Or", repeated(99, lambda _, body: either(False, body), False), 0),
        ("a hundred sides of Or, the last true", repeated(99, lambda _, body: either(False, body), True), 1),
    ("a hundred times not", repeated(100, lambda _, body: no(body), True), 1), ("101 times not", repeated(101, lambda _, body: no(body), True), 0),
]
CASES += [is_long(name, "long contract", choose(observation, let("x", 1), let("x", 0)), ok(bound=[("x", truth)])) for name, observation,
    truth in OBSERVATIONS]

# many inputs
for count in (5, 10, 20, 30, 40):
    nested = repeated(count, lambda _, body: when([(notify(), body)]), WAIT)
    CASES.append(is_long(f"{count} notifies", "long transaction", nested, ok(WAIT), given=transaction(*[NOTIFY] * count)))
    CASES.append(is_long(f"one notify more than {count}", "long transaction", nested, refused("NoMatch"), given=transaction(*[NOTIFY] * (count + 1))))
PILE = repeated(20, lambda place, body: when([(deposit(20 - place, B, A), body)]), CLOSE)
CASES += [
    is_long("twenty deposits", "long transaction", PILE, ok(payments=[refund(A, 210)]),
        given=transaction(*(deposits(amount, B, A) for amount in range(1, 21)))),
    is_long("twenty deposits, two of them exchanged", "long transaction", PILE, refused("NoMatch"),
        given=transaction(*(deposits(amount, B, A) for amount in [*range(1, 19), 20, 19]))),
    is_long("twenty times one choice", "long transaction", repeated(20, lambda _, body: when([(choice("n", A, (0, 99)), body)]), CLOSE),
        ok(choices=[made("n", A, 20)]),
            given=transaction(*(chooses("n", A, number) for number in range(1, 21)))),
    is_long("a thousand notifies to a contract that takes one", "long transaction", when([(notify(), CLOSE)]), refused("NoMatch"),
        given=transaction(*[NOTIFY] * 1000)),
]

# so many cases that the line is written by its pieces
FALSE = '{"case":{"notify_if":false},"then":"close"},'
MANY = 5_000
BEGIN, AFTER = '{"id":0,"run":{"contract":{"when":[', '],"timeout":100,"timeout_continuation":"close"},"state":{"accounts":[],"choices":[],"boundValues":[],"minTime":0},"transaction":'
ONE = '{"tx_interval":{"from":0,"to":10},"tx_inputs":["input_notify"]}}}'
for name, last, answer in (("the last of five thousand notifies", '{"case":{"notify_if":true},"then":{"let":"x","be":1,"then":"close"}}',
    ok(bound=[("x", 1)])),
                           ("five thousand notifies that are false", '{"case":{"notify_if":false},"then":"close"}', refused("NoMatch")),
                           ("a number that leaves 128 bits in the last of five thousand notifies",
                            '{"case":{"notify_if":{"value":{"multiply":18446744073709551615,"times":18446744073709551615},"gt":0}},"then":"close"}',
                                refused("Leaves128"))):
    CASES.append({**line_case("long", name, "long contract", [BEGIN, [MANY, FALSE], last, AFTER, ONE], answer, "128 bits" if "128" in name else None),
        "id": 0})
