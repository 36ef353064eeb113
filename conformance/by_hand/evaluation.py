"""Values and observations, and what they come to."""
from words import (A, B, END, FAILS, START, T, U, X, account, add, address, both, choose, chosen, compare, divide, either, ensure, has_chosen, let,
    made,
                   money, multiply, negate, no, ok, pay, refund, role, run, state, subtract, to, paid, transaction, use)

# what stands in the state that the look-ups below see
HELD = [account(X, 7), account(A, 5), account(A, 3, T)]
CHOSEN = [made("n", X, 0), made("n", A, 4), made("m", A, -2)]
BOUND = [("x", 9), ("z", 0)]
BEFORE = state(HELD, CHOSEN, BOUND)
REFUNDS = [refund(X, 7), refund(A, 5), refund(A, 3, T)]
ORDERED = [made("m", A, -2), made("n", X, 0), made("n", A, 4)]

ARITHMETIC = [
    ("negate", negate(5), -5), ("negate", negate(-5), 5), ("negate", negate(0), 0), ("negate", negate(negate(3)), 3),
    ("add", add(2, 3), 5), ("add", add(-2, 3), 1), ("add", add(2, -3), -1), ("add", add(0, 0), 0), ("add", add(add(1, 2), add(3, 4)), 10),
    ("subtract", subtract(2, 3), -1), ("subtract", subtract(3, 2), 1), ("subtract", subtract(5, 5), 0), ("subtract", subtract(-2, -3), 1),
    ("subtract", subtract(subtract(10, 3), 2), 5), ("subtract", subtract(10, subtract(3, 2)), 9),
    ("multiply", multiply(3, 4), 12), ("multiply", multiply(-3, 4), -12), ("multiply", multiply(3, -4), -12), ("multiply", multiply(-3, -4), 12),
    ("multiply", multiply(0, 5), 0), ("multiply", multiply(1, -1), -1), ("multiply", add(2, multiply(3, 4)), 14),
        ("multiply", multiply(add(2, 3), 4), 20),
    ("constant", 0, 0), ("constant", 1, 1), ("constant", -1, -1), ("constant", 18446744073709551615, 18446744073709551615),
    ("constant", -9223372036854775808, -9223372036854775808), ("constant", 9223372036854775808, 9223372036854775808),
    ("cond", choose(True, 1, 2), 1), ("cond", choose(False, 1, 2), 2), ("cond", choose(compare("gt", 3, 2), add(1, 1), 9), 2),
    ("cond", choose(compare("gt", 2, 3), 9, negate(4)), -4), ("cond", choose(True, choose(False, 1, 2), 3), 2),
    ("cond", add(choose(True, 1, 2), choose(False, 10, 20)), 21),
]
CASES = [run("evaluation", f"{rule} {number} ({row})", rule, let("x", value), ok(bound=[("x", number)]))
         for row, (rule, value, number) in enumerate(ARITHMETIC, 1)]

LOOK_UPS = [
    ("what an address holds", "money", money(X), 7),
    ("what a role holds", "money", money(A), 5),
    ("what a role holds of another token", "money", money(A, T), 3),
    ("what an address doesn't hold", "money", money(X, T), 0),
    ("what nobody holds", "money", money(B), 0),
    ("a role with an address's name", "money", money(role("x")), 0),
    ("an address with a role's name", "money", money(address("a")), 0),
    ("a token with another name", "money", money(A, U), 0),
    ("a choice of 0 by an address", "number chosen", chosen("n", X), 0),
    ("a choice by a role", "number chosen", chosen("n", A), 4),
    ("another choice by the role", "number chosen", chosen("m", A), -2),
    ("a choice that its owner didn't make", "number chosen", chosen("m", X), 0),
    ("a choice that nobody made", "number chosen", chosen("k", A), 0),
    ("a choice by a role with an address's name", "number chosen", chosen("n", role("x")), 0),
    ("a name that is bound", "name", use("x"), 9),
    ("a name that is bound to 0", "name", use("z"), 0),
    ("a name that isn't bound", "name", use("y"), 0),
    ("a name of another case", "name", use("X"), 0),
    ("the empty name", "name", use(""), 0),
    ("a sum of look-ups", "add", add(money(X), add(chosen("n", A), use("x"))), 20),
    ("the minimum of two", "cond", choose(compare("lt", money(X), money(A)), money(X), money(A)), 5),
]
CASES += [run("evaluation", name, rule, let("v", value), ok(payments=REFUNDS, choices=ORDERED, bound=[("v", number), ("x", 9), ("z", 0)]), BEFORE,
    choice="orders")
          for name, rule, value, number in LOOK_UPS]

# interval, minimum time, the value, and its number
TIMES = [
    ((3, 8), 0, START, 3), ((3, 8), 0, END, 8), ((3, 8), 3, START, 3), ((3, 8), 5, START, 5), ((3, 8), 8, START, 8), ((3, 8), 8, END, 8),
    ((-4, -2), -9, START, -4), ((-4, -2), -9, END, -2), ((-4, -2), -3, START, -3), ((0, 0), 0, START, 0),
    ((3, 8), 0, subtract(END, START), 5), ((3, 8), 5, subtract(END, START), 3), ((3, 8), 8, subtract(END, START), 0), ((0, 0), 0, END, 0),
    ((5, 5), 0, END, 5), ((-9223372036854775808, 9223372036854775807), -9223372036854775808, START, -9223372036854775808),
    ((-9223372036854775808, 9223372036854775807), 0, END, 9223372036854775807), ((-9223372036854775808, 9223372036854775807), -1, START, -1),
    ((1, 2), -5, END, 2), ((1, 2), 2, END, 2), ((1, 2), 2, START, 2), ((-1, 1), 0, START, 0), ((-1, 1), -1, START, -1),
        ((7, 9), 8, add(START, END), 17),
]
CASES += [run("evaluation", f"times ({row})", "interval end" if value == END else "interval start", let("x", value),
              ok(bound=[("x", number)], time=max(within[0], time)), state(time=time), transaction(within=within))
          for row, (within, time, value, number) in enumerate(TIMES, 1)]

# what is looked up once something has changed
LATER = [
    ("a name that was just bound", "name", let("x", 4, let("y", add(use("x"), 1))), ok(bound=[("x", 4), ("y", 5)])),
    ("a name that is bound later", "name", let("y", use("x"), let("x", 4)), ok(bound=[("x", 4), ("y", 0)])),
    ("a value that names itself", "name", let("x", add(use("x"), 1)), ok(bound=[("x", 1)])),
]
CASES += [run("evaluation", name, rule, contract, answer, choice="orders") for name, rule, contract, answer in LATER]
CASES += [run("evaluation", "what is left once it was paid", "money", pay(2, A, to(B), let("x", money(A))),
              ok(payments=[paid(A, to(B), 2), refund(A, 3)], bound=[("x", 3)]), state([account(A, 5)])),
          run("evaluation", "what is left where all was paid", "money", pay(5, A, to(B), let("x", money(A))),
              ok(payments=[paid(A, to(B), 5)], bound=[("x", 0)]), state([account(A, 5)]))]

TRUE_AND_FALSE = [
    ("constant truth", True, 1), ("constant truth", False, 0),
    ("not", no(True), 0), ("not", no(False), 1), ("not", no(no(True)), 1), ("not", no(no(False)), 0),
    ("both", both(True, True), 1), ("both", both(True, False), 0), ("both", both(False, True), 0), ("both", both(False, False), 0),
    ("either", either(True, True), 1), ("either", either(True, False), 1), ("either", either(False, True), 1), ("either", either(False, False), 0),
    ("both", both(both(True, True), True), 1), ("both", both(either(False, True), no(False)), 1), ("either", either(both(True, False), no(True)), 0),
    ("not", no(both(True, False)), 1), ("not", no(either(False, True)), 0),
    ("ge_than", compare("ge_than", 1, 2), 0), ("ge_than", compare("ge_than", 2, 2), 1), ("ge_than", compare("ge_than", 3, 2), 1),
    ("gt", compare("gt", 1, 2), 0), ("gt", compare("gt", 2, 2), 0), ("gt", compare("gt", 3, 2), 1),
    ("lt", compare("lt", 1, 2), 1), ("lt", compare("lt", 2, 2), 0), ("lt", compare("lt", 3, 2), 0),
    ("le_than", compare("le_than", 1, 2), 1), ("le_than", compare("le_than", 2, 2), 1), ("le_than", compare("le_than", 3, 2), 0),
    ("equal_to", compare("equal_to", 1, 2), 0), ("equal_to", compare("equal_to", 2, 2), 1), ("equal_to", compare("equal_to", 3, 2), 0),
    ("ge_than", compare("ge_than", -3, -2), 0), ("gt", compare("gt", -2, -3), 1), ("lt", compare("lt", -3, 2), 1),
        ("le_than", compare("le_than", 2, -3), 0),
    ("equal_to", compare("equal_to", -2, 2), 0), ("equal_to", compare("equal_to", 0, negate(0)), 1),
    ("equal_to", compare("equal_to", divide(7, 2), 3), 1), ("lt", compare("lt", add(1, 1), multiply(1, 3)), 1),
    ("gt", compare("gt", 18446744073709551615, 9223372036854775807), 1), ("lt", compare("lt", -9223372036854775808, 0), 1),
    ("equal_to", compare("equal_to", 9223372036854775807, 9223372036854775808), 0),
]
CASES += [run("evaluation", f"{rule} is {'true' if truth else 'false'} ({row})", rule, ensure(observation), ok(warnings=[] if truth else [FAILS]))
          for row, (rule, observation, truth) in enumerate(TRUE_AND_FALSE, 1)]

CHOICES = [
    ("a choice of 0 was made", has_chosen("n", X), 1), ("a choice was made", has_chosen("n", A), 1),
        ("another by the same owner", has_chosen("m", A), 1),
    ("the same name by another owner", has_chosen("m", X), 0), ("another name", has_chosen("k", A), 0),
        ("an owner of the other kind", has_chosen("n", role("x")), 0),
    ("an owner of the other kind with a role's name", has_chosen("n", address("a")), 0), ("a name that is longer", has_chosen("nn", A), 0),
    ("not chosen", no(has_chosen("k", X)), 1), ("chosen by both", both(has_chosen("n", A), has_chosen("n", X)), 1),
    ("chosen by either", either(has_chosen("k", A), has_chosen("m", A)), 1),
]
CASES += [run("evaluation", name, "chosen", ensure(observation), ok(choices=ORDERED, warnings=[] if truth else [FAILS]), state(choices=CHOSEN),
    choice="orders")
          for name, observation, truth in CHOICES]
