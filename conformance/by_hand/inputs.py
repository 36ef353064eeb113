"""Which case an input takes, and what it leaves. Cases lead to Lets of 1, 2, .., so the number that is bound tells which was taken."""
from words import (A, B, C, GREATEST_NUMBER, LEAST_NUMBER, NOTIFY, T, U, X, account, add, address, choice, choose, chosen, chooses, compare, deposit,
    deposits,
                   deposits_nothing, ensure, has_chosen, let, made, money, notify, ok, pay, refund, refused, role, run, state, to, paid, token,
                       transaction, use, when)

WAIT = when([], 100)
NO_MATCH = refused("NoMatch")


def numbered(*actions):
    """A When whose cases lead to a Let of their number, from 1."""
    return when([(action, let("taken", number, WAIT)) for number, action in enumerate(actions, 1)])


def takes(name, rule, actions, given, number, before=None, choice=None, **left):
    answer = ok(WAIT, bound=[("taken", number)], **left) if number else NO_MATCH
    return run("inputs", name, rule, numbered(*actions), answer, before, transaction(given), choice)


FIVE = deposit(5, B, A)
CASES = [
    # deposits
    takes("a deposit as the case has it", "deposit", [FIVE], deposits(5, B, A), 1, accounts=[account(A, 5)]),
    takes("a deposit of one less", "deposit", [FIVE], deposits(4, B, A), 0),
    takes("a deposit of one more", "deposit", [FIVE], deposits(6, B, A), 0),
    takes("a deposit of the other sign", "deposit", [FIVE], deposits(-5, B, A), 0),
    takes("a deposit by another party", "deposit", [FIVE], deposits(5, C, A), 0),
    takes("a deposit by the account's owner", "deposit", [FIVE], deposits(5, A, A), 0),
    takes("a deposit into another account", "deposit", [FIVE], deposits(5, B, B), 0),
    takes("a deposit with party and account exchanged", "deposit", [FIVE], deposits(5, A, B), 0),
    takes("a deposit of another token", "deposit", [FIVE], deposits(5, B, A, T), 0),
    takes("a deposit of a token with another name", "deposit", [deposit(5, B, A, T)], deposits(5, B, A, U), 0),
    takes("a deposit of a token with another symbol", "deposit", [deposit(5, B, A, T)], deposits(5, B, A, token("bb", "t")), 0),
    takes("a deposit of a token whose symbol has capital digits", "deposit", [deposit(5, B, A, T)], deposits(5, B, A, token("AA", "t")), 1,
          accounts=[account(A, 5, T)]),
    takes("a deposit by a role with an address's name", "deposit", [deposit(5, X, A)], deposits(5, role("x"), A), 0),
    takes("a deposit by an address with a role's name", "deposit", [FIVE], deposits(5, address("b"), A), 0),
    takes("a deposit into an address's account", "deposit", [deposit(5, B, X)], deposits(5, B, X), 1, accounts=[account(X, 5)]),
    takes("a deposit into a role's account in place of an address's", "deposit", [deposit(5, B, X)], deposits(5, B, role("x")), 0),
    takes("a deposit of a sum", "deposit", [deposit(add(2, 3), B, A)], deposits(5, B, A), 1, accounts=[account(A, 5)]),
    takes("a deposit of what the account holds", "deposit", [deposit(money(A), B, A)], deposits(7, B, A), 1, state([account(A, 7)]),
        accounts=[account(A, 14)]),
    takes("a deposit of a choice", "deposit", [deposit(chosen("n", C), B, A)], deposits(7, B, A), 1, state(choices=[made("n", C, 7)]),
          accounts=[account(A, 7)], choices=[made("n", C, 7)]),
    takes("a deposit of a branch", "deposit", [deposit(choose(True, 2, 3), B, A)], deposits(3, B, A), 0),
    takes("a deposit is added to what is there", "deposited", [FIVE], deposits(5, B, A), 1, state([account(A, 2)]), accounts=[account(A, 7)]),
    takes("a deposit beside another token", "deposited", [FIVE], deposits(5, B, A), 1, state([account(A, 2, T)]), "orders",
        accounts=[account(A, 5), account(A, 2, T)]),
    takes("a deposit beside another account", "deposited", [FIVE], deposits(5, B, A), 1, state([account(B, 2)]), "orders",
        accounts=[account(A, 5), account(B, 2)]),
    takes("a deposit of the greatest number of JSON", "deposited", [deposit(GREATEST_NUMBER, B, A)], deposits(GREATEST_NUMBER, B, A), 1,
          accounts=[account(A, GREATEST_NUMBER)]),
    takes("a deposit into one's own account", "deposited", [deposit(5, A, A)], deposits(5, A, A), 1, accounts=[account(A, 5)]),
    takes("a deposit of a token is one of that token", "deposited", [deposit(5, B, A, T)], deposits(5, B, A, T), 1, state([account(A, 2)]), "orders",
          accounts=[account(A, 2), account(A, 5, T)]),
    takes("a deposit of 0", "deposit of nothing", [deposit(0, B, A)], deposits(0, B, A), 1, warnings=[deposits_nothing(B, A, 0)]),
    takes("a deposit of -1", "deposit of nothing", [deposit(-1, B, A)], deposits(-1, B, A), 1, warnings=[deposits_nothing(B, A, -1)]),
    takes("a deposit of 0 takes nothing away", "deposit of nothing", [deposit(0, B, A)], deposits(0, B, A), 1, state([account(A, 2)]),
          accounts=[account(A, 2)], warnings=[deposits_nothing(B, A, 0)]),
    takes("a deposit of -2 takes nothing away", "deposit of nothing", [deposit(-2, B, A)], deposits(-2, B, A), 1, state([account(A, 2)]),
          accounts=[account(A, 2)], warnings=[deposits_nothing(B, A, -2)]),
    takes("a deposit of the least number of JSON", "deposit of nothing", [deposit(LEAST_NUMBER, B, A)], deposits(LEAST_NUMBER, B, A), 1,
          warnings=[deposits_nothing(B, A, LEAST_NUMBER)]),
    takes("a deposit of -1 doesn't match 0", "deposit", [deposit(0, B, A)], deposits(-1, B, A), 0),
    # notifies
    takes("a notify of what is true", "notify", [notify()], NOTIFY, 1),
    takes("a notify of what is false", "notify", [notify(False)], NOTIFY, 0),
    takes("a notify of a false and a true case", "notify", [notify(False), notify()], NOTIFY, 2),
    takes("a notify of a comparison that holds", "notify", [notify(compare("gt", money(A), 1))], NOTIFY, 1, state([account(A, 2)]),
        accounts=[account(A, 2)]),
    takes("a notify of a comparison that doesn't hold", "notify", [notify(compare("gt", money(A), 2))], NOTIFY, 0, state([account(A, 2)])),
    takes("a notify of a choice that was made", "notify", [notify(has_chosen("n", A))], NOTIFY, 1, state(choices=[made("n", A, 0)]),
        choices=[made("n", A, 0)]),
    takes("a notify of a choice that wasn't made", "notify", [notify(has_chosen("n", A))], NOTIFY, 0),
    takes("three false notifies", "notify", [notify(False), notify(False), notify(False)], NOTIFY, 0),
    takes("a notify of the time", "notify", [notify(compare("equal_to", "time_interval_end", 10))], NOTIFY, 1),
    takes("a notify of the time that isn't", "notify", [notify(compare("lt", "time_interval_end", 10))], NOTIFY, 0),
    # the first of several
    takes("two notifies that are true", "first match", [notify(), notify()], NOTIFY, 1),
    takes("two equal deposits", "first match", [FIVE, FIVE], deposits(5, B, A), 1, accounts=[account(A, 5)]),
    takes("two deposits of one amount, written otherwise", "first match", [deposit(add(2, 3), B, A), FIVE], deposits(5, B, A), 1,
        accounts=[account(A, 5)]),
    takes("the second of two deposits", "first match", [deposit(4, B, A), FIVE], deposits(5, B, A), 2, accounts=[account(A, 5)]),
    takes("the third of three, of which two match", "first match", [deposit(4, B, A), notify(), FIVE, FIVE], deposits(5, B, A), 3,
        accounts=[account(A, 5)]),
    takes("two choices with the number", "first match", [choice("n", A, (0, 5)), choice("n", A, (5, 9))], chooses("n", A, 5), 1,
        choices=[made("n", A, 5)]),
    takes("a choice of the second case's bounds", "first match", [choice("n", A, (0, 5)), choice("n", A, (5, 9))], chooses("n", A, 6), 2,
        choices=[made("n", A, 6)]),
    takes("a false notify, a choice, and a true notify", "first match", [notify(False), choice("n", A, (0, 5)), notify()], NOTIFY, 3),
    takes("of four notifies the third", "first match", [notify(False), notify(False), notify(), notify()], NOTIFY, 3),
    takes("a wide choice before a narrow one", "first match", [choice("n", A, (0, 9)), choice("n", A, (5, 5))], chooses("n", A, 5), 1,
        choices=[made("n", A, 5)]),
    # cases of another kind
    takes("a notify passes over a deposit", "case of another kind", [FIVE, notify()], NOTIFY, 2),
    takes("a notify passes over a choice", "case of another kind", [choice("n", A, (0, 9)), notify()], NOTIFY, 2),
    takes("a deposit passes over a notify", "case of another kind", [notify(), FIVE], deposits(5, B, A), 2, accounts=[account(A, 5)]),
    takes("a deposit passes over a choice", "case of another kind", [choice("n", B, (5, 5)), FIVE], deposits(5, B, A), 2, accounts=[account(A, 5)]),
    takes("a choice passes over a notify", "case of another kind", [notify(), choice("n", A, (0, 9))], chooses("n", A, 5), 2,
        choices=[made("n", A, 5)]),
    takes("a choice passes over a deposit", "case of another kind", [deposit(5, A, A), choice("n", A, (0, 9))], chooses("n", A, 5), 2,
        choices=[made("n", A, 5)]),
    takes("a notify of deposits alone", "case of another kind", [FIVE, deposit(1, B, A)], NOTIFY, 0),
    takes("a deposit of choices alone", "case of another kind", [choice("n", B, (5, 5)), choice("n", A, (5, 5))], deposits(5, B, A), 0),
    takes("a choice of notifies alone", "case of another kind", [notify(), notify()], chooses("n", A, 5), 0),
    takes("a notify of all three kinds", "case of another kind", [FIVE, choice("n", A, (0, 9)), notify()], NOTIFY, 3),
]

# bounds, number, whether it is taken
BOUNDS = [
    ([(1, 3)], 1, 1), ([(1, 3)], 2, 1), ([(1, 3)], 3, 1), ([(1, 3)], 0, 0), ([(1, 3)], 4, 0), ([(1, 3)], -1, 0), ([(2, 2)], 2, 1), ([(2, 2)], 1, 0),
        ([(2, 2)], 3, 0),
    ([(-3, -1)], -1, 1), ([(-3, -1)], -3, 1), ([(-3, -1)], -4, 0), ([(-3, -1)], 0, 0), ([(-3, 3)], 0, 1), ([], 0, 0), ([(3, 1)], 2, 0),
        ([(3, 1)], 3, 0), ([(3, 1)], 1, 0),
    ([(0, 1), (5, 6)], 5, 1), ([(0, 1), (5, 6)], 6, 1), ([(0, 1), (5, 6)], 3, 0), ([(0, 1), (5, 6)], 0, 1), ([(5, 6), (0, 1)], 1, 1),
        ([(3, 1), (1, 3)], 2, 1),
    ([(0, 2), (1, 3)], 3, 1), ([(0, 0), (1, 1), (2, 2)], 2, 1), ([(0, 0), (1, 1), (2, 2)], 3, 0),
        ([(LEAST_NUMBER, GREATEST_NUMBER)], LEAST_NUMBER, 1),
    ([(LEAST_NUMBER, GREATEST_NUMBER)], GREATEST_NUMBER, 1), ([(LEAST_NUMBER, LEAST_NUMBER)], LEAST_NUMBER, 1),
        ([(0, GREATEST_NUMBER - 1)], GREATEST_NUMBER, 0),
    ([(LEAST_NUMBER + 1, 0)], LEAST_NUMBER, 0), ([(0, 5), (7, 9)], 6, 0), ([(0, 5), (6, 9)], 6, 1),
]
CASES += [takes(f"a choice within bounds ({row})", "choice", [choice("n", A, *bounds)], chooses("n", A, number), taken,
                **({"choices": [made("n", A, number)]} if taken else {})) for row, (bounds, number, taken) in enumerate(BOUNDS, 1)]

WHOLE = [(0, 9)]
CASES += [
    takes("a choice by another owner", "choice", [choice("n", A, *WHOLE)], chooses("n", B, 5), 0),
    takes("a choice of another name", "choice", [choice("n", A, *WHOLE)], chooses("m", A, 5), 0),
    takes("a choice of a name in capitals", "choice", [choice("n", A, *WHOLE)], chooses("N", A, 5), 0),
    takes("a choice by an address with a role's name", "choice", [choice("n", A, *WHOLE)], chooses("n", address("a"), 5), 0),
    takes("a choice by a role with an address's name", "choice", [choice("n", X, *WHOLE)], chooses("n", role("x"), 5), 0),
    takes("a choice by an address", "choice", [choice("n", X, *WHOLE)], chooses("n", X, 5), 1, choices=[made("n", X, 5)]),
    takes("a choice of the empty name", "choice", [choice("", A, *WHOLE)], chooses("", A, 5), 1, choices=[made("", A, 5)]),
    takes("a number in another choice's bounds", "choice", [choice("n", A, (0, 1)), choice("m", A, (2, 3))], chooses("n", A, 2), 0),
    # what is recorded
    takes("a choice that is new", "recorded", [choice("n", A, *WHOLE)], chooses("n", A, 5), 1, choices=[made("n", A, 5)]),
    takes("a choice in place of an earlier one", "recorded", [choice("n", A, *WHOLE)], chooses("n", A, 5), 1, state(choices=[made("n", A, 3)]),
        choices=[made("n", A, 5)]),
    takes("a choice as it was before", "recorded", [choice("n", A, *WHOLE)], chooses("n", A, 5), 1, state(choices=[made("n", A, 5)]),
        choices=[made("n", A, 5)]),
    takes("a choice of 0 in place of another", "recorded", [choice("n", A, *WHOLE)], chooses("n", A, 0), 1, state(choices=[made("n", A, 5)]),
        choices=[made("n", A, 0)]),
    takes("a choice beside that of another owner", "recorded", [choice("n", A, *WHOLE)], chooses("n", A, 5), 1, state(choices=[made("n", B, 3)]),
        "orders",
          choices=[made("n", A, 5), made("n", B, 3)]),
    takes("a choice beside one of another name", "recorded", [choice("n", A, *WHOLE)], chooses("n", A, 5), 1, state(choices=[made("m", A, 3)]),
        "orders",
          choices=[made("m", A, 3), made("n", A, 5)]),
    takes("a choice out of bounds leaves the earlier one", "NoMatch", [choice("n", A, *WHOLE)], chooses("n", A, 10), 0,
        state(choices=[made("n", A, 5)])),
]
for number in (0, 3, -2, 9):
    bounds = (min(number, 0), 9)
    CASES.append(run("inputs", f"a choice of {number} is seen behind its case", "recorded",
        when([(choice("n", A, bounds), let("x", chosen("n", A), WAIT))]),
                     ok(WAIT, choices=[made("n", A, number)], bound=[("x", number)]), state(), transaction(chooses("n", A, number))))

# the order in which a state has choices and bound values
ROWS = [
    ("by name", [made("n", A, 1), made("m", A, 2)], [made("m", A, 2), made("n", A, 1)]),
    ("by owner where the name is the same", [made("n", B, 1), made("n", A, 2)], [made("n", A, 2), made("n", B, 1)]),
    ("by name before owner", [made("n", A, 1), made("m", B, 2)], [made("m", B, 2), made("n", A, 1)]),
    ("an address before a role", [made("n", A, 1), made("n", X, 2)], [made("n", X, 2), made("n", A, 1)]),
    ("a name before one that it begins", [made("nn", A, 1), made("n", B, 2)], [made("n", B, 2), made("nn", A, 1)]),
    ("capitals before small letters", [made("a", A, 1), made("B", A, 2)], [made("B", A, 2), made("a", A, 1)]),
    ("four rows", [made("n", A, 1), made("m", X, 2), made("n", X, 3), made("m", B, 4)],
        [made("m", X, 2), made("m", B, 4), made("n", X, 3), made("n", A, 1)]),
]
CASES += [run("inputs", f"choices stand {name}", "order of choices", ensure(True), ok(choices=ordered), state(choices=given),
    choice="orders") for name, given, ordered in ROWS]
NAMES = [
    ("by name", [("y", 1), ("x", 2)], [("x", 2), ("y", 1)]), ("capitals before small letters", [("a", 1), ("B", 2)], [("B", 2), ("a", 1)]),
    ("a name before one that it begins", [("xx", 1), ("x", 2)], [("x", 2), ("xx", 1)]),
        ("the empty name first", [("x", 1), ("", 2)], [("", 2), ("x", 1)]),
    ("by their bytes", [("é", 1), ("z", 2)], [("z", 2), ("é", 1)]), ("digits by their bytes", [("9", 1), ("10", 2)], [("10", 2), ("9", 1)]),
    ("beyond the first plane last", [("\U0001f600", 1), ("\uffee", 2)], [("\uffee", 2), ("\U0001f600", 1)]),
]
CASES += [run("inputs", f"bound values stand {name}", "order of choices", ensure(True), ok(bound=ordered), state(bound=given),
    choice="orders") for name, given, ordered in NAMES]

# no case, several inputs
TWO = when([(notify(), when([(FIVE, "close")]))])
CASES += [
    run("inputs", "an input to a closed contract", "NoMatch", "close", NO_MATCH, state(), transaction(NOTIFY)),
    run("inputs", "an input to a contract that closes with refunds", "NoMatch", "close", NO_MATCH, state([account(A, 5)]), transaction(NOTIFY)),
    run("inputs", "an input to a contract that reduces to Close", "NoMatch", let("x", 1), NO_MATCH, state(), transaction(NOTIFY)),
    run("inputs", "a deposit to a closed contract", "NoMatch", "close", NO_MATCH, state(), transaction(deposits(5, B, A))),
    run("inputs", "an input to a When without cases", "NoMatch", WAIT, NO_MATCH, state(), transaction(NOTIFY)),
    run("inputs", "a second input to a contract that is closed by then", "NoMatch", when([(notify(), "close")]), NO_MATCH, state(),
        transaction(NOTIFY, NOTIFY)),
    run("inputs", "two inputs in their order", "done", TWO, ok(payments=[refund(A, 5)]), state(), transaction(NOTIFY, deposits(5, B, A))),
    run("inputs", "two inputs in the other order", "NoMatch", TWO, NO_MATCH, state(), transaction(deposits(5, B, A), NOTIFY)),
    run("inputs", "the first of two inputs alone", "done", TWO, ok(when([(FIVE, "close")])), state(), transaction(NOTIFY)),
    run("inputs", "the second of two inputs matches nothing", "NoMatch", TWO, NO_MATCH, state(), transaction(NOTIFY, NOTIFY)),
    run("inputs", "one case isn't taken twice", "NoMatch", when([(notify(), when([(FIVE, "close")]))]), NO_MATCH, state(),
        transaction(NOTIFY, NOTIFY)),
    run("inputs", "an input behind an If sees an earlier one", "first match",
        when([(choice("n", A, (0, 1)), choose(compare("equal_to", chosen("n", A), 1), when([(notify(), let("x", 1))]), "close"))]),
        ok(choices=[made("n", A, 1)], bound=[("x", 1)]), state(), transaction(chooses("n", A, 1), NOTIFY)),
    run("inputs", "a deposit's amount is read after an earlier input", "deposit",
        when([(choice("n", A, (0, 9)), when([(deposit(chosen("n", A), B, A), pay(1, A, to(C)))]))]),
        ok(payments=[paid(A, to(C), 1), refund(A, 6)], choices=[made("n", A, 7)]), state(), transaction(chooses("n", A, 7), deposits(7, B, A))),
    run("inputs", "a deposit's amount as a Let bound it", "deposit", let("x", 3, when([(deposit(use("x"), B, A), "close")])),
        ok(payments=[refund(A, 3)], bound=[("x", 3)]), state(), transaction(deposits(3, B, A))),
]
