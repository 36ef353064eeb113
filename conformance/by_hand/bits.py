"""Numbers at the edges of 128 bits. A constant has 64 bits at most, so the edges are made of products and sums."""
from words import (A, B, C, CLOSE, FAILS, NOTIFY, X, account, add, both, choice, choose, chosen, chooses, compare, deposit, deposits, divide, either,
    ensure,
                   into, let, made, money, multiply, negate, no, notify, ok, paid, pay, pays_nothing, pays_part, refund, refused, run, shadows, state,
                       subtract, to,
                   transaction, use, when)

TWO_TO_63, TWO_TO_64 = 2**63, 2**64
# the greatest and the least number, one beyond each, and halves of those
MOST = add(multiply(TWO_TO_63, TWO_TO_64 - 1), TWO_TO_63 - 1)
LEAST = multiply(multiply(-TWO_TO_63, TWO_TO_63), 2)
ABOVE = multiply(multiply(TWO_TO_63, TWO_TO_63), 2)
BELOW = subtract(multiply(multiply(-TWO_TO_63, TWO_TO_63), 2), 1)
LEAVES = refused("Leaves128")
WAIT = when([], 100)
BITS, DIGITS = "128 bits", "texts of digits"

FIT = [
    ("the greatest", MOST, 2**127 - 1), ("the least", LEAST, -2**127), ("the greatest and 0", add(MOST, 0), 2**127 - 1),
        ("the least and 0", add(LEAST, 0), -2**127),
    ("the greatest less 1", subtract(MOST, 1), 2**127 - 2), ("the least and 1", add(LEAST, 1), -2**127 + 1),
        ("the greatest once", multiply(MOST, 1), 2**127 - 1),
    ("the least once", multiply(1, LEAST), -2**127), ("the greatest below 0", negate(MOST), -2**127 + 1),
        ("the greatest by -1", divide(MOST, -1), -2**127 + 1),
    ("the greatest times -1", multiply(MOST, -1), -2**127 + 1), ("the least by 1", divide(LEAST, 1), -2**127),
        ("the least by 2", divide(LEAST, 2), -2**126),
    ("the least by -2", divide(LEAST, -2), 2**126), ("the greatest by 2", divide(MOST, 2), 2**126 - 1),
        ("the greatest by itself", divide(MOST, MOST), 1),
    ("the least by itself", divide(LEAST, LEAST), 1), ("the least by the greatest", divide(LEAST, MOST), -1),
        ("the greatest by the least", divide(MOST, LEAST), 0),
    ("the greatest and the least", add(MOST, LEAST), -1), ("the greatest less itself", subtract(MOST, MOST), 0),
        ("the least less itself", subtract(LEAST, LEAST), 0),
    ("the greatest times 0", multiply(MOST, 0), 0), ("the least by 0", divide(LEAST, 0), 0), ("-1 less the greatest", subtract(-1, MOST), -2**127),
    ("2^126 twice less 1", add(multiply(TWO_TO_63, TWO_TO_63), subtract(multiply(TWO_TO_63, TWO_TO_63), 1)), 2**127 - 1),
        ("-2^126 twice", add(multiply(-TWO_TO_63, TWO_TO_63), multiply(-TWO_TO_63, TWO_TO_63)), -2**127),
    ("2^64 - 1 times 2^63", multiply(TWO_TO_64 - 1, TWO_TO_63), 2**127 - 2**63),
]
CASES = [run("bits", name, "fits", let("x", value), ok(bound=[("x", number)]), choice=[] if -TWO_TO_63 <= number < TWO_TO_64 else DIGITS) for name, value,
    number in FIT]

LEAVE = [
    ("the greatest and 1", add(MOST, 1)), ("1 and the greatest", add(1, MOST)), ("the least less 1", BELOW), ("the least and -1", add(LEAST, -1)),
        ("2^127", ABOVE),
    ("the least below 0", negate(LEAST)), ("the least times -1", multiply(LEAST, -1)), ("-1 times the least", multiply(-1, LEAST)),
        ("the least by -1", divide(LEAST, -1)),
    ("0 less the least", subtract(0, LEAST)), ("the greatest less -1", subtract(MOST, -1)), ("the greatest twice", multiply(MOST, 2)),
        ("the least twice", multiply(LEAST, 2)),
    ("the greatest squared", multiply(MOST, MOST)), ("the least squared", multiply(LEAST, LEAST)),
        ("2^64 - 1 three times", multiply(multiply(TWO_TO_64 - 1, TWO_TO_64 - 1), TWO_TO_64 - 1)),
    ("2^64 - 1 squared", multiply(TWO_TO_64 - 1, TWO_TO_64 - 1)), ("-2^126 twice and 1 less", subtract(multiply(multiply(-TWO_TO_63, TWO_TO_63), 2), 1)),
    # what comes back into 128 bits was outside all the same
    ("the greatest and 1 less 1", subtract(add(MOST, 1), 1)), ("2^127 by 2", divide(ABOVE, 2)), ("2^127 times 0", multiply(ABOVE, 0)),
        ("0 times 2^127", multiply(0, ABOVE)),
    ("2^127 by 0", divide(ABOVE, 0)), ("0 by 2^127", divide(0, ABOVE)), ("2^127 less 2^127", subtract(ABOVE, ABOVE)),
        ("the other sign of 2^127", negate(ABOVE)),
    ("the branch that is taken", choose(True, ABOVE, 1)), ("the other branch that is taken", choose(False, 1, ABOVE)),
]
CASES += [run("bits", name, "Leaves128", let("x", value), LEAVES, choice=BITS) for name, value in LEAVE]

IS_ABOVE = compare("gt", ABOVE, 0)
OBSERVED = [
    # what the other side decides isn't visited
    ("the right of a false And", both(False, IS_ABOVE), 0), ("the right of a true Or", either(True, IS_ABOVE), 1),
        ("the right of a false And below a Not", no(both(False, IS_ABOVE)), 1),
    ("the right of two Ands", both(both(False, IS_ABOVE), IS_ABOVE), 0), ("the right of two Ors", either(either(True, IS_ABOVE), IS_ABOVE), 1),
    ("the right of an Or that an And decides", either(both(True, True), IS_ABOVE), 1),
        ("the branch that a Cond leaves out", compare("equal_to", choose(True, 1, ABOVE), 1), 1),
    ("the other branch that a Cond leaves out", compare("equal_to", choose(False, ABOVE, 1), 2), 0),
    ("the right of a false comparison", both(compare("lt", 2, 1), IS_ABOVE), 0),
        ("the right of a true comparison", either(compare("lt", 1, 2), IS_ABOVE), 1),
    # .. and what it doesn't decide is
    ("the right of a true And", both(True, IS_ABOVE), None), ("the right of a false Or", either(False, IS_ABOVE), None),
        ("the left of an And", both(IS_ABOVE, False), None),
    ("the left of an Or", either(IS_ABOVE, True), None), ("below a Not", no(IS_ABOVE), None),
        ("the left of a comparison", compare("lt", ABOVE, 1), None),
    ("the right of a comparison", compare("lt", 1, ABOVE), None), ("both sides of an equation", compare("equal_to", ABOVE, ABOVE), None),
    ("the observation of a Cond", compare("equal_to", choose(IS_ABOVE, 1, 1), 1), None),
        ("the right of an And that an Or makes true", both(either(False, True), IS_ABOVE), None),
]
CASES += [run("bits", name, "not visited", ensure(observation), LEAVES if truth is None else ok(warnings=[] if truth else [FAILS]), choice=BITS)
          for name, observation, truth in OBSERVED]

# cases
FIVE = deposit(5, B, A)


def large(party=B, account=A):
    return deposit(ABOVE, party, account)


LOOKED_INTO = [
    ("the value of a deposit that is tried", [large()], deposits(5, B, A), 0),
        ("the value of a deposit by another party", [large(C), FIVE], deposits(5, B, A), 2),
    ("the value of a deposit into another account", [large(B, B), FIVE], deposits(5, B, A), 2),
    ("the value of a deposit of another token", [deposit(ABOVE, B, A, {"currency_symbol": "aa", "token_name": "t"}), FIVE], deposits(5, B, A), 2),
    ("the value of a deposit behind the one that matches", [FIVE, large()], deposits(5, B, A), 1),
        ("the value of a deposit before the one that matches", [large(), FIVE], deposits(5, B, A), 0),
    ("the value of a deposit for a notify", [large(), notify()], NOTIFY, 2),
        ("the value of a deposit for a choice", [large(), choice("n", B, (0, 9))], chooses("n", B, 5), 2),
    ("an observation for a deposit", [notify(IS_ABOVE), FIVE], deposits(5, B, A), 2),
        ("an observation for a notify", [notify(IS_ABOVE), notify()], NOTIFY, 0),
    ("an observation behind the one that holds", [notify(), notify(IS_ABOVE)], NOTIFY, 1),
        ("an observation behind one that doesn't hold", [notify(False), notify(IS_ABOVE)], NOTIFY, 0),
    ("an observation for a choice", [notify(IS_ABOVE), choice("n", B, (0, 9))], chooses("n", B, 5), 2),
    ("the value of a deposit behind another amount", [deposit(4, B, A), large()], deposits(5, B, A), 0),
    ("the value of a deposit by a role with an address's name", [large({"address": "b"}), FIVE], deposits(5, B, A), 2),
]
for name, actions, given, number in LOOKED_INTO:
    contract = when([(action, let("taken", place, WAIT)) for place, action in enumerate(actions, 1)])
    left = {"accounts": [account(A, 5)]} if "that_deposits" in given else {"choices": [made("n", B, 5)]} if "for_choice_id" in given else {}
    CASES.append(run("bits", name, "looked into", contract, ok(WAIT, bound=[("taken", number)], **left) if number else LEAVES, state(),
        transaction(given), BITS))

# which fault comes first
STOPS = [
    ("a number, then an ambiguous When", let("x", ABOVE, when([], 5)), [], (0, 9), "Leaves128"),
        ("an ambiguous When, then a number", when([], 5, let("x", ABOVE)), [], (0, 9), "Ambiguous"),
    ("a number in an interval that ends before it starts", let("x", ABOVE), [], (9, 0), "InvalidInterval"),
        ("a number in the past", let("x", ABOVE), [], (-9, -1), "IntervalInPast"),
    ("a number, then an input that matches nothing", let("x", ABOVE, WAIT), [NOTIFY], (0, 9), "Leaves128"),
        ("an input that matches nothing, then a number", when([(notify(False), let("x", ABOVE))]), [NOTIFY], (0, 9), "NoMatch"),
    ("a number behind an input that matches", when([(notify(), let("x", ABOVE))]), [NOTIFY], (0, 9), "Leaves128"),
    ("a number behind an input before one that matches nothing", when([(notify(), let("x", ABOVE, WAIT))]), [NOTIFY, NOTIFY], (0, 9), "Leaves128"),
    ("a second input that matches nothing", when([(notify(), WAIT)]), [NOTIFY, NOTIFY], (0, 9), "NoMatch"),
    ("a number that no input comes to", when([(notify(), let("x", ABOVE))]), [], (0, 9), "Useless"),
        ("a number in a timeout that isn't over", when([], 20, let("x", ABOVE)), [], (0, 9), "Useless"),
    ("a number in a timeout that is over", when([], 0, let("x", ABOVE)), [], (0, 9), "Leaves128"),
        ("a number behind another", let("x", ABOVE, let("y", BELOW)), [], (0, 9), "Leaves128"),
    ("a number in a branch that isn't taken, then an ambiguous When", choose(True, when([], 5), let("x", ABOVE)), [], (0, 9), "Ambiguous"),
]
CASES += [run("bits", name, "first to stop", contract, refused(fault), state(), transaction(*given, within=within), BITS) for name, contract, given,
    within, fault in STOPS]

# where numbers are used
CASES += [
    run("bits", "a Pay of 2^127", "Leaves128", pay(ABOVE, A, to(B)), LEAVES, choice=BITS),
    run("bits", "a Pay of one below the least", "Leaves128", pay(BELOW, A, to(B)), LEAVES, choice=BITS),
    run("bits", "an If of 2^127", "Leaves128", choose(IS_ABOVE, CLOSE, CLOSE), LEAVES, choice=BITS),
    run("bits", "a branch that isn't taken", "not visited", choose(True, let("x", 1), let("x", ABOVE)), ok(bound=[("x", 1)]), choice=BITS),
    run("bits", "an assertion of 2^127", "Leaves128", ensure(IS_ABOVE), LEAVES, choice=BITS),
    run("bits", "a Pay of the greatest number", "digits", pay(MOST, A, to(B)),
        ok(payments=[paid(A, to(B), 3)], warnings=[pays_part(A, to(B), 3, 2**127 - 1)]), state([account(A, 3)]), choice=DIGITS),
    run("bits", "a Pay of the least number", "digits", pay(LEAST, A, to(B)), ok(warnings=[pays_nothing(A, to(B), -2**127)]), choice=DIGITS),
    run("bits", "a Pay of 2^64", "digits", pay(add(TWO_TO_64 - 1, 1), A, to(B)),
        ok(payments=[paid(A, to(B), TWO_TO_64 - 1)], warnings=[pays_part(A, to(B), TWO_TO_64 - 1, TWO_TO_64)]),
        state([account(A, TWO_TO_64 - 1)]), choice=DIGITS),
    run("bits", "the greatest number shadows the least", "digits", let("x", LEAST, let("x", MOST)),
        ok(bound=[("x", 2**127 - 1)], warnings=[shadows("x", -2**127, 2**127 - 1)]), choice=DIGITS),
    run("bits", "2^64 - 1 is a number", "digits", let("x", TWO_TO_64 - 1), ok(bound=[("x", TWO_TO_64 - 1)])),
    run("bits", "2^64 is a text", "digits", let("x", add(TWO_TO_64 - 1, 1)), ok(bound=[("x", TWO_TO_64)]), choice=DIGITS),
    run("bits", "-2^63 is a number", "digits", let("x", -TWO_TO_63), ok(bound=[("x", -TWO_TO_63)])),
    run("bits", "-2^63 - 1 is a text", "digits", let("x", subtract(-TWO_TO_63, 1)), ok(bound=[("x", -TWO_TO_63 - 1)]), choice=DIGITS),
    run("bits", "a name that is a text goes on", "digits", let("x", add(TWO_TO_64 - 1, 1), let("y", subtract(use("x"), 1))),
        ok(bound=[("x", TWO_TO_64), ("y", TWO_TO_64 - 1)]), choice=[DIGITS, "orders"]),
    run("bits", "2^64 of two accounts in one", "account sums", pay(TWO_TO_64 - 1, A, into(B), WAIT),
        ok(WAIT, [paid(A, into(B), TWO_TO_64 - 1)], [account(B, TWO_TO_64)]),
        state([account(A, TWO_TO_64 - 1), account(B, 1)]), choice=[DIGITS, "records"]),
    run("bits", "2^64 by a deposit", "account sums", when([(deposit(TWO_TO_64 - 1, B, A), WAIT)]), ok(WAIT, accounts=[account(A, TWO_TO_64)]),
        state([account(A, 1)]),
        transaction(deposits(TWO_TO_64 - 1, B, A)), DIGITS),
    run("bits", "2^65 - 2 by a deposit", "account sums", when([(deposit(TWO_TO_64 - 1, B, A), WAIT)]), ok(WAIT, accounts=[account(A, 2 * TWO_TO_64 - 2)]),
        state([account(A, TWO_TO_64 - 1)]),
        transaction(deposits(TWO_TO_64 - 1, B, A)), DIGITS),
    run("bits", "2^64 by two deposits", "account sums", when([(deposit(TWO_TO_64 - 1, B, A), when([(deposit(1, C, A), WAIT)]))]),
        ok(WAIT, accounts=[account(A, TWO_TO_64)]), state(),
        transaction(deposits(TWO_TO_64 - 1, B, A), deposits(1, C, A)), DIGITS),
    run("bits", "a refund of 2^64", "account sums", when([(deposit(1, B, A), CLOSE)]), ok(payments=[refund(A, TWO_TO_64)]), state([account(A, TWO_TO_64 - 1)]),
        transaction(deposits(1, B, A)), DIGITS),
    run("bits", "2^64 paid out", "account sums", when([(deposit(1, B, A), pay(money(A), A, to(X)))]), ok(payments=[paid(A, to(X), TWO_TO_64)]),
        state([account(A, TWO_TO_64 - 1)]),
        transaction(deposits(1, B, A)), DIGITS),
    run("bits", "2^64 paid into another account", "account sums", when([(deposit(1, B, A), pay(money(A), A, into(X), WAIT))]),
        ok(WAIT, [paid(A, into(X), TWO_TO_64)], [account(X, TWO_TO_64)]),
        state([account(A, TWO_TO_64 - 1)]), transaction(deposits(1, B, A)), [DIGITS, "records"]),
    run("bits", "2^64 paid to itself", "account sums", when([(deposit(1, B, A), pay(money(A), A, into(A), WAIT))]),
        ok(WAIT, [paid(A, into(A), TWO_TO_64)], [account(A, TWO_TO_64)]),
        state([account(A, TWO_TO_64 - 1)]), transaction(deposits(1, B, A)), [DIGITS, "records", "paying account first"]),
    run("bits", "what an account of 2^64 pays in part", "account sums", when([(deposit(1, B, A), pay(add(money(A), 1), A, to(X)))]),
        ok(payments=[paid(A, to(X), TWO_TO_64)], warnings=[pays_part(A, to(X), TWO_TO_64, TWO_TO_64 + 1)]), state([account(A, TWO_TO_64 - 1)]),
            transaction(deposits(1, B, A)), DIGITS),
    run("bits", "an account's number doubled until it leaves", "account sums", let("x", multiply(multiply(money(A), TWO_TO_64 - 1), 1), CLOSE), LEAVES,
        state([account(A, TWO_TO_64 - 1)]), choice=BITS),
    run("bits", "a choice of the greatest number of JSON, squared", "Leaves128",
        when([(choice("n", A, (0, TWO_TO_64 - 1)), let("x", multiply(chosen("n", A), chosen("n", A))))]), LEAVES, state(),
        transaction(chooses("n", A, TWO_TO_64 - 1)), BITS),
]
