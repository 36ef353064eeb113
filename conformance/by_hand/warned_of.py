"""What a transaction warns of, and in which order."""
from words import (A, B, C, CLOSE, FAILS, NOTIFY, T, X, account, add, choice, compare, deposit, deposits, deposits_nothing, ensure, has_chosen,
                   into, let, made, money, negate, no, ok, paid, pay, pays_nothing, pays_part, refund, refused, run, shadows, state, subtract, to,
                   transaction, use, when)

WAIT = when([], 100)
SHADOWS = shadows("n", 1, 2)


def warns(name, rule, contract, answer, before=None, given=None, choice=None):
    return run("warnings", name, rule, contract, answer, before, given, choice)


def binds(name, rule, rows, old, warnings, **left):
    """Lets, one after another, in a state with bound values."""
    contract = CLOSE
    for key, value in reversed(rows):
        contract = let(key, value, contract)
    return warns(name, rule, contract, ok(warnings=warnings, **left), state(bound=old), choice=["shadowing", "orders"])


CASES = [
    binds("a name that is new", "let", [("n", 1)], [], [], bound=[("n", 1)]),
    binds("a name that is bound in the state", "name bound again", [("n", 2)], [("n", 1)], [SHADOWS], bound=[("n", 2)]),
    binds("a name that a Let before bound", "name bound again", [("n", 1), ("n", 2)], [], [SHADOWS], bound=[("n", 2)]),
    binds("a name that has this number already", "name bound again", [("n", 1)], [("n", 1)], [{**SHADOWS, "new": 1}], bound=[("n", 1)]),
    binds("a name that is bound to 0", "name bound again", [("n", 2)], [("n", 0)], [{**SHADOWS, "old": 0}], bound=[("n", 2)]),
    binds("a name that becomes 0", "name bound again", [("n", 0)], [("n", 1)], [{**SHADOWS, "new": 0}], bound=[("n", 0)]),
    binds("a name three times", "name bound again", [("n", 1), ("n", 2), ("n", 3)], [], [SHADOWS, {**SHADOWS, "old": 2, "new": 3}], bound=[("n", 3)]),
    binds("another name is no shadow", "let", [("m", 2)], [("n", 1)], [], bound=[("m", 2), ("n", 1)]),
    binds("a name of another case is no shadow", "let", [("N", 2)], [("n", 1)], [], bound=[("N", 2), ("n", 1)]),
    binds("a longer name is no shadow", "let", [("nn", 2)], [("n", 1)], [], bound=[("n", 1), ("nn", 2)]),
    binds("a name that is bound by itself", "name bound again", [("n", add(use("n"), 1))], [("n", 1)], [SHADOWS], bound=[("n", 2)]),
    binds("a name and back", "name bound again", [("n", 2), ("n", 1)], [("n", 1)], [SHADOWS, {**SHADOWS, "old": 2, "new": 1}], bound=[("n", 1)]),
    binds("the empty name", "name bound again", [("", 1), ("", 2)], [], [{**SHADOWS, "name": ""}], bound=[("", 2)]),
    binds("two names, one of them again", "name bound again", [("m", 5), ("n", 2)], [("n", 1)], [SHADOWS], bound=[("m", 5), ("n", 2)]),
    binds("numbers below 0", "name bound again", [("n", -2)], [("n", -1)], [{**SHADOWS, "old": -1, "new": -2}], bound=[("n", -2)]),
    binds("the number that is new is used behind", "let", [("n", 2), ("m", use("n"))], [], [], bound=[("m", 2), ("n", 2)]),
    binds("the number that is old isn't used behind", "name bound again", [("n", 2), ("m", use("n"))], [("n", 1)], [SHADOWS],
        bound=[("m", 2), ("n", 2)]),
    warns("a choice of the name is no shadow", "let", let("n", 1), ok(choices=[made("n", A, 4)], bound=[("n", 1)]), state(choices=[made("n", A, 4)])),
    # assertions
    warns("an assertion that holds", "assert", ensure(True), ok()),
    warns("an assertion that fails", "assertion fails", ensure(False), ok(warnings=[FAILS])),
    warns("what stands behind an assertion that fails", "assertion fails", ensure(False, let("x", 1)), ok(bound=[("x", 1)], warnings=[FAILS])),
    warns("two assertions that fail", "assertion fails", ensure(False, ensure(False)), ok(warnings=[FAILS, FAILS])),
    warns("the second of two assertions fails", "assertion fails", ensure(True, ensure(False)), ok(warnings=[FAILS])),
    warns("the first of two assertions fails", "assertion fails", ensure(False, ensure(True)), ok(warnings=[FAILS])),
    warns("an assertion about money that was paid", "assertion fails", pay(3, A, to(B), ensure(compare("gt", money(A), 0))),
          ok(payments=[paid(A, to(B), 3)], warnings=[FAILS]), state([account(A, 3)])),
    warns("an assertion about money before it is paid", "assert", ensure(compare("gt", money(A), 0), pay(3, A, to(B))),
        ok(payments=[paid(A, to(B), 3)]), state([account(A, 3)])),
    warns("an assertion about a choice", "assertion fails", ensure(has_chosen("n", A)), ok(warnings=[FAILS])),
    warns("an assertion about the time", "assertion fails", ensure(compare("lt", "time_interval_end", 10)), ok(warnings=[FAILS])),
    warns("an assertion about a name", "assertion fails", let("x", 1, ensure(compare("equal_to", use("x"), 2))),
        ok(bound=[("x", 1)], warnings=[FAILS])),
    warns("an assertion that isn't so", "assertion fails", ensure(no(True)), ok(warnings=[FAILS])),
    warns("an assertion that fails and a refund", "assertion fails", ensure(False), ok(payments=[refund(A, 3)], warnings=[FAILS]),
        state([account(A, 3)])),
    # payments of nothing, and in part
    *(warns(f"a payment of {amount} to {word}", "pay of nothing", pay(amount, A, payee, WAIT),
        ok(WAIT, accounts=[account(A, 3)], warnings=[pays_nothing(A, payee, amount)]),
            state([account(A, 3)])) for amount in (0, -1, -9223372036854775808) for word,
                payee in (("a party", to(B)), ("an account", into(B)), ("itself", into(A)))),
    warns("a payment of what comes to 0", "pay of nothing", pay(subtract(2, 2), A, to(B)), ok(warnings=[pays_nothing(A, to(B), 0)])),
    warns("a payment of what an empty account holds", "pay of nothing", pay(money(A), A, to(B)), ok(warnings=[pays_nothing(A, to(B), 0)])),
    warns("a payment of a name that is absent", "pay of nothing", pay(use("x"), A, to(B)), ok(warnings=[pays_nothing(A, to(B), 0)])),
    warns("a payment of the other sign", "pay of nothing", pay(negate(2), A, to(X), token=T), ok(warnings=[pays_nothing(A, to(X), -2, T)])),
    *(warns(f"a payment of {due} of {held}", "pay in part", pay(due, A, to(B), WAIT),
        ok(WAIT, [paid(A, to(B), held)], warnings=[pays_part(A, to(B), held, due)]),
            state([account(A, held)])) for held, due in ((1, 2), (3, 5), (3, 4), (99, 100), (1, 18446744073709551615),
                (18446744073709551614, 18446744073709551615))),
    warns("twice in part", "pay in part", pay(4, A, to(B), pay(4, A, to(C))),
          ok(payments=[paid(A, to(B), 3), paid(A, to(C), 0)], warnings=[pays_part(A, to(B), 3, 4), pays_part(A, to(C), 0, 4)]),
              state([account(A, 3)]), choice="records"),
    warns("in part to an account", "pay in part", pay(4, A, into(B), WAIT),
        ok(WAIT, [paid(A, into(B), 3)], [account(B, 3)], warnings=[pays_part(A, into(B), 3, 4)]),
          state([account(A, 3)]), choice="records"),
    warns("in part of a token", "pay in part", pay(4, A, to(B), token=T),
        ok(payments=[paid(A, to(B), 3, T), refund(A, 9)], warnings=[pays_part(A, to(B), 3, 4, T)]),
          state([account(A, 9), account(A, 3, T)])),
    # deposits of nothing
    *(warns(f"a deposit of {amount} by {word}", "deposit of nothing", when([(deposit(amount, party, A), WAIT)]),
        ok(WAIT, warnings=[deposits_nothing(party, A, amount)]), state(),
            transaction(deposits(amount, party, A))) for amount in (0, -1, -7) for word, party in (("a role", B), ("an address", X))),
    warns("a deposit of a sum that is 0", "deposit of nothing", when([(deposit(subtract(1, 1), B, A), WAIT)]),
        ok(WAIT, warnings=[deposits_nothing(B, A, 0)]), state(),
          transaction(deposits(0, B, A))),
    warns("a deposit of 0 of a token", "deposit of nothing", when([(deposit(0, B, A, T), WAIT)]), ok(WAIT, warnings=[deposits_nothing(B, A, 0, T)]),
        state(),
          transaction(deposits(0, B, A, T))),
    # several
    warns("an assertion, then a name", "order of warnings", ensure(False, let("n", 2)), ok(bound=[("n", 2)], warnings=[FAILS, SHADOWS]),
        state(bound=[("n", 1)])),
    warns("a name, then an assertion", "order of warnings", let("n", 2, ensure(False)), ok(bound=[("n", 2)], warnings=[SHADOWS, FAILS]),
        state(bound=[("n", 1)])),
    warns("a part, then an assertion", "order of warnings", pay(4, A, to(B), ensure(False)),
        ok(payments=[paid(A, to(B), 3)], warnings=[pays_part(A, to(B), 3, 4), FAILS]),
          state([account(A, 3)])),
    warns("an assertion, then a part", "order of warnings", ensure(False, pay(4, A, to(B))),
        ok(payments=[paid(A, to(B), 3)], warnings=[FAILS, pays_part(A, to(B), 3, 4)]),
          state([account(A, 3)])),
    warns("nothing, then a part", "order of warnings", pay(0, A, to(B), pay(4, A, to(B))),
          ok(payments=[paid(A, to(B), 3)], warnings=[pays_nothing(A, to(B), 0), pays_part(A, to(B), 3, 4)]), state([account(A, 3)])),
    warns("a part, then nothing", "order of warnings", pay(4, A, to(B), pay(0, A, to(B))),
          ok(payments=[paid(A, to(B), 3)], warnings=[pays_part(A, to(B), 3, 4), pays_nothing(A, to(B), 0)]), state([account(A, 3)])),
    warns("a deposit of nothing, then an assertion", "order of warnings", when([(deposit(0, B, A), ensure(False))]),
        ok(warnings=[deposits_nothing(B, A, 0), FAILS]), state(),
          transaction(deposits(0, B, A))),
    warns("an assertion, then a deposit of nothing", "order of warnings", ensure(False, when([(deposit(0, B, A), CLOSE)])),
        ok(warnings=[FAILS, deposits_nothing(B, A, 0)]), state(),
          transaction(deposits(0, B, A))),
    warns("before, at and behind an input", "order of warnings", let("n", 2, when([(deposit(0, B, A), ensure(False))])),
          ok(bound=[("n", 2)], warnings=[SHADOWS, deposits_nothing(B, A, 0), FAILS]), state(bound=[("n", 1)]), transaction(deposits(0, B, A))),
    warns("two inputs with a warning each", "order of warnings", when([(deposit(0, B, A), when([(deposit(-1, C, A), CLOSE)]))]),
          ok(warnings=[deposits_nothing(B, A, 0), deposits_nothing(C, A, -1)]), state(), transaction(deposits(0, B, A), deposits(-1, C, A))),
    warns("a refusal has no warnings", "order of warnings", ensure(False, WAIT), refused("NoMatch"), state(), transaction(NOTIFY)),
]
