"""Lines of the stream that are no requests, ids of every kind, runs of many transactions, and runs that end in a warning."""
from words import (A, B, CLOSE, FAILS, NOTIFY, X, account, case, choice, chosen, chooses, compare, deposit, deposits, deposits_nothing, ensure, let,
    line_case,
                   made, multiply, notify, ok, paid, pay, pays_nothing, pays_part, refund, refused, shadows, state, subtract, to, transaction, use,
                       when)

WAIT = when([], 100)
CLOSES = '{"read":{"contract":"close"}}'
READ = '"read":{"contract":"close"}'


def line(name, rule, text, answer, given=None, choice=None):
    return {**line_case("lines", name, rule, text, answer, choice), "id": given}


def asks(name, rule, ask, answer):
    """A request by its text behind the id."""
    return {**line_case("lines", name, rule, '{"id":0,%s}' % ask, answer), "id": 0}


NOT_JSON, TOO_LONG, NO_OBJECT, NO_REQUEST = (refused(name, "line") for name in ("NotJson", "TooLong", "NoObject", "NoRequest"))
LIMIT = 4 * 1_048_576
DEEP = '{"timeout":1,"when":[],"timeout_continuation":'
CASES = [line(name, "NotJson", text, NOT_JSON) for name, text in (
    ("an empty line", ""), ("blanks alone", "   "), ("half a request", '{"id":1,' + READ), ("a bracket too many", '{"id":1,%s}}' % READ),
        ("a comma too many", '{"id":1,%s,}' % READ),
    ("no quotation marks", "{id:1,read:{contract:close}}"), ("single quotation marks", "{'id':1}"), ("a word", "close"),
        ("two texts on a line", "%s %s" % (CLOSES, CLOSES)),
    ("a number that begins with 0", '{"id":01,%s}' % READ), ("a number with a plus",
        '{"id":1,"read":{"contract":{"let":"x","be":+1,"then":"close"}}}'),
    ("a number that ends with a point", '{"id":1,"read":{"contract":{"let":"x","be":1.,"then":"close"}}}'),
        ("no number", '{"id":1,"read":{"contract":{"let":"x","be":NaN,"then":"close"}}}'),
    ("a number too large for a float", '{"id":1,"read":{"contract":{"let":"x","be":1e400,"then":"close"}}}'),
        ("half an escape", '{"id":1,"read":{"contract":"\\u00"}}'),
    ("an escape that is none", '{"id":1,"read":{"contract":"\\x63lose"}}'), ("half of a pair of escapes", '{"id":1,"read":{"contract":"\\ud83d"}}'),
    ("a tab inside a text", '{"id":1,"read":{"contract":"clo\tse"}}'), ("a comment", '{"id":1,%s} // close' % READ),
        ("True in capitals", '{"id":1,"read":{"contract":{"assert":True,"then":"close"}}}'),
    ("a byte that is no letter", ['{"id":1,"read":{"contract":"', 255, '"}}']),
    ("a letter of two bytes, the second left out", ['{"id":"', 195, '",%s}' % READ]),
    ("a letter of three bytes, the last left out", ['{"id":"', 226, 130, '",%s}' % READ]),
    ("half of a pair as a letter", ['{"id":"', 237, 160, 128, '",%s}' % READ]),
    ("a letter in more bytes than it needs", ['{"id":"', 192, 128, '",%s}' % READ]), ("a mark of bytes before it", [239, 187, 191, CLOSES]))]
CASES += [line(f"no object: {text}", "NoObject", text, NO_OBJECT) for text in
    ("7", "-1", "0.5", '"close"', '""', "[]", "[%s]" % CLOSES, "null", "true", "false", "[[]]", " 7 ", '"{}"')]
CASES += [line(f"no request: {text}", "NoRequest", text, NO_REQUEST, given) for text, given in (
    ("{}", None), ('{"id":7}', 7), ('{"id":"run"}', "run"), ('{"id":7,"Run":{}}', 7), ('{"id":7,"ran":{}}', 7), ('{"id":7,"run ":{}}', 7),
    ('{"id":7,"":{}}', 7), ('{"id":7,"contract":"close"}', 7), ('{"id":7,"note":%s}' % CLOSES, 7), ('{"id":7,"id":8}', 8),
    ('{"reads":{"contract":"close"}}', None), ('{"id":{"run":{}}}', {"run": {}}))]
NO_STATE = '{"tx_interval":{"from":5,"to":9},"tx_inputs":["input_notify"]}'
TAKES = '{"when":[{"case":{"notify_if":true},"then":"close"}],"timeout":100,"timeout_continuation":"close"}'
CASES += [asks(name, "left out", text, answer) for name, text, answer in (
    ("a run without a state", '"run":{"contract":%s,"transaction":%s}' % (TAKES, NO_STATE), ok(time=5)),
    ("a trace without a state", '"trace":{"contract":%s,"transactions":[%s]}' % (TAKES, NO_STATE), {"ok": [ok(time=5)["ok"]]}),
    ("a trace without transactions", '"trace":{"contract":"close"}', {"ok": []}),
    ("a trace without transactions from a state", '"trace":{"contract":"close","state":{"accounts":[],"choices":[],"boundValues":[],"minTime":3}}', {"ok": []}),
    ("a trace of transactions of which there are none", '"trace":{"contract":"close","transactions":[]}', {"ok": []}),
    ("a run without a contract", '"run":{"transaction":%s}' % NO_STATE, refused("NoForm", "contract")),
    ("a run without a transaction", '"run":{"contract":"close"}', refused("NoForm")),
    ("a run of nothing", '"run":{}', refused("NoForm", "contract")),
    ("a trace of nothing", '"trace":{}', refused("NoForm", "contract")),
    ("a run that is no object", '"run":7', refused("NoForm", "contract")),
    ("a trace that is no object", '"trace":[]', refused("NoForm", "contract")),
    ("a state that is null", '"run":{"contract":%s,"state":null,"transaction":%s}' % (TAKES, NO_STATE), refused("NoForm", "state")),
    ("nothing to read", '"read":{}', refused("NoForm", "read")),
    ("something else to read", '"read":{"value":1}', refused("NoForm", "read")),
    ("two things to read, of which the contract is read", '"read":{"input":7,"contract":"close"}', {"ok": "close"}),
    ("a run and something to read", '"read":{"contract":7},"run":{"contract":%s,"transaction":%s}' % (TAKES, NO_STATE), ok(time=5)),
    ("a trace and a run", '"trace":{},"run":{"contract":%s,"transaction":%s}' % (TAKES, NO_STATE), ok(time=5)))]
CASES += [
    line("130 levels", "NotJson", ['{"id":0,"read":{"contract":', [128, DEEP], '"close"', [128, "}"], "}}"], NOT_JSON, choice="limits"),
    line("130 levels of lists in a key that nobody reads", "NotJson", ['{"id":0,"note":', [129, "["], [129, "]"], ",%s}" % READ], NOT_JSON,
        choice="limits"),
    line("129 levels of lists in a key that nobody reads", "id", ['{"id":0,"note":', [128, "["], [128, "]"], ",%s}" % READ], {"ok": "close"}, 0,
        "limits"),
    *(line(f"a line of {more} bytes more than 4 MiB", "TooLong", ['{"id":0,%s' % READ, [LIMIT - 36 + more, " "], "}"], TOO_LONG,
        choice="limits") for more in (1, 2, 1000)),
    line("blanks of more than 4 MiB", "TooLong", [[LIMIT + 1, " "]], TOO_LONG, choice="limits"),
        line("a text of more than 4 MiB", "TooLong", ['{"id":"', [LIMIT, "x"], '"}'], TOO_LONG, choice="limits"),
    line("brackets of more than 4 MiB", "TooLong", [[LIMIT + 1, "["]], TOO_LONG, choice="limits"),
    line("a line of just 4 MiB", "id", ['{"id":0,%s' % READ, [LIMIT - 36, " "], "}"], {"ok": "close"}, 0, "limits"),
]
IDS = [("a number", "7", 7), ("0", "0", 0), ("a number below 0", "-1", -1), ("a great number", "18446744073709551615", 18446744073709551615),
    ("a text", '"seven"', "seven"), ("the empty text", '""', ""),
       ("a list", '[1,"a",[]]', [1, "a", []]), ("an object", '{"a":{"b":null}}', {"a": {"b": None}}), ("null", "null", None), ("true", "true", True),
           ("a text with an escape", '"\\u0041"', "A")]
CASES += [line(f"an id that is {name}", "id", '{"id":%s,%s}' % (text, READ), {"ok": "close"}, given) for name, text, given in IDS]
CASES += [line("no id", "id", CLOSES, {"ok": "close"}), line("an id behind what is asked", "id", "{%s,\"id\":4}" % READ, {"ok": "close"}, 4),
    line("an id that stands twice", "id", '{"id":1,%s,"id":2}' % READ, {"ok": "close"}, 2),
          line("a key that nobody knows", "id", '{"id":5,"note":[1.5,{"run":0}],%s}' % READ, {"ok": "close"}, 5),
              line("blanks around", "id", ' {"id" : 6 ,\t%s } ' % READ, {"ok": "close"}, 6),
          line("an id of a refusal", "id", '{"id":"x","read":{"contract":"Close"}}', refused("NoForm", "contract"), "x")]


# ---- runs of many transactions

def trace(name, rule, contract, given, told, before=None, choice=None, subject="traces"):
    """A trace, and its outcomes; its refusal, where a text isn't read; or both, where a transaction is refused."""
    ask = {"contract": contract, "transactions": given, **({"state": before} if before else {})}
    outcomes, refusal = told if isinstance(told, tuple) else (told, {})
    answer = told if isinstance(told, dict) else {"ok": [outcome["ok"] for outcome in outcomes], **refusal}
    return case(subject, name, rule, {"trace": ask}, answer, choice)


def at(*inputs, start=0, end=10):
    return transaction(*inputs, within=(start, end))


SECOND = when([(notify(), let("x", 1))])
FIRST = when([(notify(), SECOND)])
FIVE = deposit(5, B, A)
PAYS = when([(FIVE, when([(notify(), pay(3, A, to(X)))], 50, CLOSE))], 20)
PAYS_LATER = when([(notify(), pay(3, A, to(X)))], 50, CLOSE)
CHOOSES = when([(choice("n", A, (0, 9)), when([(choice("n", A, (0, 9)), let("x", chosen("n", A), WAIT))]))])
CHOOSES_AGAIN = when([(choice("n", A, (0, 9)), let("x", chosen("n", A), WAIT))])
CASES += [
    trace("no transactions", "goes on", CLOSE, [], []),
    trace("one transaction", "goes on", SECOND, [at(NOTIFY)], [ok(bound=[("x", 1)])]),
    trace("two transactions", "goes on", FIRST, [at(NOTIFY), at(NOTIFY)], [ok(SECOND), ok(bound=[("x", 1)])]),
    trace("a deposit, then a payment", "goes on", PAYS, [at(deposits(5, B, A)), at(NOTIFY)],
        [ok(PAYS_LATER, accounts=[account(A, 5)]), ok(payments=[paid(A, to(X), 3), refund(A, 2)])]),
    trace("a deposit, then a timeout", "goes on", PAYS, [at(deposits(5, B, A)), at(start=50, end=60)],
        [ok(PAYS_LATER, accounts=[account(A, 5)]), ok(payments=[refund(A, 5)], time=50)]),
    trace("a timeout with nothing held", "goes on", PAYS, [at(start=20, end=30)], [ok(time=20)]),
    trace("a choice that is made again", "goes on", CHOOSES, [at(chooses("n", A, 3)), at(chooses("n", A, 4))],
        [ok(CHOOSES_AGAIN, choices=[made("n", A, 3)]), ok(WAIT, choices=[made("n", A, 4)], bound=[("x", 4)])]),
    trace("time goes on", "goes on", FIRST, [at(NOTIFY, start=5), at(NOTIFY, start=7)], [ok(SECOND, time=5), ok(bound=[("x", 1)], time=7)]),
    trace("the second start is moved up", "goes on", FIRST, [at(NOTIFY, start=5), at(NOTIFY, start=3)],
        [ok(SECOND, time=5), ok(bound=[("x", 1)], time=5)]),
    trace("from a state", "goes on", SECOND, [at(NOTIFY)], [ok(payments=[refund(A, 4)], choices=[made("n", A, 1)], bound=[("x", 1)], time=3)],
        state([account(A, 4)], [made("n", A, 1)], time=3)),
    trace("a number that JSON doesn't have goes on", "goes on",
        let("x", multiply(4, 2**63), when([(notify(), let("y", subtract(use("x"), 2**64 - 1)))])), [at(), at(NOTIFY)],
          [ok(when([(notify(), let("y", subtract(use("x"), 2**64 - 1)))]), bound=[("x", 2**65)]), ok(bound=[("x", 2**65), ("y", 2**64 + 1)])],
              choice=["texts of digits", "orders"]),
    trace("an account that grows beyond what JSON has", "goes on", when([(deposit(2**64 - 1, B, A), when([(deposit(1, B, A), CLOSE)]))]),
        [at(deposits(2**64 - 1, B, A)), at(deposits(1, B, A))],
          [ok(when([(deposit(1, B, A), CLOSE)]), accounts=[account(A, 2**64 - 1)]), ok(payments=[refund(A, 2**64)])], choice="texts of digits"),
    trace("an outcome's warnings are its own", "goes on", ensure(False, SECOND), [at(), at(NOTIFY)],
        [ok(SECOND, warnings=[FAILS]), ok(bound=[("x", 1)])]),
    # the first refusal ends it
    trace("the first is refused", "stops", SECOND, [at()], ([], refused("Useless", number=1))),
    trace("the second matches nothing", "stops", FIRST, [at(NOTIFY), at(deposits(5, B, A))], ([ok(SECOND)], refused("NoMatch", number=2))),
    trace("the second is useless", "stops", FIRST, [at(NOTIFY), at()], ([ok(SECOND)], refused("Useless", number=2))),
    trace("the second is in the past", "stops", FIRST, [at(NOTIFY, start=5), at(NOTIFY, end=4)], ([ok(SECOND, time=5)], refused("IntervalInPast", number=2))),
    trace("the second ends before it starts", "stops", FIRST, [at(NOTIFY), at(NOTIFY, start=9, end=8)], ([ok(SECOND)], refused("InvalidInterval", number=2))),
    trace("the second is ambiguous", "stops", FIRST, [at(NOTIFY), at(NOTIFY, start=50, end=150)], ([ok(SECOND)], refused("Ambiguous", number=2))),
    trace("the third finds it closed", "stops", FIRST, [at(NOTIFY), at(NOTIFY), at(NOTIFY)],
        ([ok(SECOND), ok(bound=[("x", 1)])], refused("NoMatch", number=3))),
    trace("the third is useless", "stops", FIRST, [at(NOTIFY), at(NOTIFY), at()],
        ([ok(SECOND), ok(bound=[("x", 1)])], refused("Useless", number=3))),
    trace("of three the second is refused", "stops", FIRST, [at(NOTIFY), at(), at(NOTIFY)], ([ok(SECOND)], refused("Useless", number=2))),
    trace("a close that has paid is useless then", "stops", CLOSE, [at(), at()],
        ([ok(payments=[refund(A, 4)])], refused("Useless", number=2)), state([account(A, 4)])),
    trace("a number that leaves 128 bits later", "stops", let("x", multiply(2**63, 2**63), when([(notify(), let("y", multiply(use("x"), 2)))])),
        [at(), at(NOTIFY)],
        ([ok(when([(notify(), let("y", multiply(use("x"), 2)))]), bound=[("x", 2**126)])], refused("Leaves128", number=2)),
        choice=["128 bits", "texts of digits"]),
    # all are read first
    trace("the first isn't read", "all are read", FIRST, [{}], refused("NoForm", "transaction", number=1), choice="states"),
    trace("the second isn't read", "all are read", FIRST, [at(NOTIFY), at("notify")], refused("NoForm", "transaction", number=2), choice="states"),
    trace("the third isn't read", "all are read", FIRST, [at(NOTIFY), at(NOTIFY), {"tx_inputs": []}], refused("NoForm", "transaction", number=3),
        choice="states"),
    trace("the first is refused, the second isn't read", "all are read", FIRST, [at(), {}], refused("NoForm", "transaction", number=2),
        choice="states"),
    trace("two aren't read", "all are read", FIRST, [at(NOTIFY), at(start=2**63), {}], refused("OutOfRange", "transaction", number=2),
        choice="states"),
    trace("a time in the second", "all are read", FIRST, [at(NOTIFY), at(NOTIFY, end=2**63)], refused("OutOfRange", "transaction", number=2),
        choice="states"),
    trace("a number in the second", "all are read", FIRST, [at(NOTIFY), at(deposits(2**64, B, A))], refused("NotWhole", "transaction", number=2),
        choice="states"),
    trace("the contract isn't read", "all are read", {"when": []}, [{}], refused("NoForm", "contract"), choice="states"),
    trace("the state isn't read", "all are read", FIRST, [{}], refused("BadState", "state"), state([account(A, 0)]), choice="states"),
    trace("the state isn't read, and no transaction is there", "all are read", FIRST, [], refused("BadState", "state"), state([account(A, -1)]),
        choice="states"),
]


# ---- up to a warning

def warned(kind, name, contract, given, outcomes, before=None, choice=None):
    return trace(name, f"run to {kind}", contract, given, outcomes, before, choice, "warned")


# a deposit of a chosen number, and payments of it
BY_CHOICE = when([(choice("n", A, (-1, 5)), when([(deposit(chosen("n", A), B, A), CLOSE)]))])
THEN_DEPOSIT = when([(deposit(chosen("n", A), B, A), CLOSE)])
THEN_PAY = pay(chosen("n", A), A, to(B))
BY_NUMBER = when([(choice("n", A, (0, 9)), THEN_PAY)])
AFTER_FIVE = when([(FIVE, BY_NUMBER)])
for number in (0, -1):
    CASES.append(warned("NonPositiveDeposit", f"a deposit of the number that is chosen, {number}", BY_CHOICE,
        [at(chooses("n", A, number)), at(deposits(number, B, A))],
                        [ok(THEN_DEPOSIT, choices=[made("n", A, number)]),
                            ok(choices=[made("n", A, number)], warnings=[deposits_nothing(B, A, number)])]))
CASES.append(warned("NonPositiveDeposit", "a deposit of the number that is chosen, 1, warns of nothing", BY_CHOICE,
    [at(chooses("n", A, 1)), at(deposits(1, B, A))],
                    [ok(THEN_DEPOSIT, choices=[made("n", A, 1)]), ok(payments=[refund(A, 1)], choices=[made("n", A, 1)])]))
for number, warnings in ((0, [pays_nothing(A, to(B), 0)]), (5, []), (6, [pays_part(A, to(B), 5, 6)]), (9, [pays_part(A, to(B), 5, 9)])):
    payments = [paid(A, to(B), min(number, 5))] * bool(number) + [refund(A, 5 - number)] * (number < 5)
    kind = "NonPositivePay" if number == 0 else "PartialPay"
    CASES.append(warned(kind, f"a payment of the number that is chosen, {number} of 5", AFTER_FIVE,
        [at(deposits(5, B, A)), at(chooses("n", A, number))],
                        [ok(BY_NUMBER, accounts=[account(A, 5)]), ok(payments=payments, choices=[made("n", A, number)], warnings=warnings)]))
NAMES = let("x", 1, when([(notify(), let("x", 2))]))
CHECKED = when([(choice("n", A, (0, 9)), ensure(compare("lt", chosen("n", A), 5)))])
CASES += [
    warned("Shadowing", "a name that is bound again behind an input", NAMES, [at(), at(NOTIFY)],
           [ok(when([(notify(), let("x", 2))]), bound=[("x", 1)]), ok(bound=[("x", 2)], warnings=[shadows("x", 1, 2)])]),
    warned("Shadowing", "a name of the state", let("x", 2), [at()], [ok(bound=[("x", 2)], warnings=[shadows("x", 1, 2)])], state(bound=[("x", 1)])),
    warned("Shadowing", "another name of the state", let("y", 2), [at()], [ok(bound=[("x", 1), ("y", 2)])], state(bound=[("x", 1)]), "orders"),
    *(warned("AssertionFailed", f"an assertion on the number that is chosen, {number}", CHECKED, [at(chooses("n", A, number))],
        [ok(choices=[made("n", A, number)], warnings=[FAILS] * (number >= 5))])
      for number in (0, 4, 5, 9)),
]
