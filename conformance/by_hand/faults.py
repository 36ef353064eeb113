"""Texts that aren't read, and the fault: a name, the sort, the text, the fault."""
from words import A, CLOSE, NOTIFY, account, case, notify, refused, state, text_case, transaction, when
from by_hand.readings import A as ROLE, ADA as LOVELACE, ensure, let as bound_to, when as waits


def tokens(symbol):
    return bound_to('{"amount_of_token":{"currency_symbol":%s,"token_name":""},"in_account":%s}' % (symbol, ROLE))


def held(rows):
    return '{"accounts":[%s],"choices":[],"boundValues":[],"minTime":0}' % rows


def chosen(rows):
    return '{"accounts":[],"choices":[%s],"boundValues":[],"minTime":0}' % rows


def bound(rows):
    return '{"accounts":[],"choices":[],"boundValues":[%s],"minTime":0}' % rows


def timed(time):
    return '{"accounts":[],"choices":[],"boundValues":[],"minTime":%s}' % time


def timeout(time):
    return '{"when":[],"timeout":%s,"timeout_continuation":"close"}' % time


def within(start, end, inputs=""):
    return '{"tx_interval":{"from":%s,"to":%s},"tx_inputs":[%s]}' % (start, end, inputs)


def deposits(number):
    return '{"input_from_party":%s,"that_deposits":%s,"of_token":%s,"into_account":%s}' % (ROLE, number, LOVELACE, ROLE)


def chooses(number):
    return '{"for_choice_id":{"choice_name":"n","choice_owner":%s},"input_that_chooses_num":%s}' % (ROLE, number)


def choice(bounds):
    return waits('{"case":{"for_choice":{"choice_name":"n","choice_owner":%s},"choose_between":%s},"then":"close"}' % (ROLE, bounds))


ID = '{"choice_name":"n","choice_owner":%s}' % ROLE
ACCOUNT = "[%s,%s]" % (ROLE, LOVELACE)
NO_FORM = [
    ("contract", "null"), ("contract", "true"), ("contract", "0"), ("contract", '"Close"'), ("contract", '"closes"'), ("contract", '""'),
        ("contract", "[]"), ("contract", '["close"]'),
    ("contract", "{}"), ("contract", '{"close":true}'), ("contract", '{"timeout":1,"timeout_continuation":"close"}'),
        ("contract", '{"when":[],"timeout":1}'),
    ("contract", '{"when":[],"timeout_continuation":"close"}'), ("contract", '{"assert":true}'), ("contract", '{"let":"x","then":"close"}'),
        ("contract", '{"if":true,"then":"close"}'),
    ("contract", '{"pay":1,"token":%s,"from_account":%s,"then":"close"}' % (LOVELACE, ROLE)), ("contract", timeout('"1"')),
        ("contract", timeout("null")),
    ("contract", '{"when":{},"timeout":1,"timeout_continuation":"close"}'), ("contract", waits("{}")), ("contract", waits('{"then":"close"}')),
        ("contract", waits('{"case":{"notify_if":true}}')),
    ("contract", waits('{"case":{},"then":"close"}')), ("contract", waits('{"case":"notify","then":"close"}')), ("contract", waits("[]")),
        ("contract", waits('{"case":{"notify_if":1},"then":"close"}')),
    ("contract", '{"let":1,"be":1,"then":"close"}'), ("contract", bound_to("true")), ("contract", bound_to("null")), ("contract", bound_to('"1"')),
        ("contract", bound_to('"time_interval"')),
    ("contract", bound_to("[]")), ("contract", bound_to("{}")), ("contract", bound_to('{"add":1}')), ("contract", bound_to('{"and":1}')),
        ("contract", bound_to('{"value":1}')),
    ("contract", bound_to('{"multiply":1}')), ("contract", bound_to('{"divide":1,"times":2}')), ("contract", bound_to('{"use_value":1}')),
        ("contract", bound_to('{"if":true,"then":1}')),
    ("contract", bound_to('{"value_of_choice":{"choice_name":"n"}}')), ("contract", bound_to('{"amount_of_token":%s}' % LOVELACE)),
        ("contract", ensure("0")), ("contract", ensure('"true"')), ("contract", ensure("null")), ("contract", ensure("{}")),
    ("contract", ensure('{"both":true}')), ("contract", ensure('{"either":true,"and":true}')), ("contract", ensure('{"value":1}')),
        ("contract", ensure('{"ge_than":1}')), ("contract", ensure('{"not":1}')),
    ("contract", '{"pay":1,"token":%s,"from_account":%s,"to":%s,"then":"close"}' % (LOVELACE, ROLE, ROLE)),
        ("contract", '{"pay":1,"token":%s,"from_account":{},"to":{"party":%s},"then":"close"}' % (LOVELACE, ROLE)),
    ("contract", '{"pay":1,"token":{},"from_account":%s,"to":{"party":%s},"then":"close"}' % (ROLE, ROLE)), ("contract", tokens("null")),
        ("contract", tokens("0")),
    ("contract", choice("{}")), ("contract", choice("[1]")), ("contract", choice('[{"from":0}]')), ("contract", choice('[{"to":0}]')),
    ("input", "null"), ("input", '"notify"'), ("input", '"close"'), ("input", "{}"), ("input", '{"for_choice_id":%s}' % ID),
        ("input", '{"input_that_chooses_num":1}'), ("input", deposits('"5"')), ("input", chooses("null")),
    ("transaction", "[]"), ("transaction", "{}"), ("transaction", '{"tx_inputs":[]}'), ("transaction", '{"tx_interval":{"from":0,"to":1}}'),
        ("transaction", '{"tx_interval":[0,1],"tx_inputs":[]}'),
    ("transaction", '{"tx_interval":{"from":0},"tx_inputs":[]}'), ("transaction", '{"tx_interval":{"from":0,"to":1},"tx_inputs":{}}'),
        ("transaction", within(0, 1, '"notify"')),
    ("state", "null"), ("state", "{}"), ("state", '{"accounts":[],"choices":[],"boundValues":[]}'),
        ("state", '{"accounts":[],"choices":[],"minTime":0}'), ("state", held("1")), ("state", held("[]")),
    ("state", held("[%s]" % ACCOUNT)), ("state", held("[%s,1,1]" % ACCOUNT)), ("state", held('[[%s],1]' % ROLE)),
        ("state", held('[%s,"1"]' % ACCOUNT)), ("state", chosen('["n",1]')), ("state", chosen("[%s]" % ID)),
    ("state", bound("[1,1]")), ("state", bound('["x"]')), ("state", bound('["x","1"]')), ("state", bound('{"x":1}')), ("state", timed('"0"')),
        ("state", timed("null")),
    ("state", '{"accounts":{},"choices":[],"boundValues":[],"minTime":0}'),
]
NOT_WHOLE = [
    ("contract", bound_to("1.0")), ("contract", bound_to("1.5")), ("contract", bound_to("-0")), ("contract", bound_to("1e2")),
        ("contract", bound_to("1E2")), ("contract", bound_to("-1.0")),
    ("contract", bound_to("0.0")), ("contract", bound_to("18446744073709551616")), ("contract", bound_to("-9223372036854775809")),
        ("contract", bound_to("100000000000000000000")),
    ("contract", bound_to("1e-2")), ("contract", bound_to('{"negate":1.5}')), ("contract", bound_to('{"add":1,"and":2.5}')),
        ("contract", timeout("1.0")), ("contract", timeout("18446744073709551616")),
    ("contract", timeout("-9223372036854775809")), ("contract", timeout("-0")), ("contract", choice('[{"from":0.5,"to":1}]')),
        ("contract", choice('[{"from":0,"to":1.5}]')),
    ("contract", ensure('{"value":1,"gt":1.5}')), ("input", deposits("5.0")), ("input", chooses("1e0")), ("input", deposits("18446744073709551616")),
        ("input", chooses("-9223372036854775809")),
    ("transaction", within("0.0", 1)), ("transaction", within(0, "1e1")), ("transaction", within("-0", 1)), ("state", held("[%s,1.5]" % ACCOUNT)),
        ("state", chosen("[%s,0.5]" % ID)), ("state", bound('["x",-0]')),
    ("state", timed("0.0")), ("state", bound('["x",18446744073709551616]')),
]
OUT_OF_RANGE = [
    ("contract", timeout("9223372036854775808")), ("contract", timeout("18446744073709551615")), ("contract", timeout("10000000000000000000")),
        ("contract", waits('{"case":{"notify_if":true},"then":%s}' % timeout("9223372036854775808"))),
    ("transaction", within("9223372036854775808", 0)), ("transaction", within(0, "9223372036854775808")),
        ("transaction", within(0, "18446744073709551615")),
    ("state", timed("9223372036854775808")), ("state", timed("18446744073709551615")),
        ("contract", '{"when":[],"timeout":1,"timeout_continuation":%s}' % timeout("9223372036854775809")),
]
BAD_HEX = [
    ("contract", tokens('"a"')), ("contract", tokens('"abc"')), ("contract", tokens('"zz"')), ("contract", tokens('"0x00"')),
        ("contract", tokens('" aa"')), ("contract", tokens('"aa "')), ("contract", tokens('"a a"')),
    ("contract", tokens('"é"')), ("contract", tokens('"ag"')), ("contract", tokens('"-1"')), ("contract", tokens('"+1"')),
        ("contract", tokens('"aa\\u0000"')), ("contract", tokens('"\\uff11\\uff11"')),
    ("input", '{"input_from_party":%s,"that_deposits":5,"of_token":{"currency_symbol":"a","token_name":""},"into_account":%s}' % (ROLE, ROLE)),
    ("state", held('[[%s,{"currency_symbol":"abc","token_name":""}],1]' % ROLE)),
        ("contract", '{"pay":1,"token":{"currency_symbol":"g0","token_name":""},"from_account":%s,"to":{"party":%s},"then":"close"}' % (ROLE, ROLE)),
]
MERKLEIZED = [
    ("contract", waits('{"case":{"notify_if":true},"merkleized_then":"aa"}')), ("contract", waits('{"case":0,"merkleized_then":0}')),
        ("contract", waits('{"case":{"notify_if":true},"merkleized_then":"close"}')),
    ("contract", waits('{"case":{"notify_if":true},"then":"close"},{"case":{"notify_if":true},"merkleized_then":""}')),
        ("contract", waits('{"case":null,"merkleized_then":null}')),
    ("contract", '{"assert":true,"then":%s}' % waits('{"case":{"notify_if":true},"merkleized_then":"aa"}')),
        ("contract", waits('{"case":{"notify_if":1.5},"merkleized_then":"aa"}')),
    ("contract", '{"when":[],"timeout":1,"timeout_continuation":%s}' % waits('{"case":{"notify_if":true},"merkleized_then":"aa"}')),
        ("contract", waits('{"merkleized_then":"aa","case":{},"note":1}')),
    ("contract", waits('{"case":{"notify_if":true},"then":%s}' % waits('{"case":{"notify_if":true},"merkleized_then":"aa"}'))),
]
TWICE = "[%s,1],[%s,2]" % (ACCOUNT, ACCOUNT)
BAD_STATE = [
    ("state", held("[%s,0]" % ACCOUNT)), ("state", held("[%s,-1]" % ACCOUNT)), ("state", held("[%s,-9223372036854775808]" % ACCOUNT)),
        ("state", held(TWICE)), ("state", held("[%s,1],[%s,1]" % (ACCOUNT, ACCOUNT))),
    ("state", chosen("[%s,1],[%s,2]" % (ID, ID))), ("state", bound('["x",1],["x",1]')), ("state", bound('["x",1],["y",2],["x",3]')),
        ("state", held('[[%s,{"currency_symbol":"aa","token_name":""}],1],[[%s,{"currency_symbol":"AA","token_name":""}],2]' % (ROLE, ROLE))),
    ("state", bound('["\\u0078",1],["x",2]')), ("state", held("[%s,1],[%s,0]" % (ACCOUNT, ACCOUNT))), ("state", chosen("[%s,0],[%s,0]" % (ID, ID))),
]
FAULTS = {"NoForm": (NO_FORM, None), "NotWhole": (NOT_WHOLE, "whole numbers"), "OutOfRange": (OUT_OF_RANGE, "times"), "BadHex": (BAD_HEX, None),
    "Merkleized": (MERKLEIZED, "merkleized"),
          "BadState": (BAD_STATE, "states")}
CASES = []
for fault, (rows, rests) in FAULTS.items():
    CASES += [text_case("faults", f"{fault} ({row})", fault, of, text, fault,
        rests or ("states" if of in ("state", "transaction") else None)) for row, (of, text) in enumerate(rows, 1)]

FIRST = [
    ("a timeout before what follows it", "contract", '{"when":[],"timeout":1.0,"timeout_continuation":7}', "NotWhole"),
    ("the form before a timeout", "contract", '{"when":[],"timeout":1.0}', "NoForm"),
        ("cases before a timeout", "contract", '{"when":{},"timeout":1.0,"timeout_continuation":"close"}', "NoForm"),
    ("a hash before a timeout", "contract", '{"when":[{"case":0,"merkleized_then":0}],"timeout":1.0,"timeout_continuation":"close"}', "Merkleized"),
    ("an earlier case before a later one", "contract", waits('{"case":{"notify_if":1},"then":"close"},{"case":0,"merkleized_then":0}'), "NoForm"),
    ("a later case once the earlier ones are read", "contract", waits('{"case":{"notify_if":true},"then":"close"},{"case":0,"merkleized_then":0}'),
        "Merkleized"),
    ("an action before what follows it", "contract", waits('{"case":{"notify_if":1},"then":%s}' % timeout("1.0")), "NoForm"),
    ("a value before a token", "contract", '{"pay":1.5,"token":{"currency_symbol":"a","token_name":""},"from_account":0,"to":0,"then":0}',
        "NotWhole"),
    ("a token before an account", "contract", '{"pay":1,"token":{"currency_symbol":"a","token_name":""},"from_account":0,"to":0,"then":0}', "BadHex"),
    ("a name before its value", "contract", '{"let":1,"be":1.5,"then":"close"}', "NoForm"),
        ("the left of a sum before the right", "contract", bound_to('{"add":"x","and":1.5}'), "NoForm"),
    ("the left of a sum before the right, though it stands behind", "contract", bound_to('{"and":1.5,"add":"x"}'), "NoForm"),
        ("a symbol before a name", "contract", bound_to('{"amount_of_token":{"currency_symbol":"a","token_name":1},"in_account":0}'), "BadHex"),
    ("the start of an interval before its end", "transaction", within("1.0", "9223372036854775808"), "NotWhole"),
        ("an interval before inputs", "transaction", '{"tx_interval":{"from":0,"to":9223372036854775808},"tx_inputs":0}', "OutOfRange"),
    ("accounts before choices", "state", '{"accounts":[[%s,0]],"choices":0,"boundValues":[],"minTime":0}' % ACCOUNT, "BadState"),
        ("choices before bound values", "state", '{"accounts":[],"choices":[[%s,1.5]],"boundValues":0,"minTime":0}' % ID, "NotWhole"),
    ("bound values before the time", "state", '{"accounts":[],"choices":[],"boundValues":[["x",1],["x",1]],"minTime":1.5}', "BadState"),
        ("a row's key before its number", "state", held('[[%s,{"currency_symbol":"a","token_name":""}],0]' % ROLE), "BadHex"),
    ("an earlier row before a later one", "state", held("[%s,1.5],[%s,0]" % (ACCOUNT, ACCOUNT)), "NotWhole"),
        ("a number of 0 before the key that comes again", "state", held("[%s,0],[%s,1.5]" % (ACCOUNT, ACCOUNT)), "BadState"),
    ("a party before the amount of a deposit", "input", '{"input_from_party":0,"that_deposits":1.5,"of_token":0,"into_account":0}', "NoForm"),
        ("an amount before the token of a deposit", "input", '{"input_from_party":%s,"that_deposits":1.5,"of_token":0,"into_account":0}' % ROLE,
            "NotWhole"),
    ("the start of a bound before its end", "contract", choice('[{"from":1.5,"to":"x"}]'), "NotWhole"),
        ("a choice before its bounds", "contract", waits('{"case":{"for_choice":{},"choose_between":[{"from":1.5,"to":1}]},"then":"close"}'),
            "NoForm"),
]
CASES += [text_case("faults", name, "first fault", of, text, fault, "order of faults") for name, of, text, fault in FIRST]

BAD_CONTRACT, BAD_STATE_DATA, BAD_TRANSACTION = {"when": []}, state([account(A, 0)]), {"tx_interval": {"from": 0, "to": 2**63}, "tx_inputs": []}
TEXTS = [
    ("all three", BAD_CONTRACT, BAD_STATE_DATA, BAD_TRANSACTION, "contract", "NoForm"),
        ("contract and state", BAD_CONTRACT, BAD_STATE_DATA, transaction(), "contract", "NoForm"),
    ("contract and transaction", BAD_CONTRACT, state(), BAD_TRANSACTION, "contract", "NoForm"),
        ("the contract alone", BAD_CONTRACT, state(), transaction(), "contract", "NoForm"),
    ("state and transaction", CLOSE, BAD_STATE_DATA, BAD_TRANSACTION, "state", "BadState"),
        ("the state alone", CLOSE, BAD_STATE_DATA, transaction(), "state", "BadState"),
    ("the transaction alone", CLOSE, state(), BAD_TRANSACTION, "transaction", "OutOfRange"),
        ("the transaction alone, of a contract that would refuse it", CLOSE, state(time=5), BAD_TRANSACTION, "transaction", "OutOfRange"),
    ("the state alone, in an interval that is past", CLOSE, {**BAD_STATE_DATA, "minTime": 50}, transaction(), "state", "BadState"),
    ("an input of the transaction alone", when([(notify(), CLOSE)]), state(), transaction("notify"), "transaction", "NoForm"),
    ("an input that no case takes, in a transaction that isn't read", CLOSE, state(), {"tx_inputs": [NOTIFY]}, "transaction", "NoForm"),
    ("a contract in place of the state", CLOSE, when([]), transaction(), "state", "NoForm"),
        ("a state in place of the contract", state(), state(), transaction(), "contract", "NoForm"),
]
CASES += [case("faults", f"of a run: {name}", "first text", {"run": {"contract": contract, "state": before, "transaction": given}},
    refused(fault, of), "states")
          for name, contract, before, given, of, fault in TEXTS]
