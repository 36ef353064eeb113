"""Texts, and what they stand for: a name, a rule, the sort, the text, and what is written back."""
import json

from words import text_case

ADA = '{"currency_symbol":"","token_name":""}'
DATA_OF_ADA = {"currency_symbol": "", "token_name": ""}
EMPTY = '{"accounts":[],"choices":[],"boundValues":[],"minTime":0}'
A, DATA_OF_A = '{"role_token":"a"}', {"role_token": "a"}
WAIT, DATA_OF_WAIT = '{"when":[],"timeout":1,"timeout_continuation":"close"}', {"when": [], "timeout": 1, "timeout_continuation": "close"}
PAY = '"token":%s,"from_account":%s,"to":{"party":%s},"then":"close"' % (ADA, A, A)
DATA_OF_PAY = {"token": DATA_OF_ADA, "from_account": DATA_OF_A, "to": {"party": DATA_OF_A}, "then": "close"}


def let(value):
    return '{"let":"x","be":%s,"then":"close"}' % value


def ensure(observation):
    return '{"assert":%s,"then":"close"}' % observation


def when(case):
    return '{"when":[%s],"timeout":1,"timeout_continuation":"close"}' % case


# forms that are written back as they stand: the sort, and texts
FORMS = {
    ("contract", "contract"): [
        '"close"', WAIT, let("1"), ensure("true"), '{"if":true,"then":"close","else":"close"}', '{"pay":1,%s}' % PAY,
        '{"pay":1,"token":%s,"from_account":%s,"to":{"account":%s},"then":"close"}' % (ADA, A, A), '{"if":false,"then":%s,"else":"close"}' % WAIT,
        '{"let":"","be":0,"then":%s}' % WAIT, '{"assert":false,"then":%s}' % let("2"), '{"when":[],"timeout":-5,"timeout_continuation":%s}' % WAIT],
    ("contract", "action"): [
        when('{"case":{"notify_if":true},"then":"close"}'), when('{"case":{"notify_if":false},"then":%s}' % WAIT),
        when('{"case":{"party":%s,"deposits":5,"of_token":%s,"into_account":%s},"then":"close"}' % (A, ADA, A)),
        when('{"case":{"for_choice":{"choice_name":"n","choice_owner":%s},"choose_between":[]},"then":"close"}' % A),
        when('{"case":{"for_choice":{"choice_name":"n","choice_owner":%s},"choose_between":[{"from":0,"to":1}]},"then":"close"}' % A),
        when('{"case":{"for_choice":{"choice_name":"n","choice_owner":%s},"choose_between":[{"from":3,"to":1},{"from":-9223372036854775808,"to":18446744073709551615}]},"then":"close"}' % A),
        when('{"case":{"notify_if":true},"then":"close"},{"case":{"notify_if":false},"then":"close"}'),
        when('{"case":{"notify_if":{"not":true}},"then":"close"}'),
        when('{"case":{"party":{"address":"x"},"deposits":{"add":1,"and":2},"of_token":{"currency_symbol":"aa","token_name":"t"},"into_account":%s},"then":"close"}' % A),
        when('{"case":{"party":%s,"deposits":-5,"of_token":%s,"into_account":{"address":""}},"then":"close"}' % (A, ADA))],
    ("contract", "value"): [let(value) for value in (
        "0", "-1", "18446744073709551615", "-9223372036854775808", '"time_interval_start"', '"time_interval_end"',
        '{"amount_of_token":%s,"in_account":%s}' % (ADA, A), '{"negate":1}', '{"add":1,"and":2}', '{"value":1,"minus":2}', '{"multiply":1,"times":2}',
        '{"divide":1,"by":2}', '{"value_of_choice":{"choice_name":"n","choice_owner":%s}}' % A, '{"use_value":"y"}', '{"if":true,"then":1,"else":2}',
        '{"negate":{"negate":{"negate":1}}}', '{"if":{"not":false},"then":{"add":1,"and":2},"else":{"use_value":""}}')],
    ("contract", "observation"): [ensure(observation) for observation in (
        "true", "false", '{"both":true,"and":false}', '{"either":true,"or":false}', '{"not":true}',
            '{"chose_something_for":{"choice_name":"n","choice_owner":%s}}' % A,
        '{"value":1,"ge_than":2}', '{"value":1,"gt":2}', '{"value":1,"lt":2}', '{"value":1,"le_than":2}', '{"value":1,"equal_to":2}',
        '{"both":{"either":true,"or":false},"and":{"not":{"value":1,"gt":{"negate":1}}}}')],
    ("input", "input"): [
        '"input_notify"', '{"input_from_party":%s,"that_deposits":5,"of_token":%s,"into_account":%s}' % (A, ADA, A),
        '{"for_choice_id":{"choice_name":"n","choice_owner":%s},"input_that_chooses_num":-1}' % A,
        '{"input_from_party":{"address":"x"},"that_deposits":-9223372036854775808,"of_token":{"currency_symbol":"00ff","token_name":"é"},"into_account":%s}' % A,
        '{"for_choice_id":{"choice_name":"","choice_owner":{"address":""}},"input_that_chooses_num":18446744073709551615}'],
    ("transaction", "input"): [
        '{"tx_interval":{"from":0,"to":10},"tx_inputs":[]}', '{"tx_interval":{"from":-3,"to":10},"tx_inputs":["input_notify","input_notify"]}',
        '{"tx_interval":{"from":10,"to":0},"tx_inputs":[]}', '{"tx_interval":{"from":-9223372036854775808,"to":9223372036854775807},"tx_inputs":[]}',
        '{"tx_interval":{"from":0,"to":0},"tx_inputs":[{"for_choice_id":{"choice_name":"n","choice_owner":%s},"input_that_chooses_num":0},"input_notify"]}' % A],
    ("contract", "names"): [let('{"amount_of_token":{"currency_symbol":"%s","token_name":"%s"},"in_account":%s}' % row) for row in (
        ("", "", '{"address":""}'), ("00", "", '{"address":"x"}'), ("ff", "t", '{"role_token":""}'), ("0123456789abcdef", "a b", '{"address":"é"}'),
            ("", "ada", A),
        ("aa", "\U0001f600", A))] + ['{"pay":1,"token":%s,"from_account":%s,"to":{"%s":{"%s":"p"}},"then":"close"}' % (ADA, A, *row) for row in (
            ("party", "address"), ("party", "role_token"), ("account", "address"), ("account", "role_token"))],
    ("state", "state"): [
        EMPTY, '{"accounts":[[[%s,%s],1]],"choices":[],"boundValues":[],"minTime":0}' % (A, ADA),
        '{"accounts":[[[%s,%s],18446744073709551615]],"choices":[],"boundValues":[],"minTime":9223372036854775807}' % (A, ADA),
        '{"accounts":[],"choices":[[{"choice_name":"n","choice_owner":%s},-1]],"boundValues":[],"minTime":-9223372036854775808}' % A,
        '{"accounts":[],"choices":[],"boundValues":[["x",0]],"minTime":6}',
            '{"accounts":[],"choices":[],"boundValues":[["",-9223372036854775808]],"minTime":-6}',
        '{"accounts":[[[{"address":"x"},%s],1],[[%s,%s],2]],"choices":[],"boundValues":[["x",1],["y",2]],"minTime":0}' % (ADA, A, ADA)],
}
CASES = []
for (of, rule), texts in FORMS.items():
    CASES += [text_case("readings", f"{rule} of {'an' if of == 'input' else 'a'} {of} ({row})", rule, of, text, {"ok": json.loads(text)}) for row, text in enumerate(texts, 1)]

FIRST = [
    ("keys of a Pay and of an Assert", "contract", '{"assert":true,"pay":1,%s}' % PAY, {"pay": 1, **DATA_OF_PAY}),
    ("keys of a Let and of an Assert", "contract", '{"assert":true,"then":"close","let":"x","be":1}', {"let": "x", "be": 1, "then": "close"}),
    ("keys of an If and of an Assert", "contract", '{"assert":true,"then":"close","if":true,"else":"close"}',
        {"if": True, "then": "close", "else": "close"}),
    ("keys of a When and of a Let", "contract", '{"let":"x","be":1,"then":"close","when":[],"timeout":1,"timeout_continuation":"close"}',
        DATA_OF_WAIT),
    ("not all keys of a Pay", "contract", '{"assert":true,"then":"close","pay":1,"token":0,"from_account":0}', {"assert": True, "then": "close"}),
    ("keys of two values", "contract", let('{"multiply":3,"times":4,"value":1,"minus":2}'),
        {"let": "x", "be": {"value": 1, "minus": 2}, "then": "close"}),
    ("keys of a sum and a quotient", "contract", let('{"divide":3,"by":4,"add":1,"and":2}'),
        {"let": "x", "be": {"add": 1, "and": 2}, "then": "close"}),
    ("keys of money and of a sign", "contract", let('{"negate":1,"amount_of_token":%s,"in_account":%s}' % (ADA, A)),
     {"let": "x", "be": {"amount_of_token": DATA_OF_ADA, "in_account": DATA_OF_A}, "then": "close"}),
    ("keys of two comparisons", "contract", ensure('{"value":1,"gt":2,"ge_than":3}'), {"assert": {"value": 1, "ge_than": 3}, "then": "close"}),
    ("keys of all comparisons", "contract", ensure('{"equal_to":1,"le_than":2,"lt":3,"gt":4,"value":0}'),
        {"assert": {"value": 0, "gt": 4}, "then": "close"}),
    ("keys of Both and Either", "contract", ensure('{"either":true,"or":true,"both":false,"and":false}'),
        {"assert": {"both": False, "and": False}, "then": "close"}),
    ("keys of a party of both kinds", "contract", let('{"amount_of_token":%s,"in_account":{"role_token":"a","address":"x"}}' % ADA),
     {"let": "x", "be": {"amount_of_token": DATA_OF_ADA, "in_account": {"address": "x"}}, "then": "close"}),
    ("keys of a payee of both kinds", "contract", '{"pay":1,"token":%s,"from_account":%s,"to":{"party":%s,"account":%s},"then":"close"}' % (ADA, A, A,
        A),
     {"pay": 1, **DATA_OF_PAY, "to": {"account": DATA_OF_A}}),
    ("keys of a case with a hash beside what follows", "contract", when('{"case":{"notify_if":true},"then":"close","merkleized_then":"aa"}'),
     {**DATA_OF_WAIT, "when": [{"case": {"notify_if": True}, "then": "close"}]}),
    ("keys of a notify and of not all of a choice", "contract", when('{"case":{"notify_if":true,"for_choice":0},"then":"close"}'),
     {**DATA_OF_WAIT, "when": [{"case": {"notify_if": True}, "then": "close"}]}),
    ("keys of both inputs", "input",
        '{"input_from_party":%s,"that_deposits":5,"of_token":%s,"into_account":%s,"for_choice_id":0,"input_that_chooses_num":0}' % (A, ADA, A),
     {"input_from_party": DATA_OF_A, "that_deposits": 5, "of_token": DATA_OF_ADA, "into_account": DATA_OF_A}),
]
CASES += [text_case("readings", name, "first form", of, text, {"ok": told}, "forms") for name, of, text, told in FIRST]

FURTHER = [
    ("beside a Let", "contract", '{"note":7,"let":"x","be":1,"then":"close"}', {"let": "x", "be": 1, "then": "close"}),
    ("beside a When, with a fault in it", "contract", '{"note":{"pay":1.5},"when":[],"timeout":1,"timeout_continuation":"close"}', DATA_OF_WAIT),
    ("beside an action", "contract", when('{"case":{"notify_if":true,"note":null},"then":"close"}'),
        {**DATA_OF_WAIT, "when": [{"case": {"notify_if": True}, "then": "close"}]}),
    ("beside a token", "contract", let('{"amount_of_token":{"currency_symbol":"","token_name":"","decimals":6},"in_account":%s}' % A),
     {"let": "x", "be": {"amount_of_token": DATA_OF_ADA, "in_account": DATA_OF_A}, "then": "close"}),
    ("beside a bound", "contract",
        when('{"case":{"for_choice":{"choice_name":"n","choice_owner":%s},"choose_between":[{"from":0,"to":1,"step":1}]},"then":"close"}' % A),
     {**DATA_OF_WAIT, "when": [{"case": {"for_choice": {"choice_name": "n", "choice_owner": DATA_OF_A}, "choose_between": [{"from": 0, "to": 1}]},
         "then": "close"}]}),
    ("beside a state", "state", '{"accounts":[],"choices":[],"boundValues":[],"minTime":0,"version":[1,[2,{"x":"y"}]]}', json.loads(EMPTY)),
    ("beside a transaction", "transaction", '{"tx_interval":{"from":0,"to":1,"zone":"UTC"},"tx_inputs":[],"fee":1.5}',
        {"tx_interval": {"from": 0, "to": 1}, "tx_inputs": []}),
    ("with an empty name", "contract", '{"":0,"assert":true,"then":"close"}', {"assert": True, "then": "close"}),
    ("whose name has another case", "contract", '{"Assert":0,"assert":true,"then":"close","Then":1}', {"assert": True, "then": "close"}),
    ("beside a deposit", "input", '{"input_from_party":%s,"that_deposits":5,"of_token":%s,"into_account":%s,"at":"noon"}' % (A, ADA, A),
     {"input_from_party": DATA_OF_A, "that_deposits": 5, "of_token": DATA_OF_ADA, "into_account": DATA_OF_A}),
]
CASES += [text_case("readings", f"a key {name}", "further keys", of, text, {"ok": told}, "forms") for name, of, text, told in FURTHER]

LAST = [
    ("a timeout twice", "contract", '{"when":[],"timeout":7,"timeout":9,"timeout_continuation":"close"}', {**DATA_OF_WAIT, "timeout": 9}),
    ("a fault that a later value takes back", "contract", '{"when":[],"timeout":1.5,"timeout":9,"timeout_continuation":"close"}',
        {**DATA_OF_WAIT, "timeout": 9}),
    ("a name twice", "contract", '{"let":"x","let":"y","be":1,"then":"close"}', {"let": "y", "be": 1, "then": "close"}),
    ("a value twice", "contract", let('{"add":1,"and":2,"add":3}'), {"let": "x", "be": {"add": 3, "and": 2}, "then": "close"}),
    ("what follows twice", "contract", '{"assert":true,"then":%s,"then":"close"}' % WAIT, {"assert": True, "then": "close"}),
    ("a key three times", "contract", '{"let":"x","be":1,"be":2,"be":3,"then":"close"}', {"let": "x", "be": 3, "then": "close"}),
    ("a key that is written with an escape", "contract", '{"let":"x","be":1,"\\u0062e":2,"then":"close"}', {"let": "x", "be": 2, "then": "close"}),
    ("a minimum time twice", "state", '{"accounts":[],"choices":[],"boundValues":[],"minTime":5,"minTime":6}',
        {"accounts": [], "choices": [], "boundValues": [], "minTime": 6}),
    ("the rows of accounts twice", "state", '{"accounts":[[[%s,%s],1]],"accounts":[],"choices":[],"boundValues":[],"minTime":0}' % (A, ADA),
        json.loads(EMPTY)),
    ("the inputs twice", "transaction", '{"tx_interval":{"from":0,"to":1},"tx_inputs":["input_notify"],"tx_inputs":[]}',
        {"tx_interval": {"from": 0, "to": 1}, "tx_inputs": []}),
]
CASES += [text_case("readings", name, "last of a key", of, text, {"ok": told}, "forms") for name, of, text, told in LAST]

ESCAPES = [
    ("in close", "contract", '"\\u0063lose"', "close"), ("in a key", "contract", '{"\\u0061ssert":true,"then":"close"}',
        {"assert": True, "then": "close"}),
    ("of all letters", "contract", '"\\u0063\\u006c\\u006f\\u0073\\u0065"', "close"),
        ("with capital digits", "contract", '{"let":"\\u00E9","be":1,"then":"close"}', {"let": "é", "be": 1, "then": "close"}),
    ("of two halves", "contract", '{"let":"\\ud83d\\ude00","be":1,"then":"close"}', {"let": "\U0001f600", "be": 1, "then": "close"}),
    ("of a quotation mark and a slash", "contract", '{"let":"\\"\\\\\\/","be":1,"then":"close"}', {"let": "\"\\/", "be": 1, "then": "close"}),
    ("of what isn't printed", "contract", '{"let":"\\b\\f\\n\\r\\t\\u0000","be":1,"then":"close"}',
        {"let": "\b\f\n\r\t\0", "be": 1, "then": "close"}),
    ("in the interval's start", "contract", let('"time\\u005finterval_start"'), {"let": "x", "be": "time_interval_start", "then": "close"}),
    ("in a symbol", "contract", let('{"amount_of_token":{"currency_symbol":"\\u0061\\u0061","token_name":""},"in_account":%s}' % A),
     {"let": "x", "be": {"amount_of_token": {"currency_symbol": "aa", "token_name": ""}, "in_account": DATA_OF_A}, "then": "close"}),
    ("in a notify", "input", '"input\\u005fnotify"', "input_notify"),
]
CASES += [text_case("readings", f"an escape {name}", "escapes", of, text, {"ok": told}) for name, of, text, told in ESCAPES]

NUMBERS = [
    ("the greatest", "contract", let("18446744073709551615"), {"let": "x", "be": 18446744073709551615, "then": "close"}),
    ("the least", "contract", let("-9223372036854775808"), {"let": "x", "be": -9223372036854775808, "then": "close"}),
    ("0", "contract", let("0"), {"let": "x", "be": 0, "then": "close"}),
    ("the greatest time", "contract", '{"when":[],"timeout":9223372036854775807,"timeout_continuation":"close"}',
        {**DATA_OF_WAIT, "timeout": 9223372036854775807}),
    ("the least time", "contract", '{"when":[],"timeout":-9223372036854775808,"timeout_continuation":"close"}',
        {**DATA_OF_WAIT, "timeout": -9223372036854775808}),
    ("the greatest of an account", "state", '{"accounts":[[[%s,%s],18446744073709551615]],"choices":[],"boundValues":[],"minTime":0}' % (A, ADA),
     {"accounts": [[[DATA_OF_A, DATA_OF_ADA], 18446744073709551615]], "choices": [], "boundValues": [], "minTime": 0}),
    ("the least of a choice", "input", '{"for_choice_id":{"choice_name":"n","choice_owner":%s},"input_that_chooses_num":-9223372036854775808}' % A,
     {"for_choice_id": {"choice_name": "n", "choice_owner": DATA_OF_A}, "input_that_chooses_num": -9223372036854775808}),
    ("blanks around", "contract", ' {"let" : "x" ,\t"be" : 1 , "then" : "close" } ', {"let": "x", "be": 1, "then": "close"}),
    ("2^53 + 1", "contract", let("9007199254740993"), {"let": "x", "be": 9007199254740993, "then": "close"}),
    ("-2^53 - 1", "contract", let("-9007199254740993"), {"let": "x", "be": -9007199254740993, "then": "close"}),
]
CASES += [text_case("readings", f"a number: {name}", "numbers read", of, text, {"ok": told}) for name, of, text, told in NUMBERS]
