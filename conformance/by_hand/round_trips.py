"""Texts that are written otherwise than they are written back."""
import json

from words import text_case

ADA = '{"token_name":"","currency_symbol":""}'
A, X = '{"role_token":"a"}', '{"address":"x"}'
START = {"accounts": [], "boundValues": [], "choices": [], "minTime": 0}
OF_ADA, OF_A, OF_X = {"currency_symbol": "", "token_name": ""}, {"role_token": "a"}, {"address": "x"}


def named(name, owner):
    return {"choice_name": name, "choice_owner": owner}


CANONICAL = [
    ("capital digits of a symbol", "contract",
        '{"let":"x","be":{"in_account":%s,"amount_of_token":{"token_name":"t","currency_symbol":"AaBb"}},"then":"close"}' % A,
     {"let": "x", "be": {"in_account": OF_A, "amount_of_token": {"token_name": "t", "currency_symbol": "aabb"}}, "then": "close"}),
    ("capital digits in a deposit", "input",
        '{"that_deposits":1,"of_token":{"token_name":"","currency_symbol":"FF"},"into_account":%s,"input_from_party":%s}' % (A, X),
     {"that_deposits": 1, "of_token": {"token_name": "", "currency_symbol": "ff"}, "into_account": OF_A, "input_from_party": OF_X}),
    ("capital digits in a state", "state",
        '{"minTime":0,"boundValues":[],"choices":[],"accounts":[[[%s,{"currency_symbol":"0A","token_name":""}],1]]}' % A,
     {**START, "accounts": [[[OF_A, {"currency_symbol": "0a", "token_name": ""}], 1]]}),
    ("capital digits in a payment", "contract",
        '{"pay":1,"token":{"currency_symbol":"CAFE","token_name":""},"from_account":%s,"to":{"account":%s},"then":"close"}' % (A, X),
     {"pay": 1, "token": {"currency_symbol": "cafe", "token_name": ""}, "from_account": OF_A, "to": {"account": OF_X}, "then": "close"}),
    ("capital letters of a name stay", "contract", '{"let":"ABC","be":1,"then":"close"}', {"let": "ABC", "be": 1, "then": "close"}),
    ("blanks of a name stay", "contract", '{"let":" a  b ","be":1,"then":"close"}', {"let": " a  b ", "be": 1, "then": "close"}),
    ("further keys go", "contract", '{"z":1,"let":"x","a":2,"be":1,"then":"close"}', {"let": "x", "be": 1, "then": "close"}),
    ("further keys of a case go", "contract",
        '{"when":[{"z":1,"case":{"notify_if":true,"y":2},"then":"close"}],"timeout":1,"timeout_continuation":"close"}',
     {"when": [{"case": {"notify_if": True}, "then": "close"}], "timeout": 1, "timeout_continuation": "close"}),
    ("further keys of a party go", "input",
        '{"for_choice_id":{"choice_name":"n","choice_owner":{"role_token":"a","note":1}},"input_that_chooses_num":3}',
     {"for_choice_id": named("n", OF_A), "input_that_chooses_num": 3}),
    ("further keys of an interval go", "transaction", '{"tx_inputs":[],"tx_interval":{"to":9,"from":0,"at":5}}',
        {"tx_inputs": [], "tx_interval": {"to": 9, "from": 0}}),
    ("cases keep their order", "contract",
        '{"when":[{"case":{"notify_if":true},"then":"close"},{"case":{"notify_if":false},"then":"close"}],"timeout":1,"timeout_continuation":"close"}',
     {"when": [{"case": {"notify_if": True}, "then": "close"}, {"case": {"notify_if": False}, "then": "close"}], "timeout": 1,
         "timeout_continuation": "close"}),
    ("equal cases stay two", "contract",
        '{"when":[{"case":{"notify_if":true},"then":"close"},{"case":{"notify_if":true},"then":"close"}],"timeout":1,"timeout_continuation":"close"}',
     {"when": [{"case": {"notify_if": True}, "then": "close"}] * 2, "timeout": 1, "timeout_continuation": "close"}),
    ("bounds keep their order", "contract",
        '{"when":[{"case":{"for_choice":{"choice_owner":%s,"choice_name":"n"},"choose_between":[{"to":9,"from":5},{"to":1,"from":0}]},"then":"close"}],"timeout":1,"timeout_continuation":"close"}' % A,
     {"when": [{"case": {"for_choice": named("n", OF_A), "choose_between": [{"from": 5, "to": 9}, {"from": 0, "to": 1}]}, "then": "close"}],
         "timeout": 1, "timeout_continuation": "close"}),
    ("inputs keep their order", "transaction",
        '{"tx_inputs":["input_notify",{"input_that_chooses_num":3,"for_choice_id":{"choice_owner":%s,"choice_name":"n"}},"input_notify"],"tx_interval":{"to":9,"from":0}}' % A,
     {"tx_inputs": ["input_notify", {"input_that_chooses_num": 3, "for_choice_id": named("n", OF_A)}, "input_notify"],
         "tx_interval": {"from": 0, "to": 9}}),
    ("nothing is computed", "contract", '{"let":"x","be":{"add":1,"and":{"negate":{"negate":2}}},"then":"close"}',
        {"let": "x", "be": {"add": 1, "and": {"negate": {"negate": 2}}}, "then": "close"}),
    ("escapes are letters", "contract", '{"let":"\\u0061\\n\\u00e9","be":1,"then":"close"}', {"let": "a\n\u00e9", "be": 1, "then": "close"}),
    ("an interval that ends before it starts is read", "transaction", '{"tx_inputs":[],"tx_interval":{"from":9,"to":0}}',
        {"tx_inputs": [], "tx_interval": {"from": 9, "to": 0}}),
]
CASES = [text_case("round_trips", name, "canonical", of, text, {"ok": told}) for name, of, text, told in CANONICAL]


def held(*owners):
    return [[[owner, token], amount] for owner, token, amount in owners]


T, U = {"currency_symbol": "aa", "token_name": "t"}, {"currency_symbol": "aa", "token_name": "u"}
ROWS = [
    ("addresses before roles", "accounts", held((OF_A, OF_ADA, 1), (OF_X, OF_ADA, 2)), held((OF_X, OF_ADA, 2), (OF_A, OF_ADA, 1))),
    ("ada before other tokens", "accounts", held((OF_A, T, 1), (OF_A, OF_ADA, 2)), held((OF_A, OF_ADA, 2), (OF_A, T, 1))),
    ("tokens by name", "accounts", held((OF_A, U, 1), (OF_A, T, 2)), held((OF_A, T, 2), (OF_A, U, 1))),
    ("owners before tokens", "accounts", held(({"role_token": "b"}, OF_ADA, 1), (OF_A, T, 2)), held((OF_A, T, 2), ({"role_token": "b"}, OF_ADA, 1))),
    ("three accounts", "accounts", held((OF_A, T, 1), (OF_X, T, 2), (OF_A, OF_ADA, 3)), held((OF_X, T, 2), (OF_A, OF_ADA, 3), (OF_A, T, 1))),
    ("choices by name", "choices", [[named("n", OF_A), 1], [named("m", OF_A), 2]], [[named("m", OF_A), 2], [named("n", OF_A), 1]]),
    ("choices by owner", "choices", [[named("n", OF_A), 1], [named("n", OF_X), 2]], [[named("n", OF_X), 2], [named("n", OF_A), 1]]),
    ("choices by name before owner", "choices", [[named("n", OF_X), 1], [named("m", OF_A), 2]], [[named("m", OF_A), 2], [named("n", OF_X), 1]]),
    ("bound values by name", "boundValues", [["y", 1], ["x", 2]], [["x", 2], ["y", 1]]),
    ("capitals before small letters", "boundValues", [["a", 1], ["B", 2]], [["B", 2], ["a", 1]]),
    ("a name before one that it begins", "boundValues", [["xx", 1], ["x", 2], ["", 3]], [["", 3], ["x", 2], ["xx", 1]]),
    ("letters beyond ASCII by their bytes", "boundValues", [["\u00e9", 1], ["z", 2]], [["z", 2], ["\u00e9", 1]]),
]
CASES += [text_case("round_trips", name, "rows in order", "state", json.dumps({**START, key: given}, ensure_ascii=False),
    {"ok": {**START, key: told}}, ["orders", "states"])
          for name, key, given, told in ROWS]
