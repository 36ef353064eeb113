"""The rules that cases are about, each in words and with where a page of docs/ has it; and the choices of ours on which cases rest.

Usage    the scripts beside it import it; checks/suite.py looks whether each page has the words that are quoted here.

A rule has the subject to which it belongs, what it says, the page and some words of the page. The rules that checks/interpreter.py takes have
the same names there.
"""
SEMANTICS, CLAUSES, FORMATS, DECISIONS, PAGE = "docs/semantics.md", "docs/clauses.md", "docs/formats.md", "docs/DECISIONS.md", "docs/conformance.md"

SUBJECTS = {
    "readings": "what each text stands for",
    "faults": "why a text isn't read",
    "evaluation": "values and observations",
    "division": "quotients and their corners",
    "intervals": "intervals, the minimum time and timeouts",
    "reductions": "how a contract reduces, and in which order",
    "warnings": "what a transaction warns of, and in which order",
    "payments": "payments, refunds and what accounts hold after",
    "inputs": "which case an input takes, and what it leaves",
    "bits": "numbers at the edges of 128 bits",
    "long": "long contracts and long transactions",
    "round_trips": "what is read and written back",
    "traces": "runs of many transactions",
    "warned": "a run of a contract that can warn, up to its warning",
    "lines": "lines of the stream that are no requests, and ids",
}

ABSENT = "an account holds, a choice and a bound value are 0 where they are absent"
OPERANDS = "The numbers of the operands come first, from the left, then the result"
HOLDS = "`holds`: whether an observation is true there"
QUOTIENT = "A `DivValue` by 0 is 0, else the quotient truncated toward zero"
PAY = "An amount of 0 or less warns `NonPositivePay` and pays nothing."
PART = "less than the amount warns `PartialPay`"
RECORD = "A payment is recorded, also one to an account, and also one of 0."
LET = "The name is bound to the value. One that was bound before warns `Shadowing`, also with an equal value."
ASSERT = "A false observation warns `AssertionFailed`; nothing else happens."
REFUND = "The first account in order is removed, and what it held is paid from its owner to that same party"
DEPOSIT = "account, party and token are the same and the amount is the number of the case's value"
NOTHING = "An amount of 0 or less warns `NonPositiveDeposit` and adds nothing; else the account grows."
CHOICE = "the choice is the same and the number lies within one of the bounds, ends included"
ORDER = "Warnings, payments and turns keep their order."
FITS = "Where all of them lie from -2^127 to 2^127 - 1, the walk's end is the answer"
FIRST_FORM = "The form of an object is the first in its table whose keys are all there."
FIRST_FAULT = "The first fault that is met is reported"
STATE_ROWS = "The rows of a list may be in any order, each key once."
WRITTEN = "Texts are compact, the keys of each object in the order of their bytes, and hexadecimal digits in lower case."

RULES = {
    # values and observations
    "constant": ("evaluation", "A constant has its own number.", SEMANTICS, "a constant, a choice, a bound value or a balance is visited itself"),
    "interval start": ("evaluation", "TimeIntervalStart is the start of the fixed interval, so the greater of the interval's and the minimum time.",
                       SEMANTICS, "are the ends of the fixed interval"),
    "interval end": ("evaluation", "TimeIntervalEnd is the end of the interval.", SEMANTICS, "are the ends of the fixed interval"),
    "money": ("evaluation", "AvailableMoney is what the account of this party holds of this token, 0 where it is absent.", SEMANTICS, ABSENT),
    "number chosen": ("evaluation", "ChoiceValue is the number last chosen under this name by this owner, 0 where there is none.", SEMANTICS, ABSENT),
    "name": ("evaluation", "UseValue is the number that a Let bound to the name, 0 where there is none.", SEMANTICS, ABSENT),
    "negate": ("evaluation", "NegValue is the number with the other sign.", SEMANTICS, OPERANDS),
    "add": ("evaluation", "AddValue is the sum.", SEMANTICS, OPERANDS),
    "subtract": ("evaluation", "SubValue is the first number less the second.", SEMANTICS, OPERANDS),
    "multiply": ("evaluation", "MulValue is the product.", SEMANTICS, OPERANDS),
    "cond": ("evaluation", "A Cond has the number of `then` where its observation is true, else that of `else`.", SEMANTICS,
             "A `Cond` has the number of the branch that its observation chooses"),
    "constant truth": ("evaluation", "TrueObs is true, FalseObs false.", SEMANTICS, HOLDS),
    "both": ("evaluation", "AndObs is true where both sides are.", SEMANTICS, HOLDS),
    "either": ("evaluation", "OrObs is true where one side is.", SEMANTICS, HOLDS),
    "not": ("evaluation", "NotObs is true where its observation is false.", SEMANTICS, HOLDS),
    "chosen": ("evaluation", "ChoseSomething is true where this owner has made the choice of this name, whatever the number.", SEMANTICS, HOLDS),
    "ge_than": ("evaluation", "ValueGE is true where the first number is the second or greater.", SEMANTICS, HOLDS),
    "gt": ("evaluation", "ValueGT is true where the first number is greater.", SEMANTICS, HOLDS),
    "lt": ("evaluation", "ValueLT is true where the first number is less.", SEMANTICS, HOLDS),
    "le_than": ("evaluation", "ValueLE is true where the first number is the second or less.", SEMANTICS, HOLDS),
    "equal_to": ("evaluation", "ValueEQ is true where the numbers are equal.", SEMANTICS, HOLDS),
    "quotient": ("division", "A quotient is truncated toward zero: -7 by 2 is -3.", SEMANTICS, QUOTIENT),
    "quotient by 0": ("division", "A quotient by 0 is 0.", SEMANTICS, QUOTIENT),
    "signs of a quotient": ("division", "The sign of either side of a quotient moves out.", CLAUSES, "and the sign of either side moves out"),
    # intervals
    "InvalidInterval": ("intervals", "An interval that ends before it starts is refused with InvalidInterval, before all else.", SEMANTICS,
                        "refused with `InvalidInterval` where the interval ends before it starts"),
    "IntervalInPast": ("intervals", "An interval that ends before the minimum time is refused with IntervalInPast.", SEMANTICS,
                       "`IntervalInPast` where it ends before the minimum time"),
    "start kept": ("intervals", "A start at or after the minimum time stays, and becomes the minimum time.", SEMANTICS,
                   "its start is moved up to the minimum time, which becomes that start"),
    "start moved up": ("intervals", "A start before the minimum time is moved up to it.", SEMANTICS,
                       "its start is moved up to the minimum time, which becomes that start"),
    "when waits": ("intervals", "A When whose timeout is after the interval's end waits.", SEMANTICS,
                   "so is a `When` whose timeout is after the interval's end"),
    "timed out": ("intervals", "A When whose timeout is at or before the interval's start goes on with its timeout continuation.", SEMANTICS,
                  "A timeout at or before the fixed interval's start: it goes on with its timeout continuation."),
    "Ambiguous": ("intervals", "A timeout after the interval's start and not after its end is refused with Ambiguous, wherever in the transaction.",
                  SEMANTICS, "`When` whose timeout lies after the start and not after the end: ambiguous"),
    "time goes on": ("intervals", "After a transaction the minimum time is the greater of the old one and the interval's start.", CLAUSES,
                     "after success the minimum time is the greater of the old one and the interval's start"),
    # reductions
    "if": ("reductions", "If goes on with `then` where its observation is true, else with `else`.", SEMANTICS,
           "It goes on with the branch that its observation chooses."),
    "let": ("reductions", "Let evaluates its value and binds the name to the number; what follows sees it.", SEMANTICS, LET),
    "assert": ("reductions", "Assert goes on, whether its observation is true or not.", SEMANTICS, ASSERT),
    "close is quiet": ("reductions", "A Close without accounts is quiet.", SEMANTICS, "A `Close` without accounts is quiet"),
    "Useless": ("reductions", "A transaction in which nothing reduces and no input applies is refused with Useless.", SEMANTICS,
                "Where no turn was taken at all, no reduction and no input, it is `Useless`."),
    "done": ("reductions", "The contract settles, then each input applies and it settles again; what is left is quiet.", SEMANTICS,
             "The contract settles; then each input in turn applies, and the contract settles again."),
    "order of reductions": ("reductions", "Each reduction sees the state that those before it left.", SEMANTICS,
                            "a list of reductions, each from where the one before ended"),
    "last timeout": ("reductions", "At or after its last timeout a contract closes without inputs.", CLAUSES,
                     "without inputs, in an interval that starts at or after the greatest timeout"),
    # warnings
    "pay of nothing": ("warnings", "A Pay of 0 or less warns NonPositivePay and pays nothing.", SEMANTICS, PAY),
    "pay in part": ("warnings", "A Pay of more than there is pays what there is, and warns PartialPay.", SEMANTICS, PART),
    "name bound again": ("warnings", "A Let of a name that is bound warns Shadowing, with the old number and the new.", SEMANTICS, LET),
    "assertion fails": ("warnings", "A false Assert warns AssertionFailed, and nothing else happens.", SEMANTICS, ASSERT),
    "deposit of nothing": ("warnings", "A deposit of 0 or less matches, warns NonPositiveDeposit and adds nothing.", SEMANTICS, NOTHING),
    "order of warnings": ("warnings", "Warnings stand in the order in which they come.", SEMANTICS, ORDER),
    # payments
    "pay in full": ("payments", "A Pay of what there is, or less, pays it; an account that reaches 0 is removed.", SEMANTICS, "and removed at 0"),
    "pay to a party": ("payments", "A payment to a party leaves the contract, and is recorded.", SEMANTICS, RECORD),
    "pay to an account": ("payments", "A payment to an account is recorded, and the account grows from what it holds by then.", SEMANTICS,
                          "then a payee's account grows from what it holds by then"),
    "record of 0": ("payments", "A Pay from an empty account records a payment of 0.", SEMANTICS, RECORD),
    "pay to itself": ("payments", "A Pay of an account to itself leaves it as it was.", SEMANTICS, "so that a `Pay` of an account to itself leaves it as it was"),
    "refund": ("payments", "Close pays each account to its owner, and removes it.", SEMANTICS, REFUND),
    "order of accounts": ("payments", "Accounts stand by owner, addresses before roles, then by token; texts and bytes go byte by byte.", SEMANTICS,
                          "accounts by owner, then token"),
    "order of payments": ("payments", "Payments stand in the order in which they are made.", SEMANTICS, ORDER),
    # inputs
    "deposit": ("inputs", "A deposit matches where account, party and token are the same and the amount is the case's number.", SEMANTICS, DEPOSIT),
    "deposited": ("inputs", "An account grows by a deposit.", SEMANTICS, NOTHING),
    "choice": ("inputs", "A choice matches where name and owner are the same and the number lies within one of the bounds, ends included.", SEMANTICS, CHOICE),
    "recorded": ("inputs", "The number chosen is recorded, in place of an earlier one.", SEMANTICS, "The number is recorded, in place of an earlier one."),
    "notify": ("inputs", "A notify matches a case whose observation is true.", SEMANTICS, "the observation is true"),
    "case of another kind": ("inputs", "A case is looked into only for an input of its kind.", SEMANTICS,
                             "A case is looked into only for an input of its kind"),
    "NoMatch": ("inputs", "An input that no case takes is refused with NoMatch, also where the contract is closed.", SEMANTICS,
                "Where none matches, or the contract is no `When`, the fault is `NoMatch`."),
    "first match": ("inputs", "The first case that matches is taken.", SEMANTICS, "is taken where it matches and no case before it does"),
    "order of choices": ("inputs", "Choices stand by name, then owner; bound values by name.", SEMANTICS, "choices by name, then owner; bound values by name"),
    # 128 bits
    "Leaves128": ("bits", "A transaction that visits a number outside -2^127 to 2^127 - 1 is refused with Leaves128.", SEMANTICS, FITS),
    "fits": ("bits", "Numbers from -2^127 to 2^127 - 1 are as any others.", SEMANTICS, FITS),
    "account sums": ("bits", "The sums that deposits and payments to accounts make are visited.", SEMANTICS,
                     "each account sum that a deposit or a `Pay` to an account makes"),
    "not visited": ("bits", "An operand that AndObs or OrObs leaves out, the branch that Cond leaves out, and cases behind the one that matches aren't visited.",
                    SEMANTICS, "leave out the right operand where the left one decides"),
    "looked into": ("bits", "A deposit's value is visited only where account, party and token are the same.", SEMANTICS,
                    "which is evaluated only where the three are"),
    "first to stop": ("bits", "What stops the computation first answers: a number outside 128 bits, or another fault before it.", SEMANTICS,
                      "what stops the computation first is the fault"),
    "digits": ("bits", "A number outside -2^63 to 2^64 - 1 is a text of its digits in payments, warnings and states.", FORMATS,
               "is a text of its decimal digits, with `-` before one below 0"),
    # long
    "long contract": ("long", "A contract of many parts is no other than a short one.", SEMANTICS, "Only a `When` has cases."),
    "long transaction": ("long", "A transaction of many inputs applies them one by one.", SEMANTICS, "then each input in turn applies"),
    # readings
    "contract": ("readings", "The forms of contracts.", FORMATS, "### Contract"),
    "action": ("readings", "The forms of cases, their actions and bounds.", FORMATS, "### Action"),
    "value": ("readings", "The forms of values.", FORMATS, "### Value"),
    "observation": ("readings", "The forms of observations.", FORMATS, "### Observation"),
    "names": ("readings", "The forms of parties, payees, tokens and choice ids.", FORMATS, "### Party, payee, token, choice id"),
    "input": ("readings", "The forms of inputs and transactions.", FORMATS, "### Input"),
    "state": ("readings", "The form of a state, its rows in any order.", FORMATS, STATE_ROWS),
    "first form": ("readings", "An object has the first form whose keys are all there.", FORMATS, FIRST_FORM),
    "further keys": ("readings", "Further keys are ignored, whatever is under them.", FORMATS, "Further keys are ignored, whatever is under them."),
    "last of a key": ("readings", "Of a key that comes twice in one object, the last value counts.", FORMATS, "Of a key that comes twice in one object"),
    "escapes": ("readings", "Texts are compared after their escapes.", FORMATS, "Texts are compared after their escapes"),
    "numbers read": ("readings", "A whole number lies from -2^63 to 2^64 - 1, a time from -2^63 to 2^63 - 1.", FORMATS,
                     "A whole number lies from -2^63 to 2^64 - 1"),
    # faults
    "NoForm": ("faults", "No form of the sort has all its keys there, or the kind of JSON is another than the form wants.", FORMATS, "| 3 | NoForm |"),
    "NotWhole": ("faults", "A number isn't whole, or lies outside -2^63 to 2^64 - 1.", FORMATS, "| 4 | NotWhole |"),
    "OutOfRange": ("faults", "A time lies above 2^63 - 1.", FORMATS, "| 5 | OutOfRange |"),
    "BadHex": ("faults", "A currency symbol isn't pairs of hexadecimal digits.", FORMATS, "| 6 | BadHex |"),
    "Merkleized": ("faults", "A case has `merkleized_then` and no `then`.", FORMATS, "| 7 | Merkleized |"),
    "BadState": ("faults", "An account has a number of 0 or less, or a key stands twice in one list of a state.", FORMATS, "| 8 | BadState |"),
    "first fault": ("faults", "The first fault that is met is reported: the keys of an object in the order of its form, lists from the front.", FORMATS, FIRST_FAULT),
    "first text": ("faults", "Of a run's texts the contract is read first, then the state, then the transaction.", "docs/refusals.md",
                   "The first fault that is met is reported, so mend it and run again"),
    # round trips
    "canonical": ("round_trips", "What is read is written with the keys of its form alone, and symbols in lower case.", FORMATS, WRITTEN),
    "rows in order": ("round_trips", "The rows of a state stand in the order of their keys.", FORMATS, "whose rows are in the order of their keys"),
    # traces
    "goes on": ("traces", "Each transaction starts from the contract and the state that the one before it left.", "docs/glossary.md",
                "each from the state in which the one before it left the contract"),
    "stops": ("traces", "The first transaction that is refused ends a trace, and is told by its number, from 1.", "docs/refusals.md", "`refused transaction N NAME`"),
    "all are read": ("traces", "All transactions are read before any is computed.", "docs/refusals.md", "the transaction with the number N, from 1 over all files"),
    # warned
    "run to NonPositiveDeposit": ("warned", "A run in which a deposit of 0 or less is made.", SEMANTICS, NOTHING),
    "run to NonPositivePay": ("warned", "A run in which a Pay of 0 or less comes up.", SEMANTICS, PAY),
    "run to PartialPay": ("warned", "A run in which an account has less than a Pay says.", SEMANTICS, PART),
    "run to Shadowing": ("warned", "A run in which a name is bound again.", SEMANTICS, LET),
    "run to AssertionFailed": ("warned", "A run in which an assertion fails.", SEMANTICS, ASSERT),
    # lines
    "NotJson": ("lines", "A line that is no JSON, no UTF-8 or nests too deep is refused, and the next one is read.", FORMATS, "| 1 | NotJson |"),
    "TooLong": ("lines", "A line of more than 4 MiB is refused, and the next one is read.", FORMATS, "| 2 | TooLong |"),
    "NoObject": ("lines", "A line that is no object is refused.", PAGE, "`NoObject` where it is no object"),
    "NoRequest": ("lines", "An object without any of the requests as a key is refused.", PAGE, "`NoRequest` where it asks nothing"),
    "left out": ("lines", "Without a state there are no entries and the time is 0, without transactions there are none; another part that lacks is NoForm.", PAGE,
                 "Without `state` there are no entries, and the time is 0"),
    "id": ("lines", "An answer has the id of its request.", PAGE, "the request's `id`, whatever JSON that is"),
}

# What a choice does in the profile `unbounded`: cases that rest on it are left out, compared without it, or kept.
LEFT_OUT, LOOSENED, KEPT = "left out", "compared without it", "kept"

CHOICES = {
    "128 bits": ("A transaction that visits a number outside 128 bits is refused.", DECISIONS,
                 "numbers of 128 bits, and `Leaves128` outside", LEFT_OUT),
    "orders": ("Accounts, choices and bound values, and so refunds, stand in an order of ours.", DECISIONS, "**Orders.**", LOOSENED),
    "texts of digits": ("A number that JSON doesn't have is written as a text of its digits.", DECISIONS,
                        "a number that JSON doesn't have is written as a text of its digits", LOOSENED),
    "whole numbers": ("A number is whole where `serde_json` has it so, from -2^63 to 2^64 - 1.", DECISIONS, "**A number is whole where `serde_json` has it so**", LEFT_OUT),
    "times": ("A time has 64 bits.", DECISIONS,
              "times of 64 bits", LEFT_OUT),
    "limits": ("A text nests 127 deep at most, and a line has 4 MiB at most.", DECISIONS,
               "texts of 127 levels, lines of 4 MiB", LEFT_OUT),
    "records": ("Each Pay above 0 leaves a record, also one to an account, and one of 0.", DECISIONS,
                "a record of each Pay above 0", KEPT),
    "paying account first": ("A Pay reduces the paying account before the payee's account grows.", DECISIONS,
                             "**A Pay reduces the paying account before the payee's account grows.**", KEPT),
    "shadowing": ("A Let with the value that the name has already still warns.", DECISIONS, "still warns Shadowing**", KEPT),
    "faults": ("A transaction is refused with one fault, that which stops the computation first.", DECISIONS,
               "one fault, the first, for a transaction", KEPT),
    "forms": ("Which form an object has is decided by its keys alone, in an order of ours.", DECISIONS, "**Which form an object has is decided by its keys alone**", KEPT),
    "order of faults": ("The form is chosen before anything under its keys is read, and keys are read in an order of ours.", DECISIONS,
                        "**The form is chosen before anything under its keys is read**", KEPT),
    "merkleized": ("No merkleized case is read.", DECISIONS, "**A merkleized case is refused at once**", KEPT),
    "states": ("The form of a state and of a transaction, and what is a bad state, are ours.", DECISIONS,
               "the forms of states and transactions", KEPT),
}
