#!/usr/bin/env python3
"""Has `marlowe analyse` look at contracts whose texts grow to 1 MiB, and prints instructions for each node, beside those of `marlowe table`, seconds and memory.

Needs    (cd crates/marlowe && rt run -- --version), another program may be named as the argument; valgrind, and Debian's package `time`
Usage    analysis_growth.py [PROGRAM [FAMILY..]]
Expect   of each family as many instructions for a node at 1 MiB as at 1,000 nodes, within 1.3, or fewer; of the wide Whens at most four times those of `table`;
         no text over the line of docs/DECISIONS.md, from 500,000,000 instructions at 2 KB to 10,000,000,000 at 1 MiB; none over 128 MiB. Else the script ends with status 1.
Mind     instructions are exact and the same on a busy machine; seconds and KiB are of one run at the largest text, and waver.
"""
import bisect
import functools
import json
import os
import re
import subprocess
import sys
import tempfile

from growth import ADA, PROGRAM, TIME, deep_arithmetic, many_forms, wide_pays, wide_when

FEWEST_NODES = 1000
SIZES = [64 << 10, 256 << 10, 1 << 20]
STEEPEST, MOST_TIMES, MOST_KIB = 1.3, 4, 128 << 10
# The instructions of a second, as the bound of the search for runs takes them, and the shortest text that it speaks of.
SECOND, SHORT = 5_000_000_000, 2 << 10
A, B = {"role_token": "a"}, {"role_token": "b"}
# Texts nest at most 127 arrays and objects: so many forms one in another fit, a When with its case being three of them.
DEEP, DEEP_WHENS = 100, 38


def choice(i):
    return {"choice_name": f"c{i}", "choice_owner": A}


def chosen(i):
    return {"value_of_choice": choice(i)}


def waits(action, then):
    return {"when": [{"case": action, "then": then}], "timeout": 1000, "timeout_continuation": "close"}


def chooses(i, then, low=1, high=100):
    return waits({"for_choice": choice(i), "choose_between": [{"from": low, "to": high}]}, then)


def pays(amount, then, account=A):
    return {"pay": amount, "token": ADA, "from_account": account, "to": {"party": B}, "then": then}


def beside(n, make):
    """A When of n choices of names of their own, each of which goes on with a contract of its own. (Of n notifications the first takes all.)"""
    cases = [{"case": {"for_choice": {"choice_name": f"p{i}", "choice_owner": B}, "choose_between": [{"from": 0, "to": 0}]}, "then": make(i)} for i in range(n)]
    return {"when": cases, "timeout": 100000, "timeout_continuation": "close"}, None, None


def chain(length, make, last="close"):
    contract = last
    for i in reversed(range(length)):
        contract = make(i, contract)
    return contract


def many_alarms(n):
    """Pays from empty accounts, one behind the other and beside each other: each has its alarm and its run."""
    return beside(n // DEEP, lambda _: chain(DEEP, lambda i, rest: pays(5, rest)))


def many_choices(n):
    """Choices one in another, of which sums are bound and compared."""
    def stage(i, rest):
        total = {"add": chosen(i), "and": chosen(max(0, i - 1))}
        return chooses(i, {"if": {"value": total, "gt": 7}, "then": rest, "else": "close"})
    return beside(n // 25, lambda _: chain(25, stage))


def many_quotients(n):
    """Shares of what was chosen, each paid out of one pot."""
    def pot(_):
        shares = chain(30, lambda i, rest: pays({"divide": chosen(0), "by": i + 40}, rest))
        return chooses(0, waits({"party": A, "deposits": chosen(0), "of_token": ADA, "into_account": A}, shares), 5000, 10000)
    return beside(n // 30, pot)


def many_products(n):
    """Products of the same two choices and of others, bound to names."""
    def stage(i, rest):
        return {"let": f"x{i}", "be": {"multiply": chosen(i % 2), "times": {"add": chosen((i + 1) % 2), "and": i % 7}}, "then": rest}
    return beside(n // 40, lambda _: chooses(0, chooses(1, chain(40, stage))))


def many_clamps(n):
    """Clamps by Cond of Conds."""
    def stage(i, rest):
        last = {"use_value": f"x{i - 1}"} if i else chosen(0)
        clamp = {"if": {"value": last, "gt": 100 - i}, "then": 100 - i, "else": last}
        return {"let": f"x{i}", "be": clamp, "then": rest}
    return beside(n // 40, lambda _: chooses(0, chain(40, stage)))


def many_conditions(n):
    """Observations of many comparisons, joined by `either`."""
    def observation(i):
        o = {"value": chosen(0), "gt": i}
        for j in range(30):
            o = {"either" if j % 2 else "both": {"value": chosen(j % 3), "lt": i + j}, "or" if j % 2 else "and": o}
        return o
    def part(i):
        return chooses(0, chooses(1, chooses(2, {"if": observation(i % 50), "then": pays(chosen(0), "close"), "else": "close"})))
    return beside(n // 35, part)


def joined(observations, first, second):
    """All of many observations, or any, joined two by two, so that they nest little."""
    while len(observations) > 1:
        pairs = [observations[i:i + 2] for i in range(0, len(observations), 2)]
        observations = [{first: pair[0], second: pair[1]} if len(pair) == 2 else pair[0] for pair in pairs]
    return observations[0]


def one_observation(n, compared, high=100, words=("both", "and"), choices=3):
    """An If of one observation, which joins many comparisons of a few choices."""
    contract = {"if": joined([compared(i) for i in range(max(1, n // 5))], *words), "then": "close", "else": "close"}
    for i in range(choices):
        contract = chooses(i, contract, 1, high)
    return contract, None, None


def wide_quotients(n):
    """One observation of quotients, each by another number."""
    return one_observation(n, lambda i: {"value": {"divide": chosen(i % 3), "by": i + 2}, "ge_than": -1})


def wide_conds(n):
    """One observation of Conds, each by another comparison."""
    def compared(i):
        return {"value": {"if": {"value": chosen(i % 3), "gt": i % 97}, "then": i, "else": chosen((i + 1) % 3)}, "ge_than": -1}
    return one_observation(n, compared)


def undecided_quotients(n):
    """One observation of quotients, each of which may be above 0 or not."""
    return one_observation(n, lambda i: {"value": {"divide": chosen(i % 3), "by": i + 2}, "ge_than": 1}, 1000000)


def undecided_conds(n):
    """One observation of Conds, each of which may be above a number or not, as may be what it asks."""
    def compared(i):
        one, other = chosen(i % 3), chosen((i + 1) % 3)
        return {"value": {"if": {"value": one, "gt": {"add": other, "and": i}}, "then": one, "else": other}, "ge_than": i}
    return one_observation(n, compared, 1000000)


def undecided_sums(n):
    """One observation of sums of two of three choices, each of which may be above a number or not."""
    def compared(i):
        total = {"add": chosen(i % 3), "and": {"multiply": chosen((i + 1) % 3), "times": i + 2}}
        return {"value": total, "ge_than": 7 * i + 100}
    return one_observation(n, compared, 1000000)


def sums_of(n, count):
    """One observation of sums of the same choices, so many, each of which may be above a number or not, as their bounds say."""
    def compared(i):
        parts = [{"multiply": chosen(j), "times": i * (j + 3) % 17 + 1} for j in range(count)]
        total = functools.reduce(lambda before, part: {"add": part, "and": before}, parts)
        return {"value": total, "ge_than": 7 * i + 1000}
    return one_observation(n, compared, 1000000, choices=count)


def undecided_sums_of_2(n):
    """One observation of sums of the same two choices."""
    return sums_of(n, 2)


def undecided_sums_of_8(n):
    """One observation of sums of the same 8 choices."""
    return sums_of(n, 8)


def undecided_sums_of_24(n):
    """One observation of sums of the same 24 choices."""
    return sums_of(n, 24)


def product(i):
    return {"multiply": chosen(i % 3), "times": {"add": chosen((i + 1) % 3), "and": i}}


def undecided_products(n):
    """One observation of products of two choices, each of which may be above a number or not."""
    return one_observation(n, lambda i: {"value": product(i), "ge_than": 7 * i}, 1000000)


def either_product(n):
    """One observation of products, of which any may be equal to a number."""
    return one_observation(n, lambda i: {"value": product(i), "equal_to": 7 * i}, 1000000, ("either", "or"))


def tree_of_conds(n):
    """A Cond of Conds, each of which has Conds in both branches."""
    def tree(count, i):
        if count <= 1:
            return i % 90
        return {"if": {"value": chosen(i % 3), "gt": i % 97}, "then": tree(count // 2, 2 * i), "else": tree(count - count // 2, 2 * i + 1)}
    contract = {"let": "x", "be": tree(n // 5, 1), "then": "close"}
    for i in range(3):
        contract = chooses(i, contract)
    return contract, None, None


def many_cases_of_a_choice(n):
    """A When of choices of one id, whose bounds follow each other: each leaves out what earlier ones take."""
    cases = [{"case": {"for_choice": choice(0), "choose_between": [{"from": i, "to": i + 1}]}, "then": "close"} for i in range(n)]
    return {"when": cases, "timeout": 100, "timeout_continuation": "close"}, None, None


def many_accounts_paid(n):
    """Deposits of many parties in turn, and Pays from all of them."""
    def stage(i, rest):
        who = {"role_token": f"r{i}"}
        return waits({"party": who, "deposits": i + 1, "of_token": ADA, "into_account": who}, pays(i + 1, rest, who))
    return beside(n // DEEP_WHENS, lambda _: chain(DEEP_WHENS // 2, stage))


def holds(observation, then):
    return {"assert": observation, "then": then}


def square(i):
    return {"multiply": chosen(i), "times": chosen(i)}


def is_not(value, number):
    """That a square isn't a number that is no square: it is two more than a multiple of four. The analysis doesn't know."""
    return {"not": {"value": value, "equal_to": 4 * number + 2}}


def bounds_of_a_choice(n):
    """One choice of many bounds, before an Assert that always holds: there is no run, and each end of a bound is tried."""
    bounds = [{"from": 3 * i, "to": 3 * i + 1} for i in range(n)]
    return waits({"for_choice": choice(0), "choose_between": bounds}, holds(is_not(square(0), 1), "close")), None, None


def far_constants(n):
    """Four choices in a row before an Assert that always holds, with eight constants far from each other: there are many sums to try."""
    def stage(_):
        parts = [*map(square, range(4)), *(1000 * 7**i for i in range(8))]
        total = functools.reduce(lambda before, part: {"add": before, "and": part}, parts)
        return chain(4, lambda i, rest: chooses(i, rest, -(10**6), 10**6), holds({"value": total, "gt": -1}, "close"))
    return (stage(0), None, None) if n == 1 else beside(n, stage)


def squares_of_choices(n):
    """Twenty choices one in another, of each of which an Assert says that its square isn't below 0."""
    def stage(i, rest):
        return chooses(i, holds({"value": square(i), "ge_than": 0}, rest), -100, 100)
    return beside(n, lambda _: chain(20, stage))


def alarms_without_a_run(n):
    """Asserts one behind the other and beside each other, each of which always holds, and is an alarm without a run."""
    def part(number):
        asserts = chain(min(n, DEEP), lambda i, rest: holds(is_not({"use_value": "y"}, DEEP * number + i), rest))
        return chooses(0, {"let": "y", "be": square(0), "then": asserts})
    return beside(max(1, n // DEEP), part)


FAMILIES = [wide_when, many_forms, wide_pays, deep_arithmetic, many_alarms, many_choices, many_quotients, many_products, many_clamps, many_conditions,
            wide_quotients, wide_conds, undecided_quotients, undecided_conds, undecided_sums, undecided_sums_of_2, undecided_sums_of_8, undecided_sums_of_24,
            undecided_products, either_product, tree_of_conds, many_cases_of_a_choice, many_accounts_paid, bounds_of_a_choice, far_constants, squares_of_choices, alarms_without_a_run]
WIDE = [wide_when, many_forms, wide_pays]
# Those in which the search for runs costs most.
SEARCHED = [bounds_of_a_choice, far_constants, squares_of_choices, alarms_without_a_run]


def text_of(make, parts):
    return json.dumps(make(parts * (100 if make is deep_arithmetic else 1))[0], separators=(",", ":"))


def most_instructions(size):
    """The instructions that an analysis of a text of so many bytes may take."""
    return SECOND * (0.1 + 1.9 * max(0, size - SHORT) / (SIZES[-1] - SHORT))


def first_parts(make, asked):
    """The least number of parts with which what is asked holds of the text, as it does of longer ones."""
    most = 1
    while not asked(text_of(make, most)):
        most *= 2
    return bisect.bisect_left(range(most), True, most // 2, key=lambda parts: asked(text_of(make, parts)))


def texts_of(make):
    """The longest text of this family of 2 KB, if one is so short, the shortest that has a thousand nodes, and the longest that have at most so many bytes."""
    if len(text_of(make, 1)) <= SHORT:
        yield text_of(make, first_parts(make, lambda text: len(text) > SHORT) - 1)
    yield text_of(make, first_parts(make, lambda text: nodes_of(text) >= FEWEST_NODES))
    for size in SIZES:
        yield text_of(make, first_parts(make, lambda text: len(text) > size) - 1)


def nodes_of(text):
    """The objects and numbers of a text: what is gone through."""
    return text.count("{") + len(re.findall(r"(?<![\w\"])-?\d+", text))


def instructions(program, word, path):
    with tempfile.NamedTemporaryFile() as out:
        line = ["valgrind", "--tool=callgrind", f"--callgrind-out-file={out.name}", program, word, path]
        run = subprocess.run(line, capture_output=True)
    if run.returncode not in (0, 3):
        sys.exit(f"{word} ended with status {run.returncode}: {run.stderr[-300:]}")
    return int(re.search(rb"Collected : (\d+)", run.stderr)[1])


def spent(program, path):
    """Processor seconds and KiB of an analysis."""
    run = subprocess.run([TIME, "-f", "%U %S %M", program, "analyse", path], stdout=subprocess.DEVNULL, stderr=subprocess.PIPE, text=True)
    user, system, kib = run.stderr.split()[-3:]
    return float(user) + float(system), int(kib)


def main():
    program, names = (sys.argv[1] if len(sys.argv) > 1 else PROGRAM), sys.argv[2:]
    failed = False
    with tempfile.TemporaryDirectory() as folder:
        path = os.path.join(folder, "contract.json")
        for make in FAMILIES:
            if names and make.__name__ not in names:
                continue
            print(f"{make.__name__}: {make.__doc__}")
            first = None
            is_over = False
            for text in texts_of(make):
                with open(path, "w") as file:
                    file.write(text)
                nodes, count, table = nodes_of(text), instructions(program, "analyse", path), instructions(program, "table", path)
                a_node = count / nodes
                first = first or (a_node if nodes >= FEWEST_NODES else None)
                is_over |= count > most_instructions(len(text))
                print(f"  {len(text):8} bytes, {nodes:7} nodes: {a_node:9.0f} instructions a node, {count / table:6.2f} times `table`, {count / most_instructions(len(text)):5.2f} of the line", flush=True)
            seconds, kib = spent(program, path)
            print(f"  {seconds:.2f} s, {kib} KiB; for a node {a_node / first:.2f} times as many at the largest{', over the line' if is_over else ''}")
            failed |= is_over or a_node > STEEPEST * first or make in WIDE and count > MOST_TIMES * table or kib > MOST_KIB
    sys.exit(1 if failed else 0)


if __name__ == "__main__":
    main()
