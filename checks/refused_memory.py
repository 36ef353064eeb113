#!/usr/bin/env python3
"""Refuses each request for memory of a program in turn, one in each run, and compares what comes with what comes with ample memory.

A small library is loaded before that of C, and refuses the n-th request: n is 1, 2, .. until a run meets no refusal.

The program `rows_chain` plays `data/refused.txt`, in which each kind of call, question and builder has a row. Where a call is refused memory, its row
prints `memory`, and then what the same line answers when it is taken once more. So the whole is what comes with ample memory, with one line `memory`
more: else a refused call has changed something. Where a row's own words are refused memory, the program ends with status 2 and prints nothing.
A party that is refused looks once more: the entries of looks are left out where its history is compared.

What checks at hand spare: a call that has one makes fewer requests than one that has none. `checks/before_merge.sh` runs this part.

Of the built program `marlowe` each request is refused alone, and then with all that come after it. Whichever it is, also one of a party of a play, nothing
is printed but `refused Memory`: a play in which a party stops for want of memory isn't told as a shorter one.

Needs    (cd crates/rows_chain && rt run -- data/hub.txt data/common.txt) and (cd crates/marlowe && rt run -- --version); `cc` and glibc on Linux.
Usage    checks/refused_memory.py [calls] [spared] [marlowe]    all three, or those that are named; `spared` takes some seconds
         checks/refused_memory.py run|table|play|analyse ..     these tasks of `marlowe` alone
         checks/refused_memory.py --table ..                    the same, as the table of checks/README.md
Expect   for each kind of row how often it was refused memory, how often a row's own words were, and how often all came as with ample memory; the same of
         `marlowe`; and that the checks at hand spare requests, and status 0; a few minutes.
Else     for each run that ends otherwise n and what came; each kind of row that was never refused; or `not fewer` where a check at hand spares nothing; then
         status 1.
"""
import collections
import os
import re
import subprocess
import sys
import tempfile
from concurrent.futures import ThreadPoolExecutor

TOP = os.path.join(os.path.dirname(os.path.abspath(__file__)), "..")
ROWS = os.path.join(TOP, "crates/rows_chain/out/rows_chain")
REFUSED = os.path.join(TOP, "crates/rows_chain/data/refused.txt")
MARLOWE = os.path.join(TOP, "crates/marlowe/out/marlowe")
EXAMPLES = os.path.join(TOP, "crates/rows_commands/data/examples")
PLAYS = os.path.join(TOP, "examples/plays")
SECONDS = 60

# What no call answers: rows that begin and close, or print what is at hand.
FREE = {"begin", "hub", "tick", "history", "close, at a hub"}

# Counts requests; refuses the one of the number REFUSED, and all after it where REFUSED_ON is set; and tells at the end how many were made and how
# many refused.
LIBRARY = r"""
#include <errno.h>
#include <stdio.h>
#include <stdlib.h>
#include <sys/syscall.h>
#include <unistd.h>

extern void *__libc_malloc(size_t);
extern void *__libc_calloc(size_t, size_t);
extern void *__libc_realloc(void *, size_t);

static long number, on, counting, made, refused;

__attribute__((constructor)) static void begin(void) {
    const char *word = getenv("REFUSED");
    number = word ? atol(word) : 0;
    on = getenv("REFUSED_ON") != NULL;
    counting = 1;
}

static int refuses(void) {
    if (!__atomic_load_n(&counting, __ATOMIC_SEQ_CST)) return 0;
    long n = __atomic_add_fetch(&made, 1, __ATOMIC_SEQ_CST);
    if (number == 0 || n < number || (n > number && !on)) return 0;
    __atomic_add_fetch(&refused, 1, __ATOMIC_SEQ_CST);
    errno = ENOMEM;
    return 1;
}

void *malloc(size_t n) { return refuses() ? NULL : __libc_malloc(n); }
void *calloc(size_t n, size_t m) { return refuses() ? NULL : __libc_calloc(n, m); }
void *realloc(void *p, size_t n) { return refuses() ? NULL : __libc_realloc(p, n); }

__attribute__((destructor)) static void end(void) {
    char line[64];
    const char *fd = getenv("REFUSED_TOLD");
    counting = 0;
    if (fd) syscall(SYS_write, atoi(fd), line, snprintf(line, sizeof line, "%ld %ld", made, refused));
}

void _exit(int status) {
    end();
    for (;;) syscall(SYS_exit_group, status);
}
"""


class Run:
    """One run of a program: its status, its two outputs, and how many requests were made and refused."""

    def __init__(self, library, words, refused, on=False):
        told, telling = os.pipe()
        env = {"LD_PRELOAD": library, "REFUSED": str(refused), "REFUSED_TOLD": str(telling)}
        if on:
            env["REFUSED_ON"] = "1"
        try:
            ran = subprocess.run(words, env=env, stdin=subprocess.DEVNULL, capture_output=True, pass_fds=[telling], timeout=SECONDS)
            self.status, self.out, self.err = ran.returncode, ran.stdout.decode(errors="replace"), ran.stderr.decode(errors="replace")
        except subprocess.TimeoutExpired:
            self.status, self.out, self.err = "no end", "", ""
        os.close(telling)
        with os.fdopen(told) as pipe:
            counts = pipe.read().split()
        self.made, self.refused = (int(counts[0]), int(counts[1])) if len(counts) == 2 else (0, 0)

    def __str__(self):
        return f"status {self.status}, {self.out[-200:]!r}, {self.err[-200:]!r}"


def in_turn(pool, run, count):
    """The runs with each request refused, until one meets no refusal: that one isn't among them."""
    runs = list(pool.map(run, range(1, count + 1)))
    while not runs or runs[-1].refused:
        runs.append(run(len(runs) + 1))
        if len(runs) > 10 * count + 100:
            break
    return [it for it in runs if it.refused]


# ---- rows of calls

def kinds_of(lines):
    """For each line that has an answer below it, by its number, what kind of call it makes."""
    kinds, at_hub = {}, False
    for number, (line, after) in enumerate(zip(lines, [*lines[1:], ""]), 1):
        word, *rest = line.split(" ")
        at_hub = (at_hub or word == "hub") and not line.startswith("#")
        if after.startswith("=") and word != "=":
            kinds[number] = " ".join([word, *rest[:1]] if word in ("build", "workers") else [word]) + (", at a hub" if at_hub and word != "hub" else "")
    return kinds


def differing(text):
    """The rows that a run says to differ, by their lines: what is wanted, and what came."""
    rows, row = {}, None
    for line in text.splitlines():
        if line.startswith("  wanted ") or line.startswith("  came   "):
            rows[row][line.startswith("  came")].append(line[9:])
        elif re.fullmatch(r".*:\d+", line):
            row = int(line.rpartition(":")[2])
            rows[row] = ([], [])
    return rows


def without_looks(lines):
    """The entries of a history but those of looks, without their places and numbers."""
    return [re.sub(r"^ \d+ (\d+)\.\d+ ", r"\1 ", line) for line in lines if not re.search(r"^ \d+ \d+\.\d+ look ", line)]


def row_refused(ample, run, kinds):
    """The row whose call was refused memory, where all else is as with ample memory."""
    before, now = differing(ample.out), differing(run.out)
    refused, others = [], []
    for row in sorted(before.keys() | now.keys()):
        wanted = before[row][1] if row in before else now[row][0]
        came = now[row][1] if row in now else before[row][0]
        if came == ["memory", *wanted]:
            refused.append(row)
        elif came != wanted:
            others.append((row, wanted, came))
    if len(refused) == 1 and kinds.get(refused[0]) == "party, at a hub":
        others = [it for it in others if kinds.get(it[0]) != "close, at a hub" or without_looks(it[1]) != without_looks(it[2])]
    return refused[0] if len(refused) == 1 and not others and run.status == 1 and run.err == "" else None


def of_rows(pool, library):
    """The rows: how often each kind was refused, how often a row's own words, how often all came as with ample memory; and what went wrong."""
    with open(REFUSED) as file:
        kinds = kinds_of(file.read().splitlines())

    def run(n):
        return Run(library, [ROWS, REFUSED], n)

    ample = run(0)
    if ample.status != 0:
        return {}, 0, 0, [f"rows: {ample}"]
    wrong, memory, own, answered = [], collections.Counter({it: 0 for it in kinds.values() if it not in FREE}), 0, 0
    for n, it in enumerate(in_turn(pool, run, ample.made), 1):
        if (it.status, it.out, it.err) == (ample.status, ample.out, ample.err):
            answered += 1
        elif (it.status, it.out, it.err) == (2, "", ""):
            own += 1
        else:
            row = row_refused(ample, it, kinds)
            if row:
                memory[kinds[row]] += 1
            else:
                wrong.append(f"rows, request {n} refused: {it}")
    wrong += [f"{kind}: never refused" for kind, count in memory.items() if not count]
    return memory, own, answered, wrong


# ---- what checks at hand spare

ADA = '"token":{"currency_symbol":"","token_name":""}'
PAYS = f'{{"pay":1,{ADA},"from_account":{{"role_token":"a"}},"to":{{"account":{{"role_token":"b"}}}},"then":'
LONG = '{"when":[{"case":{"notify_if":true},"then":' + PAYS * 100 + '"close"' + "}" * 100 + '}],"timeout":100,"timeout_continuation":"close"}'
HUNDRED = '{"accounts":[[[{"role_token":"a"},{"currency_symbol":"","token_name":""}],100]],"boundValues":[],"choices":[],"minTime":0}'
BUILT = f"""publish 0 long aa {LONG}
in genesis.0 none
out contract @long root {HUNDRED} ada 100
from 0 to 50
signer ann
submit 0 a
look 0 thread a.0
from 0 to 50
build step ann notify
"""
# A notify of a contract that makes a hundred payments then. The name of a last row, and the rows before it: without a check at hand, and with one.
LASTS = {
    "submit": ("begin 0", "", "submit 0 s"),
    "submit, checked": ("begin 0", "keep\n", "submit 0 s"),
    "submit at a hub": ("hub 1 0", "", "submit 0 s"),
    "admit": ("hub 1 0", "", "admit 0 s"),
    "front and its checks": ("begin 0", "enqueue 0 s\n", "checks 1"),
    "round at a hub": ("hub 1 0", "enqueue 0 s\n", "round 0 1"),
    "round_by": ("hub 1 0", "enqueue 0 s\n", "round_by 0 1 1"),
}
SPARED = [("submit, checked", ["submit"]), ("admit", ["submit at a hub"]), ("round_by", ["front and its checks", "round at a hub"])]


def of_last(pool, library, folder, begins, before, last):
    """How many requests of the call of a last row are answered Memory when they are refused; and what went wrong."""
    def file_of(name, lines):
        with open(f"{folder}/{name}", "w") as file:
            file.write(lines)
        return f"{folder}/{name}"

    lines = f"genesis key ann ada 100\n{begins}\n= begun\n{BUILT}{before}"
    ends = "close\n" if begins.startswith("hub") else ""
    whole = file_of("whole", f"{lines}{last}\n{ends}")
    first = Run(library, [ROWS, file_of("before", lines + ends)], 0).made
    ample = Run(library, [ROWS, whole], 0)
    # what is printed in the end makes some requests too, in both runs
    numbers = range(max(1, first - 100), ample.made + 1)
    count, wrong = 0, []
    for n, it in zip(numbers, pool.map(lambda n: Run(library, [ROWS, whole], n), numbers)):
        if (it.status, it.out) in ((2, ""), (ample.status, ample.out)):
            continue
        row = row_refused(ample, it, {})
        count += row == len(lines.splitlines()) + 1
        if not row:
            wrong.append(f"{last}, request {n} refused: {it}")
    return count, wrong


# ---- the built program

def of_program(pool, library, words, on):
    """The program on files: the same, where each request of it is refused, alone or with all that come after it."""
    def run(n):
        return Run(library, [MARLOWE, *words], n, on)

    ample = run(0)
    name = "marlowe " + " ".join(os.path.relpath(it, TOP) if it.startswith("/") else it for it in words)
    wrong, memory, answered = [], 0, 0
    for n, it in enumerate(in_turn(pool, run, ample.made), 1):
        if (it.status, it.out, it.err) == (ample.status, ample.out, ample.err):
            answered += 1
        elif (it.status, it.out, it.err) == (1, "", "refused Memory\n"):
            memory += 1
        else:
            wrong.append(f"{name}, request {n}{' and later ones' if on else ''} refused: {it}")
    return ample.made, memory, answered, wrong


def command_lines():
    """For each task of the program what it is run on."""
    lines = {"run": [], "table": [], "play": [], "analyse": []}
    for name in sorted(os.listdir(EXAMPLES)):
        files = [f"{EXAMPLES}/{name}/{it}.json" for it in ("contract", "state", "transaction")]
        lines["run"].append(["run", *files])
        lines["table"].append(["table", files[0]])
    for name in sorted(os.listdir(PLAYS)):
        lines["play"].append(["play", f"{PLAYS}/{name}/scenario.json", "--one"])
    # one plan, in a thread of its own
    lines["play at once"] = [["play", f"{PLAYS}/escrow/scenario.json"]]
    # one without alarms, and one with an alarm for which a run is found
    for name in ("escrow_1_the_buyer_deposits", "partial_pay"):
        files = [f"{EXAMPLES}/{name}/{it}.json" for it in ("contract", "state")]
        lines["analyse"] += [["analyse", files[0]], ["analyse", *files, "--json"]]
    return lines


def main():
    words = sys.argv[1:]
    wanted = [it for it in words if it != "--table"] or ["calls", "spared", "marlowe"]
    shown = "| {} | {} | {} |" if "--table" in words else "{}: {} {}"
    wrong = []
    with tempfile.TemporaryDirectory() as folder, ThreadPoolExecutor(os.cpu_count()) as pool:
        library = f"{folder}/refusing.so"
        with open(f"{folder}/refusing.c", "w") as file:
            file.write(LIBRARY)
        subprocess.run(["cc", "-O2", "-shared", "-fPIC", "-o", library, f"{folder}/refusing.c"], check=True)
        if "calls" in wanted:
            memory, own, answered, faults = of_rows(pool, library)
            wrong += faults
            for kind, count in memory.items():
                print(shown.format(kind, count, ""))
            print(shown.format("a row's own words", own, ""))
            print(shown.format("as with ample memory", "", answered), flush=True)
        if "spared" in wanted:
            counts = {}
            for name, last in LASTS.items():
                counts[name], faults = of_last(pool, library, folder, *last)
                wrong += faults
            for less, more in SPARED:
                total = sum(counts[it] for it in more)
                print(f"{less} {counts[less]} < {' and '.join(more)} {total}", flush=True)
                if counts[less] >= total:
                    wrong.append(f"{less}: not fewer requests than {' and '.join(more)}")
        for task, lines in command_lines().items():
            for on in (False, True) if {"marlowe", task.split()[0]} & set(wanted) else ():
                sums = [0, 0, 0]
                for line in lines:
                    *counts, faults = of_program(pool, library, line, on)
                    sums = [a + b for a, b in zip(sums, counts)]
                    wrong += faults
                print(shown.format(f"marlowe {task}{', and all later ones' if on else ''}", *sums[1:]), flush=True)
    print(*wrong, sep="\n", end="\n" if wrong else "")
    sys.exit(1 if wrong else 0)


if __name__ == "__main__":
    main()
