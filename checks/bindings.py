#!/usr/bin/env python3
"""Asks the library the same as the program: by C and by Haskell, linked with the archive, and by Python, which loads the shared object. The requests are
the steps of all examples, a long one, and random ones by `serve.py` beside this file; as many again, with names that come and go, are asked in one session.
Each is asked of a stream of `marlowe serve` too; the bytes must be the same. Python asks by four threads as well, and C under valgrind, and the deepest
contracts with 4 MiB of stack. Then the examples of bindings/ run the escrow, and print the same bytes.

Needs    (cd crates/marlowe && rt run -- --version), and cc, ar and rt for bindings/build.sh; ghc for Haskell, and valgrind
Usage    bindings.py [--requests N] [--seed S] [--built] [PROGRAM WORDS..]
         N random requests (10,000) by seed S (1); --built takes what bindings/build.sh has made. Without a program the built `marlowe serve`
Expect   how many answers agree, by C, Haskell and Python, and how long a call took; the same in a session; `valgrind: no error, nothing lost`; and
         `the escrow: the same bytes, by ..`. What isn't installed is left out, and said on a line of its own
Else     `differs` with the request and both answers, and status 1
"""
import json
import os
import re
import resource
import subprocess
import sys
import tempfile
import threading
import time
from shutil import which

HERE = os.path.dirname(os.path.abspath(__file__))
BINDINGS = os.path.join(HERE, "..", "bindings")
OUT = os.path.join(BINDINGS, "out")
EXAMPLES = os.path.join(HERE, "..", "crates", "rows_commands", "data", "examples")
ESCROW = ["escrow_1_the_buyer_deposits", "escrow_2_the_buyer_releases"]
PARTS = ("contract", "state", "transaction")
THREADS, STACK = 4, 4 * 1_048_576
sys.path[:0] = [HERE, os.path.join(BINDINGS, "python")]
import compare
import depth
import serve
from marlowe import Marlowe, Session

# Each line of standard input is asked, and its answer printed; with a word on the command line, in a session. In C a room that is too small is asked twice.
ASKS_IN_C = r"""
#include "marlowe.h"
#include <stdio.h>
#include <stdlib.h>
static struct marlowe_session session = {0};
static ptrdiff_t ask(bool in_session, const char *line, size_t size, uint8_t *answer, size_t room) {
    const uint8_t *request = (const uint8_t *)line;
    return in_session ? marlowe_session_answer(&session, false, request, size, answer, room) : marlowe_answer(false, request, size, answer, room);
}
int main(int count, char **words) {
    (void)words;
    bool in_session = count > 1;
    size_t room = in_session ? 1 << 20 : 64, most = 0; char *line = NULL; uint8_t *answer = malloc(room);
    if (in_session && !marlowe_session_open(&session)) return 1;
    for (ssize_t n; (n = getline(&line, &most, stdin)) > 0;) {
        ptrdiff_t length = ask(in_session, line, (size_t)n - 1, answer, room);
        if (length > (ptrdiff_t)room) {
            answer = realloc(answer, room = (size_t)length);
            length = ask(in_session, line, (size_t)n - 1, answer, room);
        }
        if (length < 0) return 1;
        fwrite(answer, 1, (size_t)length, stdout);
    }
    if (in_session) marlowe_session_close(&session);
    free(line); free(answer);
    return 0;
}
"""
ASKS_IN_HASKELL = r"""
module Main (main) where

import qualified Data.ByteString.Char8 as Bytes
import qualified Marlowe
import System.Environment (getArgs)

main :: IO ()
main = do
  words' <- getArgs
  lines' <- Bytes.lines <$> Bytes.getContents
  let each ask = mapM_ (\line -> ask line >>= Bytes.putStr) lines'
  if null words' then each (Marlowe.answer False) else Marlowe.withSession (\session -> each (Marlowe.answerIn session False))
"""


def differs(line, want, got):
    sys.exit(f"differs\nasked {line[:2000]}\nwant  {want[:2000]}\ngot   {got[:2000]}")


def run(words, text=b"", stack=None):
    """What a program prints, which may have so little stack."""
    limited = (lambda: resource.setrlimit(resource.RLIMIT_STACK, (stack, stack))) if stack else None
    done = subprocess.run(words, input=text, capture_output=True, preexec_fn=limited)
    if done.returncode != 0:
        sys.exit(f"differs: {words[0]} ended with {done.returncode}\n{done.stdout.decode()[-999:]}{done.stderr.decode()[-999:]}")
    return done.stdout


# ---- programs over the library

def by_c(folder, source):
    """A program in C, with the archive."""
    path = os.path.join(folder, "in_c")
    flags = ["-std=gnu99", "-Wall", "-Wextra", "-Werror", "-O2", "-I", os.path.join(BINDINGS, "c")]
    run(["cc", *flags, source, os.path.join(OUT, "libmarlowe.a"), "-o", path])
    return path


def by_haskell(folder, source):
    """A program in Haskell, with the archive."""
    path = os.path.join(folder, "in_haskell")
    flags = ["-O", "-Wall", "-Werror", "-threaded", "-outputdir", os.path.join(folder, "made"), "-i" + os.path.join(BINDINGS, "haskell")]
    run(["ghc", *flags, source, os.path.join(OUT, "libmarlowe.a"), "-o", path])
    return path


def written(folder, name, text):
    path = os.path.join(folder, name)
    with open(path, "w", encoding="utf-8") as file:
        file.write(text)
    return path


# ---- requests

def text_of(step, name):
    with open(os.path.join(EXAMPLES, step, name), "rb") as file:
        return file.read()


def asked_of(step):
    """The request of an example's step, on one line."""
    parts = [text_of(step, f"{name}.json").replace(b"\n", b" ") for name in PARTS]
    return b'{"run":{"contract":%s,"state":%s,"transaction":%s}}' % tuple(parts)


def random_lines(count, seed):
    """Lines that name nothing and take no name away."""
    seeded(seed)
    lines = []
    while len(lines) < count:
        line, _ = serve.request({}, 1)
        if '"define"' not in line and '"forget"' not in line:
            lines.append(line.encode())
    return lines


def named_lines(count, seed):
    """Lines of one stream, in which names come and go."""
    seeded(f"{seed} named")
    named = {}
    return [serve.request(named, number)[0].encode() for number in range(1, count + 1)]


def seeded(seed):
    compare.R.seed(f"{seed}")
    serve.R.seed(f"{seed}")


def long_line():
    """A request whose answer is longer than the room that the bindings have at first."""
    contract = "close"
    for number in range(20):
        contract = {"let": "a name of five thousand letters: " + 5_000 * "x", "be": number, "then": contract}
    return json.dumps({"id": "long", "read": {"contract": contract}}).encode()


def deep_lines():
    """Each request about a contract, for those that nest deepest, of each sort."""
    for _, before, opens, inside, closes, behind, _ in depth.SORTS:
        levels = max(n for n in range(128) if nesting(json.loads(before + opens * n + inside + closes * n + behind)) <= 127)
        contract = before + opens * levels + inside + closes * levels + behind
        yield f'{{"run":{{"contract":{contract},"transaction":{{"tx_interval":{{"from":0,"to":0}},"tx_inputs":[]}}}}}}'.encode()
        yield from (f'{{"{word}":{{"contract":{contract},"notes":true}}}}'.encode() for word in ("trace", "next", "table", "analyse", "read", "bytes"))


def nesting(data):
    return 1 + max(map(nesting, data.values() if isinstance(data, dict) else data), default=0) if isinstance(data, (dict, list)) else 0


def first_line(answer):
    """An answer in which a line's number is 1, as it is of each request of the library."""
    return re.sub(rb'(^\{"id":.*,"refused":\{"of":"line","name":"\w+","line":)\d+', rb"\g<1>1", answer)


# ---- comparing

def compared(name, lines, want, got):
    if len(got) != len(want):
        sys.exit(f"differs: {len(want)} answers, {len(got)} by {name}")
    for line, one, other in zip(lines, want, got):
        if one != other:
            differs(line, one, other)


def examples_are_answered(answers):
    """Whether the answers to the examples' requests are those that are written beside them."""
    for step, got in answers.items():
        taken = os.path.exists(os.path.join(EXAMPLES, step, "output.json"))
        want = b'"ok":' + text_of(step, "output.json").strip() if taken else b'"name":"' + text_of(step, "refusal.txt").split()[-1] + b'"'
        if not (got == b'{"id":null,' + want + b"}\n" if taken else want in got):
            differs(step, want, got)


def by_threads(lines):
    """The answers by several threads at once, of which each has a client of its own."""
    answers = [None] * len(lines)

    def ask(first):
        engine = Marlowe(os.path.join(OUT, "libmarlowe.so"))
        for at in range(first, len(lines), THREADS):
            answers[at] = engine.answer(lines[at])

    threads = [threading.Thread(target=ask, args=(first,)) for first in range(THREADS)]
    for thread in threads:
        thread.start()
    for thread in threads:
        thread.join()
    return answers


def languages():
    """By name the maker of a program, the name and the text of one that asks lines, and the example."""
    found = {"C": (by_c, ("asks.c", ASKS_IN_C), os.path.join(BINDINGS, "c", "example.c"))}
    if which("ghc"):
        found["Haskell"] = (by_haskell, ("Asks.hs", ASKS_IN_HASKELL), os.path.join(BINDINGS, "haskell", "Example.hs"))
    else:
        print("Haskell is left out: there is no ghc")
    return found


def hold(folder, words, count, seed):
    made = {name: make(folder, written(folder, *source)) for name, (make, source, _) in languages().items()}
    steps = sorted(os.listdir(EXAMPLES))
    lines = [*map(asked_of, steps), long_line(), *random_lines(count, seed)]
    want = answers_of(words, lines)
    examples_are_answered(dict(zip(steps, want)))
    asked(made, [], lines, want)
    compared(f"{THREADS} threads of Python", lines, want, by_threads(lines))
    named = named_lines(count, seed)
    asked(made, ["session"], named, answers_of(words, named))
    deep = list(deep_lines())
    compared("C with less stack", deep, answers_of(words, deep), run([made["C"]], b"\n".join(deep) + b"\n", STACK).splitlines(keepends=True))
    print("valgrind: no error, nothing lost" if which("valgrind") else "valgrind is left out: it isn't there")
    escrow(folder, b"".join(want[steps.index(step)] for step in ESCROW))


def answers_of(words, lines):
    """The answers of a stream."""
    return [first_line(answer) for answer in run(words, b"\n".join(lines) + b"\n").splitlines(keepends=True)]


def asked(made, words, lines, want):
    """Asks these lines in each language; with a word in a session."""
    text, spent = b"\n".join(lines) + b"\n", {}
    for name, program in made.items():
        began = time.perf_counter()
        compared(name, lines, want, run([program, *words], text).splitlines(keepends=True))
        spent[name] = time.perf_counter() - began
    if which("valgrind"):
        run(["valgrind", "-q", "--error-exitcode=9", "--leak-check=full", "--errors-for-leak-kinds=all", made["C"], *words], text)
    began = time.perf_counter()
    compared("Python", lines, want, by_python(words, lines))
    spent["Python"] = time.perf_counter() - began
    took = ", ".join(f"{time / len(lines) * 1e6:.0f} microseconds a call by {name}" for name, time in spent.items())
    print(f"{len(lines)} answers agree, by {' and '.join(spent)}{' in a session' if words else ''}; {took}")


def by_python(words, lines):
    path = os.path.join(OUT, "libmarlowe.so")
    if not words:
        return list(map(Marlowe(path).answer, lines))
    with Session(path) as session:
        return list(map(session.answer, lines))


def escrow(folder, want):
    """The examples, which run the escrow in each language."""
    paths = [os.path.join(EXAMPLES, step, f"{name}.json") for step in ESCROW for name in PARTS]
    printed = {name: run([make(folder, example), *paths]) for name, (make, _, example) in languages().items()}
    printed["Python"] = run([sys.executable, os.path.join(BINDINGS, "python", "run_escrow.py"), os.path.join(OUT, "libmarlowe.so")])
    for name, got in printed.items():
        if got != want:
            differs(f"the escrow, by {name}", want, got)
    print(f"the escrow: the same bytes, by {' and '.join(printed)}")


def main():
    words, flags, builds = sys.argv[1:], {"--requests": 10_000, "--seed": 1}, True
    while words and words[0].startswith("--"):
        if words[0] == "--built":
            builds, words = False, words[1:]
        else:
            flags[words[0]], words = int(words[1]), words[2:]
    if builds:
        run([os.path.join(BINDINGS, "build.sh")])
    with tempfile.TemporaryDirectory() as folder:
        hold(folder, words or [serve.MARLOWE, "serve"], flags["--requests"], flags["--seed"])


if __name__ == "__main__":
    main()
