#!/usr/bin/env python3
"""How long one `run` of the escrow's first step takes: by a call of the library from each language, by one in a session that has a name for the contract, by a
request of one `marlowe serve` whose answer is awaited, and by a process of `marlowe run`. All must tell the same outcome.

Needs    as ../checks/bindings.py
Usage    measure.py [--built] [PROGRAM]    --built takes what build.sh has made. Without a program the built `marlowe`
Expect   a line for each, in microseconds: the least of five tries
"""
import os
import subprocess
import sys
import tempfile
import time

HERE = os.path.dirname(os.path.abspath(__file__))
sys.path[:0] = [os.path.join(HERE, "..", "checks")]
import bindings
import serve

# How many calls a try has, and how many processes.
CALLS, PROCESSES, TRIES = 100_000, 300, 5
STEP = bindings.ESCROW[0]
# Programs that ask the request of a file so many times, and print the last answer; in C in a session, where another file has what is asked first.
IN_C = r"""
#include "marlowe.h"
#include <stdio.h>
#include <stdlib.h>
static uint8_t request[1 << 16], answer[1 << 16];
static size_t put(const char *path) {
    FILE *file = fopen(path, "rb");
    if (file == NULL) exit(1);
    size_t size = fread(request, 1, sizeof request, file);
    fclose(file);
    return size;
}
int main(int count, char **words) {
    struct marlowe_session session = {0};
    bool in_session = count > 3;
    if (in_session && !marlowe_session_open(&session)) return 1;
    if (in_session) marlowe_session_answer(&session, false, request, put(words[3]), answer, sizeof answer);
    size_t size = put(words[2]);
    ptrdiff_t length = 0;
    for (long left = atol(words[1]); left > 0; left--) {
        if (in_session) length = marlowe_session_answer(&session, false, request, size, answer, sizeof answer);
        else length = marlowe_answer(false, request, size, answer, sizeof answer);
    }
    if (in_session) marlowe_session_close(&session);
    return fwrite(answer, 1, (size_t)length, stdout) != (size_t)length;
}
"""
IN_HASKELL = r"""
module Main (main) where

import Control.Monad (foldM)
import qualified Data.ByteString as Bytes
import System.Environment (getArgs)

import qualified Marlowe

main :: IO ()
main = do
  [count, path] <- getArgs
  request <- Bytes.readFile path
  foldM (\_ _ -> Marlowe.answer False request) Bytes.empty [1 .. read count :: Int] >>= Bytes.putStr
"""
SOURCES = {"C": ("calls.c", IN_C), "Haskell": ("Calls.hs", IN_HASKELL)}


def least(count, call):
    """Microseconds of one of so many, by the quickest of some tries; and what the last one gave."""
    spent = []
    for _ in range(TRIES):
        began = time.perf_counter()
        told = call(count)
        spent.append((time.perf_counter() - began) / count * 1e6)
    return min(spent), told


def by_program(words):
    """A program that is started once, the time for its start included, and asks so many times."""
    return lambda count: bindings.run([words[0], str(count), *words[1:]])


def named(folder):
    """The files of the same request where the contract has a name, and of the one that gives it that."""
    contract, state, transaction = (bindings.text_of(STEP, f"{name}.json").decode() for name in bindings.PARTS)
    request = f'{{"run":{{"contract":{{"name":"deal"}},"state":{state},"transaction":{transaction}}}}}'
    return bindings.written(folder, "named", request), bindings.written(folder, "define", f'{{"define":{{"deal":{contract}}}}}')


def by_python(request):
    engine = bindings.Marlowe(os.path.join(bindings.OUT, "libmarlowe.so"))

    def call(count):
        for _ in range(count):
            told = engine.answer(request)
        return told

    return call


def by_stream(program, request):
    def call(count):
        with subprocess.Popen([program, "serve"], stdin=subprocess.PIPE, stdout=subprocess.PIPE) as child:
            for _ in range(count):
                child.stdin.write(request + b"\n")
                child.stdin.flush()
                told = child.stdout.readline()
            child.stdin.close()
        return told

    return call


def by_process(program, step):
    paths = [os.path.join(bindings.EXAMPLES, step, f"{name}.json") for name in bindings.PARTS]

    def call(count):
        for _ in range(count):
            told = bindings.run([program, "run", *paths])
        return b'{"id":null,"ok":' + told.strip() + b"}\n"

    return call


def main():
    words = sys.argv[1:]
    if words[:1] == ["--built"]:
        words = words[1:]
    else:
        bindings.run([os.path.join(HERE, "build.sh")])
    program, request = words[0] if words else serve.MARLOWE, bindings.asked_of(STEP)
    with tempfile.TemporaryDirectory() as folder:
        path = bindings.written(folder, "request", request.decode())
        made = {name: make(folder, bindings.written(folder, *SOURCES[name])) for name, (make, _, _) in bindings.languages().items()}
        calls = {f"by the library, from {name}": (CALLS, by_program([program_of, path])) for name, program_of in made.items()}
        calls["by the library, from C, where the contract has a name"] = CALLS, by_program([made["C"], *named(folder)])
        calls["by the library, from Python"] = CALLS, by_python(request)
        calls["by one `marlowe serve`, from Python"] = CALLS // 10, by_stream(program, request)
        calls["by a process of `marlowe run`"] = PROCESSES, by_process(program, STEP)
        answers = set()
        for name, (count, call) in calls.items():
            spent, told = least(count, call)
            answers.add(told)
            print(f"{spent:9.1f}  {name}")
    if len(answers) != 1:
        sys.exit(f"differs: {answers}")


if __name__ == "__main__":
    main()
