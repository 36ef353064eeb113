#!/usr/bin/env python3
"""Asks the built program and a plain Rust program (`plain/`) the escrow's first step again and again by one stream, with the contract defined, sees that
both answer the same, and prints requests a second of each; and the peak memory of the program after a thousand requests and after a million.

Needs    as `beside_plain.py`
Usage    serve_beside_plain.py PLAIN [PROGRAM WORDS..]   (as /tmp/plain/release/plain; without a program the built `marlowe serve`)
Expect   a line for each, the program's at least as fast; and at most 1 MiB more after a million requests.
Else     an answer that the two give otherwise, and status 1.
"""
import pathlib
import re
import subprocess
import sys
import tempfile
import time

ROOT = pathlib.Path(__file__).parents[1]
FOLDER = ROOT / "crates/rows_commands/data/examples/escrow_1_the_buyer_deposits"
COUNT = 200_000
TRIES = 5


def requests(count):
    """The text of a stream: the contract is defined, and so many runs follow."""
    contract, state, transaction = ((FOLDER / f"{name}.json").read_text().strip() for name in ("contract", "state", "transaction"))
    lines = [f'{{"id":0,"define":{{"deal":{contract}}}}}\n']
    lines += [f'{{"id":{i},"run":{{"contract":{{"name":"deal"}},"state":{state},"transaction":{transaction}}}}}\n' for i in range(1, count + 1)]
    return "".join(lines)


def seconds(words, path):
    """The least time by the clock of some runs over a file."""
    least = None
    for _ in range(TRIES):
        with open(path, "rb") as text:
            start = time.monotonic()
            subprocess.run(words, stdin=text, stdout=subprocess.DEVNULL, check=True)
            took = time.monotonic() - start
        least = took if least is None else min(least, took)
    return least


def memory(words, path):
    """Peak memory in KiB."""
    with open(path, "rb") as text:
        run = subprocess.run(["/usr/bin/time", "-f", "%M", *words], stdin=text, stdout=subprocess.DEVNULL, stderr=subprocess.PIPE, text=True, check=True)
    return int(re.findall(r"\d+", run.stderr)[-1])


def answers(words, path):
    with open(path, "rb") as text:
        return subprocess.run(words, stdin=text, stdout=subprocess.PIPE, check=True).stdout


def main():
    plain = [sys.argv[1], "serve"]
    program = sys.argv[2:] or [str(ROOT / "crates/marlowe/out/marlowe"), "serve"]
    with tempfile.TemporaryDirectory() as folder:
        paths = {}
        for count in (1_000, COUNT, 1_000_000):
            paths[count] = f"{folder}/{count}"
            pathlib.Path(paths[count]).write_text(requests(count))
        if answers(plain, paths[1_000]) != answers(program, paths[1_000]):
            sys.exit("the two answer otherwise")
        for name, words in (("plain", plain), ("here", program)):
            print(f"{name:6} {COUNT / seconds(words, paths[COUNT]):10,.0f} requests a second")
        few, many = memory(program, paths[1_000]), memory(program, paths[1_000_000])
        print(f"memory {few} KiB after a thousand requests, {many} KiB after a million")


if __name__ == "__main__":
    main()
