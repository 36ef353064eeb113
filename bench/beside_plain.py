#!/usr/bin/env python3
"""Runs the built program and a plain Rust program over `serde_json::Value` (`plain/`) on the same texts of up to 1 MiB, sees that both print
the same, and prints the least processor time and the peak memory of each, with the ratios: of runs, and then of tables.

Needs    (cd crates/marlowe && rt run -- --version), and, with Debian's packages `time` and librust-serde-json-dev,
         (cd bench/plain && CARGO_TARGET_DIR=/tmp/plain cargo build --release --offline \\
            --config 'source.crates-io.replace-with="debian"' --config 'source.debian.directory="/usr/share/cargo/registry"')
Usage    beside_plain.py PLAIN   (as /tmp/plain/release/plain)
Expect   a line for each family of texts: the time and memory of both programs and the ratios, runs first. No ratio is promised.
Else     a text that the two print otherwise, and status 1.
"""
import json
import os
import subprocess
import sys
import tempfile

from growth import LIMIT, PROGRAM, TIME, deep_arithmetic, long_remainder, many_accounts, many_forms, many_values, wide_pays, wide_when

FAMILIES = ((wide_when, 23_000), (many_forms, 6_800), (deep_arithmetic, 51_000), (wide_pays, 5_900), (many_accounts, 14_000), (long_remainder, 23_000), (many_values, 57_000))
RUNS = 7


def child(program, words):
    """Runs a program once; gives processor seconds, peak memory in KiB and what it printed."""
    run = subprocess.run([TIME, "-f", "%U %S %M", program, *words], capture_output=True, text=True)
    if run.returncode != 0:
        sys.exit(f"{program}: status {run.returncode}, {run.stderr}")
    user, system, memory = run.stderr.split()[-3:]
    return float(user) + float(system), int(memory), run.stdout


def cpu(program, words):
    """Processor seconds of one of ten runs, which the clock's hundredths tell better than a single one."""
    before = os.times()
    for _ in range(10):
        subprocess.run([program, *words], stdout=subprocess.DEVNULL, check=True)
    after = os.times()
    return (after.children_user + after.children_system - before.children_user - before.children_system) / 10


def compare(name, size, plain, words):
    """Prints the line of one case."""
    (_, there, printed), (_, here, told) = child(plain, words), child(PROGRAM, words)
    if printed != told:
        sys.exit(f"{name}: the two print different texts")
    slow = min(cpu(plain, words) for _ in range(RUNS))
    fast = min(cpu(PROGRAM, words) for _ in range(RUNS))
    print(f"{words[0]:5} {name:16} {size:8} | {slow * 1000:6.1f} {there / 1024:6.1f} | {fast * 1000:6.1f} {here / 1024:6.1f} | {fast / slow:5.2f} {here / there:5.2f}")


def main():
    plain = sys.argv[1]
    print(f"{'case':22} {'bytes':>8} | plain ms, MiB | here ms, MiB | time, memory")
    for make, n in FAMILIES:
        texts = [json.dumps(value, separators=(",", ":")) for value in make(n)]
        if max(map(len, texts)) > LIMIT:
            sys.exit(f"{make.__name__}: a text of {max(map(len, texts))} bytes is too long")
        with tempfile.TemporaryDirectory() as folder:
            paths = [os.path.join(folder, name) for name in ("contract", "state", "transaction")]
            for path, text in zip(paths, texts):
                with open(path, "w") as file:
                    file.write(text)
            compare(make.__name__, max(map(len, texts)), plain, ["run", *paths])
            if len(texts[0]) > LIMIT // 2:
                compare(make.__name__, len(texts[0]), plain, ["table", paths[0]])


if __name__ == "__main__":
    main()
