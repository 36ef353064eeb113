#!/usr/bin/env python3
"""Has a chain and a plain Rust ledger over a `HashMap` (`plain/ledger`) accept the same payments by Submit, each in one program, sees that both end with the same
unspent outputs, and prints the least processor time and the peak memory of each, with the ratios.

Needs    the program that ledger_program.py makes, Debian's package `time`, and
         (cd bench/plain/ledger && CARGO_TARGET_DIR=/tmp/plain cargo build --release --offline)
Usage    ledger_beside_plain.py PLAIN PROGRAM [PAYMENTS]   (as /tmp/plain/release/plain_ledger and a copy of ledger_bench)
Expect   of 100,000 payments, unless it is said how many, one line; of a proved program at most TIMES times the processor time of the plain ledger and at most SPACE times its memory, in
         less than SECONDS of processor time; else status 1. README.md has what was measured.
Else     what the two print otherwise: how many were accepted, how many outputs are unspent, what they hold, and a digest of all, in order of their making.
Mind     both keep each call with its reply. A payment spends the output of the one before, pays one lovelace to one of a thousand keys in turn, and the rest
         to the bank. The plain ledger judges by the rules that such a transaction meets, 1 to 6, 8 and 18, and by ids from the same spelling.
"""
import sys

from beside_plain import child

PAYMENTS = 100_000
RUNS = 15
TIMES = 1.6
SPACE = 3
SECONDS = 60


def least(program, payments):
    """The least processor seconds and the least peak memory, in KiB, of some runs."""
    runs = [child(program, ["payments", payments]) for _ in range(RUNS)]
    return min(run[0] for run in runs), min(run[1] for run in runs)


def main():
    if len(sys.argv) not in (3, 4):
        sys.exit(__doc__)
    plain, program = sys.argv[1:3]
    payments = sys.argv[3] if len(sys.argv) == 4 else str(PAYMENTS)
    told, printed = (child(it, ["payments", payments, "shown"])[2] for it in (program, plain))
    if told != printed or not told.startswith(f"accepted {payments} of {payments}\n"):
        sys.exit(f"the plain ledger:\n{printed}the chain:\n{told}")
    (slow, there), (fast, here) = least(plain, payments), least(program, payments)
    ratio = fast / slow if slow else float("inf")
    print(f"{payments} payments | plain {slow:.2f} s, {there / 1024:.1f} MiB | chain {fast:.2f} s, {here / 1024:.1f} MiB | times {ratio:.2f} and {here / there:.2f}")
    sys.exit(0 if ratio <= TIMES and here <= SPACE * there and fast < SECONDS else 1)


if __name__ == "__main__":
    main()
