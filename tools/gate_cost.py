#!/usr/bin/env python3
"""What each crate takes of a running `rt ci`, in processor seconds: its check, its tests, its edits.

Start it beside the run, at the top of the checkout that the run is in, and let it end by itself:

    setsid -f rt ci > ci.log 2>&1; tools/gate_cost.py ci.log [--write]

It looks every second and a half at the processes of the session that writes the log, so what lives shorter is missed: the sum
that it prints last is at most some hundredths too low. It ends when the log's last line is 'N passed, M failed'. With --write
the table of a run of all crates stands in docs/PROOF_COST.md, between its two marks.
"""

import collections
import os
import re
import sys
import time
from pathlib import Path

TICKS = os.sysconf("SC_CLK_TCK")
PAGE = Path(__file__).resolve().parent.parent / "docs" / "PROOF_COST.md"
BEGIN, END = "<!-- written by tools/gate_cost.py -->", "<!-- to here -->"


def pids():
    return filter(str.isdigit, os.listdir("/proc"))


def stat_of(pid):
    """What the system says of a process, behind its name: the fourth is its session, then see proc(5)."""
    return Path(f"/proc/{pid}/stat").read_text().rsplit(")", 1)[1].split()


def session_of(log):
    """The session whose first process writes the log."""
    for pid in pids():
        try:
            if os.path.samefile(f"/proc/{pid}/fd/1", log) and stat_of(pid)[3] == pid:
                return pid
        except OSError:
            continue
    sys.exit(f"no session writes {log}: start the run with setsid -f")


def processes(session):
    """The checks of a session that run now: a key, the crate, what it is checked for, and the seconds so far."""
    for pid in pids():
        try:
            words = Path(f"/proc/{pid}/cmdline").read_bytes().split(b"\0")
            if not words[0].endswith(b"/rattle") or b"--crate-name" not in words:
                continue
            stat = stat_of(pid)
            where = os.readlink(f"/proc/{pid}/cwd")
        except OSError:
            continue
        if stat[3] != session:
            continue
        crate = words[words.index(b"--crate-name") + 1].decode()
        kind = "edits" if "rt-edit" in where else "tests" if b"--test" in words else "check"
        yield f"{pid}.{stat[19]}", crate, kind, (int(stat[11]) + int(stat[12])) / TICKS


def watched(log):
    """The seconds of each check that was seen until the run ended."""
    seen, session = {}, session_of(log)
    while True:
        for key, *what in processes(session):
            seen[key] = what
        lines = Path(log).read_text(errors="replace").splitlines()
        if lines and re.match(r"\d+ passed, \d+ failed", lines[-1]):
            return seen.values()
        time.sleep(1.5)


def table(checks):
    cost = collections.defaultdict(collections.Counter)
    for crate, kind, seconds in checks:
        cost[crate][kind] += seconds
    rows = ["| Crate | check | tests | edits | all |", "|---|---|---|---|---|"]
    for crate, by in sorted(cost.items(), key=lambda one: -one[1].total()):
        rows.append(f"| `{crate}` | {by['check']:.0f} | {by['tests']:.0f} | {by['edits']:.0f} | {by.total():.0f} |")
    minutes = sum(by.total() for by in cost.values()) / 60
    return "\n".join(rows) + f"\n\n{minutes:.0f} processor minutes."


def main(log, *flags):
    text = table(watched(log))
    print(text)
    if "--write" in flags:
        before, _, rest = PAGE.read_text().partition(BEGIN)
        after = rest.partition(END)[2]
        PAGE.write_text(f"{before}{BEGIN}\n{text}\n{END}{after}")


main(*sys.argv[1:])
