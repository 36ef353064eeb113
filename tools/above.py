#!/usr/bin/env python3
"""The price of a change: how many crates stand above a crate, so that the gate proves them anew when it changes.

    tools/above.py           prints the number for each crate, in the order of crates.txt
    tools/above.py NAME..    prints the crates above these, each once
"""
import sys
from pathlib import Path

TOP = Path(__file__).resolve().parent.parent


def crates():
    """Each crate with the crates of this repository that it names."""
    lines = [line.split("#")[0] for line in (TOP / "crates.txt").read_text().splitlines()]
    named = {line.split(":")[0].split()[0]: line.split(":")[1].split() for line in lines if ":" in line}
    return {name: [below for below in belows if below in named] for name, belows in named.items()}


def above(stand_on, names):
    """The crates that stand on these, on those, and so on, in the order of crates.txt."""
    found = set(names)
    while True:
        more = {name for name, belows in stand_on.items() if found & set(belows)} - found
        if not more:
            return [name for name in stand_on if name in found and name not in names]
        found |= more


def main():
    stand_on, names = crates(), sys.argv[1:]
    unknown = [name for name in names if name not in stand_on]
    if unknown:
        sys.exit("no such crate: " + " ".join(unknown))
    if names:
        return print("\n".join(above(stand_on, names)))
    for name in stand_on:
        print(f"{len(above(stand_on, [name])):3} {name}")


if __name__ == "__main__":
    main()
