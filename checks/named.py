#!/usr/bin/env python3
"""What crates.txt lists and what crates pass on is named somewhere, and there are few ways down.

A crate's line lists the crates that its files name. What stands further down is named through one of these, which passes it on (docs/layers.md): in code by
`pub use` in `src/lib.rt`, of definitions in `specs/Lib.antt`, of lemmas in `proofs/From*.antt`.

The toolchain walks each way from a crate down to the lowest ones a dozen times in a gate, and one kit reads the files of each crate on the way. Their number
doubles where a crate lists both another and what that one stands on.

Needs    nothing built.
Usage    checks/named.py
Expect   the number of ways, and status 0.
Else     a line for each crate that is listed and that no file of that line's crate names, for each that is passed on and that no crate above names there, or
         that there are more ways than MOST; and status 1.
"""

import re
import sys
from pathlib import Path

TOP = Path(__file__).resolve().parent.parent
MOST = 126_000
sys.path.insert(0, str(TOP / "tools"))
from above import crates  # noqa: E402
from passed_on import PASSED_ON, uses, way  # noqa: E402


def named_in(crate):
    """Each file of a crate with the paths that it names: in code as `below::item`, in clauses, definitions and proofs as `Rattle.below.`, in a tactic as
    `below::proofs::`."""
    for file in (TOP / "crates" / crate).rglob("*"):
        if file.suffix in (".rt", ".antt") and "out" not in file.relative_to(TOP / "crates" / crate).parts:
            text = file.read_text()
            paths = {tuple(path.split(".")) for path in re.findall(r"\bRattle(?:\.\w+)+", text)}
            if file.suffix == ".rt":
                code = re.sub(r"//.*", "", text)
                paths.update(uses(code), (tuple(path.split("::")) for path in re.findall(r"(?<![\w:])\w+(?:::\w+)+", code)))
            yield file, {("Rattle", *path) if path[1:2] == ("proofs",) else path for path in paths}


def crate_of(path):
    return path[1] if path[0] == "Rattle" and len(path) > 1 else path[0]


def ways(stand_on):
    """How many ways there are down from all crates together: each crate is one, and goes on along each that it names."""
    count = {}
    for name, belows in stand_on.items():
        count[name] = 1 + sum(count[below] for below in belows)
    return sum(count.values())


def faults(stand_on):
    idle = set(PASSED_ON)
    for crate, belows in stand_on.items():
        files = dict(named_in(crate))
        named = {crate_of(path) for paths in files.values() for path in paths}
        yield from (f"{crate} lists {below}, and no file of it names that" for below in belows if below not in named)
        for file, paths in files.items():
            if file.name == "Lib.antt" or file.name.startswith("From"):
                continue  # these only pass on
            for path in paths:
                passes_on = file.name == "lib.rt" and PASSED_ON.get((crate, path[-1])) == path
                if crate_of(path) in belows and not passes_on:
                    idle -= {front for front in way(path)[0] if crate_of(front) != crate}
    for front in filter(idle.__contains__, PASSED_ON):
        yield f"{('.' if front[0] == 'Rattle' else '::').join(front)} is passed on, and no crate above names it there"


def main():
    stand_on = crates()
    found, said = ways(stand_on), list(faults(stand_on))
    print("\n".join([*said, f"{found:,} ways down, at most {MOST:,}"]))
    sys.exit(1 if said or found > MOST else 0)


if __name__ == "__main__":
    main()
