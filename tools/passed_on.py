"""What crates pass on of the crates below them, and where a name that is passed on is at home. For the scripts that follow names.

- Code: `contract::names` is `names`, by a line `pub use` in `src/lib.rt` of `contract`.
- Definitions: `Rattle.contract.specs.Names` is `Rattle.names.specs`, by a line `pub use` in its `specs/Lib.antt`.
- Lemmas: `Rattle.contract.proofs.FromNames.Exact` is `Rattle.names.proofs.Exact`, by a line `pub use` in its `proofs/FromNames.antt`.

The line may name what another crate passes on in turn. PASSED_ON has the path that each line names, by the path that it makes. Paths are tuples of their
parts."""

import re
from pathlib import Path

from above import crates

CRATES = Path(__file__).resolve().parent.parent / "crates"
USE = re.compile(r"^pub use (Rattle\.[\w.]+?)(?: as (\w+))?$", re.M)


def spelled_out(tree):
    """The paths of a line `use`: `a::{b, c::d}` has `a::b` and `a::c::d`."""
    front, brace, rest = re.sub(r"\s+as\s+\w+|\s", "", tree).partition("{")
    if not brace:
        return [tuple(front.split("::"))]
    parts, depth = [""], 0
    for sign in rest.rpartition("}")[0]:
        depth += (sign == "{") - (sign == "}")
        parts = parts + [""] if sign == "," and not depth else parts[:-1] + [parts[-1] + sign]
    return [path for part in parts if part for path in spelled_out(front + part)]


def uses(text, is_public=False):
    """The paths of the lines `use` of a source file, or of `pub use` alone."""
    return [path for tree in re.findall(r"^ *pub use ([^;]+);" if is_public else r"^ *(?:pub )?use ([^;]+);", text, re.M) for path in spelled_out(tree)]


def way(path):
    """The lines through which a path leads, by the paths that they make, and the path where it is at home."""
    through = []
    while front := next((path[:length] for length in (2, 4, 5) if path[:length] in PASSED_ON), None):
        through.append(front)
        path = PASSED_ON[front] + path[len(front):]
    return through, path


def at_home(module):
    """Where a module is at home: `Rattle.contract.specs.Names.Equal` is `Rattle.names.specs.Equal`."""
    return ".".join(way(tuple(module.split(".")))[1])


def read():
    """Reads the lines that pass something on, those of lower crates first."""
    for crate, named in crates().items():
        for file in [*CRATES.glob(f"{crate}/src/lib.rt"), *CRATES.glob(f"{crate}/specs/Lib.antt"), *CRATES.glob(f"{crate}/proofs/From*.antt")]:
            text = file.read_text()
            for path in uses(text, is_public=True) if file.suffix == ".rt" else []:
                if path[0] in named and len(way(path)[1]) == 1:  # a crate, and nothing that is in one
                    PASSED_ON[crate, path[-1]] = path
            for module, alias in USE.findall(text):
                path = tuple(module.split("."))
                PASSED_ON[("Rattle", crate, file.parent.name, *([] if file.stem == "Lib" else [file.stem]), alias or path[-1])] = path


PASSED_ON = {}
read()
