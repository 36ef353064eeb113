#!/usr/bin/env python3
"""Definitions of specs/ and lemmas of proofs/ that nothing living names.

    tools/unreached.py              prints them for every crate, file by file, and how many lines they have
    tools/unreached.py CRATE..      for these crates alone

A definition or a lemma lives if a clause, a ghost item or a tactic of a `.rt` file names it, if a file that answers goals
(`Answers`, `Invariants`, `Proof`) or the head of a block of definitions does, or if a living one does. What another crate passes
on is looked for at home (passed_on.py). It goes by names, so `rt check` is the judge of what may go.
"""

import re
import sys
from pathlib import Path

from passed_on import at_home

TOP = Path(__file__).resolve().parent.parent / "crates"
USE = re.compile(r"Rattle\.(\w+)\.(specs|proofs)\.([\w.+/-]+?)(?:\.\{([^}]*)\}| as (\w+))")
NAMED = re.compile(r"\b(\w+)::(specs|proofs)::((?:\w+::)+)([\w-]+)")
HEAD = re.compile(r"^(?:abbrev |unfoldable |opaque |data |record |pub )*([^\s:({]+)")
TOKEN = re.compile(r"[^\s(){},;.:λ→×∷\[\]]+")
OPENS = re.compile(r"^ *(?:module|(?:abbrev )?mutual)\b")
ANSWERS = {"Answers", "Invariants", "Proof"}
# words that stand where a name could, but begin none
NO_NAMES = {")", "}", "]", "})", "unfolding", "use", "mod", "mutual", "where", "infixl", "infixr"}


def origin(crate, kind, module):
    """The crate, the folder and the module where a module is at home."""
    _, crate, kind, *parts = at_home(f"Rattle.{crate}.{kind}.{module}").split(".")
    return crate, kind, ".".join(parts)


class File:
    """A file: what it imports, by the name that this has here, and its definitions, each with its text. A head in a block
    (`module`, `mutual`) stands four columns to the right at most for each block around it."""

    def __init__(self, path, key):
        self.key, self.imports, self.modules, self.texts, self.blocks = key, {}, {}, {}, []
        name, blocks = None, 0
        for line in path.read_text().splitlines():
            text = re.sub(r"(^|\s)--(\s.*)?$", "", line)
            found = USE.search(text) if re.match(r"(pub |ghost )*use ", text) else None
            if found:
                self.add(found)
            elif OPENS.match(text):
                blocks = (len(text) - len(text.lstrip())) // 2 + 1
                self.blocks.append(text)
            elif text.strip():
                indent = len(text) - len(text.lstrip())
                blocks = min(blocks, indent // 2)
                head = HEAD.match(text.strip()) if indent == 2 * blocks else None
                name = head.group(1) if head and head.group(1) not in NO_NAMES else name
                self.texts.setdefault(name, []).append(text)

    def add(self, found):
        *module, names, alias = found.groups()
        module = origin(*module)
        if alias:
            self.modules[alias] = module
        for part in filter(None, (names or "").split(",")):
            name, _, new = part.strip().partition(" as ")
            self.imports[new or name] = (*module, name)

    def named_by(self, text):
        """What a text of this file names: here, and in other files."""
        words = set(TOKEN.findall(text))
        found = {self.imports[word] for word in words if word in self.imports}
        found |= {(*self.key, word) for word in words if word in self.texts}
        for alias, module in self.modules.items():
            found |= {(*module, word) for word in re.findall(rf"\b{alias}\.([\w-]+)", text)}
        return found


def files():
    """Each file of specs/ and proofs/, by crate, folder and module. What tells the prover of owners (`formers`) isn't cited by name."""
    found = {}
    for path in TOP.glob("*/*/**/*.antt"):
        crate, kind, *rest = path.relative_to(TOP).with_suffix("").parts
        if kind in ("specs", "proofs") and path.stem != "Lib" and "formers" not in rest:
            found[crate, kind, ".".join(rest)] = File(path, (crate, kind, ".".join(rest)))
    return found


def roots(all_files):
    """What code and answers name."""
    found = set()
    for path in TOP.glob("*/src/**/*.rt"):
        text, crate = path.read_text(), path.relative_to(TOP).parts[0]
        for *module, names, _ in USE.findall(text):
            found |= {(*origin(*module), name.strip().split(" as ")[0]) for name in names.split(",")}
        for below, kind, module, name in NAMED.findall(text):
            found.add((*origin(crate if below == "crate" else below, kind, module[:-2].replace("::", ".")), name))
    for key, file in all_files.items():
        found |= {name for text in file.blocks for name in file.named_by(text)}
        if key[2].split(".")[-1] in ANSWERS:
            found |= set(file.imports.values())
            found |= {name for text in file.texts.values() for name in file.named_by("\n".join(text))}
        elif "ruleset" in file.texts:
            found |= file.named_by("\n".join(file.texts["ruleset"])) | {(*key, "ruleset")}
    return found


def living(all_files):
    todo, seen = list(roots(all_files)), set()
    while todo:
        one = todo.pop()
        if one in seen:
            continue
        seen.add(one)
        file = all_files.get(one[:3])
        if file and one[3] in file.texts:
            todo.extend(file.named_by("\n".join(file.texts[one[3]])))
    return seen


def main(crates):
    all_files = files()
    seen, lines = living(all_files), 0
    for key, file in sorted(all_files.items()):
        if crates and key[0] not in crates or key[2].split(".")[-1] in ANSWERS:
            continue
        dead = [name for name in file.texts if name and (*key, name) not in seen]
        count = sum(len(file.texts[name]) for name in dead)
        lines += count
        if dead:
            print(f"{key[0]}/{key[1]}/{key[2].replace('.', '/')}.antt, {count} lines: {' '.join(dead)}")
    print(f"{lines} lines that nothing living names")


main(set(sys.argv[1:]))
