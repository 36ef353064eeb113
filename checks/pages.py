#!/usr/bin/env python3
"""Whether the tutorial says what its files hold and what the program prints, and whether what all pages link and name is there.

Usage    pages.py
Needs    nothing built: what is printed stands in the rows of crates/rows_commands/data/tutorial, which the gate runs.
Expect   `N files and M commands as written, L links lead somewhere, W names are there`. In docs/tutorial.md a line with a file's name has the
         file's text below it. Each command is a row, and one that ends its block has below it what it prints, which may be folded at any comma: a
         line goes on with one that begins with a space. Each file and each row of that folder comes up. A file that the rows give is a part of what
         a row before it prints, since that is where the reader takes it from. A link within the repository leads to a file or a folder, and one with
         a `#` to a heading of it. A path in backquotes leads somewhere, from the top, from the page, from `crates` or from a crate's folder; where
         the section has named crates before, from one of these. Of `crate::item` the crate has the item, and each other word in backquotes of
         CONTRIBUTING comes up in some file. README's table has the layers of crates.txt, and docs/layers.md names each crate. In crates.txt no crate
         stands on a later one. The toolchain's line is that of `rt version`, where `rt` is there. No sentence has more than 30 words, tables and what
         is in backquotes aside, README has at most 120 lines and DECISIONS 200; the pages in NARROW have at most 160 columns. Those in FIRST are read first, in half an hour: they
         have at most 6,900 words, at 230 a minute.
Else     a line for each fault, and status 1."""
import functools
import itertools
import re
import shutil
import subprocess
import sys
from pathlib import Path

import rows as row_files

TOP = Path(__file__).resolve().parent.parent
PAGE = TOP / "docs" / "tutorial.md"
DATA = TOP / "crates" / "rows_commands" / "data" / "tutorial"


def blocks(text):
    """The blocks of a page: the line above, the kind, and the lines."""
    lines, place = text.splitlines(), 0
    while place < len(lines):
        if lines[place].startswith("```"):
            end = lines.index("```", place + 1)
            yield lines[place - 1], lines[place][3:], lines[place + 1:end]
            place = end
        place += 1


def rows():
    """What each command of the rows prints, and the files that they give, each with whether a row before printed its text."""
    found, given = {}, {}
    for line, written in row_files.answered((DATA / "rows.txt").read_text().splitlines()):
        if line.startswith("marlowe "):
            found[line.replace("tutorial/", "")] = row_files.output_of(written) + row_files.errors_of(written)
        elif line.startswith("file "):
            _, name, text = line.split(" ", 2)
            given[name.removeprefix("tutorial/")] = any(text in each for printed in found.values() for each in printed)
    return found, given


def unfolded(lines):
    """Lines as they were before they were folded: one that begins with a space goes on with the one above."""
    found = []
    for line in lines:
        if line.startswith(" ") and found:
            found[-1] += line.lstrip()
        else:
            found.append(line)
    return found


def commands(lines):
    """The commands of the program in a block, without what is done with what they print, each with whether it stands last."""
    for line in lines:
        if line.startswith("marlowe "):
            yield re.split(r" [|>] ", line)[0], line == lines[-1]


def faults_of_tutorial(counts):
    (known, given), files, command = rows(), {path.name for path in DATA.glob("*.json")}, None
    for above, kind, lines in blocks(PAGE.read_text()):
        if kind == "json":
            name = above.strip("`")
            if name not in files:
                yield f"{above}: no such file"
            elif (DATA / name).read_text().splitlines() != lines:
                yield f"{name}: the file has another text"
            counts["files"].add(name)
        elif kind == "sh":
            command = None
            for each, is_last in commands(lines):
                if each not in known:
                    yield f"{each}: no such row"
                elif is_last:
                    command = each
        elif command:
            if unfolded(lines) != known[command]:
                yield f"{command}: the row answers otherwise"
            counts["commands"].add(command)
            command = None
    yield from (f"{name}: not in the tutorial" for name in sorted(files - counts["files"]))
    yield from (f"{name}: not in the tutorial" for name in known if name not in counts["commands"])
    yield from (f"{name}: no row before prints it" for name, is_printed in given.items() if not is_printed)


# ---- links

def pages():
    listed = subprocess.run(["git", "-C", str(TOP), "ls-files", "*.md", ":!crates/*/must-fail/*"], capture_output=True, text=True, check=True).stdout
    return [TOP / name for name in listed.splitlines() if (TOP / name).exists()]


def without_code(text):
    return re.sub(r"`[^`\n]*`", "", re.sub(r"^```.*?^```", "", text, flags=re.M | re.S))


def anchors(path):
    """The names by which a page's headings and marks are linked."""
    found = set(re.findall(r'<a (?:id|name)="([^"]+)"', path.read_text()))
    for heading in re.findall(r"^#+ (.*)$", path.read_text(), re.M):
        found.add(re.sub(r"[^\w\- ]", "", heading.lower().replace("`", "")).replace(" ", "-"))
    return found


def faults_of_links(counts):
    for page in pages():
        for link in re.findall(r"\]\(([^)\s]+)\)", without_code(page.read_text())):
            if re.match(r"[a-z]+:", link):
                continue
            counts["links"] += 1
            name, _, anchor = link.partition("#")
            path = (page.parent / name).resolve() if name else page
            if not path.exists():
                yield f"{page.relative_to(TOP)}: {link}: no such file"
            elif anchor and path.suffix == ".md" and anchor not in anchors(path):
                yield f"{page.relative_to(TOP)}: {link}: no such heading"


# ---- names

# What stands for any path, or is made by a command.
EXCEPTIONS = {"crates/rows_suite/data/SUBJECT.jsonl", "out/rlib/CRATE.rlib/toolchain/mir.json", "bindings/out"}
CRATES = {path.name for path in (TOP / "crates").iterdir()}


@functools.cache
def words_of(folder):
    """The words of all files below a folder, and the names of files and folders."""
    found = set()
    for path in folder.rglob("*"):
        if {"out", ".git", "measurements"} & {*path.relative_to(TOP).parts}:
            continue
        found |= {path.name, path.stem}
        if path.suffix in (".rt", ".antt", ".py", ".sh", ".txt", ".json", ".edit", ""):
            found |= {*re.findall(r"\w+", path.read_text(errors="replace"))} if path.is_file() else set()
    return found


def is_there(page, word, named):
    """Whether a path leads somewhere, where the section has named these crates before."""
    if re.match(r"(src|specs|proofs|data|must-fail)/", word):
        return any(any((TOP / "crates" / crate).glob(word)) for crate in named or CRATES)
    return any(any(folder.glob(word)) for folder in (TOP, page.parent, TOP / "crates"))


def faults_of_names(counts):
    for page in pages():
        named = set()
        for line in re.sub(r"^```.*?^```", "", page.read_text(), flags=re.M | re.S).splitlines():
            named = set() if line.startswith("#") else named
            in_line = re.findall(r"`([^`]+)`", line)
            named |= CRATES & {each for word in in_line for each in re.findall(r"\w+", word)}
            for word in in_line:
                item = re.fullmatch(r"(\w+)::([\w:]+)", word)
                if item and item[1] in CRATES:
                    is_right = {*item[2].split("::")} <= words_of(TOP / "crates" / item[1])
                elif re.fullmatch(r"[\w.+-]+(/[\w.+*-]+)+/?", word) and word not in EXCEPTIONS:
                    is_right = is_there(page, word, named)
                elif page.name == "CONTRIBUTING.md" and re.fullmatch(r"\w+", word):
                    is_right = word in words_of(TOP)
                else:
                    continue
                counts["names"] += 1
                if not is_right:
                    yield f"{page.relative_to(TOP)}: `{word}`: nothing has this name"


# ---- sentences

MOST_WORDS = 30


def sentences(text):
    """The sentences of a page, without its tables, its headings, its blocks and what is in backquotes. A colon or a semicolon ends one."""
    plain = re.sub(r"\]\([^)]*\)", "]", re.sub(r"`[^`]*`", "`", re.sub(r"^ *```.*?^ *```|^ *\|[^\n]*|^#[^\n]*|^ *<[^\n]*|^    [^\n]*", "\n", text, flags=re.M | re.S)))
    for part in re.split(r"\n\s*\n|\n(?=\s*(?:[-*]|\d+\.)\s)", plain):
        yield from re.split(r"(?<=[.!?:;])\s+", " ".join(part.split()))


def faults_of_sentences():
    for page in pages():
        for sentence in sentences(page.read_text()):
            if len(re.findall(r"[A-Za-z0-9][\w',-]*", sentence)) > MOST_WORDS:
                yield f"{page.relative_to(TOP)}: over {MOST_WORDS} words: {sentence}"


# ---- sizes

MOST_LINES, MOST_COLUMNS = {"README.md": 120, "docs/DECISIONS.md": 200}, 160
FIRST, MOST_WORDS_OF_FIRST = ("README.md", "docs/semantics.md", "docs/ledger.md", "docs/analysis.md", "docs/PROVED.md"), 6900
NARROW = (*FIRST, "docs/BELIEVE.md", "docs/DECISIONS.md", "docs/PROOF_COST.md", "docs/clauses.md", "docs/tested.md", "docs/semantics_code.md",
          "docs/ledger_rules.md", "docs/ledger_chain.md", "docs/analysis_lines.md", "docs/analysis_limits.md")


def faults_of_sizes():
    for name in NARROW:
        lines = (TOP / name).read_text().splitlines()
        yield from (f"{name}:{number}: over {MOST_COLUMNS} columns" for number, line in enumerate(lines, 1) if len(line) > MOST_COLUMNS)
        if len(lines) > MOST_LINES.get(name, len(lines)):
            yield f"{name}: over {MOST_LINES[name]} lines"
    words = sum(len((TOP / name).read_text().split()) for name in FIRST)
    if words > MOST_WORDS_OF_FIRST:
        yield f"{', '.join(FIRST)}: {words} words together, over {MOST_WORDS_OF_FIRST}"


# ---- layers

def layers():
    """The layers of crates.txt, each with its crates and what each stands on, from below to above."""
    for text in (TOP / "crates.txt").read_text().split("# ---- ")[1:]:
        heading, *lines = text.splitlines()
        found = [re.match(r"(\w+)(?: staticlib)?:(.*)", line) for line in lines]
        yield heading.split(":")[0], {each[1]: each[2].split() for each in found if each}


def faults_of_layers():
    """No crate stands on a later one. README's table has the layers of crates.txt, in their order and with their ends, and docs/layers.md names each crate."""
    table = re.findall(r"^\| ([\w ]+) \| `(\w+)`[^|]*?(?:`([\w.]+)`)? \|", (TOP / "README.md").read_text(), re.M)
    written = [(layer, first, last) for layer, first, last in table if layer != "Uses and tests"]
    wanted = [(layer, [*crates][0], [*crates][-1]) for layer, crates in layers() if layer != "Uses and tests"]
    yield from (f"README.md: {one} where crates.txt has {other}" for one, other in itertools.zip_longest(written, wanted) if one != other)
    text = re.sub(r"^```.*?^```", "", (TOP / "docs" / "layers.md").read_text(), flags=re.M | re.S)
    named = {*re.findall(r"\w+", " ".join(re.findall(r"`([^`]+)`", text)))}
    yield from (f"docs/layers.md: `{crate}` isn't named" for _, crates in layers() for crate in crates if crate not in named)
    below = set()
    for crate, others in (pair for _, crates in layers() for pair in crates.items()):
        yield from (f"crates.txt: {crate} stands on {other}, which comes later" for other in others if other in CRATES - below)
        below.add(crate)


# ---- the toolchain

def faults_of_toolchain():
    """The toolchain's line is the same in `marlowe --version`, in README and, where `rt` is there, by `rt version`."""
    written = re.search(r'VERSION: &str = "[\d.]+ \((.*)\)"', (TOP / "crates" / "marlowe_usage" / "src" / "commands.rt").read_text())[1]
    if f"`{written}`" not in (TOP / "README.md").read_text():
        yield f"README.md: the toolchain isn't told as `{written}`"
    if shutil.which("rt"):
        told = subprocess.run(["rt", "version"], capture_output=True, text=True, check=True).stdout.strip()
        yield from () if told == written else [f"crates/marlowe_usage/src/commands.rt: {written} where `rt version` prints {told}"]


def main():
    counts = {"files": set(), "commands": set(), "links": 0, "names": 0}
    faults = [*faults_of_tutorial(counts), *faults_of_links(counts), *faults_of_names(counts), *faults_of_sentences(), *faults_of_sizes(), *faults_of_layers(), *faults_of_toolchain()]
    for fault in faults:
        print(fault)
    if not faults:
        as_written = f"{len(counts['files'])} files and {len(counts['commands'])} commands as written"
        print(f"{as_written}, {counts['links']} links lead somewhere, {counts['names']} names are there")
    return int(bool(faults))


sys.exit(main())
