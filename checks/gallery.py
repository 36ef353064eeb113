#!/usr/bin/env python3
"""Whether the folders of the gallery hold together, crates/rows_commands/data/gallery, and the pictures of the tutorial.

Usage    gallery.py           compares
         gallery.py --write   draws the pictures; it needs Graphviz
Needs    nothing built: it takes what is printed from the rows, which the gate runs.
Expect   `N folders hold together`: each scenario's first contract is the file contract.json, rows.txt has the contract's table and plays each scenario, each of these has
         its picture, and a page names each file. The picture of a play is the one that tools/timeline.py draws, to the byte; that of a contract, which
         Graphviz lays out, has the texts and as many boxes and arrows as tools/draw.py has. rows.txt has what `analyse` says of the contract, a run for each bound above 0 too, which never
         warns, and of the broken one, with a run to each alarm; the page has a row for each party's share, and names each kind of alarm.
Else     a line for each fault, and status 1."""
import html
import json
import os
import re
import sys

HERE = os.path.dirname(os.path.abspath(__file__))
TOP = os.path.join(HERE, "..")
sys.path.insert(0, os.path.join(TOP, "tools"))
import draw
import rows
import timeline

DATA = os.path.join(TOP, "crates", "rows_commands", "data")
FILES = ["README.md", "contract.json", "contract.svg", "broken.json", "goes_well.json", "a_party_stops.json", "race.json", "rows.txt"]
NEVER_WARNS = "never warns, stays within 128 bits"
# How a line begins that tells of a party.
OF_PARTY = ('{"address"', '{"role_token"')
FROM_NOTHING = "from a start without accounts"
# How a scenario names the contract of its folder.
OF_FOLDER = {"file": "contract.json"}
# the first cells of a row of the table "What each party can get"
SHARE = r"^\| ([^|]+) \| ([^|]+) \| ([0-9]+) \| ([0-9]+) \|"


def read(*path):
    with open(os.path.join(DATA, *path), encoding="utf-8") as file:
        return file.read()


def write(text, *path):
    with open(os.path.join(DATA, *path), "w", encoding="utf-8") as file:
        file.write(text)


def answers(folder):
    """What each command of a folder's rows prints on standard output, without the folder's path."""
    given = rows.answered(read(folder, "rows.txt").splitlines())
    return {line.replace(folder + "/", ""): "".join(each + "\n" for each in rows.output_of(written)) for line, written in given if line.startswith("marlowe ")}


def scenarios(folder):
    names = os.listdir(os.path.join(DATA, folder))
    return sorted(name for name in names if name.endswith(".json") and '"plans"' in read(folder, name))


def played(folder, scenario):
    """The command that plays a scenario of a folder: those of the gallery name their contracts by files."""
    return f"marlowe play {scenario} --one" + (" --files" if folder.startswith("gallery/") else "")


def same_picture(dot, svg):
    """Whether a picture has the texts, boxes and arrows of a drawing."""
    labels = re.findall(r'label="((?:[^"\\]|\\.)*)"', dot)
    wanted = sorted(line.replace('\\"', '"').replace("\\\\", "\\") for label in labels for line in re.split(r"(?<!\\)\\n", label))
    texts = sorted(html.unescape(text) for text in re.findall(r"<text[^>]*>([^<]*)</text>", svg))
    return texts == wanted and all(svg.count(f'class="{kind}"') == count for kind, count in
                                   (("node", len(re.findall(r"^  (?:k[0-9]+|begin) \[", dot, re.M))), ("edge", dot.count(" -> "))))


def pictures(folder, of_contract, plays):
    """The name of each picture, with whether it is one of a contract, and what is drawn for it."""
    given = answers(folder)
    for name, command, numbered in of_contract:
        yield name, True, draw.drawn(given.get(command, ""), numbered)
    for name in plays:
        lines = given.get(played(folder, name), "")
        yield name.replace(".json", ".svg"), False, timeline.drawn(lines, json.loads(read(folder, name)))


def all_pictures():
    for name in sorted(os.listdir(os.path.join(DATA, "gallery"))):
        folder = f"gallery/{name}"
        if os.path.isdir(os.path.join(DATA, folder)):
            yield folder, pictures(folder, [("contract.svg", "marlowe table contract.json", False)], scenarios(folder))
    yield "tutorial", pictures("tutorial", [("escrow.svg", "marlowe table escrow.json", True)], ["deal.json", "race.json"])


def faults_of_folder(folder):
    contract, page = json.loads(read(folder, "contract.json")), read(folder, "README.md")
    for name in FILES:
        if not os.path.exists(os.path.join(DATA, folder, name)):
            yield f"no {name}"
    for name in scenarios(folder):
        text = read(folder, name)
        if json.loads(text)["contracts"][0]["contract"] != OF_FOLDER:
            yield f"{name}: another contract"
        if name.removesuffix("json") + "svg" not in page and name != "goes_well.json":
            yield f"{name}: the page doesn't name it"
        if played(folder, name) not in answers(folder):
            yield f"{name}: not played"
    if "marlowe table contract.json" not in answers(folder):
        yield "no table"
    yield from faults_of_analysis(folder, contract, page)


def share(line):
    """The party, the token and both bounds of a line that tells what a party is paid."""
    party, place = json.JSONDecoder().raw_decode(line)
    token, place = json.JSONDecoder().raw_decode(line, place + 1)
    bounds = re.fullmatch(r" at least ([0-9]+), at most ([0-9]+)", line[place:])
    return (*party.values(), token["token_name"] or "lovelace", *(bounds.groups() if bounds else ()))


def bounds_of(line):
    """The bounds above 0 of a line that tells what a party is paid or loses, each with the party and the token."""
    found = re.fullmatch(r"(.*\}) (?:at least ([0-9]+), at most ([0-9]+)|at most ([0-9]+) down)", line) if line.startswith(OF_PARTY) else None
    for words, number in zip(("at least {}", "at most {}", "at most {} down"), found.groups()[1:] if found else ()):
        if number not in (None, "0"):
            yield f"{found[1]} {words.format(number)}"


def faults_of_analysis(folder, contract, page):
    told, of_broken = (answers(folder).get(f"marlowe analyse {name}", "").splitlines() for name in ("contract.json", "broken.json"))
    told, reached = (told[:told.index(FROM_NOTHING) + 1], told[told.index(FROM_NOTHING) + 1:]) if FROM_NOTHING in told else (told, [])
    if told[:1] != [NEVER_WARNS]:
        yield "contract.json: not analysed, or it may warn"
    elif sorted(line for line in reached if line.startswith(OF_PARTY)) != sorted(f"{bound}, by this run:" for line in told for bound in bounds_of(line)):
        yield "rows.txt: not each bound above 0 has its run"
    elif told[-1] != FROM_NOTHING or re.findall(SHARE, page, re.M) != [share(line) for line in told if line.startswith("{") and not line.endswith(" down")]:
        yield "README.md: its table has other shares than the row"
    elif not all(line.replace("all can be taken out", "lets all be taken out") in " ".join(page.split()) for line in told if line.startswith("all ")):
        yield "README.md: it has another time from which all can be taken out than the row"
    elif any(line.startswith("never reached: ") for line in told) != ("`never reached`" in page):
        yield "README.md: it doesn't say which parts no run reaches, or says so of a contract that has none"
    alarms = [line.split(" at ", 1) for line in of_broken if re.match(r"\w+ at \.", line)]
    if not alarms or not all(rest.endswith(", by this run:") for _, rest in alarms):
        yield "broken.json: not analysed, or an alarm without its run"
    if "(broken.json)" not in page or any(f"`{kind}`" not in page for kind, _ in alarms):
        yield "broken.json: the page doesn't name it, or not its alarms"
    if os.path.exists(os.path.join(DATA, folder, "broken.json")) and json.loads(read(folder, "broken.json")) == contract:
        yield "broken.json: it is the contract"


def missing():
    for folder, drawings in all_pictures():
        if folder != "tutorial":
            yield from (f"{folder}: {fault}" for fault in faults_of_folder(folder))
        for name, is_contract, drawing in drawings:
            if not os.path.exists(os.path.join(DATA, folder, name)):
                yield f"{folder}: no {name}"
            elif not (same_picture(drawing, read(folder, name)) if is_contract else drawing == read(folder, name)):
                yield f"{folder}: {name} is another picture"


def draw_all():
    for folder, drawings in all_pictures():
        for name, is_contract, drawing in drawings:
            if is_contract:
                draw.draw_picture(drawing, os.path.join(DATA, folder, name))
            else:
                write(drawing, folder, name)


def main(words):
    if words == ["--write"]:
        draw_all()
    lines = list(missing())
    for line in lines:
        print(line)
    if not lines:
        print(sum(folder != "tutorial" for folder, _ in all_pictures()), "folders hold together")
    return int(bool(lines))


if __name__ == "__main__":
    sys.exit(main(sys.argv[1:]))
