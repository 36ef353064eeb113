#!/usr/bin/env python3
"""Draws the files of measurements/, and writes the plots and the tables of docs/performance.md.

Needs    nothing but Python.
Usage    plots.py            says whether the plots and the tables are those of the files
         plots.py --write    writes them
Expect   `as measured`, or a line for each plot or table that is another, and status 1. A plot whose file isn't there is left out, and the page says so.
"""
import csv
import math
import os
import re
import sys
from xml.sax.saxutils import escape

HERE = os.path.dirname(os.path.abspath(__file__))
FILES = os.path.join(HERE, "measurements")
DOCS = os.path.join(HERE, "..", "docs")
PAGE = os.path.join(DOCS, "performance.md")
FOLDER = os.path.join(DOCS, "performance")
COLOURS = ["#3b6ea5", "#c0504d", "#5a8f3c", "#8064a2", "#c58a2c", "#3f9aa8", "#7f7f7f", "#a04878"]
WIDTH, HEIGHT, LEFT, RIGHT, TOP, BOTTOM = 720, 400, 70, 190, 40, 50


def rows(name):
    """The rows of a file, or None where it isn't there."""
    path = os.path.join(FILES, name)
    if not os.path.exists(path):
        return None
    with open(path, encoding="utf-8") as file:
        return list(csv.DictReader(line for line in file if not line.startswith("#")))


def where(name):
    """The two lines that say what a file has, and where it was measured."""
    with open(os.path.join(FILES, name), encoding="utf-8") as file:
        return [line[2:].strip() for line in file if line.startswith("# ")]


# ---- plots

class Plot:
    """Lines of points over two axes, each by its logarithm or not."""

    def __init__(self, title, across, up, by_log=(False, False)):
        self.title, self.across, self.up, self.by_log, self.series = title, across, up, by_log, []

    def line(self, name, points, dashed=False):
        self.series.append((name, [(float(x), float(y)) for x, y in points], dashed))

    def ends(self, axis):
        found = [point[axis] for _, points, _ in self.series for point in points]
        low, high = min(found), max(found)
        if self.by_log[axis]:
            return 10 ** math.floor(math.log10(low) + 1e-9), 10 ** math.ceil(math.log10(high) - 1e-9)
        return 0.0, high * 1.1

    def scaled(self, axis, value):
        low, high = self.ends(axis)
        if self.by_log[axis]:
            low, high, value = math.log10(low), math.log10(high), math.log10(value)
        part = (value - low) / (high - low or 1)
        return LEFT + part * (WIDTH - LEFT - RIGHT) if axis == 0 else HEIGHT - BOTTOM - part * (HEIGHT - TOP - BOTTOM)

    def marks(self, axis):
        low, high = self.ends(axis)
        if self.by_log[axis]:
            return [10 ** power for power in range(round(math.log10(low)), round(math.log10(high)) + 1)]
        step = 10 ** math.floor(math.log10(high / 4))
        step *= next(times for times in (1, 2, 5, 10) if high / (step * times) <= 6)
        return [step * count for count in range(int(high / step) + 1)]

    def svg(self):
        yield head(self.title)
        for value in self.marks(0):
            x = self.scaled(0, value)
            yield f'<line x1="{x:.1f}" y1="{TOP}" x2="{x:.1f}" y2="{HEIGHT - BOTTOM}" stroke="#dddddd"/>'
            yield text(x, HEIGHT - BOTTOM + 16, told(value))
        for value in self.marks(1):
            y = self.scaled(1, value)
            yield f'<line x1="{LEFT}" y1="{y:.1f}" x2="{WIDTH - RIGHT}" y2="{y:.1f}" stroke="#dddddd"/>'
            yield text(LEFT - 6, y + 4, told(value), "end")
        yield text((LEFT + WIDTH - RIGHT) / 2, HEIGHT - 12, self.across)
        yield text(LEFT, TOP - 10, self.up, "start")
        yield from self.lines()
        yield "</svg>"

    def lines(self):
        names, colours = [], {}
        for name, points, dashed in self.series:
            colour = colours.setdefault(name, COLOURS[len(colours) % len(COLOURS)])
            places = [(self.scaled(0, x), self.scaled(1, y)) for x, y in points]
            path = " ".join(f"{x:.1f},{y:.1f}" for x, y in places)
            more = ' stroke-dasharray="5 4"' if dashed else ""
            yield f'<polyline points="{path}" fill="none" stroke="{colour}" stroke-width="2"{more}/>'
            yield from (f'<circle cx="{x:.1f}" cy="{y:.1f}" r="3" fill="{colour}"/>' for x, y in places)
            if name not in names:
                names.append(name)
                y = TOP + 18 * len(names)
                yield f'<line x1="{WIDTH - RIGHT + 12}" y1="{y - 4}" x2="{WIDTH - RIGHT + 34}" y2="{y - 4}" stroke="{colour}" stroke-width="2"/>'
                yield text(WIDTH - RIGHT + 40, y, name, "start")


class Bars:
    """Groups of bars, one of each series."""

    def __init__(self, title, across, up):
        self.title, self.across, self.up, self.groups, self.series = title, across, up, [], {}

    def bar(self, name, group, height):
        if group not in self.groups:
            self.groups.append(group)
        self.series.setdefault(name, {})[group] = float(height)

    def svg(self):
        high = 1.1 * max(height for bars in self.series.values() for height in bars.values())
        scale = lambda value: HEIGHT - BOTTOM - value / high * (HEIGHT - TOP - BOTTOM)
        yield head(self.title)
        for value in range(int(high) + 1):
            yield f'<line x1="{LEFT}" y1="{scale(value):.1f}" x2="{WIDTH - RIGHT}" y2="{scale(value):.1f}" stroke="#dddddd"/>'
            yield text(LEFT - 6, scale(value) + 4, told(value), "end")
        room = (WIDTH - LEFT - RIGHT) / len(self.groups)
        wide = room * 0.8 / len(self.series)
        for place, group in enumerate(self.groups):
            yield text(LEFT + (place + 0.5) * room, HEIGHT - BOTTOM + 16, group)
        yield text((LEFT + WIDTH - RIGHT) / 2, HEIGHT - 12, self.across)
        yield text(LEFT, TOP - 10, self.up, "start")
        for number, (name, bars) in enumerate(self.series.items()):
            colour = COLOURS[number]
            for place, group in enumerate(self.groups):
                x, y = LEFT + (place + 0.1) * room + number * wide, scale(bars[group])
                yield f'<rect x="{x:.1f}" y="{y:.1f}" width="{wide - 2:.1f}" height="{HEIGHT - BOTTOM - y:.1f}" fill="{colour}"/>'
                yield text(x + wide / 2 - 1, y - 4, f"{bars[group]:g}", size=9)
            y = TOP + 18 * (number + 1)
            yield f'<rect x="{WIDTH - RIGHT + 12}" y="{y - 10}" width="14" height="10" fill="{colour}"/>'
            yield text(WIDTH - RIGHT + 32, y, name, "start")
        yield "</svg>"


def head(title):
    return (f'<svg xmlns="http://www.w3.org/2000/svg" width="{WIDTH}" height="{HEIGHT}" viewBox="0 0 {WIDTH} {HEIGHT}" '
            f'font-family="Helvetica,Arial,sans-serif" fill="#222222">\n<rect width="{WIDTH}" height="{HEIGHT}" fill="#ffffff"/>\n'
            + text(WIDTH / 2, 18, title, size=13))


def text(x, y, words, anchor="middle", size=11):
    return f'<text x="{x:.1f}" y="{y:.1f}" font-size="{size}" text-anchor="{anchor}">{escape(words)}</text>'


def told(value):
    return f"{value:,.0f}" if value >= 10 or value == int(value) else f"{value:g}"


def calls_plot(unit, title):
    found = rows("chain_calls.csv")
    plot = Plot(title, "entries of the history before the call", unit, (True, True))
    for by in ("indexes", "walks"):
        for call in dict.fromkeys(row["call"] for row in found):
            points = [(row["entries"], row[unit]) for row in found if row["by"] == by and row["call"] == call and row[unit]]
            if points:
                plot.line(call, points, dashed=by == "walks")
    return plot


def workers_plot():
    bars = Bars("1,024 payments of 16 inputs, checked at once", "run of the script", "times as fast as one")
    names = {"four workers": "four workers, least times", "by the medians": "four workers, medians", "four processes": "four processes apart"}
    for row in rows("workers.csv"):
        for column, name in names.items():
            bars.bar(name, row["run"], row[column])
    return bars


def seats_plot():
    bars = Bars("calls a second of many seats, in all", "seats, each in a thread of its own", "times those of one seat")
    for row in rows("seats.csv"):
        bars.bar(f"run {row['run']}", row["seats"], row["times"])
    return bars


def runs_plot(column, title):
    plot = Plot(title, "bytes of the longest text", f"{column} (dashed: plain Rust)", (True, True))
    found = rows("runs.csv")
    for family in dict.fromkeys(row["family"] for row in found):
        for program in ("marlowe", "plain"):
            points = [(row["bytes"], row[column]) for row in found if (row["family"], row["program"], row["command"]) == (family, program, "run")]
            plot.line(family, points, dashed=program == "plain")
    return plot


def plays_plot():
    plot = Plot("plays of four plans", "entries", "seconds")
    found = rows("plays.csv")
    for column, name in (("seconds", "in turn, processor"), ("clock", "in turn, by the clock"), ("at once", "at once, by the clock")):
        plot.line(name, [(row["entries"], row[column]) for row in found])
    return plot


PLOTS = {
    "calls": ("chain_calls.csv", lambda: calls_plot("thousand instructions", "what a call costs after a history (dashed: by walks, as before)")),
    "times": ("chain_calls.csv", lambda: calls_plot("microseconds", "what a call takes after a history")),
    "workers": ("workers.csv", workers_plot),
    "seats": ("seats.csv", seats_plot),
    "runs": ("runs.csv", lambda: runs_plot("milliseconds", "what a run takes, by its text")),
    "memory": ("runs.csv", lambda: runs_plot("MiB", "what memory a run takes, by its text")),
    "plays": ("plays.csv", plays_plot),
}


# ---- tables

def table(head_row, body):
    return "\n".join("| " + " | ".join(map(str, row)) + " |" for row in [head_row, ["---"] * len(head_row), *body])


def calls_table():
    found = [row for row in rows("chain_calls.csv") if row["by"] == "indexes"]
    sizes = list(dict.fromkeys(row["entries"] for row in found))
    value = {(row["call"], row["entries"]): row for row in found}
    body = []
    for call in dict.fromkeys(row["call"] for row in found):
        line = [call]
        for unit in ("thousand instructions", "microseconds"):
            line += [value[call, size][unit] or "-" for size in sizes]
        body.append(line)
    return table(["call"] + [f"{int(size):,}: {unit}" for unit in ("thousand instructions", "us") for size in sizes], body)


def payments_table():
    found = {row["program"]: row for row in rows("payments.csv")}
    plain, chain = found["plain"], found["chain"]
    body = [[name, f"{int(row['payments']):,}", row["seconds"], row["MiB"]] for name, row in found.items()]
    body.append(["chain beside plain", "", f"{float(chain['seconds']) / float(plain['seconds']):.2f} times", f"{float(chain['MiB']) / float(plain['MiB']):.2f} times"])
    return table(["program", "payments", "processor seconds", "MiB"], body)


def holds_table():
    """What follows from the figures, on paper."""
    chain = next(row for row in rows("payments.csv") if row["program"] == "chain")
    count, seconds, memory = int(chain["payments"]), float(chain["seconds"]), float(chain["MiB"])
    entry = next(float(row["microseconds"]) for row in rows("chain_calls.csv") if row["call"] == "an entry of the history" and row["entries"] == "100000")
    of_payment, of_memory = 1e6 * seconds / count, 1024 * memory / count
    in_memory = 16 * 1024 ** 2 / of_memory
    body = [
        ["a payment by Submit", f"{of_payment:.1f} us, {of_memory:.2f} KiB", f"{seconds} s and {memory} MiB by {count:,}"],
        ["an entry of a mixed history", f"{entry} us", "the last row of the calls, after 100,000"],
        ["payments an hour, one lock", f"{3600e6 / of_payment / 1e6:.0f} million", "3,600 s by the time of one"],
        ["entries an hour, one lock", f"{3600e6 / entry / 1e6:.0f} million", "the same of the mixed history"],
        ["payments that 16 GiB hold", f"{in_memory / 1e6:.1f} million", "16 GiB by the memory of one"],
        ["and how long it takes to make them", f"{in_memory * of_payment / 60e6:.1f} minutes", "their number by the time of one"],
    ]
    return table(["what", "how much", "from"], body)


def files_table():
    return table(["file", "what", "how and where"], [[f"[{name}](../bench/measurements/{name})", *where(name)] for name in sorted(os.listdir(FILES))])


TABLES = {"calls": calls_table, "payments": payments_table, "holds": holds_table, "files": files_table}


# ---- all of it

def plots():
    return {name: "\n".join(draw().svg()) + "\n" for name, (file, draw) in PLOTS.items() if rows(file) is not None}


def page(old):
    """The page with its tables, and a plot where there is one."""
    def written(found):
        name = found[1]
        if name.startswith("plot "):
            name = name.removeprefix("plot ")
            inside = f"![{PLOTS[name][1]().title}](performance/{name}.svg)" if rows(PLOTS[name][0]) is not None else "Not measured yet."
        else:
            inside = TABLES[name]()
        return f"<!-- {found[1]} -->\n{inside}\n<!-- end -->"
    return re.sub(r"<!-- ([a-z ]+) -->\n.*?<!-- end -->", written, old, flags=re.S)


def read(path):
    if not os.path.exists(path):
        return None
    with open(path, encoding="utf-8") as file:
        return file.read()


def main(words):
    wanted = {os.path.join(FOLDER, f"{name}.svg"): svg for name, svg in plots().items()}
    wanted[PAGE] = page(read(PAGE))
    others = [path for path, text_of in wanted.items() if read(path) != text_of]
    if words == ["--write"]:
        os.makedirs(FOLDER, exist_ok=True)
        for path in others:
            with open(path, "w", encoding="utf-8") as file:
                file.write(wanted[path])
        return 0
    for path in others:
        print(f"{os.path.relpath(path, DOCS)}: is another")
    if not others:
        print("as measured")
    return int(bool(others))


if __name__ == "__main__":
    sys.exit(main(sys.argv[1:]))
