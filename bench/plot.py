#!/usr/bin/env python3
"""Draws what `plot.sh` says: reads the tables of `mine.sh` and `validate.sh` in FILE, and writes workers.svg, conflicts.svg and length.svg into FOLDER.

    plot.py FILE FOLDER

A speed-up is so many hundredths, cut off as in the tables. That of 4 workers is the table's own; the others are the calls a second of a column by those of the
serial executor.
"""
import math
import re
import sys
from fractions import Fraction
from html import escape
from pathlib import Path
from xml.etree import ElementTree

# The head of each bench's table, by which it is known.
HEADS = {
    "bench/mine.sh": "calls | on one cell | serial | 1 worker | 2 workers | 4 workers | 4 / serial",
    "bench/validate.sh": "calls | on one cell | serial | mined by 1 | by 2 | by 4 | validated by 1 | by 2 | by 4 | mined by 4 / serial | validated by 4 / serial",
}
SERIAL = 2
# What each picture has a part for: the bench, the column of each number of workers, and that of the speed-up of 4.
PARTS = [
    ("Mining without blocks", "bench/mine.sh", {1: 3, 2: 4, 4: 5}, 6),
    ("Mining with blocks", "bench/validate.sh", {1: 3, 2: 4, 4: 5}, 9),
    ("Validating with blocks", "bench/validate.sh", {1: 6, 2: 7, 4: 8}, 10),
]
LENGTHS = [7, 100, 1000, 10000]
SHARES = [0, 15, 100]
WORKERS = [1, 2, 4]


def fail(sentence):
    sys.exit(f"bench/plot.py: {sentence}")


class Table:
    """A table: where it stands, the last date in the text above it, and its rows by their first two cells."""

    def __init__(self, file, script, line, date):
        self.file, self.script, self.line, self.date, self.rows = file, script, line, date, {}

    def number(self, name, shared, column):
        """The number of a cell."""
        row = self.rows.get((name, shared))
        if row is None:
            fail(f"{self.file}: the table of {self.script} at line {self.line} has no row '{name} | {shared}'")
        line, cells = row
        if column >= len(cells):
            fail(f"{self.file}: line {line}: the row has {len(cells)} cells, not those of its head")
        if not re.fullmatch(r"[0-9]+(\.[0-9]+)?", cells[column]):
            fail(f"{self.file}: line {line}: the cell '{cells[column]}' is no number")
        number = Fraction(cells[column])
        if number == 0:
            fail(f"{self.file}: line {line}: a cell is 0, which has no place on an axis of powers of two")
        return number

    def times(self, length, shared, columns, workers, stated):
        """The speed-up of so many workers, in hundredths."""
        name, shared = f"{length:,} instructions", f"{shared} of 100"
        serial = self.number(name, shared, SERIAL)
        rate = self.number(name, shared, columns[workers])
        if workers != 4:
            return max(1, int(rate * 100 / serial))
        said = self.number(name, shared, stated)
        # what is printed is cut off: the calls a second to tenths, the speed-up to hundredths
        tenth, hundredth = Fraction(1, 10), Fraction(1, 100)
        if said >= (rate + tenth) / serial or said + hundredth <= rate / (serial + tenth):
            fail(f"{self.file}: line {self.rows[name, shared][0]}: the speed-up is said to be {float(said)}, but {float(rate)} / {float(serial)} is {float(rate / serial):.2f}")
        return max(1, int(said * 100))


def tables(file):
    """The newest table of each bench: that under the latest date, or the first one of those under it."""
    try:
        lines = Path(file).read_text(encoding="utf-8").splitlines()
    except OSError as error:
        fail(f"{file}: {error.strerror}")
    except UnicodeError:
        fail(f"{file}: it is no text")
    found = {script: [] for script in HEADS}
    date, table = "", None
    for number, line in enumerate(lines, 1):
        if not line.startswith("|"):
            dates = re.findall(r"\b20[0-9]{2}-[0-9]{2}-[0-9]{2}\b", line)
            if line.startswith("## "):
                date = ""
            if dates:
                date = dates[-1]
            table = None
            continue
        cells = [cell.strip() for cell in line.strip().strip("|").split("|")]
        script = next((script for script, head in HEADS.items() if " | ".join(cells) == head), None)
        if script is not None:
            table = Table(file, script, number, date)
            found[script].append(table)
        elif table is not None and len(cells) > 1:
            table.rows.setdefault((cells[0], cells[1]), (number, cells))
    for script, head in HEADS.items():
        if not found[script]:
            fail(f"{file}: there is no table of {script}, whose head is '| {head} |'")
    return {script: max(some, key=lambda one: one.date) for script, some in found.items()}


# The picture, in its own units.
WIDTH, BELOW = 972, 112
LEFT, PLOT, BESIDE = 100, 172, 114
TOP, OCTAVE = 104, 46
GAP = 16
DASHES = ["none", "10 4", "3 4", "10 4 3 4"]

STYLE = """
text { font-family: system-ui, "DejaVu Sans", Verdana, sans-serif; font-size: 13px; fill: #1c1c1c; }
.title { font-size: 17px; font-weight: 600; }
.part { font-size: 14px; font-weight: 600; }
.quiet { fill: #555; }
.end { text-anchor: end; }
.middle { text-anchor: middle; }
.back { fill: #fff; }
.grid { stroke: #ddd; stroke-width: 1; }
.serial { stroke: #1c1c1c; stroke-width: 1.5; }
.ideal { stroke: #888; stroke-width: 1.2; stroke-dasharray: 1 3; fill: none; }
.lead { stroke: #888; stroke-width: .8; }
.line { fill: none; stroke-width: 2.2; stroke-linejoin: round; }
.mark { stroke: #fff; stroke-width: 1; }
.line0, .mark0 { stroke: #0b5cad; } .mark0 { fill: none; stroke-width: 2.6; } .name0 { fill: #0b5cad; }
.line1 { stroke: #a83a00; } .mark1, .name1 { fill: #a83a00; }
.line2 { stroke: #1b7038; } .mark2, .name2 { fill: #1b7038; }
.line3 { stroke: #7a2ea0; } .mark3, .name3 { fill: #7a2ea0; }
@media screen and (prefers-color-scheme: dark) {
text { fill: #e8e8e8; }
.quiet { fill: #aaa; }
.back { fill: #14171b; }
.grid { stroke: #343a41; }
.serial { stroke: #e8e8e8; }
.mark { stroke: #14171b; }
.line0, .mark0 { stroke: #74b9ff; } .name0 { fill: #74b9ff; }
.line1 { stroke: #ffa35c; } .mark1, .name1 { fill: #ffa35c; }
.line2 { stroke: #7fdc9a; } .mark2, .name2 { fill: #7fdc9a; }
.line3 { stroke: #d6a6ff; } .mark3, .name3 { fill: #d6a6ff; }
}
"""


def said(hundredths):
    return f"{hundredths // 100}.{hundredths % 100:02}"


def text(x, y, words, kind=""):
    return f'<text x="{x:.1f}" y="{y:.1f}"{f" class={chr(34)}{kind}{chr(34)}" if kind else ""}>{escape(words)}</text>'


def mark(kind, x, y, words):
    """A mark of a kind of its own for each line, which tells its value where a browser shows it."""
    shapes = [
        f'<circle cx="{x:.1f}" cy="{y:.1f}" r="6"',
        f'<rect x="{x - 4.5:.1f}" y="{y - 4.5:.1f}" width="9" height="9"',
        f'<path d="M{x:.1f} {y - 6:.1f}l6 10.5h-12z"',
        f'<path d="M{x:.1f} {y - 6.5:.1f}l6.5 6.5l-6.5 6.5l-6.5 -6.5z"',
    ]
    return f'{shapes[kind]} class="mark mark{kind}"><title>{escape(words)}</title></{shapes[kind][1:].split()[0]}>'


def apart(wanted, low):
    """Heights as near as may be to those that are wanted, from the top down, each GAP below the one before and none below `low`."""
    groups = []
    for number, height in enumerate(wanted):
        # the height of a group's first one, and how many it has
        groups.append((height, 1))
        while len(groups) > 1 and groups[-1][0] < groups[-2][0] + GAP * groups[-2][1]:
            (first, some), (second, others) = groups[-2:]
            groups[-2:] = [((first * some + (second - GAP * some) * others) / (some + others), some + others)]
    heights = [first + GAP * place for first, some in groups for place in range(some)]
    for number in reversed(range(len(heights))):
        heights[number] = min(heights[number], low - GAP * (len(heights) - 1 - number))
    return heights


class Picture:
    """A picture of three parts. Each line has a name, and a speed-up in hundredths at each step of the axis."""

    def __init__(self, title, below, axis, steps, places, tells, parts, ideal=None):
        self.title, self.below, self.axis, self.steps, self.places = title, below, axis, steps, places
        self.tells, self.parts, self.ideal = tells, parts, ideal

    def draw(self, lowest, highest, note):
        def height(hundredths):
            return TOP + (highest - math.log2(hundredths / 100)) * OCTAVE

        low = height(100 * 2.0**lowest)
        tall = TOP + (highest - lowest) * OCTAVE + BELOW
        out = [
            f'<svg xmlns="http://www.w3.org/2000/svg" viewBox="0 0 {WIDTH} {tall}" width="{WIDTH}" height="{tall}" role="img" aria-labelledby="title desc">',
            f'<title id="title">{escape(self.title)}</title>',
            f'<desc id="desc">{escape(self.describe(note))}</desc>',
            f"<style>{STYLE}</style>",
            f'<rect class="back" width="{WIDTH}" height="{tall}"/>',
            text(16, 28, self.title, "title"),
            text(16, 50, self.below, "quiet"),
            f'<text transform="translate(22 {(TOP + low) / 2:.1f}) rotate(-90)" class="middle">calls a second / those of serial</text>',
        ]
        for power in range(lowest, highest + 1):
            y = height(100 * 2.0**power)
            out.append(text(LEFT - 10, y + 4.5, "serial 1" if power == 0 else f"{2.0**power:g}", "end"))
        for number, (name, lines) in enumerate(self.parts):
            out.extend(self.part(LEFT + number * (PLOT + BESIDE), name, lines, lowest, highest, height, low))
        out.append(text(16, low + 72, note, "quiet"))
        out.append(text(16, low + 92, self.reading(), "quiet"))
        out.append("</svg>")
        return "\n".join(out) + "\n"

    def reading(self):
        """How the picture is to be read."""
        ideal = " Ideal is as many times serial as there are workers." if self.ideal else ""
        return f"One step of the grid is a factor of 2. Measured at the marks, which the lines only join.{ideal}"

    def part(self, left, name, lines, lowest, highest, height, low):
        def across(step):
            return left + 8 + self.places[step] * (PLOT - 16)

        def through(values):
            return "M" + "L".join(f"{across(step):.1f} {height(value):.1f}" for step, value in enumerate(values))

        yield text(left, TOP - 18, name, "part")
        for power in range(lowest, highest + 1):
            y = height(100 * 2.0**power)
            yield f'<path class="{"serial" if power == 0 else "grid"}" d="M{left} {y:.1f}h{PLOT}"/>'
        for step, words in enumerate(self.steps):
            yield f'<path class="grid" d="M{across(step):.1f} {TOP}V{low:.1f}"/>'
            yield text(across(step), low + 20, words, "middle")
        yield text(left + PLOT / 2, low + 42, self.axis, "middle")
        ends = []
        if self.ideal:
            yield f'<path class="ideal" d="{through(self.ideal)}"/>'
            ends.append((height(self.ideal[-1]), "quiet", f"ideal: {self.ideal[-1] // 100}"))
        for number, (label, values) in enumerate(lines):
            yield f'<path class="line line{number}" stroke-dasharray="{DASHES[number]}" d="{through(values)}"/>'
            ends.append((height(values[-1]), f"name{number}", f"{label}: {said(values[-1])}"))
        for number, (label, values) in enumerate(lines):
            for step, value in enumerate(values):
                yield mark(number, across(step), height(value), f"{self.tells(label, self.steps[step])}: {said(value)}")
        ends.sort(key=lambda end: end[0])
        for (end, kind, words), y in zip(ends, apart([end[0] for end in ends], low)):
            if abs(end - y) > 2:
                yield f'<path class="lead" d="M{across(len(self.steps) - 1) + 8:.1f} {end:.1f}L{left + PLOT + 7:.1f} {y:.1f}"/>'
            yield text(left + PLOT + 9, y + 4.5, words, kind)

    def describe(self, note):
        """All numbers, for those who do not see the picture."""
        parts = []
        for name, lines in self.parts:
            tells = [f"{self.tells(label, step)}: {said(value)}" for label, values in lines for step, value in zip(self.steps, values)]
            parts.append(f"{name}: {'; '.join(tells)}.")
        return f"Calls a second as so many times those of the serial executor. {' '.join(parts)} {self.reading()} {note}"


def workers_of(number):
    return "1 worker" if number == 1 else f"{number} workers"


def pictures(newest):
    def parts(lines):
        """What `lines` gives for the speed-ups of each part, which it asks for by length, calls on one cell, and workers."""
        return [
            (name, lines(lambda length, shared, workers, table=newest[script], columns=columns, stated=stated: table.times(length, shared, columns, workers, stated)))
            for name, script, columns, stated in PARTS
        ]

    yield "workers", Picture(
        "Speed-up against the number of workers, each call on a cell of its own",
        "At the end of a line: the instructions of a call, and the speed-up there.",
        "workers",
        [str(number) for number in WORKERS],
        [0, 0.5, 1],
        lambda label, step: f"{label} instructions, {workers_of(int(step))}",
        parts(lambda times: [(f"{length:,}", [times(length, 0, number) for number in WORKERS]) for length in LENGTHS]),
        [100, 200, 400],
    )
    yield "conflicts", Picture(
        "Speed-up of 4 workers against how many calls use one cell",
        "At the end of a line: the instructions of a call, and the speed-up there.",
        "calls of 100 on one cell",
        [str(shared) for shared in SHARES],
        [shared / 100 for shared in SHARES],
        lambda label, step: f"{label} instructions, {step} of 100 on one cell",
        parts(lambda times: [(f"{length:,}", [times(length, shared, 4) for shared in SHARES]) for length in LENGTHS]),
    )
    yield "length", Picture(
        "Speed-up against the length of the calls, of which 15 of 100 use one cell",
        "At the end of a line: the workers, and the speed-up there.",
        "instructions a call",
        [f"{length:,}" for length in LENGTHS],
        [math.log(length / LENGTHS[0]) / math.log(LENGTHS[-1] / LENGTHS[0]) for length in LENGTHS],
        lambda label, step: f"{label}, {step} instructions",
        parts(lambda times: [(workers_of(number), [times(length, 15, number) for length in LENGTHS]) for number in WORKERS]),
    )


def main():
    if len(sys.argv) != 3:
        sys.exit(__doc__)
    file, folder = sys.argv[1:]
    newest = tables(file)
    note = "From the tables of " + " and ".join(f"{script} ({table.date or 'without a date'})" for script, table in newest.items()) + "."
    drawn = list(pictures(newest))
    values = [value for _, picture in drawn for _, lines in picture.parts for _, some in lines for value in some] + [100, 400]
    # one axis for all pictures, so that they compare
    lowest, highest = math.floor(math.log2(min(values) / 100)), math.ceil(math.log2(max(values) / 100))
    for name, picture in drawn:
        written = picture.draw(lowest, highest, note)
        ElementTree.fromstring(written)
        (Path(folder) / f"{name}.svg").write_text(written, encoding="utf-8")


main()
