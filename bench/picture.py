#!/usr/bin/env python3
"""picture.py - draws docs/growth.svg from the figures in bench/growth.txt, and from nothing else.

  bench/picture.py            draws it
  bench/picture.py --check    exit status 1 unless docs/growth.svg is what would be drawn
"""
import math
import pathlib
import re
import sys

HERE = pathlib.Path(__file__).resolve().parent
FIGURES = HERE / "growth.txt"
PICTURE = HERE.parent / "docs" / "growth.svg"

WIDTH, HEIGHT = 800, 452
TOP, BOTTOM = 116, 372  # of both panels
PANEL = 292  # the width of a panel
LAST = 40  # of n on the horizontal axis

PAPER, INK, FAINT, GRID = "#ffffff", "#1f2328", "#59636e", "#e4e8ec"
OLD, OURS, BETA = "#c2410c", "#0b5cad", "#59636e"


# ---------------------------------------------------------------- the figures

def read_figures(text):
    """The memory that the old way may take, and the rows of the table."""
    memory = int(re.search(r"past (\d+) bytes", text).group(1))
    rows = [line.split() for line in text.splitlines() if re.match(r" *\d+ \|", line)]
    return memory, [read_row(" ".join(words)) for words in rows]


def read_row(line):
    n, ours, old = line.split(" | ")
    beta, steps, taken = ours.split()[:3]
    old_steps, old_taken, end = old.split()[1:4]
    row = {"n": int(n), "beta": int(beta), "steps": int(steps), "bytes": int(taken), "full": end == "full"}
    if end != "-":
        row["old steps"], row["old bytes"] = int(old_steps), int(old_taken)
    return row


def points(rows, what):
    """What is known of a figure, over n. A figure of 0 has no place on a logarithmic axis."""
    return [(row["n"], row[what]) for row in rows if row.get(what, 0) > 0]


# ---------------------------------------------------------------- words

def size_words(count):
    for power, unit in (30, "GiB"), (20, "MiB"), (10, "KiB"):
        if count >= 1 << power:
            return f"{count >> power} {unit}"
    return f"{count} B"


def count_words(count):
    return f"{count // 10**6} million" if count >= 10**6 else f"{count:,}"


# ---------------------------------------------------------------- ink

def text(x, y, words, fill=INK, size=13, anchor="start", weight="normal"):
    """Words with an edge in the paper's colour, so that no line runs through them."""
    return (f'<text x="{x:.1f}" y="{y:.1f}" fill="{fill}" stroke="{PAPER}" stroke-width="4" stroke-linejoin="round" paint-order="stroke" '
            f'font-size="{size}" text-anchor="{anchor}" font-weight="{weight}">{words}</text>')


def line(x1, y1, x2, y2, stroke, width=1):
    return f'<line x1="{x1:.1f}" y1="{y1:.1f}" x2="{x2:.1f}" y2="{y2:.1f}" stroke="{stroke}" stroke-width="{width}"/>'


def curve(places, stroke, width):
    path = " ".join(f"{x:.1f},{y:.1f}" for x, y in places)
    return f'<polyline points="{path}" fill="none" stroke="{stroke}" stroke-width="{width}" stroke-linejoin="round" stroke-linecap="round"/>'


def cross(x, y, stroke, arm=5.5):
    return (f'<path d="M{x - arm:.1f},{y - arm:.1f} L{x + arm:.1f},{y + arm:.1f} '
            f'M{x - arm:.1f},{y + arm:.1f} L{x + arm:.1f},{y - arm:.1f}" stroke="{stroke}" stroke-width="2.5" stroke-linecap="round"/>')


def dot(x, y, fill):
    return f'<circle cx="{x:.1f}" cy="{y:.1f}" r="3.5" fill="{fill}"/>'


# ---------------------------------------------------------------- a panel

class Panel:
    """A panel with n to the right and a logarithmic axis upwards, from 1 to `top`."""

    def __init__(self, left, top):
        self.left, self.top = left, top

    def x(self, n):
        return self.left + PANEL * n / LAST

    def y(self, figure):
        return BOTTOM - (BOTTOM - TOP) * math.log(figure) / math.log(self.top)

    def places(self, known):
        return [(self.x(n), self.y(figure)) for n, figure in known]

    def axes(self, heading, ticks):
        yield text(self.left, TOP - 16, heading, size=14, weight="bold")
        for figure, words in ticks:
            yield line(self.left, self.y(figure), self.left + PANEL, self.y(figure), GRID)
            yield text(self.left - 8, self.y(figure) + 4, words, fill=FAINT, size=12, anchor="end")
        yield line(self.left, BOTTOM, self.left + PANEL, BOTTOM, FAINT)
        for n in range(0, LAST + 1, 10):
            yield line(self.x(n), BOTTOM, self.x(n), BOTTOM + 4, FAINT)
            yield text(self.x(n), BOTTOM + 19, n, fill=FAINT, size=12, anchor="middle")
        yield text(self.left + PANEL / 2, BOTTOM + 37, "n", fill=FAINT, size=13, anchor="middle")

    def old_way(self, known, words):
        """The old way's line, with a cross and two lines of words where it ends."""
        places = self.places(known)
        yield curve(places, OLD, 2.5)
        x, y = places[len(places) * 2 // 3]
        yield text(x - 10, y - 4, "the old way", fill=OLD, anchor="end", weight="bold")
        x, y = places[-1]
        yield cross(x, y, OLD)
        for k, part in enumerate(words):
            yield text(x + 13, y + 5 + 17 * k, part, fill=OLD)

    def to_the_end(self, known, stroke, width, name, end, below=False):
        """A line to the last n, named at its side, with its last figure at its end."""
        places = self.places(known)
        yield curve(places, stroke, width)
        x, y = places[-1]
        yield dot(x, y, stroke)
        yield text(x + 4, y + (19 if below else -10), f'<tspan font-weight="bold">{name}</tspan> {end}', fill=stroke, anchor="end")


def steps_panel(rows):
    panel = Panel(104, 10**9)
    last, full = rows[-1], next(row for row in rows if row["full"])
    yield from panel.axes("steps", [(10**k, count_words(10**k)) for k in range(0, 9, 2)])
    yield from panel.old_way(points(rows, "old steps"), ["memory is full", f"at n = {full['n']}"])
    yield from panel.to_the_end(points(rows, "steps"), OURS, 2.5, "glow", f"{count_words(last['steps'])} steps at n = {last['n']}")
    yield from panel.to_the_end(points(rows, "beta"), BETA, 1.2, "beta steps", f"{last['beta']}", below=True)


def memory_panel(rows, memory):
    panel = Panel(476, 2**31)
    last, full = rows[-1], next(row for row in rows if row["full"])
    yield from panel.axes("memory", [(2**k, size_words(2**k)) for k in range(0, 31, 10)])
    yield from panel.old_way(points(rows, "old bytes"), [f"fills {size_words(memory)}", f"at n = {full['n']}"])
    yield from panel.to_the_end(points(rows, "bytes"), OURS, 2.5, "glow", f"{last['bytes']:,} bytes at n = {last['n']}")


# ---------------------------------------------------------------- the picture

TITLE = "What n beta steps cost, the old way and with glow"
CAPTION = "Memory is 3 bytes for each node taken, 6 for each cell and 2 for each name, as in the library’s arrays, on both sides."


def heading():
    yield text(24, 38, TITLE, size=18, weight="bold")
    yield text(24, 62, 'The terms t<tspan dy="3" font-size="10">n</tspan><tspan dx="4" dy="-3">of proposition 3. '
               "The old way copies stuck applications; glow shares them.</tspan>", fill=FAINT, size=14)


def draw(figures):
    memory, rows = read_figures(figures)
    parts = [
        f'<svg xmlns="http://www.w3.org/2000/svg" viewBox="0 0 {WIDTH} {HEIGHT}" width="{WIDTH}" height="{HEIGHT}" role="img" font-family="sans-serif">',
        f"<title>{TITLE}</title>",
        f'<rect width="{WIDTH}" height="{HEIGHT}" rx="8" fill="{PAPER}"/>',
        *heading(),
        *steps_panel(rows),
        *memory_panel(rows, memory),
        text(24, HEIGHT - 18, CAPTION, fill=FAINT, size=12),
        "</svg>",
    ]
    return "\n".join(parts) + "\n"


def main(words):
    if words not in ([], ["--check"]):
        sys.exit(__doc__.strip())
    picture = draw(FIGURES.read_text(encoding="utf-8"))
    if not words:
        PICTURE.write_text(picture, encoding="utf-8")
    elif not PICTURE.is_file() or PICTURE.read_text(encoding="utf-8") != picture:
        sys.exit("picture.py: docs/growth.svg is not what bench/growth.txt gives; bench/picture.py draws it again")


if __name__ == "__main__":
    main(sys.argv[1:])
