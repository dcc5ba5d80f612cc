"""The picture of docs/FIGURES.md: time and stack of each call beside plain C, as SVG of the table that bench/run prints."""

import re
from typing import NamedTuple

LINES = re.compile(r"^ *(\w+) +([\d.]+) ns +([\d.]+) ns +([\d.]+) +(\d+) B +(\d+) B +[\d.]+$", re.M)
OURS, PLAIN, INK, FAINT = "#2b6cb0", "#a0aec0", "#1a202c", "#e2e8f0"
LABELS, PANEL, NOTE, GAP = 130, 300, 75, 25
WIDTH = LABELS + 2 * (PANEL + NOTE) + GAP
TOP, LINE, BAR, FOOT = 76, 22, 8, 15
STACK_WANTED = 1536


class Row(NamedTuple):
    name: str
    time: float
    plain_time: float
    ratio: str
    stack: int
    plain_stack: int


class Panel(NamedTuple):
    """One of the two halves: where it begins, what a full bar stands for, and the steps of its scale."""
    left: int
    full: int
    step: int
    unit: str

    def place(self, value):
        return self.left + PANEL * value / self.full


def read_rows(table):
    for name, time, plain_time, ratio, stack, plain_stack in LINES.findall(table):
        yield Row(name.replace("_", " "), float(time), float(plain_time), ratio, int(stack), int(plain_stack))


def panel(left, most, unit):
    """A half for values up to `most`, in at most five steps."""
    step = next(first * 10 ** zeros for zeros in range(9) for first in (1, 2, 4, 5) if 5 * first * 10 ** zeros >= most)
    return Panel(left, step * -int(-most // step), step, unit)


def text(x, y, words, size=11, anchor="start", weight="normal"):
    return f'<text x="{x:.1f}" y="{y}" font-size="{size}" text-anchor="{anchor}" font-weight="{weight}">{words}</text>'


def box(x, y, width, height, colour):
    return f'<rect x="{x:.1f}" y="{y}" width="{width:.1f}" height="{height}" fill="{colour}"/>'


def upright(x, bottom, colour, dashes="none"):
    return f'<line x1="{x:.1f}" y1="{TOP - 6}" x2="{x:.1f}" y2="{bottom}" stroke="{colour}" stroke-dasharray="{dashes}"/>'


def legend():
    for x, colour, words in ((LABELS, OURS, "here"), (LABELS + 60, PLAIN, "plain C")):
        yield box(x, 14, 10, 10, colour)
        yield text(x + 15, 23, words)


def scale(half, title, bottom):
    yield text(half.left, 44, title, 13, weight="bold")
    for value in range(0, half.full + 1, half.step):
        yield upright(half.place(value), bottom, FAINT)
        yield text(half.place(value), TOP - 10, f"{value} {half.unit}", 10, "middle")


def bars(half, y, ours, plain, note):
    for value, colour, at in ((ours, OURS, y), (plain, PLAIN, y + BAR)):
        yield box(half.left, at, half.place(value) - half.left, BAR - 1, colour)
    yield text(half.place(max(ours, plain)) + 5, y + BAR + 3, note, 10)


def picture(table):
    """The SVG for a text that has the table's lines in it."""
    rows = list(read_rows(table))
    if not rows:
        raise SystemExit("plot: there are no figures to draw")
    bottom = TOP + LINE * len(rows)
    time = panel(LABELS, max(max(row.time, row.plain_time) for row in rows), "ns")
    stack = panel(LABELS + PANEL + NOTE + GAP, max(STACK_WANTED, *(max(row.stack, row.plain_stack) for row in rows)), "B")
    parts = [box(0, 0, WIDTH, bottom + FOOT, "white"), *legend()]
    parts += [*scale(time, "Time of a call, and its ratio to plain C", bottom), *scale(stack, "Stack of a call, here / plain C", bottom)]
    for y, row in zip(range(TOP, bottom, LINE), rows):
        parts.append(text(LABELS - 8, y + BAR + 3, row.name, anchor="end"))
        parts += bars(time, y, row.time, row.plain_time, row.ratio)
        parts += bars(stack, y, row.stack, row.plain_stack, f"{row.stack} / {row.plain_stack}")
    parts.append(upright(stack.place(STACK_WANTED), bottom, INK, "4 3"))
    parts.append(text(stack.place(STACK_WANTED), bottom + 11, "wanted: at most 1.5 KiB", 10, "middle"))
    head = f'<svg xmlns="http://www.w3.org/2000/svg" viewBox="0 0 {WIDTH} {bottom + FOOT}" width="{WIDTH}" font-family="sans-serif" fill="{INK}">'
    return "\n".join([head, *parts, "</svg>\n"])
