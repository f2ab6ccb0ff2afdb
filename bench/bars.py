"""Draws panels of horizontal bars, each with a line for what its figures are to reach.

A panel has a row for each label, and in it a bar for each figure, which stands at the right in the words of its table. Bars begin at 0; in a panel that is
logarithmic, for figures that lie far apart, at 1.
"""
import math
import pathlib
import sys
from typing import NamedTuple

sys.path.insert(0, str(pathlib.Path(__file__).resolve().parent.parent / "tools"))
from drawing import AMBER, BLUE, DARK, LINE, PALE, RED, SAND, Drawing, width_of

WIDTH, MARGIN, GAP = 900, 24, 16
BAR, APART, SMALL = 13, 9, 11  # the height of a bar, the room between rows, the size of small words
LONGEST = 400  # a label that is wider loses its beginning
TINY = 0.1  # what is less is drawn as that on a logarithmic scale
FILLS = [DARK, BLUE, AMBER, SAND]
LADDER = [step * 10.0**power for power in range(-6, 12) for step in (1, 2, 5)]


class Bound(NamedTuple):
    """What a figure is to reach."""

    words: str  # at most, at least
    value: float

    def __str__(self):
        return f"{self.words} {self.value:g}"

    def holds(self, value):
        return value <= self.value if self.words == "at most" else value >= self.value


class Bar(NamedTuple):
    series: str  # empty where there is but one
    words: str  # the figure, as its table has it

    @property
    def value(self):
        return float(self.words.replace(",", ""))


class Row(NamedTuple):
    label: str
    bars: list  # a row without any is a heading of those below


class Panel(NamedTuple):
    title: str
    rows: list
    bound: Bound = None
    logarithmic: bool = False

    def bars(self):
        return [bar for row in self.rows for bar in row.bars]

    def series(self):
        """The names of its series, in order; none where there is but one, without a name."""
        return list(dict.fromkeys(bar.series for bar in self.bars() if bar.series))

    def description(self):
        """What is drawn, in a sentence."""
        values = sorted(self.bars(), key=lambda bar: bar.value)
        told = f"{self.title}: {len(values)} bars, from {values[0].words} to {values[-1].words}"
        if not self.bound:
            return f"{told}."
        return f"{told}, of which {sum(self.bound.holds(bar.value) for bar in values)} reach what is to be reached, {self.bound}."


class Scale:
    """Where the figures of a panel lie between its left and its right side."""

    def __init__(self, panel, left, right):
        values = [1, *(bar.value for bar in panel.bars()), *([panel.bound.value] if panel.bound else [])]
        self.logarithmic, self.left, self.right = panel.logarithmic, left, right
        self.begin = 1 if self.logarithmic else 0  # of each bar
        if self.logarithmic:
            self.least = max(step for step in LADDER if step <= max(min(values), TINY))
            self.most = min(step for step in LADDER if step >= max(values))
            steps = [step for step in LADDER if self.least <= step <= self.most]
            self.ticks = steps if len(steps) <= 8 else [step for step in steps if math.log10(step).is_integer()]
        else:
            step = min(step for step in LADDER if step >= max(values) / 6)
            self.ticks = [step * number for number in range(math.ceil(max(values) / step - 1e-9) + 1)]
            self.least, self.most = 0, self.ticks[-1]

    def at(self, value):
        if self.logarithmic:
            part = math.log(max(value, self.least) / self.least) / math.log(self.most / self.least)
        else:
            part = value / self.most
        return round(self.left + part * (self.right - self.left))

    def reach(self, value):
        """From where to where a bar goes; one that has no length is still seen."""
        begin, end = sorted([self.at(self.begin), self.at(value)])
        return begin, max(end, begin + 1)


def fitting(words):
    """A label, without its beginning where it is too long."""
    if width_of(words, 12) <= LONGEST:
        return words
    while width_of(f"…{words}", 12) > LONGEST:
        words = words[1:]
    return f"…{words}"


def height_of_row(row):
    return max(len(row.bars), 1) * BAR + APART


def height_of_head(panel):
    """The room for the title, the names of the series and what is to be reached."""
    return 24 + (20 if panel.series() else 0) + (18 if panel.bound else 0)


def height_of(panel):
    return height_of_head(panel) + sum(map(height_of_row, panel.rows)) + 20


def fills_of(panels):
    """The colour of each series, the same in all panels."""
    named = dict.fromkeys(series for panel in panels for series in panel.series())
    return {"": DARK, **dict(zip(named, FILLS))}


def picture(title, panels):
    """The panels, one below the other."""
    height = 2 * MARGIN + sum(map(height_of, panels)) + GAP * (len(panels) - 1)
    drawing = Drawing(WIDTH, height, title, " ".join(panel.description() for panel in panels))
    left = MARGIN + max(width_of(fitting(row.label), 12, not row.bars) for panel in panels for row in panel.rows) + 12
    right = WIDTH - MARGIN - max(width_of(bar.words, SMALL) for panel in panels for bar in panel.bars()) - 16
    fills, top = fills_of(panels), MARGIN
    for panel in panels:
        draw(drawing, panel, Scale(panel, left, right), fills, top)
        top += height_of(panel) + GAP
    return drawing.done()


def draw(drawing, panel, scale, fills, top):
    words = f"{panel.title} (logarithmic)" if panel.logarithmic else panel.title
    drawing.text(MARGIN, top + 13, words, anchor="start", bold=True)
    name_series(drawing, panel.series(), fills, top + 22)
    begin, end = top + height_of_head(panel), top + height_of(panel) - 20
    draw_ticks(drawing, scale, begin, end)
    y = begin
    for row in panel.rows:
        drawing.line(f"M{MARGIN} {y}H{WIDTH - MARGIN}", stroke=PALE)
        draw_row(drawing, row, scale, fills, y + APART // 2)
        y += height_of_row(row)
    if panel.bound:
        draw_bound(drawing, panel.bound, scale, begin, end)


def name_series(drawing, names, fills, y):
    x = MARGIN
    for series in names:
        drawing.box(x, y, 12, 12, fills[series], radius=2)
        drawing.text(x + 18, y + 10, series, anchor="start", size=SMALL)
        x += 18 + width_of(series, SMALL) + 16


def draw_ticks(drawing, scale, begin, end):
    for tick in scale.ticks:
        drawing.line(f"M{scale.at(tick)} {begin}V{end}", stroke=LINE if tick == scale.begin else PALE)
        drawing.text(scale.at(tick), end + 15, f"{tick:,.12g}", size=SMALL)


def draw_row(drawing, row, scale, fills, y):
    middle = y + (height_of_row(row) - APART) // 2
    drawing.text(MARGIN, middle + 4, fitting(row.label), anchor="start", size=12, bold=not row.bars)
    for bar in row.bars:
        begin, end = scale.reach(bar.value)
        title = f"{row.label}, {bar.series}: {bar.words}" if bar.series else f"{row.label}: {bar.words}"
        drawing.box(begin, y, end - begin, BAR, fills[bar.series], radius=2, title=title)
        drawing.text(WIDTH - MARGIN, y + 10, bar.words, anchor="end", size=SMALL)
        y += BAR


def draw_bound(drawing, bound, scale, begin, end):
    """The line to be reached, and above it its words, as far to the side as there is room."""
    words = f"to be reached: {bound}"
    half = width_of(words, SMALL) // 2
    x = min(max(scale.at(bound.value), MARGIN + half), WIDTH - MARGIN - half)
    drawing.text(x, begin - 5, words, fill=RED, size=SMALL)
    drawing.line(f"M{scale.at(bound.value)} {begin}V{end}", stroke=RED, more=' stroke-dasharray="5 3"')
