#!/usr/bin/env python3
"""Draws the pictures of docs/pictures/: the crates in layers, of crates.txt, and the lives of a key and of a construction, of the tables below. Those of the
parts and of the threads are in parts.py.

Use: picture.py OUT, with the folder to write to; `make pictures` calls it. The tables have the states of docs/MACHINE.md, by their names in the code.
"""
import pathlib
import sys
from typing import NamedTuple

from drawing import AMBER, BLUE, DARK, GREY, INK, LINE, PAPER, SAND, Drawing
from layered import Rows, layers_of, reaches, reduced
from parts import parts_picture, threads_picture

sys.path.insert(0, str(pathlib.Path(__file__).resolve().parent.parent / "tests"))
import crates

PROGRAM, MACHINE, AROUND, APART = DARK, BLUE, SAND, GREY

# ---- the crates

BOX, HEIGHT, GAP, STEP, MARGIN, HEAD = 108, 30, 20, 60, 24, 60

LEGEND = {PROGRAM: "programs", MACHINE: "the machine, and of what it is made", APART: "messages alone", AROUND: "what drives the machine"}

# What is not drawn: lemmas, on which nearly all stand, and tests, which stand on nearly all.
LEFT_OUT = {"rk_lemmas", "rk_tests", "rk_live_tests", "rk_edge_tests"}


def drawn_crates():
    """The crates that are drawn, each with those on which it stands."""
    return {name: [it for it in below if it not in LEFT_OUT] for name, below in crates.uses().items() if name not in LEFT_OUT}


def kinds(uses):
    """What each crate is for, by where it stands."""
    programs = [name for name in uses if not any(name in below for below in uses.values())]
    inside = {"rk_machine", *reaches(uses, "rk_machine")}
    colours = {name: MACHINE if name in inside else AROUND if "rk_machine" in reaches(uses, name) else APART for name in uses}
    return colours | {name: PROGRAM for name in programs}


def crates_picture():
    uses = reduced(drawn_crates())
    colours = kinds(uses)
    layer = layers_of(uses, [name for name in uses if colours[name] == PROGRAM])
    rows = Rows(uses, layer)
    rows.order()
    right = rows.places(lambda it: 10 if rows.is_bend(it) else BOX, GAP)
    highest = max(layer.values())
    level = {it: MARGIN + HEAD + (highest - at) * STEP for at, row in enumerate(rows.rows) for it in row}
    right = {it: x + MARGIN for it, x in right.items()}
    width, height = max(right.values()) + BOX // 2 + MARGIN, MARGIN + HEAD + highest * STEP + HEIGHT + MARGIN
    drawing = Drawing(width, height, "The crates: what is above uses what is below")
    for chain in rows.chains:
        drawing.line(smooth([(right[it], level[it]) for it in chain]))
    for name in uses:
        x, dark = right[name], colours[name] == PROGRAM
        drawing.box(x - BOX // 2, level[name], BOX, HEIGHT, colours[name], INK if dark else LINE)
        drawing.text(x, level[name] + 20, name, PAPER if dark else INK, bold=dark)
    for number, (colour, words) in enumerate(LEGEND.items()):
        x, y = MARGIN + number % 2 * 140, 18 + number // 2 * 24
        drawing.box(x, y, 16, 16, colour)
        drawing.text(x + 24, y + 13, words, anchor="start", size=12)
    return drawing.done()


def smooth(points):
    """A line from the bottom of the first to the top of the last, which passes the others upright."""
    (x, y), *rest = points
    path, y = f"M{x} {y + HEIGHT}", y + HEIGHT
    for number, (to, level) in enumerate(rest, 1):
        middle = (y + level) / 2
        path += f"V{level}" if to == x else f"C{x} {middle:g} {to} {middle:g} {to} {level}"
        x, y = to, level
        if number < len(rest):
            path, y = f"{path}V{level + HEIGHT}", level + HEIGHT
    return path


# ---- states


class States(NamedTuple):
    title: str
    size: tuple
    frames: list  # around states, of which a line may begin: x, y, width, height
    states: dict  # the middle of each
    dots: list  # where a life begins (full) or ends (with a ring): x, y, whether it ends
    lines: list  # the path of each, and its words: x, y, lines


KEY = States(
    "The life of a key", (900, 430),
    [(16, 70, 668, 266), (8, 62, 884, 282)],
    {"Building": (110, 205), "Positive": (385, 125), "Negative": (385, 285), "Expired": (610, 205), "Revoked": (822, 205)},
    [(110, 30, False), (385, 30, False), (450, 402, True)],
    [
        ("M110 36V186", (122, 34, ["REQUEST, where none is found"])),
        ("M385 36V106", (397, 34, ["ADD"])),
        ("M166 197C230 165 260 125 328 125", (172, 94, ["INSTANTIATE, or what", "a piped handler wrote"])),
        ("M166 213C230 245 260 285 328 285", (138, 304, ["NEGATE, REJECT, or an end", "without a payload"])),
        ("M441 125C500 125 520 160 560 186", (500, 122, ["its expiry comes"])),
        ("M166 205H553", (300, 198, ["its expiry comes"])),
        ("M441 285C500 285 520 250 560 224", (500, 296, ["its expiry comes"])),
        ("M684 205H765", (700, 197, ["REVOKE"])),
        ("M450 344V392", (464, 372, ["it has no link, and is not Building: it vanishes"])),
    ],
)

CONSTRUCTION = States(
    "The life of a construction", (900, 340),
    [],
    {"Starting": (130, 180), "Plain": (600, 110), "Piped": (360, 250), "Negating": (600, 250)},
    [(22, 180, False), (856, 110, True)],
    [
        ("M28 180H73", (16, 218, ["REQUEST makes the key,", "Building, and its authority"])),
        ("M130 162V36H856V100", (142, 28, ["it can't be started: the key is Negative"])),
        ("M186 172C240 172 240 110 300 110H543", (310, 101, ["a plain handler runs"])),
        ("M186 188C240 188 240 250 303 250", (200, 270, ["a piped", "handler runs"])),
        ("M580 92V66H620V91", (632, 70, ["INSTANTIATE, NEGATE or REJECT", "spends the authority"])),
        ("M656 110H845", (664, 127, ["it ends; the key is Negative", "if it was not complete"])),
        ("M416 250H543", (420, 270, ["its end would make", "the key Negative"])),
        ("M600 232V129", (610, 182, ["a second handler,", "plain, runs"])),
        ("M656 250H856V121", (664, 226, ["it can't be started:", "the key is Negative"])),
        ("M360 268V318H884V110H867", (372, 310, ["it ends with a payload: the key is Positive"])),
    ],
)


def states_picture(table):
    drawing = Drawing(*table.size, table.title)
    for x, y, width, height in reversed(table.frames):
        drawing.box(x, y, width, height, "none", more=' stroke-dasharray="4 4"')
    for path, (x, y, lines) in table.lines:
        drawing.line(path, tip=True)
        for number, words in enumerate(lines):
            drawing.text(x, y + 16 * number, words, anchor="start", size=12)
    for name, (x, y) in table.states.items():
        drawing.box(x - 56, y - 18, 112, 36, MACHINE, INK)
        drawing.text(x, y + 5, name, bold=True)
    for x, y, ends in table.dots:
        drawing.parts.append(f'<circle cx="{x}" cy="{y}" r="{5 if ends else 6}" fill="{INK}"/>')
        if ends:
            drawing.parts.append(f'<circle cx="{x}" cy="{y}" r="9" fill="none" stroke="{INK}" stroke-width="1.4"/>')
    return drawing.done()


# ---- what README.md shows first


def request_picture():
    """Two programs that request one key, the daemon, and the one handler that makes it."""
    drawing = Drawing(900, 214, "Two programs request one key; the daemon starts one handler, and both get its result")
    for y, name in [(24, "a program"), (142, "another program")]:
        drawing.box(24, y, 150, 48, GREY)
        drawing.text(99, y + 29, name)
    drawing.box(356, 52, 190, 110, BLUE, INK)
    for y, (words, bold) in zip([80, 106, 126, 146], [("reqkeyd", True), ("the key web,", False), ("under construction,", False), ("then with its payload", False)]):
        drawing.text(451, y, words, bold=bold)
    drawing.box(726, 78, 150, 58, SAND)
    for y, words in [(102, "the handler, which"), (122, "logs in somewhere")]:
        drawing.text(801, y, words)
    for path in ["M174 40C250 40 270 76 346 76", "M174 158C250 158 270 118 346 118", "M546 88H716"]:
        drawing.line(path, tip=True)
    for path in ["M356 92C270 92 250 60 184 60", "M356 136C270 136 250 178 184 178", "M726 126H556"]:
        drawing.line(path, tip=True, stroke=AMBER)
    told = {(186, 30): "1 requests web: there is none", (570, 78): "2 is started once", (570, 148): "3 a token for an hour",
            (186, 204): "4 both get the same key, or the same error"}
    for (x, y), words in told.items():
        drawing.text(x, y, words, anchor="start", size=12)
    return drawing.done()


def made():
    """Each file, by its name."""
    return {
        "request.svg": request_picture(),
        "parts.svg": parts_picture(crates.uses()),
        "threads.svg": threads_picture(),
        "crates.svg": crates_picture(),
        "key.svg": states_picture(KEY),
        "construction.svg": states_picture(CONSTRUCTION),
    }


if __name__ == "__main__":
    if len(sys.argv) != 2:
        sys.exit("usage: picture.py OUT")
    for name, text in made().items():
        (pathlib.Path(sys.argv[1]) / name).write_text(text)
