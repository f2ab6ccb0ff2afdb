#!/usr/bin/env python3
"""Compares docs/pictures/ with what tools/picture.py draws, the states in it with those of the code, and its words with docs/MACHINE.md; and the bars that
bench/run.py draws of bench/README.md with the figures of the tables there."""
import itertools
import re
import sys
import xml.etree.ElementTree as xml

import crates
from counted import Counted
from crates import top

sys.path[:0] = [str(top / "tools"), str(top / "bench")]
import figures
import parts
import picture
from drawing import RED, width_of

SVG = "{http://www.w3.org/2000/svg}"

count = Counted()
machine = (top / "docs" / "MACHINE.md").read_text()
architecture = (top / "docs" / "ARCHITECTURE.md").read_text()
benches = (top / "bench" / "README.md").read_text()


def variants(path, name):
    """The variants of an enum of the code."""
    body = re.search(rf"pub enum {name} \{{\n(.*?)\n\}}", (top / "crates" / path).read_text(), re.DOTALL)[1]
    return sorted(re.findall(r"^    ([A-Z]\w*)", body, re.MULTILINE))


def texts(drawing):
    return [it.text for it in drawing.iter(f"{SVG}text")]


def box(rect):
    x, y, width, height = (int(rect.get(name)) for name in ["x", "y", "width", "height"])
    return x, y, x + width, y + height


def boxes(drawing):
    """The corners of what is drawn as a box."""
    return [box(it) for it in drawing.iter(f"{SVG}rect") if it.get("fill") != "none" and it.get("stroke")]


def text_boxes(drawing):
    """The corners of the lines of text, which are about as wide as this."""
    for it in drawing.iter(f"{SVG}text"):
        x, y, size = (int(it.get(name)) for name in ["x", "y", "font-size"])
        width = width_of(it.text, size, it.get("font-weight") == "bold")
        left = x - {"start": 0, "middle": width // 2, "end": width}[it.get("text-anchor")]
        yield left, y - size * 3 // 4, left + width, y + size // 4


def meet(one, other):
    return one[0] < other[2] and other[0] < one[2] and one[1] < other[3] and other[1] < one[3]


def meetings(drawn):
    return [(one, other) for at, one in enumerate(drawn) for other in drawn[:at] if meet(one, other)]


def outside(drawn, drawing):
    width, height = int(drawing.get("width")), int(drawing.get("height"))
    return [it for it in drawn if not (0 <= it[0] and 0 <= it[1] and it[2] <= width and it[3] <= height)]


def is_whole(made):
    """Nothing in the pictures is covered or cut."""
    for name, text in made.items():
        drawing = xml.fromstring(text)
        drawn, words = boxes(drawing), list(text_boxes(drawing))
        count.same(f"size of {name}", drawing.get("viewBox"), f"0 0 {drawing.get('width')} {drawing.get('height')}")
        count.same(f"boxes of {name} that meet", meetings(drawn), [])
        count.same(f"texts of {name} that meet", meetings(words), [])
        count.same(f"boxes and texts of {name} outside", outside(drawn + words, drawing), [])


# ---- docs/pictures/

made = picture.made()
is_whole(made)
count.same("files of docs/pictures", {path.name: path.read_text() for path in (top / "docs" / "pictures").iterdir()}, made)
count.same("where request.svg is shown", "(docs/pictures/request.svg)" in "".join((top / "README.md").read_text().splitlines()[:10]), True)
shown = {"parts.svg": architecture, "threads.svg": architecture, "crates.svg": architecture, "key.svg": machine, "construction.svg": machine}
for name, document in shown.items():
    count.same(f"where {name} is shown", f"(pictures/{name})" in document, True)

drawn = [it for it in texts(xml.fromstring(made["crates.svg"])) if it not in picture.LEGEND.values()]
count.same("crates", sorted(drawn), sorted(set(crates.uses()) - picture.LEFT_OUT))
tests = {name for name in crates.uses() if name.endswith("_tests")}
count.same("crates that are of one part each", sorted(parts.parts_of_crates()), sorted(set(crates.uses()) - tests))
count.same("crates in all parts", sum(len(it.crates.split()) for it in parts.PARTS.values()), len(parts.parts_of_crates()))
for table, path, name in [(picture.KEY, "rk_keys/src/key.rt", "Standing"), (picture.CONSTRUCTION, "rk_auth/src/construction.rt", "Stage")]:
    count.same(f"states of {table.title}", sorted(table.states), variants(path, name))
    words = set(re.findall(r"\b[A-Z][A-Za-z]+\b", " ".join(line for _, (_, _, lines) in table.lines for line in lines))) | set(table.states)
    count.same(f"words of {table.title} that are not in MACHINE.md", [it for it in sorted(words) if not re.search(rf"\b{it}\b", machine)], [])


# ---- the tables of bench/README.md


def below(heads):
    """The rows of the table of bench/README.md whose heads begin so."""
    lines = benches.splitlines()
    at = next(number for number, line in enumerate(lines) if line.startswith(heads))
    return [[cell.strip() for cell in line.strip("|").split("|")] for line in itertools.takewhile(lambda it: it.startswith("|"), lines[at + 2 :])]


def number(figure):
    return float(figure.replace(",", ""))


# README.md, "Fast": requests a second of one run, in thousands.
rates = {(row[0], row[1].partition(",")[0]): number(row[2]) for row in below("| connections | program | asks/s |")}
fast = re.search(r"\*\*Fast\.\*\*.*?\(", (top / "README.md").read_text(), re.DOTALL)[0]
measured = [f"{rates[clients, program] / 1000:.0f}" for clients in ["1", "64"] for program in ["Rattle", "redis-server", "ssh-agent"]]
count.same("README.md: Fast", re.findall(r"(\d+),000", fast), measured)


def asked():
    for ask, ours, peer, *_ in below("| ask | instructions Rattle |"):
        yield from [f"{ask}, Rattle: {ours}", f"{ask}, C: {peer}"]


def replayed():
    for load, _, _, _, time, _, _, instructions in below("| load | lines |"):
        yield from [f"{load}, time: {time}", f"{load}, instructions: {instructions}"]
    for load, ours, peer, _ in below("| load | peak KiB Rattle |"):
        yield f"{load}: {number(ours) / number(peer):.2f}"


def stepped():
    for step, program, _, *cells in below("| step |"):
        for size, cell in zip(["10,000 keys", "200,000 keys"], cells):
            yield f"{step}, {program}, {size}: {cell.partition('(')[2].strip(')')}"


def served():
    asks = [(row[0], row[3]) for row in below("| connections | program |") if row[1] == "Rattle"]
    keys = [(row[0], row[3]) for row in below("| connections | keys/s |")]
    named = [(re.sub("^([0-9]+)", lambda it: f"{it[1]} connection{'s' * (it[1] != '1')}", load), ratio) for load, ratio in asks + keys]
    return [f"{load}: {ratio}" for load, ratio in named]


def rated(heads):
    """Of a table of rates: the ratio of each row, and what Rattle and C reach."""
    for of, *_, ours, peer, ratio in below(heads):
        yield from [f"{of}: {ratio}", f"{of}, Rattle: {ours}", f"{of}, C: {peer}"]


TOLD = {
    "asks.svg": list(asked()),
    "replay.svg": list(replayed()),
    "steps.svg": list(stepped()),
    "memory.svg": [f"{program}: {size}" for program, size in below("| program | bytes a key |")],
    "hall.svg": list(rated("| of | ns a call")),
    "spawn.svg": list(rated("| of | starts/s")),
    "serve.svg": served(),
}


def bars(drawing):
    """What each bar says, and where it stands."""
    return {(it.find(f"{SVG}title").text, box(it)) for it in drawing.iter(f"{SVG}rect") if it.find(f"{SVG}title") is not None}


def bounds(drawing):
    """The lines for what is to be reached: the words, where each is, and from where to where it goes."""
    words = [it.text.removeprefix("to be reached: ") for it in drawing.iter(f"{SVG}text") if it.get("fill") == RED]
    lines = [it.get("d") for it in drawing.iter(f"{SVG}path") if it.get("stroke") == RED]
    return [(told, *map(int, re.fullmatch(r"M(\d+) (\d+)V(\d+)", line).groups())) for told, line in zip(words, lines, strict=True)]


def on_wrong_side(drawing):
    """The bars that end on the other side of the line than their figure."""
    for told, x, begin, end in bounds(drawing):
        bound = number(told.split()[-1])
        for words, (_, y, right, _) in bars(drawing):
            figure = number(words.rpartition(": ")[2])
            if begin < y < end and (figure - bound) * (right - x) < 0:
                yield words


made = figures.made()
is_whole(made)
count.same("benches that are drawn", sorted(made), sorted(TOLD))
for name, text in made.items():
    drawing = xml.fromstring(text)
    count.same(f"bars of {name}", sorted(words for words, _ in bars(drawing)), sorted(it for it in TOLD[name] if not it.endswith(": -")))
    count.same(f"bars of {name} on the wrong side", list(on_wrong_side(drawing)), [])
    section = figures.section(benches, name.removesuffix(".svg"))
    count.same(f"bounds of {name} that its section does not tell", [told for told, *_ in bounds(drawing) if told not in " ".join(section.split())], [])
    count.same(f"bars of {name} that meet words", [(one, it) for _, one in bars(drawing) for it in text_boxes(drawing) if meet(one, it)], [])
    count.same(f"description of {name}", [drawing[0].tag, drawing[1].tag, len(bars(drawing)) > 0], [f"{SVG}title", f"{SVG}desc", True])
count.end()
