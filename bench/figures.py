"""Which figures of a bench's tables are drawn, and how: bench/run.py draws those that it has measured, and anew those of bench/README.md.

A picture is made of tables in Markdown and of nothing else, so that it says what they say. A figure that is not there is left out, as of a program that is
not built.
"""
import pathlib
import re

from bars import Bar, Bound, Panel, Row, picture
from tables import section, tables

readme = pathlib.Path(__file__).resolve().parent / "README.md"

# What is to be reached.
LINE, GROWTH, KEY, ASKS, STARTS = Bound("at most", 6), Bound("at most", 1.3), Bound("at most", 400), Bound("at least", 0.8), Bound("at least", 0.95)
MADE = Bound("at least", 0.9)

MISSING = "-"


def rows(labels, **series):
    """A row for each label, with a bar for each series; a bar and a row that have no figure are left out."""
    found = [Row(label, [Bar(name, words) for name, words in zip(series, cells) if words != MISSING]) for label, *cells in zip(labels, *series.values())]
    return [row for row in found if row.bars]


def quotients(over, under):
    return [f"{float(one.replace(',', '')) / float(other.replace(',', '')):.2f}" if MISSING not in (one, other) else MISSING for one, other in zip(over, under)]


def asks(found):
    for table in found:
        if table.has("ask", "instructions Rattle"):
            both = {"Rattle": table.column("instructions Rattle"), "C": table.column("instructions Rattle", 1)}
            yield Panel("Instructions of an ask, and of the same frames in the server that echoes", rows(table.column("ask"), **both), None, True)


def replay(found):
    for table in found:
        if table.has("load", "time", "instructions"):
            ratios = {"time": table.column("time"), "instructions": table.column("instructions")}
            yield Panel("A line's cost, Rattle's to C's", rows(table.column("load"), **ratios), LINE, True)
        if table.has("load", "peak KiB Rattle"):
            peaks = quotients(table.column("peak KiB Rattle"), table.column("peak KiB Rattle", 1))
            yield Panel("Peak memory, Rattle's to C's", rows(table.column("load"), **{"": peaks}))


def steps(found):
    for table in found:
        if table.has("step", "program"):
            sizes = table.heads[3:]
            by_step = {step: [] for step in table.column("step")}
            for step, program, _, *cells in sorted(table.rows, key=lambda row: row[1], reverse=True):
                by_step[step] += [Bar(f"{program}, {size}", re.search(r"\((.*)\)", cell)[1]) for size, cell in zip(sizes, cells) if cell != MISSING]
            title = f"{table.before.partition(':')[0]}: a step's cost to that with {table.heads[2]}"
            yield Panel(title, [Row(step, bars) for step, bars in by_step.items()], GROWTH, True)


def memory(found):
    for table in found:
        if table.has("program", "bytes a key"):
            yield Panel("Bytes a key", rows(table.column("program"), **{"": table.column("bytes a key")}), KEY)


def profile(found):
    """For each load a heading, and below it its functions with their shares."""
    for table in found:
        if table.has("load", "functions"):
            shown = []
            for load, functions in table.rows:
                shown += [Row(load, []), *(Row(name, [Bar("", share)]) for name, share in re.findall(r"`([^`]*)` ([0-9.]+)%", functions))]
            yield Panel("Shares of a load's instructions, in percent", shown)


def rates(found, unit, bound=None):
    """The ratios of all tables of rates, in one panel, and below it the rates."""
    head = f"{unit}/s Rattle"
    told = [table for table in found if table.has("of", head, "ratio")]
    ratios = [row for table in told for row in rows(table.column("of"), **{"": table.column("ratio")})]
    yield Panel(f"{unit.capitalize()} a second, Rattle's to C's", ratios, bound)
    both = [row for table in told for row in rows(table.column("of"), Rattle=table.column(head), C=table.column(head, 1))]
    yield Panel(f"{unit.capitalize()} a second", both)


def hall(found):
    return rates(found, "calls")


def spawn(found):
    return rates(found, "starts", STARTS)


def serve(found):
    for table in found:
        if table.has("connections", "program", "to C's"):
            ours = [row for row in table.rows if row[1] == "Rattle"]
            yield Panel("Asks a second, Rattle's to C's", rows(map(connections, ours), **{"": [row[3] for row in ours]}), ASKS)
        if table.has("connections", "keys/s", "ratio"):
            ratios = {"": table.column("ratio")}
            yield Panel("Keys made by /bin/cat a second, to the starts of the peer", rows(map(connections, table.rows), **ratios), MADE)


def connections(row):
    count, *more = row[0].split(", ")
    return ", ".join(["1 connection" if count == "1" else f"{count} connections", *more])


BENCHES = {of.__name__: of for of in [asks, replay, steps, memory, profile, hall, spawn, serve]}


def drawn(what, text):
    """The picture of what a bench has told, or nothing where there is no figure to be drawn."""
    panels = [panel for panel in BENCHES[what](tables(text)) if panel.bars()]
    return picture(f"bench/run.py {what}: Rattle beside C", panels) if panels else None


def made():
    """Each picture of bench/README.md, by the name of its file."""
    told = readme.read_text()
    found = {f"{what}.svg": drawn(what, section(told, what)) for what in BENCHES if f"\n### {what}\n" in told}
    return {name: text for name, text in found.items() if text}
