"""Reads the tables of a text in Markdown, as bench/README.md has them and as bench/run.py prints them."""
import re
from typing import NamedTuple


class Table(NamedTuple):
    before: str  # the paragraph before it
    heads: list
    rows: list

    def has(self, *heads):
        return all(head in self.heads for head in heads)

    def column(self, head, further=0):
        """The cells below this head, or below one that stands further to the right."""
        return [row[self.heads.index(head) + further] for row in self.rows]


def cells(line):
    return [cell.strip() for cell in line.strip().strip("|").split("|")]


def tables(text):
    """All tables, in their order."""
    found = []
    before = ""
    for part in re.split(r"\n\s*\n", text.strip()):
        lines = part.splitlines()
        if lines[0].startswith("|"):
            heads, _, *rows = map(cells, lines)
            found.append(Table(before, heads, rows))
        before = " ".join(lines)
    return found


def section(text, name):
    """What stands below a heading of the third rank, up to the next heading."""
    return re.search(rf"^### {re.escape(name)}\n(.*?)(?=^##|\Z)", text, re.DOTALL | re.MULTILINE)[1]
