"""Puts pictures together as SVG, with the colours and the type that all pictures of the repository have.

A drawing brings its own paper, so that it reads alike on a light page and on a dark one, and its words are text. The same calls give the same bytes.
"""
from html import escape

INK, LINE, PALE, PAPER = "#1f2430", "#6b7280", "#e3e5e9", "#ffffff"
DARK, BLUE, SAND, GREY = "#2f3b52", "#d9e8f5", "#fbe5c8", "#e8e8ec"  # of areas; words on the first are of PAPER
AMBER, RED = "#c98a3c", "#b3261e"


NARROW, WIDE = " .,:;'`|!()[]/-ijltfrI", "mwMW%@…"


def width_of(words, size=13, bold=False):
    """About how wide words are, and hardly less, in DejaVu Sans, the widest of the types."""
    parts = sum(0.4 if it in NARROW else 1 if it in WIDE else 0.62 if it.islower() else 0.67 for it in words)
    return round(parts * size * (1.12 if bold else 1))


class Drawing:
    """An SVG that is put together piece by piece."""

    def __init__(self, width, height, title, description=""):
        self.parts = [
            f'<svg xmlns="http://www.w3.org/2000/svg" width="{width}" height="{height}" viewBox="0 0 {width} {height}" '
            f'font-family="DejaVu Sans, Verdana, sans-serif" font-size="13" role="img">',
            f"<title>{plain(title)}</title>",
            *([f"<desc>{plain(description)}</desc>"] if description else []),
            '<defs><marker id="tip" viewBox="0 0 10 10" refX="9" refY="5" markerWidth="8" markerHeight="8" orient="auto-start-reverse">'
            f'<path d="M0 0L10 5L0 10z" fill="{LINE}"/></marker></defs>',
            f'<rect width="{width}" height="{height}" rx="6" fill="{PAPER}"/>',
        ]

    def box(self, x, y, width, height, fill, stroke=LINE, more="", radius=7, title=""):
        """A box; a title is shown where one points at it."""
        end = f"><title>{plain(title)}</title></rect>" if title else "/>"
        self.parts.append(f'<rect x="{x}" y="{y}" width="{width}" height="{height}" rx="{radius}" fill="{fill}" stroke="{stroke}"{more}{end}')

    def text(self, x, y, words, fill=INK, anchor="middle", size=13, bold=False):
        weight = ' font-weight="bold"' if bold else ""
        self.parts.append(f'<text x="{x}" y="{y}" fill="{fill}" text-anchor="{anchor}" font-size="{size}"{weight}>{plain(words)}</text>')

    def line(self, path, tip=False, stroke=LINE, more=""):
        end = ' marker-end="url(#tip)"' if tip else ""
        self.parts.append(f'<path d="{path}" fill="none" stroke="{stroke}" stroke-width="1.4"{more}{end}/>')

    def done(self):
        return "\n".join([*self.parts, "</svg>", ""])


def plain(words):
    """Words as they stand between tags."""
    return escape(words, quote=False)
