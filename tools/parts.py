"""The pictures of docs/ARCHITECTURE.md that come before the one of all crates: the parts of the repository, and the threads of the daemon.

The parts are tables; which part uses which is drawn of crates.txt.
"""
from typing import NamedTuple

from drawing import BLUE, DARK, GREY, INK, LINE, PAPER, SAND, Drawing
from layered import reduced

# ---- the parts


class Part(NamedTuple):
    place: tuple  # the left upper corner
    colour: str
    words: str  # what it is for
    crates: str  # those that belong to it


WIDTH, HEIGHT = 270, 56

PARTS = {
    "Daemon": Part((177, 24), DARK, "sockets, programs, files, the clock", "rk_daemon rk_preview reqkeyd"),
    "Conversation": Part((24, 112), SAND, "a client or a handler, message by message", "rk_devices rk_programs rk_talk rk_child rk_session"),
    "Hall": Part((24, 200), SAND, "a machine behind a lock, and its record", "rk_record rk_hall rk_wait rk_volumes rk_rejoin"),
    "Replay": Part((330, 200), SAND, "a machine that a script drives", "rk_served rk_replay"),
    "Machine": Part((177, 288), BLUE, "keys, rings, authorities, and their steps", "rk_keys rk_rings rk_auth rk_machine rk_core"),
    "Formats": Part((330, 376), BLUE, "frames, messages, the configuration", "rk_frame rk_message rk_conf rk_macro"),
    "Values": Part((330, 464), BLUE, "text, names, numbers, tables", "rk_lemmas rk_text rk_names rk_glob rk_table rk_options rk_variables rk_wrappers"),
    "Clients": Part((636, 24), GREY, "reqkeyctl; beside it C, Python, the trap", "rk_client rk_run rk_ctl reqkeyctl"),
}


def parts_of_crates():
    """The part of each crate."""
    return {name: part for part, it in PARTS.items() for name in it.crates.split()}


def uses_of_parts(uses):
    """The parts, each with those that its crates use, and without those that they use by others."""
    part = parts_of_crates()
    wide = {it: [] for it in PARTS}
    for name, below in uses.items():
        for it in below:
            if name in part and it in part and part[it] != part[name] and part[it] not in wide[part[name]]:
                wide[part[name]].append(part[it])
    return reduced(wide)


def parts_picture(uses):
    drawing = Drawing(930, 544, "The parts: what is above uses what is below")
    for name, below in uses_of_parts(uses).items():
        for it in below:
            (x, y), (to, level) = PARTS[name].place, PARTS[it].place
            x, to, bend = x + WIDTH // 2, to + WIDTH // 2, level - 32
            down = f"M{x} {y + HEIGHT}V{bend}"
            drawing.line(f"{down}V{level}" if x == to else f"{down}C{x} {bend + 16} {to} {bend + 10} {to} {level}", tip=True)
    for name, (place, colour, words, _) in PARTS.items():
        box(drawing, (*place, WIDTH, HEIGHT), colour, name, [words])
    return drawing.done()


def box(drawing, place, colour, name, lines):
    """A box with its name, and lines below that."""
    x, y, width, height = place
    fill = PAPER if colour == DARK else INK
    drawing.box(x, y, width, height, colour, INK if colour == DARK else LINE)
    drawing.text(x + width // 2, y + 23, name, fill, bold=True)
    for number, words in enumerate(lines):
        drawing.text(x + width // 2, y + 43 + 17 * number, words, fill, size=12)


# ---- the threads

# Each box: its place and size, its colour, its name and lines.
BOXES = [
    ((24, 24, 150, 56), GREY, "clients", ["connections"]),
    ((24, 196, 150, 73), GREY, "a client", ["frames,", "both ways"]),
    ((262, 24, 196, 56), DARK, "the first thread", ["accepts"]),
    ((546, 24, 220, 56), BLUE, "a channel", ["connections, 64 places"]),
    ((262, 196, 196, 73), DARK, "a worker", ["frames into requests,", "replies into frames"]),
    ((546, 196, 360, 73), BLUE, "a hall, of four: one lock", ["a call is one step of the machine, its place", "in the record, and its receipt"]),
    ((24, 392, 150, 73), GREY, "a handler", ["a program, by", "its own pipes"]),
    ((262, 392, 196, 73), SAND, "the configuration", ["a line, and the words", "of its command"]),
    ((546, 392, 172, 73), SAND, "volumes", ["full ones, as files", "of a folder"]),
    ((736, 392, 170, 73), DARK, "the clock's thread", ["each second: figures,", "slow handlers"]),
]

# Each arrow: its path, whether it goes both ways, and its words with their place.
ARROWS = [
    ("M174 52H262", False, None),
    ("M458 52H546", False, None),
    ("M656 80V124H360V196", False, (372, 117, "a worker that is free takes one")),
    ("M174 233H262", True, (184, 225, "bytes")),
    ("M458 233H546", True, (468, 225, "a call")),
    ("M300 269V340H100V392", True, (112, 333, "frames, or a payload")),
    ("M380 269V392", False, (388, 370, "a key is missing")),
    ("M420 269V340H632V392", False, (440, 333, "the record is full")),
    ("M820 392V269", False, (828, 333, "counts")),
]


def threads_picture():
    drawing = Drawing(930, 490, "The daemon: threads (dark), what they share (blue), what is outside of any lock")
    for path, is_double, words in ARROWS:
        drawing.line(path, tip=True, more=' marker-start="url(#tip)"' if is_double else "")
        if words:
            x, y, text = words
            drawing.text(x, y, text, anchor="start", size=12)
    for place, colour, name, lines in BOXES:
        box(drawing, place, colour, name, lines)
    return drawing.done()
