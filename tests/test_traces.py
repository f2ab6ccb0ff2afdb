#!/usr/bin/env python3
"""What bench/costs.py and tools/walk.py read of a trace: the stretch under a lock, the files of functions, and the walk of a request. Nothing is run."""
import pathlib
import sys
import tempfile

from counted import Counted
from crates import top

sys.path[:0] = [str(top / "bench"), str(top / "tools")]
import costs
import walk

count = Counted()

# ---- under a lock


class Program:
    """Instructions of made-up bytes, by their addresses."""

    CODE = {
        0x10: b"\x90\x90\x90\x90",  # does nothing
        0x20: b"\xf0\x48\x0f\xb1",  # lock cmpxchg
        0x30: b"\x48\x87\x06\x90",  # xchg with memory
        0x40: b"\x48\x87\xc6\x90",  # xchg of two registers
        0x50: b"\xf0\x48\xff\x0f",  # lock dec
    }

    def bytes_at(self, address, size):
        return self.CODE.get(address, b"")[:size]


def stretch(*steps):
    """The instructions of a trace, and those under a lock; a step is an instruction, or one and the word that it changes."""
    lines = []
    for code, *word in steps:
        lines += [b"I  %x,4" % (code + 0x1000), *[b" M %x,8" % at for at in word]]
    return costs.under_lock(lines, Program(), 0x1000)


plain, take, give, swap, release = (0x10,), (0x20, 0xA0), (0x30, 0xA0), (0x40,), (0x50, 0xA0)
count.same("a lock that is taken and given back", stretch(plain, take, plain, plain, give, plain), (6, 3))
count.same("the longer of two", stretch(take, give, plain, take, plain, give), (6, 2))
count.same("one word within another", stretch(take, (0x20, 0xB0), plain, (0x30, 0xB0), plain, give), (6, 5))
count.same("no lock", stretch(plain, swap, release, release), (4, 0))
count.same("a lock that is not given back", stretch(take, plain), (2, 0))

# ---- files

SOURCES = {
    "low/src/lib.rt": "pub fn matches() {}\n",
    "low/src/tables.rt": "pub struct Tables {\n}\n\nimpl Tables {\n    pub fn new() {}\n}\n",
    "low/src/search.rt": "impl<'a, T: Into<Vec<u8>>> Tables<T>\nwhere\n    T: Drop,\n{\n    pub(crate) fn search(&self) {}\n}\n\nfn any() {}\n",
    "low/src/deep/gate.rt": "impl<N: Names> Gate for &Relief<N> {\n    fn answered(&self) {}\n}\n",
    "app/src/main.rt": "fn main() {}\n",
}
FILES = {
    "low::tables::Tables::new": "low/src/tables.rt",
    "low::tables::Tables::search::<#8effd346bf6f8cb3>": "low/src/search.rt",  # a method in another file than its type
    "low::tables::fn::Tables::search::map_err+2": "low/src/search.rt",  # a closure in it
    "low::search::fn::any::find::<'low::tables::Tables>": "low/src/search.rt",
    "low::deep::gate::ReliefGate::answered": "low/src/deep/gate.rt",  # a method of a trait
    "low::matches": "low/src/lib.rt",
    "app::main": "app/src/main.rt",
    "low::tables::TablesPartialEq::eq": None,  # derived
    "low::low++tables++Tables+Destruct::drop": None,
    "low::search::fn::any::find+FnMut::call_mut": None,
    "core::slice::sort::short::sort": None,
    "main": None,
}
with tempfile.TemporaryDirectory() as folder:
    walk.top = pathlib.Path(folder)
    for name, text in SOURCES.items():
        path = walk.top / "crates" / name
        path.parent.mkdir(parents=True, exist_ok=True)
        path.write_text(text)
    count.same("files", {name: walk.file_of(name) for name in FILES}, FILES)

# ---- walks

A, B, C, D = (("one.rt", "a"), ("one.rt", "b"), ("two.rt", "c"), ("two.rt", "d"))
count.same("a row", walk.row("it", [A, B, C, A, D]).split(), ["it", "5", "2", "3"])
count.same("an empty row", walk.row("it", []).split(), ["it", "0", "0", "0"])
count.same("what a walk has more", walk.more_of([A, B, C, D], [A, D]), [B, C])
count.same("what is like what follows", walk.more_of([A, B, A, B, C], [A, B, C]), [A, B])
count.same("a walk without another", walk.without([A, B, C, A, B, D, A], [A, B]), [C, D, A])
count.same("a walk without nothing", walk.without([A, B], []), [A, B])
try:
    count.same("another walk", walk.more_of([A, B, C], [A, D]), "refused")
except walk.Failed:
    count.same("another walk", "refused", "refused")
count.end()
