"""What a program executes, in order: the trace that valgrind's tool lackey writes, cut into pieces, and the names of functions of the program's file.

Needs valgrind alone, on a processor whose programs are ELF of 64 bits.
"""
import pathlib
import re
import shutil
import struct
import subprocess
import time

PATIENCE = 600  # seconds
QUIET = 0.2  # so many seconds without a further line, and with all threads asleep, are taken for the end of what was to be done

# each instruction, and each access of memory; or only where each run of instructions without a jump begins
INSTRUCTIONS, RUNS = "--trace-mem=yes", "--trace-superblocks=yes"
BLOCK = re.compile(rb"SB ([0-9a-f]+)")


class GaveUp(Exception):
    """What was to be traced did not come."""


class Program:
    """The file of a program: its functions by their addresses, and its bytes."""

    def __init__(self, path):
        self.path = pathlib.Path(path).resolve()
        self.data = self.path.read_bytes()
        if self.data[:5] != b"\x7fELF\x02":
            raise GaveUp(f"{path} is no ELF file of 64 bits")
        self.sections = self.read_sections()
        self.functions = self.read_functions()

    def read_sections(self):
        """The kind, the address, the place, the size and the link of each section."""
        offset, size, count = struct.unpack_from("<Q", self.data, 0x28)[0], *struct.unpack_from("<HH", self.data, 0x3A)
        heads = [struct.unpack_from("<IIQQQQI", self.data, offset + at * size) for at in range(count)]
        return [(kind, address, place, length, link) for _, kind, _, address, place, length, link in heads]

    def read_functions(self):
        """The names of the symbol table (kind 2) that are those of functions (type 2)."""
        found = {}
        for kind, _, place, length, link in self.sections:
            if kind == 2:
                names = self.sections[link][2]
                for at in range(place, place + length, 24):
                    name, info, _, section, value, _ = struct.unpack_from("<IBBHQQ", self.data, at)
                    if info & 15 == 2 and section:
                        begin = names + name
                        found[value] = self.data[begin : self.data.index(b"\0", begin)].decode(errors="replace")
        return found

    def bytes_at(self, address, count):
        """The bytes that stand at an address of the file; none where it has none there."""
        for kind, first, place, length, _ in self.sections:
            if kind == 1 and first and first <= address < first + length:
                return self.data[place + address - first :][:count]
        return b""


class Traced:
    """A program that runs under lackey."""

    def __init__(self, kind, program, words, folder, **how):
        self.program = Program(program)
        self.path = pathlib.Path(folder) / "trace"
        tool = [shutil.which("valgrind"), "--tool=lackey", "--basic-counts=no", "--vex-guest-chase=no", kind, f"--log-file={self.path}"]
        self.child = subprocess.Popen([*tool, str(self.program.path), *map(str, words)], **how)
        self.base = None

    def __enter__(self):
        return self

    def __exit__(self, *_):
        self.child.kill()
        self.child.wait()

    def is_asleep(self):
        """Whether none of its threads runs."""
        tasks = pathlib.Path(f"/proc/{self.child.pid}/task").glob("*/stat")
        return {task.read_text().rpartition(")")[2].split()[0] for task in tasks} == {"S"}

    def size(self):
        return self.path.stat().st_size if self.path.exists() else 0

    def settled(self):
        """Waits until it has done all that it had to do: the length of the trace."""
        end, before, since = time.monotonic() + PATIENCE, -1, 0.0
        while time.monotonic() < end:
            if self.child.poll() is not None:
                raise GaveUp(f"{self.program.path.name} has ended: {self.child.returncode}")
            now = self.size()
            if now != before or not self.is_asleep():
                before, since = now, time.monotonic()
            elif time.monotonic() - since > QUIET:
                return now
            time.sleep(0.02)
        raise GaveUp(f"{self.program.path.name} does not come to rest")

    def since(self, begin):
        """What it has written since then, up to where it rests."""
        end = self.settled()
        with self.path.open("rb") as trace:
            trace.seek(begin)
            return trace.read(end - begin).splitlines()

    def idle(self):
        """The lines that it writes by itself, as the daemon does each second, when it looks at the clock."""
        begin = self.settled()
        while self.size() == begin and self.child.poll() is None:
            time.sleep(0.01)
        return self.since(begin)

    def piece(self, act):
        """The lines that it writes while this is done."""
        begin = self.settled()
        act()
        return self.since(begin)

    def place(self):
        """What is to be taken off an address of the trace, so that it is one of the file."""
        if self.base is None:
            maps = pathlib.Path(f"/proc/{self.child.pid}/maps").read_text()
            self.base = min(int(line.partition("-")[0], 16) for line in maps.splitlines() if line.endswith(str(self.program.path)))
        return self.base

    def calls(self, lines):
        """The names of the program's functions that these lines begin, in order."""
        blocks = [int(found[1], 16) - self.place() for found in map(BLOCK.match, lines) if found]
        return [self.program.functions[at] for at in blocks if at in self.program.functions]
