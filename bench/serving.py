"""Programs that were built, and servers that run."""
import pathlib
import re
import socket
import subprocess
import time

top = pathlib.Path(__file__).resolve().parent.parent
CONNECTIONS = ["1", "8", "64"]


class Wrong(Exception):
    """What can't be measured, and why."""


def built(name):
    """A program of the project: as `make` puts it into build/, or as the toolchain leaves it."""
    for path in (top / "build" / name, top / "crates" / name / "out" / name):
        if path.exists():
            return path
    raise Wrong(f"{name} is not built: make, make bench")


def peer(name):
    path = top / "build" / "c" / name
    if not path.exists():
        raise Wrong(f"build/c/{name} is not built: make -C bench")
    return path


class Server:
    """A server that runs, and its socket."""

    def __init__(self, words, path):
        self.words, self.path = words, path
        self.begin()

    def begin(self):
        """Starts it, and waits until it can be connected to."""
        self.child = subprocess.Popen([str(word) for word in self.words], stdout=subprocess.DEVNULL, stderr=subprocess.DEVNULL)
        for _ in range(1000):
            with socket.socket(socket.AF_UNIX) as tried:
                if self.child.poll() is None and tried.connect_ex(str(self.path)) == 0:
                    return
            time.sleep(0.01)
            if self.child.poll() is not None:
                raise Wrong(f"{self.words[0]} {self.words[1]} does not serve")
        self.end()
        raise Wrong(f"{self.words[0]} {self.words[1]} does not answer")

    def resident(self):
        """The KiB that it has in memory."""
        return int(re.search(r"VmRSS:\s+(\d+)", pathlib.Path(f"/proc/{self.child.pid}/status").read_text())[1])

    def resident_at_rest(self):
        """The same once that stays as it is for a tenth of a second: its threads begin after it can be connected to."""
        before = 0
        while (now := self.resident()) != before:
            before = now
            time.sleep(0.1)
        return now

    def end(self):
        self.child.kill()
        self.child.wait()

    def restart(self):
        """Ends it, and starts it anew."""
        self.end()
        self.path.unlink(missing_ok=True)
        self.begin()
