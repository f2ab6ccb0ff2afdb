"""The library of clients/keyutils/, and keyutils' programs on a daemon by it."""
import os
import pathlib
import re
import shutil
import tempfile

from compiled import made_twice
from packages import has
from programs import lacks, ran, there

UID = os.geteuid()
ENVIRONMENT = {"ASAN_OPTIONS": "detect_leaks=0"}  # programs that end don't give all their memory back


def available():
    """Whether there are a compiler and keyutils, or keyutils could be installed."""
    return has("clients/keyutils", ["keyctl"], ["keyutils"]) and not lacks("clients/keyutils", "gcc", "make")


class Programs:
    """A daemon, a client that holds a session ring, and programs in that ring."""

    def __init__(self, daemon, library, *before):
        self.daemon, self.library, self.before = daemon, library, ":".join(map(str, before))
        self.holder = daemon.client(UID)
        self.session = self.holder.rings[2]
        self.environment = {
            **os.environ, "LD_PRELOAD": ":".join(map(str, [*before, library])), "REQKEYD_SOCKET": str(daemon.path), "REQKEYD_JOIN": str(self.session),
            "SHELL": "/bin/true", **ENVIRONMENT,
        }
        self.environment.pop("REQKEYD_STREAMS", None)

    def run(self, *words, **changes):
        """The status, output and errors of a program."""
        environment = {name: value for name, value in {**self.environment, **changes}.items() if value is not None}
        return ran(*words, input="piped", text=True, env=environment)


def everywhere(count):
    """Each daemon with the library as it is installed, and with one that ends at a wrong access to memory; and what has to be loaded before that."""
    if available():
        with tempfile.TemporaryDirectory(prefix="keyutils-") as folder:
            checked = ran("gcc", "-print-file-name=libasan.so", text=True)[1].strip()
            libraries = [it for it in zip(made_twice(count, "keyutils", pathlib.Path(folder)), [[], [checked]]) if it[0] is not None]
            for program in there(count):
                for library, before in libraries:
                    yield program, library, before


def resolves(count, way, run):
    """key.dns_resolver for a name of /etc/hosts, and whether that could be tried."""
    hosts = re.findall(r"^(\d+\.\d+\.\d+\.\d+)\s+(\S+)", pathlib.Path("/etc/hosts").read_text(), re.MULTILINE)
    if not hosts or not shutil.which("key.dns_resolver", path="/sbin:/usr/sbin"):
        print("key.dns_resolver: not tried, there is no name in /etc/hosts, or no such program")
        return False
    address, name = hosts[0]
    status, key, errors = run("keyctl", "request2", "dns_resolver", name, "ipv4", "@s")
    count.same(f"key.dns_resolver by {way}", (status, errors), (0, ""))
    count.same(f"key.dns_resolver by {way}: the address", run("keyctl", "pipe", key.strip()), (0, f"{address}\0", ""))
    return True
