"""Further services that look up one thing for many who ask: `run.py serve` drives them in the same run, where this machine has them."""
import os
import shutil
import subprocess
from typing import NamedTuple

from serving import CONNECTIONS, Server, Wrong, peer, top


class Other(NamedTuple):
    """One of them, and how it is driven: by what, at which place, and in which way of bench/c/load.c."""

    name: str
    connections: list
    place: str
    way: str
    prefix: tuple = ()

    def load(self, connections, asks):
        return [*self.prefix, peer("load"), self.place, connections, asks, self.way]

    def answers(self):
        return subprocess.run([str(word) for word in self.load("1", "100")], capture_output=True).returncode == 0


def started(words, path, ends):
    """A server, which is ended with all others."""
    ends.callback(Server(words, path).end)
    return path


def redis(folder, _, ends):
    """A key's value, of a server that keeps nothing on a disk."""
    path = folder / "redis"
    words = ["redis-server", "--port", "0", "--unixsocket", path, "--dir", folder, "--save", "", "--appendonly", "no"]
    return Other("redis-server, GET", CONNECTIONS, started(words, path, ends), "redis")


def agent(folder, _, ends):
    """The list of keys, of which it has one."""
    path, key = folder / "agent", folder / "key"
    started(["ssh-agent", "-D", "-a", path], path, ends)
    for words in ["ssh-keygen", "-q", "-t", "ed25519", "-N", "", "-f", key], ["ssh-add", "-q", key]:
        ran = subprocess.run([str(word) for word in words], env={**os.environ, "SSH_AUTH_SOCK": str(path)}, capture_output=True, text=True)
        if ran.returncode:
            raise Wrong(f"{words[0]}: {ran.stderr.strip()[:200]}")
    return Other("ssh-agent, list of keys", CONNECTIONS, path, "agent")


def kernel(*_):
    """A key of the kernel's own, by the system call."""
    return Other("the kernel, request_key", CONNECTIONS[:1], "-", "calls")


def library(_, daemon, __):
    """A key of the daemon, by keyctl_read of the library."""
    path = top / "build" / "libkeyutils.so.1"
    if daemon is None or not path.exists():
        raise Wrong("it or the daemon is not built: make, make -C clients/keyutils")
    return Other("the library, keyctl_read", CONNECTIONS[:1], path, "calls", ("env", f"REQKEYD_SOCKET={daemon.path}"))


# each with the programs that it needs
OTHERS = {redis: ["redis-server"], agent: ["ssh-agent", "ssh-add", "ssh-keygen"], kernel: [], library: []}


def others_of(folder, daemon, ends):
    """Those that this machine has. What is left out is printed, with what is lacking."""
    found = []
    for make, needed in OTHERS.items():
        try:
            if lacking := [name for name in needed if not shutil.which(name)]:
                raise Wrong(f"there is no {lacking[0]}")
            other = make(folder, daemon, ends)
            if not other.answers():
                raise Wrong("it does not answer here")
            found.append(other)
        except Wrong as wrong:
            print(f"{make.__name__}: left out, {wrong}\n")
    return found
