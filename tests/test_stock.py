#!/usr/bin/env python3
"""Debian's own programs on the daemon, unmodified, by the library and by reqkey-trap: the handlers request-key, with its own request-key.conf,
key.dns_resolver, nfsidmap, and cifs.upcall with a local KDC; and the clients python3-keyutils, kinit with a cache that is a file, systemd-ask-password,
cifscreds and e4crypt. Each is tried where its package is here."""
import os
import pathlib
import re
import shutil
import socket
import subprocess
import tempfile

import protocol_peer as peer
import trap
from compiled import made
from counted import Counted
from daemon import Daemon, until
from keyutils_library import Programs, available, resolves
from programs import lacks, ran, there, top

count = Counted()
SYSTEM = "/usr/sbin:/sbin:/usr/bin:/bin"
BINDINGS = top / "tests" / "clients" / "bindings.py"
BOUND = ["b'v' True True", "True None", f"None b'keyring;{os.geteuid()};-1;3f000000;_ses'", "None None None None",
         *["Key has been revoked"] * 2, *["Operation not supported"] * 4, "True True None"]

# A handler in a trap, where all handlers have the library, too: what it gets, and what it has of the library's variables.
BOTH = """#!/bin/sh
keyctl instantiate $1 "$(keyctl print @a), <$LD_PRELOAD$REQKEYD_STREAMS>" @s
"""

# request-key is called as the kernel calls it; it finds the handler in /etc/request-key.conf.
LINES = """create id_resolver * * %way{nfsidmap} -t 600 %k %d
create cifs.spnego * * %way{cifs.upcall} -k %kdc/krb5.conf %k
create * * * %way{request-key} create %k %u %g 0 0 0
"""

# What a machine's stock configuration makes of requests: a name, a callout, and the payload or the error.
REQUESTS = [
    ("debug:stock", "hello", "Debug hello"), ("debug:loop:stock", "looped", "looped"), ("debug:none", "negate", "Required key not available"),
    ("debug:rejected", "rejected", "Key was rejected by service"), ("debug:expired", "expired", "Key has expired"),
    ("other:none", "x", "Required key not available"),
]


def stock(way, run):
    """Requests that the stock configuration answers."""
    for name, callout, want in REQUESTS:
        status, key, errors = run("keyctl", "request2", "user", name, callout, "@s")
        got = run("keyctl", "print", key.strip())[1].strip() if status == 0 else errors.strip().partition(": ")[2]
        count.same(f"request-key by {way}: {name}", got, want)


def maps(way, run):
    """Users and groups of this machine, by nfsidmap."""
    if not shutil.which("nfsidmap", path=SYSTEM):
        print("nfsidmap: not tried, it is not here")
        return
    domain = ran(shutil.which("nfsidmap", path=SYSTEM), "-d", text=True)[1].strip()
    if not domain:
        print("nfsidmap: not tried, it says no domain")
        return
    for name, want in [("user:0", f"root@{domain}"), ("group:0", f"root@{domain}")]:
        key = run("keyctl", "request2", "id_resolver", name, "", "@s")[1].strip()
        count.same(f"nfsidmap by {way}: {name}", run("keyctl", "print", key), (0, f"{want}\n", ""))


REALM = """[libdefaults]
 default_realm = KEYS.TEST
 default_ccache_name = FILE:%room/cache
 dns_lookup_kdc = false
 dns_canonicalize_hostname = false
 rdns = false
[realms]
 KEYS.TEST = {
  kdc = 127.0.0.1:%port
 }
[domain_realm]
 server = KEYS.TEST
"""
CENTER = """[kdcdefaults]
 kdc_listen = 127.0.0.1:%port
 kdc_tcp_listen = 127.0.0.1:%port
[realms]
 KEYS.TEST = {
  database_name = %room/principal
  key_stash_file = %room/stash
  acl_file = %room/acl
 }
"""


class Center:
    """A KDC of this test's own, with a user who has a ticket, and a server's key; `there` is whether it could be made."""

    def __init__(self, room):
        self.room, self.process = room, None
        room.mkdir()
        with socket.socket() as free:
            free.bind(("127.0.0.1", 0))
            port = str(free.getsockname()[1])
        for name, text in [("krb5.conf", REALM), ("kdc.conf", CENTER)]:
            (room / name).write_text(text.replace("%port", port).replace("%room", str(room)))
        self.environment = {**os.environ, "PATH": SYSTEM, "KRB5_CONFIG": str(room / "krb5.conf"), "KRB5_KDC_PROFILE": str(room / "kdc.conf")}
        lacking = [name for name in ["krb5kdc", "kdb5_util", "kadmin.local", "kinit", "cifs.upcall"] if not shutil.which(name, path=SYSTEM)]
        self.there = not lacking and os.geteuid() == 0 and self.begins()
        if not self.there:
            print(f"cifs.upcall: not tried, there is no {lacking[0]}" if lacking else "cifs.upcall: not tried, there is no KDC to be had")

    def does(self, *words, piped=""):
        return ran(*words, input=piped, text=True, env=self.environment)[0] == 0

    def begins(self):
        steps = [["kdb5_util", "create", "-s", "-r", "KEYS.TEST", "-P", "master"],
                 ["kadmin.local", "-q", "addprinc -pw secret user"], ["kadmin.local", "-q", "addprinc -randkey cifs/server"]]
        if not all(self.does(*words) for words in steps):
            return False
        quiet = {"stdin": subprocess.DEVNULL, "stdout": subprocess.DEVNULL, "stderr": subprocess.DEVNULL}
        self.process = subprocess.Popen(["krb5kdc", "-n"], env=self.environment, **quiet)
        return until(lambda: self.process.poll() is not None or self.does("kinit", "user", piped="secret\n"), "a ticket") and self.process.poll() is None

    def end(self):
        if self.process is not None:
            self.process.kill()
            self.process.wait()

    def upcalls(self, way, run, daemon):
        """The blob with which a client begins a session at a server: the kernel's alone to read, and not a program's."""
        if not self.there:
            return
        name = f"ver=0x2;host=server;ip4=127.0.0.1;sec=krb5;uid=0x0;creduid=0x0;user=user;pid=0x{os.getpid():x}"
        status, key, errors = run("keyctl", "request2", "cifs.spnego", name, "", "@s")
        count.same(f"cifs.upcall by {way}", (status, errors), (0, ""))
        count.same(f"cifs.upcall by {way}: a program reads", run("keyctl", "read", key.strip())[0], 1)
        ring = int(run("keyctl", "id", "@s")[1])
        payload = daemon.client(0, join=ring).ask(peer.on_key(7, int(key or 0)))
        count.same(f"cifs.upcall by {way}: the ticket", len(payload) > 400, True)


    def caches(self, way, run):
        """A ticket in a cache of its user's, as docs/PROGRAMS.md says it for a container; one among the keys needs rings in rings."""
        if not self.there:
            return
        told = re.search(r"^ default_ccache_name = .*", (top / "docs" / "PROGRAMS.md").read_text(), re.MULTILINE)[0]
        for line, want in [(told.replace("/tmp/", f"{self.room}/"), (0, "FILE:")), (" default_ccache_name = KEYRING:session:keys", (1, ""))]:
            (self.room / "its.conf").write_text(re.sub("^ default_ccache_name.*$", line, (self.room / "krb5.conf").read_text(), flags=re.MULTILINE))
            script = f"export KRB5_CONFIG={self.room}/its.conf; echo secret | kinit user > /dev/null && kvno cifs/server > /dev/null && klist"
            status, output, errors = run("sh", "-c", script)
            cache = output.partition("cache: ")[2][:5]
            count.same(f"kinit by {way}: {line}", (status, cache, "Operation not supported" in errors), (*want, status != 0))


def asks(run):
    """systemd-ask-password, which makes the calls itself: what it was told before, and what it is told at a terminal."""
    if lacks("systemd-ask-password", "systemd-ask-password", "script"):
        return
    run("sh", "-c", "printf 'secret\\0' | keyctl padd user asked @u")
    got = run("systemd-ask-password", "--keyname=asked", "--accept-cached", "Prompt")
    count.same("systemd-ask-password by the trap: what it knows", (got[0], got[1].strip()), (0, "secret"))
    run("sh", "-c", "echo typed | script -qec 'systemd-ask-password --keyname=told Prompt' /dev/null")
    count.same("systemd-ask-password by the trap: what it is told", run("sh", "-c", "keyctl pipe %user:told | tr -d '\\0'")[:2], (0, "typed"))


# What cifscreds does with its key, whose name is that of an address.
STASHES = """echo secret | cifscreds add -u joe 127.0.0.1 && keyctl search @s logon cifs:a:127.0.0.1 > /dev/null && echo added
echo other | cifscreds update -u joe 127.0.0.1 && cifscreds clear -u joe 127.0.0.1 && keyctl search @s logon cifs:a:127.0.0.1"""


def stashes(run):
    """Programs that give the kernel keys: cifscreds, for its CIFS, and e4crypt, for its ext4. They say that it is not done."""
    for name, script in [("cifscreds", "echo secret | cifscreds add -u joe 127.0.0.1"), ("e4crypt", "printf 'a\\na\\n' | e4crypt add_key -S 0x01")]:
        if not lacks(name, name, path=SYSTEM):
            _, output, errors = run("sh", "-c", f"PATH={SYSTEM}; {script}")
            told = [part in output + errors for part in ["Operation not supported", "Added key"]]
            count.same(f"{name} in a trap", told, [True, False])


def leaves(program, socket):
    """cifscreds with its type left to the kernel."""
    if lacks("cifscreds", "cifscreds") or ran("keyctl", "session", "-", "keyctl", "add", "logon", "a:b", "v", "@s")[0]:
        print("cifscreds with the kernel's keys: not tried, it is not here, or has none")
        return
    words = ["keyctl", "session", "-", program, "--kernel", "logon", "--socket", socket, "--", "sh", "-c", STASHES]
    status, output, errors = ran(*words, text=True, env=trap.environment())
    told = [line.split("Password: ")[-1] for line in errors.split("\n")[1:]]
    count.same("cifscreds with the kernel's keys", (status, output, told), (1, "added\n", ["keyctl_search: Required key not available", ""]))


def bindings(way, run):
    python = "/usr/bin/python3"
    if not os.path.exists("/usr/lib/python3/dist-packages/keyutils/__init__.py"):
        print("python3-keyutils: not tried, it is not here")
        return
    status, output, errors = run(python, str(BINDINGS))
    count.same(f"python3-keyutils by {way}", (status, output.split("\n")[:-1], errors), (0, BOUND, ""))


def tries(way, run, center, daemon):
    if shutil.which("request-key", path=SYSTEM) and os.path.exists("/etc/request-key.conf"):
        stock(way, run)
        resolves(count, way, run)
    else:
        print("request-key: not tried, it or its configuration is not here")
    maps(way, run)
    center.upcalls(way, run, daemon)
    center.caches(way, run)
    bindings(way, run)


def lines(way, center):
    """The configuration, whose handlers are started in this way."""
    return re.sub(r"%way\{(.*?)\}", lambda name: f"{way}{shutil.which(name[1], path=SYSTEM) or '/no/such/program'}", LINES).replace("%kdc", str(center.room))


def main():
    if not available():
        count.end()
    with tempfile.TemporaryDirectory(prefix="stock-") as folder:
        room = pathlib.Path(folder)
        library, program, center = made(count, "keyutils", room / "library"), made(count, "trap", room / "trap"), Center(room / "kdc")
        try:
            for daemon_program in there(count) if library and program else []:
                with Daemon(daemon_program, f"create user both:* * {program} --key %k %room/both %k\n" + lines("", center), "--keyutils", library) as daemon:
                    daemon.script("both", BOTH)
                    keys = Programs(daemon, library)
                    tries("the library", keys.run, center, daemon)
                    if trap.notifies():
                        key = keys.run("keyctl", "request2", "user", "both:a", "words", "@s")[1].strip()
                        count.same("a trap where all handlers have the library", keys.run("keyctl", "print", key), (0, "words, <>\n", ""))
                if not trap.notifies():
                    print("stock programs by reqkey-trap: not tried, this kernel has no seccomp with user notification")
                    continue
                with Daemon(daemon_program, lines(f"{program} --key %k ", center)) as daemon:
                    with trap.Inside(trap.Trap(program, daemon.path).words(), env=trap.environment()) as inside:
                        tries("the trap", inside.run, center, daemon)
                        asks(inside.run)
                        stashes(inside.run)
                    leaves(program, daemon.path)
        finally:
            center.end()
    count.end()


main()
