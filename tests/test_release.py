#!/usr/bin/env python3
"""What `make release` hands out: the same bytes twice, used in an empty Debian without the toolchain, by its package and in a container.

The empty Debian is a folder with the essential packages of this machine (bare.py). The image is made over the same one.
"""
import os
import pathlib
import re
import shutil
import tempfile
import textwrap
import time

import bare
from counted import Counted
from programs import LIMIT, built, lacks, ran, there, top, version

count = Counted()
NUMBER = "0.2.0"
OCI = top / "packaging" / "oci"

# From nothing to a first key, in a shell.
FIRST_KEY = """
set -e
room=$(mktemp -d)
echo 'create user debug:* * |/bin/cat' > "$room/conf"
reqkeyd serve --socket "$room/socket" --conf "$room/conf" --clients 2 2> "$room/log" &
until grep -qs ready "$room/log"; do sleep 0.01; done
key=$(reqkeyctl --socket "$room/socket" --uid 1000 request user debug:a user hello)
reqkeyctl --socket "$room/socket" --uid 1000 read "$key"
wait $!
"""

# In the place of systemd, of which there is none in an empty Debian: it notes what it is asked, and a stop ends the daemon.
SYSTEMCTL = """#!/bin/sh
echo "$*" >> /systemctl
case "$*" in
--version*) echo "systemd 252 (252.1)" ;;
*list-units*) echo "user@1000.service" ;;
"stop "*) kill "$(cat /daemon)" ;;
esac
"""


def make(*words):
    return ran("make", "-s", "-C", top, *map(str, words), text=True)


def names(architecture):
    return [f"reqkey-{NUMBER}-{architecture}.tar.gz", f"reqkeyd-dbgsym_{NUMBER}_{architecture}.deb", f"reqkeyd_{NUMBER}_{architecture}.deb"]


def released(ready, room):
    """Makes the release twice, of two copies of the programs, from two folders of sources; gives one."""
    both = []
    architecture = ran("dpkg", "--print-architecture", text=True)[1].strip()
    for at in ["one", "two"]:
        folder = room / at
        folder.mkdir()
        for program in ready:
            shutil.copy(program, folder)
        sources = top
        if at == "two":
            sources = room / "sources"
            shutil.copytree(top, sources, ignore=shutil.ignore_patterns(".git", "out", "build"))
        status, output, errors = ran("make", "-s", "-C", sources, "release", f"BUILT={folder}", f"RELEASE={folder}/release", text=True,
                                     env={**os.environ, "SOURCE_DATE_EPOCH": "1790000000"})
        count.same(f"make release, {at}", (status, output.split(), errors), (0, ["SHA256SUMS", *names(architecture)], ""))
        both.append({path.name: path.read_bytes() for path in (folder / "release").iterdir()})
    count.same("the same bytes", [name for name in both[0] if both[0][name] != both[1].get(name)], [])
    release = room / "one" / "release"
    count.same("SHA256SUMS", ran("sha256sum", "-c", "--quiet", "SHA256SUMS", cwd=release, text=True), (0, "", ""))
    return [release / name for name in names(architecture)]


def symbols(package, debug, room):
    """The programs have no symbols, and the second package has those of each."""
    for name, it in {"plain": package, "debug": debug}.items():
        ran("dpkg-deb", "--extract", it, room / name, check=True)
    programs = [path for path in (room / "plain" / "usr").rglob("*") if path.is_file() and not path.is_symlink() and path.read_bytes()[:4] == b"\x7fELF"]
    count.same("programs with symbols", [path.name for path in programs if ".symtab" in ran("readelf", "-SW", path, text=True)[1]], [])
    ids = {re.search("Build ID: (.*)", ran("readelf", "-n", path, text=True)[1])[1] for path in programs}
    files = list((room / "debug").rglob("*.debug"))
    count.same("their symbols", ({f"{path.parent.name}{path.stem}" for path in files}, len(programs)), (ids, len(files)))
    found = [path.name for path in files if ".symtab" not in ran("readelf", "-SW", path, text=True)[1]]
    count.same("files of symbols without any", found, [])


def faults(packages):
    """What lintian finds wrong, in its own words."""
    if not lacks("the packages by lintian", "lintian"):
        found = ran("lintian", "--allow-root", "--fail-on", "error", "--tag-display-limit", "0", *packages, text=True)
        count.same("lintian", (found[0], [line for line in found[1].splitlines() if line.startswith("E:")]), (0, []))


def unpacked(root, archive):
    """Unpack, run, first key; and what is installed by unpacking."""
    shutil.copy(archive, root / "tmp")
    count.same("no toolchain in the empty Debian", bare.inside(root, "sh", "-c", "command -v rt gcc python3")[:2], (127, ""))
    status, output, errors = bare.inside(root, "sh", "-c", f"cd /tmp && tar xzf {archive.name} && cd {archive.name[:-7]} && PATH=$PWD/bin:$PATH && {FIRST_KEY}")
    count.same("the first key of the archive", (status, output, errors), (0, "hello\n", ""))
    installed = bare.inside(root, "sh", "-c", f"tar xzf /tmp/{archive.name} -C /usr/local --strip-components=1 && reqkeyctl --version")
    count.same("unpacked below /usr/local", installed, (0, f"reqkeyctl {version()}\n", ""))
    bare.inside(root, "sh", "-c", "rm -rf /usr/local /tmp/* && mkdir -p /usr/local/bin")


def installed(root, package):
    """The package is installed and used; an upgrade lets the daemon run, and a removal ends it."""
    shutil.copy(package, root / "tmp")
    quiet = ["-q", "-o", "Dpkg::Use-Pty=0", "-y"]
    status, output, errors = bare.inside(root, "apt-get", "install", *quiet, f"/tmp/{package.name}")
    count.same("apt-get install", (status, "Setting up reqkeyd" in output, "rror" in errors), (0, True, False))
    count.same("the first key of the package", bare.inside(root, "sh", "-c", FIRST_KEY), (0, "hello\n", ""))
    asked = 'create dns * * /usr/lib/reqkeyd/handlers/addresses %k %d 300'
    by_it = FIRST_KEY.replace("create user debug:* * |/bin/cat", asked).replace("user debug:a user hello", "dns 127.0.0.1 user ''")
    found = bare.inside(root, "sh", "-c", by_it)
    count.same("a handler of the package", found, (0, "127.0.0.1\n\n", ""))
    (root / "run" / "systemd" / "system").mkdir(parents=True)
    (root / "usr" / "bin" / "systemctl").write_text(SYSTEMCTL)
    (root / "usr" / "bin" / "systemctl").chmod(0o755)
    serves = "reqkeyd serve --socket /tmp/socket --conf /dev/null 2> /log & echo $! > /daemon; until grep -qs ready /log; do sleep 0.01; done"
    lives = 'kill -0 "$(cat /daemon)" 2> /dev/null'
    upgrades, removes = f"dpkg -i /tmp/{package.name} > /out 2>&1", f"apt-get remove {' '.join(quiet)} reqkeyd >> /out 2>&1"
    script = f"{serves}; {upgrades}; {lives}; echo $?; {removes}; echo $?; wait; {lives}; echo $?"
    count.same("an upgrade, a removal, and the daemon after each", bare.inside(root, "sh", "-c", script), (0, "0\n0\n1\n", ""))
    stops = [line for line in (root / "systemctl").read_text().splitlines() if " stop " in f" {line}"]
    count.same("what is stopped", stops, ["stop reqkeyd-sweep@*.timer reqkey-door.socket reqkeyd.service reqkeyd-sweep@*.service reqkey-door.service",
                                          "--quiet --user --machine 1000@ stop reqkeyd-sweep.timer reqkeyd.service reqkeyd-sweep.service"])
    left = [str(path.relative_to(root)) for folder in ["usr", "etc", "run"] for path in (root / folder).rglob("*reqkey*")]
    count.same("what a removal leaves", left, [])


class Podman:
    """podman with a store of its own."""

    def __init__(self, room):
        self.room = room
        (room / "containers.conf").write_text('[containers]\ndefault_ulimits = ["nofile=1024:1024", "nproc=1024:1024"]\n')
        self.environment = {**os.environ, "CONTAINERS_CONF": str(room / "containers.conf")}
        over = next(path for path in map(lambda it: shutil.which(it, path="/usr/bin:/usr/sbin"), ["runc", "crun"]) if path)
        self.words = ["podman", "--root", room / "root", "--runroot", room / "run", "--tmpdir", room / "tmp", "--storage-driver", "vfs", "--cgroup-manager",
                      "cgroupfs", "--events-backend", "file", "--log-level", "error", "--runtime", over]

    def run(self, *words, **more):
        return ran(*self.words, *words, text=True, env=self.environment, **more)

    def ends(self):
        """Takes away what it has mounted and stored."""
        self.run("pod", "rm", "-fa", "-t", "0")
        self.run("system", "reset", "-f")
        for line in [line for line in pathlib.Path("/proc/mounts").read_text().splitlines() if f" {self.room}/" in line]:
            ran("umount", line.split()[1])


def image(podman, root, release):
    """The image of the Containerfile over an empty Debian; how many bytes it has more than that."""
    for path in ["daemon", "log", "out", "systemctl", "tmp", "usr/bin/systemctl"]:
        ran("rm", "-rf", root / path)
    (root / "tmp").mkdir(mode=0o1777)
    with tempfile.TemporaryFile() as packed:
        ran("tar", "-C", root, "-cf", "-", ".", stdout=packed)
        packed.seek(0)
        status, _, errors = podman.run("import", "-q", "-", "localhost/debian", stdin=packed)
    if status == 0:
        words = ["--layers=false", "--isolation", "chroot", "-q", "--build-arg", "BASE=localhost/debian", "-t", "localhost/reqkeyd"]
        status, _, errors = podman.run("build", *words, "-f", OCI / "Containerfile", release)
    if status:
        return print(f"the image: not tried, podman makes none here: {errors.strip()[-200:]}")
    base, ours = [int(podman.run("image", "inspect", "-f", "{{.Size}}", name)[1]) for name in ["localhost/debian", "localhost/reqkeyd"]]
    count.same("the image has at most 4 MB more than Debian's", 0 < ours - base <= 4_000_000, True)
    return ours - base


def pods(podman, room):
    """pod.yaml, and what daemonset.yaml has each machine run, as a pod: in both a container has the service of another."""
    text = (OCI / "daemonset.yaml").read_text()
    template = textwrap.dedent(text.partition("  template:\n")[2]).replace("path: /run/reqkeyd, type", f"path: {room}/folder, type")
    (room / "as-pod.yaml").write_text(f"{text.partition('---')[0]}---\napiVersion: v1\nkind: Pod\n{template}")
    ask = ["reqkeyctl", "--uid", "1000", "request", "user", "debug:a", "user", "hello"]
    for name, file, container in [("pod.yaml", OCI / "pod.yaml", "keys-app"), ("daemonset.yaml", room / "as-pod.yaml", "reqkeyd-reqkeyd")]:
        status, output, errors = podman.run("kube", "play", "--network", "none", file)
        if status:
            print(f"{name}: not tried, podman starts no pod here: {(errors or output).strip()[-200:]}")
            continue
        until_end, got = time.monotonic() + LIMIT, (1, "", "")
        while got[0] and time.monotonic() < until_end:
            got = podman.run("exec", container, *ask)
        count.same(f"{name}: a key", got, (0, "12\n", ""))
        count.same(f"{name}: its payload", podman.run("exec", container, "reqkeyctl", "--uid", "1000", "read", "12"), (0, "hello\n", ""))
        podman.run("pod", "rm", "-fa", "-t", "0")


def main():
    ready = list(there(count, [built(name)[0] for name in ["reqkeyd", "reqkeyctl"]]))
    if len(ready) == 2 and not lacks("the release", "make", "gcc", "dpkg-deb", "readelf", "objcopy"):
        with tempfile.TemporaryDirectory(prefix="release-") as folder:
            room = pathlib.Path(folder)
            archive, debug, package = released(ready, room)
            symbols(package, debug, room)
            faults([package, debug])
            if os.geteuid() == 0 and not bare.lacks_it("an empty Debian"):
                root = room / "debian"
                bare.makes(root, "apt")
                unpacked(root, archive)
                installed(root, package)
                if not lacks("the image", "podman"):
                    podman = Podman(room)
                    if image(podman, root, package.parent):
                        pods(podman, room)
                    podman.ends()
    count.end()


main()
