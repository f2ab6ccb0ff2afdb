#!/usr/bin/env python3
"""Containers with a key service of their own, by reqkey-trap and the runtimes that are here: crun, runc, and podman over one of these. Each container has its
own rings, what is started in it later finds them, and keyutils' own programs run in it unmodified.

A container sees this machine's /usr, so no image is needed. What needs a program or a right that is not there is not tried, and says so.
"""
import json
import os
import pathlib
import re
import shutil
import tempfile

from compiled import made
from counted import Counted
from daemon import Daemon, until
from programs import LIMIT, PROGRAMS, lacks, ran, started, there, top
from trap import Listening, Trap, environment, notifies

count = Counted()
CALLS = ["add_key", "request_key", "keyctl"]
PATH = "PATH=/usr/sbin:/usr/bin:/sbin:/bin"
RUNTIMES, PLACES = ["crun", "runc"], "/usr/bin:/usr/sbin:/usr/local/bin"

# A user without rights, and what starts words as this one.
USER = 1000
AS_USER = ["setpriv", f"--reuid={USER}", f"--regid={USER}", "--clear-groups"]

# What a container does until it gets the word to end.
WAITS = "keyctl add user k mine @u > /dev/null; touch /tmp/ready; while [ ! -e /tmp/end ]; do sleep 0.05; done; keyctl print %user:later"


def profile(listener):
    """The filter of a container, as its runtime takes it."""
    return {
        "defaultAction": "SCMP_ACT_ALLOW", "architectures": ["SCMP_ARCH_X86_64", "SCMP_ARCH_X86", "SCMP_ARCH_X32"], "listenerPath": str(listener),
        "syscalls": [{"names": CALLS, "action": "SCMP_ACT_NOTIFY"}],
    }


def hardened(listener):
    """podman's own profile, with the three calls for the listener; the one above where that is not here."""
    stock = pathlib.Path("/usr/share/containers/seccomp.json")
    if not stock.exists():
        return profile(listener)
    own = json.loads(stock.read_text())
    others = [{**rule, "names": [name for name in rule["names"] if name not in CALLS]} for rule in own["syscalls"]]
    return {**own, "listenerPath": str(listener), "syscalls": [*(rule for rule in others if rule["names"]), {"names": CALLS, "action": "SCMP_ACT_NOTIFY"}]}


class Container:
    """A folder with the root of a container; `start` runs words in it."""

    def __init__(self, room, name, listener):
        self.room, self.name, self.listener = room / name, f"{room.name}-{name}", listener
        self.root = self.room / "rootfs"
        for folder in ["proc", "dev", "usr", "tmp", "sys", "etc"]:
            (self.root / folder).mkdir(parents=True)
        for link in ["bin", "sbin", "lib", "lib64"]:
            if os.path.islink(f"/{link}"):
                (self.root / link).symlink_to(f"usr/{link}")

    def write(self, *words, filtered=True, mapped=False):
        """The container's configuration, for these words; with a filter or without, and in a user namespace or not."""
        mounts = [
            {"destination": "/proc", "type": "proc", "source": "proc"},
            {"destination": "/dev", "type": "tmpfs", "source": "tmpfs", "options": ["nosuid", "mode=755", "size=65536k"]},
            {"destination": "/usr", "type": "bind", "source": "/usr", "options": ["bind", "ro"]},
        ]
        process = {"terminal": False, "user": {"uid": 0, "gid": 0}, "args": list(words), "env": [PATH], "cwd": "/", "noNewPrivileges": True}
        namespaces = [{"type": kind} for kind in ["pid", "network", "ipc", "uts", "mount", *(["user"] if mapped else [])]]
        linux = {"namespaces": namespaces, **({"seccomp": profile(self.listener)} if filtered else {})}
        if mapped:
            linux.update({f"{kind}Mappings": [{"containerID": 0, "hostID": USER, "size": 1}] for kind in ["uid", "gid"]})
        config = {"ociVersion": "1.0.0", "process": process, "root": {"path": "rootfs", "readonly": False}, "mounts": mounts, "linux": linux}
        (self.room / "config.json").write_text(json.dumps(config))


def wrapped(*words):
    """A runtime's words, on a machine with both versions of cgroups, too, where it sees version 2 alone."""
    if not os.path.isdir("/sys/fs/cgroup/unified"):
        return list(words)
    return ["unshare", "-m", "sh", "-c", 'mount --make-rprivate / && mount --bind /sys/fs/cgroup/unified /sys/fs/cgroup && exec "$@"', "sh", *words]


class Runtime:
    """crun or runc."""

    def __init__(self, name, state):
        self.name, self.state = name, state
        self.words = [shutil.which(name, path=PLACES), "--root", str(state), *(["--cgroup-manager=disabled"] if name == "crun" else [])]

    def made(self, container, *words):
        """What makes a container, and runs words in it."""
        container.write(*words)
        return wrapped(*self.words, "run", container.name)

    def run(self, container, *words):
        """Status, output and errors of words in a new container."""
        return ran(*self.made(container, *words), text=True, cwd=container.room)

    def start(self, container, *words):
        return started(*self.made(container, *words), cwd=container.room)

    def more(self, container, *words):
        """The same of words in a container that runs."""
        return ran(*wrapped(*self.words, "exec", container.name, *words), text=True, cwd=container.room)


class Rootless(Runtime):
    """The same by a user without rights, in a user namespace in which this one is root."""

    def __init__(self, name, state):
        super().__init__(name, state)
        self.name = f"{name} without root"
        self.words = [*AS_USER, *self.words]

    def made(self, container, *words):
        container.write(*words, mapped=True)
        ran("chown", "-R", f"{USER}:{USER}", container.room)
        return wrapped(*self.words, "run", container.name)


class Podman(Runtime):
    """podman over one of the runtimes."""

    def __init__(self, over, state):
        self.name, self.over = f"podman over {over}", over
        self.profile = state / "profile.json"
        self.words = [
            "podman", "--root", str(state / "root"), "--runroot", str(state / "run"), "--tmpdir", str(state / "tmp"), "--storage-driver", "vfs",
            "--cgroup-manager", "cgroupfs", "--events-backend", "file", "--log-level", "error", "--runtime", shutil.which(over, path=PLACES),
        ]

    def made(self, container, *words):
        self.profile.write_text(json.dumps(hardened(container.listener)))
        groups = ["--cgroups", "disabled"] if self.over == "crun" else []
        limits = ["--ulimit", "nofile=1024:1024", "--ulimit", "nproc=1024:1024"]
        options = ["--rm", "--name", container.name, "--network", "none", *limits, *groups, "--security-opt", f"seccomp={self.profile}",
                   "--annotation", f"run.oci.seccomp.receiver={container.listener}", "-v", "/usr:/usr:ro", "--rootfs", str(container.root)]
        return wrapped(*self.words, "run", *options, *words)


def tries(runtime, room, listener):
    """One runtime: a container alone, and two of them at a time."""
    alone = Container(room, "alone", listener)
    status, output, errors = runtime.run(alone, "true")
    if status != 0:
        print(f"containers by {runtime.name}: not tried, it starts none here: {errors.strip()[:200]}")
        return
    got = runtime.run(alone, "sh", "-c", "keyctl print $(keyctl request2 user made:a hello @s); keyctl add user k v @u > /dev/null; keyctl rdescribe %user:k")
    count.same(f"{runtime.name}: the calls of a container", got, (0, "hello\nuser;0;-1;3f000000;k\n", ""))
    web, other = Container(room, "web", listener), Container(room, "other", listener)
    runs = runtime.start(web, "sh", "-c", WAITS)
    until(lambda: (web.root / "tmp" / "ready").exists() or runs.poll() is not None, "a container")
    count.same(f"{runtime.name}: another container", runtime.run(other, "keyctl", "print", "%user:k"), (1, "", "Can't find 'user:k'\n"))
    status, _, errors = runtime.more(web, "true")
    if status == 0:
        count.same(f"{runtime.name}: what is started later", runtime.more(web, "keyctl", "print", "%user:k"), (0, "mine\n", ""))
        count.same(f"{runtime.name}: and adds a key", runtime.more(web, "keyctl", "add", "user", "later", "told", "@u")[0], 0)
    else:
        print(f"what is started later by {runtime.name}: not tried, it starts nothing in a container here: {errors.strip()[:200]}")
    (web.root / "tmp" / "end").touch()
    output, errors = runs.communicate(timeout=LIMIT)
    found = (0, "told\n", "") if status == 0 else (1, "", "Can't find 'user:later'\n")
    count.same(f"{runtime.name}: the container finds it", (runs.returncode, output, errors), found)


def within(program, socket, room):
    """A runtime itself in a trap: its containers have the trap's rings, each a session ring of its own, which runc describes and sets the permissions of."""
    for name in RUNTIMES:
        if lacks(f"{name} in a trap", name, path=PLACES):
            continue
        place = room / f"within-{name}"
        place.mkdir()
        runtime, container = Runtime(name, place / "state"), Container(place, "alone", "")
        container.write("sh", "-c", "keyctl id @s; keyctl add user k v @s > /dev/null; keyctl print %user:k", filtered=False)
        if ran(*wrapped(*runtime.words, "run", container.name), text=True, cwd=container.room)[0] != 0:
            print(f"{name} in a trap: not tried, it starts none here")
            continue
        words = " ".join(f"'{word}'" for word in wrapped(*runtime.words, "run", container.name))
        status, output, errors = Trap(program, socket).run("sh", "-c", f"keyctl id @s; cd {container.room} && {words}")
        lines = output.split()
        count.same(f"{name} in a trap", (status, len(set(lines)), lines[2:], errors), (0, 3, ["v"], ""))


def leaves(trapping, daemon, room):
    """A container whose keys of one type are the kernel's, in the session ring that its runtime has made there."""
    name = next((name for name in RUNTIMES if shutil.which(name, path=PLACES)), None)
    if name is None or ran("keyctl", "session", "-", "keyctl", "add", "logon", "a:b", "v", "@s")[0]:
        print("a container with keys of the kernel: not tried, there is no runtime, or the kernel has none")
        return
    place = room / "leaves"
    place.mkdir()
    with Listening(count, trapping, daemon, environment(), folder=place, options=["--kernel", "logon"]) as listening:
        container = Container(place, "alone", listening.path)
        script = "keyctl rdescribe $(keyctl add logon a:b v @s) | cut -d ';' -f 1,5; keyctl add user k v @s > /dev/null; keyctl print %user:k"
        status, output, errors = Runtime(name, place / "state").run(container, "sh", "-c", script)
        count.same("a container with keys of the kernel", (status, output, errors), (0, "logon;a:b\nv\n", ""))


def unrooted(trapping, daemon, room):
    """Containers, and their trap, of a user without rights: crun and runc in a user namespace, and bwrap, which runs in a trap."""
    if lacks("containers without root", "setpriv") or ran(*AS_USER, "unshare", "--user", "--map-root-user", "true")[0]:
        print("containers without root: not tried, there is no user namespace to be had")
        return
    daemon.path.chmod(0o777)
    for folder in [daemon.room, room]:
        folder.chmod(0o755)
    place = room / "unrooted"
    place.mkdir()
    os.chown(place, USER, USER)
    with Listening(count, trapping, daemon, environment(), place, AS_USER) as listening:
        for name in RUNTIMES:
            if not lacks(f"{name} without root", name, path=PLACES):
                (place / name).mkdir()
                os.chown(place / name, USER, USER)
                tries(Rootless(name, place / name / "state"), place / name, listening.path)
        listening.process.kill()
        count.same("what it says without root", listening.process.stderr.read(), "")
    if not lacks("bwrap in a trap", "bwrap"):
        script = "id -u; keyctl print $(keyctl request2 user made:a hello @s); keyctl add user k v @u > /dev/null; "
        script += "keyctl rdescribe %user:k; keyctl rdescribe @s"
        words = ["bwrap", "--ro-bind", "/", "/", "--dev", "/dev", "--proc", "/proc", "--unshare-all", "--uid", "77", "sh", "-c", script]
        lines = "77\nhello\nuser;77;-1;3f000000;k\nkeyring;77;-1;3f000000;_ses\n"
        count.same("bwrap in a trap", ran(*AS_USER, *Trap(trapping, daemon.path).words(*words), text=True, env=environment()), (0, lines, ""))


# How podman is set up for a test, and the script around the lines of a document: /run and /etc are this test's own.
STORAGE = '[storage]\ndriver = "vfs"\ngraphroot = "%room/root"\nrunroot = "%room/run"\n'
ENGINE = """[containers]
netns = "none"
cgroups = "disabled"
default_ulimits = ["nofile=1024:1024", "nproc=1024:1024"]
[engine]
cgroup_manager = "cgroupfs"
events_logger = "file"
tmp_dir = "%room/tmp"
"""
LINES_AROUND = """set -e
mount --make-rprivate / && mount -t tmpfs tmpfs /run && mount -t overlay overlay -o lowerdir=/etc,upperdir=%room/etc,workdir=%room/work /etc
cp %conf /etc/reqkeyd.conf
tar -C %room/image -c . | podman import - localhost/keys > /dev/null 2>&1
%lines
kill %1 %2
"""


def image(folder):
    """The root of a container that has keyctl, and nothing else."""
    for path in [shutil.which("keyctl"), *re.findall(r"(/\S+) \(", ran("ldd", shutil.which("keyctl"), text=True)[1])]:
        (folder / path[1:]).parent.mkdir(parents=True, exist_ok=True)
        shutil.copy(path, folder / path[1:])


def documented(program, trapping, room):
    """The lines of docs/PROGRAMS.md for podman, as they are written there, but for the name of the image; and its profile."""
    block = re.search(r"^```\n(\{.*?)^```", (top / "docs" / "PROGRAMS.md").read_text(), re.DOTALL | re.MULTILINE)[1]
    text, lines = re.split(r"\n\n(?=\$ )", block)
    count.same("the profile of docs/PROGRAMS.md", json.loads(text), profile("/run/keys/listen"))
    stock = "/usr/share/containers/seccomp.json"
    if lacks("the lines of docs/PROGRAMS.md", "podman", "crun", "jq") or not os.path.exists(stock):
        return
    for name in ["bin", "etc", "work", "image"]:
        (room / name).mkdir(parents=True)
    for name, path in [("reqkeyd", program), ("reqkey-trap", trapping)]:
        (room / "bin" / name).symlink_to(path)
    image(room / "image")
    for name, how in [("storage.conf", STORAGE), ("containers.conf", ENGINE)]:
        (room / name).write_text(how.replace("%room", str(room)))
    lines = re.sub(r"^[#$] ", "", lines, flags=re.MULTILINE).replace("IMAGE", "localhost/keys")
    lines = re.sub(r"(--(?:listen|socket) (\S+).* &)$", r"\1\nuntil [ -S \2 ]; do sleep 0.05; done", lines, flags=re.MULTILINE)
    script = LINES_AROUND.replace("%lines", lines).replace("%conf", str(top / "packaging" / "reqkeyd.conf")).replace("%room", str(room))
    how = environment(PATH=f"{room}/bin:{os.environ['PATH']}:/usr/sbin", CONTAINERS_CONF=str(room / "containers.conf"),
                      CONTAINERS_STORAGE_CONF=str(room / "storage.conf"))
    status, output, errors = ran(*wrapped("unshare", "-m", "bash", "-m", "-c", script), text=True, env=how, cwd=room)
    if status != 0 and not re.search("reqkeyd: ready", errors):
        print(f"the lines of docs/PROGRAMS.md: not tried, podman starts nothing here: {errors.strip()[:300]}")
        return
    count.same("the lines of docs/PROGRAMS.md", (status, output.strip().isdigit()), (0, True))


def runtimes(room):
    """Those that are here."""
    for name in RUNTIMES:
        if lacks(f"containers by {name}", name, path=PLACES):
            continue
        (room / name).mkdir()
        yield Runtime(name, room / name / "state"), room / name
        if not lacks(f"containers by podman over {name}", "podman"):
            (room / f"podman-{name}").mkdir()
            yield Podman(name, room / f"podman-{name}"), room / f"podman-{name}"


def main():
    if lacks("containers", "gcc", "make", "keyctl", "unshare"):
        count.end()
    if os.geteuid() != 0 or not notifies():
        print("containers: not tried, this is not root, or the kernel has no seccomp with user notification")
        count.end()
    with tempfile.TemporaryDirectory(prefix="container-") as folder:
        room = pathlib.Path(folder)
        trapping = made(count, "trap", room / "trap")
        for program in there(count, PROGRAMS[:1]) if trapping else []:
            with Daemon(program, "create user made:* * |/bin/cat\n") as daemon, Listening(count, trapping, daemon, environment()) as listening:
                for runtime, place in runtimes(room):
                    tries(runtime, place, listening.path)
                within(trapping, daemon.path, room)
                unrooted(trapping, daemon, room)
                listening.process.kill()
                count.same("what it says", listening.process.stderr.read(), "")
                leaves(trapping, daemon, room)
            documented(program, trapping, room / "documented")
    count.end()


main()
