#!/usr/bin/env python3
"""Installs the built programs into empty folders, by `make install` and from the Debian package, looks at what is there, and uses it from there.

The toolchain is not on the PATH meanwhile: what is built is installed without it.
"""
import gzip
import os
import pathlib
import re
import shutil
import sys
import tempfile

import programs
from counted import Counted
from daemon import Daemon
from programs import LIMIT, built, lacks, started, there, top, version
from trap import notifies

count = Counted()
PATH = {"PATH": f"{pathlib.Path(sys.executable).parent}:/usr/local/bin:/usr/bin:/bin:/usr/sbin:/sbin", "LC_ALL": "C.UTF-8"}

# What is installed below a PREFIX: programs to be run, and all else to be read. The module of Python and the functions of zsh have their place by options.
PYTHON, ZSH, DOC, LIB = "lib/python3/dist-packages", "share/zsh/site-functions", "share/doc/reqkeyd", "lib"
PROGRAMS = ["reqkeyd", "reqkeyctl", "reqkey-trap", "reqkey-door"]
OF_A_PROGRAM = ["bin/{}", "share/bash-completion/completions/{}", "share/fish/vendor_completions.d/{}.fish", f"{ZSH}/_{{}}"]
DOOR_UNITS, BEHIND = ["reqkey-door.service", "reqkey-door.socket"], "reqkeyd-behind-door.conf"
NAMES = [
    *(place.format(name) for name in PROGRAMS for place in OF_A_PROGRAM),
    *(f"lib/systemd/system/{name}" for name in ["reqkeyd.service", "reqkeyd-sweep@.service", "reqkeyd-sweep@.timer", *DOOR_UNITS]),
    *(f"lib/systemd/user/{name}" for name in ["reqkeyd.service", "reqkeyd-sweep.service", "reqkeyd-sweep.timer"]),
    *(f"share/man/man{page[-1]}/{page}" for page in ["reqkey-trap.1", "reqkeyctl.1", "reqkey.3", "reqkeyd.conf.5", "reqkey-door.8", "reqkeyd.8"]),
    *(f"{DOC}/{name}" for name in ["LICENSE-APACHE", "LICENSE-MIT", "copyright", "CHANGELOG.md", "README.md", "SECURITY.md"]),
    *(f"{DOC}/{path.relative_to(top)}" for path in [*top.glob("docs/*.md"), *top.glob("docs/pictures/*")]),
    *(f"{DOC}/examples/{name}" for name in ["example_client.c", "example_client.py", "example_handler.c", "example_handler.py", "reqkeyd.conf", BEHIND]),
    *(f"lib/reqkeyd/handlers/{path.name}" for path in top.glob("handlers/*")),
    *(f"{PYTHON}/reqkey/{path.name}" for path in top.glob("clients/python/reqkey/*") if path.is_file()),
    *(f"share/reqkeyd/{path}" for path in ["go/go.mod", "go/reqkey.go", "rust/Cargo.toml", "rust/src/lib.rs"]),
    "include/reqkey.h", "lib/reqkeyd/libkeyutils.so.1", "share/reqkeyd/reqkey.c",
    *(f"lib/{name}" for name in ["libreqkey.a", "libreqkey.so", "libreqkey.so.1", "pkgconfig/reqkey.pc"]),
]
SCRIPTS = {f"lib/reqkeyd/handlers/{path.name}" for path in top.glob("handlers/*") if path.suffix != ".sh"}
FILES = {name: 0o755 if name.startswith("bin/") or name in SCRIPTS else 0o644 for name in NAMES}

# A program that makes the system call itself.
ADDS = "import ctypes, os; print(ctypes.CDLL(None).syscall({'x86_64': 248, 'aarch64': 217}[os.uname().machine], b'user', b'n', b'v', 1, -3) > 0)"


def run(*words, **more):
    """Status, output and errors of a command."""
    return programs.ran(*words, text=True, **{"env": PATH, **more})


def make(*words):
    """Calls make for the programs of a folder; its status, and what is said of faults."""
    status, _, errors = run("make", "-s", "-C", top, *words)
    return status, errors


def files(root):
    """The files below a folder, with their modes."""
    return {str(path.relative_to(root)): path.stat().st_mode & 0o7777 for path in root.rglob("*") if path.is_file()}


def lets_in(prefix):
    """The installed door lets its user in, and nobody else's HELLO."""
    with Daemon(prefix / "bin" / "reqkeyd", environment=PATH) as daemon:
        path, uid, gid = daemon.room / "door", str(os.geteuid()), str(os.getegid())
        door = started(prefix / "bin" / "reqkey-door", "--socket", daemon.path, "--listen", path, env=PATH)
        try:
            ready = door.stderr.readline()
            hello = [run(prefix / "bin" / "reqkeyctl", "--socket", path, "--uid", it, "--gid", gid, "hello") for it in [uid, "4000000000"]]
        finally:
            door.terminate()
            door.communicate(timeout=LIMIT)
        return ready, [(status, errors) for status, _, errors in hello], door.returncode


def serves(prefix, conf):
    """The installed programs do what the example configuration says."""
    with Daemon(prefix / "bin" / "reqkeyd", conf.read_text(), "--clients", "5", environment=PATH) as daemon:
        client = [prefix / "bin" / "reqkeyctl", "--socket", daemon.path, "--uid", "1000"]
        key = run(*client, "request", "user", "debug:a", "user", "hello")
        payload = run(*client, "read", key[1].strip())
        trapped = (0, "True\n", "") if not notifies() else run(prefix / "bin" / "reqkey-trap", "--socket", daemon.path, "--", sys.executable, "-c", ADDS)
        library = run(prefix / "bin" / "reqkeyctl", "run", "--socket", daemon.path, "--", "/bin/sh", "-c", 'echo "$LD_PRELOAD"')
        return key[0], payload, trapped, library, daemon.end()


def linked(name, room, source, prefix, configs):
    """A program is linked with the library, shared and static, as pkg-config says."""
    if lacks(f"{name}: reqkey.pc", "pkg-config"):
        return
    environment = {**PATH, "PKG_CONFIG_PATH": str(configs)}
    flags = run("pkg-config", f"--define-variable=prefix={prefix}/", "--cflags", "--libs", "reqkey", env=environment)[1].split()
    folder = configs.parent
    for kind, words in {"shared": [*flags, f"-Wl,-rpath,{folder}"], "static": [it.replace("-lreqkey", "-l:libreqkey.a") for it in flags]}.items():
        count.same(f"{name}: the {kind} library", run("gcc", "-o", f"{room}/{kind}", source, *words), (0, "", ""))
        needs = "libreqkey.so.1" in run("ldd", f"{room}/{kind}")[1]
        count.same(f"{name}: the {kind} library runs", (run(f"{room}/{kind}")[0], needs), (2, kind == "shared"))


def used(name, prefix, library_folder=LIB, python=PYTHON):
    """What was installed is tried where it is: the programs, the clients, and what completes words."""
    for program in ["reqkeyd", "reqkeyctl"]:
        count.same(f"{name}: {program}", run(prefix / "bin" / program, "--version"), (0, f"{program} {version()}\n", ""))
        completes = run("bash", "-c", f"source {prefix}/share/bash-completion/completions/{program} && complete -p {program}")
        count.same(f"{name}: completion of {program}", completes, (0, f"complete -F _{program} {program}\n", ""))
    examples = prefix / "share" / "doc" / "reqkeyd" / "examples"
    library = prefix / "lib" / "reqkeyd" / "libkeyutils.so.1"
    served = serves(prefix, examples / "reqkeyd.conf")
    wanted = 0, (0, "hello\n", ""), (0, "True\n", ""), (0, f"{library}\n", ""), (0, [])
    count.same(f"{name}: the example configuration, and the library of a run", served, wanted)
    module = run(sys.executable, "-B", "-c", "import reqkey.aio; print(reqkey.aio.Session.__module__)", env={**PATH, "PYTHONPATH": str(prefix / python)})
    count.same(f"{name}: the module of Python", module, (0, "reqkey.aio\n", ""))
    count.same(f"{name}: the door", lets_in(prefix), ("reqkey-door: ready\n", [(0, ""), (1, "errno 13\n")], 0))
    usage = run(sys.executable, "-B", examples / "example_client.py", env={**PATH, "PYTHONPATH": str(prefix / python)})
    count.same(f"{name}: the client in Python", usage, (2, "", "usage: example_client.py SOCKET TYPE DESCRIPTION [CALLOUT]\n"))
    with tempfile.TemporaryDirectory() as room:
        client = f"{room}/client"
        sources = [examples / "example_client.c", prefix / "share" / "reqkeyd" / "reqkey.c"]
        count.same(f"{name}: the client in C", run("gcc", "-I", prefix / "include", "-o", client, *sources), (0, "", ""))
        count.same(f"{name}: the client in C runs", run(client)[0], 2)
        linked(name, room, examples / "example_client.c", prefix, prefix / library_folder / "pkgconfig")
    count.same(f"{name}: keyutils' library", run(sys.executable, "-c", f"import ctypes; ctypes.CDLL('{library}').add_key"), (0, "", ""))


def texts(root):
    """The manual pages, units and examples below a folder: the name of each, and what it says."""
    kinds = ["share/man/*/*.gz", "lib/systemd/*/*", "lib/reqkeyd/handlers/*", "share/doc/reqkeyd/examples/*", "share/bash-completion/completions/*"]
    for path in [path for kind in kinds for path in root.glob(f"usr/{kind}")]:
        data = path.read_bytes()
        yield path.name, (gzip.decompress(data) if path.suffix == ".gz" else data).decode()


def asks(manager, unit, prefix):
    """What a unit runs after its daemon: it ends when the daemon answers, and at once where there is none any more."""
    line = next(line for line in unit.read_text().split("\n") if line.startswith("ExecStartPost="))
    with tempfile.TemporaryDirectory() as room:
        script = re.fullmatch(r"ExecStartPost=/bin/sh -c '(.*)'", line)[1].replace("%t/%N", room).replace("$$", "$")
        conf = pathlib.Path(room) / "conf"
        conf.touch()
        serve = f"sleep 0.3; exec {prefix}/bin/reqkeyd serve --socket {room}/socket --conf {conf} --clients 1"
        daemon = started("/bin/sh", "-c", serve, env=PATH)
        environment = {**PATH, "MAINPID": str(daemon.pid)}
        count.same(f"what the unit of the {manager} waits for", run("/bin/sh", "-c", script, env=environment), (0, "", ""))
        daemon.communicate(timeout=LIMIT)
        count.same(f"whom it has asked, {manager}", daemon.returncode, 0)
        count.same(f"the unit of the {manager}, without a daemon", run("/bin/sh", "-c", script, env=environment), (0, "", ""))


def sweeps(manager, unit, prefix):
    """What a unit runs that makes room for keys: it sweeps the ring of the uid, and leaves what lives."""
    line = next(line for line in unit.read_text().split("\n") if line.startswith("ExecStart="))
    with Daemon(prefix / "bin" / "reqkeyd", "create user p:* * |/bin/cat\n", "--clients", "4", environment=PATH) as daemon:
        command = line.removeprefix("ExecStart=").replace("%t/reqkeyd/socket", str(daemon.path)).replace("%i", "1000").replace("%U", "1000").split(" ")
        client = [prefix / "bin" / "reqkeyctl", "--socket", daemon.path, "--uid", "1000"]
        asked = [run(*client, "request", "user", name, "user", "x")[0] for name in ["p:1", "none"]]
        got = asked, run(*command), run(*client, "list"), daemon.end()
        count.same(f"the unit of the {manager} that sweeps", got, ([0, 1], (0, "1\n", ""), (0, "12 user;1000;valid;p:1\n", ""), (0, [])))


def doors(prefix):
    """The units of the door, and the daemon behind it: both run as one user, at the same socket, which is theirs alone."""
    folder = prefix / "lib" / "systemd" / "system"
    told = dict(line.split("=", 1) for line in (folder / "reqkey-door.service").read_text().split("\n") if re.match("[A-Z][A-Za-z]*=", line))
    same = {"ExecStart": f"{prefix}/bin/reqkey-door --socket %t/reqkeyd/socket", "User": "reqkeyd", "DynamicUser": "yes", "CapabilityBoundingSet": ""}
    count.same("the unit of the door", {name: told.get(name) for name in same}, same)
    behind = (prefix / "share" / "doc" / "reqkeyd" / "examples" / BEHIND).read_text().split("\n")
    serve = f"ExecStart={prefix}/bin/reqkeyd serve --socket %t/%N/socket --conf %E/%N.conf --mode 600"
    count.same("the daemon behind it", [line for line in behind if line[:1].isupper()], ["ExecStart=", serve, "RuntimeDirectoryMode=0700"])
    with tempfile.TemporaryDirectory() as room:
        units = pathlib.Path(room) / "units"
        shutil.copytree(folder, units)
        (units / "reqkeyd.service.d").mkdir()
        shutil.copy(prefix / "share" / "doc" / "reqkeyd" / "examples" / BEHIND, units / "reqkeyd.service.d")
        environment = {**PATH, "SYSTEMD_UNIT_PATH": f"{units}:"}
        for name in ["reqkeyd.service", *DOOR_UNITS]:
            found = run("systemd-analyze", "--system", "verify", "--man=no", "--recursive-errors=no", units / name, env=environment)
            count.same(f"{name} behind a door", found, (0, "", ""))


def verified(prefix):
    """What systemd itself finds in the units, which name the programs below this prefix."""
    if lacks("the units", "systemd-analyze"):
        return
    doors(prefix)
    for manager in ["system", "user"]:
        with tempfile.TemporaryDirectory() as room:
            environment = {**PATH, "HOME": room, "XDG_RUNTIME_DIR": room}
            unit = prefix / "lib" / "systemd" / manager / "reqkeyd.service"
            commands = [line.split(" ")[0] for line in unit.read_text().split("\n") if line.startswith("Exec")]
            count.same(f"command of the unit of the {manager}", commands, [f"ExecStart={prefix}/bin/reqkeyd", "ExecStartPost=/bin/sh"])
            asks(manager, unit, prefix)
            name = "reqkeyd-sweep@" if manager == "system" else "reqkeyd-sweep"
            sweeps(manager, unit.with_name(f"{name}.service"), prefix)
            for it in [unit.name, f"{name}.service", f"{name}.timer"]:
                found = run("systemd-analyze", f"--{manager}", "verify", "--man=no", "--recursive-errors=no", unit.with_name(it), env=environment)
                count.same(f"{it} of the {manager}", found, (0, "", ""))


def by_make(ours, room):
    """make install, into a root of its own, and make uninstall, which leaves what others have put there."""
    root = room / "root"
    options = [f"BUILT={ours}", f"DESTDIR={root}", f"PYTHON_DIR=/usr/local/{PYTHON}"]
    count.same("make install", make("install", *options), (0, ""))
    count.same("what is installed", files(root), {f"usr/local/{name}": mode for name, mode in FILES.items()})
    page = root / "usr" / "local" / "share" / "man" / "man8" / "reqkeyd.8"
    count.same("manual page below /usr/local", page.read_bytes(), (top / "man" / "reqkeyd.8").read_bytes())
    named = [line for path in root.rglob("reqkeyd*.service") for line in path.read_text().split("\n") if line.startswith("ExecStart=/usr/local/bin/")]
    count.same("programs of the units", len(named), 4)
    other = root / "usr" / "local" / "share" / "doc" / "reqkeyd" / "NOTES"
    other.touch()
    count.same("make uninstall", make("uninstall", *options), (0, ""))
    count.same("what is left", list(files(root)), ["usr/local/share/doc/reqkeyd/NOTES"])
    count.same("folders of our own", [it for it in ["share/reqkeyd", "lib/reqkeyd"] if (root / "usr" / "local" / it).exists()], [])

    prefix = room / "prefix"
    options = [f"BUILT={ours}", f"PREFIX={prefix}", f"PYTHON_DIR={prefix}/{PYTHON}"]
    count.same("make install below a prefix", make("install", *options), (0, ""))
    count.same("what is below it", files(prefix), FILES)
    count.same("its folders", {path.stat().st_mode & 0o7777 for path in prefix.rglob("*") if path.is_dir()}, {0o755})
    used("prefix", prefix)
    verified(prefix)
    count.same("make uninstall below a prefix", (make("uninstall", *options), files(prefix)), ((0, ""), {}))
    for name in ["reqkeyd", "reqkeyctl"]:
        lacking = room / f"without-{name}"
        shutil.copytree(ours, lacking)
        (lacking / name).unlink()
        status, errors = make("install", f"BUILT={lacking}", f"DESTDIR={room}/nothing")
        count.same(f"without {name}", (status, (room / "nothing").exists()), (2, False))


MULTIARCH = f"lib/{run('gcc', '-print-multiarch')[1].strip()}" if shutil.which("gcc") else LIB
CHANGES = f"usr/{DOC}/changelog.gz"


def packaged(name):
    """Where the package has what is `name` below a prefix."""
    place = f"{MULTIARCH}/{name.removeprefix('lib/')}" if name.startswith(("lib/libreqkey", "lib/pkgconfig")) else name
    return f"usr/{place}".replace(ZSH, "share/zsh/vendor-completions") + (".gz" if "/man/" in name else "")


def by_package(ours, room):
    """make deb, and what its package has; its programs run from where it was unpacked."""
    if lacks("the package", "dpkg-deb"):
        return
    status, printed, errors = run("make", "-s", "-C", top, "deb", f"BUILT={ours}", f"PACKAGES={room}/packages")
    package = pathlib.Path(printed.strip())
    architecture = run("dpkg", "--print-architecture")[1].strip()
    count.same("make deb", (status, errors, package), (0, "", room / "packages" / f"reqkeyd_0.2.0_{architecture}.deb"))
    if status:
        return
    fields = dict(line.split(": ", 1) for line in run("dpkg-deb", "--field", package)[1].split("\n") if line and line[0] != " ")
    wanted = {"Package": "reqkeyd", "Version": "0.2.0", "Architecture": architecture}
    count.same("fields of the package", {name: fields.get(name) for name in wanted}, wanted)
    count.same("its version of the C library", bool(re.fullmatch(r"libc6 \(>= 2\.\d+(\.\d+)?\)", fields["Depends"])), True)
    owners = {line.split()[1] for line in run("dpkg-deb", "--contents", package)[1].split("\n") if line}
    count.same("owners in the package", owners, {"root/root"})

    root = room / "unpacked"
    count.same("unpacking", run("dpkg-deb", "--extract", package, root), (0, "", ""))
    count.same("files of the package", files(root), {packaged(name): mode for name, mode in FILES.items() if "LICENSE" not in name} | {CHANGES: 0o644})
    page = root / "usr" / "share" / "man" / "man8" / "reqkeyd.8.gz"
    written = (top / "man" / "reqkeyd.8").read_text()
    count.same("manual page", gzip.decompress(page.read_bytes()).decode(), written.replace("/usr/local/", "/usr/"))
    count.same("what names another prefix", [name for name, text in texts(root) if "/usr/local" in text], [])
    commands = [line for path in root.rglob("reqkeyd.service") for line in path.read_text().split("\n") if line.startswith("ExecStart=/usr/bin/reqkeyd ")]
    count.same("programs of its units", len(commands), 2)
    count.same("control of the package", run("dpkg-deb", "--control", package, room / "control"), (0, "", ""))
    sums = run("md5sum", "--check", "--quiet", room / "control" / "md5sums", cwd=root)
    summed = [path for path in root.rglob("*") if path.is_file() and not path.is_symlink()]
    count.same("sums", (sums, len((room / "control" / "md5sums").read_text().splitlines())), ((0, "", ""), len(summed)))
    scripts = ["control", "md5sums", "postrm", "prerm", "shlibs", "triggers"]
    count.same("nothing is run at its start", sorted(it.name for it in (room / "control").iterdir()), scripts)
    used("package", root / "usr", MULTIARCH)

    first = package.read_bytes()
    package.unlink()
    count.same("make deb again", run("make", "-s", "-C", top, "deb", f"BUILT={ours}", f"PACKAGES={room}/packages")[0], 0)
    count.same("the same bytes", package.exists() and package.read_bytes() == first, True)


def without_toolchain():
    """What needs the toolchain says where it is to be had, and that what is built is installed without it."""
    path = "/usr/bin:/bin"
    if not shutil.which("make") or shutil.which("rt", path=path):
        print("make without the toolchain: not tried, there is no make or no PATH without rt")
        return
    for target in ["toolchain", "demo", "check"]:
        status, output, errors = run("make", "-s", "-C", top, target, env={**PATH, "PATH": path})
        told = [it in errors for it in ["its command rt has to be on the PATH", "ask whoever gave you the sources", "make install BUILT=FOLDER"]]
        count.same(f"make {target} without the toolchain", (status, output, told), (2, "", [True] * 3))


def main():
    without_toolchain()
    if lacks("installing", "make", "gcc"):
        return
    ready = list(there(count, [built(name)[0] for name in ["reqkeyd", "reqkeyctl"]]))
    if len(ready) == 2:
        with tempfile.TemporaryDirectory() as folder:
            room = pathlib.Path(folder)
            ours = room / "built"
            ours.mkdir()
            for program in ready:
                shutil.copy(program, ours)
            by_make(ours, room)
            by_package(ours, room)


os.umask(0o077)  # what is installed is for everyone, whoever installs it
main()
count.end()
