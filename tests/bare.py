"""An empty Debian: a folder with the essential packages of this machine, and apt, as they were unpacked here; and what runs in it."""
import pathlib
import re
import shutil
import subprocess

from programs import lacks, ran

NAME = re.compile(r"(?:^|[,|] )([a-z0-9][a-z0-9.+-]*)")
LEFT_OUT = re.compile("/usr/share/(doc|man|locale|info|zoneinfo)/")


def installed():
    """The packages of this machine: what each needs, as far as it is here, and which are essential."""
    form = "${Package}\t${Essential}\t${Provides}\t${Pre-Depends}, ${Depends}\n"
    lines = [line.split("\t") for line in ran("dpkg-query", "-W", "-f", form, text=True)[1].splitlines()]
    providing = {virtual: name for name, _, provides, _ in lines for virtual in NAME.findall(provides)}
    names = {name for name, *_ in lines}
    needs = {name: [it if it in names else providing.get(it, it) for it in NAME.findall(below)] for name, *_, below in lines}
    return needs, [name for name, essential, *_ in lines if essential == "yes"]


def closure(needs, names):
    """These packages, and what they need, as far as it is here."""
    found, left = set(), list(names)
    while left:
        name = left.pop()
        if name in needs and name not in found:
            found.add(name)
            left += needs[name]
    return sorted(found)


def makes(root, *more):
    """Makes such a folder, with these packages besides."""
    needs, essential = installed()
    names = closure(needs, [*essential, *more])
    paths = {path for path in ran("dpkg-query", "-L", *names, text=True)[1].splitlines() if path.startswith("/") and not LEFT_OUT.match(f"{path}/")}
    listed = "".join(f"{path[1:]}\n" for path in sorted(paths - {"/", "/."}) if pathlib.Path(path).exists() or pathlib.Path(path).is_symlink())
    root.mkdir()
    for link in [it for it in ["bin", "sbin", "lib", "lib32", "lib64", "libx32"] if pathlib.Path(f"/{it}").is_symlink()]:
        (root / "usr" / link).mkdir(parents=True)
        (root / link).symlink_to(f"usr/{link}")
    words = ["tar", "-C", "/", "--warning=no-file-changed", "--no-recursion", "-T", "-", "-cf", "-"]
    packs = subprocess.Popen(words, stdin=subprocess.PIPE, stdout=subprocess.PIPE)
    unpacks = subprocess.Popen(["tar", "-C", root, "--keep-directory-symlink", "-xpf", "-"], stdin=packs.stdout)
    packs.stdin.write(listed.encode())
    packs.stdin.close()
    # (1 says that a folder changed meanwhile, as /tmp does)
    if packs.wait() not in [0, 1] or unpacks.wait():
        raise RuntimeError("the packages of this machine can't be copied")
    records(root, names)
    for name in ["passwd", "group"]:
        shutil.copy(root / "usr" / "share" / "base-passwd" / f"{name}.master", root / "etc" / name)
    (root / "usr" / "bin" / "awk").symlink_to("mawk")
    (root / "usr" / "local" / "bin").mkdir(parents=True)
    inside(root, "ldconfig")


def records(root, names):
    """What dpkg knows of its packages."""
    folder = root / "var" / "lib" / "dpkg"
    (folder / "info").mkdir(parents=True, exist_ok=True)
    (folder / "status").write_text(ran("dpkg-query", "-s", *names, text=True)[1].replace("\n\n\n", "\n\n") + "\n")
    shutil.copy("/var/lib/dpkg/info/format", folder / "info")
    for path in pathlib.Path("/var/lib/dpkg/info").iterdir():
        if path.stem.partition(":")[0] in names and path.suffix in [".list", ".md5sums", ".triggers"]:
            shutil.copy(path, folder / "info")


def entering(root, *words):
    """The words that run words in it, as root, with this machine's devices."""
    script = 'mount --make-rprivate / && mount --rbind /dev "$1/dev" && mount -t proc proc "$1/proc" && root=$1 && shift && exec chroot "$root" "$@"'
    return ["unshare", "--mount", "sh", "-c", script, "sh", root, *words]


def inside(root, *words, **more):
    """Status, output and errors of words in it."""
    environment = {"PATH": "/usr/local/sbin:/usr/local/bin:/usr/sbin:/usr/bin:/sbin:/bin", "LC_ALL": "C.UTF-8", "DEBIAN_FRONTEND": "noninteractive"}
    return ran(*entering(root, *words), text=True, env=environment, **more)


def lacks_it(what):
    """Whether it can't be made or entered here. Then it says that this is not tried."""
    if lacks(what, "dpkg-query", "tar", "unshare", "chroot"):
        return True
    with_rights = ran("unshare", "--mount", "sh", "-c", "mount --make-rprivate / && mount -t tmpfs none /mnt", text=True)
    if with_rights[0]:
        print(f"{what}: not tried, nothing can be mounted here: {with_rights[2].strip()[:100]}")
    return bool(with_rights[0])
