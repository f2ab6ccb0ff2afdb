"""What tests need besides the programs: whether it is here, or can be had from Debian's packages."""
import glob
import os
import shutil
import subprocess

from programs import LIMIT

PATH = f"{os.environ['PATH']}:/usr/sbin:/sbin"


def lacking(names):
    """Those of these programs, or patterns of a path, that are not here."""
    return [name for name in names if not (glob.glob(name) if "/" in name else shutil.which(name, path=PATH))]


def install(packages, names):
    """Installs packages, where that goes within some minutes, until none of these programs is lacking."""
    quiet = {"stdin": subprocess.DEVNULL, "capture_output": True, "env": {**os.environ, "DEBIAN_FRONTEND": "noninteractive"}}
    adds = ["install", "-y", "--no-install-recommends", *packages]
    try:
        for words in [adds, ["update"], adds]:
            if lacking(names):
                subprocess.run(["apt-get", *words], timeout=LIMIT, **quiet)
    except subprocess.TimeoutExpired:
        pass


def has(what, names, packages):
    """Whether these programs are here, or root could install them. Else it says that this is not tried."""
    if lacking(names) and shutil.which("apt-get") and os.geteuid() == 0:
        install(packages, names)
    left = lacking(names)
    if left:
        print(f"{what}: not tried, there is no {left[0]}")
    return not left
