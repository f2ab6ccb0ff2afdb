#!/usr/bin/env python3
"""The client in Python as a package: pip installs it, and mypy --strict finds a user's program right, and a wrong one wrong.

All is offline. Debian's own pip and mypy do; another Python's do as well, if they have what is needed.
"""
import pathlib
import shutil
import sys
import tempfile

from counted import Counted
from packages import PATH, has
from programs import ran, top

count = Counted()

RIGHT = """
import asyncio

import reqkey
import reqkey.aio


def payload(path: str) -> bytes:
    with reqkey.connect(path, uid=1000) as session:
        described: reqkey.Described = session.describe(12)
        if described.state is reqkey.State.VALID and described.uid == 1000:
            return session.read(12)
        return session.get("user", "mail:joe", "letter")


async def other(path: str) -> bytes:
    async with await reqkey.aio.connect(path) as session:
        setting: reqkey.Setting = await session.default(reqkey.Setting.KEEP)
        return await session.get(setting.name, "mail:joe")


print(payload, other, asyncio)
"""

# What is wrong with each line, by mypy's own name for it.
WRONG = {
    "session.read('12')": "arg-type", "session.describe(12).split(';')": "attr-defined", "session.request('user', 'a', 'callout')": "misc",
    "text: str = session.get('user', 'a')": "assignment",
}


def main():
    python = shutil.which("python3", path="/usr/bin:/bin") or sys.executable
    needed, packages = ["pip3", "mypy"], ["python3-pip", "python3-setuptools", "python3-wheel", "mypy"]
    if not has("the package of the client in Python", needed, packages):
        count.end()
    with tempfile.TemporaryDirectory() as folder:
        room = pathlib.Path(folder)
        shutil.copytree(top / "clients" / "python", room / "sources")
        ran(python, "-m", "venv", "--without-pip", room / "venv", check=True)
        [modules] = (room / "venv").glob("lib/python3*/site-packages")
        pip = [python, "-m", "pip", "install", "-q", "--no-index", "--no-build-isolation", "--no-deps", "--no-compile", "--target", modules, room / "sources"]
        installs = ran(*pip, text=True, env={"PATH": PATH, "HOME": folder})
        if installs[0] and "No module named" in installs[2]:
            print(f"pip: not tried, {installs[2].strip().splitlines()[-1]}")
            count.end()
        count.same("pip install", installs[0], 0)
        files = sorted(path.name for path in (modules / "reqkey").iterdir())
        count.same("what is installed", files, sorted(path.name for path in (top / "clients" / "python" / "reqkey").iterdir() if path.is_file()))
        own = room / "venv" / "bin" / "python3"
        count.same("it is found", ran(own, "-B", "-c", "import reqkey.aio; print(reqkey.Ring.USER)", text=True), (0, "-4\n", ""))
        typed(room, own)
    count.end()


def typed(room, own):
    """What mypy says of a user's program, of wrong lines, and of the package itself."""
    checks = ["mypy", "--strict", "--no-error-summary", "--cache-dir", room / "cache", "--python-executable", own]
    (room / "right.py").write_text(RIGHT)
    found = ran(*checks, room / "right.py", text=True, cwd=room)
    count.same("mypy of a user's program", found, (0, "", ""))
    lines = "".join(f"{line}\n" for line in WRONG)
    (room / "wrong.py").write_text(f"import reqkey\n\nsession = reqkey.connect('/run/s')\n{lines}")
    status, output, _ = ran(*checks, room / "wrong.py", text=True, cwd=room)
    told = [(line.split(":")[1], line.rpartition("[")[2].strip("]")) for line in output.splitlines() if ": error: " in line]
    count.same("mypy of wrong lines", (status, told), (1, [(str(at), kind) for at, kind in enumerate(WRONG.values(), 4)]))
    count.same("mypy of the package", ran(*checks, room / "sources" / "reqkey", text=True, cwd=room), (0, "", ""))


main()
