"""The crates of the repository, as crates.txt lists them."""
import hashlib
import os
import pathlib
import shutil

top = pathlib.Path(__file__).resolve().parent.parent

# The folders of a crate that its proof reads.
PARTS = ["src", "specs", "proofs"]
# How a line begins that is a comment.
COMMENTS = {".rt": b"//", ".antt": b"--"}


def listed():
    """The lines of crates.txt that name a crate, by its name."""
    lines = [line for line in (top / "crates.txt").read_text().splitlines(keepends=True) if ":" in line and not line.startswith("#")]
    return {line.partition(":")[0].split()[0]: line for line in lines}


def libraries(name):
    """All libraries that a crate uses, as its line names them."""
    return listed()[name].partition(":")[2].split()


def uses():
    """The crates, lowest first, each with those of the repository that it uses."""
    lines = listed()
    left = {name: [it for it in libraries(name) if it in lines] for name in lines}
    found = {}
    while left:
        ready = [name for name, used in left.items() if all(it in found for it in used)]
        if not ready:
            raise SystemExit(f"crates.txt: these use one another: {' '.join(left)}")
        for name in ready:
            found[name] = left.pop(name)
    return found


def below(used, name):
    """All crates that this one stands on."""
    return {it for dep in used[name] for it in {dep} | below(used, dep)}


def digest(folder, parts=PARTS, but=(), read=pathlib.Path.read_bytes):
    """What the files of these folders are, but those of some names, in one number."""
    files = sorted(path for part in parts for path in (folder / part).rglob("*") if path.is_file() and path.name not in but)
    said = hashlib.sha256()
    for path in files:
        said.update(f"{path.relative_to(folder)} {hashlib.sha256(read(path)).hexdigest()}\n".encode())
    return said.hexdigest()


def size(name):
    """How many bytes of a crate there are to prove."""
    return sum(path.stat().st_size for part in PARTS for path in (top / "crates" / name / part).rglob("*") if path.is_file())


def without_comments(path):
    """A file of a crate without the lines that are comments."""
    mark = COMMENTS.get(path.suffix)
    lines = path.read_bytes().splitlines(keepends=True)
    return b"".join(it for it in lines if mark is None or not it.lstrip().startswith(mark))


def lay_out(room, names, *left_out):
    """Makes a repository in this folder that has these crates alone, without what has these names in them."""
    for name in names:
        shutil.copytree(top / "crates" / name, room / "crates" / name, ignore=shutil.ignore_patterns(*left_out))
    (room / "crates.txt").write_text("".join(line for name, line in listed().items() if name in names))
    shutil.copy(top / "HANDLES", room)
    (room / ".git").mkdir()


def jobs():
    """How many checks to run side by side: RT_JOBS of the environment, as the toolchain reads it, or as many as there are processors."""
    return int(os.environ.get("RT_JOBS") or len(os.sched_getaffinity(0)))
