"""What processes take of this machine: seconds of its processors, and memory."""
import collections
import os
import pathlib

TICKS, PAGE = os.sysconf("SC_CLK_TCK"), os.sysconf("SC_PAGE_SIZE")

Process = collections.namedtuple("Process", "parent seconds waited memory")


def processes():
    """All processes, by their numbers: the parent's, the processor seconds of each and of those that it has waited for, and its bytes of memory."""
    found = {}
    for it in pathlib.Path("/proc").iterdir():
        if it.name.isdigit():
            try:
                fields = (it / "stat").read_text().rpartition(")")[2].split()
            except OSError:  # (it has ended)
                continue
            user, system, waited_user, waited_system = map(int, fields[11:15])
            found[int(it.name)] = Process(int(fields[1]), (user + system) / TICKS, (waited_user + waited_system) / TICKS, int(fields[21]) * PAGE)
    return found


def tree(found, root):
    """The numbers of a process and of all that it has started, as far as they go on."""
    children = collections.defaultdict(list)
    for number, it in found.items():
        children[it.parent].append(number)
    below, left = [], [root] if root in found else []
    while left:
        below.append(left.pop())
        left += children[below[-1]]
    return below


def words_of(number):
    """The command line of a process."""
    try:
        return pathlib.Path(f"/proc/{number}/cmdline").read_text(errors="replace").split("\0")
    except OSError:
        return []


def free_memory():
    """How many bytes can still be taken."""
    with open("/proc/meminfo") as file:
        return 1024 * next(int(line.split()[1]) for line in file if line.startswith("MemAvailable:"))


def processors():
    """How many processors to use: RT_JOBS of the environment, as the toolchain reads it, or as many as there are."""
    return int(os.environ.get("RT_JOBS") or len(os.sched_getaffinity(0)))
