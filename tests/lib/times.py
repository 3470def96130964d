"""The processor time of a run of the gate, by crate and by part.

The gate prints no times, so its processes are looked at while they run, once a second. What a process uses after the
last look isn't seen, nor a process that is shorter; it counts in the whole, which the system tells exactly.
"""

import os
import resource
import tempfile
import threading

TICKS = os.sysconf("SC_CLK_TCK")
INTERVAL = 1.0
PARTS = ("proof", "tests", "edits")


def children_seconds():
    """The processor seconds, user and system, of all processes that were started and have ended."""
    used = resource.getrusage(resource.RUSAGE_CHILDREN)
    return used.ru_utime + used.ru_stime


def processes():
    """Each process: its number and start, its parent, and its processor seconds."""
    found = {}
    for name in os.listdir("/proc"):
        if not name.isdigit():
            continue
        try:
            with open(f"/proc/{name}/stat", "rb") as file:
                fields = file.read().rpartition(b") ")[2].split()
        except OSError:
            continue
        found[int(name)] = (int(fields[1]), int(fields[19]), (int(fields[11]) + int(fields[12])) / TICKS)
    return found


def part_of(number):
    """The crate and the part that a process checks, or None: what it was started with names them."""
    try:
        with open(f"/proc/{number}/cmdline", "rb") as file:
            words = file.read().decode(errors="replace").split("\0")
        folder = os.readlink(f"/proc/{number}/cwd")
    except OSError:
        return None
    if "--crate-name" not in words[:-1]:
        return None
    crate = words[words.index("--crate-name") + 1]
    if folder.startswith(os.path.join(tempfile.gettempdir(), "rt-edit-")):
        return crate, "edits"
    return crate, "tests" if "--test" in words else "proof"


class Sampler:
    """Looks at the processes below one of them, until it is left."""

    def __init__(self, root):
        self.root = root
        self.seen = {}
        self.ended = threading.Event()
        self.thread = threading.Thread(target=self.look_again, daemon=True)

    def __enter__(self):
        self.thread.start()
        return self

    def __exit__(self, *_):
        self.ended.set()
        self.thread.join()

    def look_again(self):
        while not self.ended.wait(INTERVAL):
            self.look()

    def look(self):
        found = processes()
        for number, (_, start, seconds) in found.items():
            part = self.part_above(found, number)
            if part is not None:
                self.seen[number, start] = (part, seconds)

    def part_above(self, found, number):
        """The part of a process below the root, or of the nearest process above it that has one."""
        part = None
        while number in found and number != self.root:
            part = part or part_of(number)
            number = found[number][0]
        return part if number == self.root else None

    def crates(self):
        """The seconds of each crate's parts."""
        spent = {}
        for (crate, part), seconds in self.seen.values():
            of_crate = spent.setdefault(crate, dict.fromkeys(PARTS, 0.0))
            of_crate[part] += seconds
        return spent


def row(title, cells):
    return f"{title:<30}" + "".join(f"{cell:>10}" for cell in cells)


def table(crates, spent):
    """What each crate took in the gate, and what each command took."""
    lines = ["== processor seconds, user and system"]
    lines += [row("crate", (*PARTS, "all"))] if crates else []
    sums = dict.fromkeys(PARTS, 0.0)
    for name, parts in sorted(crates.items()):
        lines.append(row(name, [f"{seconds:.0f}" for seconds in (*parts.values(), sum(parts.values()))]))
        sums = {part: sums[part] + parts[part] for part in PARTS}
    if crates:
        lines.append(row("all crates", [f"{seconds:.0f}" for seconds in (*sums.values(), sum(sums.values()))]))
    for name, seconds in spent.items():
        lines.append(row(name, ["", "", "", f"{seconds:.0f}"]))
    lines.append(f"processor minutes: {sum(spent.values()) / 60:.1f}")
    return "\n".join(lines)
