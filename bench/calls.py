"""The calls of the system that commands make, and what these take where each call of a file system is slow.

Calls are counted from the start of a command to its end, of all its processes. Those of the site are the ones among
them that name a path below its folder: on a network file system each of them may be a message.

Slow is a file system where each call that names a path, reads, lists or closes takes half a millisecond more, wherever
it leads: a tool's own files are on it as well. A tool has an empty home at the first row and keeps it to the last: what
it leaves there for later commands, as a cache, counts for these.
"""

import os
import re
import signal
import subprocess
import sys
import tempfile

from tools import Tool

# What stands in front of a line of strace that isn't a call, or ends one that began before.
NO_CALL = re.compile(r"^\d+ +(\+\+\+|---|<\.\.\.)")

# The calls that are slow, and by how many microseconds.
SLOW = "%file,read,pread64,getdents64,close"
DELAY = 500
SLOW_FLAGS = ("-ttt", "--seccomp-bpf", "-e", f"trace={SLOW}", "-e", f"inject={SLOW}:delay_enter={DELAY}")

# The runs of a slow command: the least time of them counts. One that takes some seconds runs once, and one that takes
# as many as the limit is stopped.
ROUNDS = 3
ENOUGH = 2.0
LIMIT = 60

MODULES = [f"m{number}/1.0" for number in range(10)]


def run(command, env, out=os.devnull, limit=None, typed=None, status=0):
    """Whether a command ends with this status, with what is typed at its standard input. One that takes longer than a
    limit is stopped, with all it started."""
    with open(out, "wb") as written:
        keys = subprocess.PIPE if typed else subprocess.DEVNULL
        streams = {"stdin": keys, "stdout": written, "stderr": subprocess.DEVNULL}
        with subprocess.Popen(command, env=env, start_new_session=True, **streams) as running:
            try:
                running.communicate(typed, timeout=limit)
                return running.returncode == status
            except subprocess.TimeoutExpired:
                os.killpg(running.pid, signal.SIGKILL)
                raise


def traced(folder, command, env, *flags, **of_run):
    """The lines that strace writes of a command and its processes, or none where it ends otherwise than `run` is told."""
    lines = os.path.join(folder, "traced")
    if not run(["strace", "-f", "-q", "-o", lines, *flags, *command], env, **of_run):
        return None
    with open(lines, encoding="utf-8", errors="replace") as file:
        return file.readlines()


def is_call(line):
    return not NO_CALL.match(line)


def seconds(lines):
    """The seconds from the first line of strace to the last."""
    return float(lines[-1].split()[1]) - float(lines[0].split()[1])


def system_calls(folder, command, env, status=0):
    """How many calls of the system a command makes, which has to end with this status."""
    lines = traced(folder, command, env, status=status)
    return sum(map(is_call, lines)) if lines else sys.exit(f"{command} failed below strace")


class Login:
    """A shell that takes the init file of a tool, and restores a collection of ten modules."""

    cannot = Tool.cannot
    restores = '. "$1" && module restore && test "${LOADEDMODULES#*m9/1.0}" != "$LOADEDMODULES"'
    saves = '. "$1" && shift && module load "$@" && module save'

    def __init__(self, tool, folder):
        self.title, self.init = tool.title, tool.init_file(folder)
        self.home = tempfile.mkdtemp(prefix="home-", dir=folder)

    def command(self, row):
        return ["bash", "--norc", "-c", self.restores, "login", self.init]

    def start(self, row):
        """The environment, with a collection in its home, or none where that can't be saved."""
        env = {**row.env, "HOME": self.home}
        saved = self.init and run(["bash", "--norc", "-c", self.saves, "login", self.init, *MODULES], env)
        return env if saved else None

    def accepted(self, out):
        return True


def lines_of(folder, tool, row, *flags, limit=None):
    """The lines that strace writes of what a row says, or none where a tool can't do it."""
    env, out = tool.start(row), os.path.join(folder, "out")
    if env is None:
        return None
    tool.home = tool.home or tempfile.mkdtemp(prefix="home-", dir=folder)
    lines = traced(folder, tool.command(row), {**env, "HOME": tool.home}, *flags, out=out, limit=limit)
    return lines if lines and tool.accepted(out) else None


def calls_of(folder, tool, row):
    """How many calls a tool makes, and how many of them name a path of the site, whole or below a folder of it."""
    site = re.escape(row.env["MODULEPATH"])
    named = re.compile(rf'"{site}["/]|<{site}[^>]*>, "[^"]')
    # Of all texts only paths are written.
    lines = lines_of(folder, tool, row, "-y", "-s", "0")
    if lines is None:
        return tool.cannot
    calls = list(filter(is_call, lines))
    return f"{len(calls):,} {sum(bool(named.search(line)) for line in calls):10,}"


def slow_time(folder, tool, row):
    """The least of some times between the first call of a tool and its end, in seconds, with a slow file system. None
    where it can't do it, and the limit where it is stopped."""
    times = []
    while not times or (len(times) < ROUNDS and sum(times) < ENOUGH):
        try:
            lines = lines_of(folder, tool, row, *SLOW_FLAGS, limit=LIMIT)
        except subprocess.TimeoutExpired:
            return LIMIT
        if lines is None:
            return None
        times.append(seconds(lines))
    return min(times)


def multiple(tool, time, first):
    """How many times the first one a time is, or that a tool was stopped then, or can't do it."""
    if time is None or first is None:
        return tool.cannot
    return f"{'more than ' if time == LIMIT else ''}{time / first:,.2f}"


def print_row(title, cells):
    print(f"{title:36}" + "".join(f"{cell:>28}" for cell in cells), flush=True)


def print_calls(folder, cases):
    """Prints the counts of each row, beside the tools that do it."""
    print("\nCalls of the system, and of them those that name a path of the site:\n")
    print_row("", [tool.title for tool in cases[0][1]])
    for row, tools in cases:
        print_row(row.title, [calls_of(folder, tool, row) for tool in tools])


def print_slow(folder, cases):
    """Prints the times of each row with a slow file system, as multiples of that of the first tool."""
    print(f"\nTimes with each call of a file system delayed by {DELAY} microseconds, as multiples of the first:\n")
    print_row("", [tool.title for tool in cases[0][1]])
    for row, tools in cases:
        times = [slow_time(folder, tool, row) for tool in tools]
        print_row(row.title, [multiple(tool, time, times[0]) for tool, time in zip(tools, times)])
