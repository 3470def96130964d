"""What commands take, beside a native program that reads one file, and beside Environment Modules and Lmod.

    run.py PROGRAM

prints a table of ratios, all of one run: each number says how many times the processor time of the native program a
command takes. The commands of a row take turns, and the least time of each counts. Behind it stand the calls of the
system that they make, the times of some where each call of a file system is slow, the instructions of a load, counted
by callgrind, where something grows, what a further one costs, and what the start of the process is of them.

    run.py PROGRAM times | calls | slow | lines | instructions | growth | start

prints one of them. What is asked of some of these cases is in goals.py, and is printed last.
"""

import os
import shutil
import subprocess
import sys
import tempfile

from calls import Login, print_calls, print_slow
from goals import print_goals
from growth import print_growth
from instructions import print_instructions
from lines import print_lines
from start import print_start
from tools import HOW_TO_INSTALL, Null, find_tools

HERE = os.path.dirname(os.path.abspath(__file__))

# The rounds of a row, and the seconds after which a tool has had enough of them.
ROUNDS = 20
ENOUGH = 3.0

TURNS = 33_000
ENTRIES = 2_000
VARIABLES = 5_000

# A row of each table, and one that shells do by the tools' functions.
EVERY = ("times", "calls", "slow")
LOGIN = ("calls", "slow", "login")


def write(path, text):
    os.makedirs(os.path.dirname(path), exist_ok=True)
    with open(path, "w") as file:
        file.write("#%Module\n" + text)


def tree(folder, names, versions):
    """A folder of modulefiles."""
    for name in range(names):
        for version in range(versions):
            write(os.path.join(folder, f"name{name}", f"{version}.0"), f"setenv NAME{name} {version}\n")


class Row:
    """A command, and where it starts: the variables, and the modules that are loaded before, one by one. Its parts are
    the tables in which it has a line."""

    def __init__(self, title, words, env, before=(), parts=("times", "calls")):
        self.title = title
        self.words = words
        self.env = env
        self.before = before
        self.parts = parts


def rows(folder):
    """The cases of the table."""
    few = os.path.join(folder, "few")
    for number in range(20):
        write(os.path.join(few, f"m{number}", "1.0"), f"setenv M{number} on\nprepend-path PATH /opt/m{number}/bin\n")
    write(os.path.join(few, "loop", "1.0"), f"set i 0\nwhile {{$i < {TURNS}}} {{incr i}}\nsetenv TURNS $i\n")
    tree(os.path.join(folder, "2000"), 400, 5)
    tree(os.path.join(folder, "20000"), 4000, 5)
    twenty = [f"m{number}/1.0" for number in range(20)]

    def env(modules, **variables):
        base = {"MODULEPATH": os.path.join(folder, modules), "PATH": "/usr/bin:/bin", "HOME": folder, "LANG": "C.UTF-8"}
        return {**base, **variables}

    entries = "/usr/bin:/bin:" + ":".join(f"/opt/entry{number}/bin" for number in range(ENTRIES))
    many = {f"VARIABLE_{number}": f"value {number}" for number in range(VARIABLES)}
    return [
        Row("load 1", ["load", "m0/1.0"], env("few")),
        Row("load 20 in one command", ["load", *twenty], env("few")),
        Row("unload 1 of 1", ["unload", "m0/1.0"], env("few"), twenty[:1]),
        Row("unload 1 of 20", ["unload", "m7/1.0"], env("few"), twenty),
        Row("purge 20", ["purge"], env("few"), twenty),
        Row("list 20", ["list"], env("few"), twenty),
        Row("avail, 2,000 files", ["avail"], env("2000"), parts=EVERY),
        Row("avail, 20,000 files", ["avail"], env("20000"), parts=("times",)),
        Row("avail name77/, 2,000 files", ["avail", "name77/"], env("2000"), parts=EVERY),
        Row("avail name77, 2,000 files", ["avail", "name77"], env("2000"), parts=EVERY),
        Row("avail name777, 20,000 files", ["avail", "name777"], env("20000"), parts=("times",)),
        Row("load 1 of 20,000 files", ["load", "name2000/3.0"], env("20000")),
        Row("load name7, 2,000 files", ["load", "name7"], env("2000"), parts=EVERY),
        Row(f"load, a Tcl loop of {TURNS:,} turns", ["load", "loop/1.0"], env("few")),
        Row(f"load 1, PATH of {ENTRIES:,} entries", ["load", "m0/1.0"], env("few", PATH=entries)),
        Row(f"load 1, {VARIABLES:,} variables", ["load", "m0/1.0"], env("few", **many)),
        Row("login, a restore of 10", ["restore"], env("few"), parts=LOGIN),
    ]


def spent(command, env, out=os.devnull):
    """The seconds of processor time of a command, and whether it ended with status 0."""
    quiet = os.open(os.devnull, os.O_RDWR)
    written = os.open(out, os.O_WRONLY | os.O_CREAT | os.O_TRUNC, 0o600)
    actions = [(os.POSIX_SPAWN_DUP2, number, place) for place, number in ((0, quiet), (1, written), (2, quiet))]
    _, status, usage = os.wait4(os.posix_spawn(command[0], command, env, file_actions=actions), 0)
    os.close(quiet)
    os.close(written)
    return usage.ru_utime + usage.ru_stime, status == 0


def measured(tools, row, folder):
    """The least time of each tool that can do it."""
    starts, least, total = {}, {}, {}
    out = os.path.join(folder, "out")
    for tool in tools:
        starts[tool] = tool.start(row)
        if starts[tool] is not None:
            seconds, accepted = spent(tool.command(row), starts[tool], out)
            if accepted and tool.accepted(out):
                least[tool] = total[tool] = seconds
    for turn in range(ROUNDS):
        for tool in least:
            # What a first command keeps for later ones counts for these.
            if turn == 0 or total[tool] < ENOUGH:
                seconds, _ = spent(tool.command(row), starts[tool])
                least[tool] = min(least[tool], seconds)
                total[tool] += seconds
    return least


def print_times(tools, folder):
    others = tools[1:]
    print("Processor time, as a multiple of that of a native program that reads one file (its own in milliseconds):\n")
    print(f"{'':36}{'null':>10}" + "".join(f"{tool.title:>28}" for tool in others))
    for row in with_part(rows(folder), "times"):
        least = measured(tools, row, folder)
        null = least[tools[0]]
        cells = [f"{least[tool] / null:,.1f}" if tool in least else tool.cannot for tool in others]
        print(f"{row.title:36}{null * 1000:8.2f}ms" + "".join(f"{cell:>28}" for cell in cells), flush=True)
    print(HOW_TO_INSTALL)


def with_part(rows, part):
    return [row for row in rows if part in row.parts]


def print_traced(program, folder, part, printed):
    """Prints a table that strace makes."""
    tools = find_tools(program)
    logins = [Login(tool, folder) for tool in tools]
    printed(folder, [(row, logins if "login" in row.parts else tools) for row in with_part(rows(folder), part)])


def main():
    program = os.path.abspath(sys.argv[1])
    part = sys.argv[2] if len(sys.argv) > 2 else ""
    folder = tempfile.mkdtemp(prefix="modulecmd-bench-")
    try:
        null = os.path.join(folder, "null")
        subprocess.run(["rustc", "-O", "-o", null, os.path.join(HERE, "null.rs")], check=True)
        if part in ("", "times"):
            print_times([Null(null), *find_tools(program)], folder)
        if part in ("", "calls"):
            print_traced(program, folder, "calls", print_calls)
        if part in ("", "slow"):
            print_traced(program, folder, "slow", print_slow)
        if part in ("", "lines"):
            rows(folder)
            print_lines(folder, program)
        if part in ("", "instructions"):
            print_instructions(folder, null, program)
        if part in ("", "growth"):
            print_growth(folder, program)
        if part in ("", "start"):
            print_start(folder, null, program)
        if part == "":
            print_goals(program)
    finally:
        shutil.rmtree(folder)


if __name__ == "__main__":
    main()
