"""Counts the instructions of a load by callgrind, where something grows.

Each row has the instructions of one load; `a further one` is the difference to the row above by each variable, entry
or command more. Callgrind gives the process another environment than the system keeps for it, so the program there
asks for its variables one by one, which grows with the square of their number. The time of the same loads without
callgrind shows how they really grow.
"""

import os
import re
import resource
import subprocess
import sys

from tools import Tool

COLLECTED = re.compile(rb"Collected *: *(\d+)")


def instructions(folder, command, env, *flags, status=0):
    """The instructions of a command, which has to end with this status; with callgrind's flags those that it collects."""
    out = "--callgrind-out-file=" + os.path.join(folder, "callgrind")
    done = subprocess.run(
        ["valgrind", "--tool=callgrind", out, *flags, *command],
        env=env,
        stdin=subprocess.DEVNULL,
        capture_output=True,
        check=False,
    )
    found = COLLECTED.search(done.stderr)
    if done.returncode != status or not found:
        sys.exit(f"{command} ended with status {done.returncode}:\n{done.stderr.decode(errors='replace')}")
    return int(found[1])


def module(folder, name, text):
    path = os.path.join(folder, "m", name)
    os.makedirs(os.path.dirname(path), exist_ok=True)
    with open(path, "w") as file:
        file.write("#%Module\n" + text)
    return path


def names(count):
    return [f"m{number}/1.0" for number in range(count)]


def print_requests(folder, program):
    """What loads of several names, unloads and reports cost beside one load."""
    env = environment(folder)
    for name in names(20):
        module(folder, name, f"setenv {name[:-4].upper()} on\nprepend-path PATH /opt/{name}/bin\n")
    tool = Tool("modulecmd", [program, "bash"])

    def counted(words, env):
        return instructions(folder, [program, "sh", *words], env)

    sizes = (1, 5, 20)
    growth("names of one load", [(count, counted(["load", *names(count)], env)) for count in sizes])
    loaded = [(count, tool.run(["load", *names(count)], env)) for count in sizes]
    growth("modules of one purge", [(count, counted(["purge"], after)) for count, after in loaded])
    growth("modules of one list", [(count, counted(["list"], after)) for count, after in loaded])
    growth("modules beside an unload of one", [(count, counted(["unload", "m0"], after)) for count, after in loaded])
    rows = []
    for count in (200, 2000, 20000):
        for number in range(count):
            module(folder, f"{count}/name{number // 5}/{number % 5}.0", "")
        rows.append((count, counted(["avail"], {**env, "MODULEPATH": os.path.join(folder, "m", str(count))})))
    growth("files of one avail", rows)


def environment(folder, variables=0, entries=0, counter=1):
    entries = [f"/opt/entry{number}/bin" for number in range(entries)]
    env = {"MODULEPATH": os.path.join(folder, "m"), "PATH": ":".join(["/usr/bin", "/bin", *entries])}
    if counter > 1:
        env["__MODULES_SHARE_PATH"] = ":".join(f"{entry}:{counter}" for entry in entries)
    for number in range(variables):
        env[f"VARIABLE_{number}"] = f"value {number}"
    return env


def nanoseconds(command, env):
    """The least processor time of twenty runs of a command."""
    best = None
    for _ in range(20):
        before = resource.getrusage(resource.RUSAGE_CHILDREN)
        subprocess.run(command, env=env, stdin=subprocess.DEVNULL, capture_output=True, check=True)
        after = resource.getrusage(resource.RUSAGE_CHILDREN)
        spent = after.ru_utime + after.ru_stime - before.ru_utime - before.ru_stime
        best = spent if best is None else min(best, spent)
    return int(best * 1e9)


def growth(title, rows):
    """Prints rows of a count and what it costs."""
    print(f"\n{title}")
    before = None
    for count, spent in rows:
        more = "" if before is None else f"   a further one: {(spent - before[1]) / (count - before[0]):10,.0f}"
        print(f"{count:8,} {spent:14,}{more}", flush=True)
        before = (count, spent)


def print_instructions(folder, null, program):
    foo = module(folder, "foo/1.0", "setenv FOO on\nprepend-path PATH /opt/foo/bin\n")

    def load(name, env):
        return instructions(folder, [program, "sh", "load", name], env)

    base = instructions(folder, [null, foo], environment(folder))
    one = load("foo/1.0", environment(folder))
    print("Instructions, by callgrind:\n")
    print(f"a native program that reads the file: {base:14,}")
    print(f"a load of the module:                 {one:14,}   {one / base:.2f} times as many")
    sizes = (10, 100, 1000)
    growth("variables in the environment", [(count, load("foo/1.0", environment(folder, count))) for count in sizes])
    growth(
        "variables in the environment, in nanoseconds of processor time",
        [
            (count, nanoseconds([program, "sh", "load", "foo/1.0"], environment(folder, count)))
            for count in (10, 100, 1000, 10000, 20000)
        ],
    )
    growth("entries of PATH", [(count, load("foo/1.0", environment(folder, entries=count))) for count in sizes])
    growth(
        "entries of PATH, each counted twice",
        [(count, load("foo/1.0", environment(folder, entries=count, counter=2))) for count in sizes],
    )
    for form, title in (
        ("setenv V{0} v{0}\n", "setenv, each of another variable"),
        ("prepend-path V{0} /v{0}\n", "prepend-path, each of another variable"),
        ("prepend-path V /v{0}\n", "prepend-path, all of one variable"),
    ):
        rows = []
        for count in sizes:
            name = f"{title.replace(' ', '_').replace(',', '')}/{count}"
            module(folder, name, "".join(form.format(number) for number in range(count)))
            rows.append((count, load(name, environment(folder))))
        growth(title, rows)
    print_requests(folder, program)
