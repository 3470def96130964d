"""What the start of a process costs: instructions outside of `main` and in it, system calls and page faults.

The program that is installed has its C library in itself. The one that stands beside it is made of the same object, and
the system's loader brings the C library to it, as it does for the native program that reads one file.
"""

import os
import sys

from calls import system_calls
from instructions import environment, instructions, module


def page_faults(command, env):
    """The least count of pages that the system had to bring, of some runs."""
    quiet = os.open(os.devnull, os.O_RDWR)
    counts = []
    for _ in range(5):
        actions = [(os.POSIX_SPAWN_DUP2, quiet, place) for place in range(3)]
        _, status, usage = os.wait4(os.posix_spawn(command[0], command, env, file_actions=actions), 0)
        if status != 0:
            sys.exit(f"{command} ended with status {status}")
        counts.append(usage.ru_minflt)
    os.close(quiet)
    return min(counts)


def print_start(folder, null, program):
    """Prints the table, a line for each program."""
    foo = module(folder, "start/1.0", "setenv FOO on\nprepend-path PATH /opt/foo/bin\n")
    env, words = environment(folder), ["sh", "load", "start/1.0"]
    commands = [("native, reads one file", [null, foo]), ("installed: load 1", [program, *words])]
    beside = os.path.join(os.path.dirname(program), "dynamic", os.path.basename(program))
    if os.path.exists(beside):
        commands.append(("linked dynamically: load 1", [beside, *words]))
    print("\nThe start of a process:\n")
    print(f"{'':30}{'outside main':>14}{'in main':>12}{'system calls':>14}{'page faults':>13}")
    for title, command in commands:
        total = instructions(folder, command, env)
        within = instructions(folder, command, env, "--toggle-collect=main")
        calls, faults = system_calls(folder, command, env), page_faults(command, env)
        print(f"{title:30}{total - within:14,}{within:12,}{calls:14,}{faults:13,}", flush=True)
