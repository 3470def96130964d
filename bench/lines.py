"""What lines at a prompt take by the functions of the tools: calls of the system, processes, and the time where each
call of a file system is slow (calls.py).

Each number is the difference of two scripts of a shell: both take the init file of a tool, and one does the line. All
processes count. A tool keeps its home from the first line to the last.
"""

import os
import shlex
import subprocess
import tempfile

from calls import DELAY, SLOW_FLAGS, is_call, print_row, seconds, traced
from tools import find_tools

# The seconds after which a script is stopped.
LIMIT = 20

SHELLS = {"bash": ["bash", "--norc"], "tcsh": ["tcsh", "-f"]}

# Where the completion for bash stands, beside the init file of a tool.
COMPLETIONS = ("bash_completion", "lmod_bash_completions", "../completion/bash")

COMPLETES = 'COMP_WORDS=(module load {0}) COMP_CWORD=2 COMP_LINE="module load {0}" COMP_POINT=99; _module module {0} load'


class Line:
    """A line of a shell, and the folder of its modulefiles. It may complete a word, or be at a terminal, where `q` leaves
    the pager."""

    def __init__(self, title, shell, modules, text, completes=False, at_terminal=False):
        self.title, self.shell, self.modules, self.text = title, shell, modules, text
        self.completes, self.at_terminal = completes, at_terminal


# What an interactive shell sets of its terminal, and a script doesn't.
AT_PROMPT = {"LINES": "24", "COLUMNS": "80"}

LINES = [
    Line("a mistyped name, 20,000 files", "bash", "20000", "module load nope"),
    Line("a version that isn't there", "bash", "20000", "module load name3999/9"),
    Line("name7<TAB>, 20,000 files", "bash", "20000", COMPLETES.format("name7"), completes=True),
    Line("n<TAB>, 2,000 files", "bash", "2000", COMPLETES.format("n"), completes=True),
    Line("keyword, 2,000 files", "bash", "2000", "module keyword name"),
    Line("avail at a terminal, 2,000 files", "bash", "2000", "module avail", at_terminal=True),
    Line("load 1 in tcsh", "tcsh", "few", "module load m0"),
    Line("ml m0 in tcsh", "tcsh", "few", "ml m0"),
    Line("ml in tcsh", "tcsh", "few", "ml"),
    Line("a refused load in tcsh", "tcsh", "few", "module load nope"),
    Line("avail to a file in tcsh", "tcsh", "few", "module avail >& /dev/null"),
]


def sources(tool, folder, line):
    """The lines that take the files of a tool, or none where it has none for the shell."""
    init = tool.init_file(folder, line.shell)
    if init is None:
        return None
    beside = [os.path.join(tool.init_folder(folder), path) for path in COMPLETIONS if line.completes]
    return [f"source {shlex.quote(path)}" for path in [init, *filter(os.path.exists, beside)]]


def traced_beyond(folder, tool, line, env, *flags):
    """What strace writes of the script without the line, and of that with it. None where a tool can't do it, and
    nothing where it is stopped."""
    taken = sources(tool, folder, line)
    if taken is None:
        return None
    script, found = os.path.join(folder, "script"), []
    for lines in (taken, [*taken, line.text]):
        with open(script, "w", encoding="utf-8") as file:
            file.writelines(text + "\n" for text in [*lines, "exit 0"])
        command = [*SHELLS[line.shell], script]
        if line.at_terminal:
            command = ["script", "-qec", shlex.join(command), os.devnull]
            env = {**env, **AT_PROMPT}
        try:
            found.append(traced(folder, command, env, *flags, limit=LIMIT, typed=b"q" if line.at_terminal else None))
        except subprocess.TimeoutExpired:
            return []
    return found if all(found) else None


def processes(lines):
    return len({line.split()[0] for line in lines})


def calls_of(folder, tool, line, env):
    """The calls that a line makes, and its processes."""
    found = traced_beyond(folder, tool, line, env)
    if not found:
        return tool.cannot if found is None else f"stopped after {LIMIT} s"
    calls, started = ([count(lines) for lines in found] for count in (lambda it: sum(map(is_call, it)), processes))
    return f"{calls[1] - calls[0]:,} by {started[1] - started[0]}"


def slow_time(folder, tool, line, env):
    """The time of a line with a slow file system, in seconds."""
    found = traced_beyond(folder, tool, line, env, *SLOW_FLAGS)
    if not found:
        return tool.cannot if found is None else f"more than {LIMIT}"
    return f"{seconds(found[1]) - seconds(found[0]):.3f}"


def print_lines(folder, program):
    """Prints the two tables."""
    tools = find_tools(program)
    homes = {tool: tempfile.mkdtemp(prefix="home-", dir=folder) for tool in tools}
    for title, count in (
        ("Calls of the system that a line makes, and its processes", calls_of),
        (f"Seconds of a line with each call of a file system delayed by {DELAY} microseconds", slow_time),
    ):
        print(f"\n{title}:\n")
        print_row("", [tool.title for tool in tools])
        for line in LINES:
            env = {"MODULEPATH": os.path.join(folder, line.modules), "PATH": "/usr/bin:/bin", "TERM": "xterm"}
            print_row(line.title, [count(folder, tool, line, {**env, "HOME": homes[tool]}) for tool in tools])
