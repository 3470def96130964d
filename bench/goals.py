"""What some commands take, what is asked of them, and whether that is met: a line a goal.

    goals.py PROGRAM

Instructions are those of the whole process, counted by callgrind: no other work on the machine changes them. `by each`
says what a file, an entry, a variable, a turn or a byte more takes: the difference to a load of one module, divided by
their number. Times are processor time, as a multiple of that of a program that does the least: it reads one file, or
for `avail` it lists the files, reads their first bytes and prints their names (floor.c). Both run in the same
environment. Calls of the system are counted by strace; a goal whose title begins so is about them. A share is that of
the instructions of another case.

In `avail` the kit sets a limit: each file is looked at before it is opened, both by its whole path, and for each path
the kit zeroes and copies 4,096 bytes. So what is asked of it is asked of the instructions beyond the kit's own, and of
the time beside a program that makes the same calls. A second line says what the kit's part is, and what the time is beside the
program that does without these calls.
"""

import os
import shutil
import subprocess
import sys
import tempfile

from calls import system_calls
from instructions import instructions
from tools import Tool

HERE = os.path.dirname(os.path.abspath(__file__))

NAMES = 20
ENTRIES = 2_000
VARIABLES = 5_000
FILES = 2_000
MORE_FILES = 20_000
FILES_OF_FOLDER = 5
TURNS = 33_000
BYTES = 200_000

# What a call of the system with a path takes in the kit's own code, by callgrind: a buffer is zeroed, and handed on by
# value; where it opens a file, the kit's function takes some more. A folder of `avail` takes one such call, a file two,
# of which one opens it.
CALL_BY_PATH = 4_111 + 420
OPENING = 580
KIT_OF_FILE = (2 + 1 / FILES_OF_FOLDER) * CALL_BY_PATH + OPENING

# What the functions of shells ask where a word behind `load` is completed.
COMPLETED = ["names", "at", "module", "load"]

# What each case is beside, where something is by each.
FIRST = "load 1"

# The rounds of a time: the least of them counts.
ROUNDS = 40

# Eight commands, as a modulefile of a package has them.
PACKAGE = """module-whatis "{0} for everybody"
conflict {0}
setenv {1}_HOME /opt/{0}
setenv {1}_VERSION 1.0
prepend-path PATH /opt/{0}/bin
prepend-path LD_LIBRARY_PATH /opt/{0}/lib
prepend-path MANPATH /opt/{0}/share/man
append-path PKG_CONFIG_PATH /opt/{0}/lib/pkgconfig
"""

# What is read and not evaluated: the whole text is parsed before its first command runs, and the first returns.
LINES = """# a comment about what follows
set {{name_{0}}} "the value of $base and [list a b c]"
if {{$name_{0} eq "none"}} {{ prepend-path PATH /opt/package_{0}/bin }}
setenv PACKAGE_{0} /opt/package_{0}/lib/long/path
"""


class Case:
    """A command in an environment: `more` are the files, entries or turns that it has beside a load of one module,
    `least` the programs that it is timed beside, of which the first counts. Where it is one of a function, `asker` says
    which to the program that is behind it; `status` is the one that it ends with."""

    def __init__(self, title, words, env, more=1, least=("null",), asker=None, status=0):
        self.title, self.words, self.env, self.more, self.least = title, words, env, more, least
        self.asker, self.status = asker, status

    def command(self, program):
        if self.asker is None:
            return [program, "sh", *self.words]
        return [os.path.join(os.path.dirname(program), "module"), self.asker, *self.words]


class Goal:
    """What is asked of a case: its instructions, in all or by each, and its time where one is asked. Of `kit` of the
    instructions nothing is asked: they are the kit's own. Where something else is counted, `counter` does that."""

    def __init__(self, title, most, by_each=None, times=None, kit=0, case=None, counter=instructions, share_of=None):
        self.title, self.most, self.by_each, self.times, self.kit = title, most, by_each, times, kit
        self.case, self.counter, self.share_of = case or title, counter, share_of


def of_calls(case, most, by_each=None):
    """What is asked of the calls of the system of a case: that a file is opened once, and not looked at before."""
    return Goal(f"system calls of {case}", most, by_each=by_each, case=case, counter=system_calls)


GOALS = [
    Goal("load 1", 120_000, times=0.65),
    Goal("unload 1", 120_000, times=0.65),
    Goal("load 20", 2_600_000, times=1.5),
    Goal("purge 20", 2_300_000, times=1.5),
    Goal("load 1, PATH of 2,000 entries", 300, by_each="entry", times=1.15),
    Goal("load 1, 5,000 variables", 1_000, by_each="variable", times=1.2),
    Goal("avail, 2,000 files", 6_000, by_each="file", times=1.3, kit=KIT_OF_FILE),
    Goal("avail TEXT, 20,000 files", 6_500_000),
    Goal("avail TEXT as a share of avail", 0.02, case="avail TEXT, 20,000 files", share_of="avail, 20,000 files"),
    Goal("a loop of 33,000 turns", 1_200, by_each="turn"),
    Goal("parsing 200,000 bytes", 50, by_each="byte"),
    Goal("parsing 1,000,000 bytes", 50, by_each="byte"),
    of_calls("load 1", 25),
    of_calls("avail, 2,000 files", 3.8, by_each="file"),
    of_calls("avail TEXT, 20,000 files", 99),
    of_calls("a mistyped name, 20,000 files", 120),
    of_calls("a version that isn't there, 20,000 files", 120),
    of_calls("completion of name7, 20,000 files", 120),
    of_calls("completion of a letter, 2,000 files", 50),
    of_calls("keyword, 2,000 files", 6.1, by_each="file"),
]


def write(folder, name, text):
    path = os.path.join(folder, name)
    os.makedirs(os.path.dirname(path), exist_ok=True)
    with open(path, "w", encoding="utf-8") as file:
        file.write("#%Module\n" + text)


def parsed(size):
    """A text of this size, about, of which nothing is evaluated but its first command."""
    line = LINES.format(1000)
    return "return\n" + "".join(LINES.format(1000 + turn) for turn in range(size // len(line)))


def write_files(folder, name, count):
    """Writes so many files, and gives the path of their folder."""
    for number in range(count):
        path = f"name{number // FILES_OF_FOLDER}/{number % FILES_OF_FOLDER}.0"
        write(os.path.join(folder, name), path, f"setenv NAME {number}\n")
    return os.path.join(folder, name)


def cases_of_files(env, folder):
    """One folder of the larger site has a name that begins with the text of `avail`, and one of its files."""
    many = {**env, "MODULEPATH": write_files(folder, "many", FILES)}
    more = {**env, "MODULEPATH": write_files(folder, "more", MORE_FILES)}
    return [
        Case("avail, 2,000 files", ["avail"], many, FILES, ("floor of the kit", "floor")),
        Case("avail, 20,000 files", ["avail"], more, MORE_FILES),
        Case("avail TEXT, 20,000 files", ["avail", "name777/3"], more),
        Case("a mistyped name, 20,000 files", ["load", "nope"], more, asker="sh:", status=1),
        Case("a version that isn't there, 20,000 files", ["load", "name777/9"], more, asker="sh:", status=1),
        Case("completion of name7, 20,000 files", [*COMPLETED, "name7"], more, asker="bash"),
        Case("completion of a letter, 2,000 files", [*COMPLETED, "n"], many, asker="bash"),
        Case("keyword, 2,000 files", ["keyword", "name"], many, FILES, asker="sh::"),
    ]


def cases(program, folder):
    """The cases of the goals."""
    few = os.path.join(folder, "few")
    write(few, "m/1.0", "setenv M on\nprepend-path PATH /opt/m/bin\n")
    for number in range(NAMES):
        write(few, f"p{number}/1.0", PACKAGE.format(f"p{number}", f"P{number}"))
    write(few, "loop/1.0", f"set i 0\nwhile {{$i < {TURNS}}} {{incr i}}\nsetenv TURNS $i\n")
    for size in (BYTES, 5 * BYTES):
        write(few, f"parsed/{size}", parsed(size))
    env = {"MODULEPATH": few, "PATH": "/usr/bin:/bin", "HOME": folder, "LANG": "C.UTF-8"}
    packages = [f"p{number}/1.0" for number in range(NAMES)]
    tool = Tool("modulecmd", [program, "bash"])
    entries = "/usr/bin:/bin:" + ":".join(f"/opt/entry{number}/bin" for number in range(ENTRIES))
    variables = {f"VARIABLE_{number}": f"value {number}" for number in range(VARIABLES)}
    return [
        Case("load 1", ["load", "m/1.0"], env),
        Case("unload 1", ["unload", "m/1.0"], tool.run(["load", "m/1.0"], env)),
        Case("load 20", ["load", *packages], env),
        Case("purge 20", ["purge"], tool.run(["load", *packages], env)),
        Case("load 1, PATH of 2,000 entries", ["load", "m/1.0"], {**env, "PATH": entries}, ENTRIES),
        Case("load 1, 5,000 variables", ["load", "m/1.0"], {**env, **variables}, VARIABLES),
        *cases_of_files(env, folder),
        Case("a loop of 33,000 turns", ["load", "loop/1.0"], env, TURNS),
        Case("parsing 200,000 bytes", ["load", f"parsed/{BYTES}"], env, BYTES),
        Case("parsing 1,000,000 bytes", ["load", f"parsed/{5 * BYTES}"], env, 5 * BYTES),
    ]


def counts(program, folder, titles):
    """What the goals with these titles count: in all, by each, or as a share."""
    made = {case.title: case for case in cases(program, folder)}
    spent = {}

    def counted(counter, title):
        if (counter, title) not in spent:
            case = made[title]
            spent[counter, title] = counter(folder, case.command(program), case.env, status=case.status)
        return spent[counter, title]

    def found(goal):
        count = counted(goal.counter, goal.case)
        if goal.share_of:
            return count / counted(goal.counter, goal.share_of)
        if goal.by_each:
            return (count - counted(goal.counter, FIRST)) / made[goal.case].more
        return count

    return {goal.title: found(goal) for goal in GOALS if goal.title in titles}


def least_time(command, env):
    """The least processor time of some runs of a command, in seconds."""
    quiet = os.open(os.devnull, os.O_RDWR)
    times = []
    for _ in range(ROUNDS):
        actions = [(os.POSIX_SPAWN_DUP2, quiet, place) for place in range(3)]
        _, status, usage = os.wait4(os.posix_spawn(command[0], command, env, file_actions=actions), 0)
        if status != 0:
            sys.exit(f"{command} ended with status {status}")
        times.append(usage.ru_utime + usage.ru_stime)
    os.close(quiet)
    return min(times)


def least_programs(folder):
    """The commands that do the least, by the names that cases have for them."""
    for source, words in (("null.rs", ["rustc", "-O"]), ("floor.c", ["cc", "-O2"])):
        made = os.path.join(folder, os.path.splitext(source)[0])
        subprocess.run([*words, "-o", made, os.path.join(HERE, source)], check=True)
    floor = [os.path.join(folder, "floor"), os.path.join(folder, "many")]
    return {
        "null": [os.path.join(folder, "null"), os.path.join(folder, "few", "m", "1.0")],
        "floor": floor,
        "floor of the kit": [*floor, "kit"],
    }


def multiples(program, folder):
    """The times of each case whose goal has one, as multiples of those of the programs that do the least."""
    least = least_programs(folder)
    timed = {goal.title for goal in GOALS if goal.times}
    times = {}
    for case in cases(program, folder):
        if case.title in timed:
            spent = least_time(case.command(program), case.env)
            times[case.title] = [spent / least_time(least[name], case.env) for name in case.least]
    return times


def written(count):
    """A count; a small one with its fraction."""
    return f"{count:,.0f}" if count >= 20 or count == int(count) else f"{count:.3f}"


def print_goal(goal, spent, times):
    """Prints the line of a goal; where the kit has a part of it, a second line with that part and the other time."""
    time, *others = times or [None]
    ours = spent - goal.kit
    met = ours <= goal.most and (time is None or time <= goal.times)
    by = f"by {goal.by_each}" if goal.by_each else "" if goal.share_of else "in all"
    beside = f"{time:6.2f}{goal.times:7.2f}" if time else f"{'':13}"
    print(f"{goal.title:38}{written(ours):>14}{goal.most:12,}  {by:12}{beside}  {'met' if met else 'not met'}")
    if goal.kit:
        plain = "".join(f"{other:6.2f}" for other in others)
        print(f"{f'  and the kit, of {spent:,.0f}':38}{goal.kit:14,.0f}{'':14}{'':12}{plain}  without the kit's calls")


def print_goals(program):
    """Prints a line for each goal."""
    folder = tempfile.mkdtemp(prefix="modulecmd-goals-")
    try:
        found = counts(program, folder, [goal.title for goal in GOALS])
        times = multiples(program, folder)
    finally:
        shutil.rmtree(folder)
    print(f"\n{'':38}{'instructions':>14}{'asked':>12}  {'':12}{'times':>6}{'asked':>7}")
    for goal in GOALS:
        print_goal(goal, found[goal.title], times.get(goal.title))


if __name__ == "__main__":
    print_goals(os.path.abspath(sys.argv[1]))
