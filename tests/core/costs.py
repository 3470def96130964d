"""Counts the instructions of some commands, or their calls of the system, and compares them with what
tests/core/costs.txt says.

A count that is more than a tenth above the one that is written there fails. Counts don't move with the machine's other
work; those of a C library of another version differ a little.
"""

import os
import re
import shutil
import subprocess
import tempfile

import pytest

import goals  # in bench/
from link import is_static  # in tools/
from tests.lib.harness import HERE, true

ABOVE = 1.1

# How many times the instructions of `modulecmd` the program behind the function may take for the same load.
ABOVE_MODULECMD = 1.15

# How many times the instructions of a further name of one load where FEW_NAMES are loaded it may take where MANY_NAMES are.
ABOVE_FEW, FEW_NAMES, MANY_NAMES = 1.3, 10, 200

# The calls of the system that lines in tcsh make beyond the init file. The shell makes some twenty for each command of a
# file that it sources.
IN_TCSH = {"module load m": 686, "ml m": 686, "ml": 594, "module load nope": 554, "module avail >& /dev/null": 611}

# What makes the counts of each function of bench/, and shows whether it can.
COUNTERS = {
    goals.instructions: ["valgrind", "--version"],
    goals.system_calls: ["strace", "-f", "-o", os.devnull, "true"],
}

GOALS = {goal.title: goal for goal in goals.GOALS}

NUMBER = re.compile(r"[0-9]{1,3}(,[0-9]{3})*(\.[0-9]+)?")


def count_in(line):
    """The title and the count of a line of the file."""
    title, _, count = line.rstrip("\n").rpartition(": ")
    true(title in GOALS and NUMBER.fullmatch(count), f"tests/core/costs.txt has titles of bench/goals.py with counts: {line!r}")
    return title, float(count.replace(",", ""))


def said():
    """The counts that are written down, by their titles."""
    with open(os.path.join(HERE, "core", "costs.txt"), encoding="utf-8") as lines:
        return dict(count_in(line) for line in lines if not line.startswith("#"))


def hindrance(words):
    """Why a program can't count here, or None where it can."""
    if not shutil.which(words[0]):
        return f"{words[0]}, which counts, isn't there"
    done = subprocess.run(words, stdin=subprocess.DEVNULL, capture_output=True, check=False)
    if done.returncode != 0:
        said_last = done.stderr.decode(errors="replace").strip().rpartition("\n")[2]
        return f"{words[0]}, which counts, isn't permitted here: {said_last}"
    return None


class Counts:
    """What the goals with these titles count of a program. Those of one program that counts are made at once."""

    def __init__(self, program, folder):
        self.program, self.folder, self.found = program, folder, {}

    def count(self, title):
        """The count of a title. Where it can't be made, the test isn't run."""
        counter = GOALS[title].counter
        if counter not in self.found:
            hindered = hindrance(COUNTERS[counter])
            titles = [other for other in said() if GOALS[other].counter == counter]
            self.found[counter] = hindered or goals.counts(self.program, self.folder, titles)
        if isinstance(self.found[counter], str):
            pytest.skip(self.found[counter])
        return self.found[counter][title]


@pytest.fixture(scope="module")
def counts(program):
    if not is_static(program):
        pytest.skip("the program is linked dynamically, and the counts are those of a static link")
    with tempfile.TemporaryDirectory(prefix="modulecmd-costs-") as folder:
        yield Counts(program, folder)


@pytest.mark.parametrize("title, most", said().items(), ids=list(said()))
def test_what_is_written_down(title, most, counts, note):
    count = counts.count(title)
    note(f"{goals.written(count)}, written down {goals.written(most)}")
    true(count <= ABOVE * most, "it is more than a tenth above")


def test_a_load_by_the_function(product, program, folder, note):
    if not is_static(program) or hindrance(COUNTERS[goals.instructions]):
        pytest.skip("the counts are those of a static link, by valgrind")
    folder.module("m/1.0", goals.PACKAGE.format("m", "M"))
    env = {"MODULEPATH": os.fsdecode(folder.modules), "PATH": "/usr/bin:/bin", "PWD": os.getcwd(), "LANG": "C.UTF-8"}
    with tempfile.TemporaryDirectory(prefix="modulecmd-costs-") as room:
        alone, behind = (
            goals.instructions(room, [f"{product}/{path}", *words, "load", "m/1.0"], env)
            for path, words in (("bin/modulecmd", ["sh"]), ("libexec/module", ["sh:24:80"]))
        )
    note(f"{behind:,} instructions, {alone:,} by modulecmd: {behind / alone:.3f} times as many")
    true(behind <= ABOVE_MODULECMD * alone, f"{behind / alone:.3f} times the instructions of modulecmd")


def test_names_of_one_load(program, folder, note):
    if not is_static(program) or hindrance(COUNTERS[goals.instructions]):
        pytest.skip("the counts are those of a static link, by valgrind")
    names = [f"n{number:05}/1.0" for number in range(MANY_NAMES + 1)]
    for name in names:
        folder.module(name, f"setenv {name[:6].upper()} on\n")
    env = {"MODULEPATH": os.fsdecode(folder.modules), "PATH": "/usr/bin:/bin"}
    with tempfile.TemporaryDirectory(prefix="modulecmd-costs-") as room:

        def further(count):
            """The instructions of the name behind so many."""
            less, more = (
                goals.instructions(room, [program, "sh", "load", *names[:size]], env) for size in (count, count + 1)
            )
            return more - less

        few, many = further(FEW_NAMES), further(MANY_NAMES)
    note(f"a further name: {few:,} instructions behind {FEW_NAMES}, {many:,} behind {MANY_NAMES}: {many / few:.3f} times as many")
    true(many <= ABOVE_FEW * few, f"{many / few:.3f} times the instructions")


def test_keyword_reads_modules_alone(product, program, folder, note):
    """Beside a module, the files of a folder that can be no module cost a call or two: that they are listed."""
    if not is_static(program) or hindrance(COUNTERS[goals.system_calls]):
        pytest.skip("the counts are those of a static link, by strace")
    folder.module("m/1.0", "module-whatis {a tool}\n")
    env = {"MODULEPATH": os.fsdecode(folder.modules), "PATH": "/usr/bin:/bin"}
    command = [f"{product}/libexec/module", "sh::", "keyword", "tool"]
    with tempfile.TemporaryDirectory(prefix="modulecmd-costs-") as room:
        before = goals.system_calls(room, command, env)
        for number in range(50):
            folder.module(f".git/objects/{number}", "module-whatis {a tool}\n")
        after = goals.system_calls(room, command, env)
    note(f"{before} calls, {after} with 50 files below .git")
    true(after <= before + 2, f"{after - before} calls more")


def test_lines_in_tcsh(product, program, folder, note):
    if not is_static(program) or not shutil.which("tcsh") or hindrance(COUNTERS[goals.system_calls]):
        pytest.skip("the counts are those of a static link in tcsh, by strace")
    folder.module("m/1.0", "setenv M on\nprepend-path PATH /opt/m/bin\n")
    env = {"MODULEPATH": os.fsdecode(folder.modules), "PATH": "/usr/bin:/bin", "HOME": os.fsdecode(folder.path)}
    with tempfile.TemporaryDirectory(prefix="modulecmd-costs-") as room:
        script = os.path.join(room, "script")

        def calls(line):
            with open(script, "w", encoding="utf-8") as file:
                file.write(f"source '{product}/init/tcsh'\n{line}\nexit 0\n")
            return goals.system_calls(room, ["tcsh", "-f", script], env)

        before = calls("")
        found = {line: calls(line) - before for line in IN_TCSH}
    note(", ".join(f"{line}: {count:,}" for line, count in found.items()))
    above = {line: count for line, count in found.items() if count > ABOVE * IN_TCSH[line]}
    true(not above, f"more than a tenth above: {above}")
