"""Why modules aren't certified: for each standing, each rule of clashes and each rule of what modules read, a session
of the built program in which the start is lost, or an unload takes what another loaded module has set. And of certified
modules, sessions in which what they read isn't as it was in the audit.

Each row has its modulefiles, the standing of each by the rules in the crates' pages (and so by the model in
`models/standings.py`, where the records stand in the row), the variables of the start, the commands, and what is there
after them. The start agrees with all that the modules use, where any start does. What is there is typed by hand from
modulefile(5).
"""

import os
import re
import shutil
import subprocess

import pytest

from tests.lib.harness import SECONDS, same, true
from tests.models import evaluations, standings
from tests.models.evaluations import LOADED, MODE, OTHER, SHELL, VARIABLE, Question, Ran
from tests.models.standings import SiteModule
from tests.shells.shells import FAMILIES

SH = shutil.which("dash") or "/bin/sh"
ENV = shutil.which("env")
OWN = ("PWD", "OLDPWD", "_")


class Row:
    """A site of a few modules, and a session over it that loses something."""

    def __init__(self, files, stand, commands, found, start=None, reads=None):
        self.files = files
        self.stand = stand
        self.commands = commands
        self.found = found
        self.start = start or {}
        # What is set besides in the session, and not where the site is judged.
        self.reads = reads or {}


# By what is lost. A command `V=x` is a change by hand. `found` has the variables after the commands that differ from the
# start, None for one that is unset.
ROWS = {
    # Standings of one module: the start is lost where it is unloaded again.
    "an element that no unload puts back": Row(
        {"a/1": "remove-path V /b\n"}, ["one-way"], ["load a", "unload a"], {"V": "/a"}, {"V": "/a:/b"}
    ),
    "a variable that is set and pushed": Row(
        {"a/1": "setenv V x\npushenv V y\n"}, ["inconsistent"], ["load a", "unload a"], {"V": "x"}
    ),
    "two delimiters in one module": Row(
        {"a/1": "append-path V b\nappend-path -d , V c\n"},
        ["inconsistent"],
        ["load a", "unload a"],
        {"V": "a:b"},
        {"V": "a"},
    ),
    "a refused evaluation": Row(
        {"a/1": "remove-path V $env(W)\n"},
        ["refused"],
        ["load a", "unload a"],
        {"V": "/a"},
        {"V": "/a:/b"},
        reads={"W": "/b"},
    ),
    "a MODULEPATH that is pushed": Row(
        {"a/1": "append-path MODULEPATH /x\npushenv MODULEPATH /y\n"},
        ["inconsistent"],
        ["load a", "unload a/1"],
        {"MODULEPATH": "/m:/x"},
    ),
    # Questions whose answers don't stay, and variables that are read and used: the unload undoes other records.
    "an answer that the mode gives": Row(
        {"a/1": "append-path V /[module-info mode load]\n"},
        ["unstable"],
        ["load a", "unload a"],
        {"V": "/a:/1"},
        {"V": "/a"},
    ),
    "an answer that the shell gives": Row(
        {"a/1": "append-path V /[module-info shell]\n"},
        ["unstable"],
        ["bash load a", "zsh unload a"],
        {"V": "/a:/bash"},
        {"V": "/a"},
    ),
    "an answer that a switch gives": Row(
        {"a/1": "append-path V /[module-info mode switch]\n", "b/1": "setenv W x\n"},
        ["unstable", "certified"],
        ["load a", "switch a b", "unload b"],
        {"V": "/a:/0"},
        {"V": "/a"},
    ),
    "conflicts that the shell gives": Row(
        {"a/1": "setenv V x\nconflict [module-info shell]\n", "sh/1": "setenv V y\n"},
        ["unstable", "certified"],
        ["zsh load a", "load sh", "unload a"],
        {"V": None, "LOADEDMODULES": "sh/1", "_LMFILES_": "/m/sh/1"},
    ),
    "a variable that is read for the unload alone, and set there": Row(
        {"a/1": "append-path V /[getenv W[module-info mode load]]\n", "b/1": "setenv W0 x\n"},
        ["certified", "clashes"],
        ["load b", "load a", "unload a", "unload b"],
        {"V": "/a:/"},
        {"V": "/a"},
    ),
    "an answer that another module gives": Row(
        {"a/1": "append-path V /[is-loaded b]\n", "b/1": "setenv W x\n"},
        ["unstable", "certified"],
        ["load b", "load a", "unload b", "unload a"],
        {"V": "/a:/1"},
        {"V": "/a"},
    ),
    "an answer that the load gives": Row(
        {"a/1": "append-path V /[getenv W]\nsetenv W x\n"},
        ["unstable"],
        ["load a", "unload a"],
        {"V": "/a:/"},
        {"V": "/a"},
    ),
    "an answer that the unload takes": Row(
        {"a/1": "setenv W x\nappend-path V /[getenv W]\n"},
        ["unstable"],
        ["load a", "unload a"],
        {"V": "/a:/x"},
        {"V": "/a"},
    ),
    "an answer of the tool": Row(
        {"a/1": "append-path V /[getenv LOADEDMODULES]\n", "b/1": "setenv W x\n"},
        ["unstable", "certified"],
        ["load a", "load b", "unload a", "unload b"],
        {"V": "/a:/"},
        {"V": "/a"},
    ),
    "a variable that is read here and set there": Row(
        {"a/1": "append-path V /[getenv W]\n", "b/1": "setenv W x\n"},
        ["certified", "clashes"],
        ["load b", "load a", "unload b", "unload a"],
        {"V": "/a:/x"},
        {"V": "/a"},
    ),
    "a variable that is pushed here and read there": Row(
        {"a/1": "pushenv W x\n", "b/1": "append-path V /[getenv W]\n"},
        ["certified", "clashes"],
        ["load a", "load b", "unload a", "unload b"],
        {"V": "/a:/x"},
        {"V": "/a"},
    ),
    "a variable that is read here, and set where the other is in conflict": Row(
        {"a/1": "append-path V /[getenv W]\nconflict c[getenv W]\n", "c/1": "setenv W x\n"},
        ["certified", "clashes"],
        ["load c", "load a", "unload c", "unload a"],
        {"V": "/a:/x"},
        {"V": "/a"},
    ),
    # Certified modules, and another value of what they read than that of the audit.
    "a change by hand of what is read": Row(
        {"a/1": "append-path V /[getenv W]\n"},
        ["certified"],
        ["load a", "W=x", "unload a"],
        {"V": "/a:/", "W": "x"},
        {"V": "/a"},
    ),
    "a start with another value": Row(
        {"a/1": "append-path V b\n", "b/1": "append-path -d [getenv W :] V c\n"},
        ["certified", "certified"],
        ["load a", "load b", "unload a", "unload b"],
        {"V": "a:b"},
        {"V": "a"},
        reads={"W": ","},
    ),
    # Clashes of modules that may be loaded at once: an unload takes what another has set.
    "a variable that both set": Row(
        {"a/1": "setenv V x\n", "b/1": "setenv V y\n"},
        ["certified", "clashes"],
        ["load a", "load b", "unload a"],
        {"V": None, "LOADEDMODULES": "b/1", "_LMFILES_": "/m/b/1"},
    ),
    "two versions of one module": Row(
        {"a/1": "setenv V x\n", "a/2": "setenv V y\n"},
        ["certified", "clashes"],
        ["load a/1", "load a/2", "unload a/1"],
        {"V": None, "LOADEDMODULES": "a/2", "_LMFILES_": "/m/a/2"},
    ),
    "a variable that both unset": Row(
        {"a/1": "unsetenv V x\n", "b/1": "unsetenv V x\n"},
        ["certified", "clashes"],
        ["load a", "load b", "unload a"],
        {"LOADEDMODULES": "b/1", "_LMFILES_": "/m/b/1"},
        {"V": "x"},
    ),
    "a variable that is set here and kept absent there": Row(
        {"a/1": "setenv V x\n", "b/1": "unsetenv V\n"},
        ["clashes", "certified"],
        ["load a", "load b", "unload b"],
        {"V": None, "LOADEDMODULES": "a/1", "_LMFILES_": "/m/a/1"},
    ),
    "a conflict with the letters of a name": Row(
        {"a/1": "conflict b\nsetenv V x\n", "bb/1": "setenv V y\n"},
        ["certified", "clashes"],
        ["load a", "load bb", "unload a"],
        {"V": None, "LOADEDMODULES": "bb/1", "_LMFILES_": "/m/bb/1"},
    ),
    # Clashes of such modules: the start is lost.
    "two delimiters": Row(
        {"a/1": "append-path V b\n", "b/1": "append-path -d , V c\n"},
        ["certified", "clashes"],
        ["load a", "load b", "unload a", "unload b"],
        {"V": "a:b"},
        {"V": "a"},
    ),
    "a path that is also a stack": Row(
        {"a/1": "append-path V b\n", "b/1": "pushenv V y\n"},
        ["certified", "clashes"],
        ["load a", "load b", "unload a", "unload b"],
        {"V": "a:b"},
        {"V": "a"},
    ),
    "a variable that is set, and pushed by another": Row(
        {"a/1": "setenv V x\n", "b/1": "pushenv V y\n"},
        ["clashes", "certified"],
        ["load a", "load b", "unload a", "unload b"],
        {"V": "x"},
    ),
    # Clashes of modules that exclude each other: of two starts each agrees with one of them, and loses by the other.
    "set here and unset there": Row(
        {"a/1": "conflict b\nsetenv V x\n", "b/1": "unsetenv V y\n"},
        ["certified", "clashes"],
        ["load b", "unload b"],
        {"V": "y"},
    ),
    "unset here and set there": Row(
        {"a/1": "conflict b\nsetenv V x\n", "b/1": "unsetenv V y\n"},
        ["certified", "clashes"],
        ["load a", "unload a"],
        {"V": None},
        {"V": "y"},
    ),
    "a value that is unset here, and kept absent there": Row(
        {"a/1": "conflict b\nunsetenv V x\n", "b/1": "unsetenv V\n"},
        ["certified", "clashes"],
        ["load b", "unload b"],
        {"V": None},
        {"V": "x"},
    ),
    "two values that are unset": Row(
        {"a/1": "conflict b\nunsetenv V x\n", "b/1": "unsetenv V y\n"},
        ["certified", "clashes"],
        ["load b", "unload b"],
        {"V": "y"},
        {"V": "x"},
    ),
}


class Session:
    """Modulefiles, and an environment that commands change."""

    def __init__(self, folder, row):
        self.folder = folder
        for name, text in row.files.items():
            folder.module(name, text)
        self.start = {"MODULEPATH": "/m", **row.start, **row.reads}
        self.env = {name: self.real(value) for name, value in self.start.items()}

    def real(self, text):
        return text.replace("/m", os.fsdecode(self.folder.modules))

    def does(self, words):
        """Runs a command, and has sh evaluate what it prints; or changes a variable by hand. A command may begin with the
        name of a shell that is read as sh is."""
        if "=" in words:
            self.env.update([words.split("=")])
            return
        call = words if words.split()[0] in FAMILIES else f"sh {words}"
        done = subprocess.run(
            [SH, "-c", f'text=$("$0" {call}) || exit 1; eval "$text"; exec {ENV} -0', os.fsdecode(self.folder.program)],
            env=self.env,
            capture_output=True,
            text=True,
            timeout=SECONDS,
            check=False,
        )
        same((done.stderr, done.returncode), ("", 0), f"what is said to {words}")
        pairs = [entry.split("=", 1) for entry in done.stdout.split("\0") if entry]
        self.env = {name: value for name, value in pairs if name not in OWN}


each_row = pytest.mark.parametrize("row", ROWS.values(), ids=list(ROWS))


@each_row
def test_the_start_or_what_is_loaded_is_lost(folder, row):
    session = Session(folder, row)
    for words in row.commands:
        session.does(words)
    wanted = {name: value for name, value in {**session.start, **row.found}.items() if value is not None}
    same(session.env, {name: session.real(value) for name, value in wanted.items()}, "what is left")
    true(session.env != {name: session.real(value) for name, value in session.start.items()}, "something is lost")


# What the rows ask: a question without another one in it.
QUESTIONS = re.compile(r"\[((?:getenv|is-loaded|module-info) [^][]*)\]")


def question_of(words):
    """A question, as `models/standings.py` has it."""
    kind, *rest = words
    if kind == "getenv":
        return Question(VARIABLE, rest[0])
    if kind == "is-loaded" and rest:
        return Question(LOADED, " ".join(rest))
    return Question({"mode": MODE, "shell": SHELL, "shelltype": SHELL}.get(rest[0] if rest else "", OTHER))


def answer_of(words, way):
    """What stands in place of a question where no variable is set."""
    kind, *rest = words
    if kind == "is-loaded":
        return str(int(evaluations.means_one(" ".join(rest), way.loaded)))
    if kind != "module-info":
        return "".join(rest[1:])
    answers = {"mode": way.mode, "shell": way.shell, "shelltype": FAMILIES[way.shell]}
    if len(rest) == 1:
        return answers[rest[0]]
    is_second = rest == ["mode", "remove"] and way.mode == "unload" or rest == ["mode", "switch"] and way.in_switch
    return str(int(answers[rest[0]] == rest[1] or is_second))


def left_by(text):
    """What the modulefiles of the rows leave in a way; one that reads what isn't set is refused."""

    def left(way):
        asked, answered = [], text
        while found := QUESTIONS.search(answered):
            words = found[1].split()
            asked.append(question_of(words))
            answered = answered[: found.start()] + answer_of(words, way) + answered[found.end() :]
        return Ran(records_of(answered), asked, [], "unset" if "$env" in text else None)

    return left


def records_of(text):
    """What lines without questions leave."""
    records = []
    for line in text.splitlines():
        kind, *words = line.split()
        if kind in ("append-path", "remove-path"):
            delim = words[1] if words[0] == "-d" else ":"
            records.append((kind, delim, words[-2], words[-1].split(delim)))
        elif kind == "conflict":
            records.append((kind, words))
        else:
            records.append((kind, words[0], words[1] if len(words) > 1 else None))
    return records


@each_row
def test_modules_stand_as_the_row_says(row):
    modules = [SiteModule(name, f"/m/{name}", left_by(text)) for name, text in row.files.items()]
    same([standings.standing_of(module, modules) for module in modules], row.stand, "how the modules stand")


def test_each_standing_has_a_row():
    standing = {word for row in ROWS.values() for word in row.stand}
    words = ["certified", "clashes", "inconsistent", "one-way", "refused", "unstable"]
    same(sorted(standing), words, "the standings of the rows")
