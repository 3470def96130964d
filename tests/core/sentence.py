"""The sentence that the project is about, tried by the built program in a real shell.

Random trees of modulefiles that unloading undoes, random environments in order, and random lists of loads, unloads,
switches and purges, each list in one process of a shell, whose last commands unload what is loaded. After each command
the exported variables of the shell are those that a model makes (`models/runs.py` has its edits; search, requests and
their refusals stand here, from the rules in the crates' pages), standard error and the status too; and after the last
one `env -0` writes what it wrote at the start, but for the order of its entries.

Some modules ask for what they are evaluated, and for which shell, and leave in each way what undoes the same: each
command of a session calls the program by the name of a shell of its family, so that a module is loaded for one and
unloaded for another.

In tcsh and fish PATH and LANG stay, since these shells change what they hold, and in tcsh a change whose value has a newline
is refused.
"""

import functools
import os
import re
import shutil
import subprocess

import pytest
from hypothesis import given
from hypothesis import strategies as st

from tests.lib.examples import wording
from tests.lib.harness import same, true
from tests.lib.properties import SPELLINGS, Spelling, examples, several
from tests.models import runs as model
from tests.models import evaluations
from tests.models.evaluations import VARIABLE, Question, Ran, Way
from tests.shells.shells import FAMILIES

SHELLS = {"sh": [shutil.which("dash") or "/bin/sh"], "tcsh": ["tcsh", "-f"], "fish": ["fish", "--no-config"]}
ENV = shutil.which("env")
SECONDS = 120

# The names of new modules: a folder of versions, a name of one part, a deep one. Those of old ones are model.OLD.
FOLDERS = {"m": ["1", "2", "10", "1.9", "1.10", "1.10-rc"], "k": ["9", "10", "9a"], "z/1": ["x", "y"]}
ALONE = ["n", "w_1"]
NAMES = [*ALONE, *(f"{folder}/{version}" for folder, versions in FOLDERS.items() for version in versions)]
WORDS = ["v", "", "a b", "it's", "$HOME", "a:b\\c'd", "&x", "\\", "!", "`x`", '"', "{", "}", "[x]", "é", "two\nlines"]
WORDS += ["\t", "*", "#", "~"]
ELEMENTS = ("", "/opt/a/bin", "/opt/b", "a b", "x\\y", "\\", "&", "é", "it's", "2", "$x", "{", "a:b", "a;b", ";", "b\\:")
ELEMENTS += ("*",)
PLAIN = re.compile(r"[A-Za-z0-9_/.,+=-]+")


class Refusal(Exception):
    """The text behind `ERROR: `."""


class Lost(Exception):
    """The environment isn't in order, or what is loaded doesn't stand over the start."""


# Modulefiles.


def word(spelling, text):
    """A word of a script that is this text."""
    marks = {"\n": "\\n", "\t": "\\t"}
    marked = "".join(marks.get(c, c if c.isalnum() or not c.isascii() else "\\" + c) for c in text)
    plain = [text] * 5 if PLAIN.fullmatch(text) else []
    braced = [] if set(text) & set("{}\\") else ["{" + text + "}"] * 2
    return spelling.choose([*plain, *braced, marked or '""'])


def values(spelling, elements, delim):
    """The values of a path command that has these elements: each holds one or more of them."""
    found = elements[:1]
    for element in elements[1:]:
        found = spelling.choose([[*found, element], [*found[:-1], found[-1] + delim + element]])
    return found


def option(spelling, delim):
    ways = [["-d", delim], ["--delim", delim], ["--delim=" + delim]]
    return spelling.choose([*[[]] * 12, *ways] if delim == ":" else ways)


def words_of(spelling, record):
    """The words of a command that means this record."""
    kind, *rest = record
    if kind in ("prepend-path", "append-path", "remove-path"):
        delim, name, elements = rest
        return [kind, *option(spelling, delim), name, *values(spelling, elements, delim)]
    if kind in ("conflict", "prereq"):
        return [kind, *rest[0]]
    return [kind, *[one for one in rest if one is not None]]


def command(spelling, words):
    """Lines of a script that run a command of these words, plain or by way of Tcl."""
    way = spelling.choose(["plain", "plain", "plain", "plain", "last", "foreach", "proc", "if"])
    text = [word(spelling, one) for one in words]
    if way == "last":
        return f"set last {text[-1]}\n{' '.join(text[:-1])} $last\n"
    if way == "foreach":
        return f"foreach one [list {' '.join(text[1:])}] {{lappend all $one}}\n{text[0]} {{*}}$all\nunset all\n"
    if way == "proc":
        return f"proc make args {{{text[0]} {{*}}$args}}\nmake {' '.join(text[1:])}\n"
    if way == "if":
        body = f"{' '.join(text[:-1])} [lindex [list {text[-1]}] end]"
        return f"if {{[string length {text[-1]}] >= 0}} {{\n    {body}\n}}\n"
    return " ".join(text) + "\n"


class Module:
    """A modulefile: its lines, each of which comes with how it is spelled, and its text."""

    def __init__(self, lines):
        self.lines = [line for line, _ in lines]
        text = "".join(text_of(line, Spelling(number)) for line, number in lines)
        self.text = "#%Module\n" + text + (LAST if OTHER_LINES["exits"] in text else "")

    def evaluated(self, name, env, way):
        """What is left by its evaluation in a way over an environment, which its records change."""
        ran, stops = Ran([], [], []), False
        for line in self.lines:
            line = reached(line, env, way, ran.asked)
            record = record_of(line, env, way)
            if record:
                edits(env, way, name, record)
                ran.records.append(record)
            ran.said.extend([f"{line[1]}\n"] if line[0] == "says" else [])
            stops = stops or line[0] == "exits"
        return ran._replace(fault=wording(20) if stops else None)


def edits(env, way, name, record):
    """Has a record do what it does where its module is loaded, or unloaded."""
    try:
        (model.load_record if way.mode == "load" else model.unload_record)(env, name, record)
    except model.Refused as refused:
        said = {"a counter is full": "Counter of '{}' is full", "no stack": "Bad stack of '{}'"}[str(refused)]
        raise Refusal(said.format(model.named(record))) from refused


# Lines that record nothing, and how they are written. One that exits has the file do so at its end.
OTHER_LINES = {"says": "puts stderr {{{}}}\n", "asks": "{}\n", "exits": "set stops 1\n", "nothing": ""}
LAST = "if {[info exists stops]} exit\n"

# Lines that read a variable: `reads` has one line where the variable is so, and else another one; `takes` has a record
# with its value in it. The conditions are written over the name and a word.
CONDITIONS = {
    "is": ("[getenv {}] eq {{{}}}", lambda value, text: (value or "") == text),
    "is there": ("[info exists env({})]", lambda value, _: value is not None),
    "isn't there": ("[catch {{set found $env({})}}]", lambda value, _: value is None),
    "is none": ("[getenv {} none] eq {{none}}", lambda value, _: value in (None, "none")),
}

# Lines that ask for the way: `by way` has one line where a condition of `models/evaluations.py` holds, and else another
# one; `gives` has a record with an answer in it. These are lines with a condition.
CONDITIONAL = ("reads", "by way")


def is_met(line, env, way):
    """Whether the condition of a line holds."""
    if line[0] == "by way":
        return evaluations.CONDITIONS[line[1]].holds(way)
    _, name, how, text, *_ = line
    return CONDITIONS[how][1](env.get(name), text)


def question_of(line, env):
    """What a line asks for, or none."""
    kind = line[0]
    if kind in ("reads", "takes"):
        return Question(VARIABLE, line[1], env.get(line[1]))
    if kind == "by way":
        return asked_by(evaluations.CONDITIONS[line[1]])
    if kind == "gives":
        return asked_by(evaluations.ANSWERS[line[1]])
    return line[2] if kind == "asks" else None


def asked_by(one):
    """What a condition or an answer asks for."""
    return Question(one.of, one.names)


def reached(line, env, way, asked):
    """The line without a condition that is evaluated in place of a line. What is asked is added to a list."""
    while line[0] in CONDITIONAL:
        asked.append(question_of(line, env))
        line = line[-2] if is_met(line, env, way) else line[-1]
    asked += [question for question in [question_of(line, env)] if question]
    return line


def record_of(line, env, way):
    """What a line without a condition records, or none."""
    if line[0] == "takes":
        _, name, (kind, *rest) = line
        value = env.get(name, "")
        return (kind, *rest, f"{value}/bin".split(rest[0])) if kind.endswith("path") else (kind, *rest, value)
    if line[0] == "gives":
        _, answer, (kind, *rest) = line
        value = evaluations.ANSWERS[answer].says(way)
        if kind == "conflict":
            return kind, [value]
        return (kind, *rest, value.split(rest[0])) if kind.endswith("path") else (kind, *rest, value)
    return None if line[0] in OTHER_LINES else line


def text_of(line, spelling):
    if line[0] in CONDITIONAL:
        one, other = (text_of(part, spelling) for part in line[-2:])
        return f"if {{{condition_of(line)}}} {{\n{one}}} else {{\n{other}}}\n"
    if line[0] == "takes":
        _, name, (kind, *rest) = line
        return f"{head_of(spelling, kind, rest)} [getenv {name}]{'/bin' * kind.endswith('path')}\n"
    if line[0] == "gives":
        _, answer, (kind, *rest) = line
        return f"{head_of(spelling, kind, rest)} {evaluations.ANSWERS[answer].text}\n"
    if line[0] in OTHER_LINES:
        return OTHER_LINES[line[0]].format(*line[1:])
    return command(spelling, words_of(spelling, line))


def condition_of(line):
    """How the condition of a line is written."""
    if line[0] == "by way":
        return evaluations.CONDITIONS[line[1]].text
    _, name, how, text, *_ = line
    return CONDITIONS[how][0].format(name, text)


def head_of(spelling, kind, rest):
    """The words of a command before its value."""
    words = [kind, *(option(spelling, rest[0]) if kind.endswith("path") else []), *rest[-1:]]
    return " ".join(word(spelling, one) for one in words)


# Search.


def runs_of(text):
    return [(int(run) if run.isdigit() else ord(run[0]), run) for run in re.findall(r"[0-9]+|[^0-9]", text)]


def version_key(text):
    """Runs of digits as numbers, others by code point, a run beside a character by its first digit."""

    class Key:
        def __init__(self):
            self.runs = runs_of(text)

        def __lt__(self, other):
            for (mine, left), (its, right) in zip(self.runs, other.runs):
                both = left.isdigit() and right.isdigit()
                mine, its = (mine, its) if both else (ord(left[0]), ord(right[0]))
                if mine != its:
                    return mine < its
            if len(self.runs) != len(other.runs):
                return len(self.runs) < len(other.runs)
            return text.encode() < "".join(run for _, run in other.runs).encode()

    return Key()


class Tree:
    """Directories of modulefiles by their paths, and the default files of their folders."""

    def __init__(self, dirs, modules, defaults):
        self.dirs = dirs
        self.modules = modules
        self.defaults = defaults

    def __repr__(self):
        return f"modulefiles {({path: module.text for path, module in self.modules.items()})}, default files {self.defaults}"

    def names(self):
        """The names of modules that are there, with those of their folders as often."""
        there = sorted({name for directory in self.dirs for name in NAMES if f"{directory}/{name}" in self.modules})
        return there + [name.rpartition("/")[0] or name for name in there]

    def write(self):
        for path, module in self.modules.items():
            os.makedirs(os.path.dirname(path), exist_ok=True)
            with open(path, "w") as file:
                file.write(module.text)
        for path, (file_name, folder, version) in self.defaults.items():
            os.makedirs(path, exist_ok=True)
            with open(os.path.join(path, file_name), "w") as file:
                is_version = file_name == ".version"
                named = f"set ModulesVersion {version}"
                text = named if is_version else f"module-version {folder}/{version} default"
                file.write(f"#%Module\n{text}\n")

    def is_there(self, directory):
        """The directory has files."""
        return any(path.startswith(f"{directory}/") for path in [*self.modules, *self.defaults])

    def found(self, modulepath, name):
        """The name and the path of a module, or none."""
        for directory in modulepath.split(":"):
            if f"{directory}/{name}" in self.modules:
                return name, f"{directory}/{name}"
            start = f"{directory}/{name}/"
            versions = [path[len(start) :] for path in self.modules if path.startswith(start)]
            versions = [version for version in versions if "/" not in version]
            if not directory or not versions:
                continue
            default = self.defaults.get(f"{directory}/{name}")
            if default and default[2] in versions:
                return f"{name}/{default[2]}", start + default[2]
            version = max(versions, key=version_key)
            return f"{name}/{version}", start + version
        return None


NEEDED = ("c", "d/1", "m", "m/10", "k", "n", "z", "z/1", "z/1/x", "w_1", "a", "q/2")

# What says nothing of the environment may stand in a modulefile too, and nothing where it has no other line.
QUIET = st.sampled_from([("nothing",), ("says", "said 1"), ("says", "said 2")])


@functools.cache
def default_files(dirs):
    """A few default files by their folders."""
    folders = st.sampled_from([f"{directory}/{folder}" for directory in dirs for folder in FOLDERS])
    named = st.tuples(folders, st.sampled_from([".version", ".modulerc"]), st.integers(0, 5))
    return st.lists(named, max_size=6)


def folder_of(path):
    """The folder of a modulefile, or none."""
    return next((folder for folder in FOLDERS if path.rpartition("/")[0].endswith(f"/{folder}")), "")


@functools.cache
def places(dirs):
    return st.sampled_from([f"{directory}/{name}" for name in NAMES for directory in dirs])


@st.composite
def trees(draw, dirs, lines, shared=None):
    """A tree in these directories, drawn line by line: each has its place, its record and how that is spelled. All
    modules of some folders share a line."""
    modules, defaults = {}, {}
    for path, *line in draw(several(lines, 64)):
        its = (shared or {}).get(folder_of(path))
        modules.setdefault(path, [(its, 0)] if its else []).append(line)
    for path, name, at in draw(default_files(dirs)):
        folder = folder_of(f"{path}/")
        defaults[path] = (name, folder, FOLDERS[folder][at % len(FOLDERS[folder])])
    return Tree(dirs, {path: Module(its) for path, its in modules.items()}, defaults)


# Requests.


def matches(name, module):
    return module == name or module.startswith(name + "/")


def holds(group, names):
    return any(matches(name, module) for name in group for module in names)


def needs_name(name):
    if not model.is_name(name):
        raise Refusal(wording(44, name))


class Step:
    """One command over an environment: which modules it loads and unloads, and what each that it loads records."""

    def __init__(self, tree, env):
        self.tree = tree
        self.start = model.loaded_in(env)
        self.env = dict(env)
        self.shell, self.in_switch = None, False
        self.said = []
        self.moves = []
        self.left = {}

    def loads(self):
        return [(name, path) for kind, name, path in self.moves if kind == "load"]

    def names(self):
        return [entry[0] for entry in model.loaded_in(self.env)]

    def edited(self, kind, name, path):
        """Loads or unloads a module, and gives what it records."""
        way = Way(kind, self.in_switch, self.shell, tuple(self.names()))
        ran = self.tree.modules[path].evaluated(name, self.env, way)
        if ran.fault:
            raise Refusal(ran.fault)
        self.said += ran.said
        self.moves.append((kind, name, path))
        if kind == "load":
            self.left[name, path] = ran.records
        return ran.records

    def load(self, name):
        needs_name(name)
        loaded = self.names()
        if name in loaded:
            return
        found = self.tree.found(self.env.get("MODULEPATH", ""), name)
        if found is None:
            raise Refusal(wording(42, name))
        name, path = found
        if name in loaded:
            return
        records = self.edited("load", name, path)
        entries = model.loaded_in(self.env)
        entry = model.entry_of((name, path, records))
        for other in entries:
            if any(matches(one, name) for one in other[2]):
                raise Refusal(wording(51, other[0]))
        for one in entry[2]:
            for other in loaded:
                if matches(one, other):
                    raise Refusal(wording(51, other))
        for group in entry[3]:
            if not holds(group, loaded):
                raise Refusal(wording(52, " ".join(group)))
        model.write_loaded(self.env, entries + [entry])

    def unload(self, name):
        needs_name(name)
        entries = model.loaded_in(self.env)
        taken = [entry for entry in entries if matches(name, entry[0])]
        if not taken:
            return
        taken = taken[-1]
        if taken[1] not in self.tree.modules:
            raise Refusal(wording(54, taken[1]))
        self.edited("unload", taken[0], taken[1])
        model.write_loaded(self.env, [entry for entry in entries if entry[0] != taken[0]])

    def ends(self):
        """What the modules that stay need is still there."""
        before = [entry[0] for entry in self.start]
        now = self.names()
        for name, _, _, groups in model.loaded_in(self.env):
            if name in before and any(holds(group, before) and not holds(group, now) for group in groups):
                raise Refusal(wording(53, name))

    def make(self, words):
        self.shell, subcommand, *names = words
        if subcommand in ("load", "add"):
            for name in names:
                self.load(name)
        elif subcommand in ("unload", "rm"):
            for name in names:
                self.unload(name)
        elif subcommand in ("switch", "swap"):
            self.in_switch = True
            self.unload(names[0] if len(names) == 2 else names[0].split("/")[0])
            self.load(names[-1])
        else:
            for name in reversed(self.names()):
                self.unload(name)
        self.ends()


# Random ways, starts and commands.

GROUPS = st.sampled_from([[], [["g"]], [["a", "q"], ["old"]]])
CONFLICTS = st.sampled_from([[], ["c"], ["m/10", "d"]])
ODD_NAMES = ["z", "m/7", "nope", "m//1", ".m", "k/9/1", "", "a&b"]


@functools.cache
def startable(shell):
    """What a start may hold: it has a text, so that it can be given back."""
    return tuple(one for one in WORDS if shell != "tcsh" or "\n" not in one)


def in_a_shell(env, shell):
    """The environment with what the shell needs."""
    return env if shell == "sh" else {**env, "PATH": os.environ["PATH"], "LANG": "C.UTF-8"}


@functools.cache
def ways(shell, more=()):
    """How all modules use a variable: so, or in one of more ways."""
    fixed = [("fixed", None)] * 20 + [("fixed", value) for value in startable(shell)]
    paths = [("path", ":")] * 20 + [("path", delim) for delim in "b; :"] * 5
    return st.sampled_from([("stack",)] * 20 + paths + fixed + [*more])


def variables(shell):
    return ["A", "B", "C", "D", "E_1", *(["PATH", "LANG"] if shell == "sh" else [])]


def records(name, way, dirs):
    if name == "MODULEPATH":
        kinds = ("prepend-path", "append-path")
        return st.sampled_from([(kind, ":", name, [directory]) for directory in dirs for kind in kinds])
    return model.records(name, way, tuple(WORDS), ELEMENTS)


@functools.cache
def held(name, way, owners, shell, dirs):
    """The variables that a start has of one that is used in this way. A MODULEPATH has one or two directories."""
    if name != "MODULEPATH":
        return model.held(name, way, owners, startable(shell), ELEMENTS)
    some = [[one] for one in dirs] * 3 + [[one, other] for one in dirs for other in dirs]
    return st.builds(model.path_held, st.just(name), st.just(":"), st.sampled_from(some), model.COUNTS)


@st.composite
def starts(draw, ways_of, dirs, shell):
    """An environment in order, with modules that were loaded before or without."""
    env = {"HOME": "/home/x y", "OTHER": draw(st.sampled_from(startable(shell))), "__MODULES_ELSE": "x"}
    entries = draw(model.old_entries(model.OLD, CONFLICTS, GROUPS))
    model.write_loaded(env, entries)
    owners = tuple(entry[0] for entry in entries)
    for name, way in ways_of.items():
        env.update(draw(held(name, way, owners, shell, dirs)))
    return in_a_shell(env, shell)


ENDS = st.integers(0, 255)
# The words of commands with how many names stand behind them.
LOADS = [("load", 1), ("load", 1), ("add", 1), ("load", 2), ("add", 3)]
UNLOADS = [("unload", 1), ("rm", 1), ("unload", 2)]
SWITCHES = [("switch", 1), ("swap", 1), ("switch", 2), ("swap", 2)]
KINDS = LOADS * 8 + UNLOADS * 6 + SWITCHES * 4 + [("purge", 0)] * 6


@st.composite
def commands(draw, names, may_purge):
    """A command over modules of these names."""
    word, count = draw(st.sampled_from(KINDS if may_purge else KINDS[:-6]))
    return [word, *(draw(names) for _ in range(count))]


def directories(top):
    return tuple(f"{top}/tree/{name}" for name in ("one", "two", "three"))


@functools.cache
def callings(shell=None):
    """By which names of shells the commands of a session call the program, in turn: those that are read as this one is,
    or any."""
    names = [name for name, kind in FAMILIES.items() if shell is None or kind == FAMILIES[shell]]
    return st.lists(st.sampled_from(names), min_size=1, max_size=3).map(tuple)


BY_WAY = st.sampled_from(list(evaluations.CONDITIONS))
ANSWERS = st.sampled_from(list(evaluations.ANSWERS))


@st.composite
def twins(draw, records):
    """A line that has one of these records in some ways, and in the others one that undoes the same."""
    one = draw(records)
    other = (*one[:-1], draw(st.sampled_from(WORDS))) if one[0] in ("setenv", "pushenv") else one
    if one[0] in ("prepend-path", "append-path"):
        other = (draw(st.sampled_from(["prepend-path", "append-path"])), *one[1:])
    return "by way", draw(BY_WAY), one, other


def by_ways(ways_of, dirs):
    """Lines that ask for the way, and undo the same in each: where variables are used so."""
    nothing, fixed = st.just(("nothing",)), {("stack",): "pushenv", ("fixed", None): "setenv"}
    unseen = st.one_of(QUIET, model.needs(NEEDED))
    given = [(fixed[way], name) for name, way in ways_of.items() if way in fixed]
    return [
        *(twins(records(name, way, dirs)) for name, way in ways_of.items()),
        st.tuples(st.just("by way"), BY_WAY, unseen, nothing),
        st.tuples(st.just("gives"), ANSWERS, st.sampled_from([*given, ("conflict",)])),
    ]


@st.composite
def grounds(draw, shell, top, ways_of):
    """A tree and a start, whose modules use variables in these ways, and strategies of commands over them."""
    dirs = directories(top)
    kinds = [QUIET, *(records(name, way, dirs) for name, way in ways_of.items()), model.needs(NEEDED)]
    tree = draw(trees(dirs, st.tuples(places(dirs), st.one_of(*kinds, *by_ways(ways_of, dirs)), SPELLINGS)))
    start = {**draw(starts(ways_of, dirs, shell)), "PWD": top}
    names = st.sampled_from(tree.names() * 2 + ODD_NAMES)
    return tree, start, commands(names, not model.loaded_in(start))


@st.composite
def sessions(draw, shell, top):
    ways_of = {name: draw(ways(shell)) for name in variables(shell)} | {"MODULEPATH": ("path", ":")}
    tree, start, its_commands = draw(grounds(shell, top, ways_of))
    words = draw(several(its_commands, 28))
    return Reversible(ways_of, shell, tree, start, words, draw(ENDS), draw(callings(shell)))


def is_apart(modules):
    """No two of the modules, each by what it recorded, fix one variable."""
    kinds = ("setenv", "unsetenv")
    fixed = [{model.named(r) for r in records if r[0] in kinds} for records in modules]
    return all(not one & other for at, one in enumerate(fixed) for other in fixed[at + 1 :])


class Session:
    """A tree, a start, and commands, with what each that is taken has to do. The bits of the ends say which of the modules
    that are left are unloaded one by one. What it begins with stays the start, but for changes by hand. Commands call the
    program by these names of shells in turn, and the last ones by that of the shell."""

    def __init__(self, shell, tree, start, words, ends, called=()):
        self.shell = shell
        self.tree = tree
        self.begun = self.start = self.env = start
        self.words = words
        self.ends = ends
        self.called = called or (shell,)
        self.old = model.loaded_in(start)
        self.commands = []
        # What each module recorded that was loaded, by its name and path.
        self.left = {}

    def __repr__(self):
        return f"{self.words} in {self.called} from {self.begun} with {self.tree}"

    def opening(self):
        """The lines of the shell before the first command."""
        return []

    def line(self, words, program, top, at):
        """How the shell runs a command, keeps what it says and its status, and evaluates its text."""
        call = " ".join(quoted(self.shell, one) for one in [program, *words])
        return LINES[self.shell].format(call=call, top=top, at=at)

    def follow(self):
        for words in self.words:
            self.take(words)
        for at, (name, _) in enumerate(reversed(self.live())):
            if self.ends >> at & 1:
                self.does([self.shell, "unload", name])
        if self.live():
            self.does([self.shell, "unload", *(name for name, _ in reversed(self.live()))])
        if self.env != self.start:
            raise Lost("the last unload doesn't leave the start")

    def live(self):
        """The names and paths of the modules that this session loaded and that are loaded still, oldest first."""
        return [(name, path) for name, path, *_ in model.loaded_in(self.env)[len(self.old) :]]

    def live_modules(self):
        """The same, each with what it recorded when it was loaded."""
        return [(*place, self.left[place]) for place in self.live()]

    def take(self, words):
        """Calls the program by the name of a shell."""
        self.does([self.called[len(self.commands) % len(self.called)], *words])

    def does(self, words):
        """Adds a command, which begins with the name of a shell, but one that doesn't fit."""
        before, step = (self.env, self.left), Step(self.tree, self.env)
        try:
            step.make(words)
        except Refusal as refusal:
            self.commands.append((words, self.env, f"ERROR: {refusal}\n", 1))
            return
        self.env, self.left = step.env, {**self.left, **step.left}
        if not self.is_fit(before[0], step):
            self.env, self.left = before
            return
        self.stands(words)
        unsaid = self.unsaid(before[0], words[0])
        if unsaid:
            self.env, self.left = before
            self.commands.append((words, self.env, f"ERROR: {wording(62, unsaid)}\n", 1))
            return
        self.commands.append((words, self.env, "".join(step.said), 0))

    def unsaid(self, before, shell):
        """The first variable whose new value the shell has no text for, or none."""
        changed = [name for name, value in self.env.items() if before.get(name) != value]
        return min((name for name in changed if "\n" in self.env[name] and FAMILIES[shell] == "csh"), default=None)


class Reversible(Session):
    """A session of modules that unloading undoes, and that use each variable in one way."""

    def __init__(self, ways_of, *given):
        super().__init__(*given)
        self.ways = ways_of

    def is_fit(self, before, step):
        """The modules that are loaded stay apart."""
        return is_apart([self.left[place] for place in {*step.loads(), *self.live()}])

    def stands(self, words):
        lost = model.lost_at(self.ways, self.start, self.live_modules(), self.env)
        if lost:
            raise Lost(f"lost at {words}: {lost}")


# The shell.


def quoted(shell, text):
    if shell == "fish":
        return "'" + text.replace("\\", "\\\\").replace("'", "\\'") + "'"
    text = text.replace("'", "'\\''")
    return "'" + (text.replace("!", "'\\!'") if shell == "tcsh" else text) + "'"


LINES = {
    "sh": 'text=$({call} 2> {top}/err.{at}); echo $? > {top}/status.{at}; eval "$text"',
    "tcsh": '( {call} > {top}/text ) >& {top}/err.{at}\necho $status > {top}/status.{at}\neval "`cat {top}/text`"',
    "fish": "set -l text ({call} 2> {top}/err.{at} | string collect --allow-empty)\n"
    "echo $pipestatus[1] > {top}/status.{at}\neval $text",
}


def script(run, program, top):
    """A session: each command's text is evaluated, and behind each stand the exported variables."""
    lines = [*run.opening(), f"{ENV} -0 > {top}/env.0"]
    for at, (words, _, _, _) in enumerate(run.commands, 1):
        lines.append(run.line(words, program, top, at))
        lines.append(f"{ENV} -0 > {top}/env.{at}")
    return "\n".join(lines) + "\n"


def read(top, name):
    with open(os.path.join(top, name), "rb") as file:
        return file.read()


def entries(text):
    return sorted(text.split(b"\0"))


def wanted_entries(env, own):
    return sorted([b"", *own, *[f"{name}={value}".encode() for name, value in env.items()]])


def own_entries(run, found):
    """What a shell of another family sets of its own at its start."""
    if run.shell == "sh":
        return []
    names = {name.encode() for name in run.begun}
    return [entry for entry in found if entry and entry.split(b"=", 1)[0] not in names]


def difference(found, wanted):
    return f"found {[x for x in found if x not in wanted]}, wanted {[x for x in wanted if x not in found]}"


def lost(run, program, top):
    """What the program does otherwise than the model, or none."""
    path = os.path.join(top, "session")
    with open(path, "w") as file:
        file.write(script(run, program, top))
    done = subprocess.run(
        [*SHELLS[run.shell], path],
        env=run.begun,
        cwd=top,
        stdin=subprocess.DEVNULL,
        capture_output=True,
        timeout=SECONDS,
        check=False,
    )
    if done.stderr or done.returncode != 0:
        return f"the shell ended with status {done.returncode} and said {done.stderr}"
    own = own_entries(run, entries(read(top, "env.0")))
    if entries(read(top, "env.0")) != wanted_entries(run.begun, own):
        return f"the shell's start: {difference(entries(read(top, 'env.0')), wanted_entries(run.begun, own))}"
    for at, (words, env, said, status) in enumerate(run.commands, 1):
        what = f"command {at}, {words}"
        if read(top, f"status.{at}") != b"%d\n" % status or read(top, f"err.{at}") != said.encode():
            found = f"status {read(top, f'status.{at}')}, said {read(top, f'err.{at}')}"
            return f"{what}: {found}, wanted {status}, {said!r}"
        if entries(read(top, f"env.{at}")) != wanted_entries(env, own):
            return f"{what}: {difference(entries(read(top, f'env.{at}')), wanted_entries(env, own))}"
    if entries(read(top, f"env.{len(run.commands)}")) != wanted_entries(run.start, own):
        return "the last unload doesn't leave the start"
    return None


def emptied(top):
    """The path of an empty folder."""
    shutil.rmtree(top, ignore_errors=True)
    os.mkdir(top)
    return str(top)


def follows(program, session, top):
    """A session of the program is as the model has it."""
    session.follow()
    session.tree.write()
    same(lost(session, program, top), None, "what is lost")


def tried(program, top, shell, data):
    session = data.draw(sessions(shell, emptied(top)))
    true(model.is_start(session.ways, session.start), "the start is in order")
    follows(program, session, str(top))


@examples(300)
@given(data=st.data())
def test_sessions_in_sh(program, tmp_path, data):
    tried(program, tmp_path / "top", "sh", data)


@pytest.mark.parametrize("shell", ["tcsh", "fish"])
@examples(40)
@given(data=st.data())
def test_sessions_in_other_shells(program, tmp_path, shell, data):
    tried(program, tmp_path / "top", shell, data)
