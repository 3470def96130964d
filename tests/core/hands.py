"""Sessions as they are lived, in which users change variables by hand between the commands: their own changes stay, and
only what modules have made goes.

Random sessions as in `sentence.py`, with changes by hand between the commands that hands may make (`models/runs.py` has
which these are, and what the same change makes of the start): a path by the shell itself, MODULEPATH also by `module
use` and `unuse` of the function, and variables that no module uses, or that modules push on while they have no stack.
At each moment the environment stands over the start as the changes have made it, and is that where no module is loaded.
So it is in the model alone, and where the built program and a real shell make it. Without any one of the rules of
`models/runs.py` the model loses what is loaded or the start.

Then examples that users meet, in dash.
"""

import os
import subprocess
import sys
import typing

import pytest
from hypothesis import Phase, find, given, settings
from hypothesis import strategies as st

from tests.core import sentence
from tests.core.sentence import ENDS, Lost, quoted
from tests.lib.harness import examples as examples_in
from tests.lib.harness import same, true
from tests.lib.properties import SPELLINGS, Spelling, examples, several
from tests.models import runs as model
from tests.shells import session as shells
from tests.shells.shells import FAMILIES, LANGUAGES, SHELLS

MODULEPATH = "MODULEPATH"
# What no module uses, and what is the tool's own.
OTHERS = ("OTHER", "EDITOR", "HOME", "__MODULES_ELSE", model.SHARE + "9")
OWN = (model.NAMES, model.PREREQS, model.SHARE + "A", model.STACK + "A")

# How many sessions of the model there are until a rule that is left out loses something, at most.
MOST_SESSIONS = 400


class Hand(typing.NamedTuple):
    """A change by hand that is drawn before it is known what it meets: its number chooses how the variable is changed."""

    name: str
    number: int


class Change(typing.NamedTuple):
    """What a hand makes of a variable, the line by which a shell does it, and what that says. `again` does the same to other
    elements of the path, where it is about these elements alone."""

    name: str
    value: str | None
    line: str
    said: str = ""
    again: typing.Callable | None = None
    elements: tuple = ()

    def __repr__(self):
        return f"`{self.line}`"


# How a shell gives a variable the value of a word, what stands in a word for its value, and how a line is run.
ASSIGNS = {"sh": "{}={}", "tcsh": "setenv {} {}", "fish": "set -gx {} {}"}
VALUES = {"sh": "${}", "tcsh": "${}:q", "fish": '"${}"'}
LINES = {
    "sh": "{{ {line}; }} 2> {top}/err.{at}; echo $? > {top}/status.{at}",
    "tcsh": "{line} >& {top}/err.{at}\necho $status > {top}/status.{at}",
    "fish": "begin; {line}; end 2> {top}/err.{at}\necho $status > {top}/status.{at}",
}

# The words of a path with an element more, or one less.
MORE = {"front": "{before}{value}", "back": "{value}{behind}"}
LESS = {
    "first out": "${{{name}#{before}}}",
    "last out": "${{{name}%{behind}}}",
    "middle out": "${{{name}%%{between}*}}{delim}${{{name}#*{between}}}",
}

# What such a change makes of any elements.
AGAIN = {
    "front": lambda x, now: [x, *now],
    "back": lambda x, now: [*now, x],
    "first out": lambda x, now: now[1:],
    "last out": lambda x, now: now[:-1],
}


def line_of(shell, env, name, value, word=None):
    """The line that gives a variable this value, by a word of the shell."""
    if value is None:
        return LANGUAGES[FAMILIES[shell]].unsets.format(name)
    line = ASSIGNS[shell].format(name, word or quoted(shell, value))
    return f"export {line}" if shell == "sh" and name not in env else line


def valued(session, name, spelling):
    """A variable is given a value, or is unset."""
    value = spelling.choose([*sentence.startable(session.shell), None, None, None])
    return Change(name, value, line_of(session.shell, session.env, name, value))


# Paths.


# How the elements of a path are changed. In shells that need PATH an element more is put at one of its ends.
KINDS = ("front", "back", "out", "again", "moved", "between", "emptied")
AT_ENDS = KINDS[:2]


def rearranged(spelling, now, some, kinds):
    """How the elements of a path are changed, by which of them, and what they are then."""
    how, x = spelling.choose(kinds), spelling.choose(some)
    at, to = spelling.choose(range(len(now) or 1)), spelling.choose(range(len(now) + 1))
    if how == "emptied":
        return how, "", [""]
    if not now:
        return "whole", x, [x]
    if how == "again":
        how, x = spelling.choose(AT_ENDS), now[at]
    if how == "out":
        return taken_out(now, at)
    if how == "between":
        return how, x, [*now[:to], x, *now[to:]]
    rest = now[:at] + now[at + 1 :]
    return (how, now[at], [*rest[:to], now[at], *rest[to:]]) if how == "moved" else (how, x, AGAIN[how](x, now))


def taken_out(now, at):
    """The first element is taken out, or the last one, or the first one between them that is as this one."""
    if at in (0, len(now) - 1):
        how = "first out" if at == 0 else "last out"
        return how, now[at], AGAIN[how](now[at], now)
    at = now.index(now[at], 1)
    return "middle out", now[at], now[:at] + now[at + 1 :]


def word_of(shell, how, name, delim, x):
    """The word of a path that is changed by the shell itself, or none, where it is typed whole."""
    form = MORE.get(how) or (LESS.get(how) if shell == "sh" else None)
    return form and form.format(
        name=name,
        value=VALUES[shell].format(name),
        delim=quoted(shell, delim),
        before=quoted(shell, x + delim),
        behind=quoted(shell, delim + x),
        between=quoted(shell, delim + x + delim),
    )


def path_changed(session, name, spelling, delim, some, kinds=KINDS):
    """Elements of a path come, go or move."""
    shell, env = session.shell, session.env
    now = model.path_in(env, name, delim)[0]
    how, x, elements = rearranged(spelling, now, [one for one in some if delim not in one], kinds)
    value = delim.join(elements) if elements else None
    line = line_of(shell, env, name, value, word_of(shell, how, name, delim, x))
    return Change(name, value, line, "", (lambda others: AGAIN[how](x, others)) if how in AGAIN else None, (x,))


# Directories.


def used(session, spelling):
    """`module use` or `unuse` of one or two directories, however they are spelled."""
    top, now = session.begun["PWD"], session.env.get(MODULEPATH)
    options = spelling.choose([["use"], ["unuse"], ["use", "-a"]])
    words = [spelled(spelling, top, session.tree.dirs) for _ in range(spelling.choose([1, 1, 2]))]
    named = [absolute(top, one) for one in words]
    new = list(dict.fromkeys(named)) if options[0] == "use" else []

    def again(others):
        rest = [one for one in others if one and absolute(top, one) not in named]
        return rest + new if options[-1] == "-a" else new + rest

    text = ":".join(again((now or "").split(":")))
    line = " ".join(["module", *options, *(quoted(session.shell, one) for one in words)])
    said = "".join(f"There is no directory '{one}' yet.\n" for one in new if not session.tree.is_there(one))
    return Change(MODULEPATH, text or (None if now else now), line, said, again, tuple(named))


def absolute(top, directory):
    return os.path.normpath(os.path.join(top, directory))


def spelled(spelling, top, dirs):
    """A directory in one of the ways in which it can be spelled."""
    directory = spelling.choose(dirs)
    odd = f"{top}/./tree//x/../{os.path.basename(directory)}"
    return spelling.choose([directory, os.path.relpath(directory, top), f"{directory}/", odd])


# Starts.

ODD_SHARES, ODD_STACKS = [None] * 12 + ["", "::", "x:2", "/opt/b:02:/opt/b:3"], [None] * 27 + ["no stack", "x&1", ""]


@st.composite
def anything(draw, name, shell, dirs):
    """A variable that no module uses has whatever it may have."""
    if name == MODULEPATH:
        return {name: ":".join(draw(st.lists(st.sampled_from([*dirs, *dirs, "", "/none"]), min_size=1, max_size=5)))}
    words = sentence.startable(shell)
    found = {
        name: draw(st.sampled_from([None] * len(words) + [*words])),
        model.SHARE + name: draw(st.sampled_from(ODD_SHARES)),
        model.STACK + name: draw(st.sampled_from(ODD_STACKS)),
    }
    return {key: value for key, value in found.items() if value is not None}


# Sessions.


class ByHand(sentence.Session):
    """A session with changes by hand between its commands, after which the start is what the same changes have made of it.
    Its ways are how modules use variables at the moment."""

    def __init__(self, product, *given):
        super().__init__(*given)
        self.product = product

    def opening(self):
        source = LANGUAGES[FAMILIES[self.shell]].source
        return [f"{source} '{self.product}/init/{self.shell}'"]

    def line(self, words, program, top, at):
        if isinstance(words, Change):
            return LINES[self.shell].format(line=words.line, top=top, at=at)
        return super().line(words, program, top, at)

    def take(self, words):
        if not isinstance(words, Hand):
            super().take(words)
            return
        change, live = self.meets(words.name, Spelling(words.number)), self.live_modules()
        named = change.name, change.value
        if change.value == self.env.get(change.name) or self.is_read(change.name):
            return
        if not model.may_change(self.ways, live, self.env, *named):
            return
        before, self.start = self.start, model.start_after(self.ways, self.start, live, self.env, *named)
        self.env = model.by_hand(self.env, *named)
        self.stands(change)
        if not model.WITHOUT:
            self.begins_anew(before, live, change)
        self.commands.append((change, self.env, change.said, 0))

    def is_read(self, _):
        """A live module reads the variable."""
        return False

    def meets(self, name, spelling):
        """What a change by hand makes of what it meets."""
        kind, *delim = self.ways.get(name, ("none",))
        if name == MODULEPATH:
            is_used = spelling.choose([False, True])
            return used(self, spelling) if is_used else path_changed(self, name, spelling, ":", self.tree.dirs)
        if name == "PATH" and self.shell != "sh":
            return path_changed(self, name, spelling, ":", ["/opt/a/bin", "/opt/b"], AT_ENDS)
        return path_changed(self, name, spelling, *delim, sentence.ELEMENTS) if kind == "path" else valued(self, name, spelling)

    def begins_anew(self, before, live, change):
        """What a change makes of the start is a start, and, where it is about elements that no live module has added, what
        the same makes of a path of the start before."""
        if not model.is_start(self.ways, self.start):
            raise Lost(f"no start is left after {change}")
        kind, *delim = self.ways.get(change.name, ("none",))
        if kind != "path" or change.again is None or set(change.elements) & model.adds_of(live, change.name).keys():
            return
        old, new = (model.path_in(env, change.name, *delim)[0] for env in (before, self.start))
        if new != change.again(old):
            raise Lost(f"{change} makes {new} of the start, and not {change.again(old)}")


class Session(ByHand, sentence.Reversible):
    """The same of modules that use each variable in one way in the whole session."""


# How often a variable is taken by its use.
OFTEN = {"path": 6, "stack": 3, "fixed": 1, "absent": 1}


def hands(ways_of, names=()):
    """Changes by hand of some variables."""
    of_modules = [name for name, way in ways_of.items() for _ in range(OFTEN[way[0]])]
    return st.builds(Hand, st.sampled_from([*of_modules, *[MODULEPATH] * 4, "PATH", *OTHERS, *names]), SPELLINGS)


@st.composite
def sessions(draw, shell, top, product="", names=()):
    """Sessions, in half of which no module uses MODULEPATH, and in which some variables aren't used either."""
    ways_of = {name: way for name in sentence.variables(shell) if (way := draw(WAYS[shell])) is not None}
    if draw(st.booleans()):
        ways_of[MODULEPATH] = ("path", ":")
    tree, start, commands = draw(sentence.grounds(shell, top, ways_of))
    for name in [*sentence.variables(shell), MODULEPATH]:
        if name not in ways_of:
            start.update(draw(anything(name, shell, tree.dirs)))
    words = draw(several(st.one_of(commands, hands(ways_of, names)), 40))
    return Session(product, ways_of, shell, tree, start, words, draw(ENDS), draw(sentence.callings(shell)))


WAYS = {shell: st.one_of(*[sentence.ways(shell)] * 6, st.none()) for shell in sentence.SHELLS}


def tried(program, product, top, shell, data):
    session = data.draw(sessions(shell, sentence.emptied(top), product))
    true(model.is_start(session.ways, session.start), "the start is in order")
    sentence.follows(program, session, str(top))


@examples(300)
@given(data=st.data())
def test_sessions_in_sh(program, product, tmp_path, data):
    tried(program, product, tmp_path / "top", "sh", data)


@pytest.mark.parametrize("shell", ["tcsh", "fish"])
@examples(40)
@given(data=st.data())
def test_sessions_in_other_shells(program, product, tmp_path, shell, data):
    tried(program, product, tmp_path / "top", shell, data)


# The model alone.


@examples(500)
@given(sessions("sh", "/t"))
def test_the_model_loses_nothing(session):
    true(model.is_start(session.ways, session.start), "the start is in order")
    session.follow()


def loss_of(session):
    try:
        session.follow()
    except Lost as lost:
        return str(lost)
    except model.Refused as refused:
        return f"the loaded list is {refused}"
    return None


def first_loss(strategy):
    """What the first session loses that loses something, and how many there were until then."""
    losses = []

    def loses(session):
        losses.append(loss_of(session))
        return losses[-1]

    find(strategy, loses, settings=settings(max_examples=MOST_SESSIONS, phases=[Phase.generate]))
    return f"in session {len(losses)} {losses[-1]}"


@pytest.mark.parametrize("rule", model.HAND_RULES)
def test_each_rule_is_needed(rule, monkeypatch, note):
    monkeypatch.setattr(model, "WITHOUT", rule)
    note(first_loss(sessions("sh", "/t", names=OWN)))


@pytest.mark.parametrize("wrong", model.WRONG_HANDS)
def test_a_wrong_start_loses_a_law(wrong, monkeypatch, note):
    monkeypatch.setattr(model, "WRONG", wrong)
    note(first_loss(sessions("sh", "/t")))


# What users meet, in dash: the examples of hands.txt, whose head says how they are read.

DASH = next(shell for shell in SHELLS if shell.title == "dash")

MODULES = {
    "gcc/13": "setenv CC gcc\nprepend-path PATH /opt/gcc/bin\n",
    "clang/17": "pushenv CC clang\nprepend-path PATH /opt/llvm/bin\n",
    "mpi/4": "prepend-path PATH /opt/mpi/bin\n",
    "tools/1": "prepend-path PATH /opt/gcc/bin\n",
    "local/1": "append-path PATH /usr/bin\n",
    "pages/1": "prepend-path MANPATH /opt/pages\n",
    "more/1": "append-path MODULEPATH /opt/more\n",
}
START = {"PATH": "/usr/bin:/bin", "HOME": "/home/you", "PAGER": "less"}
PROFILE = "PATH=/usr/local/bin:/usr/bin:/bin\nexport PATH\n"

# What an environment of Python sets besides PATH.
OF_PYTHON = {b"VIRTUAL_ENV", b"VIRTUAL_ENV_PROMPT", b"PS1"}


class Lived(shells.Session):
    """A session in dash, each of whose lines makes exactly the changes that stand below it."""

    def __init__(self, folder, prefix):
        super().__init__(DASH, folder, prefix)
        for name, text in MODULES.items():
            folder.module(name, text)
        self.top = os.fsdecode(folder.path)
        self.starts_with(**START)
        with open(f"{self.top}/profile", "w") as file:
            file.write(PROFILE)

    def goes(self, steps):
        """Runs lines, each of which comes with its changes."""
        typed = [line for line, _ in steps]
        kept = self.keeps(["show", *(part for line in typed for part in (line, "status", "show"))])
        same(kept.statuses, ["0"] * len(steps), "the statuses")
        wanted = kept.shown[0]
        for (line, changes), found in zip(steps, kept.shown[1:]):
            wanted = shells.changed(wanted, changes)
            shells.same_environment(without_python(found), without_python(wanted), f"the environment behind {line}")

    def changes(self, line):
        """What a line below one that is typed says of variables."""
        kind, _, rest = line.partition(" ")
        if kind == "unset":
            return {rest: None}
        if kind == "loaded":
            files = [f"{self.top}/m/{name}" for name in rest.split()]
            return {"LOADEDMODULES": ":".join(rest.split()) or None, "_LMFILES_": ":".join(files) or None}
        return dict([line.split("=", 1)])


def without_python(env):
    return {name: value for name, value in env.items() if name not in OF_PYTHON}


def examples_of_users():
    return [pytest.param(lines, id=title) for title, lines in examples_in("core/hands.txt")]


@pytest.mark.parametrize("lines", examples_of_users())
def test_what_users_meet(folder, product, lines):
    session, steps = Lived(folder, product), []
    for line in (line.replace("{top}", session.top) for line in lines):
        if line.startswith("> "):
            steps.append((line.removeprefix("> "), {}))
        else:
            steps[-1][1].update(session.changes(line))
    if any("/venv/" in line for line, _ in steps):
        makes_python(f"{session.top}/venv")
    session.goes(steps)


def makes_python(place):
    """An environment of Python, as `python3 -m venv` makes it."""
    words = [sys.executable, "-m", "venv", "--without-pip", place]
    if subprocess.run(words, capture_output=True, check=False).returncode != 0:
        pytest.skip("this python3 makes no virtual environments")
