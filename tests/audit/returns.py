"""The way back is always open: what a session of certified modules has loaded can be unloaded. The built program is tried.

Random sessions as in `certified.py`, with changes by hand. In most of them modules are loaded at the start, and some of
these need what the session loads. At each moment one command unloads all that is live, in a random order; and where
nothing was loaded at the start, `purge` does. Over another start `purge` has to end as it would at the start. At one moment of a session the modules are also unloaded one after
another. A name may be the first parts of a module's name.

Each command has to be accepted, and the text of the last one has to lead to the start, with the changes by hand. If a
module that stays loaded would lose what it needs, the command has to be refused with that module's name.

Texts are read by the reader of `core/plain.py`. Besides there are

- sessions in real shells, each with a way back at its end;
- wrong programs, each of which has to be found: they refuse without cause, or leave something;
- rows of what refuses an unload or a load where a premise is missing, which docs/CLAIMS.md names.
"""

import collections
import json
import os
import random
import re
import subprocess
import typing

import pytest
from hypothesis import Phase, assume, find, given, settings
from hypothesis import strategies as st

from tests.audit import certified, losses
from tests.core import plain, sentence
from tests.lib.examples import wording
from tests.lib.harness import SECONDS, same, true
from tests.lib.named import content
from tests.lib.properties import examples, several
from tests.models import runs as model
from tests.models import standings
from tests.shells.shells import FAMILIES

# How many sessions there are until a wrong program is found, at most.
MOST_SESSIONS = 200

# At least this part of the commands is of each kind, and is refused by 53.
LEAST_PART = 0.03

# What modules need besides: names of which one has to be loaded. Those of the start may need them too.
GROUPS = [["n", "w_1"], ["m"], ["k", "n"], ["m", "k", "z"], ["m/10", "k"]]
OLD_NEEDS = st.sampled_from([*[[]] * 6, [["n", "w_1"]], [["m", "k"]], [["z"], ["m/10"]]])

# The files of modules of the start, which need not be certified.
OLD_TEXTS = ["setenv OLD x\n", "prepend-path OLD_PATH /old\nputs stderr old\n", "error [module-info mode]\n"]
SEEDS = st.integers(0, 2**32 - 1)

# The shells that call the program on the way back, by that of the session.
CALLED = {shell: [name for name in FAMILIES if FAMILIES[name] == FAMILIES[shell]] for shell in sentence.SHELLS}
CALLED["any"] = list(FAMILIES)


class Wrong(plain.Wrong):
    """A way back isn't open, or doesn't lead to the start."""


# Sessions.


def with_needs(tree, chance):
    """A tree in which some modules need others. That changes nothing of how they stand."""
    modules = dict(tree.modules)
    for path, module in modules.items():
        if chance.randrange(3) == 0:
            lines = [*module.lines, ("prereq", chance.choice(GROUPS))]
            modules[path] = sentence.Module([(line, 0) for line in lines])
    return sentence.Tree(tree.dirs, modules, tree.defaults)


@st.composite
def sessions(draw, shell, top, product=""):
    """Sessions of certified modules, which mostly begin where the site is judged, with some loads of what may be loaded.
    With `any` their commands call the program by the names of all shells."""
    called = sentence.callings() if shell == "any" else None
    session = draw(certified.sessions("sh" if shell == "any" else shell, top, product, called=called))
    # (What a shell is compared with knows no files of the start's modules.)
    has_files = not product and draw(st.booleans())
    old = [old_entry(top, has_files, entry, draw(OLD_NEEDS)) for entry in session.old]
    start = dict(session.start)
    model.write_loaded(start, old)
    start = certified.judged(session.site, start) if draw(st.integers(0, 7)) else start
    names = sorted({one.name for one in session.site.certified if standings.may_be_loaded(one, start)})
    loads = [["load", name] for name in draw(several(st.sampled_from(names), 8) if names else st.just([]))]
    tree = with_needs(session.tree, random.Random(draw(SEEDS)))
    given = tree, start, loads + session.words, session.ends, session.called
    return certified.Session(session.site, product, session.shell, *given)


def old_entry(top, has_files, entry, needs):
    """An entry of the start with more needs, and with a file below a folder, or a path where nothing is."""
    name, path, conflicts, groups = entry
    return name, f"{top}/old/{name}" if has_files else path, conflicts, groups + needs


def write_old(session, top):
    """Writes the files of modules of the start. Their text depends on the name."""
    for name, path, *_ in model.loaded_in(session.begun):
        if path.startswith(f"{top}/"):
            os.makedirs(os.path.dirname(path), exist_ok=True)
            with open(path, "w", encoding="utf-8") as file:
                file.write("#%Module\n" + OLD_TEXTS[len(name) % len(OLD_TEXTS)])


def shuffled(session, chance):
    """The same words in another order, over the same site and from the same start: to draw them costs more than to try
    them."""
    words = chance.sample(session.words, len(session.words))
    given = session.tree, session.begun, words, session.ends, session.called
    return certified.Session(session.site, session.product, session.shell, *given)


class Moment(typing.NamedTuple):
    """What a session has come to: the environment, the start that its changes by hand have made, the names of the modules
    loaded there, and those of the live ones, oldest first."""

    env: dict
    start: dict
    old: list
    live: list


def moment_of(session):
    live = [name for name, _ in session.live()]
    return Moment(session.env, session.start, [entry[0] for entry in session.old], live)


def moments(session):
    """The moments of a session in which something is live, one for each environment."""
    for words in session.words:
        before = session.env
        session.take(words)
        if session.live() and session.env != before:
            yield moment_of(session)


def without_meant(word, live):
    """The live modules after an unload of a name, which takes the newest one that it means."""
    meant = [name for name in live if sentence.matches(word, name)]
    return [name for name in live if name != meant[-1]] if meant else live


def names_of_all(chance, moment):
    """Names that unload what is live, in a random order: full names or their first parts. The first or the last one may
    mean nothing that is loaded."""
    words, live = [], moment.live
    while live:
        parts = chance.choice(live).split("/")
        words.append("/".join(parts[: chance.choice([len(parts), len(parts), 1])]))
        live = without_meant(words[-1], live)
    other = chance.choice(sentence.NAMES)
    if not any(sentence.matches(other, name) for name in moment.old):
        is_free = not any(sentence.matches(other, name) for name in moment.live)
        words = chance.choice([words, words, [*words, other], [other, *words] if is_free else words])
    return words


# Ways back.

KINDS = ["unloads of all", "purges", "purges over others", "accepted purges over others", "single unloads", "refused by 53"]


def names_in(env):
    return [entry[0] for entry in model.loaded_in(env)]


def in_need(env, left):
    """The modules that lose what they need where these names are left loaded."""
    now, needs = names_in(env), {name: groups for name, _, _, groups in model.loaded_in(env)}
    is_lost = {name: any(sentence.holds(one, now) and not sentence.holds(one, left) for one in needs[name]) for name in left}
    return [name for name in left if is_lost[name]]


def returned(call, env, words, left):
    """The environment after a command that leaves these names loaded, or none where it is rightly refused."""
    out, said, status = call(env, words)
    needy = in_need(env, left)
    if needy and (out, status) == ("", 1) and said in [f"ERROR: {wording(53, name)}\n" for name in needy]:
        return None
    if status != 0:
        raise Wrong(f"{words} is refused: {said!r}")
    if needy:
        raise Wrong(f"{words} is accepted, and {needy} lose what they need")
    made = plain.after(env, plain.printed(FAMILIES[words[0]], out))
    if names_in(made) != left:
        raise Wrong(f"{words} leaves {names_in(made)} loaded, and not {left}")
    return made


def leads_back(moment, made, what):
    """What is made, if anything, is the start."""
    if made is not None and made != moment.start:
        raise Wrong(f"{what} leaves {plain.difference(moment.start, made)}, and not the start")


class WaysBack:
    """The ways back by a program, which is called so, in some of these shells; and how many commands there were."""

    def __init__(self, call, shells):
        self.call = call
        self.shells = shells
        self.sessions = 0
        self.counts = dict.fromkeys(KINDS, 0)

    def shell(self, chance, moment):
        """A shell that has a text for each value."""
        has_lines = any("\n" in value for env in (moment.env, moment.start) for value in env.values())
        return chance.choice([name for name in self.shells if not (has_lines and FAMILIES[name] == "csh")])

    def goes(self, kind, env, words, left):
        made = returned(self.call, env, words, left)
        self.counts[kind] += 1
        self.counts["refused by 53"] += made is None
        return made

    def at_once(self, chance, moment):
        words = [self.shell(chance, moment), "unload", *names_of_all(chance, moment)]
        leads_back(moment, self.goes("unloads of all", moment.env, words, moment.old), words)

    def purged(self, chance, moment):
        words = [self.shell(chance, moment), "purge"]
        leads_back(moment, self.goes("purges", moment.env, words, []), words)

    def purged_as_at_start(self, chance, moment):
        words = [self.shell(chance, moment), "purge"]
        ends = [self.call(env, words) for env in (moment.env, moment.start)]
        self.counts["purges over others"] += 1
        if ends[0][2] != ends[1][2] or (ends[1][2] != 0 and ends[0] != ends[1]):
            raise Wrong(f"{words} ends in {ends[0]}, and at the start in {ends[1]}")
        if ends[1][2] == 0:
            made = [plain.after(env, plain.printed(FAMILIES[words[0]], end[0])) for env, end in zip((moment.env, moment.start), ends)]
            leads_back(moment._replace(start=made[1]), made[0], words)
            self.counts["accepted purges over others"] += 1

    def one_by_one(self, chance, moment):
        """Rounds of unloads of all that is still live, one by one. Modules that need each other are left, and unloaded by one
        command."""
        env, live, is_less = moment.env, moment.live, True
        while live and is_less:
            is_less = False
            for name in chance.sample(live, len(live)):
                rest = [one for one in live if one != name]
                words = [self.shell(chance, moment), "unload", name]
                made = self.goes("single unloads", env, words, moment.old + rest)
                if made is not None:
                    env, live, is_less = made, rest, True
        if live:
            words = [self.shell(chance, moment), "unload", *live]
            env = self.goes("unloads of all", env, words, moment.old)
        leads_back(moment, env, "one unload after another")

    def of(self, session, seed):
        """All of a session."""
        chance, found = random.Random(seed), []
        self.sessions += 1
        for moment in moments(session):
            self.at_once(chance, moment)
            if moment.old:
                self.purged_as_at_start(chance, moment)
            else:
                self.purged(chance, moment)
            found.append(moment)
        if found:
            self.one_by_one(chance, chance.choice(found))


def calls(program):
    """Calls a program in an environment, and gives what it writes, what it says and its status."""
    programs = plain.Programs("", program, "")
    return lambda env, words: programs.run(program, words, env)


def prepared(session, top):
    """A session whose files are there, and no others. Empty folders of earlier sessions stay: to remove them takes time."""
    for folder, _, names in os.walk(top):
        for name in names:
            os.remove(os.path.join(folder, name))
    certified.begun(session).tree.write()
    write_old(session, top)
    return session


@pytest.mark.parametrize("shell", CALLED)
def test_the_way_back_is_open(program, tmp_path, shell, judge_rows, note):
    ways, top = WaysBack(calls(program), CALLED[shell]), str(tmp_path / "top")

    @examples(250)
    @given(sessions(shell, top), SEEDS)
    def law(session, seed):
        ways.of(prepared(session, top), seed)
        ways.of(prepared(shuffled(session, random.Random(seed)), top), seed)

    law()
    note(", ".join(f"{count} {kind}" for kind, count in [("sessions", ways.sessions), *ways.counts.items()]))
    true(min(ways.counts.values()) >= LEAST_PART * sum(ways.counts.values()), "there are ways back of each kind")
    judge_rows(sum(ways.counts.values()), [])


# In real shells.


@pytest.mark.parametrize("shell", sentence.SHELLS)
@examples(20)
@given(data=st.data())
def test_the_way_back_in_a_shell(program, product, tmp_path, shell, data):
    top = sentence.emptied(tmp_path / "top")
    session, chance = data.draw(sessions(shell, top, product)), random.Random(data.draw(SEEDS))
    session.words = session.words[: chance.randint(len(session.words) // 2, len(session.words))]
    collections.deque(moments(prepared(session, top)), 0)
    moment = moment_of(session)
    assume(moment.live and not in_need(moment.env, moment.old))
    is_purged = not moment.old and chance.choice([True, False])
    words = ["purge"] if is_purged else ["unload", *names_of_all(chance, moment)]
    session.take(words)
    same(session.commands[-1][1::2], (session.start, 0), f"the environment after {words}, and the status")
    same(sentence.lost(session, program, top), None, "what is lost")


# Wrong programs.


def taken_by(env, words):
    """The entries of the modules that a command unloads."""
    entries, taken = model.loaded_in(env), []
    for word in [entry[0] for entry in entries] if words[1] == "purge" else words[2:]:
        meant = [entry for entry in entries if sentence.matches(word, entry[0])][-1:]
        taken += meant
        entries = [entry for entry in entries if entry not in meant]
    return taken


def staying_by(env, words):
    taken = taken_by(env, words)
    return [entry for entry in model.loaded_in(env) if entry not in taken]


def conflict_judged(env, words):
    return next((wording(51, entry[0]) for entry in taken_by(env, words) if entry[2]), None)


def need_of_none(env, words):
    needy = [entry[0] for entry in taken_by(env, words) if entry[3]]
    return wording(53, needy[0]) if words[1] == "purge" and needy else None


def need_that_is_met(env, words):
    return next((wording(53, entry[0]) for entry in staying_by(env, words) if entry[3]), None)


def stack_of_others(env, words):
    """A stack on which another module has pushed later."""
    names = [entry[0] for entry in taken_by(env, words)]
    for name in filter(lambda one: one.startswith(model.STACK), env):
        owners = [field.partition("&")[0] for field in model.fields(env[name])]
        if any(owner in names for owner in owners[1:]):
            return f"Bad stack of '{name.removeprefix(model.STACK)}'"
    return None


def searched(env, words):
    for name, *_ in taken_by(env, words):
        if not any(os.path.isfile(os.path.join(one, name)) for one in env.get("MODULEPATH", "").split(":")):
            return wording(42, name)
    return None


def refusing(reason):
    """A program that refuses a command for a reason, where there is one."""

    def around(call):
        def called(env, words):
            text = reason(env, words)
            return ("", f"ERROR: {text}\n", 1) if text else call(env, words)

        return called

    return around


def unasked(call):
    """A program that refuses nothing by 53."""

    def called(env, words):
        out, said, status = call(env, words)
        return ("", "", 0) if said.startswith("ERROR: Still needed by ") else (out, said, status)

    return called


def forgetting(call):
    """A program that leaves the counters of paths as they are."""

    def called(env, words):
        out, said, status = call(env, words)
        return re.sub(rf"^.*{model.SHARE}.*\n", "", out, flags=re.MULTILINE), said, status

    return called


REFUSED = "{} is refused: \"ERROR: {} '"

# Each with a part of what is said of it.
WRONG_PROGRAMS = {
    "an unload refused because its module has a conflict": (refusing(conflict_judged), REFUSED.format("]", "Conflict with")),
    "a purge refused by 53 though nothing stays": (refusing(need_of_none), "ERROR: Still needed by '"),
    "an unload refused by 53 though what is needed stays": (refusing(need_that_is_met), REFUSED.format("]", "Still needed by")),
    "an unload refused by 36 without cause": (refusing(stack_of_others), REFUSED.format("]", "Bad stack of")),
    "an unload that searches MODULEPATH": (refusing(searched), REFUSED.format("]", "Unable to locate a modulefile for")),
    "an unload that takes what others need": (unasked, "is accepted, and "),
    "an unload that leaves counters": (forgetting, f"'{model.SHARE}"),
}


@pytest.mark.parametrize("around, said", WRONG_PROGRAMS.values(), ids=WRONG_PROGRAMS)
def test_wrong_programs_are_found(program, tmp_path, around, said, note):
    ways, top, found = WaysBack(around(calls(program)), CALLED["any"]), str(tmp_path / "top"), []

    def is_found(drawn):
        session, seed = drawn
        try:
            found.append(None)
            ways.of(prepared(session, top), seed)
        except plain.Wrong as wrong:
            found[-1] = str(wrong)
        return found[-1]

    tried = settings(max_examples=MOST_SESSIONS, phases=[Phase.generate])
    find(st.tuples(sessions("any", top), SEEDS), is_found, settings=tried)
    true(said in found[-1], f"it is found by what it does: {found[-1]}")
    note(f"in session {len(found)}: {found[-1]}")


# What refuses an unload or a load where a premise is missing.


class Row(losses.Row):
    """A site, which is audited in an environment; accepted commands over it, and a last one with the text that refuses it.
    Before the last one files change, or are removed where they have no later text; and it is run in this working directory.
    Without the commands that break the premise the last one is accepted."""

    def __init__(self, files, stand, commands, last, start=None, reads=None, later=None, place="/", audit=None, breaks=None):
        super().__init__(files, stand, commands[:-1], None, start, reads)
        self.last = commands[-1], last
        self.later = later or {}
        self.place = place
        self.audit = audit or {}
        self.breaks = breaks or []


# What is loaded at the start: a module without a file; and the same if it needs `a`.
OLD = {"LOADEDMODULES": "old/1", "_LMFILES_": "/m/old/1"}
NEEDY = {**OLD, "__MODULES_LMPREREQ": "old/1&a"}
SET = "setenv V x\n"
NO = "if {{{}}} {{error no}}\n"

ROWS = {
    "a module that stays needs it": Row(
        {"a/1": SET, "b/1": "prereq a\n"},
        ["certified"] * 2,
        ["load a", "load b", "unload a"],
        wording(53, "b/1"),
        breaks=["load b"],
    ),
    "a module of the start needs it": Row({"a/1": SET}, ["certified"], ["load a", "unload a"], wording(53, "old/1"), NEEDY),
    "a module of the start is purged": Row({"a/1": SET}, ["certified"], ["load a", "purge"], wording(54, "/m/old/1"), OLD),
    "a name means a module of the start": Row(
        {"old/2": SET}, ["certified"], ["load old/2", "unload old old"], wording(54, "/m/old/1"), OLD
    ),
    "the module isn't certified": Row(
        {"a/1": NO.format("[module-info mode unload]")}, ["unstable"], ["load a", "unload a"], "no (line 2)"
    ),
    "a module beside isn't certified": Row(
        {"a/1": NO.format("[getenv W] ne {}"), "b/1": "setenv W x\n"},
        ["certified", "clashes"],
        ["load a", "load b", "unload a"],
        "no (line 2)",
        breaks=["load b"],
    ),
    "the start has another value than the audit": Row(
        {"a/1": NO.format("[getenv W] ne {} && [module-info mode unload]")},
        ["certified"],
        ["load a", "unload a"],
        "no (line 2)",
        reads={"W": "x"},
    ),
    "a module of the start is unloaded": Row(
        {"a/1": NO.format("[getenv W] ne {x}"), "old/1": "setenv W x\n"},
        ["certified", "clashes"],
        ["load a", "unload old", "unload a"],
        "no (line 2)",
        {**OLD, "W": "x"},
        audit={"W": "x"},
        breaks=["unload old"],
    ),
    "the start doesn't agree": Row(
        {"a/1": "conflict b\nsetenv W x\n", "b/1": NO.format("[getenv W] ne {y} && [module-info mode unload]")},
        ["certified"] * 2,
        ["load a", "unload a", "load b", "unload b"],
        "no (line 2)",
        {"W": "y"},
        audit={"W": "y"},
        breaks=["load a", "unload a"],
    ),
    "hands change what is read": Row(
        {"a/1": NO.format("[getenv W] ne {}")},
        ["certified"],
        ["load a", "W=x", "unload a"],
        "no (line 2)",
        breaks=["W=x"],
    ),
    "hands change a stack": Row(
        {"a/1": "pushenv V x\n"},
        ["certified"],
        ["load a", "__MODULES_PUSHENV_V=x", "unload a"],
        wording(36, "V"),
        breaks=["__MODULES_PUSHENV_V=x"],
    ),
    "hands change the loaded list": Row(
        {"a/1": SET},
        ["certified"],
        ["load a", "_LMFILES_=", "unload a"],
        wording(35),
        breaks=["_LMFILES_="],
    ),
    "the file is gone": Row({"a/1": SET}, ["certified"], ["load a", "unload a"], wording(54, "/m/a/1"), later={"a/1": None}),
    "the file is another": Row({"a/1": SET}, ["certified"], ["load a", "unload a"], "no (line 2)", later={"a/1": "error no\n"}),
    "the working directory is another": Row(
        {"a/1": SET}, ["certified"], ["load a", "unload a"], wording(54, "./m/a/1"), {"MODULEPATH": "./m"}, place="/usr"
    ),
    "a module in conflict has set what is read": Row(
        {"a/1": "conflict b\nsetenv W x\n", "b/1": NO.format("[getenv W] ne {}")},
        ["certified"] * 2,
        ["load a", "load b"],
        "no (line 2)",
        breaks=["load a"],
    ),
    "the start has another stack": Row(
        {"a/1": "pushenv V x\n"}, ["certified"], ["load a"], wording(36, "V"), {"__MODULES_PUSHENV_V": "x"}
    ),
    "the shell has no text for it": Row(
        {"a/1": "unsetenv V two\\nlines\n"},
        ["certified"],
        ["load a", "csh unload a"],
        wording(62, "V"),
        {"V": "two\nlines"},
    ),
}


def test_claims_has_each_row():
    text = content("docs", "CLAIMS.md")
    same([name for name in ROWS if f'"{name}"' not in text], [], "the rows that CLAIMS doesn't name")


def ends(session, row, commands):
    """How the last command ends after these: what it prints, what it says and its status."""
    for words in commands:
        session.does(words)
    for name, text in row.later.items():
        if text is None:
            os.remove(session.folder.at(name))
        else:
            session.folder.module(name, text)
    last = row.last[0]
    words = [os.fsdecode(session.folder.program), *(last if last.split()[0] in FAMILIES else f"sh {last}").split()]
    options = {"env": session.env, "cwd": row.place, "capture_output": True, "text": True, "timeout": SECONDS}
    done = subprocess.run(words, check=False, **options)
    return done.stdout, done.stderr, done.returncode


@pytest.mark.parametrize("row", ROWS.values(), ids=ROWS)
def test_what_refuses_where_a_premise_is_missing(folder, built, monkeypatch, row):
    monkeypatch.chdir("/")
    session = losses.Session(folder, row)
    words = [built("modaudit"), "--json", session.env["MODULEPATH"]]
    done = subprocess.run(words, env=row.audit, capture_output=True, timeout=SECONDS, check=False)
    same([one["standing"] for one in json.loads(done.stdout)["modules"]], row.stand, "how the modules stand")
    last, said = row.last
    same(ends(session, row, row.commands), ("", f"ERROR: {session.real(said)}\n", 1), f"the end of {last}")


@pytest.mark.parametrize("row", [row for row in ROWS.values() if row.breaks], ids=[name for name in ROWS if ROWS[name].breaks])
def test_only_that_premise_is_missing(folder, row):
    _, said, status = ends(losses.Session(folder, row), row, [words for words in row.commands if words not in row.breaks])
    same((said, status), ("", 0), f"the end of {row.last[0]} without {row.breaks}")
