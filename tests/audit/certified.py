"""Sessions of certified modules, tried by the built program in a real shell: the law of sites.

Random trees of modulefiles, of which each uses variables as it likes, and of which some read variables and leave what
these say, some ask for the mode, the switch or the shell, and undo the same in each way or don't, some ask for
something else, undo nothing or are refused, and some are excluded by hand; a random environment that agrees with some
of what the certified modules of the site use (`models/standings.py` says which these are, and which starts agree), and
mostly has the values of the audit; and random lists of loads, unloads, switches and purges, in which each accepted load
is of a certified module with whose uses the start agrees and whose reads have in it the values of the audit, and each
unload of one that the session loaded. The commands call the program by the names of several shells; in the model these
are of all families. Between them changes by hand, by the uses and reads of the modules that are live then
(`core/hands.py`): so a variable that none of them uses or reads is changed freely, and the start by which the next load
is judged is what the changes have made of it. After each command and each change the exported variables of the shell
are those that a model makes (`core/sentence.py`, `models/runs.py`), in which what is loaded stands over the start as
its file means; and after the last one `env -0` writes what it wrote at the start.

The program `modaudit` has to say the same of each site: how its modules stand, in which order, their certificate, and
where the start doesn't agree with it.

The model alone is run too, and besides with clauses of the definition left out, each of which has to lose a start or what
is loaded; and what some of these are there for by hand.
"""

import json
import os
import subprocess

import pytest
from hypothesis import Phase, find, given, settings
from hypothesis import strategies as st

from tests.core import hands, sentence
from tests.core.sentence import Lost
from tests.lib.harness import same, true
from tests.lib.properties import SPELLINGS, examples, several
from tests.models import runs as model
from tests.models import standings
from tests.models.evaluations import OTHER, VARIABLE, Question
from tests.models.standings import MODULEPATH, SiteModule
from tests.shells.shells import FAMILIES

# How many sites the model alone goes through until a clause that is left out loses something, at most.
MOST_SITES = 20_000


class Site:
    """A tree, a MODULEPATH where its site begins, the other variables of its audit, the names of what is excluded, and
    what is certified there."""

    def __init__(self, tree, modulepath, others, without=()):
        self.tree = tree
        self.modulepath = modulepath
        self.without = without
        self.at_hand = {**others, MODULEPATH: modulepath}
        self.known = {}
        self.directories = standings.site_directories(modulepath, self.modules_in)
        self.modules = standings.site_modules(modulepath, self.modules_in)
        self.certified = standings.certified(self.modules)
        self.uses = standings.certificate(self.modules)

    def modules_in(self, directory):
        """The modules of a directory, in the order of their names."""
        paths = [(name, f"{directory}/{name}") for name in sentence.NAMES]
        return [self.site_module(name, path) for name, path in paths if path in self.tree.modules]

    def site_module(self, name, path):
        """The module, which is evaluated once in each way."""
        module = self.tree.modules[path]
        if path not in self.known:
            self.known[path] = SiteModule(name, path, lambda way: module.evaluated(name, dict(self.at_hand), way), self.without)
        return self.known[path]


# Random sites: most modules use a variable in one way, and those of some folders exclude each other.


ODD_LINES = [
    ("asks", "if {[is-loaded]} {}", Question(OTHER)),
    ("asks", "module-info specified", Question(OTHER)),
    ("asks", "info exists env(PWD)", Question(OTHER)),
    *[("exits",)] * 3,
]
NOTHING = st.just(("nothing",))
# What may be read besides what modules use: what hands change too, and what is the tool's own.
READ = ("HOME", "OTHER", "HOME", "OTHER", "EDITOR")
OWN = (model.NAMES, model.FILES)
# What HOME and OTHER are, and what conditions on a variable have.
HOME = "/home/x y"
TEXTS = (HOME, "v", "a b", "")
CONDITIONS = st.sampled_from(list(sentence.CONDITIONS))
OTHERS = ("m", "k", "z", "z/1", "n", "w", "w_1", "m/1", "c", "a")
# What may be excluded: mostly nothing.
NAMED = st.sampled_from([*sentence.NAMES, *sentence.FOLDERS, *sentence.ODD_NAMES])
EXCLUDED = st.one_of(st.just([]), st.just([]), several(NAMED, 4))


def odd_lines(variables):
    """What keeps a module from being certified."""
    return st.sampled_from(ODD_LINES + [("remove-path", ":", name, ["/opt/b"]) for name in variables])


def added_value(name, way):
    """The kinds of records that have the value of another variable in them, and use a variable in this way."""
    if way[0] == "path":
        return [(kind, way[1], name) for kind in ("prepend-path", "append-path")]
    return [("pushenv", name)] if way == ("stack",) else [("setenv", name)] if way == ("fixed", None) else []


@st.composite
def readers(draw, names, records, values):
    """Lines that read one of these variables, with some of these records, or with its value in one of these kinds. Some
    read what they change."""
    name = draw(names)
    if values and not draw(st.integers(0, 3)):
        return "takes", name, draw(st.sampled_from(values))
    how, text, one, other = draw(CONDITIONS), draw(st.sampled_from(TEXTS)), draw(records), draw(records)
    return "reads", name if draw(st.integers(0, 7)) else model.named(one) or name, how, text, one, other


def by_way(one, other=NOTHING):
    """Lines that have one of these in some ways, and else one of those."""
    return st.tuples(st.just("by way"), sentence.BY_WAY, one, other)


def given_in(ways):
    """Kinds of records that have an answer about the way in them, where variables are used so."""
    kinds = {"fixed": ("setenv",), "stack": ("pushenv",), "path": ("prepend-path", "append-path")}
    given = [(kind, *way[1:], name) for name, way in ways if way[0] != "fixed" for kind in kinds.get(way[0], ())]
    return given + [("setenv", name) for name, way in ways if way == ("fixed", None)] + [("conflict",)]


def asking(ways, found, unseen, read):
    """Lines that ask for the way: of records that undo the same; of what no unload sees; of records that are there where
    more is asked or read alone; and of any."""
    some = st.one_of(*found)
    silent = st.tuples(st.just("reads"), read, CONDITIONS, st.sampled_from(TEXTS), *[st.one_of(NOTHING, some)] * 2)
    return [
        *(sentence.twins(one) for one in found),
        by_way(unseen),
        by_way(silent),
        by_way(by_way(some)),
        by_way(some, st.one_of(NOTHING, some)),
        st.tuples(st.just("gives"), sentence.ANSWERS, st.sampled_from(given_in(ways))),
    ]


def added_directories(dirs):
    """Records that add a directory; rarely otherwise than as a path with colons."""
    kinds = ("prepend-path", "append-path")
    added = [(kind, ":", MODULEPATH, [one]) for one in dirs for kind in kinds]
    odd = [(kind, ";", MODULEPATH, [one]) for one in dirs[:1] for kind in kinds]
    return st.sampled_from(added * 2 + odd + [("pushenv", MODULEPATH, one) for one in dirs[:1]])


def conflicts(folder):
    """Conflicts of a module with others of its folder."""
    versions = [f"{folder}/{version}" for version in sentence.FOLDERS[folder]]
    return st.sampled_from([("conflict", [folder]), ("conflict", versions), ("conflict", versions[:1])])


def shared_line(folder, way, condition):
    """The line of each module of a folder by which its modules exclude each other in this way, or none."""
    oldest = f"{folder}/{sentence.FOLDERS[folder][0]}"
    in_all = ("conflict", [folder])
    return {"all": in_all, "first": ("conflict", [oldest]), "asked": ("by way", condition, in_all, ("nothing",))}.get(way)


@st.composite
def lines(draw, dirs, kinds):
    """A line of a modulefile in a folder, for each of which there are kinds of records."""
    path = draw(sentence.places(dirs))
    return path, draw(kinds[sentence.folder_of(path)]), draw(SPELLINGS)


@st.composite
def sites(draw, shell, dirs):
    """A site, in which modules that may be loaded at once mostly don't set or unset one variable."""
    variables = sentence.variables(shell)
    of_all = sentence.ways(shell, (standings.ABSENT,) * 12)
    ways = [(name, draw(of_all)) for name in variables]
    strays = draw(st.lists(st.tuples(st.sampled_from(variables), of_all), max_size=2))
    exclusive = {folder: draw(st.sampled_from(["", "some", "all", "first", "asked"])) for folder in sentence.FOLDERS}
    found = {(name, way): sentence.records(name, way, dirs) for name, way in ways + strays}
    some = [*found.values(), added_directories(dirs)]
    needs = model.needs(OTHERS, ("conflict", "conflict", "prereq"))
    read = st.sampled_from([*READ * 5, *OWN, MODULEPATH, *variables])
    values = [kind for name, way in ways for kind in added_value(name, way)]
    # (hypothesis takes a strategy that stands there twice for one)
    reading = [readers(read, st.one_of(*some, needs), values) for _ in range(6)]
    odd = odd_lines(variables)
    absent = st.sampled_from([("unsetenv", name, None) for name in variables])
    unseen = st.one_of(sentence.QUIET, needs, odd, absent)
    alone = st.sampled_from([*READ, *OWN * 2, *variables])
    every = [*some, odd, sentence.QUIET, *reading, *asking(ways, [*found.values()], unseen, alone)]
    shared = [found[name, way] for name, way in ways if way[0] != "fixed"] * 4
    shared += [*every, needs]
    kinds = {"": st.one_of(*shared)}
    for folder, way in exclusive.items():
        own = [conflicts(folder) for _ in range(4)] if way == "some" else []
        kinds[folder] = st.one_of(*every, *own) if way else kinds[""]
    in_all = {folder: shared_line(folder, way, draw(sentence.BY_WAY)) for folder, way in exclusive.items()}
    tree = draw(sentence.trees(dirs, lines(dirs, kinds), in_all))
    first = draw(st.lists(st.sampled_from(dirs), min_size=1, max_size=3, unique=True))
    others = {"HOME": HOME, "OTHER": draw(st.sampled_from([*TEXTS, *sentence.startable(shell)]))}
    return Site(tree, ":".join(first), others, draw(EXCLUDED))


# Starts.

CONFLICTS = st.sampled_from([[], ["c"], ["m/10", "d"], ["k"]])
OLD = (*model.OLD, "m/1", "n")


def held(name, use, owners, shell, site):
    """The variables that a start has of one that is used in this way; of one that is read, that of the audit."""
    if use == standings.READ:
        return st.just({name: site.at_hand[name]} if name in site.at_hand else {})
    return sentence.held(name, use, owners, shell, site.tree.dirs)


@st.composite
def starts(draw, site, shell):
    """An environment that agrees with a use of most variables of the certificate, and mostly has the values of the
    audit. Its MODULEPATH may lead elsewhere too."""
    env = {"HOME": HOME, "OTHER": site.at_hand["OTHER"], "__MODULES_ELSE": "x"}
    if not draw(st.integers(0, 3)):
        env["OTHER"] = draw(st.sampled_from(sentence.startable(shell)))
    entries = draw(model.old_entries(OLD, CONFLICTS, sentence.GROUPS))
    model.write_loaded(env, entries)
    owners = tuple(entry[0] for entry in entries)
    for name in [*sentence.variables(shell), MODULEPATH]:
        its = [use for used, use in site.uses if used == name]
        if its and draw(st.integers(0, 3)):
            env.update(draw(held(name, draw(st.sampled_from(its)), owners, shell, site)))
        else:
            env.update(draw(hands.anything(name, shell, site.tree.dirs)))
    return sentence.in_a_shell(env, shell)


# Sessions.


class Session(hands.ByHand):
    """A session over a site: it loads what is certified and agreed with, and unloads what it has loaded."""

    def __init__(self, site, *given):
        super().__init__(*given)
        self.site = site
        self.places = {(module.name, module.path): module for module in site.certified}

    def __repr__(self):
        return f"{super().__repr__()}, the site of {self.site.modulepath}"

    @property
    def ways(self):
        """How the live modules use variables, by what they recorded."""
        live = self.live_modules()
        return truly(standings.uses_by, [SiteModule(*place, standings.in_all_contexts(records)) for *place, records in live])

    def is_read(self, name):
        return not standings.may_be_changed(name, [self.places[place] for place in self.live()])

    def is_fit(self, before, step):
        mine = {(name, path) for name, path, *_ in model.loaded_in(before)[len(self.old) :]}
        for kind, *place in step.moves:
            if not (self.may_be_loaded(tuple(place)) if kind == "load" else tuple(place) in mine):
                return False
            mine.add(tuple(place))
        return True

    def may_be_loaded(self, place):
        return place in self.places and standings.may_be_loaded(self.places[place], self.start)

    def stands(self, words):
        uses, live = self.ways, self.live_modules()
        if not model.in_order(uses, self.env):
            raise Lost(f"the environment isn't in order after {words}")
        if not model.stands(uses, self.start, live, self.env):
            raise Lost(f"what is loaded doesn't stand after {words}")
        if not live and self.env != self.start:
            raise Lost(f"the start is lost after {words}")


def truly(function, *arguments):
    """What a function of the definition gives where nothing is left out of it."""
    kept, standings.WITHOUT = standings.WITHOUT, ""
    try:
        return function(*arguments)
    finally:
        standings.WITHOUT = kept


@st.composite
def sessions(draw, shell, top, product="", folders=("one", "two", "three", "four"), called=None):
    """Sessions in a shell, whose commands call the program by names of shells that are read as it is, or by these."""
    site = draw(sites(shell, tuple(f"{top}/tree/{name}" for name in folders)))
    start = {**draw(starts(site, shell)), "PWD": top}
    sure = sorted({module.name for module in site.certified})
    sure += [name.rpartition("/")[0] or name for name in sure]
    names = st.sampled_from(sure * 12 + site.tree.names() + sentence.ODD_NAMES)
    commands = [sentence.commands(names, not model.loaded_in(start)) for _ in range(2)]
    changes = hands.hands({name: use for name, use in site.uses if use != standings.READ}, sentence.variables(shell))
    words = draw(several(st.one_of(*commands, changes), 40))
    called = sentence.callings(shell) if called is None else called
    return Session(site, product, shell, site.tree, start, words, draw(sentence.ENDS), draw(called))


# The program that judges sites.


def audit_of(program, site, env):
    """The document that the program writes of a site in an environment, whose MODULEPATH is made the site's."""
    command = [program, "--json", *(word for name in site.without for word in ("--without", name))]
    done = subprocess.run(command, env=judged(site, env), capture_output=True, timeout=60, check=False)
    if done.stderr or done.returncode not in (0, 1):
        raise Lost(f"modaudit ends with status {done.returncode}, and {done.stderr!r}")
    return json.loads(done.stdout)


def judged(site, env):
    """The environment, with the MODULEPATH of the site, and without counters of it."""
    others = {name: value for name, value in env.items() if name != model.SHARE + MODULEPATH}
    return dict(others, MODULEPATH=site.modulepath)


def use_of(value):
    """A use of the document, as the model has it."""
    kind = value["use"]
    if kind == "set" or "value" in value:
        return ("fixed", value.get("value"))
    if kind == "unset":
        return standings.ABSENT
    return ("path", value["delimiter"]) if kind == "path" else {"stack": ("stack",), "read": standings.READ}[kind]


def uses_in(values):
    return [(value["variable"], use_of(value)) for value in values if value["use"] != "loaded"]


def standing_in(value):
    """A module of the document: its place, its standing and its further ones, and what a certified one reads."""
    stands = [value, *value.get("other_reasons", [])]
    return value["name"], value["path"], [one["standing"] for one in stands], value.get("reads", [])


def standing_by(module, modules):
    """The same by the model."""
    stands = [standings.standing_of(module, modules), *standings.other_reasons_of(module, modules)]
    return module.name, module.path, stands, list(module.reads) if stands == ["certified"] else []


def clashes_in(value):
    """The clashes of a module of the document: the other's place, the variable and both uses, how many use it so."""
    found = [one for one in [value, *value.get("other_reasons", [])] if one["standing"] == "clashes"]
    places = [(one["other"]["name"], one["other"]["path"]) for one in found]
    return [(place, (one["variable"], *map(use_of, one["uses"])), one["alike"]) for place, one in zip(places, found)]


def is_clash(module, place, pair, alike, site):
    """So it is by the model, which has the other among its certified ones."""
    others = [other for other in site.certified if (other.name, other.path) == place]
    name, _, theirs = pair
    known = [clash for other in others for clash in standings.clashes_of(module, other)]
    return pair in known and alike == standings.users_of_one_use(site.modules, name, theirs)


def wrong_clashes(found, modules, site):
    """The clashes of a document that aren't any by the model, which has the modules in its order."""
    clashes = [(one, *clash) for one, value in zip(modules, found["modules"]) for clash in clashes_in(value)]
    return [(one.name, *clash) for one, *clash in clashes if not is_clash(one, *clash, site)]


def in_order_of(found, modules):
    """The modules as they stand in a document; those that it hasn't stand last."""
    places = [(one["name"], one["path"]) for one in found["modules"]]
    return sorted(modules, key=lambda one: [*places, (one.name, one.path)].index((one.name, one.path)))


def differs(found, site):
    """In what a document of a site, judged in the environment of its audit, differs from the model, or none."""
    modules = in_order_of(found, site.modules)
    pairs = {
        "the modules": (list(map(standing_in, found["modules"])), [standing_by(one, modules) for one in modules]),
        "the clashes": (wrong_clashes(found, modules, site), []),
        "the certificate": (uses_in(found["certificate"]), standings.certificate(modules)),
        "the missing directories": (found["missing_directories"], standings.missing(site.directories, os.path.isdir)),
        "the directories that hang": (
            [(one["name"], one["path"], one["directory"]) for one in found["unreachable_directories"]],
            [(one.name, one.path, directory) for one, directory in standings.hanging(site.modulepath, modules)],
        ),
        "the files that are no modulefiles": (found["no_modulefiles"], []),
        "the counts": ((found["certified"], found["count"]), (len(site.certified), len(site.modules))),
    }
    return next((f"{what}: {one!r}, by the model {other!r}" for what, (one, other) in pairs.items() if one != other), None)


def disagrees(found, site, env):
    """In what a document says otherwise than the model whether an environment agrees with its certificate, or none."""
    said = set(uses_in(found["disagreements"]))
    its = judged(site, env)
    wanted = {use for use in uses_in(found["certificate"]) if not standings.agrees_with_use(its, *use)}
    return None if said == wanted else f"the disagreements: {said!r}, by the model {wanted!r}"


def audited(program, session):
    """modaudit says the same as the model of the site of a session, and of its start. It refuses a site of which no
    directory is there."""
    site, start = session.site, session.start
    if not any(site.tree.is_there(directory) for directory in site.modulepath.split(":")):
        done = subprocess.run([program], env=judged(site, start), capture_output=True, timeout=60, check=False)
        same((done.stderr, done.returncode), (b"ERROR: MODULEPATH has no directory\n", 2), "of a site that isn't there")
        return
    same(differs(audit_of(program, site, site.at_hand), site), None, "what differs from the model")
    same(disagrees(audit_of(program, site, start), site, start), None, "what differs of the start")


# All of it.


def begun(session):
    """A session whose start has its loaded list in order."""
    true(model.in_order({}, session.start), "the loaded list of the start is in order")
    return session


def tried(programs, product, top, shell, data):
    session = begun(data.draw(sessions(shell, sentence.emptied(top), product)))
    session.tree.write()
    audited(programs["modaudit"], session)
    sentence.follows(programs["modulecmd"], session, str(top))


@pytest.fixture(scope="module")
def programs(built):
    return {name: built(name) for name in ("modulecmd", "modaudit")}


@examples(300)
@given(data=st.data())
def test_sessions_in_sh(programs, product, tmp_path, data):
    tried(programs, product, tmp_path / "top", "sh", data)


@pytest.mark.parametrize("shell", ["tcsh", "fish"])
@examples(40)
@given(data=st.data())
def test_sessions_in_other_shells(programs, product, tmp_path, shell, data):
    tried(programs, product, tmp_path / "top", shell, data)


# The model alone.


@examples(500)
@given(sessions("sh", "/t", called=sentence.callings()))
def test_the_model_loses_nothing(session):
    begun(session).follow()


def loss_of(session):
    try:
        begun(session).follow()
    except Lost as lost:
        return str(lost)
    return None


@pytest.mark.parametrize("clause", standings.CLAUSES)
def test_each_clause_is_needed(clause, monkeypatch, note):
    monkeypatch.setattr(standings, "WITHOUT", clause)
    dense = sessions("sh", "/t", folders=("one",), called=sentence.callings())
    losses = []

    def loses(session):
        losses.append(loss_of(session))
        return losses[-1]

    find(dense, loses, settings=settings(max_examples=MOST_SITES, phases=[Phase.generate]))
    note(f"without it {losses[-1]}")


# What clauses about questions are there for, by hand: without its clause the first module of a case is certified, and
# the session loses something. Each command begins with the name of a shell.


class Case:
    """Modules by their names, how the first stands, and a session over their site."""

    def __init__(self, modules, stands, start, commands):
        self.modules = modules
        self.stands = stands
        self.start = start
        self.commands = [words.split() for words in commands]


ADDS, SETS, PUSHES = ("append-path", ":", "P", ["/q"]), ("setenv", "V", "x"), ("pushenv", "V", "x")
NONE = ("nothing",)
TO_AND_FRO = ["sh load n", "sh unload n"]

CASES = {
    "that the ways undo alike": Case(
        {"n": [("by way", "unloads", ADDS, NONE)]}, "unstable", {"P": "/q"}, TO_AND_FRO
    ),
    "that loads can be undone in each way": Case(
        {"n": [("by way", "in csh", ("remove-path", ":", "P", ["/q"]), NONE)]},
        "unstable",
        {"P": "/q:/r"},
        ["csh load n", "csh unload n"],
    ),
    "that loads keep the same variables absent in each way": Case(
        {"n": [("by way", "in csh", ("unsetenv", "P", None), NONE)]}, "unstable", {"P": "/q"}, ["csh load n", "csh unload n"]
    ),
    # The load of the one that unsets V takes it from the one that sets it.
    "that an unset without a value is a use": Case(
        {"n": [SETS], "w_1": [("unsetenv", "V", None)]},
        "clashes",
        {},
        ["sh load n", "sh load w_1", "sh unload w_1"],
    ),
    # Both set V where csh loads them, and the unload of one takes it from the other.
    "that loads are in conflict with the same names in each way": Case(
        {"n": [SETS, ("by way", "in csh", NONE, ("conflict", ["w_1"]))], "w_1": [SETS]},
        "unstable",
        {},
        ["csh load n", "csh load w_1", "csh unload n"],
    ),
    "that what another way asks rests": Case(
        {"n": [("by way", "unloads", ("reads", model.NAMES, "is", "n", ADDS, NONE), NONE)]},
        "unstable",
        {"P": "/q"},
        TO_AND_FRO,
    ),
    # The mode is asked for in sh, and what csh would do isn't seen.
    "that another way asks no more": Case(
        {"n": [("by way", "unloads", ("by way", "in csh", ADDS, NONE), NONE)]},
        "unstable",
        {"P": "/q"},
        ["sh load n", "csh unload n"],
    ),
    # With w_1 loaded it adds what it doesn't add alone, and the unload takes it out.
    "that what is loaded is answered by each choice": Case(
        {"n": [("by way", "beside w_1", ADDS, NONE)], "w_1": [SETS]},
        "unstable",
        {"P": "/q"},
        ["sh load n", "sh load w_1", "sh unload n"],
    ),
    "that little is asked of what is loaded": Case(
        {
            "n": [
                ("by way", "loads", NONE, NONE),
                ("by way", "without k", ("says", "k"), NONE),
                ("by way", "beside w_1", ADDS, NONE),
            ],
            "w_1": [SETS],
        },
        "unstable",
        {"P": "/q"},
        ["sh load n", "sh load w_1", "sh unload n"],
    ),
    "that what another way reads counts": Case(
        {"n": [("by way", "unloads", ("reads", "V", "is there", ADDS, NONE), NONE)], "m/1": [PUSHES]},
        "clashes",
        {"P": "/q"},
        ["sh load n", "sh load m/1", "sh unload n"],
    ),
    # Where the other is loaded, the conflict isn't there.
    "that a reader's conflicts don't free it": Case(
        {
            "n": [
                ("reads", "V", "is", "", ("conflict", ["m/1"]), NONE),
                ("reads", "V", "is", "x", ADDS, NONE),
            ],
            "m/1": [PUSHES],
        },
        "clashes",
        {},
        ["sh load m/1", "sh load n", "sh unload m/1", "sh unload n"],
    ),
}


def session_of(case):
    """The session of a case, over its site."""
    files = {f"/t/one/{name}": sentence.Module([(line, 0) for line in its]) for name, its in case.modules.items()}
    tree = sentence.Tree(("/t/one",), files, {})
    site = Site(tree, "/t/one", {})
    session = Session(site, "", "sh", tree, {**case.start, MODULEPATH: "/t/one"}, [], 0)
    for words in case.commands:
        session.does(words)
    return session


def case_lost(case):
    """What the session of a case loses, or none."""
    try:
        session_of(case).follow()
    except Lost as lost:
        return str(lost)
    return None


@pytest.mark.parametrize("case", CASES.values(), ids=CASES)
def test_what_a_clause_keeps_from_being_certified(case):
    modules = session_of(case).site.modules
    others = dict.fromkeys(list(case.modules)[1:], "certified")
    wanted = {"n": case.stands, **others}
    same({one.name: standings.standing_of(one, modules) for one in modules}, wanted, "how the modules stand")
    same(case_lost(case), None, "what is lost")


def test_each_rare_clause_has_a_case():
    true(set(standings.RARE) <= set(CASES) <= {*standings.RARE, *standings.CLAUSES}, "the clauses of the cases")


@pytest.mark.parametrize("clause", CASES)
def test_what_is_lost_without_the_clause(clause, monkeypatch, note):
    monkeypatch.setattr(standings, "WITHOUT", clause)
    lost = case_lost(CASES[clause])
    true(lost, "something is lost")
    note(f"without it {lost}")


# Modules that ask for their way, and do no harm: what they say, set and add in each way, in each shell.

HARMLESS = {
    "n": [("by way", "loads", ("says", "hello"), ("says", "bye")), ("by way", "in csh", SETS, ("setenv", "V", "y"))],
    "w_1": [
        ("by way", "switches", ("says", "for another"), NONE),
        ("by way", "in fish", ADDS, ("prepend-path", ":", "P", ["/q"])),
    ],
    "m/1": [
        ("conflict", ["m"]),
        ("gives", "shell", ("pushenv", "S")),
        ("by way", "unloads", ("reads", "HOME", "is there", ("says", "at home"), NONE), NONE),
    ],
    "m/2": [("conflict", ["m"]), ("gives", "type", ("setenv", "T"))],
    "k/9": [
        ("by way", "beside m/1 or n", ("says", "beside n"), ("by way", "beside w_1", ("says", "beside w_1"), NONE)),
        ("gives", "loaded", ("pushenv", "L")),
    ],
}
THROUGH = ["load n m/1", "load k/9", "switch n w_1", "switch m/1 m/2", "unload k/9", "load k/9", "load n"]
THROUGH += ["unload w_1", "switch m m/1", "purge"]


@pytest.mark.parametrize("shell", sentence.SHELLS)
def test_modules_that_ask_for_their_way(programs, product, tmp_path, shell):
    top = sentence.emptied(tmp_path / "top")
    directory = f"{top}/tree/one"
    files = {f"{directory}/{name}": sentence.Module([(line, 0) for line in its]) for name, its in HARMLESS.items()}
    site = Site(sentence.Tree((directory,), files, {}), directory, {"HOME": HOME})
    start = sentence.in_a_shell({"HOME": HOME, "PWD": top, "P": "/q:/r", MODULEPATH: directory}, shell)
    commands = [words.split() for words in THROUGH]
    names = [name for name in FAMILIES if FAMILIES[name] == FAMILIES[shell]]
    session = Session(site, product, shell, site.tree, start, commands, 0, names)
    same([module.name for module in site.certified], sorted(HARMLESS, key=sentence.NAMES.index), "who is certified")
    session.tree.write()
    audited(programs["modaudit"], session)
    sentence.follows(programs["modulecmd"], session, top)
    same([status for *_, status in session.commands], [0] * len(THROUGH), "the statuses")


# Which of those that clash are certified.


def site_module(name, *records, reads=()):
    asked = [Question(VARIABLE, variable) for variable in reads]
    return SiteModule(name, f"/m/{name}", standings.in_all_contexts(records, asked))


LIB = [site_module(f"lib/{number:03}", ("prepend-path", ":", "PYTHONPATH", ["/x"])) for number in range(200)]
LEGACY = site_module("legacy/1", ("setenv", "PYTHONPATH", "/y"))
GCC = [site_module(f"gcc/{number}", ("conflict", ["gcc"]), ("setenv", "CC", "gcc")) for number in range(9, 14)]
AOCC = site_module("aocc/1", ("setenv", "CC", "clang"))
# It excludes all versions of gcc, but where CC has another value than in the audit it may not.
FLAGS = site_module("flags/1", ("conflict", ["gcc"]), reads=["CC"])
CROWDS = [(LIB, LEGACY), (GCC, AOCC), (GCC, FLAGS)]


def fault_of(sure, modules):
    """What is wrong where these modules of a site are certified, or none."""
    candidates = standings.candidates(modules)
    if not all(module in candidates for module in sure):
        return "one is certified that can't be"
    if any(standings.clashes_of(one, other) for one in sure for other in sure):
        return "two certified modules clash"
    others = [module for module in candidates if module not in sure]
    if not all(any(standings.clashes_of(module, other) for other in sure) for module in others):
        return "one more could be certified"
    return None


def choice_of(modules):
    """What is wrong of the choice among modules that clash, or none."""
    sure, turned = standings.certified(modules), standings.certified(modules[::-1])
    is_same = sorted(map(id, turned)) == sorted(map(id, sure))
    return fault_of(sure, modules) or (None if is_same else "the order of the files makes a difference")


def crowd_lost(crowd, odd):
    """Whether the one that clashes with a crowd is certified in its place, wherever it is listed."""
    return any(odd in standings.certified(modules) for modules in ([odd, *crowd], [*crowd, odd]))


def choice_lost():
    """What the model says wrongly of crowds, or none."""
    if any(crowd_lost(*crowd) for crowd in CROWDS):
        return "the odd one is certified in place of many"
    two = [site_module(name, ("setenv", "X", name)) for name in ("b/1", "a/1")]
    return choice_of(two)


@examples(300)
@given(sites("sh", ("/t/one", "/t/two")))
def test_none_more_can_be_certified(site):
    same(choice_of(site.modules), None, "what is wrong of the choice")


def test_those_that_most_get_on_with_stay():
    same(choice_lost(), None, "what is lost")
    same([len(standings.certified([*crowd, odd])) for crowd, odd in CROWDS], [200, 5, 5], "how many are certified")


@pytest.mark.parametrize("clause", standings.CHOICES)
def test_each_rule_of_the_choice_is_needed(clause, monkeypatch, note):
    monkeypatch.setattr(standings, "WITHOUT", clause)
    true(choice_lost(), "something is lost")
    note(f"without it {choice_lost()}")
