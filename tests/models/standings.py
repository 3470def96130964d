"""A model of how the modules of a site stand: which of them are certified, and which starts agree with these.

It is written from the rules in the crates' pages (sites, certificates), and shares nothing with the definitions that
the prover reads nor with the programs. `runs.py` has the edits of environments.

A module's file is a function of the way in which it is evaluated (`evaluations.py`), in the environment of the audit.
It may be excluded by hand. A use of a variable is what `runs.py` calls a way: ("fixed", None) where a module sets it,
("fixed", value) where it unsets this value, ("absent",) where it unsets it without a value, ("path", delimiter), or
("stack",). What it reads is one more use, ("read",).
"""

from tests.models import runs as model
from tests.models.evaluations import FIRST, LOADED, MODE, SHELL, VARIABLE, Ran, are_few, asked_for, other_contexts

MODULEPATH = "MODULEPATH"
COLONS = ("path", ":")
ABSENT, SET, READ = ("absent",), ("fixed", None), ("read",)

# What shells change by themselves.
OF_SHELLS = set(
    """PWD OLDPWD SHLVL _ RANDOM SRANDOM SECONDS EPOCHSECONDS EPOCHREALTIME LINENO LINES COLUMNS PPID BASHPID PIPESTATUS
    OPTIND OPTARG REPLY HISTCMD""".split()
)

# What is left out of the definition, in the runs that have to lose a law.
WITHOUT = ""

CLAUSES = (
    "the delimiters of paths",
    "two uses in one module",
    "that an unset without a value is a use",
    "clashes",
    "that versions of one name may be loaded at once",
    "that names match by their parts",
    "that modules are deterministic",
    "that the ways undo alike",
    "that another way asks no more",
    "that what is loaded is answered by each choice",
    "that what another way reads counts",
    "that a reader's own records don't name it",
    "that the tool's own variables aren't read",
    "that nobody uses what is read",
    "that the start agrees with what is loaded",
    "that the start has the value of the audit",
    "that hands leave what is read",
)

# Clauses without which random sites lose something too seldom: they have cases by hand alone.
RARE = (
    "that loads can be undone in each way",
    "that loads keep the same variables absent in each way",
    "that loads are in conflict with the same names in each way",
    "that what another way asks rests",
    "that little is asked of what is loaded",
    "that a reader's conflicts don't free it",
)

# Of the choice among modules that clash, each with what it is for.
CHOICES = {
    "the competitors": "the modules with the fewest competitors are selected",
    "the versions that conflicts exclude": "the modules with the fewest competitors are selected",
    "the readers among these": "the modules with the fewest competitors are selected",
    "the names": "the order of the files makes no difference",
}


def is_without(clause):
    return WITHOUT == clause


class SiteModule:
    """A module of a site: its name, its file, and what this leaves in each way, in the environment of the audit. It is
    evaluated in the first way, and in those that this evaluation asks for. One that a name of `without` means is
    excluded."""

    def __init__(self, name, path, left, without=()):
        self.name = name
        self.path = path
        self.is_excluded = any(means(given, name) for given in without)
        self.first = left(FIRST)
        self.others = {} if self.first.fault else {way: left(way) for way in other_contexts(self.first.asked)}
        # Whether it is deterministic, by what is left out of the definition.
        self.deterministic = {}

    @property
    def records(self):
        return self.first.records

    @property
    def reads(self):
        """The variables that its evaluations read, each with its value."""
        others = [] if is_without("that what another way reads counts") else self.others.values()
        asked = [question for ran in [self.first, *others] for question in ran.asked]
        return {question.name: question.value for question in asked if question.of == VARIABLE}


def in_all_contexts(records, asked=(), fault=None):
    """A file that leaves the same in each way."""
    return lambda way: Ran(records, list(asked), [], fault)


# One module.


def can_return(record):
    """Whether the start can be back after a record."""
    return record[0] != "remove-path"


def use_of(record):
    """The variable that a record uses, and how, or none."""
    kind = record[0]
    if kind == "setenv":
        return record[1], ("fixed", None)
    if kind == "unsetenv" and record[2] is not None:
        return record[1], ("fixed", record[2])
    if kind == "unsetenv":
        return None if is_without("that an unset without a value is a use") else (record[1], ABSENT)
    if kind == "pushenv":
        return record[1], ("stack",)
    if kind in ("prepend-path", "append-path"):
        return record[2], ("path", ":" if is_without("the delimiters of paths") else record[1])
    return None


def used_by(records):
    return [use for use in map(use_of, filter(can_return, records)) if use]


def uses_of(module):
    """What its records use, and then what it reads."""
    reads = [] if is_without("that nobody uses what is read") else module.reads
    return used_by(module.records) + [(name, READ) for name in reads]


def is_of_tool(name):
    """The variable holds the tool's own state."""
    if is_without("that the tool's own variables aren't read"):
        return False
    return name in (model.NAMES, model.FILES) or name.startswith("__MODULES_")


def is_named(name, records):
    """A record names the variable."""
    return not is_without("that a reader's own records don't name it") and name in map(model.named, records)


def rests(question, records):
    """It is of the way, or reads a variable that is none of the tool's, none that shells change, and none that the
    records name. Whether any module is loaded, and what was typed, isn't of the way."""
    if question.of == VARIABLE:
        return not (is_of_tool(question.name) or question.name in OF_SHELLS or is_named(question.name, records))
    return question.of in (MODE, SHELL, LOADED)


def kept_absent(records):
    return [record[1] for record in records if record[0] == "unsetenv" and record[2] is None]


def load_equivalently(records, others):
    """After loads that leave these the start can be back, and they keep the same variables absent and are in conflict
    with the same names."""
    can_be_back = is_without("that loads can be undone in each way") or all(map(can_return, others))
    are_absent = is_without("that loads keep the same variables absent in each way")
    can_be_back = can_be_back and (are_absent or kept_absent(records) == kept_absent(others))
    is_same = is_without("that loads are in conflict with the same names in each way")
    return can_be_back and (is_same or names_of_conflicts(records) == names_of_conflicts(others))


def is_equivalent(way, ran, first):
    """An evaluation in another way is accepted, and neither what it leaves nor what it asks makes a difference."""
    if ran.fault is not None:
        return False
    all_rest = is_without("that what another way asks rests") or all(rests(one, ran.records) for one in ran.asked)
    no_more = is_without("that another way asks no more") or asked_for(ran.asked) <= asked_for(first.asked)
    is_undone = is_without("that the ways undo alike") or model.undo_equivalently(ran.records, first.records)
    return all_rest and no_more and is_undone and (way.mode != "load" or load_equivalently(first.records, ran.records))


def is_same_in_all_contexts(module):
    """Its evaluations are alike in all ways, with what is loaded by each choice of answers, if these are few."""
    few = is_without("that little is asked of what is loaded") or are_few(module.first.asked)
    is_left = is_without("that what is loaded is answered by each choice")
    others = {way: ran for way, ran in module.others.items() if not (is_left and way.loaded)}
    return few and all(is_equivalent(way, ran, module.first) for way, ran in others.items())


def has_stable_answer(question, module):
    """It rests, and where it is of the way, the evaluations in the ways that are asked for are alike."""
    return rests(question, module.records) and (question.of == VARIABLE or is_same_in_all_contexts(module))


def asks(module):
    """A question of its first evaluation doesn't keep its answer."""
    return not all(has_stable_answer(question, module) for question in module.first.asked)


def keeps_its_answers(module):
    """It is accepted, each of its questions keeps its answer, and after its records the start can be back."""
    if module.first.fault is not None:
        return False
    return is_without("that modules are deterministic") or (not asks(module) and all(map(can_return, module.records)))


def is_deterministic(module):
    if WITHOUT not in module.deterministic:
        module.deterministic[WITHOUT] = keeps_its_answers(module)
    return module.deterministic[WITHOUT]


def is_inconsistent(module):
    """Each variable that a module uses in two ways, with both, and MODULEPATH where records use it otherwise than as a
    path with colons. What one reads that asks doesn't count."""
    if is_without("two uses in one module"):
        return []
    own = used_by(module.records)
    uses = own if is_without("that a reader's own records don't name it") or asks(module) else uses_of(module)
    twice = [(name, one, other) for name, one in uses for its, other in uses if name == its and one != other]
    return twice + [(name, one, COLONS) for name, one in own if name == MODULEPATH and one != COLONS]


# Two modules.


def means(name, full_name):
    if is_without("that names match by their parts"):
        return full_name.startswith(name)
    return full_name == name or full_name.startswith(name + "/")


def names_of_conflicts(records):
    return [name for record in records if record[0] == "conflict" for name in record[1]]


def names_in_conflict(one, other):
    return any(means(name, other.name) for name in names_of_conflicts(one.records))


def have_one_name(one, other):
    """So they are never loaded at once."""
    if is_without("that versions of one name may be loaded at once"):
        if one.name.rpartition("/")[0] == other.name.rpartition("/")[0] != "":
            return True
    return one.name == other.name


def excludes_by(one, other, use):
    """A conflict of the first means the second, and counts: those of one that reads the variable may be others elsewhere."""
    return (use != READ or is_without("that a reader's conflicts don't free it")) and names_in_conflict(one, other)


def are_compatible(one, other):
    return one == other and one[0] in ("path", "stack", "absent", "read")


def agree_at_start(one, other):
    """A start can agree with both uses: what is set, and what is kept absent, is unset there."""
    one, other = (SET if use == ABSENT else use for use in (one, other))
    return one == other or (one[0], other[0]) != ("fixed", "fixed")


def are_mutually_exclusive(one, other, own, its):
    """They are never loaded at once, whatever the variable is that they use so."""
    return have_one_name(one, other) or excludes_by(one, other, own) or excludes_by(other, one, its)


def clashes_of(one, other):
    """Each variable that two modules clash in, with both uses."""
    if is_without("clashes") or is_same(one, other):
        return []
    pairs = [(name, own, its) for name, own in uses_of(one) for theirs, its in uses_of(other) if name == theirs]
    pairs = [pair for pair in pairs if not are_compatible(*pair[1:])]
    return [pair for pair in pairs if not are_mutually_exclusive(one, other, *pair[1:]) or not agree_at_start(*pair[1:])]


def is_same(one, other):
    return (one.name, one.path) == (other.name, other.path)


def is_candidate(module):
    """It may be certified: it is deterministic and consistent, and isn't excluded."""
    return is_deterministic(module) and not is_inconsistent(module) and not module.is_excluded


def candidates(modules):
    return [module for module in modules if is_candidate(module)]


# Which of the candidates are certified, where some clash.


def first_part(name):
    return name.partition("/")[0]


def excludes_versions(one, other):
    """A conflict of the first module names the first part of the second's name, and so means all its versions."""
    if is_without("the versions that conflicts exclude"):
        return False
    return first_part(other.name) in names_of_conflicts(one.records)


def is_competitor(one, other, own, its):
    """The other's use doesn't go together with a module's own, which reads, or doesn't exclude all its versions."""
    is_read = own == READ and not is_without("the readers among these")
    return not are_compatible(own, its) and (is_read or not excludes_versions(one, other))


def competitors(module, modules):
    """How many uses there are of its variables by these modules that are competitors of its own."""
    if is_without("the competitors"):
        return 0
    users = [(other, *use) for other in modules for use in dict.fromkeys(uses_of(other))]
    pairs = [(use, user) for use in dict.fromkeys(uses_of(module)) for user in users]
    return sum(is_competitor(module, other, own, its) for (name, own), (other, theirs, its) in pairs if name == theirs)


def users_of_one_use(modules, name, use):
    """How many of the candidates use the variable so."""
    return sum((name, use) in uses_of(module) for module in candidates(modules))


def in_rank(modules):
    """The order in which modules are certified."""
    places = {module: (module.name.encode(), module.path.encode()) for module in modules}
    if is_without("the names"):
        places = dict.fromkeys(modules, ())
    return sorted(modules, key=lambda module: (competitors(module, modules), places[module]))


def certified(modules):
    """In their rank, each of the candidates that clashes with no certified one before it."""
    sure = []
    for module in in_rank(candidates(modules)):
        if not any(clashes_of(module, other) for other in sure):
            sure.append(module)
    return [module for module in modules if module in sure]


# A site.


def directories(text):
    return [element for element in text.split(":") if element]


def added_directories(module):
    added = [record for record in module.records if record[0] in ("prepend-path", "append-path")]
    return [one for record in added if record[2] == MODULEPATH for element in record[3] for one in directories(element)]


def site_directories(modulepath, modules_in):
    """The directories of a site, in the order in which they are found. `modules_in` gives the modules of one."""
    found = list(dict.fromkeys(directories(modulepath)))
    for directory in found:
        for module in modules_in(directory):
            found += [one for one in dict.fromkeys(additions(module)) if one not in found]
    return found


def additions(module):
    """The directories that a module adds, where its evaluation is accepted."""
    return [] if module.first.fault is not None else added_directories(module)


def hanging(modulepath, modules):
    """What modules add that neither the MODULEPATH has nor a deterministic one adds, with the module."""
    sure = {*directories(modulepath), *(one for module in modules if is_deterministic(module) for one in additions(module))}
    return [(module, one) for module in modules for one in dict.fromkeys(additions(module)) if one not in sure]


def missing(directories_of_site, is_there):
    """The directories of a site that aren't there. `is_there` says whether one is."""
    return [one for one in directories_of_site if not is_there(one)]


def is_part(text):
    """The text can be a part of a module's name."""
    return text != "" and not text.startswith(".") and not any(c in "\0 \t\n\v\f\r:&|\\@" for c in text)


def no_modulefiles(directories_of_site, files):
    """The paths of files without the cookie, in the places of modules, in the order of their bytes."""
    found = set()
    for path, text in files.items():
        for directory in directories_of_site:
            parts = path.removeprefix(f"{directory}/").split("/")
            if path.startswith(f"{directory}/") and len(parts) <= 4 and all(map(is_part, parts)):
                found |= set() if text.startswith(b"#%Module") else {path}
    return sorted(found, key=str.encode)


def site_modules(modulepath, modules_in):
    return [module for one in site_directories(modulepath, modules_in) for module in modules_in(one)]


def standing_of(module, modules):
    """How a module of a site stands, in one word."""
    if module.first.fault is not None:
        return "refused"
    if asks(module):
        return "unstable"
    if not is_deterministic(module):
        return "one-way"
    if is_inconsistent(module):
        return "inconsistent"
    if module.is_excluded:
        return "excluded"
    return "certified" if module in certified(modules) else "clashes"


def stands_by_itself(module):
    """In which ways an accepted module stands whatever others do, by the records of its first evaluation."""
    ways = {
        "unstable": asks(module),
        "one-way": not all(map(can_return, module.records)),
        "inconsistent": is_inconsistent(module),
    }
    return [word for word, stands in ways.items() if stands]


def other_reasons_of(module, modules):
    """How a module of a site stands further, in one word each: behind the first of these ways, and by a clash."""
    ways = [] if module.first.fault is not None else stands_by_itself(module)
    if not ways:
        return []
    clashes = any(clashes_of(module, other) for other in certified(modules))
    return [*ways[1:], *(["clashes"] if clashes else [])]


def certificate(modules):
    """What the certified modules use and read, each use once."""
    return list(dict.fromkeys(use for module in certified(modules) for use in uses_of(module)))


# Starts and moments.


def agrees_with_use(env, name, use):
    """An environment whose loaded texts are in order agrees with a use. Of what is read nothing is asked here."""
    if use == READ:
        return True
    if use[0] in ("fixed", "absent"):
        return model.has_its_value(env, name, use)
    return model.in_order({name: use}, env)


def agrees(env, uses):
    return model.in_order({}, env) and all(agrees_with_use(env, name, use) for name, use in uses)


def has_values(start, reads):
    """The start has the values of what was read."""
    if is_without("that the start has the value of the audit"):
        return True
    return all(start.get(name) == value for name, value in reads.items())


def may_be_loaded(module, start):
    """The start agrees with what a module uses, and has the values of what it reads."""
    is_agreed = is_without("that the start agrees with what is loaded") or agrees(start, uses_of(module))
    return is_agreed and has_values(start, module.reads)


def may_be_changed(name, live):
    """None of the modules that are live reads the variable."""
    return is_without("that hands leave what is read") or not any(name in module.reads for module in live)


def uses_by(live):
    """How modules that are live together use each variable: the first of them that names it decides."""
    ways = {}
    for module in live:
        for name, use in uses_of(module):
            ways.setdefault(name, use)
    return ways
