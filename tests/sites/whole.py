"""Four whole sites, as sites write them (department.txt, whose head says how to read it, laboratory.txt, cluster.txt
and campus.txt): what `modaudit` says of each of their modulefiles, sessions of those that are certified, and what the
others leave or how they are refused.

The standings, the reasons and what is left are typed by hand from modaudit(1) and modulefile(5).
"""

import functools
import itertools
import json
import os
import random
import re
import subprocess

import pytest

from tests.lib.harness import ENV, HERE, SECONDS, SH, same, true

START = {"PATH": "/usr/bin:/bin", "HOME": "/home/u", "USER": "u"}

COOKIE = "#%Module"
# A directory that modules add.
ADDED = re.compile(r"(?i:compiler|mpi)/[^/]+")
COUNTS = re.compile(
    r"Of these (\d+) modulefiles the profile admits (\d+), "
    r".* and of these (\d+) are certified\. (\d+) of the others do(?:es)? no harm"
)

# What is said of a module, besides what comes of it, and that.
TOLD = {"reads", "unstable", "why", "needs", "where", "beside", "does", "ported"}
OUTCOMES = {"left", "at load", "at unload"}

# What the head of a site says of its translation. Of each of these, and of the samples together as they stand, this
# share has to be certified at least.
PORTED_COUNTS = re.compile(r"the profile admits (\d+) of the \d+, and of these (\d+) are certified")
CERTIFIED_SHARE = 0.9

# What sh sets by itself.
OWN = ("PWD", "OLDPWD", "_")

# How many sessions there are, how many modules are loaded in each at least, how often something is unloaded between its
# loads, and how often it goes through what is loaded to unload it, at most: each time one goes that no other needs.
SESSIONS = 40
LOADED = 6
UNLOADS = 0.3
ROUNDS = 20

# Does the words of its first lines, as `load gcc/13.2.0 openmpi`, while fewer modules than asked for are loaded, and
# then unloads what is loaded in the order of its second ones. Writes the exported variables before, what was loaded, and
# the variables after.
SESSION = r"""
program=$1 loads=$2 order=$3 most=$4 rounds=$5
does() { text=$("$program" sh "$@" 2> /dev/null) && eval "$text"; }
loaded() { IFS=:; set -- $LOADEDMODULES; unset IFS; echo $#; }
env -0
while [ "$(loaded)" -lt "$most" ] && read -r words; do does $words; done << END
$loads
END
printf '=%s\0' "$LOADEDMODULES"
while [ -n "$LOADEDMODULES" ] && [ $((rounds -= 1)) -ge 0 ]; do
    for name in $order; do
        case :$LOADEDMODULES: in *:"$name":*) does unload "$name" ;; esac
    done
done
exec env -0
"""


class File:
    """A file of the site: its path below the directory of the site, how it stands, what is said of it, and its text.

    It is in a directory that the MODULEPATH of the site has from the start, or in one that modules add.
    """

    def __init__(self, part, starts):
        head, _, text = part.partition(COOKIE)
        first, *lines = head.splitlines()
        self.path, self.standing = first.split(": ")
        self.text = COOKIE + text
        self.told = [line.split(": ", 1) for line in lines]
        own = [start for start in starts if self.path.startswith(f"{start}/")]
        self.directory = own[0] if own else ADDED.match(self.path).group()
        self.name = self.path.removeprefix(f"{self.directory}/")

    def each(self, word):
        """What is said of it under a word, in each line."""
        return [text for known, text in self.told if known == word]

    def only(self, word):
        return next(iter(self.each(word)), "")


class Written:
    """A site as it is written: where it is in its own words, the directories of its MODULEPATH, and its files."""

    def __init__(self, name, root, starts):
        self.name = name
        self.root = root
        self.modulepath = ":".join(f"{root}/{start}" for start in starts)
        with open(os.path.join(HERE, "sites", name), encoding="utf-8") as file:
            self.head, *parts = re.split(r"^=== ", file.read(), flags=re.MULTILINE)
        self.ported_counts = PORTED_COUNTS.search(" ".join(self.head.split()))
        self.files = [File(part, starts) for part in parts]
        self.defaults = [file for file in self.files if file.standing.startswith("default ")]
        self.unread = [file for file in self.files if file.standing == "unread"]
        self.modules = [file for file in self.files if file not in self.defaults + self.unread]
        self.certified = [file for file in self.modules if file.standing == "certified"]
        self.outside = [file for file in self.modules if file.standing == "outside"]
        self.admitted = len(self.modules) - len(self.outside)
        self.others = [file for file in self.modules if file not in self.certified + self.outside]
        self.harmless = [file for file in self.others if file.only("why").startswith("harmless")]
        self.named = {file.name: file for file in reversed(self.modules)}

    def needed(self, file):
        """The names of what is loaded before a module, each once and behind what it needs."""
        names = file.only("needs").split()
        return list(dict.fromkeys(one for name in names for one in (*self.needed(self.named[name]), name)))


# The directories of campus.txt, whose head says why they are all in MODULEPATH.
CAMPUS = (
    "site",
    "core",
    "apps",
    "bio",
    "ml",
    "compiler/gcc/12.3.0",
    "compiler/gcc/9.4.0",
    "compiler/intel/2021.4.0",
    "mpi/gcc/12.3.0/openmpi/4.1.5",
    "mpi/gcc/12.3.0/mpich/4.1.2",
    "mpi/gcc/9.4.0/openmpi/4.0.7",
    "mpi/intel/2021.4.0/impi/2021.4.0",
    "eb/2022b/all",
    "spack/0.20/linux-rocky8-zen3",
    "legacy/centos7",
)

SITES = [
    Written("department.txt", "/sw/modulefiles", ("core", "apps", "easybuild", "spack")),
    Written("laboratory.txt", "/apps/modules", ("base", "licensed", "eb", "stack")),
    Written("cluster.txt", "/opt/site/modulefiles", ("Core", "ISV", "ebuild", "spackenv")),
    Written("campus.txt", "/opt/cluster/modules", CAMPUS),
]

# Those that were written before their writers had read anything of this project, whose heads say how they stand once
# ported as well.
SAMPLES = [written for written in SITES if written.ported_counts]

each_site = pytest.mark.parametrize("written", SITES, ids=lambda written: written.name)


def each(kind):
    """Each file of a kind, with its site."""
    pairs = [(written, file) for written in SITES for file in getattr(written, kind)]
    ids = [f"{written.name}: {file.path}" for written, file in pairs]
    return pytest.mark.parametrize("written, file", pairs, ids=ids)


# What the sites say of themselves.


@each_site
def test_the_counts(written):
    """Those of the head are those of the files."""
    said = COUNTS.search(" ".join(written.head.split()))
    found = (len(written.modules), written.admitted, len(written.certified), len(written.harmless))
    same(tuple(map(int, said.groups())), found, "the counts of the head")
    same(len({file.path for file in written.files}), len(written.files), "files of different paths")


@each("modules")
def test_what_is_said_of_a_module(written, file):
    """Each that isn't certified has a reason, and what comes of it; a certified one has neither."""
    words = {word for word, _ in file.told}
    true(words <= TOLD | OUTCOMES, f"{words} are known")
    same(len(file.each("why")), int(file.standing != "certified"), "how many reasons there are")
    outcomes = words & OUTCOMES
    same(len(outcomes), int(file.standing != "certified"), f"how many outcomes there are: {outcomes}")
    if file.standing in ("outside", "refused"):
        same(outcomes, {"at load"}, "the outcome of a refused evaluation")
    same(len(file.each("unstable")), int(file.standing == "unstable"), "how many questions there are")


# A site as it is laid out.


class Site:
    """The files of a site in a folder, and the programs."""

    def __init__(self, written, place, built):
        self.written = written
        self.place = str(place)
        self.program, self.auditor, self.porter = map(built, ("modulecmd", "modaudit", "modport"))
        for file in written.files:
            path = self.real(f"{written.root}/{file.path}")
            os.makedirs(os.path.dirname(path), exist_ok=True)
            with open(path, "w", encoding="utf-8") as opened:
                opened.write(self.real(file.text))

    def real(self, text):
        return text.replace(self.written.root, self.place)

    def start(self, *others):
        """The variables of the start, with others of the form NAME=VALUE."""
        given = dict(other.split("=", 1) for other in others)
        return {"MODULEPATH": self.real(self.written.modulepath), **START, **given}

    def audit(self, root=None):
        """The document on the site, or on its translation in a folder."""
        env = self.start()
        env["MODULEPATH"] = env["MODULEPATH"].replace(self.place, root or self.place)
        command = [self.auditor, "--json"]
        done = subprocess.run(command, env=env, capture_output=True, timeout=SECONDS, check=False)
        same((done.stderr, done.returncode), (b"", 1), "standard error and status of modaudit")
        return json.loads(done.stdout)

    def port(self, root):
        """Writes its directories anew by modport in a folder, with the paths of that, and scripts for aliases."""
        directories = dict.fromkeys(file.directory for file in self.written.files)
        pairs = [(os.path.join(self.place, it), os.path.join(root, it)) for it in directories]
        command = [self.porter, "--alias-scripts", *itertools.chain.from_iterable(pairs)]
        done = subprocess.run(command, env=START, capture_output=True, timeout=SECONDS, check=False)
        true(done.returncode in (0, 1), f"the status of {command} is {done.returncode}: {done.stderr}")
        for file in self.written.modules:
            with open(os.path.join(root, file.path), "r+", encoding="utf-8") as opened:
                text = opened.read().replace(self.place, root)
                opened.seek(0)
                opened.truncate()
                opened.write(text)

    def does(self, words, env):
        """Runs a command, and has sh evaluate what it prints: the variables then. A refused one leaves them, and its
        last line on standard error is given as well."""
        script = f'text=$("$0" sh {words}) || exit 1; eval "$text"; exec {ENV} -0'
        command = [SH, "-c", script, self.program]
        done = subprocess.run(command, env=env, capture_output=True, timeout=SECONDS, check=False)
        if done.returncode:
            return env, done.stderr.decode().splitlines()[-1]
        return pairs_of(done.stdout), None

    def accepts(self, words, env):
        env, refused = self.does(words, env)
        same(refused, None, f"how {words!r} is refused")
        return env


def pairs_of(text):
    """The variables of a text of `env -0`, but for those that sh sets by itself."""
    pairs = [entry.split("=", 1) for entry in text.decode().split("\0") if entry]
    return {name: value for name, value in pairs if name not in OWN}


@pytest.fixture(scope="module")
def site(built, tmp_path_factory):
    """Gives a site as it is laid out."""
    return functools.cache(lambda written: Site(written, tmp_path_factory.mktemp("site"), built))


# What modaudit says.


def said_of(module):
    """The standing of a module in the document, and what it reads or asks."""
    return module["standing"], ", ".join(module.get("reads", [])), module.get("question", "")


def wanted_of(file):
    """The same by what is written."""
    standing = "refused" if file.standing == "outside" else file.standing
    return standing, *map(file.only, ("reads", "unstable"))


@each_site
def test_how_the_modules_stand(site, written, note):
    laid = site(written)
    found = laid.audit()
    stand = {module["path"]: said_of(module) for module in found["modules"]}
    wanted = {laid.real(f"{written.root}/{file.path}"): wanted_of(file) for file in written.modules}
    wrong = {path: (stand.get(path), word) for path, word in wanted.items() if stand.get(path) != word}
    same(wrong, {}, "modules that stand otherwise, as they are found and as they are wanted")
    same(sorted(stand), sorted(wanted), "the modules that are found")
    counts = (len(written.certified), len(wanted))
    same((found["certified"], found["count"]), counts, "how many are certified, and how many are there")
    same(found["disagreements"], [], "what the start has against the certificate")
    unread = sorted(laid.real(f"{written.root}/{file.path}") for file in written.unread)
    same(sorted(found["unread_default_files"]), unread, "the default files that aren't read")
    note(f"{written.name}: {len(written.certified)} certified of {written.admitted} that the profile admits")


def test_the_share_of_the_samples(note):
    """Of all samples together at least nine of ten of those that the profile admits are certified as they stand."""
    certified = sum(len(written.certified) for written in SAMPLES)
    admitted = sum(written.admitted for written in SAMPLES)
    true(certified >= CERTIFIED_SHARE * admitted, f"{certified} certified of {admitted}")
    note(f"{', '.join(written.name for written in SAMPLES)}: {certified} certified of {admitted} together")


def ported_standing(file):
    said = file.only("ported").partition(";")[0] or file.standing
    return "refused" if said == "outside" else said


@pytest.mark.parametrize("written", SAMPLES, ids=lambda written: written.name)
def test_how_the_modules_stand_once_ported(site, written, tmp_path, note):
    """As modport writes the site, at least nine of ten of those that the profile admits are certified."""
    laid, root = site(written), str(tmp_path / "ported")
    laid.port(root)
    found = {os.path.relpath(module["path"], root): module["standing"] for module in laid.audit(root)["modules"]}
    wanted = {file.path: ported_standing(file) for file in written.modules}
    wrong = {path: (found.get(path), word) for path, word in wanted.items() if found.get(path) != word}
    same(wrong, {}, "translations that stand otherwise, as they are found and as they are wanted")
    same(sorted(found), sorted(wanted), "the translations that are found")
    admitted = [word for word in wanted.values() if word != "refused"]
    counts = len(admitted), admitted.count("certified")
    same(tuple(map(int, written.ported_counts.groups())), counts, "the counts of the head")
    true(counts[1] >= CERTIFIED_SHARE * counts[0], f"{counts[1]} certified of {counts[0]}")
    note(f"{written.name}: once ported {counts[1]} certified of {counts[0]} that the profile admits")


# How many certified modules of a site need one that isn't, as its head says.
LEFT_ALONE = {"cluster.txt": 3, "campus.txt": 14}


@each_site
def test_what_certified_modules_need(site, written):
    """Each certified module can be loaded behind what it needs, but for those that need one that isn't certified."""
    laid = site(written)
    loads = {file.path: " ".join(["load", *written.needed(file), file.name]) for file in written.certified}
    refusals = {path: laid.does(words, laid.start())[1] for path, words in loads.items()}
    refused = {path: refusal for path, refusal in refusals.items() if refusal}
    same(len(refused), LEFT_ALONE.get(written.name, 0), f"how many can't be loaded: {refused}")
    told = [file.path for file in written.certified if file.path in refused and file.each("needs")]
    same(told, [], "those of which it is said what they need")


# Sessions of certified modules, and with others of which it is said that they do no harm.


def drawn(written, files, rng):
    """Lines of a session: loads of modules with what they need, some unloads between, and an order in which what is loaded
    is unloaded at the end."""
    names, loads, seen = [file.name for file in files], [], []
    for file in rng.sample(files, len(files)):
        named = [*written.needed(file), file.name]
        seen += named
        loads.append(" ".join(["load", *named]))
        if rng.random() < UNLOADS:
            loads.append(f"unload {rng.choice(seen)}")
    return loads, rng.sample(names, len(names))


def returns(site, files, number):
    """A session of some of these modules gives back its start."""
    loads, order = drawn(site.written, files, random.Random(number))
    words = [site.program, "\n".join(loads), " ".join(order), str(LOADED), str(ROUNDS)]
    command = [SH, "-c", SESSION, "sh", *words]
    done = subprocess.run(command, env=site.start(), capture_output=True, timeout=SECONDS, check=True)
    before, loaded, after = re.fullmatch(rb"(.*\0)=([^\0]*)\0(.*)", done.stdout, re.DOTALL).groups()
    true(len(loaded.split(b":")) >= LOADED, f"{loaded} are {LOADED} modules")
    same(done.stderr, b"", "standard error")
    same(after, before, f"the variables after {loaded}")


@each_site
@pytest.mark.parametrize("number", range(SESSIONS))
def test_sessions_of_certified_modules(site, written, number):
    returns(site(written), written.certified, number)


@pytest.mark.parametrize("written", [it for it in SITES if it.harmless], ids=lambda written: written.name)
@pytest.mark.parametrize("number", range(SESSIONS))
def test_sessions_with_those_that_do_no_harm(site, written, number):
    returns(site(written), written.certified + written.harmless, number)


# The others.


def left(env, before):
    """What differs in an environment, as department.txt says it."""
    changed = [f"{name}={value}" for name, value in env.items() if before.get(name) != value]
    return sorted(changed + [f"{name} is unset" for name in before if name not in env]) or ["nothing"]


@each("others")
def test_what_others_leave(site, written, file):
    laid = site(written)
    env = laid.start(*file.each("where"))
    first = " ".join([*written.needed(file), *file.each("beside")])
    before = env = laid.accepts(f"load {first}", env) if first else env
    commands = file.only("does").split(", ") if file.only("does") else [f"load {file.name}", f"unload {file.name}"]
    for words in commands:
        env, refused = laid.does(words, env)
        if refused is not None:
            same(refused, f"ERROR: {file.only(f'at {words.split()[0]}')}", f"how {words!r} is refused")
            return
    same(left(env, before), sorted(file.each("left")), f"what is left after {commands}")


@each("outside")
def test_how_those_outside_are_refused(site, written, file):
    laid = site(written)
    env = laid.start()
    first = " ".join(written.needed(file))
    env = laid.accepts(f"load {first}", env) if first else env
    _, refused = laid.does(f"load {file.name}", env)
    same(refused, f"ERROR: {file.only('at load')}", "how its load is refused")


# Default files.


@each("defaults")
def test_the_version_without_a_version(site, written, file):
    """It is loaded without a version; or, where it is outside, the report has it as the default."""
    laid, folder, needed = site(written), os.path.dirname(file.name), written.needed(file)
    name = f"{folder}/{file.standing.removeprefix('default ')}"
    env = laid.accepts(f"load {' '.join(needed)}", laid.start()) if needed else laid.start()
    if written.named[name] in written.outside:
        command = [laid.program, "sh", "avail", folder]
        done = subprocess.run(command, env=env, capture_output=True, timeout=SECONDS, check=True)
        true(f"{name}(default)" in done.stderr.decode().splitlines(), f"{name} is the default in {done.stderr}")
        return
    env = laid.accepts(f"load {folder}", env)
    same(env["LOADEDMODULES"], ":".join([*needed, name]), f"what `load {folder}` loads")
