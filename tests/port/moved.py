"""A site that moves over: its modulefiles (moved.txt, whose head says how to read it), as users of Environment Modules
write them, are tried, compared, translated, compared again, audited and switched, step by step, by the commands of
docs/SITES.md as they stand there.

All is done in a folder that is a root of its own: shells, utilities, Environment Modules 5.2 with its Tcl, the site,
and the archive of the product. Nothing outside of it is touched. Without root, Tcl or Environment Modules the suite
isn't run.

What a file comes to is typed by hand from modulefile(5), modport(1), modaudit(1) and the page. What an environment has
to be Environment Modules says.
"""

import collections
import dataclasses
import glob
import itertools
import os
import re
import shutil
import tempfile
import textwrap

import package as packager
import pytest

from tests.lib.harness import HERE, same, true
from tests.product.package import PREFIX, Machine, copy, goes_well, needs_root, read

TOP = os.path.dirname(HERE)

# Where the site is, where its translation is put, and the directories of its MODULEPATH; modules add the others.
OLD = "/apps/modulefiles"
NEW = "/apps/ported"
STARTS = ("core", "apps", "eb", "spack", "vendor")
PATHS = re.compile(r"((?:compiler|mpi)/[^/]+|[^/]+)/(.+)")

# Who moves the site over, and where the page has the product while it is tried.
HOME = "/home/you"
USER = {"PATH": "/usr/bin:/bin", "HOME": HOME, "USER": "you", "TERM": "dumb"}

# Where Environment Modules is installed, or what the benchmarks unpacked of it, and what of its files is needed.
PLACES = ("", os.path.join(TOP, "build/bench/environment-modules"))
FILES = (
    "usr/lib/*/modulecmd.tcl", "usr/lib/*/libtclenvmodules.so", "usr/share/modules/init", "etc/environment-modules",
)  # fmt: skip
STARTED = ". /usr/share/modules/init/bash\n"

# What the commands of the page take besides, and what modulefiles of the site run.
UTILITIES = ("diff", "find", "gzip", "id", "tar", "true")

# What scripts that modulefiles source say.
SOURCED = {
    "/apps/software/conda/23.7/etc/profile.d/conda.sh": "conda() { true; }\n",
    "/apps/software/modtools/2/setup.sh": "MODTOOLS=2\nexport MODTOOLS\n",
    "/apps/software/openfoam/OpenFOAM-v2306/etc/bashrc": "export WM_PROJECT=OpenFOAM\n",
}

# The program over the translated site, which is spoken of by the names of the site as it was.
PORTED = f"""#!/bin/sh
MODULEPATH=$(echo "$MODULEPATH" | sed 's|{OLD}|{NEW}|g') {HOME}/modulecmd/bin/modulecmd "$@" | sed 's|{NEW}|{OLD}|g'
"""

# How many comparisons run side by side, and how many seconds they may take.
SIDES = 4
LONG = 300

# Stands at the end of the lines of each, and is no module.
LAST = "no-such-module"

COOKIE = "#%Module"
WRITTEN = {"Latin-1": "latin-1", "CR LF": "utf-8"}
TOLD = {"alone", "check", "refused", "needs", "says", "why", "reads", "written", "there", "older"}
COUNTS = re.compile(r"^# (\d+) (.+)$", re.MULTILINE)
PORT = re.compile(r"(translated|computed|changed|left out): .+")


class File:
    """A file of the site: its path, how it stands once it is translated, what is said of it, and its text."""

    def __init__(self, part):
        head, _, text = part.partition(COOKIE)
        first, *lines = head.splitlines()
        self.path, self.standing = first.split(": ")
        self.text = COOKIE + text
        self.told = [line.split(": ", 1) for line in lines]
        true({word for word, _ in self.told} <= TOLD, f"what is said of {self.path} is known")
        self.directory, self.name = PATHS.fullmatch(self.path).groups()

    def each(self, word):
        """What is said of it under a word, in each line."""
        return [text for known, text in self.told if known == word]

    def only(self, word):
        return next(iter(self.each(word)), "")

    @property
    def needs(self):
        return " ".join(self.each("needs")).split()

    @property
    def bytes(self):
        """The file as it comes."""
        ends = "\r\n" if self.only("written") == "CR LF" else "\n"
        return self.text.replace("\n", ends).encode(WRITTEN.get(self.only("written"), "utf-8"))

    def line_of(self, said, before):
        """The line where a command begins, in no body, of which this is said; of so many before it it is said too."""
        kind, _, what = said.partition(": ")
        if what in WRITTEN:
            return 1
        lines = self.text.splitlines()
        word = re.escape(what.split(": ")[0] if kind in ("computed", "changed") else what)
        found = [number for number, line in enumerate(lines) if re.search(rf"(?<![\w-]){word}(?!\w)", line)]
        return max(number for number in range(found[before] + 1) if re.match(r"[^\s}]", lines[number])) + 1

    def report(self):
        """The lines of the report about the file."""
        seen = collections.Counter()
        for said in self.each("says"):
            true(PORT.fullmatch(said), f"{said!r} is a line of a report")
            yield f"{OLD}/{self.path}:{self.line_of(said, seen[said])}: {said}"
            seen[said] += 1


class Written:
    """The site as it is written."""

    def __init__(self):
        with open(os.path.join(HERE, "port", "moved.txt"), encoding="utf-8") as file:
            self.head, *parts = re.split(r"^=== ", file.read(), flags=re.MULTILINE)
        files = [File(part) for part in parts]
        self.translations = {file.path: file.text for file in files if file.standing == "translation"}
        self.files = [file for file in files if file.standing not in ("translation", "backup")]
        self.backups = [file for file in files if file.standing == "backup"]
        self.defaults = {os.path.dirname(it.name): it for it in self.files if it.standing.startswith("default ")}
        self.modules = [file for file in self.files if not file.standing.startswith("default ")]
        self.listed = [file for file in self.modules if file.directory in STARTS]
        self.named = {file.name: file for file in self.modules}
        self.folders = list(dict.fromkeys(os.path.dirname(file.name) for file in self.listed if "/" in file.name))
        self.directories = list(dict.fromkeys(file.directory for file in self.files))

    def chain(self, name):
        """The names of what is loaded for a module: each once, behind what it needs, and the module last."""
        first = itertools.chain.from_iterable(self.chain(other) for other in self.named[name].needs)
        return list(dict.fromkeys([*first, name]))

    def default(self, folder):
        """The module that is meant by a name without a version."""
        if folder in self.defaults:
            return self.named[f"{folder}/{self.defaults[folder].standing.removeprefix('default ')}"]
        return next(file for file in self.modules if os.path.dirname(file.name) == folder and not file.only("older"))


SITE = Written()


def page(*names):
    return read(os.path.join(TOP, *names)).decode()


def block(beginning):
    """The block of the page for a shell that begins so."""
    found = re.findall(r"^( *)```sh\n(.*?)^\1```$", page("docs", "SITES.md"), re.DOTALL | re.MULTILINE)
    (text,) = [text for _, text in found if text.startswith(beginning)]
    return textwrap.dedent(text)


def spans(beginning):
    """The commands within lines of the page that begin so."""
    return re.findall(rf"`({re.escape(beginning)}[^`]*)`", page("docs", "SITES.md"))


# The root of its own.


def environment_modules():
    """The folder below which Environment Modules is, or None."""
    return next((place for place in PLACES if glob.glob(f"{place}/{FILES[0]}")), None)


needs_tcl = pytest.mark.skipif(
    not shutil.which("tclsh") or environment_modules() is None, reason="it takes Tcl and Environment Modules"
)
pytestmark = [needs_root, needs_tcl]


def add_environment_modules(machine):
    """Adds Environment Modules and Tcl, and has logins start it for the directories of the site."""
    place = environment_modules()
    for path in itertools.chain.from_iterable(glob.glob(f"{place}/{file}") for file in FILES):
        aim = machine.root + path.removeprefix(place)
        os.makedirs(os.path.dirname(aim), exist_ok=True)
        if os.path.isdir(path):
            shutil.copytree(path, aim)
        else:
            shutil.copy(path, aim)
    copy(os.path.realpath(shutil.which("tclsh")), machine.root)
    for path in glob.glob("/usr/share/tcltk/tcl8*"):
        shutil.copytree(path, machine.root + path, symlinks=True)
    machine.write("/etc/environment-modules/initrc", "#%Module5.0\n")
    machine.write("/etc/environment-modules/modulespath", "".join(f"{OLD}/{start}\n" for start in STARTS))
    machine.write("/etc/profile.d/modules.sh", STARTED)


def add_site(machine):
    """Lays out the site, and what its modulefiles source."""
    for file in [*SITE.files, *SITE.backups]:
        path = f"{machine.root}{OLD}/{file.path}"
        os.makedirs(os.path.dirname(path), exist_ok=True)
        with open(path, "wb") as opened:
            opened.write(file.bytes)
    for path, text in SOURCED.items():
        os.makedirs(os.path.dirname(machine.root + path))
        machine.write(path, text)


def add_archive(machine):
    """Leaves the archive of the product in the home of who moves the site over."""
    os.makedirs(machine.root + HOME)
    version = page("VERSION").strip()
    with tempfile.TemporaryDirectory(prefix="modulecmd-archive-") as room:
        laid = packager.lay_out(room, version, packager.epoch())
        packager.make_archive(laid, machine.root + HOME, packager.epoch())


class Site(Machine):
    """The root in which the site is moved over."""

    def __init__(self, root):
        super().__init__(root)
        for name in UTILITIES:
            copy(shutil.which(name, path="/usr/bin:/bin"), root)
        add_environment_modules(self)
        add_site(self)
        add_archive(self)

    def types(self, commands):
        """What commands print that are typed into a login shell at home; on standard error they print nothing."""
        out, err, _ = self.run(["bash", "--login"], input=f"cd\n{commands}", env=USER, timeout=LONG)
        same(err, "", f"what {commands!r} says")
        return out

    def lines(self, path):
        return read(self.root + path).decode().splitlines()


@pytest.fixture(scope="module")
def machine():
    with tempfile.TemporaryDirectory(prefix="modulecmd-moved-") as room:
        os.chmod(room, 0o755)
        yield Site(os.path.join(room, "machine"))


def test_the_counts():
    """There are as many modulefiles as the head says, each with a name of its own."""
    same(re.search(r"\d+", SITE.head)[0], str(len(SITE.modules)), "the count of the head")
    same(len(SITE.named), len(SITE.modules), "modules of different names")
    reasons = [file.path for file in SITE.modules if file.only("why")]
    same(reasons, [file.path for file in SITE.modules if file.standing != "certified"], "modules with a reason")


# The product is tried, and the lists of the page are made.

BIN = "bin=~/modulecmd/bin\n"


@pytest.fixture(scope="module")
def tried(machine):
    """The product in the home of who tries it, and what a shell says that has its functions."""
    commands = "module load cmake gurobi; module list -t 2>&1; module purge; module list 2>&1\n"
    return machine.types(block("tar xzf") + commands)


def test_one_shell_tries_the_program(tried):
    true(tried.endswith("cmake/3.27.7\ngurobi/10.0\nNo Modulefiles Currently Loaded.\n"), f"what is loaded: {tried!r}")


@pytest.fixture(scope="module")
def lines(machine, tried):
    """The lines of the page, and in place of its example each module with what it needs."""
    same(machine.types(block("bin=")), "", "what the lists print")
    found = machine.lines(f"{HOME}/lines")
    same(found.pop(), "gcc openmpi hdf5", "the last line")
    return found


def test_the_lists(lines):
    """Each module is there, and each name without its version."""
    names = [file.name for file in [*SITE.listed, *SITE.backups]]
    folders = {os.path.dirname(name) for name in names if "/" in name}
    same(sorted(lines), sorted([*names, *folders]), "the lists")


# The comparison of the page.


@dataclasses.dataclass(frozen=True)
class Compared:
    """How a line came out where Environment Modules and the program differ: what the program refuses it by, or the
    lines that stand in one environment alone."""

    refused: str | None
    differing: frozenset = frozenset()


ALONE = "the program alone loads it"

# The other default of a name, as the comparison shows it: Environment Modules has GCC behind foss, as it doesn't look
# at capitals.
DEFAULTS = {
    "BWA": frozenset(
        f"{side} {line}"
        for side, version in (("<", "0.7.17-GCC-8.3.0"), (">", "0.7.17-foss-2018b"))
        for line in (
            f"LOADEDMODULES=BWA/{version}",
            f"_LMFILES_={OLD}/eb/BWA/{version}",
            f"EBROOTBWA=/apps/eb/software/BWA/{version}",
            f"EBDEVELBWA=/apps/eb/software/BWA/{version}/easybuild/BWA-{version}-easybuild-devel",
            f"CMAKE_PREFIX_PATH=/apps/eb/software/BWA/{version}",
            f"CPATH=/apps/eb/software/BWA/{version}/include",
            f"LD_LIBRARY_PATH=/apps/eb/software/BWA/{version}/lib",
            f"LIBRARY_PATH=/apps/eb/software/BWA/{version}/lib",
            f"PATH=/apps/eb/software/BWA/{version}/bin:/usr/bin:/bin",
        )
    )
}


def compared(text):
    """What the comparison says of a line."""
    differing = frozenset(line for line in text.splitlines() if line.startswith(("< ", "> ")))
    here, there = (any(line.startswith(f"{side} LOADEDMODULES=") for line in differing) for side in "><")
    if here and not there:
        return ALONE
    refusals = re.findall(r"^ERROR: (.*)$", text, re.MULTILINE)
    if refusals:
        true(not here, f"the program loads nothing: {text}")
        return Compared(refusals[-1])
    return Compared(None, differing)


def compares(machine, lines, bin):
    """What the comparison of the page says of lines, with a program in a folder."""
    machine.write(f"{HOME}/compare", block("dir=$(mktemp"))
    command, _ = block("sh compare").splitlines()
    typed = f"bin={bin}\n"
    for side in range(SIDES):
        machine.write(f"{HOME}/lines{side}", "".join(f"{line}\n" for line in [*lines[side::SIDES], LAST]))
        typed += f"{command.split('#')[0].replace('lines', f'lines{side}')} > out{side} &\n"
    same(machine.types(f"{typed}wait\n"), "", "what the shell prints")
    said = [read(f"{machine.root}{HOME}/out{side}").decode().partition(f"# {LAST}\n") for side in range(SIDES)]
    true(all(end for _, end, _ in said), "each line is compared, up to the last")
    parts = re.split(r"^# ", "".join(text for text, _, _ in said), flags=re.MULTILINE)[1:]
    return {names: compared(text) for names, _, text in (part.partition("\n") for part in parts)}


def wrong_rows(found, wanted):
    """What is said of each row that is otherwise."""
    rows = [row for row in {**found, **wanted} if found.get(row) != wanted.get(row)]
    return [f"{row}: found {found.get(row)}, wanted {wanted.get(row)}" for row in rows]


# The site as it is.


def as_it_is(names):
    """How a line of names comes out, or None where both make one environment."""
    if names in [file.name for file in SITE.backups]:
        return ALONE
    if names in DEFAULTS:
        return Compared(None, DEFAULTS[names])
    words = names.split()
    files = [SITE.named.get(word) or SITE.default(word) for word in words]
    bare = len(words) == 1 and files[0].only("alone")
    refused = next(filter(None, [bare, *(file.only("refused") for file in files)]), None)
    if refused:
        return Compared(refused)
    return ALONE if any(file.only("there") for file in files) else None


def chains():
    """The line of each module that needs others."""
    return [" ".join(SITE.chain(file.name)) for file in SITE.modules if file.needs]


def test_the_comparison_of_the_site_as_it_is(machine, lines, judge_rows):
    """Each line is the same in both, or refused by what was typed."""
    named = [*lines, *chains()]
    wanted = {names: outcome for names in named if (outcome := as_it_is(names))}
    judge_rows(len(named), wrong_rows(compares(machine, named, "~/modulecmd/bin"), wanted))


# What the page has sites do by hand, and the translation.


@pytest.fixture(scope="module")
def tidied(machine, lines):
    """What the page's commands find that is to be taken away, and files with the line ends of Windows."""
    (directories,) = spans('$(echo "$MODULEPATH"')
    typed = f"dirs={directories}\n"
    (backups,), (returns, *_) = spans("find -L $dirs"), spans("grep -rl")
    found = machine.types(f"{typed}{backups}\n").split()
    windows = machine.types(f"{typed}{returns}\n").split()
    machine.types("".join(f"rm '{path}'\n" for path in found))
    return found, windows


def test_what_is_to_be_taken_away_is_found(tidied):
    windows = [f"{OLD}/{file.path}" for file in SITE.modules if file.only("written") == "CR LF"]
    same(tidied[0], [f"{OLD}/{file.path}" for file in SITE.backups], "what is to be taken away")
    same(sorted(tidied[1]), sorted(windows), "files with the line ends of Windows")


@pytest.fixture(scope="module")
def ported(machine, tidied):
    """What modport says of the directories, and with which status."""
    command = "$bin/modport FROM TO FROM TO"
    true(command in spans("$bin/modport"), f"{command} is a command of the page")
    pairs = " ".join(f"{OLD}/{directory} {NEW}/{directory}" for directory in SITE.directories)
    typed = command.replace("FROM TO FROM TO", pairs)
    return machine.run(["bash", "--login"], input=f"cd\n{BIN}{typed}\n", env=USER)


def test_each_command_that_is_written_otherwise_or_left_has_a_line(ported):
    wanted = [line for file in SITE.files for line in file.report()]
    out, err, status = ported
    same(sorted(out.splitlines()), sorted(wanted), "the report")
    told = [line for line in wanted if ": left out: " in line or ": changed: " in line]
    same((err, status), ("", int(bool(told))), "standard error and status")


def below(root):
    """The files below a folder."""
    return sorted(os.path.relpath(os.path.join(at, name), root) for at, _, names in os.walk(root) for name in names)


def test_files_of_which_nothing_is_said_are_the_same(machine, ported, judge_rows):
    same(below(machine.root + NEW), sorted(file.path for file in SITE.files), "the files that are written")
    silent = [file for file in SITE.files if not list(file.report())]
    others = [file.path for file in silent if read(f"{machine.root}{NEW}/{file.path}") != file.bytes]
    judge_rows(len(silent), others)


@pytest.mark.parametrize("path", SITE.translations)
def test_what_is_written(machine, ported, path):
    same(read(f"{machine.root}{NEW}/{path}").decode(), SITE.translations[path], f"what is written for {path}")


# The translated site: what modules add to MODULEPATH, and the other default, are written by hand.


@pytest.fixture(scope="module")
def finished(machine, ported):
    machine.types(f"find {NEW} -type f -exec sed -i 's|{OLD}/|{NEW}/|g' '{{}}' +\n")
    machine.write(f"{NEW}/eb/BWA/.modulerc", f"{COOKIE}\nmodule-version BWA/0.7.17-GCC-8.3.0 default\n")
    return machine


def translated(names):
    """How a line of names comes out over the translation, or None where it makes what the site as it is makes."""
    files = [SITE.named.get(word) or SITE.default(word) for word in names.split()]
    for file in files:
        if file.standing == "refused":
            return Compared(file.only("why"))
    return ALONE if any(file.only("there") for file in files) else None


def test_the_comparison_of_the_translation(finished, judge_rows):
    """The program makes of the translation what Environment Modules makes of the site; what is needed is named."""
    os.makedirs(f"{finished.root}{HOME}/ported", exist_ok=True)
    finished.write(f"{HOME}/ported/modulecmd", PORTED)
    os.chmod(f"{finished.root}{HOME}/ported/modulecmd", 0o755)
    folders = [folder for folder in SITE.folders if not SITE.default(folder).needs]
    named = [*(" ".join(SITE.chain(file.name)) for file in SITE.modules), *folders]
    wanted = {names: outcome for names in named if (outcome := translated(names))}
    judge_rows(len(named), wrong_rows(compares(finished, named, "~/ported"), wanted))


# The check and the audit.

OVER = f"{BIN}export MODULEPATH={':'.join(f'{NEW}/{start}' for start in STARTS)}\n"
VERDICTS = {"unstable": "Asked", "one-way": "OneWay"}


def checked(names):
    """What the check of the page says of a line: of the one that refuses it, or of each module that isn't `Plain`.
    Where nothing is loaded any more, those behind others can't be located."""
    files = [SITE.named[name] for name in names.split()]
    refused = next((file for file in files if file.standing == "refused"), None)
    if refused:
        yield f"{names} refused: {refused.only('why')}"
        return
    for file in files:
        verdict = file.only("check") or ("Asked" if file.only("reads") else VERDICTS.get(file.standing))
        if file.directory not in STARTS:
            verdict = f"Unable to locate a modulefile for '{file.name}'"
        if verdict:
            yield f"{file.name}: {verdict}"


def test_the_check(finished):
    """Each load and each purge is accepted, but for what is refused by its name."""
    lines = [" ".join(SITE.chain(file.name)) for file in SITE.modules]
    finished.write(f"{HOME}/lines", "".join(f"{line}\n" for line in lines))
    said = finished.types(OVER + block("while read -r name; do"))
    same(said.splitlines(), [line for names in lines for line in checked(names)], "what the check says")


def test_the_audit(finished, judge_rows):
    """Each module that isn't certified has the line that was typed, and the counts are those of the site."""
    (command,) = spans("$bin/modaudit --quiet")
    said = finished.types(f"{OVER}{command}\n")
    rows = [line.split("\t") for line in said.splitlines() if not line.startswith("#")]
    found = {path: (name, standing, why) for name, standing, why, path, *_ in rows}
    others = [file for file in SITE.modules if file.standing != "certified"]
    wanted = {f"{NEW}/{file.path}": (file.name, file.standing, file.only("why")) for file in others}
    judge_rows(len(SITE.modules), wrong_rows(found, wanted))
    standings = collections.Counter(file.standing for file in SITE.modules)
    certified = standings.pop("certified")
    counts = {f"certified of {len(SITE.modules)}": certified, **standings}
    same({what: int(number) for number, what in COUNTS.findall(said)}, counts, "the counts")


# The switch.


@pytest.fixture(scope="module")
def switched(finished):
    """The product in its place, started at logins of each shell by the lines of the page for Debian."""
    (start_up,) = re.findall(r"on Debian `(/etc/profile.d/\S+)`", page("docs", "SITES.md"))
    os.remove(finished.root + start_up)
    version = page("VERSION").strip()
    finished.types(f"sh modulecmd-{version}-x86_64-linux/install.sh {PREFIX}\n")
    finished.write(f"{PREFIX}/etc/modulespath", "".join(f"{NEW}/{start}\n" for start in STARTS))
    commands = re.findall(r"^\| [^|]+ \| `((?:ln -s|echo) [^`]+)` \|", page("docs", "SITES.md"), re.MULTILINE)
    same(finished.types("".join(f"{command}\n" for command in commands)), "", "what the lines of the page print")
    return finished


# What a user loads, and what is loaded then.
SESSION = """env > $HOME/before
module load gcc/12.3.0 openblas gsl; module load mvapich2 phdf5 netcdf
module load cmake java/11.0.20 R julia cuda/12.2.0 cudnn
module load matlab GCCcore zlib/1.2.13-GCCcore-12.3.0; module unload gsl; module load boost texlive gnuplot
echo $LOADEDMODULES
module purge
env > $HOME/after
true
"""
LOADED = (
    "gcc/12.3.0:openblas/0.3.23:mvapich2/2.3.7:phdf5/1.14.1:netcdf/4.9.2:cmake/3.27.7:java/11.0.20:R/4.3.1:"
    "julia/1.9.3:cuda/12.2.0:cudnn/8.9.2:matlab/R2023b:GCCcore/12.3.0:zlib/1.2.13-GCCcore-12.3.0:boost/1.82.0:"
    "texlive/2023:gnuplot/5.4"
)

LOGINS = {
    "sh": ["sh", "-l", "-c"],
    "bash": ["bash", "--login", "-c"],
    "zsh": ["zsh", "--login", "-i", "-c"],
    "tcsh": ["tcsh", "-c"],
    "fish": ["fish", "--login", "-c"],
}


@pytest.mark.parametrize("shell", LOGINS)
def test_a_session_after_the_switch(switched, shell):
    """Each shell that logs in loads from the translation, and a purge gives its environment back."""
    said = switched.run([*LOGINS[shell], SESSION], env=USER)
    same(said, (f"{LOADED}\n", "", 0), "what the session says")
    before, after = (sorted(set(switched.lines(f"{HOME}/{name}"))) for name in ("before", "after"))
    same([line for line in after if line[:2] != "_="], [line for line in before if line[:2] != "_="], "the environment")


def test_the_old_start_up_file_leads_back(switched):
    switched.write("/etc/profile.d/modules.sh", STARTED)
    out = switched.types("module --version 2>&1\n")
    true(out.startswith("Modules Release 5."), f"whose version is said: {out!r}")
