"""What the built program `modaudit` says of sites, over real folders.

The rows of modaudit.txt, whose head says how to read it, and those below are typed by hand from the rules in the
crates' pages (sites, certificates); random sites are compared with the model in `models/standings.py`, which shares
nothing with the program. In rows and modulefiles `/m`, `/n` and `/o` stand for the folders that a case makes.
"""

import itertools
import json
import os
import pty
import random
import re
import select
import shutil
import subprocess
import threading
import time

import pytest
from hypothesis import given
from hypothesis import strategies as st
from instructions import instructions

from tests.audit import certified, losses
from tests.core import sentence
from tests.lib.examples import wording
from tests.lib.harness import HERE, SECONDS, refuses_each, same, true
from tests.lib.harness import examples as examples_in
from tests.lib.properties import examples
from tests.lib.worked import FOLDER, real, write
from tests.models import standings

TOP = os.path.dirname(HERE)
ERROR = "ERROR: {}\n"
USAGE = "Usage: modaudit [--quiet] [--json] [--without NAME]... [DIR...]"
WRITING_FAILED = ERROR.format(wording(64)).encode()

# How many directories a site may have (modaudit(1), Too many directories).
MOST_DIRECTORIES = 65_536

# How many instructions a site of twice as many modules may cost, as a multiple, where all grows with their number.
TWICE = 2.3


@pytest.fixture(scope="session")
def program(built):
    return built("modaudit")


def without_here(lines, wanted):
    """The lines, each without its fifth field where the line that is wanted in its place has none."""
    pairs = itertools.zip_longest(lines, wanted[: len(lines)], fillvalue="")
    return [line.rpartition("\t")[0] if (line.count("\t"), other.count("\t")) == (4, 3) else line for line, other in pairs]


class Site:
    """Modulefiles, and an environment that a site is judged in."""

    def __init__(self, folder, files, modulepath="/m", **variables):
        self.folder = folder
        for path, text in files.items():
            write(folder, path, text)
        self.env = {b"MODULEPATH": real(folder, modulepath)}
        self.env.update({name.encode(): real(folder, value) for name, value in variables.items()})

    def run(self, *words, **streams):
        return self.folder.run(*words, env=self.env, **streams)

    def clear(self):
        for name in (b"m", b"n", b"o"):
            shutil.rmtree(os.path.join(self.folder.path, name), ignore_errors=True)

    def says(self, lines, *words, status=None):
        """These lines stand on standard output, and nothing on standard error."""
        done = self.run(*words)
        wanted = real(self.folder, "".join(line + "\n" for line in lines))
        what = f"of {words} over {lines}"
        said = without_here(done.stdout.decode().splitlines(), wanted.decode().splitlines())
        same((done.stderr, said), (b"", wanted.decode().splitlines()), f"what is said {what}")
        count = re.search(r"^# (\d+) certified of (\d+)$", wanted.decode(), re.MULTILINE)
        same(done.returncode, int(count[1] != count[2]) if status is None else status, f"the status {what}")

    def refuses(self, text, *words):
        """There is no audit, and this is said after `ERROR: `."""
        done = self.run(*words)
        same(done.stderr, real(self.folder, ERROR.format(text)), f"standard error of {words}")
        same((done.stdout, done.returncode), (b"", 2), f"standard output and status of {words}")

    def document(self, *words):
        done = self.run("--json", *words)
        same(done.stderr, b"", f"standard error of {words}")
        true(done.stdout.endswith(b"\n") and done.stdout.count(b"\n") == 1, "the document is a line")
        return json.loads(done.stdout)


# The remark on a further standing of a module.
OTHER_REASON = "# {0} (/m/{0}): {1}, and {2}"


def row_of(lines):
    """A row of modaudit.txt: its modulefiles, how each module stands and why, and the remarks of the report."""
    files, rows, remarks = {}, [], []
    for line in lines:
        mark, _, rest = line.partition(" ")
        if mark == "@":
            path, files[rest] = rest, ""
        elif mark == "<":
            files[path] += f"{rest}\n"
        elif mark == "#":
            remarks.append(line)
        else:
            standing, _, reason = rest.partition(": ")
            rows.append((mark, standing, reason))
    return files, rows, remarks


ROWS = {title: row_of(lines) for title, lines in examples_in("audit/modaudit.txt")}


def place_of(name, files):
    """Where the module of this name is, in the rows that have each name once."""
    return next(path for path in files if path.endswith(f"/{name}"))


# The standings of which a report has the sums, in its order (modaudit(1), How modules stand).
OTHERS = ("unstable", "one-way", "inconsistent", "excluded", "clashes", "refused")


def counts_of(words):
    """How many modules are certified, and how many stand otherwise."""
    return [f"# {words.count('certified')} certified of {len(words)}", *[f"# {words.count(it)} {it}" for it in OTHERS if it in words]]


def lines_of(files, rows, remarks=()):
    lines = ["\t".join([name, word, reason, place_of(name, files)]) for name, word, reason in rows]
    return [*lines, *counts_of([word for _, word, _ in rows]), *remarks]


each_row = pytest.mark.parametrize("files, rows, remarks", ROWS.values(), ids=ROWS)


@each_row
def test_the_standing_of_each_row(folder, files, rows, remarks):
    Site(folder, files).says(lines_of(files, rows, remarks))


def test_each_standing_has_a_row():
    words = {word for _, rows, *_ in ROWS.values() for _, word, _ in rows}
    by_rules = [word for word in ("certified", *OTHERS) if word != "excluded"]
    same(sorted(words), sorted(by_rules), "the standings of the rows")


@each_row
def test_quiet_leaves_certified_modules_out(folder, files, rows, remarks):
    lines = lines_of(files, rows, remarks)
    Site(folder, files).says([line for line in lines if "\tcertified\t" not in line], "--quiet")


def standing_so(rows, standing):
    return [name for name, word, _ in rows if word == standing]


CLASHING = {name: row[:2] for name, row in ROWS.items() if standing_so(row[1], "clashes")}


@pytest.mark.parametrize("files, rows", CLASHING.values(), ids=CLASHING)
def test_none_that_stands_aside_could_be_certified(folder, files, rows):
    """Where the others that are rejected are excluded, each of them isn't certified beside all that are."""
    site, sure, aside = Site(folder, files), standing_so(rows, "certified"), standing_so(rows, "clashes")
    for name in aside:
        words = [word for other in aside if other != name for word in ("--without", other)]
        stand = {module["name"]: module["standing"] for module in site.document(*words)["modules"]}
        true(any(stand[one] != "certified" for one in [*sure, name]), f"{name} isn't certified beside {sure}: {stand}")


@pytest.mark.parametrize("row", losses.ROWS.values(), ids=losses.ROWS)
def test_what_is_lost_stands_so(folder, row):
    """Each module of the sessions that lose something (`losses.py`) stands as it is said there."""
    site = Site(folder, {f"/m/{name}": text for name, text in row.files.items()})
    found = {module["name"]: module["standing"] for module in site.document()["modules"]}
    same(found, dict(zip(row.files, row.stand)), "how modules stand")


# Two files of one name.


def test_two_files_of_one_name(folder):
    files = {"/m/a/1": "setenv V x\n", "/n/a/1": "unsetenv V y\n"}
    lines = [
        "a/1\tcertified\t\t/m/a/1",
        "a/1\tclashes\tV: unset of 'y' here, set in a/1 (/m/a/1); used so by 1\t/n/a/1",
        "# 1 certified of 2",
        "# 1 clashes",
    ]
    Site(folder, files, "/m:/n").says(lines)
    lines = ["a/1\tcertified\t\t/m/a/1", "a/1\tcertified\t\t/n/a/1", "# 2 certified of 2"]
    Site(folder, {"/n/a/1": "setenv V y\n"}, "/m:/n").says(lines)
    lines = ["a/1\tcertified\treads V\t/m/a/1", "a/1\tcertified\t\t/n/a/1", "# 2 certified of 2"]
    Site(folder, {"/m/a/1": "getenv V\n", "/n/a/1": "append-path V x\n"}, "/m:/n").says(lines)


# What happens here: the load and the unload of each module that isn't certified, in the environment of the audit.

RETURNS = {"dry_run": "returns"}


def leaves(*names):
    return {"dry_run": "leaves", "variables": list(names)}


def refused(what, text, **place):
    return {"dry_run": f"{what}-refused", "refusal": text, **place}


def loads(name, path):
    return {"dry_run": "another", "name": name, "path": path}


# By what happens: modulefiles, the environment, and of each module that is tried its place, its fifth field, and what the
# document has in place of that.
HERE_ROWS = {
    "it returns": ({"/m/a/1": "is-loaded\nsetenv V x\n"}, {}, [("/m/a/1", "returns", RETURNS)]),
    "an unload that doesn't undo the load": (
        {"/m/a/1": "if {[module-info mode load]} {setenv GREETING hello}\n"},
        {},
        [("/m/a/1", "leaves GREETING", leaves("GREETING"))],
    ),
    "a variable that was set, and an element that is taken out": (
        {"/m/a/1": "setenv V x\nremove-path P /b\n"},
        {"V": "y", "P": "/a:/b"},
        [("/m/a/1", "leaves P, V", leaves("P", "V"))],
    ),
    "an element that isn't there": ({"/m/a/1": "remove-path P /c\n"}, {"P": "/a"}, [("/m/a/1", "returns", RETURNS)]),
    "an element that is there": ({"/m/a/1": "is-loaded\nappend-path P /a\n"}, {"P": "/a"}, [("/m/a/1", "returns", RETURNS)]),
    "a path that is set and empty": (
        {"/m/a/1": "is-loaded\nappend-path P /a\n"},
        {"P": ""},
        [("/m/a/1", "leaves P", leaves("P"))],
    ),
    "a load that is refused": (
        {"/m/a/1": "is-loaded\nprereq gone other\n"},
        {},
        [("/m/a/1", f"its load is refused: {wording(52, 'gone other')}", refused("load", wording(52, "gone other")))],
    ),
    "a load that is in conflict with what is loaded": (
        {"/m/a/1": "is-loaded\nconflict b\n", "/m/b/1": ""},
        {"LOADEDMODULES": "b/1", "_LMFILES_": "/m/b/1"},
        [("/m/a/1", f"its load is refused: {wording(51, 'b/1')}", refused("load", wording(51, "b/1")))],
    ),
    "an unload that is refused": (
        {"/m/a/1": 'if {[module-info mode unload]} {error "not\\tnow"}\n'},
        {},
        [
            (
                "/m/a/1",
                "its unload is refused: not\\tnow (line 2)",
                refused("unload", "not\tnow (line 2)", line=2, path="/m/a/1"),
            )
        ],
    ),
    "an unload that is refused in a body": (
        {"/m/a/1": "setenv A x\nif {[module-info mode unload]} {\n    puts stderr y\n    error gone\n}\n"},
        {},
        [("/m/a/1", "its unload is refused: gone (line 3)", refused("unload", "gone (line 3)", line=5, path="/m/a/1"))],
    ),
    "a load that is refused for the file of another": (
        {"/m/a/1": "setenv A x\nif 1 {\n    error gone\n}\n", "/n/a/1": "is-loaded\n"},
        {"MODULEPATH": "/m:/n"},
        [("/n/a/1", "its load is refused: gone (line 3)", refused("load", "gone (line 3)", line=4, path="/m/a/1"))],
    ),
    "a module that is loaded": (
        {"/m/a/1": "is-loaded\n"},
        {"LOADEDMODULES": "a/1", "_LMFILES_": "/m/a/1"},
        [("/m/a/1", "is loaded", {"dry_run": "loaded"})],
    ),
    "another of its name": (
        {"/m/a/1": "", "/n/a/1": "is-loaded\n"},
        {"MODULEPATH": "/m:/n"},
        [("/n/a/1", "a/1 (/m/a/1) is loaded in its place", loads("a/1", "/m/a/1"))],
    ),
    "one in a directory that a module adds": (
        {"/m/a/1": "append-path MODULEPATH /n\n", "/n/b/1": "is-loaded\n"},
        {},
        [
            (
                "/n/b/1",
                f"its load is refused: {wording(42, 'b/1')}",
                refused("load", wording(42, "b/1")),
            )
        ],
    ),
    "each alone, and none that is refused": (
        {
            "/m/a/1": "prepend-path V x\nconflict c\n",
            "/m/b/1": "pushenv V x\n",
            "/m/c/1": "is-loaded\nprereq a\nconflict d\n",
            "/m/d/1": "setenv D $env(V)\nis-loaded\n",
            "/m/e/1": "is-loaded\nconflict c\nsetenv D 1\n",
            "/m/f/1": "setenv F 1\npushenv F 2\n",
            "/m/g/1": "getenv V\n",
        },
        {},
        [
            ("/m/b/1", "returns", RETURNS),
            ("/m/c/1", f"its load is refused: {wording(52, 'a')}", refused("load", wording(52, "a"))),
            ("/m/e/1", "returns", RETURNS),
            ("/m/f/1", "leaves F", leaves("F")),
            ("/m/g/1", "returns", RETURNS),
        ],
    ),
}


@pytest.mark.parametrize("files, variables, rows", HERE_ROWS.values(), ids=HERE_ROWS)
def test_what_happens_here(folder, files, variables, rows):
    site = Site(folder, files, **variables)
    for words in ((), ("--quiet",)):
        lines = [line.split("\t") for line in site.run(*words).stdout.decode().splitlines()]
        found = {line[3]: line[4] for line in lines if len(line) == 5 and line[1] != "refused"}
        wanted = real(folder, "\n".join(f"{path}\t{text}" for path, text, _ in rows)).decode()
        same(found, dict(line.split("\t", 1) for line in wanted.splitlines()), "the fifth fields")
        modules = site.document(*words)["modules"]
        wanted = json.loads(real(folder, json.dumps({path: value for path, _, value in rows})))
        same({module["path"]: module["here"] for module in modules if "here" in module}, wanted, "the document")


def test_what_happens_in_the_directories_of_the_command(folder):
    """A module that is excluded, and one that would be another's with the MODULEPATH of the environment."""
    site = Site(folder, {"/m/a/1": "setenv V x\n", "/m/b/1": "is-loaded\n", "/n/b/1": "setenv V x\n"}, "/n")
    there = os.fsdecode(real(folder, "/m"))
    lines = ["a/1\texcluded\t--without\t/m/a/1\treturns", "b/1\tunstable\tis-loaded\t/m/b/1\treturns"]
    site.says([*lines, "# 0 certified of 2", "# 1 unstable", "# 1 excluded"], "--without", "a", there)


# Where refused files stopped.

# By where that is: the file below its cookie, which is line 1; the refusal; and the line of the innermost command at which
# the evaluation ended, if it is known. A text of Tcl names the line of the file's own command.
STOPPED = {
    "the file's own command": ("setenv A x\nnope\n", 'invalid command name "nope" (line 3)', 3),
    "the first of a file of one line": ("error gone", "gone (line 2)", 2),
    "the body of an if": ("if 1 {\n    setenv A x\n    nope\n}\n", 'invalid command name "nope" (line 2)', 4),
    "the body of an else in a loop": (
        "foreach x {1 2} {\n    if {$x == 1} {\n        setenv A x\n    } else {\n        exit\n    }\n}\n",
        wording(20),
        6,
    ),
    "a procedure": ("proc f {} {\n    nope\n}\nsetenv A x\nf\n", 'invalid command name "nope" (line 6)', 3),
    "behind a body of several lines": (
        "if 1 {\n    setenv A x\n    setenv B y\n}\nerror gone\n",
        "gone (line 6)",
        6,
    ),
    "behind a caught error": ("catch {\n    nope\n}\nerror gone\n", "gone (line 5)", 5),
    "behind a continued line": ("setenv A \\\n    x\nerror gone\n", "gone (line 4)", 4),
    "a body that the file has put together": ('set x gone\nif 1 "error $x"\n', "gone (line 3)", 3),
    "a command with too few words": ("while 1 {\n    setenv A x\n    setenv B\n}\n", wording(56), 4),
    "a file that is no script": ("setenv A x\nif 1 {\n", wording(2, 25), None),
}


@pytest.mark.parametrize("text, refusal, line", STOPPED.values(), ids=STOPPED)
def test_where_a_refused_file_stopped(folder, text, refusal, line):
    """The fifth field, and a member of the document. Neither is there where the line isn't known."""
    site = Site(folder, {"/m/a/1": text})
    where = [] if line is None else [f"line {line}"]
    said = site.run().stdout.decode().splitlines()
    path = os.fsdecode(real(folder, "/m/a/1"))
    same(said, ["\t".join(["a/1", "refused", refusal, path, *where]), "# 0 certified of 1", "# 1 refused"], "the lines")
    member = {} if line is None else {"line": line}
    wanted = [{"name": "a/1", "path": path, "standing": "refused", "refusal": refusal, **member}]
    same(site.document()["modules"], wanted, "the document")


# Modules that are excluded by hand.


# Who uses one variable beside those that are excluded, and how.
USES_OF_V = (("c", "stack"), ("d", "read"))


def test_modules_that_are_excluded(folder):
    """Of those that would be judged together those are excluded that a name means; the others are judged without them,
    and what asks or is refused stands as it does with them."""
    files = {
        "/m/ask/1": "setenv A 1\nis-loaded\n",
        "/m/b/1": "conflict b\nsetenv V 2\n",
        "/m/b/2": "conflict b\nsetenv V 3\n",
        "/m/c/1": "pushenv V 4\n",
        "/m/d/1": "getenv V\n",
        "/m/e/1": "setenv E 1\npushenv E 2\n",
        "/m/f/1": "nope\n",
    }
    site = Site(folder, files)
    besides = ["e/1\tinconsistent\tE: set, and stack\t/m/e/1", 'f/1\trefused\tinvalid command name "nope" (line 2)\t/m/f/1']
    first = "ask/1\tunstable\tis-loaded\t/m/ask/1"
    lines = [first, "b/1\tcertified\t\t/m/b/1", "b/2\tcertified\t\t/m/b/2"]
    lines += ["c/1\tclashes\tV: stack here, set in b/1 (/m/b/1); used so by 2\t/m/c/1"]
    lines += ["d/1\tclashes\tV: read here, set in b/1 (/m/b/1); used so by 2\t/m/d/1", *besides]
    sums = ["# 1 unstable", "# 1 inconsistent"]
    site.says([*lines, "# 2 certified of 7", *sums, "# 2 clashes", "# 1 refused"])
    left = [f"b/{number}\texcluded\t--without\t/m/b/{number}" for number in (1, 2)]
    for words in (("--without", "b"), ("--without", "b/1", "--without", "b/2"), ("--quiet", "--without", "b", "--")):
        kept = [] if "--quiet" in words else ["c/1\tcertified\t\t/m/c/1"]
        beside = [*kept, "d/1\tclashes\tV: read here, stack in c/1 (/m/c/1); used so by 1\t/m/d/1", *besides]
        aside = ["# 2 excluded", "# 1 clashes", "# 1 refused"]
        site.says([first, *left, *beside, "# 1 certified of 7", *sums, *aside], *words)
    one = [first, left[0], "b/2\tcertified\t\t/m/b/2"]
    clash = "{0}/1\tclashes\tV: {1} here, set in b/2 (/m/b/2); used so by 1\t/m/{0}/1"
    one += [clash.format(name, use) for name, use in USES_OF_V]
    aside = ["# 1 excluded", "# 2 clashes", "# 1 refused"]
    site.says([*one, *besides, "# 1 certified of 7", *sums, *aside], "--without", "b/1")
    for words in (("--without", "bb"), ("--without", "b/"), ("--without", ""), ("--without", "--json"), ("--without", "a")):
        site.says([*lines, "# 2 certified of 7", *sums, "# 2 clashes", "# 1 refused"], *words)
    found = site.document("--without", "b")
    same([module["standing"] for module in found["modules"][1:3]], ["excluded"] * 2, "the document")
    same(found["certificate"], [{"variable": "V", "use": "stack"}], "the certificate")
    site.refuses(f"Bad arguments\n{USAGE}", "--without")
    site.refuses(f"Bad arguments\n{USAGE}", "--quiet", "--without", "--", "b")
    site.refuses("Not a directory: '--without'", "--", "--without", "b")


# Modules that read what excluded ones use: modulefiles, the names of what is excluded, and standings and remarks. So of
# two readers of each other either can be certified.
SCRATCH = {"/m/scratch/1": "setenv SCRATCH /scratch/u\n", "/m/tmp/1": "setenv MYTMP [getenv SCRATCH /tmp]/tmp\n"}
EACH_OTHER = {"/m/a/1": "getenv V\nsetenv W x\n", "/m/b/1": "getenv W\nsetenv V x\n"}
CHAIN = {"/m/a/1": "getenv V\n", "/m/b/1": "getenv W\nsetenv V x\n", "/m/c/1": "setenv W x\n"}
ASKS_TOO = {"/m/a/1": "is-loaded\ngetenv V\n", "/m/b/1": "setenv V x\n"}
READS_SCRATCH = ("tmp/1", "clashes", "SCRATCH: read here, set in scratch/1 (/m/scratch/1); used so by 1")
READERS = {
    "nothing is excluded": ((SCRATCH, []), [("scratch/1", "certified", ""), READS_SCRATCH]),
    "the user is excluded": (
        (SCRATCH, ["scratch"]),
        [("scratch/1", "excluded", "--without"), ("tmp/1", "certified", "reads SCRATCH")],
    ),
    "the reader is excluded": (
        (SCRATCH, ["tmp"]),
        [("scratch/1", "certified", ""), ("tmp/1", "excluded", "--without")],
    ),
    "both are excluded": (
        (SCRATCH, ["scratch", "tmp"]),
        [("scratch/1", "excluded", "--without"), ("tmp/1", "excluded", "--without")],
    ),
    "another is excluded": ((SCRATCH, ["scratch/2"]), [("scratch/1", "certified", ""), READS_SCRATCH]),
    "the first of two users is excluded": (
        ({**SCRATCH, "/m/work/1": "unsetenv SCRATCH\n"}, ["scratch"]),
        [
            ("scratch/1", "excluded", "--without"),
            ("tmp/1", "clashes", "SCRATCH: read here, unset in work/1 (/m/work/1); used so by 1"),
            ("work/1", "certified", ""),
        ],
    ),
    "one of two that read what the other uses is excluded": (
        (EACH_OTHER, ["b"]),
        [("a/1", "certified", "reads V"), ("b/1", "excluded", "--without")],
    ),
    "the other of them is excluded": (
        (EACH_OTHER, ["a"]),
        [("a/1", "excluded", "--without"), ("b/1", "certified", "reads W")],
    ),
    "both of them are excluded": (
        (EACH_OTHER, ["a", "b"]),
        [("a/1", "excluded", "--without"), ("b/1", "excluded", "--without")],
    ),
    "the user of a user is excluded": (
        (CHAIN, ["c"]),
        [
            ("a/1", "certified", "reads V"),
            ("b/1", "clashes", "V: set here, read in a/1 (/m/a/1); used so by 1"),
            ("c/1", "excluded", "--without"),
        ],
    ),
    "the user in the middle is excluded": (
        (CHAIN, ["b"]),
        [("a/1", "certified", "reads V"), ("b/1", "excluded", "--without"), ("c/1", "certified", "")],
    ),
    "the reader of the user in the middle is excluded": (
        (CHAIN, ["a"]),
        [
            ("a/1", "excluded", "--without"),
            ("b/1", "certified", "reads W"),
            ("c/1", "clashes", "W: set here, read in b/1 (/m/b/1); used so by 1"),
        ],
    ),
    "nothing is excluded, and the reader asks too": (
        (ASKS_TOO, []),
        [("a/1", "unstable", "is-loaded"), ("b/1", "certified", "")],
        [OTHER_REASON.format("a/1", "unstable", "clashes: V: read here, set in b/1 (/m/b/1); used so by 1")],
    ),
    "the user is excluded, and the reader asks too": (
        (ASKS_TOO, ["b"]),
        [("a/1", "unstable", "is-loaded"), ("b/1", "excluded", "--without")],
    ),
}


@pytest.mark.parametrize(("given", "rows", "remarks"), [(*row, [])[:3] for row in READERS.values()], ids=READERS)
def test_readers_of_what_excluded_modules_use(folder, given, rows, remarks):
    files, names = given
    site = Site(folder, files)
    site.says(lines_of(files, rows, remarks), *(word for name in names for word in ("--without", name)))


# Remarks.


def test_remarks_on_directories_behind_modules_that_are_not_deterministic(folder):
    """Their modules are judged. No remark is on a directory that MODULEPATH has or a deterministic module adds."""
    files = {
        "/m/a/1": "is-loaded\nappend-path MODULEPATH /n:/o\nprepend-path MODULEPATH /n:/m\n",
        "/m/b/1": "remove-path V x\nappend-path MODULEPATH /n/in:/o\n",
        "/m/c/1": "append-path MODULEPATH /o\n",
        "/m/d/1": "append-path MODULEPATH /p\nnope\n",
        "/n/in/x/1": "",
        "/o/y/1": "",
    }
    site = Site(folder, files)
    lines = ["a/1\tunstable\tis-loaded\t/m/a/1", "b/1\tone-way\tremove-path V x\t/m/b/1", "c/1\tcertified\t\t/m/c/1"]
    lines += ['d/1\trefused\tinvalid command name "nope" (line 3)\t/m/d/1', "in/x/1\tcertified\t\t/n/in/x/1"]
    lines += ["y/1\tcertified\t\t/o/y/1", "x/1\tcertified\t\t/n/in/x/1"]
    remarks = [
        "# a/1 (/m/a/1): isn't deterministic, and adds the directory /n",
        "# b/1 (/m/b/1): isn't deterministic, and adds the directory /n/in",
    ]
    site.says([*lines, "# 4 certified of 7", "# 1 unstable", "# 1 one-way", "# 1 refused", *remarks])
    there = [os.fsdecode(real(folder, path)) for path in ("/m/a/1", "/n", "/m/b/1", "/n/in")]
    wanted = [
        {"name": "a/1", "path": there[0], "directory": there[1]},
        {"name": "b/1", "path": there[2], "directory": there[3]},
    ]
    same(site.document()["unreachable_directories"], wanted, "the document")


# What speaks against a module one after the other: its modulefile, how it stands, and how further, where `z/1` is certified
# and uses R and C. The last has all of them.
READS_R = "clashes: R: read here, set in z/1 (/m/z/1); used so by 1"
SETS_C = "clashes: C: set here, set in z/1 (/m/z/1); used so by 1"
TWO_OF_D = "inconsistent: D: set, and stack"
OTHER_REASON_ROWS = {
    "a/1": ("is-loaded\nremove-path P x\nremove-path Q x\n", "unstable: is-loaded", ["one-way: remove-path P x"]),
    "a/2": ("is-loaded\ngetenv Q\ngetenv R\ngetenv C\n", "unstable: is-loaded", [READS_R]),
    "a/3": ("is-loaded\nif {[module-info mode unload]} {getenv R}\n", "unstable: is-loaded", [READS_R]),
    "a/4": ("is-loaded\nsetenv D x\npushenv D y\n", "unstable: is-loaded", [TWO_OF_D]),
    "a/5": ("is-loaded\nsetenv C y\n", "unstable: is-loaded", [SETS_C]),
    "a/6": ("is-loaded\nconflict z\nsetenv C y\n", "unstable: is-loaded", []),
    "a/7": ("is-loaded\nif {[module-info mode unload]} {remove-path P x} else {append-path P x}\n", "unstable: is-loaded", []),
    "a/8": ("is-loaded\nconflict z\ngetenv R\n", "unstable: is-loaded", [READS_R]),
    "a/9": ("is-loaded\nsetenv D x\ngetenv D\n", "unstable: is-loaded", []),
    "b/1": ("getenv R\nremove-path P x\n", "one-way: remove-path P x", [READS_R]),
    "b/2": ("setenv D x\nremove-path P x\npushenv D y\n", "one-way: remove-path P x", [TWO_OF_D]),
    "b/3": ("remove-path P x\nsetenv C y\n", "one-way: remove-path P x", [SETS_C]),
    "b/4": ("remove-path C x\nremove-path P x\n", "one-way: remove-path C x", []),
    "c/1": ("getenv R\nsetenv D x\npushenv D y\n", TWO_OF_D, [READS_R]),
    "c/2": (
        "if {[module-info mode load]} {unsetenv D} else {getenv D}\nsetenv C y\n",
        "inconsistent: D: unset, and read",
        [SETS_C],
    ),
    "d/1": ("setenv C y\npushenv C z\n", "inconsistent: C: set, and stack", [SETS_C]),
    "d/2": ("setenv D x\npushenv D y\npushenv C y\n", TWO_OF_D, [SETS_C.replace("set here", "stack here")]),
    "e/1": (
        "pushenv D y\nremove-path P x\nsetenv C y\ngetenv R\nsetenv D x\nis-loaded\n",
        "unstable: is-loaded",
        ["one-way: remove-path P x", "inconsistent: D: stack, and set", SETS_C],
    ),
}


def test_remarks_on_other_reasons(folder):
    """In the order of the modules, and of each in that of the standings. What is excluded or refused has none."""
    files = {f"/m/{name}": text for name, (text, *_) in OTHER_REASON_ROWS.items()}
    files.update({"/m/f/1": "nope\n", "/m/y/1": "setenv C y\n", "/m/z/1": "setenv R x\nsetenv C x\n"})
    site = Site(folder, files)
    rows = [(name, *stands.split(": ", 1)) for name, (_, stands, _) in OTHER_REASON_ROWS.items()]
    rows += [("f/1", "refused", 'invalid command name "nope" (line 2)'), ("y/1", "excluded", "--without"), ("z/1", "certified", "")]
    each = [(name, stands.split(":")[0], further) for name, (_, stands, further) in OTHER_REASON_ROWS.items()]
    remarks = [OTHER_REASON.format(name, word, one) for name, word, further in each for one in further]
    site.says(lines_of(files, rows, remarks), "--without", "y")
    quiet = [line for line in lines_of(files, rows, remarks) if "\tcertified\t" not in line]
    site.says(quiet, "--without", "y", "--quiet")


def test_other_reasons_in_the_document(folder):
    """Each has the members of a standing; a module without one has no such member."""
    files = {f"/m/{name}": text for name, (text, *_) in OTHER_REASON_ROWS.items()}
    files["/m/z/1"] = "setenv R x\nsetenv C x\n"
    document = Site(folder, files).document()
    found = {module["name"]: [one["standing"] for one in module.get("other_reasons", [])] for module in document["modules"]}
    words = {name: [one.split(":")[0] for one in further] for name, (_, _, further) in OTHER_REASON_ROWS.items()}
    same(found, {**words, "z/1": []}, "the words")
    true(all("other_reasons" in module or not words.get(module["name"]) for module in document["modules"]), "no empty member")
    other = {"name": "z/1", "path": os.fsdecode(real(folder, "/m/z/1"))}
    wanted = [
        {"standing": "one-way", "record": "remove-path P x"},
        {"standing": "inconsistent", "variable": "D", "uses": [{"use": "stack"}, {"use": "set"}]},
        {"standing": "clashes", "variable": "C", "uses": [{"use": "set"}] * 2, "other": other, "alike": 1},
    ]
    same(next(module["other_reasons"] for module in document["modules"] if module["name"] == "e/1"), wanted, "all of one module")


def test_other_clashes_are_with_the_selected(folder):
    """By what the first evaluation leaves, and the conflicts of both exclude. Who stays is deterministic without these."""
    files = {
        "/m/gcc/1": "setenv CC gcc\nis-loaded\n",
        "/m/gcc/2": "conflict mpi\nsetenv CC gcc\nis-loaded\n",
        "/m/gcc/3": "append-path P /a\nis-loaded\n",
        "/m/gcc/4": "pushenv P /a\nmodule-info specified\n",
        "/m/gcc/5": "setenv CC gcc\nremove-path P /a\n",
        "/m/mpi/1": "setenv CC mpicc\nprepend-path P /b\n",
        "/m/mpi/2": "setenv CC x\n",
    }
    asks = {1: "is-loaded", 2: "is-loaded", 3: "is-loaded", 4: "module-info specified"}
    rows = [(f"gcc/{number}", "unstable", why) for number, why in asks.items()]
    clash = "CC: set here, set in mpi/1 (/m/mpi/1); used so by 2"
    rows += [("gcc/5", "one-way", "remove-path P /a"), ("mpi/1", "certified", ""), ("mpi/2", "clashes", clash)]
    remarks = [
        OTHER_REASON.format("gcc/1", "unstable", f"clashes: {clash}"),
        OTHER_REASON.format("gcc/4", "unstable", "clashes: P: stack here, path with ':' in mpi/1 (/m/mpi/1); used so by 1"),
        OTHER_REASON.format("gcc/5", "one-way", f"clashes: {clash}"),
    ]
    Site(folder, files).says(lines_of(files, rows, remarks))


def test_remarks_on_default_files_that_are_not_read(folder):
    """Those that stand in a directory of the site itself, in the order of the walk."""
    files = {
        "/m/.modulerc": "nope\n",
        "/m/a/1": "append-path MODULEPATH /n:/o\n",
        "/m/a/.modulerc": "",
        "/n/b/.modulerc": "",
        "/o/.modulerc": "module-version a/1 default\n",
        "/o/.version": "nope\n",
    }
    site = Site(folder, files, "/m:/m/a")
    paths = ["/m/.modulerc", "/m/a/.modulerc", "/o/.modulerc"]
    remarks = [f"# default file that isn't read: {path}" for path in paths]
    bad = "# bad default file: /m/a/.modulerc"
    site.says(["a/1\tcertified\t\t/m/a/1", "1\tcertified\t\t/m/a/1", "# 2 certified of 2", *remarks, bad])
    same(site.document()["unread_default_files"], [os.fsdecode(real(folder, path)) for path in paths], "the document")


def test_remarks_on_default_files_and_names(folder):
    files = {
        "/m/a/1": "",
        "/m/a/.version": "nope\n",
        "/m/b/1": "conflict a z\nprereq a q\nprereq y x\n",
        "/m/c/1": "conflict c/1 c/2 {}\nis-loaded\nconflict w\n",
        "/m/d/1": "conflict v\nnope\n",
        "/m/e/f/.modulerc": "nope\n",
    }
    lines = [
        "a/1\tcertified\t\t/m/a/1",
        "b/1\tcertified\t\t/m/b/1",
        "c/1\tunstable\tis-loaded\t/m/c/1",
        "d/1\trefused\tinvalid command name \"nope\" (line 3)\t/m/d/1",
        "# 2 certified of 4",
        "# 1 unstable",
        "# 1 refused",
        "# bad default file: /m/a/.version",
        "# conflict names no module: 'z' (in 1 file)",
        "# conflict names no module: 'c/2' (in 1 file)",
        "# conflict names no module: 'w' (in 1 file)",
        "# b/1 (/m/b/1): prereq names no module that isn't refused: 'y' 'x'",
    ]
    files["/m/c/1"] = files["/m/c/1"].replace(" {}", "")
    Site(folder, files).says(lines, status=1)


def test_remarks_on_default_files_that_name_no_version(folder):
    """The first of each folder whose default files name no version in it. `.version` counts where `.modulerc` names none;
    it isn't read where that names one; and a file without the cookie is none."""
    there, gone = "set ModulesVersion 1\n", "set ModulesVersion 9\n"
    files = {
        "/m/a/1": "",
        "/m/a/.version": gone,
        "/m/b/1": "",
        "/m/b/.version": there,
        "/m/c/1": "",
        "/m/c/.modulerc": "module-version c/9 default\n",
        "/m/c/.version": gone,
        "/m/d/1": "",
        "/m/d/.modulerc": "module-version d/9 default\n",
        "/m/d/.version": there,
        "/m/e/1": "",
        "/m/e/.modulerc": "module-version e/1 default\n",
        "/m/e/.version": gone,
        "/m/f/1": "",
        "/m/f/.modulerc": "module-version f/1 stable\n",
        "/m/g/1": "",
        "/m/g/2": "",
        "/m/h/i/1": "",
        "/m/h/i/.version": gone,
        "/m/h/.version": "set ModulesVersion i\n",
    }
    site = Site(folder, files)
    names = ["a/1", "b/1", "c/1", "d/1", "e/1", "f/1", "g/1", "g/2", "h/i/1"]
    bad = ["/m/a/.version", "/m/c/.modulerc", "/m/f/.modulerc", "/m/h/i/.version"]
    lines = [f"{name}\tcertified\t\t/m/{name}" for name in names]
    site.says([*lines, "# 9 certified of 9", *(f"# bad default file: {path}" for path in bad)])
    same(site.document()["bad_default_files"], [os.fsdecode(real(folder, path)) for path in bad], "the document")


def test_remarks_on_directories_that_are_not_there(folder):
    """Those of MODULEPATH and those that modules add, each once, in the order of the walk. A file is no directory."""
    files = {
        "/m/a/1": "append-path MODULEPATH /o:/n:/o/p\n",
        "/m/a/2": "append-path MODULEPATH /m/a/1\nprepend-path MODULEPATH /m/q\n",
        "/m/b/1": "append-path MODULEPATH /r\nis-loaded\n",
        "/n/c/1": "prepend-path MODULEPATH /o/p:/m/none\n",
    }
    missing = ["/m/none", "/o", "/o/p", "/m/a/1", "/m/q", "/r"]
    site = Site(folder, files, "/m/none:/m:/m/b")
    lines = [f"a/{number}\tcertified\t\t/m/a/{number}" for number in (1, 2)]
    lines += ["b/1\tunstable\tis-loaded\t/m/b/1", "1\tunstable\tis-loaded\t/m/b/1", "c/1\tcertified\t\t/n/c/1"]
    added = [f"# {name} (/m/b/1): isn't deterministic, and adds the directory /r" for name in ("b/1", "1")]
    site.says([*lines, "# 3 certified of 5", "# 2 unstable", *[f"# no directory: {path}" for path in missing], *added])
    same(site.document()["missing_directories"], [os.fsdecode(real(folder, path)) for path in missing], "the document")
    site.clear()


def test_a_modulepath_of_which_no_directory_is_there(folder):
    """It is refused, as a directory that is named is; not one of which some are there, or something can't be read."""
    Site(folder, {}).clear()
    for modulepath in ("/m", "/m:/n", ":/m:"):
        site = Site(folder, {}, modulepath)
        site.refuses("MODULEPATH has no directory")
        site.refuses("MODULEPATH has no directory", "--json", "--quiet")
    os.makedirs(real(folder, "/n"))
    Site(folder, {}, "/n").says(["# 0 certified of 0"])
    Site(folder, {}, "/m:/n").says(["# 0 certified of 0", "# no directory: /m"])
    ring(folder, "/n/ring")
    lines = [unreadable_line("/n/ring"), "# 0 certified of 1", "# 1 refused", "# no directory: /m"]
    Site(folder, {}, "/m:/n/ring").says(lines)


# Variables that aren't UTF-8, which the program takes for unset.
NOT_UTF8 = b"/z\xff"


def without_utf8(site, *names):
    """The site, in whose environment these variables aren't UTF-8."""
    site.env.update({name.encode(): NOT_UTF8 for name in names})
    return site


def test_remarks_on_variables_that_are_not_utf8(folder):
    """Those that certified modules use or read, or that the tool keeps itself."""
    files = {"/m/a/1": "prepend-path P /a\nsetenv V on\ngetenv R\n", "/m/b/1": "setenv W x\nnope\n"}
    lines = ["a/1\tcertified\treads R\t/m/a/1", 'b/1\trefused\tinvalid command name "nope" (line 3)\t/m/b/1']
    lines += ["# 1 certified of 2", "# 1 refused"]
    site = without_utf8(Site(folder, files), "W", "X")
    site.says(lines)
    same(site.document()["not_utf8"], [], "the document")
    names = ["V", "P", "__MODULES_SHARE_Q", "R"]
    without_utf8(site, *names).env[b"odd name"] = NOT_UTF8
    site.says([*lines, *[f"# environment: {name} isn't UTF-8" for name in names]])
    site.says([*lines[1:], *[f"# environment: {name} isn't UTF-8" for name in names]], "--quiet")
    found = site.document()
    same((found["not_utf8"], found["disagreements"]), (names, []), "the document with such variables")


# By what a module does, whose load and unload are tried: what is said of it where V isn't UTF-8.
NOT_UTF8_HERE = (
    ("is-loaded\nsetenv V on\n", "leaves V"),
    ("is-loaded\nprepend-path V /a\n", "leaves V"),
    ("is-loaded\npushenv V on\n", "leaves V"),
    ("is-loaded\nsetenv V on\nunsetenv W\n", "leaves W, V"),
    ("is-loaded\nunsetenv V x\n", "leaves V"),
    ("if {[module-info mode load]} {setenv V on}\n", "leaves V"),
    ("is-loaded\nsetenv U on\ngetenv V\n", "returns"),
    ("is-loaded\nunsetenv V\n", "returns"),
    ("remove-path V /z\n", "returns"),
    ("is-loaded\nprereq gone\nsetenv V on\n", f"its load is refused: {wording(52, 'gone')}"),
)


@pytest.mark.parametrize("text, here", NOT_UTF8_HERE, ids=[text for text, _ in NOT_UTF8_HERE])
def test_what_happens_with_a_variable_that_is_not_utf8(folder, text, here):
    site = without_utf8(Site(folder, {"/m/a/1": text}, W="1"), "V")
    (line,) = [line.split("\t") for line in site.run().stdout.decode().splitlines() if not line.startswith("#")]
    same(line[4:], [here], f"the fifth field of {text!r}")


def put(folder, files):
    """Writes files as they are, without the cookie that modulefiles have."""
    for path, text in files.items():
        path = real(folder, path)
        os.makedirs(os.path.dirname(path), exist_ok=True)
        with open(path, "wb") as file:
            file.write(text)


def test_remarks_on_files_that_are_no_modulefiles(folder):
    """Those in the places of modules without the cookie, each once, in the order of the bytes of their paths."""
    site = Site(folder, {"/m/a/1": "append-path MODULEPATH /n\n", "/m/a/b/1": "setenv V x\n"}, "/m:/m/a")
    put(
        folder,
        {
            "/m/a/2.lua": b"help([[x]])\n",
            "/m/a/3": b"\xef\xbb\xbf#%Module\n",
            "/m/a/4": b"",
            "/m/a/5~": b"#%module\n",
            "/m/c": b"#%Modul",
            "/m/d/e/f/g": b"x",
            "/n/README": b"\xff",
            # Hidden names, those that no module has, and what has more parts than a name.
            "/m/a/.6": b"",
            "/m/.g/1": b"",
            "/m/a/7 8": b"",
            "/m/a/x@y": b"",
            "/m/d/e/f/g2/h": b"",
            "/m/a/.version": b"set ModulesVersion 1\n",
            "/m/a/9": b"#%Module5.3",
            "/o/a/1": b"",
        },
    )
    lines = ["a/1\tcertified\t\t/m/a/1", "a/9\tcertified\t\t/m/a/9", "a/b/1\tcertified\t\t/m/a/b/1"]
    lines += ["1\tcertified\t\t/m/a/1", "9\tcertified\t\t/m/a/9", "b/1\tcertified\t\t/m/a/b/1"]
    wanted = ["/m/a/2.lua", "/m/a/3", "/m/a/4", "/m/a/5~", "/m/c", "/m/d/e/f/g", "/n/README"]
    done = site.run("--quiet")
    remarks = [line for line in done.stdout.decode().splitlines() if "no modulefile" in line]
    same(remarks, [f"# no modulefile: {os.fsdecode(real(folder, path))}" for path in wanted], "what isn't one")
    same(done.stderr, b"", "standard error")
    same(site.document()["no_modulefiles"], [os.fsdecode(real(folder, path)) for path in wanted], "the document")


PARTS = st.sampled_from(["a", "b", "1.0", "1.lua", "1~", ".x", ".modulerc", "x y", "x@", "README", "\u00e9"])
CONTENTS = st.sampled_from([b"", b"#%Module", b"#%Module\n", b"#%Modul", b"#%module\n", b" #%Module\n", b"-- Lua\n", b"\xff"])


@st.composite
def places(draw):
    return "/".join(["", draw(st.sampled_from("mn")), *draw(st.lists(PARTS, min_size=1, max_size=5))])


@examples(100)
@given(files=st.dictionaries(places(), CONTENTS, max_size=12))
def test_random_files_by_the_model(folder, files):
    """Files at whose paths there is no folder of another one."""
    files = {path: text for path, text in files.items() if not any(other.startswith(f"{path}/") for other in files)}
    site = Site(folder, {}, "/m:/n:/m/a")
    site.clear()
    os.makedirs(real(folder, "/m"))
    put(folder, files)
    wanted = standings.no_modulefiles(["/m", "/n", "/m/a"], files)
    same(site.document()["no_modulefiles"], [os.fsdecode(real(folder, path)) for path in wanted], f"of {files}")


def test_remarks_on_the_environment_at_hand(folder):
    files = {
        "/m/a/1": "setenv V x\nunsetenv W y\nappend-path P /b\nappend-path -d , Q /b\npushenv S z\n",
        "/m/b/1": "setenv N x\nnope\n",
    }
    lines = [
        "a/1\tcertified\t\t/m/a/1",
        'b/1\trefused\tinvalid command name "nope" (line 3)\t/m/b/1',
        "# 1 certified of 2",
        "# 1 refused",
    ]
    bad = [
        "# environment: V is set",
        "# environment: W isn't 'y'",
        "# environment: P isn't in order as a path with ':'",
        "# environment: Q isn't in order as a path with ','",
        "# environment: S isn't in order as a stack",
    ]
    Site(folder, files, W="y", N="1", P="/a", S="1").says(lines)
    odd = {"V": "1", "W": "z", "P": "", "Q": "/a,/b", "__MODULES_SHARE_Q": "/c:2", "S": "2", "__MODULES_PUSHENV_S": "k&1"}
    Site(folder, files, LOADEDMODULES="k", _LMFILES_="/o/k", **odd).says([*lines, *bad])
    unfit = {"W": "y", "LOADEDMODULES": "k", "_LMFILES_": "/o/k", "__MODULES_LMCONFLICT": "other&x"}
    Site(folder, files, **unfit).says([*lines, "# environment: the loaded modules aren't in order"])


# A start, by hand: what a module says, the variables at hand, and what of them doesn't agree with its certificate.
# `LOADED` and `TWO` are the variables of one loaded module and of two.
LOADED = {"LOADEDMODULES": "x", "_LMFILES_": "/o/x"}
TWO = {"LOADEDMODULES": "y:x", "_LMFILES_": "/o/y:/o/x"}
NO_PATH, NO_OTHER, NO_STACK = "V isn't in order as a path with ':'", "V isn't in order as a path with ';'", "V isn't in order as a stack"
NO_LIST = "the loaded modules aren't in order"

STARTS = [
    ("setenv V x", {}, []),
    ("setenv V x", {"V": "1"}, ["V is set"]),
    ("setenv V x", {"V": ""}, ["V is set"]),
    ("setenv V x", {"W": "1"}, []),
    ("unsetenv V", {}, []),
    ("unsetenv V", {"W": "1"}, []),
    ("unsetenv V", {"V": "1"}, ["V is set"]),
    ("unsetenv V", {"V": ""}, ["V is set"]),
    ("unsetenv V 1", {"V": "1"}, []),
    ("unsetenv V 1", {"V": "2"}, ["V isn't '1'"]),
    ("unsetenv V 1", {}, ["V isn't '1'"]),
    ("setenv A x\nsetenv C x\nunsetenv B 3", {"A": "1", "B": "2"}, ["A is set", "B isn't '3'"]),
    ("conflict z", {"A": "1"}, []),
    # Paths, and their counters.
    ("append-path V /z", {}, []),
    ("append-path V /z", {"V": "/a:/b"}, []),
    ("append-path V /z", {"V": "/a:/b", "__MODULES_SHARE_V": "/a:2"}, []),
    ("append-path V /z", {"V": "/a:/b", "__MODULES_SHARE_V": "/a:1"}, [NO_PATH]),
    ("append-path V /z", {"V": "/a:/b", "__MODULES_SHARE_V": "/c:2"}, [NO_PATH]),
    ("append-path V /z", {"__MODULES_SHARE_V": "/a:2"}, [NO_PATH]),
    ("append-path V /z", {"V": ""}, [NO_PATH]),
    ("append-path V /z", {"V": "", "__MODULES_SHARE_V": ":1"}, []),
    ("append-path V /z", {"V": "/a;/b", "__MODULES_SHARE_V": "/a:2"}, [NO_PATH]),
    ("append-path -d {;} V /z", {"V": "/a;/b", "__MODULES_SHARE_V": "/a:2"}, []),
    ("append-path -d {;} V /z", {"V": "/a;/b", "__MODULES_SHARE_V": "/c:2"}, [NO_OTHER]),
    # Stacks, and the modules that pushed.
    ("pushenv V z", {}, []),
    ("pushenv V z", {"V": "1"}, []),
    ("pushenv V z", {"V": "1", "__MODULES_PUSHENV_V": "x&1", **LOADED}, []),
    ("pushenv V z", {"V": "1", "__MODULES_PUSHENV_V": "x&1:&0", **LOADED}, []),
    ("pushenv V z", {"V": "1", "__MODULES_PUSHENV_V": "x&1:y&0", **TWO}, []),
    ("pushenv V z", {"V": "1", "__MODULES_PUSHENV_V": "x&1:y&0", **LOADED}, [NO_STACK]),
    ("pushenv V z", {"V": "2", "__MODULES_PUSHENV_V": "x&1", **LOADED}, [NO_STACK]),
    ("pushenv V z", {"__MODULES_PUSHENV_V": "x&1", **LOADED}, [NO_STACK]),
    ("pushenv V z", {"V": "1", "__MODULES_PUSHENV_V": "x&1"}, [NO_STACK]),
    ("pushenv V z", {"V": "1", "__MODULES_PUSHENV_V": "&1"}, [NO_STACK]),
    # The loaded modules.
    ("append-path V /z", LOADED, []),
    ("setenv V x", {"__MODULES_LMCONFLICT": "x&z", **LOADED}, []),
    ("setenv V x", {"__MODULES_LMCONFLICT": "y&z", **LOADED}, [NO_LIST]),
    ("setenv V x", {"__MODULES_LMPREREQ": "x&z"}, [NO_LIST]),
    ("setenv V x", {"V": "1", "__MODULES_LMPREREQ": "x&z"}, [NO_LIST, "V is set"]),
]


@pytest.mark.parametrize("text, variables, reasons", STARTS, ids=[f"{text} over {start}" for text, start, _ in STARTS])
def test_starts_that_agree_and_that_do_not(folder, text, variables, reasons):
    remarks = [f"# environment: {reason}" for reason in reasons]
    names = ["# conflict names no module: 'z' (in 1 file)"] if text == "conflict z" else []
    site = Site(folder, {"/m/a/1": text + "\n"}, **variables)
    site.says(["a/1\tcertified\t\t/m/a/1", "# 1 certified of 1", *names, *remarks])


def test_starts_that_no_module_can_be_evaluated_over(folder):
    """A text that is no stack refuses the modules that push onto it; one that is no list of modules, the whole audit."""
    for text in ("x&1:x&0", "1", ""):
        site = Site(folder, {"/m/a/1": "pushenv V z\n", "/m/b/1": "setenv W z\n"}, V="1", __MODULES_PUSHENV_V=text, **LOADED)
        site.says(["a/1\trefused\tBad stack of 'V'\t/m/a/1", "b/1\tcertified\t\t/m/b/1", "# 1 certified of 2", "# 1 refused"])
        site.clear()
    twice = {"LOADEDMODULES": "x:x", "_LMFILES_": "/o/x:/o/x"}
    Site(folder, {"/m/a/1": "setenv V x\n"}, **twice).refuses(wording(35))


# Texts.


def test_control_characters_in_paths_and_reasons(folder):
    directory = os.path.join(os.fsdecode(folder.path), "a\tb\nc\\d\x01\x7f\u00e9")
    os.makedirs(os.path.join(directory, "a"))
    with open(os.path.join(directory, "a", "1"), "w", encoding="utf-8") as file:
        file.write('#%Module\nerror "x\\ny\\tz\\\\ \\r"\n')
    done = folder.run(directory)
    path = os.path.join(os.fsdecode(folder.path), "a\\tb\\nc\\\\d\\x01\\x7f\u00e9")
    wanted = f"a/1\trefused\tx\\ny\\tz\\\\ \\x0d (line 2)\t{path}/a/1\tline 2\n# 0 certified of 1\n# 1 refused\n"
    same((done.stdout.decode(), done.stderr, done.returncode), (wanted, b"", 1), "what is said")
    found = json.loads(folder.run("--json", directory).stdout)["modules"][0]
    same((found["path"], found["refusal"]), (f"{directory}/a/1", "x\ny\tz\\ \r (line 2)"), "the document")


def test_each_control_character(folder):
    """All that a path can hold: 1 to 31 and 127. The space and `~` are none. The document has the path as it is."""
    controls = "".join(map(chr, [*range(1, 32), 127]))
    spelled = "".join("\\t" if c == "\t" else "\\n" if c == "\n" else f"\\x{ord(c):02x}" for c in controls)
    directory = os.path.join(os.fsdecode(folder.path), f" {controls}~")
    write(folder, os.path.join(directory, "a", "1"), "")
    done = folder.run(directory)
    path = os.path.join(os.fsdecode(folder.path), f" {spelled}~")
    wanted = f"a/1\tcertified\t\t{path}/a/1\n# 1 certified of 1\n"
    same((done.stdout.decode(), done.stderr, done.returncode), (wanted, b"", 0), "what is said")
    same(json.loads(folder.run("--json", directory).stdout)["modules"][0]["path"], f"{directory}/a/1", "the document")


def test_marks_in_names(folder):
    """Control characters beyond ASCII, and what breaks a line or turns its direction (Unicode, UAX 9 and UAX 14)."""
    marks = [*range(0x80, 0xA0), 0x61C, 0x200E, 0x200F, *range(0x2028, 0x202F), *range(0x2066, 0x206A)]
    others = "\u00a0\u061b\u061d\u200d\u2010\u2027\u202f\u2065\u206a\uffff\U0010ffff"
    spelled = "".join(f"\\x{mark:02x}" if mark < 256 else f"\\u{mark:04x}" for mark in marks)
    directory = os.path.join(os.fsdecode(folder.path), others + "".join(map(chr, marks)))
    write(folder, os.path.join(directory, "a", "1"), "")
    done = folder.run(directory)
    path = os.path.join(os.fsdecode(folder.path), others + spelled)
    wanted = f"a/1\tcertified\t\t{path}/a/1\n# 1 certified of 1\n"
    same((done.stdout.decode(), done.stderr, done.returncode), (wanted, b"", 0), "what is said")


def test_names_in_conflicts_of_many_files(folder):
    """A remark a name, with how many files have it; a prereq that can't be met is of one module."""
    files = {f"/m/a/{number}": "conflict pgi cray\nconflict pgi\n" for number in range(3)}
    files["/m/b/1"] = "conflict nvhpc cray a\nprereq pgi\n"
    lines = [f"a/{number}\tcertified\t\t/m/a/{number}" for number in range(3)]
    lines += ["b/1\tcertified\t\t/m/b/1", "# 4 certified of 4"]
    names = {"pgi": "3 files", "cray": "4 files", "nvhpc": "1 file"}
    lines += [f"# conflict names no module: '{name}' (in {count})" for name, count in names.items()]
    Site(folder, files).says([*lines, "# b/1 (/m/b/1): prereq names no module that isn't refused: 'pgi'"])


def test_prereqs_that_name_refused_modules_alone(folder):
    """A remark for a prereq of which each name means none but refused modules; not where one isn't, nor of a conflict."""
    files = {
        "/m/a/1": "conflict r\nprereq r\nprereq r/2 r/1\n",
        "/m/b/1": "prereq r b a\nprereq r/3 r x\n",
        "/m/r/1": "error gone\n",
        "/m/r/2": "nope\n",
    }
    lines = ["a/1\tcertified\t\t/m/a/1", "b/1\tcertified\t\t/m/b/1", "r/1\trefused\tgone (line 2)\t/m/r/1"]
    lines += ['r/2\trefused\tinvalid command name "nope" (line 2)\t/m/r/2', "# 2 certified of 4", "# 2 refused"]
    groups = (("a/1", "'r'"), ("a/1", "'r/2' 'r/1'"), ("b/1", "'r/3' 'r' 'x'"))
    lines += [f"# {name} (/m/{name}): prereq names no module that isn't refused: {names}" for name, names in groups]
    Site(folder, files).says(lines, status=1)


def test_sums_by_standing(folder):
    files = {
        "/m/a/1": "is-loaded\n",
        "/m/a/2": "is-loaded\n",
        "/m/b/1": "remove-path V x\n",
        "/m/c/1": "setenv V x\npushenv V y\n",
        "/m/d/1": "setenv W x\n",
        "/m/d/2": "setenv W y\n",
        "/m/e/1": "nope\n",
        "/m/f/1": "getenv W\n",
    }
    others = ["# 2 unstable", "# 1 one-way", "# 1 inconsistent", "# 2 clashes", "# 1 refused"]
    done = Site(folder, files).run("--quiet")
    sums = [line for line in done.stdout.decode().splitlines() if line.startswith("#")]
    same(sums, ["# 1 certified of 8", *others], "the sums")


def test_remarks_come_once(folder):
    """A default file by which two directories are refused, names that two files have in conflicts, and a prereq that
    stands twice."""
    files = {"/m/a/b/1": "conflict y x y\nconflict x\nprereq p q\nprereq q p\nprereq p q\n", "/m/a/b/.modulerc": "nope\n"}
    lines = [f"# conflict names no module: '{text}' (in 2 files)" for text in "yx"]
    for name in ("a/b/1", "b/1"):
        said = f"# {name} (/m/a/b/1): prereq names no module that isn't refused:"
        lines += [f"{said} {names}" for names in ("'p' 'q'", "'q' 'p'")]
    found = ["a/b/1\tcertified\t\t/m/a/b/1", "b/1\tcertified\t\t/m/a/b/1", "# 2 certified of 2", "# bad default file: /m/a/b/.modulerc"]
    Site(folder, files, "/m:/m/a").says([*found, *lines])


def test_the_document_says_the_same(folder):
    files = {
        "/m/a/1": "setenv V x\nunsetenv W y\nunsetenv U\nappend-path -d , P /b\npushenv S z\nconflict q\n",
        "/m/a/.version": "nope\n",
        "/m/b/1": "getenv HOME\nappend-path B /[module-info mode load]\n",
        "/m/c/1": "remove-path V x\n",
        "/m/d/1": "setenv D 1\npushenv D 2\n",
        "/m/e/1": "setenv E 1\n",
        "/m/f/1": "pushenv E 1\nprereq y z\n",
        "/m/g/1": "nope\n",
        "/m/h/1": "getenv HOME\ngetenv USER\ngetenv HOME\n",
        "/m/i/1": "getenv HOME\ngetenv E\n",
    }
    found = Site(folder, files, V="1", U="1").document()
    there = os.fsdecode(folder.modules)
    wanted = {
        "modules": [
            {"name": "a/1", "standing": "certified"},
            {"name": "b/1", "standing": "unstable", "question": "module-info mode load", "here": leaves("B")},
            {"name": "c/1", "standing": "one-way", "record": "remove-path V x", "here": RETURNS},
            {
                "name": "d/1",
                "standing": "inconsistent",
                "variable": "D",
                "uses": [{"use": "set"}, {"use": "stack"}],
                "here": leaves("D"),
            },
            {
                "name": "e/1",
                "standing": "clashes",
                "variable": "E",
                "uses": [{"use": "set"}, {"use": "stack"}],
                "other": {"name": "f/1", "path": f"{there}/f/1"},
                "alike": 1,
                "here": RETURNS,
            },
            {"name": "f/1", "standing": "certified"},
            {"name": "g/1", "standing": "refused", "refusal": 'invalid command name "nope" (line 2)', "line": 2},
            {"name": "h/1", "standing": "certified", "reads": ["HOME", "USER"]},
            {
                "name": "i/1",
                "standing": "clashes",
                "variable": "E",
                "uses": [{"use": "read"}, {"use": "stack"}],
                "other": {"name": "f/1", "path": f"{there}/f/1"},
                "alike": 1,
                "here": RETURNS,
            },
        ],
        "unreadable": [],
        "certified": 3,
        "count": 9,
        "certificate": [
            {"variable": "V", "use": "set"},
            {"variable": "W", "use": "unset", "value": "y"},
            {"variable": "U", "use": "unset"},
            {"variable": "P", "use": "path", "delimiter": ","},
            {"variable": "S", "use": "stack"},
            {"variable": "E", "use": "stack"},
            {"variable": "HOME", "use": "read"},
            {"variable": "USER", "use": "read"},
        ],
        "missing_directories": [],
        "no_modulefiles": [],
        "bad_default_files": [f"{there}/a/.version"],
        "unread_default_files": [],
        "unreachable_directories": [],
        "not_utf8": [],
        "unknown_names": [
            {"name": "a/1", "path": f"{there}/a/1", "command": "conflict", "names": ["q"]},
            {"name": "f/1", "path": f"{there}/f/1", "command": "prereq", "names": ["y", "z"]},
        ],
        "disagreements": [
            {"variable": "V", "use": "set"},
            {"variable": "W", "use": "unset", "value": "y"},
            {"variable": "U", "use": "unset"},
        ],
    }
    for module in wanted["modules"]:
        module["path"] = f"{there}/{module['name']}"
    same(found, wanted, "the document")
    site = Site(folder, files, V="1", U="1")
    quiet = {**wanted, "modules": [module for module in wanted["modules"] if module["standing"] != "certified"]}
    same(site.document("--quiet"), quiet, "the quiet document")
    done = site.run("--quiet", "--json")
    same((done.returncode, done.stderr), (1, b""), "the status")
    site.clear()
    same(Site(folder, {"/m/a/1": ""}).run("--json").returncode, 0, "the status where each module is certified")


def test_the_certificate_has_what_certified_modules_read(folder):
    """Behind what the records of each use, and each use once."""
    files = {
        "/m/a/1": "getenv B\nsetenv V x\ngetenv A\ngetenv B\n",
        "/m/b/1": "getenv A\nif {[module-info mode unload]} {getenv C}\npushenv S y\n",
        "/m/c/1": "getenv D\nsetenv A x\n",
        "/m/d/1": "getenv E\nis-loaded\n",
    }
    found = Site(folder, files).document()
    same([module["standing"] for module in found["modules"]], ["certified"] * 2 + ["clashes", "unstable"], "how they stand")
    uses = [("V", "set"), ("B", "read"), ("A", "read"), ("S", "stack"), ("C", "read")]
    same(found["certificate"], [{"variable": name, "use": use} for name, use in uses], "the certificate")


# Arguments.


def test_directories_in_place_of_modulepath(folder):
    files = {"/m/a/1": "", "/n/b/1": "", "/o/c/1": ""}
    site = Site(folder, files, "/o")
    at = [os.fsdecode(os.path.join(folder.path, name)) for name in (b"m", b"n")]
    lines = ["a/1\tcertified\t\t/m/a/1", "b/1\tcertified\t\t/n/b/1", "# 2 certified of 2"]
    site.says(lines, *at)
    site.says([lines[1], lines[0], lines[2]], *at[::-1])
    site.says([lines[2]], "--quiet", *at)
    site.says([lines[2]], *at, "--quiet", "--")
    site.says([lines[2]], at[0], "--quiet", "--", at[1])
    site.says(["c/1\tcertified\t\t/o/c/1", "# 1 certified of 1"])
    site.says(["c/1\tcertified\t\t/o/c/1", "# 1 certified of 1"], "--")
    for text in (b"", b":", b"::"):
        site.env[b"MODULEPATH"] = text
        site.refuses("MODULEPATH has no directory")
        site.says(["a/1\tcertified\t\t/m/a/1", "# 1 certified of 1"], at[0])
    del site.env[b"MODULEPATH"]
    site.refuses("MODULEPATH has no directory")
    site.refuses("MODULEPATH has no directory", "--quiet", "--json", "--")


def test_help(folder):
    """It stands among the options, and nothing else is done, whatever else stands there."""
    site = Site(folder, {"/m/a/1": "nope\n"}, LOADEDMODULES="x")
    for words in (("--help",), ("--quiet", "--help"), ("/none", "--help", "--json"), ("--nope", "--help", "--")):
        done = site.run(*words)
        same((done.stderr, done.returncode), (b"", 0), f"standard error and status of {words}")
        lines = done.stdout.decode().splitlines()
        same(lines[0], USAGE, f"what {words} writes first")
        true(all(option in lines[1] for option in ("--quiet", "--json", "--without")), f"what {words} writes then: {lines[1:]}")
        same(len(lines), 2, "how many lines")
    site.refuses("Not a directory: '--help'", "--", "--help")
    with open("/dev/full", "wb", buffering=0) as full:
        done = site.run("--help", stdout=full)
        same((done.stderr, done.returncode), (WRITING_FAILED, 2), "a standard output that takes nothing")


def test_arguments_that_are_refused(folder):
    site = Site(folder, {"/m/a/1": ""})
    for words in (("-",), ("--nope",), ("-q",), ("/m", "--nope"), ("--quiet=1",), ("--help=1",), ("-h",)):
        site.refuses(f"Bad arguments\n{USAGE}", *words)
    site.refuses(wording(56), b"\xff")
    here = os.fsdecode(folder.path)
    for word in (f"{here}/nope", f"{here}/m/a/1", f"{here}/m:{here}/m", "", "nope"):
        site.refuses(f"Not a directory: '{word}'", word)
        site.refuses(f"Not a directory: '{word}'", f"{here}/m", "--quiet", "--", word, "/none")
    site.refuses("Not a directory: '--quiet'", "--", "--quiet")


# What can't be read. A ring of links can't, whoever asks.


def unreadable_line(path):
    return f"\trefused\tReading failed\t{path}"


def ring(folder, path):
    os.symlink(os.path.basename(path), real(folder, path))


def test_what_cannot_be_read_is_refused_and_the_rest_judged(folder):
    files = {
        "/m/a/1": "setenv V x\n",
        "/m/b/1": "append-path MODULEPATH /n:/o\nconflict c/2\n",
        "/m/c/1": "pushenv V y\n",
        "/n/d/1": "nope\n",
    }
    site = Site(folder, files, "/m:/m/gone:/m/ring")
    rings = ["/m/ring", "/m/c/2", "/m/a/.version", "/m/.modulerc", "/m/e", "/n/f", "/o"]
    for path in rings:
        ring(folder, path)
    modules = [
        "a/1\tclashes\tV: set here, stack in c/1 (/m/c/1); used so by 1\t/m/a/1",
        "b/1\tcertified\t\t/m/b/1",
        "c/1\tcertified\t\t/m/c/1",
        "d/1\trefused\tinvalid command name \"nope\" (line 2)\t/n/d/1",
    ]
    done = site.run()
    lines = done.stdout.decode().splitlines()
    wanted = real(folder, "\n".join(modules)).decode().splitlines()
    same(without_here(lines[:4], wanted), wanted, "the modules")
    said = [line for line in lines if line.startswith("\trefused\t")]
    looked = [path for path in sorted(rings) if unreadable_line(os.fsdecode(real(folder, path))) in said]
    same(said, [unreadable_line(os.fsdecode(real(folder, path))) for path in looked], "what can't be read, in its order")
    true({"/m/ring", "/m/c/2", "/m/a/.version", "/m/e", "/n/f", "/o"} <= set(looked), f"what is looked at: {looked}")
    rest = lines[4 + len(said) :]
    counts = [f"# 2 certified of {4 + len(said)}", "# 1 clashes", f"# {1 + len(said)} refused"]
    remarks = [f"# no directory: {os.fsdecode(real(folder, '/m/gone'))}"]
    remarks += [f"# default file that isn't read: {os.fsdecode(real(folder, '/m/.modulerc'))}"]
    remarks += ["# conflict names no module: 'c/2' (in 1 file)"]
    same(rest, [*counts, *remarks], "how many, and the remarks: none of a directory that can't be read")
    same((done.stderr, done.returncode), (b"", 1), "standard error and status")
    document = site.document()
    same(document["unreadable"], [os.fsdecode(real(folder, path)) for path in looked], "the document")
    same((document["certified"], document["count"]), (2, 4 + len(said)), "how many")
    same(document["missing_directories"], [os.fsdecode(real(folder, "/m/gone"))], "the directories that aren't there")
    quiet = site.run("--quiet").stdout.decode().splitlines()
    same(quiet, [line for line in lines if "\tcertified\t" not in line], "the quiet report")


def test_a_site_of_which_something_cannot_be_read_is_not_all_certified(folder):
    site = Site(folder, {"/m/a/1": "setenv V x\n"})
    ring(folder, "/m/a/2")
    lines = ["a/1\tcertified\t\t/m/a/1", unreadable_line("/m/a/2"), "# 1 certified of 2", "# 1 refused"]
    site.says(lines)
    for path in ("/m/b", "/m/c"):
        ring(folder, path)
    same(site.run().returncode, 1, "the status with more")


def test_a_file_that_no_one_may_read(folder):
    if os.geteuid() == 0:
        pytest.skip("root reads everything")
    site = Site(folder, {"/m/a/1": "setenv V x\n", "/m/b/1": "setenv W x\n"})
    path = real(folder, "/m/a/1")
    os.chmod(path, 0)
    site.says(["b/1\tcertified\t\t/m/b/1", unreadable_line("/m/a/1"), "# 1 certified of 2", "# 1 refused"])
    os.chmod(path, 0o644)


def test_how_much_may_not_be_read(folder):
    site = Site(folder, {"/m/a/1": "setenv V x\n"})
    for number in range(1000):
        ring(folder, f"/m/a/x{number}")
    done = site.run()
    same(done.stdout.count(b"\trefused\tReading failed\t"), 1000, "a thousand lines")
    same((done.stderr, done.returncode), (b"", 1), "standard error and status")
    ring(folder, "/m/a/y")
    done = site.run()
    same((done.stdout, done.stderr, done.returncode), (b"", f"ERROR: {wording(43)}\n".encode(), 2), "one more")


def take_away(paths):
    for path in paths:
        os.remove(path)


def test_a_site_that_goes_away_meanwhile(folder):
    """Files are taken away at once, early or late in the audit: it ends soon, whatever of them it has seen by then. What
    was seen and is gone has a line each; where that would be more than a thousand there is no audit."""
    names = [f"name{number // 5:03}/{number % 5}" for number in range(2000)]
    text = "for {set i 0} {$i < 100} {incr i} {}\nprepend-path PATH /opt/bin\n"
    for delay, count in ((0.05, 900), (0.1, 900), (0.2, 900), (0.1, 2000)):
        paths = [folder.module(name, text) for name in names]
        going = threading.Timer(delay, take_away, (paths[-count:],))
        going.start()
        done = folder.run()
        going.join()
        what = f"of {count} that go away after {delay} s"
        lost = done.stdout.count(b"\trefused\tReading failed\t")
        if done.returncode == 2:
            same((done.stdout, done.stderr), (b"", f"ERROR: {wording(43)}\n".encode()), f"what is said {what}")
            true(count > 1000, f"there is an audit {what}")
        else:
            same((done.stderr, done.returncode in (0, 1)), (b"", True), f"standard error and the status {what}")
            true(lost <= count and b" certified of " in done.stdout, f"the report {what} has {lost} lines")


# Faults.


def test_faults_of_a_whole_audit(folder):
    site = Site(folder, {"/m/a/1": ""}, LOADEDMODULES="x")
    site.refuses(wording(35))


def test_faults_in_their_order(folder):
    site = Site(folder, {"/m/a/1": ""}, LOADEDMODULES="x")
    m, gone, none = (os.fsdecode(real(folder, f"/m{end}")) for end in ("", "/gone", "/none"))
    site.refuses(f"Bad arguments\n{USAGE}", gone, "--nope")
    site.refuses(f"Not a directory: '{gone}'", m, gone, none)
    site.refuses(wording(35), m)
    del site.env[b"LOADEDMODULES"]
    ring = f"{m}/b"
    os.symlink("b", ring)
    site.refuses(f"Not a directory: '{gone}'", m, gone, none)
    site.refuses(wording(43), m, ring, gone)
    site.refuses(wording(43), "--json", ring)


def test_the_most_directories_of_a_site(folder):
    def site(count):
        added = ":".join(f"/x{number}" for number in range(1, count))
        return Site(folder, {"/m/a/1": f"append-path MODULEPATH {added}\n"})

    missing = [f"# no directory: /x{number}" for number in range(1, MOST_DIRECTORIES)]
    site(MOST_DIRECTORIES).says(["a/1\tcertified\t\t/m/a/1", "# 1 certified of 1", *missing])
    site(MOST_DIRECTORIES + 1).refuses("Too many directories")


def test_a_standard_output_that_takes_nothing(folder):
    site = Site(folder, {"/m/a/1": "getenv HOME\n", "/m/b/1": "is-loaded\n"})
    with open("/dev/full", "wb", buffering=0) as full:
        for streams in ({"stdout": full}, {"close": (1,)}):
            for words in ((), ("--json",), ("--quiet",)):
                done = site.run(*words, **streams)
                same((done.stderr, done.returncode), (WRITING_FAILED, 2), f"what is said with {streams}")
        same(site.run(stderr=full).returncode, 1, "nothing is said on standard error")
        same(site.run("--nope", stderr=full).returncode, 2, "a standard error that takes nothing")


def test_a_standard_output_that_fails_at_each_byte(folder):
    site = Site(folder, {"/m/a/1": "getenv HOME\n", "/m/b/1": "is-loaded\n"})
    path = os.path.join(folder.path, b"taken")
    text = site.run().stdout
    for most in range(0, len(text), 7):
        with open(path, "wb") as file:
            done = site.run(stdout=file, most=most)
        with open(path, "rb") as file:
            same((file.read(), done.stderr, done.returncode), (text[:most], WRITING_FAILED, 2), f"at {most} bytes")


def is_lost_by(said):
    """The audit is lost, or what single modules lose of it stands in their reasons."""

    def is_lost(done):
        out, err, status = done
        if err == b"ERROR: " + said + b"\n":
            return (out, status) == (b"", 2)
        is_named = bool(json.loads(out)["unreadable"]) if out.startswith(b"{") else b"\trefused\t" + said in out
        return err == b"" and status == 1 and is_named

    return is_lost


def audits(folder):
    """Runs of an audit of a small site with modules of each kind, given variables: as lines, and as a document."""
    files = {"/m/a/1": "setenv V x\n", "/m/b/1": "setenv V y\nconflict q\n", "/m/b/.version": "nope\n", "/m/c/1": "pushenv S 1\n"}
    readers = {"d": "getenv HOME\ngetenv USER\n", "e": "getenv HOME\ngetenv V\n", "f": "getenv HOME\nis-loaded\n"}
    files.update({f"/m/{name}/1": text for name, text in readers.items()})
    site = Site(folder, files)
    for words in ((), ("--json",)):
        plain = site.run(*words)

        def run(asked, words=words):
            done = folder.run(*words, env={**site.env, **asked})
            return done.stdout, done.stderr, done.returncode

        same(run({}), (plain.stdout, b"", 1), "what is said without a loss")
        yield run


def test_memory_that_is_refused(folder, shim):
    for run in audits(folder):
        refuses_each(shim("failing_malloc"), run, is_lost_by(wording(31).encode()), wording(31))


def test_reads_that_fail(folder, shim):
    """One that fails once is asked again; where all fail from one on, what can't be read is named, or the audit lost."""
    failing = shim("failing_calls")
    for run in audits(folder):
        is_lost = is_lost_by(wording(43).encode())
        count = refuses_each(failing, run, is_lost, wording(43), [b"FAIL_FROM"])
        ample = run({})
        for number in range(1, count):
            found = run({b"LD_PRELOAD": failing, b"FAIL_AT": b"%d" % number})
            true(found == ample or is_lost(found), f"where read {number} fails: found {found!r}")


# The model.


@examples(150)
@given(data=st.data())
def test_random_sites_by_the_model(program, tmp_path, data):
    session = certified.begun(data.draw(certified.sessions("sh", sentence.emptied(tmp_path / "top"))))
    session.tree.write()
    certified.audited(program, session)


@examples(300)
@given(data=st.data())
def test_none_more_can_be_certified(program, tmp_path, data):
    """Of random sites, by the clashes of the model alone: whoever of those that can be certified isn't clashes with one
    that is, and no two that are clash."""
    top = sentence.emptied(tmp_path / "top")
    site = data.draw(certified.sites("sh", (f"{top}/tree/one", f"{top}/tree/two")))
    site.tree.write()
    # A site without a module has its directories all the same: an audit of none is refused.
    for directory in site.modulepath.split(":"):
        os.makedirs(directory, exist_ok=True)
    found = certified.audit_of(program, site, site.at_hand)["modules"]
    places = {(module["name"], module["path"]) for module in found if module["standing"] == "certified"}
    sure = [module for module in site.modules if (module.name, module.path) in places]
    same(certified.fault_of(sure, site.modules), None, "what is wrong of those that are certified")


# Large sites.


def large_site(folder, count):
    """Modulefiles as package managers write them: versions of many packages, each with what it needs."""
    rng = random.Random(count)
    packages = [f"p{number}" for number in range(count // 4)]
    for package in packages:
        for version in range(4):
            root = f"/opt/{package}/{version}"
            needs = "".join(f"prereq {other}\n" for other in rng.sample(packages, 2) if other != package)
            text = (
                f"module-whatis {{{package} {version}}}\nconflict {package}\n{needs}"
                f"setenv {package.upper()}_ROOT {root}\nprepend-path PATH {root}/bin\nprepend-path MANPATH {root}/man\n"
                f"prepend-path LD_LIBRARY_PATH {root}/lib\nprepend-path PKG_CONFIG_PATH {root}/lib/pkgconfig\n"
            )
            folder.module(f"{package}/{version}", text)


def test_a_site_of_two_thousand_modules(folder):
    large_site(folder, 2000)
    done = folder.run()
    lines = done.stdout.decode().splitlines()
    same((len(lines), lines[-1], done.stderr, done.returncode), (2001, "# 2000 certified of 2000", b"", 0), "what is said")
    folder.module("p0/own", "setenv P1_ROOT x\n")
    done = folder.run("--quiet")
    lines = done.stdout.decode().splitlines()
    same(lines[1:], ["# 2000 certified of 2001", "# 1 clashes"], "one that sets the variable of four others")
    same(lines[0].split("\t")[:2], ["p0/own", "clashes"], "who is rejected")
    same("used so by 5" in lines[0], True, "how many set it")


def test_a_family_of_two_thousand_versions(folder):
    """All set one variable: none clashes where they exclude each other, and all but one do where they don't."""
    for conflict, counts in (("conflict m\n", ["# 2000 certified of 2000"]), ("", ["# 1 certified of 2000", "# 1999 clashes"])):
        for number in range(2000):
            folder.module(f"m/{number}", f"{conflict}setenv V x\nprepend-path P /p\n")
        lines = folder.run().stdout.decode().splitlines()
        same(lines[2000:], counts, f"what is said with {conflict!r}")


def test_those_that_most_get_on_with_stay(folder):
    """One sets what 200 use as a path: it is rejected, whatever its name is."""
    for number in range(200):
        folder.module(f"lib/{number:03}", "prepend-path PYTHONPATH /x\n")
    reason = "PYTHONPATH: set here, path with ':' in lib/000 (/m/lib/000); used so by 200"
    for name in ("a/1", "z/1"):
        folder.module(name, "setenv PYTHONPATH /y\n")
    lines = [line.split("\t") for line in folder.run("--quiet").stdout.decode().splitlines()]
    there = os.fsdecode(folder.modules)
    same([line[:2] for line in lines[:-2]], [["a/1", "clashes"], ["z/1", "clashes"]], "who is rejected")
    same({line[2].replace(f"({there}", "(/m") for line in lines[:-2]}, {reason}, "why")
    same(lines[-2:], [["# 200 certified of 202"], ["# 2 clashes"]], "how many are certified")


def test_twice_as_many_modules_cost_twice_as_much(folder, note):
    program, place = os.fsdecode(folder.program), os.fsdecode(folder.path)
    counts = []
    for count in (500, 1000):
        large_site(folder, count)
        counts.append(instructions(place, [program], folder.environment()))
    note(f"500 modules: {counts[0]:,} instructions; 1,000: {counts[1]:,}")
    true(counts[1] <= TWICE * counts[0], f"1,000 modules take {counts[1]:,} instructions, and 500 {counts[0]:,}")


# The instructions of a module of eight commands, at most: 1.6 times those of when each file was evaluated once, and of the
# others nothing was tried.
MOST_OF_A_MODULE = 210_000


def test_what_a_module_of_eight_commands_costs(folder, note):
    """Of 1,000, in folders of five, of which each tenth isn't certified, and is tried."""
    for number in range(1000):
        name, last = f"name{number // 5}", "remove-path OLD /x" if number % 10 == 9 else "append-path INFOPATH $root/info"
        text = f"""set root /opt/{name}/{number % 5}
module-whatis "{name}, a library"
conflict {name}
setenv {name.upper()}_ROOT $root
prepend-path PATH $root/bin
prepend-path LD_LIBRARY_PATH $root/lib
prepend-path MANPATH $root/share/man
{last}
"""
        folder.module(f"{name}/{number % 5}.0", text)
    same(folder.run().stdout.decode().splitlines()[1000:], ["# 900 certified of 1000", "# 100 one-way"], "how they stand")
    place, program = os.fsdecode(folder.path), os.fsdecode(folder.program)
    count = instructions(place, [program], folder.environment(), status=1) // 1000
    note(f"a module: {count:,} instructions")
    true(count <= MOST_OF_A_MODULE, f"a module takes {count:,} instructions")


# Sites as they are written.


def test_the_modulefiles_of_sites(folder):
    for name in sorted(os.listdir(os.path.join(HERE, "sites", "examples"))):
        for version in os.listdir(os.path.join(HERE, "sites", "examples", name)):
            with open(os.path.join(HERE, "sites", "examples", name, version), "rb") as file:
                folder.file(f"{name}/{version}", file.read())
    found = json.loads(folder.run("--json", env=folder.environment(HOME="/home/u", USER="u")).stdout)
    same({module["name"]: module["standing"] for module in found["modules"]}, OF_SITES, "how these stand")


# How the modulefiles of tests/sites/examples stand, in that environment.
OF_SITES = {
    "clang/17": "certified",
    "gcc/13.2.0": "certified",
    "greeting/1": "certified",
    "hdf5/1.14": "certified",
    "openmpi/4.1.6": "certified",
    "plugins/2.3": "refused",
    "profile/1": "certified",
    "python/3.11.6": "certified",
    "solver/2024": "certified",
    "toolbox/5.0": "certified",
    "workdir/1": "certified",
}


# What a terminal is told: aligned columns, and a line of progress.


def on_a_terminal(folder, *words, env=None, stream="stderr"):
    """What a run in the folder writes to a terminal that is its standard error, or its other stream, and its status."""
    master, slave = pty.openpty()
    running = subprocess.Popen(
        [folder.program, *words],
        env=env or folder.environment(),
        cwd=folder.path,
        stdin=subprocess.DEVNULL,
        **{"stdout": subprocess.DEVNULL, "stderr": subprocess.DEVNULL, stream: slave},
    )
    os.close(slave)
    text, end = b"", time.monotonic() + SECONDS
    while time.monotonic() < end:
        ready, _, _ = select.select([master], [], [], 1)
        if not ready:
            if running.poll() is not None:
                break
            continue
        try:
            part = os.read(master, 65536)
        except OSError:
            part = b""
        if not part:
            break
        text += part
    os.close(master)
    return text, running.wait(SECONDS)


# A site of names of one, two and three bytes a character, also of one that takes no column of its own; with a module
# that asks, one that is refused and a file that can't be read. Its report on a terminal, and the same of `--quiet`.

WIDE_FILES = {
    "/m/e\u0301/1": "",
    "/m/gcc/13": "prepend-path PATH /opt/gcc/bin\n",
    "/m/x/1": "is-loaded\n",
    "/m/\u00fc/\uff12": "getenv HOME\n",
    "/m/\u65e5\u672c/2": "\u65e5\u672c\n",
}

IN_COLUMNS = """\
e\u0301/1     certified                                        m/e\u0301/1
gcc/13  certified                                        m/gcc/13
x/1     unstable   is-loaded                             m/x/1     returns
\u00fc/\uff12    certified  reads HOME                            m/\u00fc/\uff12
\u65e5\u672c/2  refused    invalid command name "\u65e5\u672c" (line 2)  m/\u65e5\u672c/2  line 2
        refused    Reading failed                        m/\u65e5\u672c/3
# 3 certified of 6
# 1 unstable
# 2 refused
# default file that isn't read: m/.modulerc
"""

QUIET_IN_COLUMNS = """\
x/1     unstable  is-loaded                             m/x/1     returns
\u65e5\u672c/2  refused   invalid command name "\u65e5\u672c" (line 2)  m/\u65e5\u672c/2  line 2
        refused   Reading failed                        m/\u65e5\u672c/3
# 3 certified of 6
# 1 unstable
# 2 refused
# default file that isn't read: m/.modulerc
"""

WITH_TABS = """\
e\u0301/1\tcertified\t\tm/e\u0301/1
gcc/13\tcertified\t\tm/gcc/13
x/1\tunstable\tis-loaded\tm/x/1\treturns
\u00fc/\uff12\tcertified\treads HOME\tm/\u00fc/\uff12
\u65e5\u672c/2\trefused\tinvalid command name "\u65e5\u672c" (line 2)\tm/\u65e5\u672c/2\tline 2
\trefused\tReading failed\tm/\u65e5\u672c/3
# 3 certified of 6
# 1 unstable
# 2 refused
# default file that isn't read: m/.modulerc
"""


def in_lines(text):
    """What a terminal gets of the text, whose ends of lines it writes anew."""
    return text.encode().replace(b"\n", b"\r\n")


def piped(folder, *words):
    done = subprocess.run(
        [folder.program, *words], env=folder.environment(), cwd=folder.path, capture_output=True, timeout=SECONDS, check=False
    )
    same(done.stderr, b"", "standard error")
    return done.stdout.decode(), done.returncode


def test_columns_on_a_terminal(folder):
    for path, text in WIDE_FILES.items():
        write(folder, path, text)
    ring(folder, "/m/\u65e5\u672c/3")
    ring(folder, "/m/.modulerc")
    same(piped(folder, "m"), (WITH_TABS, 1), "through a pipe")
    same(on_a_terminal(folder, "m", stream="stdout"), (in_lines(IN_COLUMNS), 1), "on a terminal")
    same(on_a_terminal(folder, "--quiet", "m", stream="stdout"), (in_lines(QUIET_IN_COLUMNS), 1), "of those not certified")
    document, status = piped(folder, "--json", "m")
    same(on_a_terminal(folder, "--json", "m", stream="stdout"), (in_lines(document), status), "the document")
    usage, status = piped(folder, "--help")
    same(on_a_terminal(folder, "--help", stream="stdout"), (in_lines(usage), status), "the help")


def test_columns_of_one_line(folder):
    """One module, none that is named, and one whose reason is wider than a column: 80, and two blanks."""
    write(folder, "/m/a/1", "")
    alone = "a/1  certified    m/a/1\n# 1 certified of 1\n"
    same(on_a_terminal(folder, "m", stream="stdout"), (in_lines(alone), 0), "a module")
    same(on_a_terminal(folder, "--quiet", "m", stream="stdout"), (in_lines("# 1 certified of 1\n"), 0), "no module")
    word = "x" * 70
    write(folder, "/m/b/1", f"{word}\n")
    wide = [f"a/1  certified  {' ' * 82}m/a/1", f'b/1  refused    invalid command name "{word}" (line 2)  m/b/1  line 2']
    lines = [*wide, "# 1 certified of 2", "# 1 refused", ""]
    same(on_a_terminal(folder, "m", stream="stdout"), (in_lines("\n".join(lines)), 1), "a reason of 102 columns")


def test_a_line_of_progress_on_a_terminal(folder):
    folder.module("a/1", "")
    same(on_a_terminal(folder), (b"", 0), "an audit that takes no second")
    same(on_a_terminal(folder, "--nope"), (f"ERROR: Bad arguments\r\n{USAGE}\r\n".encode(), 2), "a fault")
    busy = "for {set i 0} {$i < 20000} {incr i} {set x $i}\n"
    count = 0
    while count < 400:
        for number in range(count, count + 50):
            folder.module(f"b/{number}", busy)
        count += 50
        text, status = on_a_terminal(folder)
        if text:
            break
    true(text, "an audit of more than a second shows a line")
    same(status, 0, "status")
    shown = text.split(b"\r")
    same((shown[0], shown[-1], shown[-2].strip()), (b"", b"", b""), "what begins and ends the line")
    parts = [re.fullmatch(rb"(\d+) of (\d+) files", part) for part in shown[1:-2]]
    true(all(parts), f"the lines {shown}")
    true(all(int(part[1]) <= int(part[2]) for part in parts), f"the numbers {shown}")
    same(folder.run().stderr, b"", "nothing is shown where standard error is no terminal")


# What users are told.


def content(*names):
    with open(os.path.join(TOP, *names), encoding="utf-8") as file:
        return file.read()


def test_the_example_of_the_page(folder):
    """A block that begins with the cookie is the modulefile of the name in front of it; in the other a command stands
    behind `$ `, and what it prints below it."""
    page = content("man", "modaudit.1").split(".Sh EXAMPLES\n")[1].split(".Sh ")[0]
    names = re.findall(r"^\.Pa (/m/\S+)", page, re.MULTILINE)
    blocks = re.findall(r"^\.Bd -literal[^\n]*\n(.*?)^\.Ed", page, re.DOTALL | re.MULTILINE)
    blocks = [block.replace("\\(aq", "'").replace("\\e", "\\") for block in blocks]
    texts = [block for block in blocks if block.startswith("#%Module\n")]
    same(len(names), len(texts), "the names of modulefiles")
    for name, text in zip(names, texts):
        write(folder, name, text.removeprefix("#%Module\n"))
    (session,) = [block for block in blocks if block.startswith("$ ")]
    command, lines = session.split("\n", 1)
    same(command, "$ '@prefix@/bin/modaudit' /m | cat", "the command")
    done = folder.run(folder.modules, env={})
    same(done.stdout + done.stderr, FOLDER.sub(lambda found: os.path.join(folder.path, found[1]), lines.encode()), "what it prints")
