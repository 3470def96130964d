"""Searches real directories by the program, which loads what a name means, or lists what can be loaded.

The examples stand in searches.txt, whose head says how to read it.
"""

import os
import re

import pytest

from tests.core.plain import printed
from tests.lib.examples import is_put, is_refusal, put, real, wording
from tests.lib.harness import NOBODY, examples, refuses_each, same, true

COOKIE = "#%Module\n"

COUNTED = re.compile(r"(.*?) ?\[(\d+) read, (\d+) listed; (\d+) and (\d+) known\]")
WHOLE = re.compile(r"(.*) \[(\d+) whole\]")
REFUSED = re.compile(r"(\d+) (.*)")

# What the program reads beside the files of a search.
OWN_ENVIRONMENT = "/proc/self/environ"


def reported(text):
    """The modules of a report of avail in one line, behind their directories; one that stands twice in a row stands once."""
    rows, directory = [], None
    for row in text.splitlines():
        if row != directory:
            rows.append(row)
        directory = row if row.endswith(":") else directory
    return " ".join(rows)


class Search:
    """One search, as the program makes it over a folder: its answer, and what the system was asked for."""

    def __init__(self, folder, words, modulepath, user=None, **variables):
        self.folder = folder
        env = {b"MODULEPATH": os.fsencode(modulepath)}
        env.update((os.fsencode(name), os.fsencode(value)) for name, value in variables.items())
        done = folder.run("sh", *words, env=env, user=user)
        self.done = done.stdout.decode(errors="replace"), done.stderr.decode(errors="replace"), done.returncode

    def answer(self):
        """The name and the file of the module, or the modules; or the reason of a refusal."""
        out, err, status = self.done
        if status != 0:
            same(out, "", "standard output of a refused search")
            return err.removeprefix("ERROR: ").removesuffix("\n")
        if err or not out:
            return reported(err)
        made = printed("sh", out)
        return f"{made['LOADEDMODULES']} {made['_LMFILES_']}"

    def says(self, wanted, what):
        """The answer is this one: of a refusal, its number and its text."""
        refused = REFUSED.fullmatch(wanted)
        same(self.answer(), refused[2] if refused else wanted, what)
        same(self.done[2], 1 if refused else 0, f"status of {what}")
        place = os.fsdecode(self.folder.path)
        true(not refused or is_refusal(int(refused[1]), refused[2].replace(place, "")), f"REFUSALS.md has {wanted!r}")


class Asked:
    """What the searches that it makes ask the system for."""

    def __init__(self, folder, library):
        self.folder = folder
        self.library = library
        self.listed_as = {}

    def search(self, words, modulepath):
        """Makes a search, and takes down what it asks for: other files than the directories of MODULEPATH, directories,
        and which files are read to their end."""
        lists = {name: os.path.join(os.fsdecode(self.folder.path), name) for name in ("CALLS_TO", "ENDS_TO")}
        for path in lists.values():
            with open(path, "wb"):
                pass
        found = Search(self.folder, words, modulepath, LD_PRELOAD=self.library, **self.listed_as, **lists)
        paths, self.ended = ({*lines(path)} - {OWN_ENVIRONMENT} for path in lists.values())
        self.listed = {path.rstrip("/") for path in paths if path.endswith("/") and os.path.isdir(path)}
        self.read = {path.rstrip("/") for path in paths} - {path.rstrip("/") for path in modulepath.split(":")}
        return found

    def counts(self):
        return len(self.read), len(self.listed)


def lines(path):
    with open(path, encoding="utf-8", errors="surrogateescape") as file:
        return file.read().splitlines()


def answers(asked, line, wanted):
    """The program answers a line of an example, and asks the system for what isn't known before."""
    is_whole, line = line.startswith("whole "), line.removeprefix("whole ")
    kind, modulepath, *name = ["" if word == "''" else word for word in line.split(" ")]
    words = ["load", *name] if kind == "locate" else ["avail"]
    found = asked.search(words, modulepath)
    counted = (WHOLE if is_whole else COUNTED).fullmatch(wanted)
    found.says(counted[1] if counted else wanted, line)
    if is_whole:
        same(len(asked.ended), int(counted[2]), f"how many files are read to their end by {line}")
    elif counted:
        read, listed, known_files, known_lists = map(int, counted.groups()[1:])
        same(asked.counts(), (read - known_files, listed - known_lists), f"what is asked for by {line}")


def real_words(folder, text):
    """A text with the folders of the example in each of its words."""
    return " ".join(os.fsdecode(real(folder, word)) for word in text.split(" "))


def whole():
    """The examples, each with the files of those before it."""
    files = []
    for title, rows in examples("core/searches.txt"):
        if rows[0] == "new":
            files, rows = [], rows[1:]
        yield pytest.param([*files, *rows], id=title)
        files += filter(is_put, rows)


@pytest.mark.parametrize("rows", whole())
def test_searches(rows, folder, shim):
    asked, rest = Asked(folder, shim("failing_calls")), list(rows)
    while rest:
        line = rest.pop(0)
        if is_put(line):
            put(folder, line)
        elif line.startswith("listed "):
            _, name, _, other = line.split(" ")
            asked.listed_as = {"LISTED_AS": f"{name}={other}"}
        else:
            line, wanted = (real_words(folder, text) for text in (line.removeprefix("> "), rest.pop(0)))
            answers(asked, line, wanted)


class Disk:
    """A directory, and the searches in it."""

    def __init__(self, folder):
        self.folder = folder
        self.m = os.fsdecode(folder.modules)

    def file(self, name, text=COOKIE):
        return self.folder.file(name, text)

    def locates(self, name, wanted, user=None, variables=None, modulepath=None):
        found = Search(self.folder, ["load", name], modulepath or self.m, user, **(variables or {}))
        found.says(wanted.replace("M/", f"{self.m}/"), name)

    def lists(self, wanted, user=None, modulepath=None):
        found = Search(self.folder, ["avail"], modulepath or self.m, user)
        found.says(wanted.replace("M:", f"{self.m}:"), "avail")


@pytest.fixture
def disk(folder):
    return Disk(folder)


def test_versions_and_default_files(disk):
    for version in ("1.9", "1.10", "1.10-rc"):
        disk.file(f"ver/{version}")
    disk.locates("ver", "ver/1.10-rc M/ver/1.10-rc")
    disk.lists("M: ver/1.9 ver/1.10 ver/1.10-rc")
    disk.file("ver/.version", COOKIE + "set ModulesVersion 1.9")
    disk.locates("ver", "ver/1.9 M/ver/1.9")
    disk.lists("M: ver/1.9(default) ver/1.10 ver/1.10-rc")
    disk.file("ver/.modulerc", COOKIE + "module-version ver/1.10 default")
    disk.locates("ver", "ver/1.10 M/ver/1.10")
    disk.lists("M: ver/1.9 ver/1.10(default) ver/1.10-rc")
    # A name without a word is no command.
    disk.file("ver/.modulerc", COOKIE + "module-version ver/1.10")
    disk.locates("ver", f"45 {wording(45, 'M/ver/.modulerc')}")
    disk.file("ver/.modulerc", COOKIE + "error x")
    disk.locates("ver", f"45 {wording(45, 'M/ver/.modulerc')}")
    disk.lists("M: ver/1.9 ver/1.10 ver/1.10-rc")


def test_default_files_that_compute(disk):
    for version in ("1.9", "1.10"):
        disk.file(f"ver/{version}")
    # To a default file each variable of the environment is unset.
    disk.file(
        "ver/.version",
        COOKIE
        + "if {[info exists env(HOME)]} {\n    set ModulesVersion 1.10\n} else {\n    set ModulesVersion 1.[expr {3 * 3}]\n}\n",
    )
    disk.locates("ver", "ver/1.9 M/ver/1.9", variables={"HOME": "/"})
    disk.lists("M: ver/1.9(default) ver/1.10")
    disk.file(
        "ver/.modulerc",
        COOKIE
        + f'if {{$ModulesCurrentModulefile eq "{disk.m}/ver/.modulerc"}} {{\n'
        + "    foreach v {1.9 1.10} {module-version ver/$v default}\n}\n",
    )
    disk.locates("ver", "ver/1.10 M/ver/1.10")
    disk.lists("M: ver/1.9 ver/1.10(default)")
    for text in ("while 1 {}", "proc f {} {f}; f", "catch {module-alias v ver/1.9}", "setenv A 1", "set v {"):
        disk.file("ver/.modulerc", COOKIE + text + "\n")
        disk.locates("ver", f"45 {wording(45, 'M/ver/.modulerc')}")
        disk.lists("M: ver/1.9 ver/1.10")
    disk.locates("ver/1.9", "ver/1.9 M/ver/1.9")


def test_a_directory_is_named_as_it_is_spelled(disk):
    disk.file("ver/1")
    disk.locates("ver", f"ver/1 {disk.m}//ver/1", modulepath=f"{disk.m}/:/nowhere")
    disk.lists(f"{disk.m}/: ver/1", modulepath=f"/nowhere:{disk.m}/")


def test_odd_names_are_passed_over(disk):
    for name in ("ok/1", "ok/.hidden", "ok/a b", "ok/a:b", "ok/@", "ok/x&y", "ok/x|y", "ok/x\\y", ".dir/1", "a b/1", "new\nline/1"):
        disk.file(name)
    disk.lists("M: ok/1")
    disk.locates("ok", "ok/1 M/ok/1")
    disk.locates("ok/.hidden", f"44 {wording(44, 'ok/.hidden')}")


def test_four_levels_and_no_more(disk):
    disk.file("top")
    disk.file("a/b/c/d")
    disk.file("a/b/c/e/f")
    disk.lists("M: a/b/c/d top")
    disk.locates("a/b/c", "a/b/c/d M/a/b/c/d")
    disk.locates("a/b", f"42 {wording(42, 'a/b')}")


def test_links(disk):
    disk.file("ver/1")
    os.symlink("1", os.path.join(disk.m, "ver", "2"))
    os.symlink("gone", os.path.join(disk.m, "ver", "3"))
    disk.locates("ver", "ver/2 M/ver/2")
    disk.lists("M: ver/1 ver/2")
    # A directory that leads to itself is as deep as names are.
    os.symlink(".", os.path.join(disk.m, "ver", "up"))
    disk.lists("M: ver/1 ver/2 ver/up/1 ver/up/2 ver/up/up/1 ver/up/up/2")
    os.symlink("ring", os.path.join(disk.m, "ring"))
    disk.locates("ring", f"43 {wording(43)}")
    disk.lists(f"43 {wording(43)}")


def test_a_ring_of_links_among_versions(disk):
    disk.file("ver/1")
    os.symlink("0", os.path.join(disk.m, "ver", "0"))
    # Versions are read from the greatest down, so the ring below it is never followed.
    disk.locates("ver", "ver/1 M/ver/1")
    os.symlink("2", os.path.join(disk.m, "ver", "2"))
    disk.locates("ver", f"43 {wording(43)}")
    # A default file that names a version needs no other one.
    disk.file("ver/.version", COOKIE + "set ModulesVersion 1")
    disk.locates("ver", "ver/1 M/ver/1")


def test_directories_and_pipes_in_place_of_files(disk):
    disk.file("ver/1")
    os.mkdir(os.path.join(disk.m, "ver", "2"))
    os.mkfifo(os.path.join(disk.m, "ver", "3"))
    os.symlink("/dev/zero", os.path.join(disk.m, "ver", "4"))
    os.mkfifo(os.path.join(disk.m, "ver", ".version"))
    os.mkdir(os.path.join(disk.m, "ver", ".modulerc"))
    os.mkfifo(os.path.join(disk.m, "pipe"))
    disk.locates("ver", "ver/1 M/ver/1")
    disk.lists("M: ver/1")
    disk.locates("pipe", f"42 {wording(42, 'pipe')}")


def test_what_may_not_be_read(disk):
    disk.file("ver/1")
    secret = disk.file("ver/2")
    os.chmod(secret, 0)
    disk.locates("ver", f"43 {wording(43)}", user=NOBODY)
    disk.lists(f"43 {wording(43)}", user=NOBODY)
    disk.locates("ver/1", "ver/1 M/ver/1", user=NOBODY)
    disk.file("ver/.version", COOKIE + "set ModulesVersion 1")
    disk.locates("ver", "ver/1 M/ver/1", user=NOBODY)
    os.chmod(secret, 0o644)
    closed = os.path.join(disk.m, "closed")
    os.mkdir(closed, 0)
    disk.locates("closed", f"43 {wording(43)}", user=NOBODY)
    disk.lists(f"43 {wording(43)}", user=NOBODY)
    disk.locates("ver", "ver/1 M/ver/1", user=NOBODY)


def test_names_and_texts_that_are_not_utf8(disk):
    disk.file("raw/1", COOKIE.encode() + b"\xff")
    disk.locates("raw", f"46 {wording(46, 'M/raw/1')}")
    disk.lists("M: raw/1")
    disk.file("raw/.version", COOKIE.encode() + b"\xff")
    disk.locates("raw", f"45 {wording(45, 'M/raw/.version')}")
    disk.file(b"odd/\xff")
    disk.file("odd/1")
    disk.locates("odd", f"43 {wording(43)}")
    disk.locates("odd/1", "odd/1 M/odd/1")
    disk.lists(f"43 {wording(43)}")


def test_a_directory_of_many_names(disk, shim):
    folder = os.path.join(disk.m, "many")
    os.mkdir(folder)
    for number in range(20000):
        with open(os.path.join(folder, str(number)), "w") as out:
            out.write(COOKIE)
    disk.file("one/1")
    asked = Asked(disk.folder, shim("failing_calls"))
    # A load reads what is asked for, and the listing, the default files and the greatest version of its folder, each once;
    # that there are no default files is known.
    answers(asked, f"locate {disk.m} one", f"one/1 {disk.m}/one/1 [4 read, 1 listed; 2 and 0 known]")
    answers(asked, f"locate {disk.m} many/7", f"many/7 {folder}/7 [1 read, 0 listed; 0 and 0 known]")
    answers(asked, f"locate {disk.m} many", f"many/19999 {folder}/19999 [4 read, 1 listed; 2 and 0 known]")
    # Each file is read once and asked once for a folder, with two default files in each of the two folders.
    names = " ".join([*(f"many/{number}" for number in range(20000)), "one/1"])
    counts = f"[{2 + 20001 + 4} read, {3 + 20001} listed; 4 and 20001 known]"
    answers(asked, f"avail {disk.m}", f"{disk.m}: {names} {counts}")


@pytest.mark.parametrize("words", [["load", "ver"], ["load", "nope"], ["avail"]], ids=" ".join)
def test_growths_of_memory_that_are_refused(disk, shim, words):
    for version in ("1.9", "1.10"):
        disk.file(f"ver/{version}")
    disk.file("ver/.modulerc", COOKIE + "foreach v {7 8} {module-version ver/$v default}")
    disk.file("ver/.version", COOKIE + "set ModulesVersion 1.[expr {3 * 3}]")

    def run(asked):
        variables = {os.fsdecode(name): os.fsdecode(value) for name, value in asked.items()}
        return Search(disk.folder, words, disk.m, **variables).done

    refuses_each(shim("failing_malloc"), run, ("", f"ERROR: {wording(31)}\n", 1).__eq__, words)
