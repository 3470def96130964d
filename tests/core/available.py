"""What `avail TEXT...` reports, and where it looks for that: real folders, and the calls by paths that the program makes.

The report is that of `avail` without the names that begin with none of the texts. A folder is listed where a name below
it can begin so, and a file read where its own does.
"""

import contextlib
import os

from hypothesis import given
from hypothesis import strategies as st

from tests.faults.device import Command
from tests.lib.examples import wording
from tests.lib.harness import NOBODY, Folder, same, true
from tests.lib.properties import examples

COOKIE = "#%Module\n"

# Names of files and folders that begin with one another, and texts that begin so or otherwise.
PARTS = st.sampled_from(["a", "a1", "ab", "b", "b-c", ".a", "a b"])
PATHS = st.lists(PARTS, min_size=1, max_size=5).map("/".join)
TEXTS = st.one_of(PATHS, PATHS.map(lambda path: path + "/"), st.sampled_from(["", "/", "a/", "c", "a//", "."]))
FILES = st.lists(st.tuples(PATHS, st.sampled_from([COOKIE, COOKIE, "no module\n"])), max_size=12)
DEFAULTS = st.lists(st.tuples(PATHS, st.sampled_from([".modulerc", ".version"]), PARTS), max_size=4)
DEFAULT = COOKIE + "set ModulesVersion {{{0}}}\nmodule-version {{/{0}}} default\n"


def report(folder, *texts, env=None, user=None):
    """The lines of the report."""
    done = folder.run("sh", "avail", *texts, env=env, user=user)
    same((done.stdout, done.returncode), (b"", 0), f"avail {texts}, {done.stderr!r}")
    return done.stderr.decode().splitlines()


def selected(lines, texts):
    """The lines of a report that are left where texts are given: a directory has one where a name of it has."""
    kept = []
    for line in lines:
        if line.endswith(":"):
            directory = line
        elif not texts or line.removesuffix("(default)").startswith(tuple(texts)):
            if directory not in kept:
                kept.append(directory)
            kept.append(line)
    return kept


def reports(folder, texts, names, env=None, user=None):
    """The names of the one directory that are reported."""
    heads = [folder.modules.decode() + ":"] if names else []
    same(report(folder, *texts, env=env, user=user), [*heads, *names], f"avail {texts}")


def looks_at(folder, library, texts):
    """The names of what the program asks the system for below the directory, which itself is the empty one."""
    paths = Command(folder, library, ["sh", "avail", *texts], folder.environment()).paths({})
    below = [path.rstrip(b"/") for path in paths if path.startswith(folder.modules)]
    return sorted({path.removeprefix(folder.modules).removeprefix(b"/").decode() for path in below})


def some_modules(folder):
    for name in ("app/1", "app/2", "application/1", "lib/app/1", "lib/tool/x/1", "tool"):
        folder.module(name, "")
    folder.file("app/readme", "text")
    folder.module("app/.version", "set ModulesVersion 2\n")
    folder.module("lib/app/.modulerc", "module-version ./1 default\n")


def write(folder, name, text):
    """Writes a file, where its folder can be made and is no folder itself."""
    with contextlib.suppress(OSError):
        folder.file(name, text)


@given(FILES, DEFAULTS, st.lists(TEXTS, max_size=3))
@examples(150)
def test_the_report_is_that_of_all_without_the_others(program, files, defaults, texts):
    folder = Folder(program)
    try:
        for name, text in files:
            write(folder, name, text)
        for place, kind, part in defaults:
            write(folder, f"{place}/{kind}", DEFAULT.format(part))
        env = folder.environment(MODULEPATH=b":".join([folder.modules, folder.path + b"/none", folder.modules + b"/a"]))
        same(report(folder, *texts, env=env), selected(report(folder, env=env), texts), f"avail {texts}")
    finally:
        folder.remove()


def test_texts(folder):
    some_modules(folder)
    every = ["app/1", "app/2(default)", "application/1", "lib/app/1(default)", "lib/tool/x/1", "tool"]
    for texts, names in (
        ([], every),
        ([""], every),
        (["none", ""], every),
        (["app"], every[:3]),
        (["app/"], every[:2]),
        (["app/2"], every[1:2]),
        (["lib/app"], every[3:4]),
        (["lib/t"], every[4:5]),
        (["lib/tool/x/1"], every[4:5]),
        (["lib/tool/x/1/"], []),
        (["t", "app/1", "app/"], [*every[:2], "tool"]),
        (["tool"], ["tool"]),
        (["tool/"], []),
        (["/app"], []),
        (["app//1"], []),
        (["./app"], []),
    ):
        reports(folder, texts, names)


def test_where_it_looks(folder, shim):
    some_modules(folder)
    library = shim("failing_calls")
    # A default file that isn't among the names of its folder is asked for by nothing. The one of `app` names app/2.
    of_app = ["", "app", "app/.version"]
    for texts, names in (
        (["none"], [""]),
        (["app/"], [*of_app, "app/1", "app/2", "app/readme"]),
        (["app/1"], [*of_app, "app/1", "app/2"]),
        (["app/r"], ["", "app", "app/readme"]),
        (["lib/tool/x/"], ["", "lib", "lib/tool", "lib/tool/x", "lib/tool/x/1"]),
        (["tool"], ["", "tool"]),
        (["tool/"], ["", "tool"]),
        (["none", "lib/n"], ["", "lib"]),
    ):
        same(looks_at(folder, library, texts), sorted(names), f"where avail {texts} looks")
    true("application/1" in looks_at(folder, library, ["app"]), "a folder that begins with the text is listed")


def test_what_is_elsewhere_refuses_nothing(folder):
    some_modules(folder)
    os.mkfifo(folder.at("pipe"))
    os.symlink("ring", folder.at("ring"))
    os.symlink("ring", folder.at("lib/ring"))
    os.symlink(".modulerc", folder.at("broken/.modulerc"))
    folder.module("broken/1", "")
    for texts in ([], ["r"], ["app", "lib/r"], ["ring/"], ["broken"]):
        folder.refuses(["sh", "avail", *texts], wording(43))
    reports(folder, ["app/"], ["app/1", "app/2(default)"])
    reports(folder, ["lib/app"], ["lib/app/1(default)"])
    reports(folder, ["broken/2", "pipe"], [])


def test_a_folder_elsewhere_that_may_not_be_listed(folder):
    some_modules(folder)
    os.chmod(folder.at("lib"), 0)
    env = folder.environment()
    folder.refuses(["sh", "avail"], wording(43), env=env, user=NOBODY)
    folder.refuses(["sh", "avail", "lib/app"], wording(43), env=env, user=NOBODY)
    folder.refuses(["sh", "avail", "li"], wording(43), env=env, user=NOBODY)
    reports(folder, ["app"], ["app/1", "app/2(default)", "application/1"], env=env, user=NOBODY)
    reports(folder, ["lin", "tool"], ["tool"], env=env, user=NOBODY)
