"""What the function adds to the program: directories of MODULEPATH, collections, reload, reports of reports. The
programs that it runs for that are tried by themselves in changes.py, and beside Environment Modules in original.py."""

import os
import re
import shutil

import pytest

from tests.lib.examples import wording
from tests.lib.harness import OF_SPIDER, OPTIONS, same
from tests.shells.session import LINES, MARKS, ODD_NAME, Session, changed, same_environment
from tests.shells.shells import content, in_csh
from tests.shells.texts import word

NOT_FOUND = f"ERROR: {wording(42, '{}')}\n"


class Added(Session):
    """A shell over the program, with modules, a HOME and a folder for directories."""

    def __init__(self, shell, folder, prefix):
        super().__init__(shell, folder, prefix)
        self.home = os.path.join(folder.path, b"home").decode()
        self.top = os.path.join(folder.path, b"top").decode()
        for path in (self.home, self.top):
            os.mkdir(path)
        self.starts_with(HOME=self.home)
        self.start = folder.modules.decode()
        self.paths = {}

    def module(self, name, text):
        self.paths[name] = self.folder.module(name, text).decode()

    def lists(self, *names):
        return {"LOADEDMODULES": ":".join(names), "_LMFILES_": ":".join(self.paths[name] for name in names)}

    def keeps(self, lines, err=""):
        return super().keeps(lines, err=err.encode())

    def later(self, name, text):
        """The line that gives a module this text."""
        with open(os.path.join(self.top, "later"), "w") as file:
            file.write("#%Module\n" + text)
        return f"/bin/cp {self.top}/later {self.paths[name]}"

    def collection(self, name, text):
        """Writes a file of a collection, and gives its path."""
        path = os.path.join(self.home, ".config/modulecmd", name)
        os.makedirs(os.path.dirname(path), exist_ok=True)
        with open(path, "w") as file:
            file.write(text)
        return path


@pytest.fixture
def here(shell, folder, product):
    return Added(shell, folder, product)


def step(line):
    """A line, its status, and the environment behind it."""
    return [line, "status", "show"]


def test_uses_and_unuses_directories(here):
    start, top = here.start, here.top
    for name in ("a", "b c"):
        os.mkdir(os.path.join(top, name))
    ways = (
        ("module use a './b c//'", 0, f"{top}/a:{top}/b c:{start}"),
        ("module use 'b c'", 0, f"{top}/b c:{top}/a:{start}"),
        (f"module use -a {top}/./a/", 0, f"{top}/b c:{start}:{top}/a"),
        ("module use --append a/../nope", 0, f"{top}/b c:{start}:{top}/a:{top}/nope"),
        ("module use a:b", 1, None),
        ("module use --nope a", 1, None),
        ("module use -a", 1, None),
        ("module unuse a 'b c/' other", 0, f"{start}:{top}/nope"),
        ("module unuse", 1, None),
        ("module unuse -a nope", 1, None),
        ("ml unuse nope", 0, start),
        (f"ml unuse {start}", 0, None),
        ("module use 'b c'", 0, f"{top}/b c"),
    )
    lines = [f"cd {top}", "show"]
    for line, _, _ in ways:
        lines += step(line)
    said = (
        f"There is no directory '{top}/nope' yet.\n"
        f"ERROR: Bad value of 'MODULEPATH': '{top}/a:b' has a colon\n"
        "ERROR: '--nope' is no option here\n"
        f"{OPTIONS}"
        "ERROR: Bad arguments\nusage: module use [-a] DIR...\n"
        "ERROR: Bad arguments\nusage: module unuse DIR...\n"
        "ERROR: '-a' is no option here\n"
        'Here it is an option of "module use", and no module is hidden.\n'
    )
    kept = here.keeps(lines, said)
    same(kept.statuses, [str(status) for _, status, _ in ways], "the statuses")
    wanted = kept.shown[0]
    for (line, status, path), found in zip(ways, kept.shown[1:]):
        if status == 0:
            wanted = changed(wanted, {"MODULEPATH": path})
        same_environment(found, wanted, f"the environment behind {line}")


def test_says_once_of_a_directory_that_it_is_not_there(here):
    top = here.top
    os.mkdir(os.path.join(top, "a"))
    said = "".join(f"There is no directory '{top}/{name}' yet.\n" for name in ("x", "y", "x"))
    here.keeps([f"cd {top}", "module use x a y ./x a/../y x", "module us x"], said)


def test_uses_and_unuses_under_odd_settings(here, shell):
    """The directories have names as the user's settings could spoil them, and words of ours are the user's, too."""
    start, name = here.start, "o1/= 'a' $x *"
    place = f"{here.top}/{name}"
    os.makedirs(place)
    ours = ("module", "subcommand", "use", "report", "changes", "directory", "added", "name", "words")
    here.starts_with(WORD=place, **dict.fromkeys(ours, "/user"))
    words = [word for word in ours if shell.family == "sh" and word != "module"]
    theirs = [line for word in words for line in (f"{word}() {{ echo theirs; }}", f"alias {word}='echo theirs'")]
    typed = shell.says.word.format("WORD")
    lines = ["show", f"module use {typed}", "show", shell.may_fail("module is-loaded"), f"module unus {typed}", "show"]
    lines += [shell.may_fail("module use -x"), shell.may_fail("module spider"), f"module us -a {typed}", "show"]
    err = f"ERROR: '-x' is no option here\n{OPTIONS}ERROR: Unknown subcommand 'spider'\n{OF_SPIDER}".encode()
    kept = Session.keeps(here, [shell.source(here.prefix), *lines], before=[*shell.odd, *theirs], err=err)
    before = kept.shown[0]
    for found, path in zip(kept.shown[1:], (f"{place}:{start}", start, f"{start}:{place}")):
        same_environment(found, changed(before, {"MODULEPATH": path}), "the environment")


@in_csh
def test_refuses_a_directory_that_csh_has_no_text_for(here):
    name = "a\nb"
    os.mkdir(os.path.join(here.top, name))
    here.starts_with(WORD=name)
    steps = [*step("module use $WORD:q"), *step("module unuse $WORD:q")]
    kept = here.keeps([f"cd {here.top}", "show", *steps], "ERROR: Value of 'MODULEPATH' can't be said in this shell\n")
    same(kept.statuses, ["1", "0"], "the statuses")
    for found in kept.shown[1:]:
        same_environment(found, kept.shown[0], "the environment")


# What is typed where foo is loaded. Each starts the program once, and nothing else.
STARTING = (
    "module load foo", "module load nope", "module save", "module reload", "ml restore default", "module savelist",
    "module whatis", "module keyword foo", "module help foo", "module show foo", "module show nope", "module use",
    "module av", "ml", "module -t list", "module is-avail foo", "module saverm default", "module use /",
    "module us --nope", "module is-loaded nope", "module spider", "module rem nope", "module rem fo", "ml unload foo",
    "ml foo", "ml -foo foo", "module load --auto nope", "module sw foo", "module purge",
)  # fmt: skip

# In csh these are shown by the script that shows reports, since it can't hand its standard output on.
SHOWN_BY_SCRIPT = ("module help", "module --version", "ml -V")


def test_starts_no_program_more_than_a_command_takes(here, shell):
    if not shutil.which("strace"):
        pytest.skip("how many programs are started, without strace")
    here.module("foo/1", "setenv FOO 1\n")
    calls = os.path.join(here.top, "calls")
    title, *options = shell.command
    traced = ["strace", "-f", "-qq", "-e", "signal=none", "-e", "trace=execve", "-o", calls, shutil.which(title), *options]
    typed = [*STARTING, *SHOWN_BY_SCRIPT]
    lines = ["/usr/bin/env", *(part for line in typed for part in (shell.may_fail(line), "/usr/bin/env"))]
    Session.run(here, lines, under=traced)
    by_script = ["libexec/module", "init/pager", "libexec/module"] if shell.family == "csh" else ["libexec/module"]
    found = [[]]
    wanted = [[], *([["libexec/module"]] * len(STARTING)), *([by_script] * len(SHOWN_BY_SCRIPT)), []]
    for path in re.findall(r'execve\("([^"]*)".* = 0$', content(calls).decode(), re.MULTILINE)[1:]:
        if path == "/usr/bin/env":
            found.append([])
        else:
            found[-1].append(path.removeprefix(here.prefix + "/"))
    names = ["the init file", *typed, "the end"]
    same(list(zip(names, found)), list(zip(names, wanted)), "what is started by each command")


def test_takes_directories_with_odd_names(here):
    name = ODD_NAME + "\n\n" if here.shell.has_newlines else ODD_NAME
    here.starts_with(WORD=name)
    place = os.path.join(here.top, name)
    os.makedirs(os.path.join(place, "in"))
    with open(os.path.join(place, "in", "1"), "w") as file:
        file.write(f"#%Module\nsetenv MARKS {word(MARKS)}\n")
    typed = here.shell.says.word.format("WORD")
    lines = [f"module use {typed}", "module load in", "module save", "module unload in", f"module unuse {typed}"]
    steps = [part for line in [*lines, "module restore", "module reload"] for part in step(line)]
    kept = here.keeps([f"cd {here.top}", "show", *steps])
    same(kept.statuses, ["0"] * 7, "the statuses")
    before = kept.shown[0]
    used = changed(before, {"MODULEPATH": f"{place}:{here.start}"})
    loaded = changed(used, {"MARKS": MARKS, "LOADEDMODULES": "in/1", "_LMFILES_": place + "/in/1"})
    for number, wanted in enumerate((before, used, loaded, loaded, used, before, loaded, loaded)):
        same_environment(kept.shown[number], wanted, f"environment {number}")


def test_saves_and_restores(here):
    text = LINES if here.shell.has_newlines else LINES.replace("\n", "")
    here.module("foo/1.0", f"setenv TEXT {word(text)}\nprepend-path P /foo\n")
    here.module("foo/2.0", "setenv TEXT 2\n")
    here.module("bar/1", "puts stderr {a bar}\nappend-path P /bar\n")
    other, typed = "it's (my) \"own\" *", here.shell.says.word.format("OTHER")
    here.starts_with(OTHER=other)
    lines = ["show", *step("module load foo/1.0 bar"), "module save", f"module use {here.top}"]
    lines += [*step("module switch foo/2.0"), f"module save {typed}", "module savelist"]
    lines += [*step("module restore"), *step(f"ml restore {typed}"), "module purge"]
    lines += [*step("module restore default"), f"module saverm {typed}", "module savelist"]
    file = os.path.join(here.home, ".config/modulecmd/default")
    shown = f"module use --append {here.start}\nmodule load foo/1.0\nmodule load bar/1\n"
    # What bar says, it says in a load and in an unload.
    said = "a bar\ndefault\n" + other + "\n" + 6 * "a bar\n" + "default\n" + f"{file}:\n{shown}"
    kept = here.keeps([*lines, "module saveshow", "status"], said)
    same(kept.statuses, ["0"] * 6, "the statuses")
    before, first, second, again, other_one, last = kept.shown
    wanted = changed(before, {"TEXT": text, "P": "/foo:/bar", **here.lists("foo/1.0", "bar/1")})
    same_environment(first, wanted, "the environment that is saved")
    changes = {"TEXT": "2", "P": "/bar", "MODULEPATH": f"{here.top}:{here.start}", **here.lists("bar/1", "foo/2.0")}
    same_environment(second, changed(before, changes), "the other environment that is saved")
    for found, wanted in ((again, first), (other_one, second), (last, first)):
        same_environment(found, wanted, "the environment that is restored")
    same(content(file).decode(), shown, "the file")
    same(os.listdir(os.path.dirname(file)), ["default"], "the files")


def test_saves_what_is_searched_without_the_loaded_modules(here):
    """A save, a purge, a restore and a purge give the start back, where loaded modules have added to MODULEPATH."""
    more = os.path.join(here.top, "more")
    os.makedirs(os.path.join(more, "in"))
    with open(os.path.join(more, "in", "1"), "w") as file:
        file.write(f"#%Module\nsetenv IN 1\nappend-path MODULEPATH {here.start}/last\n")
    here.module("door/1", f"prepend-path MODULEPATH {more}\n")
    lines = [*step("module load door"), *step("module load in"), "module save", *step("module purge")]
    lines += [*step("module restore"), *step("module reload"), *step("module purge")]
    kept = here.keeps(["show", *lines])
    same(kept.statuses, ["0"] * 6, "the statuses")
    before, door, loaded, purged, restored, reloaded, after = kept.shown
    same(door[b"MODULEPATH"].decode(), f"{more}:{here.start}", "MODULEPATH behind a module")
    changes = {"IN": "1", "MODULEPATH": f"{more}:{here.start}:{here.start}/last", "LOADEDMODULES": "door/1:in/1"}
    changes["_LMFILES_"] = f"{here.paths['door/1']}:{more}/in/1"
    for found in (loaded, restored, reloaded):
        same_environment(found, changed(before, changes), "the environment with both")
    for found in (purged, after):
        same_environment(found, before, "the environment without them")
    written = content(os.path.join(here.home, ".config/modulecmd/default")).decode()
    same(written, f"module use --append {here.start}\nmodule load door/1\nmodule load in/1\n", "the file")


def test_saves_through_a_link_and_nothing_where_it_is_refused(here):
    """A link in the place of a collection stays, and the file that it leads to is written."""
    for name in ("foo/1", "bar/1"):
        here.module(name, "")
    link, store = here.collection("default", "module load old\n"), os.path.join(here.top, "store")
    os.rename(link, store)
    os.symlink(store, link)
    lines = ["module load foo", "module save", "status", "module load bar", f"/bin/rm {here.paths['bar/1']}"]
    lines += [*step("module save"), *step("module restore"), *step("module reload")]
    kept = here.keeps(["show", *lines], f"ERROR: {wording(54, here.paths['bar/1'])}\nTry: module forget bar/1\n" * 3)
    same(kept.statuses, ["0", "1", "1", "1"], "the statuses")
    for found in kept.shown[1:]:
        same_environment(found, changed(kept.shown[0], here.lists("foo/1", "bar/1")), "the environment")
    same((os.path.islink(link), os.listdir(os.path.dirname(link))), (True, ["default"]), "the link, and what is beside")
    same(content(store).decode(), f"module use --append {here.start}\nmodule load foo/1\n", "the file")


def test_forgets_a_module_whose_file_is_gone(here):
    here.module("foo/1", "setenv FOO 1\npushenv CC foo\n")
    here.module("bar/1", "setenv BAR 1\n")
    lines = ["show", *step("module load foo bar"), f"/bin/rm {here.paths['foo/1']}", *step("module purge")]
    said = f"ERROR: {wording(54, here.paths['foo/1'])}\nTry: module forget foo/1\n"
    said += "Forgotten: foo/1. What modulefiles set may stay; a new login is clean.\n"
    kept = here.keeps([*lines, *step("module forget foo"), *step("module purge")], said)
    same(kept.statuses, ["0", "1", "0", "0"], "the statuses")
    before, loaded, refused, forgotten, purged = kept.shown
    same_environment(refused, loaded, "the environment behind the refusal")
    same_environment(forgotten, changed(before, {"FOO": "1", "BAR": "1", **here.lists("bar/1")}), "without foo")
    same_environment(purged, changed(before, {"FOO": "1"}), "the environment that stays")


def test_changes_nothing_where_a_restore_or_a_reload_is_refused(here):
    for name, text in (("foo/1", "setenv FOO 1\n"), ("bar/1", "setenv BAR 1\n"), ("k/1", "conflict bar\n")):
        here.module(name, text)
    use = f"module use --append {here.top}\nmodule use {here.start}\n"
    here.collection("nope", use + "module load foo/1\nmodule load nope/1\nmodule load bar/1\n")
    here.collection("conflict", use + "module load bar/1 k\n")
    odd = here.collection("odd", use + "module load foo/1\nsetenv X 1\n")
    here.collection("gone", f"module use {here.top}\nmodule load foo/1\n")
    lines = ["show", *step("module load foo bar")]
    for name in ("nope", "conflict", "odd", "gone", "missing", "../odd"):
        lines += step(f"module restore {name}")
    lines += [here.later("bar/1", "prereq nope\n"), *step("module reload")]
    kept = here.keeps(
        [*lines, *step("module restore a b"), *step("module reload a")],
        NOT_FOUND.format("nope/1")
        + f"ERROR: {wording(51, 'bar/1')}\n"
        + f"ERROR: No collection: '{odd}': line 4: it is neither `module use' nor `module load' with words\n"
        + NOT_FOUND.format("foo/1")
        + "ERROR: There is no collection 'missing'\n"
        + "ERROR: Bad name of a collection: '../odd'\n"
        + f"ERROR: {wording(52, 'nope')}\n"
        + "ERROR: Bad arguments\nusage: module restore [COLLECTION]\n"
        + "ERROR: Bad arguments\nusage: module reload\n",
    )
    same(kept.statuses, ["0"] + ["1"] * 9, "the statuses")
    loaded = changed(kept.shown[0], {"FOO": "1", "BAR": "1", **here.lists("foo/1", "bar/1")})
    for found in kept.shown[1:]:
        same_environment(found, loaded, "the environment")


def test_reloads_what_has_changed(here):
    here.module("a/1", "setenv A 1\n")
    here.module("b/1", "prereq a\nprepend-path MODULEPATH /b\n")
    lines = ["show", *step("module reload"), *step("module load a b"), here.later("a/1", "setenv A 2\n")]
    kept = here.keeps([*lines, *step("module reload"), *step("ml reload")])
    same(kept.statuses, ["0"] * 4, "the statuses")
    before, nothing, loaded, first, second = kept.shown
    same_environment(nothing, before, "the environment where nothing is loaded")
    changes = {"A": "1", "MODULEPATH": f"/b:{here.start}", "__MODULES_LMPREREQ": "b/1&a", **here.lists("a/1", "b/1")}
    same_environment(loaded, changed(before, changes), "the environment before")
    for found in (first, second):
        same_environment(found, changed(loaded, {"A": "2"}), "the environment behind a reload")


def test_asks_what_is_loaded_and_what_can_be(here):
    for name in ("foo/1.0", "sub/bar/1", "top"):
        here.module(name, "")
    asked = [
        ("is-loaded", 1), ("is-loaded foo", 1), ("is-avail foo", 0), ("is-avail foo/1.0", 0), ("is-avail fo", 1),
        ("is-avail sub", 1), ("is-avail sub/bar", 0), ("is-avail nope top", 0), ("is-avail nope", 1),
        ("load foo", 0), ("is-loaded", 0), ("is-loaded foo", 0), ("is-loaded nope foo/1.0", 0), ("is-loaded fo", 1),
        ("is-loaded foo/", 1), ("is-loaded '*'", 1), ("is-avail", 1), ("is-l fo foo", 0), ("is-l nope", 1),
    ]  # fmt: skip
    lines = [text for line, _ in asked for text in (f"module {line}", "status")]
    kept = here.keeps(lines, "ERROR: Bad arguments\nusage: module is-avail NAME...\n")
    answers = list(zip([line for line, _ in asked], kept.statuses))
    same(answers, [(line, str(wanted)) for line, wanted in asked], "the statuses")


def test_reports_on_standard_error_away_from_a_terminal(here):
    for name in ("foo/1", "foo/2", "foo/10", "bar/a", "bar/b", "sub/x/1", "sub/x/2", "top"):
        here.module(name, f"module-whatis {{the {name} tool}}\n")
    here.module("bad/1", "nope\n")
    here.folder.file("foo/.version", "#%Module\nset ModulesVersion 2\n")
    start = here.start
    all_of_it = "bad/1\nbar/a\nbar/b\nfoo/1\nfoo/2(default)\nfoo/10\nsub/x/1\nsub/x/2\ntop\n"
    names = [name.replace("(default)", "") for name in all_of_it.split("\n")[1:-1]]
    left = 'Left out:\nbad/1: invalid command name "nope" (line 2)\n'
    whatis = "".join(f"{name}: the {name} tool\n" for name in names)
    kept = here.keeps(
        [
            "module avail -t", "module avail --default", "module avail -L foo sub", "module avail -d -t foo/1",
            "module avail -x", "status", "module avail -- -x", "module whatis", "module keyword 'OO/1'",
            "module apropos BAR/A", "module keyword nope", "status", "module keyword", "status", "module use",
            "module list --terse", "module load foo", "module list -t", "status",
            "module --terse", "ml -t", "module -t avail foo/1",
        ],
        f"{start}:\n{all_of_it}"
        f"{start}:\nbad/1\nbar/b\nfoo/2(default)\nsub/x/2\ntop\n"
        f"{start}:\nfoo/10\nsub/x/2\n"
        f"{start}:\nfoo/10\n"
        f"ERROR: 'avail' has no option '-x'\n{OPTIONS}"
        f"{whatis}{left}foo/1: the foo/1 tool\nfoo/10: the foo/10 tool\n{left}bar/a: the bar/a tool\n{left}{left}"
        "ERROR: Bad arguments\nusage: module keyword TEXT\n"
        f"{start}\n"
        "No Modulefiles Currently Loaded.\n"
        "Currently Loaded Modulefiles:\nfoo/2\n"
        "Currently Loaded Modulefiles:\nfoo/2\n"
        "Currently Loaded Modulefiles:\nfoo/2\n"
        f"{start}:\nfoo/1\nfoo/10\n",
    )  # fmt: skip
    same(kept.statuses, ["1", "0", "1", "0"], "the statuses")


def test_starts_with_no_MODULEPATH(here):
    del here.env[b"MODULEPATH"]
    lines = [*step("module use"), *step("module unuse /a"), *step("module save"), *step("module restore")]
    said = (
        "ERROR: Nothing to save: no module is loaded, and MODULEPATH names no directory\n"
        "ERROR: There is no collection 'default'\n"
    )
    kept = here.keeps(["show", *lines, *step(f"module use {here.top}")], said)
    same(kept.statuses, ["0", "0", "1", "1", "0"], "the statuses")
    for found in kept.shown[1:5]:
        same_environment(found, kept.shown[0], "the environment")
    same_environment(kept.shown[5], changed(kept.shown[0], {"MODULEPATH": here.top}), "the environment")
