"""What the program `module` does where the files of loaded modules are gone: `forget`, and the line behind a refusal that
names it. What stands in each row is typed by hand from module(1) and modulefile(5).
"""

import os
import subprocess

import pytest

from tests.lib.examples import wording
from tests.lib.harness import FORCED, OPTIONS, SECONDS, dynamic, evaluated, refuser, refuses_each, same
from tests.module.explanations import at_terminal

# The modules, and what their files say.
MODULES = {
    "foo/1": "setenv FOO 1\nprepend-path PATH /foo",
    "foo/2": "setenv FOO 2",
    "bar/1": "setenv BAR 1",
    "cc/1": "pushenv CC one",
    "cc/2": "pushenv CC two",
    "needs/1": "prereq foo\nsetenv NEEDS 1",
    "apart/1": "conflict other",
    "lines/1": "pushenv LINES lines",
}

STAYS = "Forgotten: {}. What modulefiles set may stay; a new login is clean.\n"

NOTHING = {"LOADEDMODULES": None, "_LMFILES_": None}


class Site:
    """A directory of modulefiles, and the programs."""

    def __init__(self, folder, module, modulecmd):
        self.module, self.modulecmd = module, modulecmd
        self.modules = os.path.join(folder, "m")
        for name, text in MODULES.items():
            os.makedirs(os.path.dirname(self.path(name)), exist_ok=True)
            with open(self.path(name), "w", encoding="utf-8") as file:
                file.write(f"#%Module\n{text}\n")
        self.start = {"MODULEPATH": self.modules, "PATH": "/bin", "HOME": folder}

    def path(self, name):
        return os.path.join(self.modules, name)

    def lists(self, *names):
        """The loaded lists with these modules."""
        if not names:
            return NOTHING
        return {"LOADEDMODULES": ":".join(names), "_LMFILES_": ":".join(self.path(name) for name in names)}

    def run(self, words, env, program=None, shell="sh"):
        command = [program or self.module, shell, *words]
        done = subprocess.run(command, env=env, capture_output=True, text=True, timeout=SECONDS, check=False)
        return done.returncode, done.stdout, done.stderr

    def behind(self, text, env):
        """The variables behind the text."""
        found = evaluated(text.encode(), {name.encode(): value.encode() for name, value in env.items()})
        return {name.decode(): value.decode() for name, value in found.items()}

    def loaded(self, *names, **more):
        """The variables behind a load of these names, whose files are gone then."""
        start = {**self.start, **more}
        status, text, said = self.run(["load", *names], start, self.modulecmd)
        same((status, said), (0, ""), f"the load of {names}")
        return self.behind(text, start)

    def without(self, *names):
        for name in names:
            os.remove(self.path(name))

    def forgets(self, words, env, names, changes):
        """The command is accepted, names the modules, and changes these variables alone."""
        status, text, said = self.run(["forget", *words.split()], env)
        same((status, said), (0, STAYS.format(names)), f"forget {words}")
        wanted = {name: value for name, value in {**env, **changes}.items() if value is not None}
        same(self.behind(text, env), wanted, f"the variables behind forget {words}")
        return wanted

    def refuses(self, words, env, text, more=""):
        same(self.run(words.split(), env), (1, "", f"ERROR: {text}\n{more}"), words)

    def accepts(self, words, env):
        status, text, said = self.run(words.split(), env)
        same((status, said), (0, ""), words)
        return self.behind(text, env)


@pytest.fixture(scope="session")
def program(built):
    return built("module")


@pytest.fixture
def site(program, built, tmp_path):
    return Site(str(tmp_path), program, built("modulecmd"))


def test_a_purge_is_refused_until_the_module_is_forgotten(site):
    env = site.loaded("foo/1", "bar")
    site.without("foo/1")
    gone = wording(54, site.path("foo/1"))
    for words in ("purge", "unload foo", "unload bar foo", "switch foo/2", "reload", "save s", "ml -foo bar"):
        site.refuses(words, env, gone, "Try: module forget foo/1\n")
    env = site.forgets("foo", env, "foo/1", site.lists("bar/1"))
    site.accepts("load foo", env)
    same(site.accepts("purge", env), {**site.start, "FOO": "1", "PATH": "/foo:/bin"}, "what stays")


def test_the_last_that_a_name_means(site):
    env = site.loaded("foo/1", "bar", "foo/2")
    site.without("foo/1", "foo/2")
    once = site.forgets("foo", env, "foo/2", site.lists("foo/1", "bar/1"))
    site.forgets("foo", once, "foo/1", site.lists("bar/1"))
    site.forgets("foo foo", env, "foo/2 foo/1", site.lists("bar/1"))
    site.forgets("foo/1", env, "foo/1", site.lists("bar/1", "foo/2"))


def test_two_names(site):
    env = site.loaded("foo/1", "bar", "foo/2")
    site.without("foo/1", "bar/1")
    site.refuses("purge", env, wording(54, site.path("bar/1")), "Try: module forget foo/1 bar/1\n")
    site.forgets("foo/1 bar", env, "foo/1 bar/1", site.lists("foo/2"))


STACK = "__MODULES_PUSHENV_CC"


@pytest.mark.parametrize(
    "given, name, changes",
    [
        (None, "cc/2", {"CC": "one", STACK: "cc/1&one"}),
        (None, "cc/1", {"CC": "two", STACK: "cc/2&two"}),
        ("mine", "cc/2", {"CC": "one", STACK: "cc/1&one:&mine"}),
        ("mine", "cc/1", {"CC": "two", STACK: "cc/2&two:&mine"}),
    ],
)
def test_what_was_pushed(site, given, name, changes):
    start = {} if given is None else {"CC": given}
    env = site.loaded("cc/1", "cc/2", **start)
    site.without(name)
    other = "cc/1" if name == "cc/2" else "cc/2"
    env = site.forgets(name, env, name, {**site.lists(other), **changes})
    same(site.accepts("purge", env), {**site.start, **start}, "what stays")


def test_both_that_pushed(site):
    env = site.loaded("cc/1", "cc/2", CC="mine")
    site.without("cc/1", "cc/2")
    site.forgets("cc cc", env, "cc/2 cc/1", {**site.lists(), "CC": "mine", STACK: None})


def test_stacks_of_others_and_texts_that_are_none_stay(site):
    env = site.loaded("foo/1", "cc/1")
    env = {**env, "__MODULES_PUSHENV_A": "x", "__MODULES_PUSHENV_": "foo/1&x", "__MODULES_PUSHENV_1": "foo/1&x"}
    site.without("foo/1")
    site.forgets("foo", env, "foo/1", site.lists("cc/1"))


def test_what_needs_it_stays_loaded(site):
    env = site.loaded("foo/1", "needs", "apart")
    site.without("foo/1", "apart/1")
    needed = env["__MODULES_LMPREREQ"]
    same((needed, env["__MODULES_LMCONFLICT"]), ("needs/1&foo", "apart/1&other"), "what they need")
    gone = {**site.lists("needs/1"), "__MODULES_LMCONFLICT": None}
    env = site.forgets("foo apart", env, "foo/1 apart/1", gone)
    site.accepts("purge", env)


def test_a_file_that_is_there(site):
    env = site.loaded("foo/1", "bar")
    there = "There is a file at '{}': unload its module, or say --settings-stay"
    site.refuses("forget foo", env, there.format(site.path("foo/1")))
    site.without("foo/1")
    site.refuses("forget foo bar", env, there.format(site.path("bar/1")))
    site.forgets("--settings-stay foo bar", env, "foo/1 bar/1", site.lists())
    with open(site.path("foo/1"), "w", encoding="utf-8") as file:
        file.write("no modulefile\n")
    site.refuses("purge", env, wording(55, site.path("foo/1")))
    site.refuses("forget foo", env, there.format(site.path("foo/1")))
    site.forgets("--settings-stay foo", env, "foo/1", site.lists("bar/1"))


def test_refusals(site):
    env = site.loaded("foo/1", "bar")
    site.without("foo/1")
    usage, options = "usage: module forget [--settings-stay] NAME...", OPTIONS.strip()
    for words, text in (
        ("forget", f"Bad arguments\n{usage}"),
        ("forget --settings-stay", f"Bad arguments\n{usage}"),
        ("forget nope", "'nope' isn't loaded"),
        ("forget foo nope", "'nope' isn't loaded"),
        ("forget foo foo", "'foo' isn't loaded"),
        ("forget foo/2", "'foo/2' isn't loaded"),
        ("forget foo/", "'foo/' isn't loaded"),
        ("forget fo", "'fo' isn't loaded"),
        ("forget --settings-stay foo nope", "'nope' isn't loaded"),
        ("forget foo --settings-stay", f"'--settings-stay' is no option here\n{options}"),
        ("forget --settings-stay --settings-stay foo", f"'--settings-stay' is no option here\n{options}"),
        ("forget --force foo", f"'--force' is no option here\n{FORCED.strip()}"),
        ("forget -- foo", f"'--' is no option here\n{options}"),
    ):
        site.refuses(words, env, text)
    site.refuses("forget foo", {**env, "LOADEDMODULES": "foo/1"}, wording(35))
    site.refuses("forget foo", site.start, "'foo' isn't loaded")


def test_a_file_that_can_not_be_read(site):
    """A ring of links is no file that is gone. With the option no file is looked at."""
    env = site.loaded("foo/1", "bar")
    site.without("foo/1")
    os.symlink("1", site.path("foo/1"))
    site.refuses("forget foo", env, wording(43))
    site.forgets("--settings-stay foo", env, "foo/1", site.lists("bar/1"))


def test_a_value_without_a_text(site):
    """What a stack gives back has no text in csh where it has two lines."""
    env = site.loaded("lines/1", LINES="a\nb")
    site.without("lines/1")
    for shell in ("csh", "tcsh"):
        found = site.run(["forget", "lines"], env, shell=shell)
        same(found, (1, "", f"ERROR: {wording(62, 'LINES')}\n"), shell)
        found = site.run(["purge"], env, shell=shell)
        same(found, (1, "", f"ERROR: {wording(54, site.path('lines/1'))}\n"), f"{shell} names what is accepted")
    site.forgets("lines", env, "lines/1", {**site.lists(), "LINES": "a\nb", "__MODULES_PUSHENV_LINES": None})


@pytest.mark.parametrize(
    "shell, text",
    [
        ("bash", "unset LOADEDMODULES;\nunset _LMFILES_;\n"),
        ("tcsh", "unsetenv LOADEDMODULES;\nunsetenv _LMFILES_;\n"),
        ("fish", "set -e LOADEDMODULES;\nset -e _LMFILES_;\n"),
    ],
)
def test_shells(site, shell, text):
    env = site.loaded("foo/1")
    site.without("foo/1")
    same(site.run(["forget", "foo"], env, shell=shell), (0, text, STAYS.format("foo/1")), shell)


def test_the_line_behind_a_refusal(site):
    """It stands at a terminal and in a log, but for who wants no explanations."""
    env = site.loaded("foo/1", "bar")
    site.without("foo/1")
    said = f"ERROR: {wording(54, site.path('foo/1'))}\n"
    for words in (["purge"], ["unload", "--auto", "foo"], ["ml", "-foo", "bar"]):
        same(at_terminal([site.module, "sh", *words], env, 1), said + "Try: module forget foo/1\n", f"{words}")
        same(site.run(words, {**env, "MODULECMD_EXPLAIN": "no"}), (1, "", said), f"{words}, without explanations")
    found = site.run(["purge"], env, site.modulecmd)
    same(found, (1, "", said), "modulecmd itself")


def test_completion(site):
    env = site.loaded("foo/1", "bar")
    for words, names in ((["forget", ""], "foo/1\nbar/1\n"), (["forget", "-"], "--settings-stay\n")):
        same(site.run(["names", "at", "module", *words], env), (0, names, ""), f"what is offered behind {words}")


@pytest.mark.usefixtures("as_shipped")
def test_memory(site, tmp_path):
    """A growth that is refused ends the command with its reason, and nothing is printed for the shell."""
    shim = refuser(os.fsencode(tmp_path))
    env = site.loaded("cc/1", "cc/2", CC="mine")
    site.without("cc/1")
    given = {name.encode(): value.encode() for name, value in env.items()}

    def asked(more):
        command = [dynamic(site.module), "sh", "forget", "cc/1"]
        done = subprocess.run(command, env={**given, **more}, capture_output=True, timeout=SECONDS, check=False)
        return done.returncode, done.stdout, done.stderr

    refuses_each(shim, asked, lambda it: it[:2] == (1, b"") and it[2] == f"ERROR: {wording(31)}\n".encode(), "forget")
