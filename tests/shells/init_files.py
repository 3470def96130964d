"""What the init files promise besides loads and unloads, over the script that stands in for the program."""

import os
import shutil
import time

import pytest

from tests.lib.examples import wording
from tests.lib.harness import FORCED, LISTS, OF_SPIDER, OPTIONS, same, true
from tests.shells.session import LINES, ODD_NAME, REFUSAL, changed, pages, same_environment
from tests.shells.shells import content, in_bash, in_csh, in_shells
from tests.shells.texts import text

# A value with what a user's settings could spoil.
VALUE = "o1/=  'a' \\'b\\ \"*\" $HOME `x` %y !z [a-z]* ~ {a,b} ;&|"

# What changes in a shell on its own.
VOLATILE = (
    b"_", b"?", b"LINENO", b"RANDOM", b"SRANDOM", b"SECONDS", b"EPOCHSECONDS", b"EPOCHREALTIME", b"PIPESTATUS",
    b"TTYIDLE", b"status", b"pipestatus", b"BASH_COMMAND", b"HISTCMD",
)  # fmt: skip

with_functions = in_shells(lambda it: it.says.function)

# In BSD csh an alias has no words behind it that a redirection could be, see module(1).
with_redirections = in_shells(lambda it: it.title != "BSD csh")


def test_works_under_odd_settings_sourced_twice(scripted, shell):
    scripted.sets({"VALUE": VALUE, "LINES_2": "a\nb" if shell.has_newlines else "a b"})
    scripted.will_load()
    scripted.will_refuse()
    scripted.will_unload()
    lines = [shell.source(scripted.prefix), "show", "module load foo/1.0", "show"]
    lines += [shell.may_fail("module load nope/1"), "show", "module unload foo", "show"]
    before, between, refused, after = scripted.keeps(lines, before=shell.odd, err=REFUSAL).shown
    same_environment(between, scripted.loaded(before), "the environment between")
    same_environment(refused, between, "the environment behind a refusal")
    same_environment(after, before, "the environment after")


def test_hands_on_the_status_and_evaluates_nothing_of_a_refused_or_killed_command(scripted, shell):
    bad = text(shell.family, {"BAD": "set"})
    for status in (1, 2, 64, 100, 127):
        scripted.stand_in.answer(bad, b"", status)
    scripted.stand_in.answer(bad, b"", "killed")
    scripted.stand_in.answer(bad[:-3], b"", 1)
    scripted.stand_in.answer(b"", b"message\n", 0)
    kept, done = scripted.run(["show", *["module load foo/1.0", "status"] * 8, "show"])
    # A shell may say that a command was killed.
    said = [line for line in (done.stdout + done.stderr).split(b"\n") if b"Killed" not in line]
    same(said, [b"message", b""], "what is written")
    same(kept.statuses[:5] + kept.statuses[6:], ["1", "2", "64", "100", "127", "1", "0"], "the statuses")
    true(int(kept.statuses[5]) != 0, "a killed command has a status other than 0")
    same_environment(kept.shown[1], kept.shown[0], "the environment after")


def test_hands_on_the_words_as_they_are(scripted, shell):
    scripted.will_answer(0, 0, 0)
    scripted.keeps(["module load 'a  b' '*' 'c\"d' '$HOME' '`x`' 'é;&|'", "module load a 'b-a' 'c--b=c'", "module purge"])
    wanted = [["load", "a  b", "*", 'c"d', "$HOME", "`x`", "é;&|"], ["load", "a", "b-a", "c--b=c"], ["purge"]]
    same(scripted.stand_in.words(), [[shell.init, *words] for words in wanted], "the words")


# Names of subcommands and beginnings of names, with words behind them, and what the program is given: the words.
OTHER_NAMES = {
    "module del 'a  *' bar": ["del", "a  *", "bar"],
    "module remove foo": ["remove", "foo"],
    "ml del foo": ["ml", "del", "foo"],
    "module unl foo": ["unl", "foo"],
    "module rem '$HOME'": ["rem", "$HOME"],
    "module lo 'c\"d' '`x`'": ["lo", 'c"d', "`x`"],
    "module sw foo 'é;&|'": ["sw", "foo", "é;&|"],
    "module swa foo": ["swa", "foo"],
    "ml sw foo": ["ml", "sw", "foo"],
    "module pu": ["pu"],
    "module load a:del": ["load", "a:del"],
    "module": [],
    "module -t avail -n": ["-t", "avail", "-n"],
    "module '-n' '-e x' '--' '-'": ["-n", "-e x", "--", "-"],
}


def test_hands_on_other_names_and_beginnings_of_subcommands(scripted, shell):
    scripted.will_answer(*[0] * len(OTHER_NAMES))
    kept = scripted.keeps([part for line in OTHER_NAMES for part in (line, "status")])
    same(kept.statuses, ["0"] * len(OTHER_NAMES), "the statuses")
    same(scripted.words(), list(OTHER_NAMES.values()), "the words")


# What is typed, and what is loaded behind it.
MEANT = {
    "module lo foo": "foo/2.0",
    "module add bar": "foo/2.0:bar/1",
    "module del foo": "bar/1",
    "ml foo": "bar/1:foo/2.0",
    "ml del bar": "foo/2.0",
    "module unl foo": None,
    "ml foo bar": "foo/2.0:bar/1",
    "module sw foo foo/1.0": "bar/1:foo/1.0",
    "module swa foo/2.0": "bar/1:foo/2.0",
    "ml sw foo/1.0": "bar/1:foo/1.0",
    "module rem bar": "foo/1.0",
    "module remove foo": None,
    "ml bar": "bar/1",
    "ml -bar foo/1.0": "foo/1.0",
    "ml bar -foo": "bar/1",
    "ml -bar": None,
    "ml foo/1.0": "foo/1.0",
    "module pu": None,
}


def test_takes_other_names_and_beginnings_of_subcommands(real):
    for name in ("foo/1.0", "foo/2.0", "bar/1"):
        real.folder.module(name, "")
    kept = real.keeps([part for line in MEANT for part in (line, "status", "show")])
    same(kept.statuses, ["0"] * len(MEANT), "the statuses")
    found = [shown.get(b"LOADEDMODULES") for shown in kept.shown]
    wanted = [it and it.encode() for it in MEANT.values()]
    same(list(zip(MEANT, found)), list(zip(MEANT, wanted)), "what is loaded")


@with_redirections
def test_takes_beginnings_of_what_else_it_does(real, shell):
    file = real.folder.module("foo/1.0", "module-whatis {a foo}\n")
    path = real.folder.path.decode()
    lines = [f"module av f {shell.says.to_file} '{path}/av'", f"ml av {shell.says.to_pipe} /bin/cat > '{path}/ml'"]
    lines += [f"module li {shell.says.to_file} '{path}/li'", f"ml li {shell.says.to_pipe} /bin/cat > '{path}/ml-li'"]
    lines += [f"module disp foo {shell.says.to_file} '{path}/disp'", f"module wh foo {shell.says.to_file} '{path}/wh'"]
    lines += [f"module -V > '{path}/version'", f"ml -V | /bin/cat > '{path}/ml-version'"]
    lines += [f"module -h > '{path}/help'", f"ml -h > '{path}/ml-help'"]
    real.keeps(lines)
    report = real.folder.modules + b":\nfoo/1.0\n"
    same((content(f"{path}/av"), content(f"{path}/ml")), (report, report), "the reports of avail")
    report = b"No Modulefiles Currently Loaded.\n"
    same((content(f"{path}/li"), content(f"{path}/ml-li")), (report, report), "the reports of list")
    same(content(f"{path}/disp"), os.fsencode(file) + b":\nmodule-whatis {a foo}\n", "the report of show")
    same(content(f"{path}/wh"), b"foo/1.0: a foo\n", "the report of whatis")
    for name, begins in (("version", b"modulecmd "), ("help", b"usage: module")):
        true(content(f"{path}/{name}").startswith(begins), name)
        same(content(f"{path}/ml-{name}"), content(f"{path}/{name}"), f"{name} by ml")


# A first word that means no subcommand, and what is said.
NO_SUBCOMMANDS = {
    "spider": f"Unknown subcommand 'spider'\n{OF_SPIDER}",
    "avial": "Unknown subcommand: did you mean 'avail'?",
    "sa": "Several subcommands begin with 'sa'",
    "--force": f"'--force' is no option here\n{FORCED}",
    "'a  *'": f"Unknown subcommand 'a  *'\n{LISTS}",
    "'$x`y`\"z;'": f"Unknown subcommand '$x`y`\"z;'\n{LISTS}",
    "'[a-z]{b}~|&'": "Unknown subcommand '[a-z]{b}~|&'\n" + LISTS,
    "subcommand": f"Unknown subcommand 'subcommand'\n{LISTS}",
}


def test_a_word_that_means_no_subcommand_is_refused(real):
    lines = [line for word in NO_SUBCOMMANDS for line in (f"module {word} 'foo  *' bar", "status")]
    said = "".join(f"ERROR: {text.rstrip()}\n" for text in NO_SUBCOMMANDS.values())
    kept = real.keeps(["show", *lines, "show"], err=said.encode())
    same(kept.statuses, ["1"] * len(NO_SUBCOMMANDS), "the statuses")
    same_environment(kept.shown[1], kept.shown[0], "the environment after")


def test_a_word_of_whatever_bytes_reaches_the_program(real, shell):
    word = LINES + ODD_NAME
    real.starts_with(WORD=word)
    typed = shell.says.word.format("WORD")
    kept = real.keeps([f"module {typed} foo", "status"], err=f"ERROR: Unknown subcommand '{word}'\n{LISTS}".encode())
    same(kept.statuses, ["1"], "the status")


def test_leaves_a_subcommand_that_is_newer_than_it_to_the_program(scripted, shell):
    """Shells live longer than an installation."""
    changes = text(shell.family, {"FOO": "on"})
    for status in (0, 3):
        scripted.stand_in.answer(changes if status == 0 else b"", b"", status)
    kept = scripted.keeps(["show", "module newe 'a  *' b", "status", "show", "ml newer", "status"])
    same(kept.statuses, ["0", "3"], "the statuses")
    same_environment(kept.shown[1], changed(kept.shown[0], {"FOO": "on"}), "the environment after")
    same(scripted.words(), [["newe", "a  *", "b"], ["ml", "newer"]], "the words")


@in_csh
def test_an_alias_of_an_earlier_version_goes_on(scripted, shell):
    scripted.will_load()
    scripted.will_refuse()
    place = f"source '{scripted.prefix}/libexec/ml.csh'"
    alias = f"{place} {shell.init} \\!:*" if shell.title.startswith("tcsh") else f"set _module_words = ( {shell.init} \\!:* ) ; {place}"
    lines = ["alias ml '" + alias.replace("'", '"') + "'", "show", "ml foo/1.0", "show", "ml -nope/1 'a  b'", "status", "ml", "status"]
    scripted.will_answer(0)
    kept = scripted.keeps(lines, err=REFUSAL)
    same(kept.statuses, ["1", "0"], "the statuses")
    same_environment(kept.shown[1], scripted.loaded(kept.shown[0]), "the environment")
    same(scripted.words(), [["ml", "foo/1.0"], ["ml", "-nope/1", "a  b"], ["ml"]], "the words")


def test_helps_and_says_its_version(real):
    kept, done = real.run(["module help", "status", "module --help", "module", "ml help"])
    help_text = done.stdout[: len(done.stdout) // 4]
    same(done.stderr, b"", "standard error")
    same(done.stdout, help_text * 4, "the usage, four times")
    true(help_text.startswith(b"usage: module SUBCOMMAND"), "a usage is written")
    for name in ("load", "unload", "switch", "purge", "list", "avail", "show", "whatis"):
        true(name.encode() in help_text, f"the usage has {name}")
    true(help_text.endswith(pages(real.prefix)), "the usage ends with where the pages are")
    same(kept.statuses, ["0"], "the status")
    kept, done = real.run(["module --version", "status", "ml --version"])
    version = done.stdout.split(b"\n")
    same((len(version), version[0], version[2]), (3, version[1], b""), "a line, twice")
    true(version[0].startswith(b"modulecmd "), "it names the program")


def test_helps_about_a_module_by_its_file_and_else_by_what_it_is(real, folder):
    folder.module("foo/1.0", "module-whatis {a foo}\n")
    folder.module("bar/2", "module-whatis {a bar}\nproc ModulesHelp {} {puts stderr {how to use bar}}\n")
    lines = ["module help bar foo", "status", "module --help foo", "ml help bar", "module help nope/1", "status"]
    kept, done = real.run(lines)
    more = b'"module show NAME" says what a module does. Manual pages:\n' + pages(real.prefix)
    described = b"foo/1.0: a foo\n" + more
    refusal = f"ERROR: {wording(42, 'nope/1')}\n".encode()
    said = b"how to use bar\n" + described + described + b"how to use bar\n" + refusal
    same(done.stderr, said, "standard error")
    same((done.stdout, kept.statuses), (b"", ["0", "1"]), "standard output and the statuses")


def test_names_pages_that_man_finds(real):
    _, done = real.run(["module help"])
    found = [line.strip() for line in done.stdout.decode().split("\n") if line.startswith("  man -M ")]
    same([line.split()[-1] for line in found], ["module", "modulefile"], "the pages")
    for line, name in zip(found, ("man1/module.1", "man5/modulefile.5")):
        true(content(os.path.join(line.split("'")[1], name)), f"the file of {line}")
        if shutil.which("man"):
            _, done = real.run([f"{line} | /bin/cat"])
            same(done.stderr, b"", f"what {line} says")
            true(line.split()[-1].upper().encode() in done.stdout, f"the page that {line} shows")


# What is typed, and the words that the program is given behind `ml`.
SHORT = {
    "ml": [],
    "ml foo bar/1": ["foo", "bar/1"],
    "ml -foo -bar": ["-foo", "-bar"],
    "ml foo -bar -b-c baz": ["foo", "-bar", "-b-c", "baz"],
    "ml -'a  b' foo -c": ["-a  b", "foo", "-c"],
    "ml --auto foo": ["--auto", "foo"],
    "ml - foo": ["-", "foo"],
    "ml purge": ["purge"],
    "ml avail-x": ["avail-x"],
}


def test_ml_hands_on_its_words(scripted):
    scripted.will_answer(*[3] * len(SHORT))
    kept = scripted.keeps([part for line in SHORT for part in (line, "status")])
    same(kept.statuses, ["3"] * len(SHORT), "the statuses")
    same(scripted.words(), [["ml", *words] for words in SHORT.values()], "the words")


def test_ml_lists_loads_and_unloads(real):
    """A mixed call is all or nothing; of names that are no modules' nothing is unloaded."""
    for name in ("foo/1.0", "bar/1", "b-c/1", "baz/3", "avail-x/1"):
        real.folder.module(name, "")
    steps = {
        "ml": None,
        "ml foo bar/1": "foo/1.0:bar/1",
        "ml -foo -bar": None,
        "ml bar b-c": "bar/1:b-c/1",
        "ml foo -bar -b-c baz": "foo/1.0:baz/3",
        "ml -foo nope": "foo/1.0:baz/3",
        "ml -baz/30 bar": "foo/1.0:baz/3:bar/1",
        "ml -ba bar": "foo/1.0:baz/3:bar/1",
        "ml -foo bar --force": "foo/1.0:baz/3:bar/1",
        "ml purge": None,
        "ml avail-x": "avail-x/1",
    }
    said = f"No Modulefiles Currently Loaded.\nERROR: {wording(42, 'nope')}\n".encode()
    said += b"'ba' isn't loaded, but 'baz/3' is.\nERROR: '--force' is no option here\n" + FORCED.encode()
    kept = real.keeps([part for line in steps for part in (line, "status", "show")], err=said)
    refused = ("ml -foo nope", "ml -foo bar --force")
    same(kept.statuses, ["1" if line in refused else "0" for line in steps], "the statuses")
    found = [shown.get(b"LOADEDMODULES") for shown in kept.shown]
    same(list(zip(steps, found)), [(line, it and it.encode()) for line, it in steps.items()], "what is loaded")


def test_ml_unloads_and_loads_where_PATH_leads_nowhere(scripted, shell):
    scripted.will_answer(0, 3)
    lost = shell.says.sets.format("PATH", "/nowhere")
    scripted.keeps([lost, "ml bar -'a  b' foo -c", shell.may_fail("ml -foo bar"), "show"])
    same(scripted.words(), [["ml", "bar", "-a  b", "foo", "-c"], ["ml", "-foo", "bar"]], "the words")


def test_leaves_reports_on_standard_error_away_from_a_terminal(real):
    path = real.folder.module("a/1", "module-whatis {an a}\n")
    report = os.fsencode(path) + b":\nmodule-whatis {an a}\n"
    lines = ["module show a", "module display a", "module whatis a", "module list", "ml", "status"]
    kept = real.keeps(lines, err=report * 2 + b"a/1: an a\n" + b"No Modulefiles Currently Loaded.\n" * 2)
    same(kept.statuses, ["0"], "the status")


COMMANDS = (
    "load foo", "unload foo", "switch foo", "purge", "list", "show foo", "whatis foo", "nope", "avail -x", "add foo",
    "rm foo", "swap a b", "display foo", "del foo", "remove foo",
)  # fmt: skip

# What the program says of some of them.
NOT_FOUND = f"ERROR: {wording(42, 'foo')}\n".encode()
SAID = {
    "show foo": NOT_FOUND,
    "display foo": NOT_FOUND,
    "whatis foo": NOT_FOUND,
    "list": b"No Modulefiles Currently Loaded.\n",
    "avail -x": b"ERROR: 'avail' has no option '-x'\n" + OPTIONS.encode(),
    "nope": b"ERROR: Unknown subcommand 'nope'\n" + LISTS.encode(),
}


# `ml` loads what isn't its own word.
WAYS = {
    "redirected": "module {{}} {} '{{}}'",
    "piped": "module {{}} {} /bin/cat > '{{}}'",
    "short": "ml {{}} {} '{{}}'",
}


def ways(shell, folder, commands):
    """A line for each command and way, and the file that has what it says."""
    for number, command in enumerate(commands):
        for way, line in WAYS.items():
            path = os.path.join(folder.path, f"{number}.{way}".encode()).decode()
            where = shell.says.to_pipe if way == "piped" else shell.says.to_file
            yield number, command, way, line.format(where).format(command, path), path


@with_redirections
def test_lets_every_subcommand_be_redirected_and_piped(scripted, shell):
    lines, wanted = [], {}
    for number, _, way, line, path in ways(shell, scripted.folder, COMMANDS):
        lines.append(line)
        wanted[path] = f"said {number} {way}\n".encode()
        scripted.stand_in.answer(b"", wanted[path], 1 if number % 2 else 0)
    kept, done = scripted.run(["show", *lines, "show"])
    same((done.stdout, done.stderr), (b"", b""), "what is written elsewhere")
    for path, err in wanted.items():
        same(content(path), err, f"what {path.split('/')[-1]} holds")
    same_environment(kept.shown[1], kept.shown[0], "the environment after")


@with_redirections
def test_lets_reports_and_refusals_be_redirected_and_piped(real, shell):
    lines, wanted = [], {}
    for _, command, way, line, path in ways(shell, real.folder, SAID):
        if not (command == "nope" and way == "short"):
            lines.append(line)
            wanted[path] = SAID[command]
    kept, done = real.run(["show", *lines, "show"])
    same((done.stdout, done.stderr), (b"", b""), "what is written elsewhere")
    for path, err in wanted.items():
        same(content(path), err, f"what {path.split('/')[-1]} holds")
    same_environment(kept.shown[1], kept.shown[0], "the environment after")


@with_redirections
def test_lets_the_usage_be_redirected_and_piped(real):
    path = real.folder.path.decode()
    real.run([f"module help > '{path}/help'", f"module --version | /bin/cat > '{path}/version'"])
    true(content(f"{path}/help").startswith(b"usage: module"), "the usage is there")
    true(content(f"{path}/version").startswith(b"modulecmd "), "the version is there")


def name_of(line):
    """The name in a line of what a shell shows of itself."""
    return line.split(b"=")[0].split(b"\t")[0].split(b" ")[0]


class Looks:
    """What a shell shows of itself at some points of a script, without what changes on its own."""

    def __init__(self, shell, folder):
        asked = {"sh": ["set", "alias", "set +o"], "csh": ["set", "alias"], "fish": ["set --names", "bind --user"]}
        self.asked = asked[shell.family] + (["setopt", "functions +"] if shell.init == "zsh" else [])
        self.path = folder.path.decode()

    def lines(self, name):
        """The lines that keep it under a name."""
        return [f"{line} > '{self.path}/{name}.{place}'" for place, line in enumerate(self.asked)]

    def found(self, name):
        shown = b"\n".join(content(f"{self.path}/{name}.{place}") for place in range(len(self.asked)))
        return [line for line in shown.split(b"\n") if name_of(line) not in VOLATILE]

    def new(self, before, after):
        """What there is under one name that wasn't under another."""
        return [line for line in self.found(after) if line not in self.found(before)]


def test_leaves_nothing_behind(scripted, shell):
    scripted.will_load()
    scripted.will_refuse()
    scripted.will_unload()
    scripted.will_load()
    scripted.will_unload()
    looks = Looks(shell, scripted.folder)
    # Whatever the shell makes of its own on the way is there before.
    warm = [*looks.lines("first"), "/usr/bin/env true", *looks.lines("first"), shell.may_fail("/usr/bin/env false")]
    # What the files set otherwise on the way.
    settings = ["set backslash_quote"] if shell.title.startswith("tcsh") else []
    commands = ["ml foo/1.0", shell.may_fail("ml nope/1"), "ml -foo", "module load foo/1.0", "module rem foo"]
    commands += ["module use /", "module unu /", shell.may_fail("module is-loaded"), shell.may_fail("module spider")]
    scripted.will_answer(0, 0, 1)
    scripted.stand_in.answer(b"", b"ERROR: Unknown subcommand 'spider'\n", 1)
    lines = [*settings, *looks.lines("before"), *commands, *looks.lines("after")]
    said = REFUSAL + b"ERROR: Unknown subcommand 'spider'\n"
    scripted.keeps(lines, before=[*warm, *looks.lines("start")], err=said)
    same(looks.new("before", "after"), [], "what a command leaves")
    same(looks.new("after", "before"), [], "what a command takes away")
    names = [name_of(line) for line in looks.new("start", "before")]
    # (bash and zsh show functions, too.)
    same([name for name in names if name.startswith(b"_module_")], [b"_module_answer"] if shell.title in ("bash", "zsh") else [], "what the init file leaves")


@pytest.fixture
def site(scripted):
    """Writes the site's file of directories, which is put back."""
    own = os.path.join(scripted.prefix, "etc", "modulespath")
    before = content(own)

    def write(data):
        with open(own, "wb") as file:
            file.write(data)

    yield write
    write(before)


def test_takes_the_site_s_directories_where_MODULEPATH_is_unset(scripted, shell, site):
    names = os.path.join(scripted.folder.path, b"names").decode()
    for given, start, wanted in (
        (b"# a\n/a b/c\n\n  /d # e\n\t/f\t\n#/g\n/h", None, b"/a b/c:/d:/f:/h"),
        (b"# a\n\n   # b\n", None, None),
        (b"/a\n", "/x:/y", b"/x:/y"),
        (b"/a\n", "", b""),
    ):
        scripted.env.pop(b"MODULEPATH", None)
        scripted.starts_with(MODULEPATH=start)
        site(given)
        (shown,) = scripted.keeps(["show", f"{shell.says.names} > '{names}'"]).shown
        left = [line for line in content(names).split(b"\n") if line.startswith((b"_module_", b"directories"))]
        same([line for line in left if b"=" in line or b"\t" in line or shell.family == "fish"], [], "what is left")
        same(shown.get(b"MODULEPATH"), wanted, f"MODULEPATH of {given!r} over {start!r}")
        same([name for name in shown if b"LOADED" in name or b"_LMFILES_" in name], [], "the loaded lists")


@pytest.fixture
def no_program(scripted):
    """The program is gone until the case ends."""
    program = os.path.join(scripted.prefix, "libexec", "module")
    os.rename(program, program + ".away")
    yield
    os.rename(program + ".away", program)


@pytest.mark.usefixtures("no_program")
def test_says_in_one_line_that_the_program_is_gone(scripted):
    kept, done = scripted.run(["show", "module load foo/1.0", "status", "show"])
    same(done.stdout, b"", "standard output")
    true(b"libexec/module" in done.stderr, "the program is named")
    true(kept.statuses != ["0"], "the status isn't 0")
    same_environment(kept.shown[1], kept.shown[0], "the environment")


@with_functions
def test_works_in_functions_and_subshells(scripted, shell):
    scripted.will_load()
    scripted.will_unload()
    scripted.will_load()
    inside = shell.says.function.format
    lines = ["show", inside("module load foo/1.0"), "show", inside("module unload foo"), "show"]
    inner = f"{scripted.folder.path.decode()}/inner"
    if shell.family == "sh":
        lines += [f"(module load foo/1.0; /usr/bin/env -0 > '{inner}')", "show"]
    kept = scripted.keeps(lines)
    same_environment(kept.shown[1], scripted.loaded(kept.shown[0]), "the environment in a function")
    same_environment(kept.shown[2], kept.shown[0], "the environment behind it")
    if shell.family == "sh":
        true(b"FOO=on\0" in content(inner), "a subshell has it")
        same_environment(kept.shown[3], kept.shown[0], "the environment behind a subshell")


def loads_behind(session, *lines):
    """The module is loaded behind lines that come in place of the README's."""
    session.will_load()
    lines = [*lines, "show", "module load foo/1.0", "show"]
    before, between = session.shell.keeps(session.folder, session.env, lines, None).shown
    same_environment(between, session.loaded(before), "the environment between")


@with_functions
def test_can_be_sourced_in_a_function(scripted, shell):
    loads_behind(scripted, shell.says.function.format(shell.source(scripted.prefix)))


@in_shells(lambda it: it.family != "fish")
def test_takes_its_init_file_from_the_one_for_etc_profile_d(scripted, shell):
    link = os.path.join(scripted.folder.path, b"modulecmd.sh").decode()
    os.symlink(f"{scripted.prefix}/init/profile.{shell.family}", link)
    loads_behind(scripted, f"{shell.says.source} '{link}'")
    name = {"bash as sh": "bash", "tcsh as csh": "tcsh"}.get(shell.title, shell.init)
    same(scripted.stand_in.words(), [[name, "load", "foo/1.0"]], "the words")


@in_shells(lambda it: it.family == "sh" and not it.title.startswith("bash"))
def test_takes_its_own_init_file_where_another_shell_has_exported_its_version(scripted, shell):
    scripted.starts_with(BASH_VERSION="5.2.15(1)-release", **({} if shell.title == "zsh" else {"ZSH_VERSION": "5.9"}))
    scripted.will_load()
    lines = [f"{shell.says.source} '{scripted.prefix}/init/profile.sh'", "module load foo/1.0"]
    shell.keeps(scripted.folder, scripted.env, lines, None)
    same(scripted.stand_in.words(), [[shell.init, "load", "foo/1.0"]], "the words")


@in_shells(lambda it: it.family == "fish")
def test_refuses_a_text_that_read_doesn_t_take_whole(scripted):
    scripted.will_load()
    lines = ["set -g fish_read_limit 4", "show", "module load foo/1.0", "status", "show"]
    kept, done = scripted.run(lines)
    same(done.stderr, b"ERROR: fish doesn't read the whole text (fish_read_limit)\n", "what is said")
    same(kept.statuses, ["1"], "the status")
    same_environment(kept.shown[1], kept.shown[0], "the environment after")


@pytest.fixture
def after(real):
    """The site has a program that is run behind commands. It writes its words to a file, whose path is given, and fails."""
    written = os.path.join(real.folder.path, b"written").decode()
    place = os.path.join(real.prefix, "etc", "after")
    with open(place, "w") as file:
        file.write(f"#!/bin/sh\necho hook; echo hook >&2; printf '%s;' \"$(IFS=,; echo \"$*\")\" >> '{written}'; exit 3\n")
    os.chmod(place, 0o755)
    yield written
    os.remove(place)


def test_runs_the_site_s_program_behind_each_command_that_changed_what_is_loaded(real, shell, after):
    """It is given the subcommand's own name, and the words as they are."""
    for name in ("foo/1.0", "it's!*/1"):
        real.folder.module(name, "")
    lines = ["show", "module load foo/1.0", "status", shell.may_fail("module load nope/1")]
    lines += ["module load foo/1.0", "module list", "module use /", "module unuse /"]
    odd = "'it'\\''s'\\!'*'" if shell.family == "csh" else "\"it's!*\""
    others = ["module del foo", "ml foo", f"ml -foo {odd}"]
    others = [*others, "module pu", "module reload", "show"]
    lines += [part for line in others for part in ("sleep 0.2", line)]
    kept = real.keeps(lines, err=REFUSAL + b"Currently Loaded Modulefiles:\nfoo/1.0\n")
    same(kept.statuses, ["0"], "the status")
    same_environment(kept.shown[1], kept.shown[0], "the environment after")
    given = ["load,foo/1.0", "unload,foo", "load,foo", "unload,foo", "load,it's!*", "purge"]
    wanted, until = sorted(f"{shell.init},{it}" for it in given), time.monotonic() + 10

    def found():
        return sorted(content(after).decode().split(";")[:-1])

    while found() != wanted and time.monotonic() < until:
        time.sleep(0.02)
    same(found(), wanted, "what the program was given")


@pytest.fixture
def initial(real):
    """Writes the collection of the site, which is taken away."""
    place = os.path.join(real.prefix, "etc", "initial")

    def write(text):
        with open(place, "w") as file:
            file.write(text)

    yield write
    os.remove(place)


def test_loads_the_site_s_collection_where_nothing_was_ever_loaded(real, shell, initial):
    real.sets({"FOO": "on"})
    initial("module load foo/1.0\n")
    for more in ({}, {"ARGV0": "/odd/name"}):
        # (by ARGV0 zsh calls programs)
        real.starts_with(**more)
        (shown,) = real.keeps(["show"]).shown
        same((shown[b"FOO"], shown[b"LOADEDMODULES"]), (b"on", b"foo/1.0"), "what a login has")
    real.starts_with(LOADEDMODULES="bar/1", _LMFILES_="/m/bar/1")
    (shown,) = real.keeps(["show"]).shown
    same((shown.get(b"FOO"), shown[b"LOADEDMODULES"]), (None, b"bar/1"), "what a child shell has")
    real.starts_with(LOADEDMODULES="", _LMFILES_="")
    (shown,) = real.keeps(["show"]).shown
    same((shown.get(b"FOO"), shown[b"LOADEDMODULES"]), (None, b""), "what is there where the list is set and empty")
    for name in (b"LOADEDMODULES", b"_LMFILES_"):
        del real.env[name]
    initial("module load foo/1.0\nmodule load nope\n")
    kept, done = real.run(["show", "module load foo/1.0", "show"])
    same(done.stderr, f"ERROR: {wording(42, 'nope')}\n".encode(), "what is said")
    same([it.get(b"FOO") for it in kept.shown], [None, b"on"], "what a start and a load behind it have")


@in_bash
def test_has_both_functions_in_scripts_by_BASH_ENV(scripted):
    scripted.starts_with(BASH_ENV=f"{scripted.prefix}/init/bash")
    loads_behind(scripted)


@in_bash
def test_hands_both_functions_on_to_child_shells(scripted):
    scripted.will_load()
    scripted.will_answer(0)
    inner = "module load foo/1.0 && ml --version > /dev/null && printf %s $FOO"
    scripted.keeps([f"bash --norc -c '{inner}'"], out=b"on")


@in_csh
def test_works_in_loops_and_choices(scripted):
    for _ in range(3):
        scripted.will_load()
        scripted.will_unload()
    block = ["foreach n ( 1 2 )", "module load foo/1.0", "module unload foo", "end", "if ( 1 ) then"]
    before, after = scripted.keeps(["show", *block, "module load foo/1.0", "endif", "show"]).shown
    same_environment(after, scripted.loaded(before), "the environment")
