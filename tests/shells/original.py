"""What the functions of shells add does what Environment Modules does, where that is installed or unpacked."""

import glob
import os
import re
import subprocess

import pytest

from tests.lib.harness import same, true
from tests.shells.changes import Changes
from tests.shells.shells import content, without_own

TOP = os.path.dirname(os.path.dirname(os.path.dirname(os.path.abspath(__file__))))

# What is done by both, and after how much of it the two may differ in what follows.
BOTH = (
    ["use", "a", "./b/"],
    ["use", "--append", "c d", "a/../nope"],
    ["use", "-x"],
    ["use", ""],
    ["unuse", "b/", "never"],
    ["unuse", "-x"],
    ["use", "b"],
    ["is-loaded"],
    ["is-loaded", "foo"],
    ["is-avail", "foo"],
    ["is-avail", "nope"],
    ["load", "foo/1.0", "bar"],
    ["is-loaded"],
    ["is-loaded", "foo"],
    ["is-loaded", "nope", "bar/1"],
    ["is-loaded", "nope"],
    ["is-avail", "nope", "foo"],
    ["is-avail"],
    ["save"],
    ["save", "x y"],
    ["use", "b/more"],
    ["switch", "foo/2.0"],
    ["restore"],
    ["save", "a", "b"],
    ["saveshow", "nope"],
    ["saverm", "nope"],
    ["restore", "nope"],
    ["purge"],
    ["restore", "x y"],
    ["saverm", "x y"],
    ["restore", "x y"],
    ["reload"],
    ["unuse", "b", "c d", "nope"],
    ["purge"],
    ["unuse", "a", "{start}"],
    ["use", "b"],
)

# Commands as a user types them, by the function of either: other names, beginnings and options.
CHAIN = (
    "av", "avail foo", "li", "list -t", "is-avail foo", "is-avail nope", "load foo/1.0", "load bar", "li", "is-loaded foo",
    "is-loaded nope", "whatis foo", "wh", "keyword foo", "apropos A", "display foo/1.0", "show bar", "sw foo foo/2.0",
    "switch foo/1.0", "swap foo/2.0", "is-loaded foo/2.0", "load foo/2.0", "load nope", "add baz", "unload bar", "rm bar",
    "del baz", "remove foo", "load --auto baz", "unload --auto foo", "pu", "load foo/1.0 bar", "use a", "use -a b",
    "use --append 'c d'", "unuse a", "unuse never", "save", "save one", "savelist", "saveshow one", "restore",
    "restore one", "purge", "restore one", "reload", "rel", "saverm one", "saverm one", "restore one", "av -t", "avail -d",
    "avail -L", "avail --latest foo", "avail -C oo", "avail -i FOO", "avail -t foo nope", "list", "list -t foo", "purge",
    "load", "unload", "switch", "help", "-V", "--version", "-h", "-t list", "-t avail foo", "spider", "use",
)  # fmt: skip

# Beginnings that mean a subcommand here alone: any that begins the names of one will do (module(1)).
MORE = ("is-l foo", "savel", "unu never")

# Where the program of Environment Modules can be.
PLACES = ("/usr/lib/*/modulecmd.tcl", f"{TOP}/build/bench/environment-modules/usr/lib/*/modulecmd.tcl")

# The programs of ours that do what is added.
PROGRAMS = {
    "libexec/module": ("use", "unuse", "is-loaded", "is-avail", "save", "saverm", "saveshow", "restore", "reload"),
}


# The names of subcommands that both have, each with the original's own name for it.
NAMES = {
    "load": "load", "add": "load", "unload": "unload", "rm": "unload", "remove": "unload", "del": "unload",
    "switch": "switch", "swap": "switch", "purge": "purge", "reload": "reload", "list": "list", "avail": "avail",
    "show": "display", "display": "display", "whatis": "whatis", "keyword": "search", "apropos": "search",
    "is-loaded": "is-loaded", "is-avail": "is-avail", "use": "use", "unuse": "unuse", "save": "save",
    "restore": "restore", "savelist": "savelist", "saveshow": "saveshow", "saverm": "saverm", "help": "help",
}  # fmt: skip


@pytest.fixture(scope="session")
def original():
    """The path of their program."""
    found = [path for place in PLACES for path in sorted(glob.glob(place))]
    if not found:
        pytest.skip("Environment Modules is neither installed nor unpacked")
    return found[0]


@pytest.fixture(scope="session")
def theirs(original):
    """Gives their command of these words."""
    return lambda words: [original, "bash", *words]


def their_meanings(original, words):
    """What each word means there: their own name of a subcommand, or nothing."""
    procedure = re.search(r"^proc parseModuleCommandName .*?^}$", content(original).decode(), re.MULTILINE | re.DOTALL)
    lines = ["proc reportDebug args {}", procedure[0]]
    lines += [f"puts [lrange [parseModuleCommandName {{{word}}} help] 0 1]" for word in words]
    done = subprocess.run(["tclsh"], input="\n".join(lines), capture_output=True, text=True, check=True)
    answers = [line.split() for line in done.stdout.splitlines()]
    return [name if is_one == "1" else None for name, is_one in answers]


def test_a_beginning_means_what_it_means_there(product, original):
    """Each beginning of a name that means a subcommand there means the same here. Here more of them do: each that only
    one subcommand has."""
    words = sorted({name[:length] for name in NAMES for length in range(1, len(name) + 1)})
    means = os.path.join(product, "libexec", "module")
    for word, theirs in zip(words, their_meanings(original, words), strict=True):
        done = subprocess.run([means, "sh", "subcommand", word], env={}, capture_output=True, text=True, check=False)
        ours = NAMES[done.stdout.rstrip("\n")] if done.returncode == 0 else None
        subcommands = {name for one, name in NAMES.items() if one.startswith(word)}
        only = NAMES.get(word) or (subcommands.pop() if len(subcommands) == 1 else None)
        same(ours, only, f"what {word} means")
        true(theirs in (None, ours), f"{word} means {theirs} there, and {ours} here")


@pytest.fixture
def ours(product):
    """Gives our command of these words."""

    def command(words):
        program = next((name for name, added in PROGRAMS.items() if words[0] in added), "bin/modulecmd")
        return [os.path.join(product, program), "bash", *words]

    return command


@pytest.fixture
def here(folder, product):
    """Modules, and directories to use."""
    for name, body in (
        ("foo/1.0", "setenv FOO 1\nmodule-whatis {a foo}\n"),
        ("foo/2.0", "setenv FOO 2\n"),
        ("bar/1", "setenv BAR 1\n"),
        ("baz/3", "prereq foo\nprepend-path PATH /opt/baz\n"),
    ):
        folder.module(name, body)
    for name in ("a", "b", "c d"):
        os.mkdir(os.path.join(folder.path.decode(), name))
    return Changes(folder, product)


def environment_after(command, env, place):
    """The environment that the text of a command makes, in a shell, and its status."""
    lines = 'text=$("$@") && eval "$text"; status=$?; command -p env -0; exit $status'
    done = subprocess.run(["bash", "-c", lines, "bash", *command], env=env, cwd=place, capture_output=True, check=False)
    return without_own(done.stdout), done.returncode


def kept(env):
    return {name: env.get(name) for name in (b"MODULEPATH", b"LOADEDMODULES", b"_LMFILES_", b"FOO", b"BAR")}


def test_what_is_added_does_what_the_original_does(here, folder, ours, theirs):
    first, second = here.env, dict(here.env)
    for given in BOTH:
        words = [word.format(start=here.start) for word in given]
        first, status = environment_after(ours(words), first, folder.path)
        second, wanted = environment_after(theirs(words), second, folder.path)
        same((status, kept(first)), (wanted, kept(second)), f"status and environment behind {words}")


def test_each_reads_the_collections_of_the_other(here, folder, ours, theirs):
    place = folder.path.decode()
    env, _ = environment_after(ours(["use", f"{place}/c d", f"{place}/it's {{$x}};"]), here.env, place)
    env, _ = environment_after(ours(["load", "foo/1.0", "bar"]), env, place)
    same(environment_after(ours(["save", "mine"]), env, place)[1], 0, "a save")
    same(environment_after(theirs(["save", "theirs"]), env, place)[1], 0, "a save of the original")
    with open(f"{here.home}/.module/mine", "wb") as file:
        file.write(content(f"{here.home}/.config/modulecmd/mine"))
    for name in ("mine", "theirs"):
        for command in (ours(["restore", name]), theirs(["restore", name])):
            found, status = environment_after(command, here.env, place)
            same((status, kept(found)), (0, kept(env)), f"what {command[0]} restores of {name}")


def behind_each(function, commands, env, place):
    """What a bash that has a function of one of both has behind each of some commands: a line each."""
    shown = '"$?" "${LOADEDMODULES-none}" "${FOO-none}" "${BAR-none}" "${MODULEPATH-none}" "$PATH"'
    lines = [function, *(f"module {it} > /dev/null 2>&1; printf '%s|' {shown}; echo" for it in commands)]
    done = subprocess.run(["bash", "-c", "\n".join(lines)], env=env, cwd=place, capture_output=True, check=False)
    return done.stdout.decode().splitlines()


def test_a_chain_of_commands_does_what_it_does_there(here, folder, product, original):
    """What is different is in module(1)."""
    true(len(CHAIN) > 60, f"{len(CHAIN)} commands")
    found, wanted = [], []
    theirs = f"module() {{ eval \"$(tclsh '{original}' bash \"$@\")\"; }}"
    for lines, function in ((found, f". '{product}/init/bash'"), (wanted, theirs)):
        home = os.path.join(folder.path, b"home", str(len(wanted)).encode() + function[:1].encode())
        os.makedirs(home)
        lines += behind_each(function, CHAIN, {**here.env, b"HOME": home}, folder.path)
    same(len(found), len(CHAIN), "the commands that are done")
    for command, ours, there in zip(CHAIN, found, wanted, strict=True):
        same(ours, there, f"status and environment behind `{command}`")


def test_more_beginnings_mean_a_subcommand_than_there(here, folder, product):
    lines = behind_each(f". '{product}/init/bash'", ("load foo", *MORE), here.env, folder.path)
    same([line.split("|")[0] for line in lines], ["0"] * (1 + len(MORE)), "the statuses")
