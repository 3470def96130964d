"""What each shell completes at a terminal: over the script that stands in for the program, and what is added over the
program."""

import os

from tests.lib.harness import same, true
from tests.shells.shells import content, in_shells

where_completed = in_shells(lambda it: it.completes)

# The modules that can be loaded, in two directories.
MODULES = {"m": ("bar/1", "bar/2", "foo/1.0", "odd$(>HERE)/1", "it's!/1"), "n": ("only/1",)}

# What is typed, with tabulators, and what the program is given.
TYPED = (
    ("module unlo\tfoo/1.0", ["unload", "foo/1.0"]),
    ("module load fo\t", ["load", "foo/1.0"]),
    ("module add on\t", ["add", "only/1"]),
    ("module unload ba\t", ["unload", "baz/3"]),
    ("module rm fo\t", ["rm", "foo/1.0"]),
    ("module switch baz\ton\t", ["switch", "baz/3", "only/1"]),
    ("module load bar/1 fo\t", ["load", "bar/1", "foo/1.0"]),
    ("module load bar/2\t", ["load", "bar/2"]),
    ("module load od\t", ["load", "odd$(>HERE)/1"]),
    ("ml only\t", ["ml", "only/1"]),
    ("ml -ba\t", ["ml", "-baz/3"]),
    ("module load it\t", ["load", "it's!/1"]),
    ('module load "fo\t', ["load", "foo/1.0"]),
    ("module load 'od\t", ["load", "odd$(>HERE)/1"]),
    ("module load odd\\$\t", ["load", "odd$(>HERE)/1"]),
)

# What bash completes behind an opened quote or a backslash; the names are quoted by the completion itself.
IN_QUOTES = (
    ('module load "\tfo\t', ["load", "foo/1.0"]),
    ('module load "od\t', ["load", "odd$(>HERE)/1"]),
    ('module load "odd\\$\t', ["load", "odd$(>HERE)/1"]),
    ("module load o\\dd\t", ["load", "odd$(>HERE)/1"]),
    ('module load "it\t', ["load", "it's!/1"]),
    ("module load 'it\t", ["load", "it's!/1"]),
    ("module load it\\'\t", ["load", "it's!/1"]),
    ("module load f\"oo/\t", ["load", "foo/1.0"]),
    ("module load f'o'\t", ["load", "foo/1.0"]),
    ("module unload 'ba\t", ["unload", "baz/3"]),
    ('module "unlo\tfoo/1.0', ["unload", "foo/1.0"]),
    ('ml -"ba\t', ["ml", "-baz/3"]),
    ("ml 'only\t", ["ml", "only/1"]),
)


def offers(session):
    """Writes the modules that can be loaded, and has MODULEPATH name their directories."""
    top = os.path.join(session.folder.path, b"offered").decode()
    for directory, names in MODULES.items():
        for name in names:
            path = os.path.join(top, directory, name)
            os.makedirs(os.path.dirname(path), exist_ok=True)
            with open(path, "w") as file:
                file.write("#%Module\n")
    session.starts_with(MODULEPATH=":".join(os.path.join(top, directory) for directory in MODULES))


@where_completed
def test_completes(scripted, shell, start):
    scripted.starts_with(LOADEDMODULES="foo/1.0:baz/3")
    offers(scripted)
    at = start(scripted, before=shell.before_completion)
    for number, (keys, words) in enumerate([*TYPED, *(IN_QUOTES if shell.title == "bash" else ())]):
        scripted.stand_in.answer()
        at.types_completing(keys)
        at.until(lambda number=number: len(scripted.words()) > number, f"the command of {keys!r}")
        same(scripted.stand_in.words()[number], [shell.init, *words], f"the words of {keys!r}")
        at.settle(0.1)
    same(os.listdir(at.place), ["ready"], "the files that completion makes")


def completes_behind(scripted, start, name, rows):
    """What is typed behind the name of a program, with a tabulator at its end, is completed to these words. A slash at
    the end of one doesn't count: zsh takes it away where the line ends."""
    shell = scripted.shell
    at = start(scripted, before=shell.before_completion)
    program, given = os.path.join(at.place, "bin", name), at.at("given")
    there = os.path.dirname(program)
    os.mkdir(there)
    with open(program, "w") as file:
        file.write(f"#!/bin/sh\nprintf '%s,' \"$@\" >> '{given}'\n")
    os.chmod(program, 0o755)
    adds = {"sh": "PATH=$PATH:{}", "csh": "setenv PATH $PATH\\:{}", "fish": "set -gx PATH $PATH {}"}[shell.family]
    at.types(adds.format(there))
    at.settle(0.1)
    wanted = b""
    for keys, words in rows:
        at.types_completing(f"{name} {keys}\t")
        wanted += words
        at.until(lambda wanted=wanted: content(given).replace(b"/,", b",") == wanted, f"the words of {keys!r}")
        at.settle(0.1)


@where_completed
def test_completes_the_name_of_a_shell_behind_modcheck_and_nothing_behind_that(scripted, start):
    rows = (("tc", b"tcsh,"), ("fi", b"fish,"), ("bash rea", b"bash,rea,"))
    completes_behind(scripted, start, "modcheck", rows)


@where_completed
def test_completes_options_and_directories_behind_modaudit(scripted, start):
    options = (("--q", b"--quiet,"), ("--j", b"--json,"), ("--h", b"--help,"), ("--w", b"--without,"))
    rows = (*options, ("bi", b"bin,"), ("--quiet bi", b"--quiet,bin,"))
    completes_behind(scripted, start, "modaudit", rows)


@where_completed
def test_completes_options_and_files_behind_modport(scripted, start):
    rows = (("--o", b"--one-version,"), ("--ho", b"--host,"), ("--check bi", b"--check,bin,"), ("bi", b"bin,"))
    completes_behind(scripted, start, "modport", rows)


@in_shells(lambda it: it.before_completion)
def test_completes_where_the_system_of_completions_starts_later(scripted, shell, start):
    offers(scripted)
    at = start(scripted, behind=shell.before_completion)
    scripted.stand_in.answer()
    at.types_completing("module load fo\t")
    at.until(scripted.words, "the command")
    same(scripted.stand_in.words(), [[shell.init, "load", "foo/1.0"]], "the words")


@where_completed
def test_completes_nothing_and_says_nothing_where_nothing_can_be_read(scripted, shell, start):
    scripted.starts_with(MODULEPATH=f"{os.fsdecode(scripted.folder.path)}/{'x' * 300}")
    at = start(scripted, before=shell.before_completion)
    scripted.stand_in.answer()
    at.settle(0.2)
    at.seen = b""
    at.types_completing("module load x \t")
    at.until(scripted.words, "the command")
    same(scripted.stand_in.words(), [[shell.init, "load", "x"]], "the words")
    true(b"ERROR" not in at.seen and b"modulecmd" not in at.seen, f"nothing is said: {at.seen!r}")


# How the function that takes the words of a line is replaced by one that writes them to a file.
ECHOES = {
    "sh": 'module() {{ echo "$@" > {0}; }}',
    "csh": "alias module 'echo \\!* > {0}'",
    "fish": "function module; echo $argv > {0}; end",
}


@where_completed
def test_completes_what_is_added(real, shell, modules, start):
    config = os.path.join(real.folder.path, b"home/.config/modulecmd").decode()
    os.makedirs(config)
    for name in ("first", "other"):
        with open(os.path.join(config, name), "w"):
            pass
    real.starts_with(HOME=os.path.dirname(os.path.dirname(config)))
    at = start(real, behind=shell.before_completion)
    at.types_completing("module savesh\tfir\t")
    at.until(lambda: f"{config}/first:".encode() in at.seen, "the collection that is shown")
    os.mkdir(at.at("only"))
    # What is typed, with tabulators, and the words that the function is given.
    typed = {
        "module is-av\tmp\t nothing": "is-avail mpi/1 nothing",
        f"module unuse {modules.decode()[:-1]}\t nothing": f"unuse {modules.decode()} nothing",
    }
    if shell.title != "tcsh":
        typed["module use on\t nothing"] = "use only nothing"
    for number, (keys, wanted) in enumerate(typed.items()):
        kept = at.at(number)
        at.types(ECHOES[shell.family].format(kept))
        at.settle(0.2)
        at.types_completing(keys)
        at.until(lambda kept=kept: content(kept).endswith(b"\n"), f"the words of {keys!r}")
        # zsh takes the slash of a directory away where a blank follows.
        same(" ".join(content(kept).decode().replace("only/", "only").split()), wanted, f"the words of {keys!r}")
