"""Automated handling in each shell, and what the functions refuse and pass by: options, and a load without names."""

import pytest

from tests.lib.harness import OF_OPTIONS, OPTIONS, same
from tests.shells.session import changed, same_environment


@pytest.fixture
def needing(real):
    """A shell over the program and a module that needs another one."""
    real.folder.module("gcc/9", "setenv GCC 9\n")
    real.folder.module("mpi/1", "prereq gcc\nsetenv MPI 1\n")
    return real


def loaded(session, before):
    at = session.folder.modules.decode()
    texts = {"GCC": "9", "MPI": "1", "LOADEDMODULES": "gcc/9:mpi/1", "_LMFILES_": f"{at}/gcc/9:{at}/mpi/1"}
    return changed(before, {**texts, "__MODULES_LMPREREQ": "mpi/1&gcc"})


LINES = [
    ("module load --auto mpi", "module unload --auto gcc"),
    ("module add --auto mpi", "module rm --auto gcc"),
    ("module lo --auto mpi", "module remove --auto gcc"),
    ("ml --auto mpi", "ml unload --auto gcc"),
]


@pytest.mark.parametrize("load, unload", LINES)
def test_loads_and_unloads_with_what_is_needed(needing, load, unload):
    said = b"Loading mpi/1 with gcc/9\nUnloading gcc/9 with mpi/1\n"
    kept = needing.keeps(["show", load, "status", "show", unload, "status", "show"], err=said)
    same(kept.statuses, ["0", "0"], "the statuses")
    same_environment(kept.shown[1], loaded(needing, kept.shown[0]), "the environment between")
    same_environment(kept.shown[2], kept.shown[0], "the environment after")


def test_the_variable_automates_each_command(needing):
    needing.starts_with(MODULES_AUTO_HANDLING="1")
    said = b"Loading mpi/1 with gcc/9\nUnloading gcc/9 with mpi/1\nLoading mpi/1 with gcc/9\n"
    kept = needing.keeps(["show", "module load mpi", "status", "show", "module del gcc", "status", "show", "ml mpi"], err=said)
    same(kept.statuses, ["0", "0"], "the statuses")
    same_environment(kept.shown[1], loaded(needing, kept.shown[0]), "the environment between")
    same_environment(kept.shown[2], kept.shown[0], "the environment after")


def test_where_a_modulefile_failed_is_said(needing):
    """It is said also where the module was put in."""
    needing.folder.module("bad/1", "bogus\n")
    needing.folder.module("needs/1", "prereq bad\n")
    at = needing.folder.modules.decode()
    said = f'ERROR: invalid command name "bogus" (line 2)\n  in {at}/bad/1, line 2\n' * 2
    lines = ["module load --auto needs", "status", "ml --auto bad", "status"]
    kept = needing.keeps(lines, err=said.encode())
    same(kept.statuses, ["1", "1"], "the statuses")


def test_without_it_the_program_is_asked_alone(scripted):
    scripted.starts_with(MODULES_AUTO_HANDLING="0")
    scripted.will_answer(0, 0)
    scripted.keeps(["module load foo", "module unload foo"])
    same(scripted.words(), [["load", "foo"], ["unload", "foo"]], "the words")


def test_a_load_without_names_does_nothing(real):
    kept = real.keeps(["show", "module load", "status", "module add", "status", "module load --auto", "status", "show"])
    same(kept.statuses, ["0", "0", "0"], "the statuses")
    same_environment(kept.shown[1], kept.shown[0], "the environment after")


REFUSED = {
    "module load --force foo": "--force",
    "module load -f foo": "-f",
    "module add --no-auto foo": "--no-auto",
    "module unload --force foo": "--force",
    "module rm -f": "-f",
    "module del --force foo": "--force",
    "module switch --force foo": "--force",
    "module swap --auto foo bar": "--auto",
    "module sw -f foo": "-f",
    "module purge --force": "--force",
    "module load '-a  *' foo": "-a  *",
    "ml --force foo": "--force",
    "module load foo --force": "--force",
    "module rm foo bar --auto": "--auto",
    "module switch foo -f bar": "-f",
    "ml foo --force": "--force",
}


def test_options_are_refused_by_name(real):
    lines = [part for line in REFUSED for part in (line, "status")]
    said = "".join(f"ERROR: '{option}' is no option here\n{OF_OPTIONS.get(option, OPTIONS)}" for option in REFUSED.values())
    kept = real.keeps(["show", *lines, "show"], err=said.encode())
    same(kept.statuses, ["1"] * len(REFUSED), "the statuses")
    same_environment(kept.shown[1], kept.shown[0], "the environment after")
