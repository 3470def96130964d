"""Loads and unloads in each shell: the environment before, between and after, byte for byte."""

import os

from tests.lib.examples import wording
from tests.lib.harness import same, true
from tests.shells.session import LINES, MARKS, REFUSAL, changed, same_environment
from tests.shells.shells import in_csh, in_shells
from tests.shells.texts import text, word

BYTES = "".join(chr(number) for number in range(1, 128))

UTF8 = {"TEXT": "é ß € ‰ 漢字 𝄞 \u0301 \u00a0 \ufeff \U0010ffff", "ONE": "é", "END": "x€"}


def round_trip(session, values):
    """A load and an unload of these variables, with the environments and the statuses."""
    session.sets(values)
    session.will_load()
    session.will_unload()
    kept = session.keeps(["show", "module load foo/1.0", "status", "show", "module unload foo", "status", "show"])
    before, between, after = kept.shown
    same_environment(between, session.loaded(before), "the environment between")
    same_environment(after, changed(before, dict.fromkeys(session.values)), "the environment after")
    same(kept.statuses, ["0", "0"], "the statuses")


def long_text(length):
    part = "it's! \\ \"$x\" `y` é;  "
    return (part * (length // len(part) + 1))[: length - 1] + "\\"


def test_loads_and_unloads(either):
    round_trip(either, {"FOO": "on", "MARKS": MARKS})


def test_reads_every_byte_from_1_to_127(either):
    """A variable for each byte alone, one for it twice between letters, and one for all of them."""
    values = {"ALL": BYTES if either.shell.has_newlines else BYTES.replace("\n", "")}
    for byte in values["ALL"]:
        values[f"ALONE_{ord(byte)}"] = byte
        values[f"TWICE_{ord(byte)}"] = f"a{byte}{byte}b"
    round_trip(either, values)


def test_reads_UTF_8(either):
    round_trip(either, UTF8)


def test_reads_what_stands_at_the_end_of_a_value(either):
    """Where quotes and lines end."""
    tails = ["\\", "\\\\", "'", "''", "!", " ", "\t", "\\'", "'\\", "!\\", "`", '"', "$", "$$", "#", "\r", "*", "~"]
    if either.shell.has_newlines:
        tails += ["\n", "\n\n", "\\\n", "'\n", "a\n\nb\n"]
    values = {}
    for number, tail in enumerate(tails):
        values[f"END_{number}"] = "a" + tail
        values[f"ONLY_{number}"] = tail
    round_trip(either, {**values, "EMPTY": ""})


def test_reads_lists_of_directories(either):
    """With each place for an empty element."""
    round_trip(either, {"A_PATH": "/b:/a:/a", "B_LIST": ":/a::/b:", "MANPATH": "/opt/man:", "C_LIST": ":"})


@in_shells(lambda it: it.has_newlines)
def test_reads_texts_of_several_lines(either):
    round_trip(either, {"TEXT": LINES, "EMPTY_LINES": "\n\na\n\n"})


@in_shells(lambda it: it.title != "BSD csh")
def test_reads_a_value_of_100_KB(either):
    round_trip(either, {"LONG": long_text(100_000)})


@in_shells(lambda it: it.title == "BSD csh")
def test_reads_a_text_of_3900_bytes(either):
    round_trip(either, {"LONG": long_text(3000)})


@in_shells(lambda it: not it.title.startswith(("tcsh", "yash")))
def test_reads_UTF_8_in_the_C_locale(either):
    either.starts_with(LANG="C", LC_ALL="C")
    round_trip(either, UTF8)


def test_writes_over_a_value(either):
    either.starts_with(MARKS="a\nb '\"$x`y`\\" if either.shell.has_newlines else "a b '\"$x`y`\\")
    round_trip(either, {"MARKS": MARKS})


def test_changes_nothing_where_a_load_is_refused(either):
    either.will_refuse()
    kept = either.keeps(["show", "module load nope/1", "status", "show"], err=REFUSAL)
    same(kept.statuses, ["1"], "the status")
    same_environment(kept.shown[1], kept.shown[0], "the environment after a refusal")


def test_goes_on_behind_a_refusal(either):
    either.sets({"FOO": "on"})
    either.will_load()
    either.will_refuse()
    either.will_unload()
    kept = either.keeps(
        ["show", "module load foo/1.0", "module load nope/1", "status", "show", "module unload foo/1.0", "show"],
        err=REFUSAL,
    )
    before, between, after = kept.shown
    same(kept.statuses, ["1"], "the status")
    same_environment(between, either.loaded(before), "the environment between")
    same_environment(after, before, "the environment after")


def test_finds_programs_by_PATH(either):
    """PATH itself: a program that only the module's directory has, and the path afterwards."""
    old = os.environ["PATH"]
    there = os.path.join(either.folder.path, b"there").decode()
    os.mkdir(there)
    with open(os.path.join(there, "only-there"), "w") as file:
        file.write(f"#!/bin/sh\necho found > '{there}/found'\n")
    os.chmod(os.path.join(there, "only-there"), 0o755)
    lists = either.lists()
    if either.stand_in:
        either.stand_in.answer(text(either.shell.family, {"PATH": f"{there}:{old}", **lists}))
        either.stand_in.answer(text(either.shell.family, {"PATH": old, **dict.fromkeys(lists)}))
    else:
        either.folder.module("foo/1.0", f"prepend-path PATH {word(there)}\n")
    lines = ["show", "module load foo/1.0", "only-there", "show", "module unload foo", "show"]
    before, between, after = either.keeps(lines).shown
    true(os.path.exists(os.path.join(there, "found")), "the program is found")
    same_environment(between, changed(before, {"PATH": f"{there}:{old}", **lists}), "the environment between")
    same_environment(after, before, "the environment after")


def test_prepends_to_path_variables(real):
    """Two modules over path variables, unloaded in the order in which they were loaded."""
    real.starts_with(MANPATH="/usr/man:/man")
    element = MARKS.replace(":", "")
    first = real.folder.module("foo/1.0", "setenv FOO on\nprepend-path MANPATH /opt/foo/man\n").decode()
    lines = f"prepend-path MANPATH /opt/bar/man\nprepend-path P {word(element)}\n"
    second = real.folder.module("bar/2", lines).decode()
    lines = ["module load foo/1.0", "show", "module load bar/2", "show", "module unload foo", "show"]
    before, one, two, other, after = real.keeps(["show", *lines, "module unload bar", "show"]).shown
    lists = {"LOADEDMODULES": "foo/1.0", "_LMFILES_": first}
    wanted = changed(before, {"FOO": "on", "MANPATH": "/opt/foo/man:/usr/man:/man", **lists})
    same_environment(one, wanted, "the environment with one")
    both = {
        "MANPATH": "/opt/bar/man:/opt/foo/man:/usr/man:/man",
        "P": element,
        "LOADEDMODULES": "foo/1.0:bar/2",
        "_LMFILES_": f"{first}:{second}",
    }
    same_environment(two, changed(one, both), "the environment with both")
    rest = {"MANPATH": "/opt/bar/man:/usr/man:/man", "P": element, "LOADEDMODULES": "bar/2", "_LMFILES_": second}
    same_environment(other, changed(before, rest), "the environment with the other")
    same_environment(after, before, "the environment after")


REQUESTED = {
    "gcc/9": "setenv GCC 9\n",
    "gcc/10": "setenv GCC 10\n",
    "mpi/1": "module-whatis {message passing}\nprereq gcc\nsetenv MPI 1\n",
    "a/1": "pushenv CC gcc\n",
    "b/1": "pushenv CC clang\n",
    "y/1": "append-path P /s\n",
    "z/1": "append-path P /s\n",
}

REQUESTS = [
    "show", "module load gcc/9 mpi a b y z", "show", "module unload a y", "show", "module switch gcc/10", "show",
    "module unload gcc", "status", "module list", "module avail gcc", "module show mpi", "module whatis mpi", "status",
    "module purge", "status", "show",
]  # fmt: skip


def test_switches_reports_and_purges(real):
    """Several names, an unload out of order, a switch, the reports, a refusal and a purge."""
    real.starts_with(CC="a:b\\c'd")
    paths = {name: real.folder.module(name, text).decode() for name, text in REQUESTED.items()}

    def lists(*names):
        return {"LOADEDMODULES": ":".join(names), "_LMFILES_": ":".join(paths[name] for name in names)}

    said = (
        f"ERROR: {wording(53, 'mpi/1')}\nTry: module unload --auto gcc (as unload mpi/1 gcc)\n"
        "Currently Loaded Modulefiles:\nmpi/1\nb/1\nz/1\ngcc/10\n"
        f"{real.folder.modules.decode()}:\ngcc/9\ngcc/10\n"
        f"{paths['mpi/1']}:\nmodule-whatis {{message passing}}\nprereq gcc\nsetenv MPI 1\n"
        "mpi/1: message passing\n"
    )
    kept = real.keeps(REQUESTS, err=said.encode())
    same(kept.statuses, ["1", "0", "0"], "the statuses")
    before, loaded, unloaded, switched, after = kept.shown
    six = {"CC": "clang", "GCC": "9", "MPI": "1", "P": "/s", "__MODULES_LMPREREQ": "mpi/1&gcc"}
    six |= {"__MODULES_PUSHENV_CC": "b/1&clang:a/1&gcc:&a\\:b\\\\c'd", "__MODULES_SHARE_P": "/s:2"}
    six |= lists("gcc/9", "mpi/1", "a/1", "b/1", "y/1", "z/1")
    same_environment(loaded, changed(before, six), "the environment with six modules")
    four = {"__MODULES_PUSHENV_CC": "b/1&clang:&a\\:b\\\\c'd", "__MODULES_SHARE_P": None}
    four |= lists("gcc/9", "mpi/1", "b/1", "z/1")
    same_environment(unloaded, changed(loaded, four), "the environment with four modules")
    other = {"GCC": "10", **lists("mpi/1", "b/1", "z/1", "gcc/10")}
    same_environment(switched, changed(unloaded, other), "the environment behind the switch")
    same_environment(after, before, "the environment behind the purge")


def test_chooses_versions_and_refuses_a_conflict(real):
    """A default file, the greatest version, and a conflict between two names of one command."""
    for version in ("1.9", "1.10", "1.10-rc"):
        real.folder.module(f"ver/{version}", f"setenv V {version}\n")
    real.folder.module("k/1", "setenv K 1\n")
    real.folder.module("n/1", "conflict k\n")
    default = real.folder.file("ver/.version", '#%Module\nset ModulesVersion "1.9"\n').decode()
    said = (
        f"ERROR: {wording(51, 'k/1')}\n"
        f"{real.folder.modules.decode()}:\nver/1.9(default)\nver/1.10\nver/1.10-rc\n"
        "No Modulefiles Currently Loaded.\n"
    )
    lines = ["show", "module load k n", "status", "show", "module avail ver", "module load ver", "show"]
    lines += ["module unload ver", "module list", f"/bin/rm '{default}'", "module load ver", "show", "module purge"]
    kept = real.keeps([*lines, "show"], err=said.encode())
    same(kept.statuses, ["1"], "the status of the refused load")
    before, refused, named_one, greatest, after = kept.shown
    same_environment(refused, before, "the environment behind the refusal")
    for environment, version in ((named_one, "1.9"), (greatest, "1.10-rc")):
        path = os.path.join(real.folder.modules, f"ver/{version}".encode()).decode()
        lists = {"LOADEDMODULES": f"ver/{version}", "_LMFILES_": path}
        same_environment(environment, changed(before, {"V": version, **lists}), f"the environment with {version}")
    same_environment(after, before, "the environment after")


@in_csh
def test_refuses_to_set_a_newline_and_to_give_one_back(real):
    """csh has no text for a newline: neither to set one, nor to give one back."""
    real.starts_with(CC="a\nb")
    real.folder.module("nl/1", 'setenv MSG "a\\nb"\n')
    path = real.folder.module("push/1", "pushenv CC gcc\n").decode()
    said = "ERROR: Value of '{}' can't be said in this shell\n"
    lines = ["show", "module load nl", "status", "show", "module load push", "status", "show"]
    kept = real.keeps(lines, err=(said.format("MSG") + said.format("__MODULES_PUSHENV_CC")).encode())
    same(kept.statuses, ["1", "1"], "the statuses of the refused loads")
    same_environment(kept.shown[1], kept.shown[0], "the environment behind the first refusal")
    same_environment(kept.shown[2], kept.shown[0], "the environment behind the second refusal")
    stack = {"CC": "gcc", "__MODULES_PUSHENV_CC": "push/1&gcc:&a\nb"}
    real.starts_with(**stack, LOADEDMODULES="push/1", _LMFILES_=path)
    kept = real.keeps(["show", "module unload push", "status", "show"], err=said.format("CC").encode())
    same(kept.statuses, ["1"], "the status of the refused unload")
    same_environment(kept.shown[1], kept.shown[0], "the environment behind the refused unload")
