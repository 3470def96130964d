"""Automated handling of modules by the program `module`: `load --auto` and `unload --auto`. What stands in each row is
typed by hand from module(1) and modulefile(5); the text is that of the program `modulecmd` for the names in the row.
"""

import os
import subprocess
import tempfile

import pytest

from tests.lib.examples import wording
from tests.lib.harness import (
    NOBODY, OF_OPTIONS, OPTIONS, SECONDS, dynamic, evaluated, refuser, refuses_each, same, true,
)

BY_NOBODY = {"user": NOBODY, "group": NOBODY, "extra_groups": []} if os.geteuid() == 0 else {}

# The modules, and what their files say.
MODULES = {
    "gcc/12.3.0": "setenv GCC 12",
    "gcc/13.2.0": "setenv GCC 13\nputs stderr {This is gcc 13.}",
    "openmpi/4.1.6": "prereq gcc/13.2.0\nsetenv MPI openmpi",
    "hdf5/1.14": "prereq openmpi/4.1.6\nprepend-path PATH /hdf5",
    "second/1": "prereq nothere gcc/12.3.0 gcc/13.2.0",
    "folder/1": "prereq gcc",
    "both/1": "prereq gcc/12.3.0\nprereq openmpi",
    "two/1": "prereq gcc/13.2.0\nprereq second",
    "lost/1": "prereq nothere neither",
    "ring/1": "prereq ring/2",
    "ring/2": "prereq ring/1",
    "longer/1": "prereq ring",
    "itself/1": "prereq itself",
    "apart/1": "conflict gcc\nprereq openmpi",
    "broken/1": "prereq spoilt",
    "spoilt/1": "error {no such licence}",
    "left/1": "prereq right hdf5",
    "right/1": "prereq hdf5",
    "finder/1": "append-path MODULEPATH {more}",
    "hidden/1": "prereq inner",
    "odd/1": "prereq gcc/default",
}

MORE = {"inner/1": "setenv INNER 1"}

# What is loaded, what is loaded then, the names of the whole load, and what is said of them; None: nothing is.
LOADS = [
    ("", "gcc/13.2.0", "gcc/13.2.0", None),
    ("", "openmpi", "gcc/13.2.0 openmpi", "openmpi/4.1.6 with gcc/13.2.0"),
    ("", "hdf5", "gcc/13.2.0 openmpi/4.1.6 hdf5", "hdf5/1.14 with gcc/13.2.0 openmpi/4.1.6"),
    ("gcc/13.2.0", "hdf5", "openmpi/4.1.6 hdf5", "hdf5/1.14 with openmpi/4.1.6"),
    ("gcc/13.2.0 openmpi", "hdf5", "hdf5", None),
    ("gcc/13.2.0 openmpi hdf5", "hdf5", "hdf5", None),
    ("", "second", "gcc/12.3.0 second", "second/1 with gcc/12.3.0"),
    ("gcc/13.2.0", "second", "second", None),
    ("", "folder", "gcc folder", "folder/1 with gcc/13.2.0"),
    ("", "gcc/13.2.0 hdf5", "gcc/13.2.0 openmpi/4.1.6 hdf5", "gcc/13.2.0 hdf5/1.14 with openmpi/4.1.6"),
    ("", "hdf5 gcc/13.2.0", "gcc/13.2.0 openmpi/4.1.6 hdf5 gcc/13.2.0", "gcc/13.2.0 hdf5/1.14 with openmpi/4.1.6"),
    ("", "openmpi gcc", "gcc/13.2.0 openmpi gcc", None),
    ("", "openmpi second", "gcc/13.2.0 openmpi second", "openmpi/4.1.6 second/1 with gcc/13.2.0"),
    ("", "two", "gcc/13.2.0 second two", "two/1 with gcc/13.2.0 second/1"),
    ("", "both", "gcc/12.3.0 gcc/13.2.0 openmpi both", "both/1 with gcc/12.3.0 gcc/13.2.0 openmpi/4.1.6"),
    ("", "left", "gcc/13.2.0 openmpi/4.1.6 hdf5 right left",
     "left/1 with gcc/13.2.0 openmpi/4.1.6 hdf5/1.14 right/1"),
    ("", "finder hidden", "finder inner hidden", "finder/1 hidden/1 with inner/1"),
    ("finder", "hidden", "inner hidden", "hidden/1 with inner/1"),
]

# What is loaded, what is loaded then, and why that is refused. {} is the folder of the modulefiles.
REFUSED = [
    ("", "nope", wording(42, "nope")),
    ("", "hdf5 nope", wording(42, "nope")),
    ("", "lost", wording(52, "nothere neither") + "\nNot found either: nothere neither"),
    ("", "hidden", wording(52, "inner") + "\nNot found either: inner"),
    ("", "ring/1", wording(52, "ring/2")),
    ("", "ring/2", wording(52, "ring/1")),
    ("", "itself", wording(52, "itself")),
    ("", "odd", wording(52, "gcc/default") + "\nNot found either: gcc/default"),
    ("", "apart", wording(51, "gcc/13.2.0")),
    ("", "gcc/12.3.0 apart", wording(51, "gcc/12.3.0")),
    ("", "broken", "no such licence (line 2)\n  in {}/spoilt/1, line 2"),
    ("", "bad//name", wording(44, "bad//name")),
]

# What is loaded, what is unloaded then, the names of the whole unload, and what is said of them.
CHAIN = "gcc/13.2.0 openmpi hdf5"
UNLOADS = [
    (CHAIN, "hdf5", "hdf5", None),
    (CHAIN, "openmpi", "hdf5/1.14 openmpi", "openmpi/4.1.6 with hdf5/1.14"),
    (CHAIN, "gcc", "hdf5/1.14 openmpi/4.1.6 gcc", "gcc/13.2.0 with hdf5/1.14 openmpi/4.1.6"),
    (CHAIN, "hdf5 openmpi gcc", "hdf5 openmpi gcc", None),
    (CHAIN, "gcc openmpi hdf5", "gcc openmpi hdf5", None),
    (CHAIN, "openmpi gcc", "hdf5/1.14 openmpi gcc", "openmpi/4.1.6 gcc/13.2.0 with hdf5/1.14"),
    (CHAIN, "icc", "icc", None),
    (f"gcc/12.3.0 {CHAIN}", "gcc/12.3.0", "gcc/12.3.0", None),
    ("gcc/12.3.0 gcc/13.2.0 second", "gcc/12.3.0", "gcc/12.3.0", None),
    ("gcc/12.3.0 second", "gcc", "second/1 gcc", "gcc/12.3.0 with second/1"),
]


class Place:
    """The modules, the program, and the program whose loads and unloads these are."""

    def __init__(self, folder, module, modulecmd):
        self.module, self.modulecmd = module, modulecmd
        self.modules, more = os.path.join(folder, "m"), os.path.join(folder, "more")
        for top, files in ((self.modules, MODULES), (more, MORE)):
            for name, text in files.items():
                path = os.path.join(top, name)
                os.makedirs(os.path.dirname(path), exist_ok=True)
                with open(path, "w", encoding="utf-8") as file:
                    file.write(f"#%Module\n{text.replace('{more}', f'{{{more}}}')}\n")
        self.start = {"MODULEPATH": self.modules, "PATH": "/bin"}

    def run(self, program, words, env, shell="sh", **more):
        command = [program, shell, *words]
        done = subprocess.run(command, env=env, capture_output=True, text=True, timeout=SECONDS, check=False, **more)
        return done.returncode, done.stdout, done.stderr

    def after(self, names):
        """The variables after a load of these names."""
        if not names:
            return self.start
        status, text, said = self.run(self.modulecmd, ["load", *names.split()], self.start)
        same((status, said.startswith("ERROR: ")), (0, False), f"the load of {names}")
        found = evaluated(text.encode(), {name.encode(): value.encode() for name, value in self.start.items()})
        return {name.decode(): value.decode() for name, value in found.items()}

    def does(self, verb, row, shell="sh", words=("--auto",), more=()):
        """What the command with these names does is what the program does with all names, and says which."""
        loaded, asked, whole, said = row
        env = {**self.after(loaded), **dict(more)}
        status, text, messages = self.run(self.modulecmd, [verb, *whole.split()], env, shell)
        same((status, messages.startswith("ERROR: ")), (0, False), f"the {verb} of {whole}")
        line = f"{verb.capitalize()}ing {said}\n" if said else ""
        found = self.run(self.module, [verb, *words, *asked.split()], env, shell)
        same(found, (0, text, line + messages), f"{verb} --auto {asked}")


@pytest.fixture(scope="session")
def program(built):
    return built("module")


@pytest.fixture
def place(program, built):
    with tempfile.TemporaryDirectory(prefix="modulecmd-auto-") as folder:
        os.chmod(folder, 0o755)
        yield Place(folder, program, built("modulecmd"))


@pytest.mark.parametrize("row", LOADS, ids=lambda row: f"{row[1]} over {row[0] or 'nothing'}")
def test_loads(place, row):
    place.does("load", row)


@pytest.mark.parametrize("row", UNLOADS, ids=lambda row: f"{row[1]} of {row[0]}")
def test_unloads(place, row):
    place.does("unload", row)


@pytest.mark.parametrize("loaded, asked, said", REFUSED)
def test_refusals(place, loaded, asked, said):
    found = place.run(place.module, ["load", "--auto", *asked.split()], place.after(loaded))
    same(found, (1, "", f"ERROR: {said}\n".replace("{}", place.modules)), f"load --auto {asked}")


@pytest.mark.parametrize("shell", ["bash", "zsh", "csh", "tcsh", "fish"])
def test_shells(place, shell):
    place.does("load", LOADS[2], shell)
    place.does("unload", UNLOADS[2], shell)


def test_the_variable_automates_each_command(place):
    for value in ("0", "", "yes", "11"):
        env = {**place.start, "MODULES_AUTO_HANDLING": value}
        found = place.run(place.module, ["load", "hdf5"], env)
        said = "Try: module load --auto hdf5 (as load gcc/13.2.0 openmpi/4.1.6 hdf5)\n"
        same(found, (1, "", f"ERROR: {wording(52, 'openmpi/4.1.6')}\n{said}"), f"where it is {value!r}")
        same(place.run(place.module, ["load", "gcc"], env), place.run(place.modulecmd, ["load", "gcc"], env), "a load")
    for word in ("switch", "purge"):
        env = {**place.after(CHAIN), "MODULES_AUTO_HANDLING": "1"}
        words = [word, "gcc/13.2.0", "gcc/12.3.0"] if word == "switch" else [word]
        same(place.run(place.module, words, env), place.run(place.modulecmd, words, env), f"{word} isn't automated")
    place.does("load", LOADS[2], words=(), more=[("MODULES_AUTO_HANDLING", "1")])
    place.does("unload", UNLOADS[2], words=(), more=[("MODULES_AUTO_HANDLING", "1")])
    place.does("load", LOADS[2], more=[("MODULES_AUTO_HANDLING", "1")])


# What is loaded, the words of `ml`, the names of the unload and of the load, and what is said.
EXCHANGES = [
    ("gcc/13.2.0", "-gcc gcc/12.3.0", "gcc", "gcc/12.3.0", None),
    ("gcc/12.3.0 second", "-second openmpi --", None, None, None),
    (CHAIN, "--auto folder -hdf5", "hdf5", "folder", None),
    ("gcc/12.3.0", "--auto hdf5 -gcc/12.3.0", "gcc/12.3.0", "gcc/13.2.0 openmpi/4.1.6 hdf5",
     "Loading hdf5/1.14 with gcc/13.2.0 openmpi/4.1.6\n"),
]


def exchanged(place, env, unloads, loads):
    """The variables behind both commands, and what they say, by `modulecmd`."""
    said = ""
    for verb, names in (("unload", unloads), ("load", loads)):
        status, text, more = place.run(place.modulecmd, [verb, *names.split()], env)
        same(status, 0, f"{verb} {names}")
        found = evaluated(text.encode(), {name.encode(): value.encode() for name, value in env.items()})
        env, said = {name.decode(): value.decode() for name, value in found.items()}, said + more
    return env, said


@pytest.mark.parametrize("row", EXCHANGES, ids=lambda row: row[1])
def test_an_exchange_is_an_unload_and_then_a_load(place, row):
    names, words, unloads, loads, said = row
    env = place.after(names)
    status, text, messages = place.run(place.module, ["ml", *words.split()], env)
    if unloads is None:
        same((status, text, messages), (1, "", f"ERROR: '--' is no option here\n{OPTIONS}"), "an option")
        return
    found = evaluated(text.encode(), {name.encode(): value.encode() for name, value in env.items()})
    after, more = exchanged(place, env, unloads, loads)
    same((status, {name.decode(): value.decode() for name, value in found.items()}), (0, after), f"ml {words}")
    same(messages, (said or "") + more, f"what ml {words} says")


def test_an_exchange_that_is_automated(place):
    env = {**place.after(CHAIN), "MODULES_AUTO_HANDLING": "1"}
    status, text, said = place.run(place.module, ["ml", "-gcc", "second"], env)
    lines = "Unloading gcc/13.2.0 with hdf5/1.14 openmpi/4.1.6\nLoading second/1 with gcc/12.3.0\n"
    after, more = exchanged(place, env, "hdf5/1.14 openmpi/4.1.6 gcc", "gcc/12.3.0 second")
    found = evaluated(text.encode(), {name.encode(): value.encode() for name, value in env.items()})
    same((status, said), (0, lines + more), "what is said")
    same({name.decode(): value.decode() for name, value in found.items()}, after, "the variables")


def test_other_names_of_the_subcommands(place):
    env = place.after(CHAIN)
    for word, name in (("add", "load"), ("lo", "load"), ("rm", "unload"), ("del", "unload"), ("remove", "unload")):
        asked = [place.run(place.module, [it, "--auto", "gcc/13.2.0"], env) for it in (word, name)]
        same(asked[0], asked[1], word)
        same(asked[0][0], 0, f"the status of {word}")


def test_a_load_without_names_does_nothing(place):
    same(place.run(place.module, ["load", "--auto"], place.start), (0, "", ""), "load --auto")
    found = place.run(place.module, ["unload", "--auto"], place.start)
    same(found, (1, "", "ERROR: Bad arguments\nusage: module unload NAME...\n"), "unload --auto")


@pytest.mark.parametrize("variable", [{}, {"MODULES_AUTO_HANDLING": "1"}])
def test_options_are_refused_by_name(place, variable):
    for words, option in (
        (["load", "--force", "gcc"], "--force"),
        (["load", "-f", "gcc"], "-f"),
        (["load", "--no-auto", "gcc"], "--no-auto"),
        (["load", "--auto", "--force", "gcc"], "--force"),
        (["load", "--auto", "gcc", "--force"], "--force"),
        (["load", "--auto", "--auto", "gcc"], "--auto"),
        (["load", "--", "gcc"], "--"),
        (["load", "-"], "-"),
        (["unload", "--force", "gcc"], "--force"),
        (["switch", "--force", "gcc"], "--force"),
        (["switch", "--auto", "gcc"], "--auto"),
        (["purge", "--force"], "--force"),
    ):
        found = place.run(place.module, words, {**place.start, **variable})
        more = OF_OPTIONS.get(option, OPTIONS)
        same(found, (1, "", f"ERROR: '{option}' is no option here\n{more}"), f"{words}")


def test_a_load_that_needs_nothing_reads_each_file_once(place):
    """What a plain load costs is what it costs here: each modulefile is read once."""
    path = os.path.join(place.modules, "gcc/13.2.0")
    log = os.path.join(place.modules, "log")
    env = place.start
    command = ["strace", "-f", "-e", "trace=openat,open", "-o", log, place.module, "sh", "load", "--auto", "gcc/13.2.0"]
    try:
        done = subprocess.run(command, env=env, capture_output=True, timeout=SECONDS, check=False)
    except FileNotFoundError:
        pytest.skip("how often a file is read, since strace isn't here")
    if done.returncode != 0:
        pytest.skip("how often a file is read, since strace isn't permitted")
    with open(log, encoding="utf-8") as lines:
        same(sum(path in line for line in lines), 1, "how often the file is opened")


def test_a_chain_of_twenty(place):
    for number in range(20):
        path = os.path.join(place.modules, "chain", str(number))
        os.makedirs(os.path.dirname(path), exist_ok=True)
        with open(path, "w", encoding="utf-8") as file:
            file.write(f"#%Module\n{f'prereq chain/{number - 1}' if number else 'setenv CHAIN 0'}\n")
    names = [f"chain/{number}" for number in range(20)]
    place.does("load", ("", "chain/19", " ".join(names), f"chain/19 with {' '.join(names[:19])}"))
    names.reverse()
    place.does("unload", (" ".join(names[::-1]), "chain/0", " ".join(names), f"chain/0 with {' '.join(names[:19])}"))


def test_without_end(place):
    """A file that always needs another name than before is refused in the end."""
    path = os.path.join(place.modules, "endless")
    os.makedirs(path)
    for number in range(1200):
        with open(os.path.join(path, f"{number}"), "w", encoding="utf-8") as file:
            file.write(f"#%Module\nprereq endless/{number + 1}\n")
    # (An explanation tries it all once more.)
    env = {**place.start, "MODULECMD_EXPLAIN": "no"}
    found = place.run(place.module, ["load", "--auto", "endless/0"], env)
    same(found, (1, "", f"ERROR: {wording(52, 'endless/1001')}\n"), "an endless chain")


@pytest.mark.usefixtures("as_shipped")
def test_memory(place, tmp_path):
    """A growth that is refused ends the command with its reason, and nothing is printed for the shell."""
    shim = refuser(os.fsencode(tmp_path))
    for loaded, words in (("", ["load", "--auto", "hdf5"]), (CHAIN, ["unload", "--auto", "gcc"])):
        env = {name.encode(): value.encode() for name, value in place.after(loaded).items()}

        def asked(more, words=words, env=env):
            command = [dynamic(place.module), "sh", *words]
            done = subprocess.run(command, env={**env, **more}, capture_output=True, timeout=SECONDS, check=False)
            return done.returncode, done.stdout, done.stderr

        refuses_each(shim, asked, lambda it: it[:2] == (1, b"") and it[2] == f"ERROR: {wording(31)}\n".encode(), words)


def test_a_full_device(place):
    with open("/dev/full", "wb") as full:
        command = [place.module, "sh", "load", "--auto", "openmpi"]
        done = subprocess.run(command, env=place.start, stdout=full, stderr=subprocess.PIPE, timeout=SECONDS, check=False)
        true(done.stderr.endswith(f"ERROR: {wording(64)}\n".encode()), f"a device that is full: {done.stderr!r}")
        same(done.returncode, 1, "the status")
        command = [place.module, "sh", "load", "--auto", "openmpi"]
        done = subprocess.run(command, env=place.start, stderr=full, stdout=subprocess.PIPE, timeout=SECONDS, check=False)
        same((done.returncode, done.stdout), (1, b""), "standard error on a device that is full")


def test_a_device_that_fails(place):
    """What can't be read refuses the load, also where it is an alternative that is looked for, and its path is said."""
    for name in ("hdf5/1.14", "openmpi/4.1.6", "gcc/13.2.0"):
        os.chmod(os.path.join(place.modules, name), 0)
        found = place.run(place.module, ["load", "--auto", "hdf5"], place.start, **BY_NOBODY)
        os.chmod(os.path.join(place.modules, name), 0o644)
        said = f"ERROR: Reading failed\n  at {place.modules}/{name}\n"
        same(found, (1, "", said), f"{name} can't be read")
