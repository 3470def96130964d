"""What the program `module` answers of the commands that the function adds: `use`, `unuse`, `is-loaded`, `is-avail`,
`avail` and `list` with options, and which subcommand a word means. Each row is typed by hand from module(1).
"""

import os
import pty
import select
import shutil
import subprocess

import pytest

from tests.lib.examples import wording
from tests.lib.harness import FORCED, NOBODY, OPTIONS, SECONDS, dynamic, evaluated, refuser, refuses_each, same, true

LOADED = {"LOADEDMODULES": "gcc/12.3:mpi/4", "_LMFILES_": "/m/gcc/12.3:/m/mpi/4"}
OF_REPORTS = 'Here it is an option of "module avail" and "module list".'
NOT_THERE = "There is no directory '{}' yet.\n"

# The words behind the shell, MODULEPATH, and the MODULEPATH that the shell has afterwards, None where it is unset. {} is
# the folder in which the command runs, with the directories a and b.
EDITS = [
    (["use", "{}/a"], None, "{}/a"),
    (["use", "a", "b"], "/x", "{}/a:{}/b:/x"),
    (["use", "a", "./a/../b", "a"], "/x", "{}/a:{}/b:/x"),
    (["use", "-a", "a"], "/x:/y", "/x:/y:{}/a"),
    (["use", "--append", "a", "b"], None, "{}/a:{}/b"),
    (["use", "-a", "-p", "a"], "/x", "{}/a:/x"),
    (["use", "--", "a"], "/x", "{}/a:/x"),
    (["use", "a"], "/x:{}/b/../a/:/y", "{}/a:/x:/y"),
    (["use", "-a", "a"], "{}//a::/x", "/x:{}/a"),
    (["use", "a"], "", "{}/a"),
    (["unuse", "a"], "{}/a", None),
    (["unuse", "a"], "/x:{}/a/.:/y", "/x:/y"),
    (["unuse", "/x", "b"], "/x:{}/b:/y:/x/", "/y"),
    (["unuse", "/z"], "/x:/y", "/x:/y"),
    (["unuse", "--", "/x"], "/x", None),
    (["use", "{}//"], ":{}/::rel:", "{}:rel"),
    (["unuse", "rel"], ":{}/::rel:", "{}/"),
    (["use", "/", "//"], "/x", "/:/x"),
    (["us", "a"], None, "{}/a"),
]

# What is said where nothing is searched, and of options.
OF_REPORTS = 'Here it is an option of "module avail" and "module list".'
NONE_THERE = "None of the directories of MODULEPATH is there: /x"

# The words behind the shell, and what is refused.
REFUSED = [
    (["use", "--nope", "a"], f"'--nope' is no option here\n{OPTIONS.strip()}"),
    (["unuse"], "Bad arguments\nusage: module unuse DIR..."),
    (["unuse", "-a", "a"], "'-a' is no option here\n" + 'Here it is an option of "module use", and no module is hidden.'),
    (["use", ""], "Bad value of 'MODULEPATH': a directory without a name"),
    (["use", "/a:b"], "Bad value of 'MODULEPATH': '/a:b' has a colon"),
    (["use", "/" + 100_000 * "x"], "Bad value of 'MODULEPATH': it is too long"),
    (["use", *(f"/{'d' * 250}{number}" for number in range(500))], "Bad value of 'MODULEPATH': it is too long"),
    (["laod", "gcc"], "Unknown subcommand: did you mean 'load'?"),
    (
        ["spider"],
        "Unknown subcommand 'spider'\n"
        'Here: "module keyword TEXT" for names and descriptions, "module avail -C TEXT" for names.',
    ),
    (["try-load", "gcc"], 'Unknown subcommand \'try-load\'\nHere: "module is-avail NAME && module load NAME".'),
    (["initadd", "gcc"], "Unknown subcommand 'initadd'\n" + 'Here: "module save", and "module restore" in a start-up file.'),
    (["sh-to-mod", "bash", "x"], "Unknown subcommand 'sh-to-mod'\nThis isn't done here."),
    (["sa", "x"], "Several subcommands begin with 'sa'"),
    (["--force", "use"], f"'--force' is no option here\n{FORCED.strip()}"),
    (["load", "gcc"], f"{wording(42, 'gcc')}\n{NONE_THERE}"),
    (["unload"], "Bad arguments\nusage: module unload NAME..."),
    (["switch", "a", "b", "c"], "Bad arguments\nusage: module switch [OLD] NEW"),
    (["purge", "a"], "Bad arguments\nusage: module purge"),
    (["reload", "a"], "Bad arguments\nusage: module reload"),
    (["refresh", "a"], "Bad arguments\nusage: module reload"),
    (["-t", "nope"], "Unknown subcommand 'nope'\n" + '"module help" lists the subcommands.'),
    (["-t", "-t"], f"'-t' is no option here\n{OF_REPORTS}"),
    (["-t", "purge"], f"'-t' is no option here\n{OF_REPORTS}"),
    (["ml", "nope"], f"{wording(42, 'nope')}\n{NONE_THERE}"),
    (["ml", "-nope", "also"], f"{wording(42, 'also')}\n{NONE_THERE}"),
    (["ml", "--nope"], f"'--nope' is no option here\n{OPTIONS.strip()}"),
    (["ml", "-a", "--nope", "b"], f"'--nope' is no option here\n{OPTIONS.strip()}"),
    (["subcommand"], "Bad arguments"),
    (["subcommand", "spider"], "Unknown subcommand 'spider'"),
    (["keyword"], "Bad arguments\nusage: module keyword TEXT"),
    (["apropos", "a", "b"], "Bad arguments\nusage: module keyword TEXT"),
    (["whatis", "gcc"], f"{wording(42, 'gcc')}\n{NONE_THERE}"),
    (["show", "gcc"], f"{wording(42, 'gcc')}\n{NONE_THERE}"),
    (["show"], "Bad arguments\nusage: module show NAME..."),
    (["help", "gcc"], f"{wording(42, 'gcc')}\n{NONE_THERE}"),
]

# A word, and the subcommand that it means.
WORDS = [
    ("av", "avail"),
    ("avail", "avail"),
    ("li", "list"),
    ("sw", "switch"),
    ("swap", "switch"),
    ("del", "unload"),
    ("rm", "unload"),
    ("add", "load"),
    ("disp", "show"),
    ("ap", "keyword"),
    ("save", "save"),
    ("savel", "savelist"),
    ("-V", "--version"),
    ("-h", "help"),
]

# The words behind `is-loaded`, the variables, and the status.
STATUSES = [
    (["gcc"], LOADED, 0),
    (["gcc/12.3"], LOADED, 0),
    (["gcc/12"], LOADED, 1),
    (["icc", "mpi"], LOADED, 0),
    (["icc"], LOADED, 1),
    ([], LOADED, 0),
    ([], {}, 1),
    (["gcc"], {}, 1),
]

# Modulefiles by their names: what `avail` names, in this order.
DESCRIBED = {
    "bad/1": "nope\n",
    "d/1": "module-whatis A {B c}\n",
    "foo/1": "module-whatis {The foo Tool}\nmodule-whatis {Category: Compilers}\n",
    "foo/2": "module-whatis second\n",
    "foo/10": "puts stderr {foo/10 is old}\nmodule-whatis {the tenth, for Zürich}\n",
    "silent/1": "setenv A 1\n",
}
WHATIS = {
    "d/1": "d/1: A B c\n",
    "foo/1": "foo/1: The foo Tool\nfoo/1: Category: Compilers\n",
    "foo/2": "foo/2: second\n",
    "foo/10": "foo/10 is old\nfoo/10: the tenth, for Zürich\n",
    "silent/1": "",
}
LEFT_OUT = 'Left out:\nbad/1: invalid command name "nope" (line 2)\n'

# The words behind the shell, and the modules whose reports are written.
KEYWORDS = [
    (["whatis"], ["d/1", "foo/1", "foo/2", "foo/10"]),
    (["keyword", "tool"], ["foo/1"]),
    (["apropos", "COMPILERS"], ["foo/1"]),
    (["search", "COMPILERS"], ["foo/1"]),
    (["key", "category"], ["foo/1"]),
    (["keyword", "category: comp"], ["foo/1"]),
    (["keyword", "1: the"], []),
    (["keyword", "o/1:"], []),
    (["keyword", "b C"], ["d/1"]),
    (["keyword", "FOO/"], ["foo/1", "foo/2", "foo/10"]),
    (["keyword", "zürich"], ["foo/10"]),
    (["keyword", "ZÜRICH"], []),
    (["keyword", "is old"], []),
    (["keyword", ".*"], []),
    (["keyword", "silent"], []),
    (["keyword", ""], ["d/1", "foo/1", "foo/2", "foo/10"]),
]

# A modulefile behind its first line, and what `help` says of it.
HELPING = "module-whatis W\nproc ModulesHelp {} {puts stderr HELP}\n"
HELPS = [
    ("proc ModulesHelp {} {\n  puts stderr {what it is}\n  puts -nonewline stderr more\n}\n", "what it is\nmore"),
    ("set v 1.2\nproc ModulesHelp {} {\n  global v\n  puts stderr \"at $v\"\n}\nmodule-whatis it", "at 1.2\n"),
    ("puts stderr first\nproc ModulesHelp {} {\n  puts stderr [module-info mode whatis]\n}\n", "first\n1\n"),
    # As Environment Modules 5.2 says it: also where the file returns (there the mode of `help` is another one), or ends
    # in a comment that a backslash continues.
    (f"{HELPING}if {{[module-info mode whatis]}} {{return}}\nsetenv A b\n", "HELP\n"),
    (f"{HELPING}# end \\", "HELP\n"),
    (f"{HELPING}# end \\\\", "HELP\n"),
    (f"{HELPING}# it is \\\n  not a command; bogus", "HELP\n"),
    (f"{HELPING}append-path A b \\\n  c", "HELP\n"),
    (f"{HELPING}puts stderr \"\\$a \\[b\\] \\\\ \\\" {{}}\"; puts stderr {{$a [b] \\ \"}}\n", '$a [b] \\ " {}\n$a [b] \\ "\nHELP\n'),
    # There a file whose top level comes to `return` is refused; here it is loaded, and so it has its help.
    (f"return\n{HELPING}", "{manual}"),
    (f"{HELPING}return\nbogus\n", "HELP\n"),
    ("proc ModulesHelp {} {return}\nmodule-whatis W\n", "help/1: W\n{manual}"),
    ("proc ModulesHelp {} {}\n", "{manual}"),
    ("module-whatis W\nreturn\n", "help/1: W\n{manual}"),
    ("module-whatis W\n# end \\", "help/1: W\n{manual}"),
    ("module-whatis {no procedure}\nputs stderr said\n", "said\nhelp/1: no procedure\n{manual}"),
    ("setenv A 1\n", "{manual}"),
]
MANUAL = '"module show NAME" says what a module does. Manual pages:\n  man module\n  man modulefile\n'

# The modules of a directory. ver/1.9 is the default of ver.
MODULES = ("gcc/9", "gcc/10", "gcc/12", "Lib/app/1", "Lib/app/2", "tool", "ver/1.9", "ver/1.10", "ver/1.10-rc")

# The words behind `avail`, and the names in its report.
LISTED = [
    ([], "Lib/app/1 Lib/app/2 gcc/9 gcc/10 gcc/12 tool ver/1.9(default) ver/1.10 ver/1.10-rc"),
    (["-t"], "Lib/app/1 Lib/app/2 gcc/9 gcc/10 gcc/12 tool ver/1.9(default) ver/1.10 ver/1.10-rc"),
    (["gcc/1", "to"], "gcc/10 gcc/12 tool"),
    (["nope"], ""),
    (["app"], ""),
    (["-d"], "Lib/app/2 gcc/12 tool ver/1.9(default)"),
    (["--default", "gcc/1", "ver"], "gcc/12 ver/1.9(default)"),
    (["-d", "ver/1.10"], "ver/1.10-rc"),
    (["-L"], "Lib/app/2 gcc/12 tool ver/1.10-rc"),
    (["--latest", "--terse", "Lib"], "Lib/app/2"),
    (["-d", "-L", "ver"], "ver/1.10-rc"),
    (["-L", "-d", "ver"], "ver/1.9(default)"),
    (["-C", "app"], "Lib/app/1 Lib/app/2"),
    (["--contains", "/1", "oo"], "Lib/app/1 gcc/10 gcc/12 tool ver/1.9(default) ver/1.10 ver/1.10-rc"),
    (["-i", "lib"], "Lib/app/1 Lib/app/2"),
    (["--icase", "GCC/1", "T"], "gcc/10 gcc/12 tool"),
    (["-i", "APP"], ""),
    (["-C", "-i", "APP/2"], "Lib/app/2"),
    (["-C", "APP"], ""),
    (["-C"], "Lib/app/1 Lib/app/2 gcc/9 gcc/10 gcc/12 tool ver/1.9(default) ver/1.10 ver/1.10-rc"),
    (["-C", "-L", "er"], "ver/1.10-rc"),
    (["--", "tool"], "tool"),
    (["--", "-t"], ""),
    (["tool", "-t"], "tool"),
]

# The words behind `list`, what is loaded, and the report.
LOADED_REPORTS = [
    ([], {}, "No Modulefiles Currently Loaded.\n"),
    (["gcc"], {}, "No Modulefiles Currently Loaded.\n"),
    ([], LOADED, "Currently Loaded Modulefiles:\ngcc/12.3\nmpi/4\n"),
    (["-t"], LOADED, "Currently Loaded Modulefiles:\ngcc/12.3\nmpi/4\n"),
    (["--terse", "mpi", "x"], LOADED, "Currently Loaded Modulefiles:\nmpi/4\n"),
    (["--", "gcc"], LOADED, "Currently Loaded Modulefiles:\ngcc/12.3\n"),
    (["12"], LOADED, "No loaded module begins so.\n"),
    (["GCC"], LOADED, "No loaded module begins so.\n"),
]

# The words behind `avail` or `list` that have an option that is none, and the option.
NO_OPTIONS = [
    (["avail", "--nope"], "--nope"),
    (["avail", "-t", "-x", "gcc"], "-x"),
    (["avail", "-"], "-"),
    (["avail", "-td"], "-td"),
    (["list", "-d"], "-d"),
    (["list", "--nope", "gcc"], "--nope"),
]

# The words behind `is-avail`, and the status.
AVAILABLE = [
    (["gcc"], 0),
    (["gcc/10"], 0),
    (["ver"], 0),
    (["tool"], 0),
    (["Lib/app"], 0),
    (["Lib"], 1),
    (["gc"], 1),
    (["GCC"], 1),
    (["nope", "tool"], 0),
    (["nope", "no/1"], 1),
    (["gcc/"], 1),
    (["../m/tool", "*", ""], 1),
    (["-t"], 1),
]


@pytest.fixture(scope="session")
def program(built):
    return built("module")


@pytest.fixture
def place(tmp_path):
    """A folder with the directories a and b, in which the commands run."""
    for name in ("a", "b"):
        (tmp_path / name).mkdir()
    return str(tmp_path)


def run(program, words, env=None, cwd=None, **more):
    return subprocess.run(
        [program, *words], env=env or {}, cwd=cwd, capture_output=True, text=True, timeout=SECONDS, check=False, **more
    )


@pytest.fixture
def modules(folder):
    """The variable with a directory of modules."""
    for name in MODULES:
        folder.module(name, "")
    folder.file("ver/.version", "#%Module\nset ModulesVersion 1.9\n")
    return {"MODULEPATH": os.fsdecode(folder.modules)}


def outcome(done):
    return done.returncode, done.stdout, done.stderr


def with_path(text, place):
    return {} if text is None else {"MODULEPATH": text.replace("{}", place)}


@pytest.mark.parametrize("words, before, after", EDITS)
def test_use_and_unuse(program, place, words, before, after):
    env = with_path(before, place)
    done = run(program, ["sh", *(word.replace("{}", place) for word in words)], env, place)
    same((done.returncode, done.stderr), (0, ""), "status and standard error")
    encoded = {name.encode(): value.encode() for name, value in env.items()}
    wanted = {name.encode(): value.encode() for name, value in with_path(after, place).items()}
    same(evaluated(done.stdout.encode(), encoded), wanted, "the variables of sh")


@pytest.mark.parametrize(
    "shell, used, unused",
    [
        ("bash", "MODULEPATH='/x'; export MODULEPATH;\n", "unset MODULEPATH;\n"),
        ("csh", "setenv MODULEPATH '/x';\n", "unsetenv MODULEPATH;\n"),
        ("fish", "set -xg MODULEPATH '/x';\n", "set -e MODULEPATH;\n"),
    ],
)
def test_shells(program, shell, used, unused):
    same(outcome(run(program, [shell, "use", "/x"])), (0, used, NOT_THERE.format("/x")), "use")
    same(outcome(run(program, [shell, "unuse", "/x"], {"MODULEPATH": "/x"})), (0, unused, ""), "unuse")


def test_a_directory_that_is_not_there_is_said_once(program, place):
    done = run(program, ["sh", "use", "x", "a", "y", "a/../x/", "./y", "x"], {}, place)
    said = "".join(NOT_THERE.format(f"{place}/{name}") for name in ("x", "y"))
    same((done.returncode, done.stderr), (0, said), "status and standard error")


# The file of a site with directories, and what it comes to.
SITE_FILES = (
    ("", ""),
    ("/a\n/b\n", "/a:/b"),
    ("  /a b\t# the first\n#/c\n\n \t# nothing\n/d#e\n/f \t#g #h", "/a b:/d#e:/f"),
    ("/é\n", "/é"),
)


@pytest.mark.parametrize("text, wanted", SITE_FILES)
def test_the_directories_of_a_site(program, tmp_path, text, wanted):
    path = tmp_path / "modulespath"
    path.write_text(text, encoding="utf-8")
    same(outcome(run(program, ["sh", "modulespath", str(path)])), (0, wanted, ""), "what it comes to")
    for other in (tmp_path, tmp_path / "nothing"):
        same(outcome(run(program, ["sh", "modulespath", str(other)])), (0, "", ""), f"what {other} comes to")
    path.write_bytes(b"/a\xff\n")
    same(outcome(run(program, ["sh", "modulespath", str(path)])), (0, "", ""), "what no text comes to")


def test_which_directories_are_searched(program):
    for value, report in ((None, ""), ("", ""), ("/x", "/x\n"), (":/x::/y/../z:/x", "/x\n/y/../z\n/x\n")):
        env = {} if value is None else {"MODULEPATH": value}
        same(outcome(run(program, ["sh", "use"], env)), (0, "", report), f"the directories of {value!r}")


def test_an_unload_that_has_nothing_to_unload_says_what_is_loaded(program):
    env = {"LOADEDMODULES": "gcc/13.2.0:mpi/4", "_LMFILES_": "/m/gcc/13.2.0:/m/mpi/4"}
    for names, said in (
        ("gcc/13", "'gcc/13' isn't loaded, but 'gcc/13.2.0' is.\n"),
        ("m gcc/13. gcc mpi/4 mpi/5 hdf5", "'m' isn't loaded, but 'mpi/4' is.\n'gcc/13.' isn't loaded, but 'gcc/13.2.0' is.\n"),
    ):
        same(outcome(run(program, ["sh", "unloaded", *names.split()], env)), (0, "", said), f"what is said of {names}")
    env["_LMFILES_"] = "/m/gcc/13.2.0"
    same(outcome(run(program, ["sh", "unloaded", "gcc/13"], env)), (0, "", ""), "where the lists don't fit together")


@pytest.mark.parametrize("words, said", REFUSED)
def test_refusals(program, place, words, said):
    done = run(program, ["sh", *words], {"MODULEPATH": "/x"}, place)
    same(outcome(done), (1, "", f"ERROR: {said}\n"), "what is refused")


def test_a_shell_that_is_none(program):
    same(outcome(run(program, ["nosh", "use", "/x"])), (1, "", f"ERROR: {wording(63, 'nosh')}\n"), "another shell")
    same(outcome(run(program, [])), (1, "", "ERROR: Bad arguments\n"), "no shell")


@pytest.mark.parametrize("word, subcommand", WORDS)
def test_words(program, word, subcommand):
    same(outcome(run(program, ["sh", "subcommand", word])), (0, f"{subcommand}\n", ""), word)


@pytest.mark.parametrize("names, env, status", STATUSES)
def test_is_loaded(program, names, env, status):
    same(outcome(run(program, ["sh", "is-loaded", *names], env)), (status, "", ""), f"{names} of {env}")


def described(folder, files):
    """The variables with which these modulefiles are all that can be loaded."""
    for name, text in files.items():
        folder.module(name, text)
    return {"MODULEPATH": os.fsdecode(folder.modules)}


@pytest.mark.parametrize("words, names", KEYWORDS)
def test_descriptions_of_all_modules(program, folder, words, names):
    env = described(folder, DESCRIBED)
    report = "".join(WHATIS[name] for name in names)
    same(outcome(run(program, ["sh", *words], env)), (0, "", report + LEFT_OUT), f"{words}")


def test_descriptions_of_modules_of_two_directories(program, folder, tmp_path):
    """A name of two directories is described once, by the file that it means, and where no file is refused nothing is
    left out."""
    env = described(folder, {"foo/1": "module-whatis one\n", "foo/2": "module-whatis two\n"})
    (tmp_path / "more" / "foo").mkdir(parents=True)
    for name in ("1", "3"):
        (tmp_path / "more" / "foo" / name).write_text(f"#%Module\nmodule-whatis {{other {name}}}\n")
    env["MODULEPATH"] += f":{tmp_path}/more"
    same(outcome(run(program, ["sh", "whatis"], env)), (0, "", "foo/1: one\nfoo/2: two\nfoo/3: other 3\n"), "whatis")
    same(outcome(run(program, ["sh", "whatis"], {})), (0, "", ""), "no MODULEPATH")
    same(outcome(run(program, ["sh", "keyword", "x"], {"MODULEPATH": "/nowhere"})), (0, "", ""), "no directory")


def test_descriptions_by_loaded_lists_that_contradict_one_another(program, folder):
    """Each module is refused, as its own `whatis` is."""
    env = described(folder, {"foo/1": "module-whatis one\n", "foo/2": "module-whatis two\n"})
    done = run(program, ["sh", "whatis"], {**env, "LOADEDMODULES": "gcc/12.3"})
    lines = done.stderr.splitlines()
    same((done.returncode, lines[0], [line.split(":")[0] for line in lines[1:]]), (0, "Left out:", ["foo/1", "foo/2"]), "what")


@pytest.mark.parametrize("text, said", HELPS)
def test_help_of_a_module(program, folder, text, said):
    env = described(folder, {"help/1": text})
    same(outcome(run(program, ["sh", "help", "help"], env)), (0, "", said.replace("{manual}", MANUAL)), text)


def test_help_of_several_modules(program, folder):
    texts = {name: f"proc ModulesHelp {{}} {{puts stderr {{{name}}}}}\n" for name in ("a/1", "b/2")}
    env = described(folder, {**texts, "c/3": "module-whatis three\n", "d/4": "proc ModulesHelp {} {nope}\n"})
    same(outcome(run(program, ["sh", "help", "b", "a"], env)), (0, "", "b/2\na/1\n"), "two")
    done = run(program, ["sh", "--help", "c", "a"], env)
    same(outcome(done), (0, "", f"c/3: three\na/1\n{MANUAL}"), "one without the procedure")
    done = run(program, ["sh", "help", "a", "d"], env)
    same((done.returncode, done.stderr.startswith('ERROR: invalid command name "nope"')), (1, True), "one refused")
    done = run(program, ["sh", "help", "c", "a"], {**env, "LOADEDMODULES": "a/1:b/2", "_LMFILES_": "/m/a/1:/m/b/2"})
    same(outcome(done), (0, "", f"c/3: three\na/1\n{MANUAL}"), "where modules are loaded")


def test_loaded_lists_that_contradict_one_another(program):
    done = run(program, ["sh", "is-loaded", "gcc"], {"LOADEDMODULES": "gcc/12.3"})
    same((done.returncode, done.stdout, done.stderr.startswith("ERROR: ")), (1, "", True), "lists")


@pytest.mark.parametrize("words, names", LISTED)
def test_avail(program, modules, words, names):
    directory = modules["MODULEPATH"]
    report = "".join(f"{line}\n" for line in (f"{directory}:", *names.split())) if names else ""
    same(outcome(run(program, ["sh", "avail", *words], modules)), (0, "", report), f"avail {words}")


def test_avail_of_several_directories(program, place):
    for name in ("a/gcc/1", "b/gcc/1", "b/gcc/2"):
        os.makedirs(os.path.join(place, os.path.dirname(name)), exist_ok=True)
        with open(os.path.join(place, name), "w") as file:
            file.write("#%Module\n")
    env = {"MODULEPATH": f"{place}/b:{place}/nope::{place}/a:{place}/b"}
    report = f"{place}/b:\ngcc/2\n{place}/a:\ngcc/1\n{place}/b:\ngcc/2\n"
    same(outcome(run(program, ["sh", "avail", "-L"], env)), (0, "", report), "a directory twice")
    same(outcome(run(program, ["sh", "avail"])), (0, "", ""), "no MODULEPATH")


@pytest.mark.parametrize("words, option", NO_OPTIONS)
def test_options_that_are_none(program, modules, words, option):
    more = 'Here it is an option of "module avail".' if option == "-d" else OPTIONS.strip()
    said = f"ERROR: '{words[0]}' has no option '{option}'\n{more}\n"
    same(outcome(run(program, ["sh", *words], modules)), (1, "", said), f"{words}")


@pytest.mark.parametrize("words, env, report", LOADED_REPORTS)
def test_list(program, words, env, report):
    same(outcome(run(program, ["sh", "list", *words], env)), (0, "", report), f"list {words}")


@pytest.mark.parametrize("names, status", AVAILABLE)
def test_is_avail(program, modules, names, status):
    same(outcome(run(program, ["sh", "is-avail", *names], modules)), (status, "", ""), f"is-avail {names}")


def test_is_avail_says_no_where_a_load_is_refused_before_its_file_is_evaluated(program, folder, modules):
    folder.module("bad/1", "")
    folder.file("bad/.modulerc", "#%Module\nmodule-alias b bad/1\n")
    folder.file("bytes/1", b"#%Module\n\xff\n")
    for names, status in ((["bad"], 1), (["bad/1"], 0), (["bytes/1"], 1), (["bytes/1", "tool"], 0)):
        same(outcome(run(program, ["sh", "is-avail", *names], modules)), (status, "", ""), f"is-avail {names}")
    same(outcome(run(program, ["sh", "is-avail"], modules)), (1, "", "ERROR: Bad arguments\nusage: module is-avail NAME...\n"), "no name")


def as_nobody(program, folder):
    """The program where any user may run it, and how it is run by one who owns nothing."""
    copy = os.path.join(os.fsdecode(folder.path), "module")
    shutil.copy(program, copy)
    by_nobody = {"user": NOBODY, "group": NOBODY, "extra_groups": []} if os.geteuid() == 0 else {}
    return copy, by_nobody


def test_avail_leaves_out_what_cannot_be_read_and_names_it(program, folder, modules):
    """What has to be read is what a listing for the texts looks at."""
    program, by_nobody = as_nobody(program, folder)
    at = modules["MODULEPATH"]
    lost = [f"{at}/{name}: not readable\n" for name in ("Lib/app", "gcc/12", "ver/.version")]
    for name in ("Lib/app", "gcc/12", "ver/.version"):
        os.chmod(f"{at}/{name}", 0)
    ver = "ver/1.9\nver/1.10\nver/1.10-rc\n"
    for words, wanted in (
        ([], f"{at}:\ngcc/9\ngcc/10\ntool\n{ver}{''.join(lost)}"),
        (["gcc/1"], f"{at}:\ngcc/10\n{lost[1]}"),
        (["to"], f"{at}:\ntool\n"),
        (["-t", "Lib"], lost[0]),
        (["-d", "gcc", "ver"], f"{at}:\ngcc/10\nver/1.10-rc\n{lost[1]}{lost[2]}"),
        (["-C", "oo"], f"{at}:\ntool\n{''.join(lost)}"),
    ):
        done = run(program, ["sh", "avail", *words], modules, **by_nobody)
        same(outcome(done), (0, "", wanted), f"avail {words}")
    said = said_to_a_terminal(program, ["avail", "g", "to"], {**modules, **PLAIN}, **by_nobody)
    same(said[0], f"{at}:\ngcc/9   gcc/10  tool\n{lost[1]}", "on a terminal")


def test_completion_leaves_out_what_cannot_be_read(program, folder, modules, tmp_path):
    program, by_nobody = as_nobody(program, folder)
    at = modules["MODULEPATH"]
    for name in ("Lib/app", "gcc/12", "ver/.version"):
        os.chmod(f"{at}/{name}", 0)
    closed = tmp_path / "closed"
    closed.mkdir()
    closed.chmod(0)
    env = {"MODULEPATH": f"{closed}:{at}:{at}", "LOADEDMODULES": "gcc/9"}
    ver = ["ver/1.9", "ver/1.10", "ver/1.10-rc"]
    for words, wanted in (
        (["avail"], ["Lib", "gcc", "tool", "ver"]),
        (["avail", "gcc/1"], ["gcc/10", "gcc/12"]),
        (["avail", "'gcc"], ["gcc/9", "gcc/10", "tool", *ver]),
        (["at", "module", "load", "Lib"], ["Lib/app"]),
        (["at", "module", "load", "ver/"], ver),
        (["at", "module", "switch", "gcc"], ["gcc/9", "gcc/10", "gcc/12"]),
    ):
        done = run(program, ["sh", "names", *words], env, **by_nobody)
        same(outcome(done), (0, "".join(f"{name}\n" for name in wanted), ""), f"names {words}")


def test_avail_names_each_of_many_directories_that_cannot_be_read(program, folder, modules):
    program, by_nobody = as_nobody(program, folder)
    at = modules["MODULEPATH"]
    closed = [f"{at}/z{number:03}" for number in range(200)]
    for path in closed:
        os.mkdir(path, 0)
    done = run(program, ["sh", "avail", "z", "tool"], modules, **by_nobody)
    same(outcome(done), (0, "", f"{at}:\ntool\n" + "".join(f"{path}: not readable\n" for path in closed)), "avail")


def test_avail_leaves_out_a_directory_that_cannot_be_read(program, folder, modules, tmp_path):
    program, by_nobody = as_nobody(program, folder)
    at = modules["MODULEPATH"]
    closed = tmp_path / "closed\x1b"
    closed.mkdir()
    closed.chmod(0)
    env = {"MODULEPATH": f"{closed}:{at}"}
    named = f"{closed}: not readable\n"
    done = run(program, ["sh", "avail", "tool"], env, **by_nobody)
    same(outcome(done), (0, "", f"{at}:\ntool\n{named}"), "into a pipe")
    said = said_to_a_terminal(program, ["avail", "tool"], {**env, **PLAIN}, **by_nobody)
    same(said[0], f"{at}:\ntool\n{named}".replace("\x1b", "?"), "on a terminal")


def test_descriptions_leave_out_what_cannot_be_read_and_name_it(program, folder):
    program, by_nobody = as_nobody(program, folder)
    env = described(folder, DESCRIBED)
    at = env["MODULEPATH"]
    os.chmod(f"{at}/d", 0)
    os.chmod(f"{at}/foo/2", 0)
    lost = f"{LEFT_OUT}{at}/d: not readable\n{at}/foo/2: not readable\n"
    for words, names in ((["whatis"], ["foo/1", "foo/10"]), (["keyword", "tool"], ["foo/1"])):
        report = "".join(WHATIS[name] for name in names)
        done = run(program, ["sh", *words], env, **by_nobody)
        same(outcome(done), (0, "", report + lost), f"{words}")


def test_is_avail_where_something_cannot_be_read(program, folder, modules):
    """What a load's search looks at and can't read is passed over; where nothing is found then, it is said."""
    program, by_nobody = as_nobody(program, folder)
    os.chmod(os.path.join(modules["MODULEPATH"], "gcc"), 0)
    found, failed = (0, "", ""), (1, "", f"ERROR: {wording(43)}\n")
    for names, wanted in (("tool", found), ("tool gcc", found), ("gcc", failed), ("no gcc", failed), ("gcc tool", found)):
        done = run(program, ["sh", "is-avail", *names.split()], modules, **by_nobody)
        same(outcome(done), wanted, f"is-avail {names}")


# A terminal that shows colours, one that shows none, and one whose user wants none.
COLOURED, PLAIN, UNWANTED = {"TERM": "vt100"}, {"TERM": "dumb"}, {"TERM": "vt100", "NO_COLOR": "1"}


def at_terminal(program, words, env, size, **more):
    """The status, and what is said to a terminal that is a function's standard output and error, and what the function
    captures. The function hands its standard output on as the program's standard input."""
    ours, its = pty.openpty()
    streams = {"stdin": its, "stdout": subprocess.PIPE, "stderr": its}
    with subprocess.Popen([program, size, *words], env=env, **streams, **more) as running:
        os.close(its)
        said = b""
        while select.select([ours], [], [], SECONDS)[0]:
            try:
                read = os.read(ours, 65536)
            except OSError:
                break
            said += read
        text = running.stdout.read()
    os.close(ours)
    return running.returncode, said.decode().replace("\r\n", "\n"), text.decode()


def said_to_a_terminal(program, words, env, size="sh:24:80", status=0, **more):
    """What is said there, and what is captured, with this status."""
    found, *said = at_terminal(program, words, env, size, **more)
    same(found, status, f"the status of {words}")
    return tuple(said)


# What a terminal of 80 columns shows of the modules, where gcc/12 and ver/1.9 are loaded.
TABLE = """\
Lib/app/1                 gcc/10                    ver/1.9(default, loaded)
Lib/app/2                 gcc/12(loaded)            ver/1.10
gcc/9                     tool                      ver/1.10-rc
"""


def test_reports_on_a_terminal(program, modules):
    at = modules["MODULEPATH"]
    loaded = {"LOADEDMODULES": "gcc/12:ver/1.9:gone/1", "_LMFILES_": f"{at}/gcc/12:{at}/ver/1.9:/m/gone/1"}
    marked = ("gcc/12(loaded)", "ver/1.9(default, loaded)")
    lines = "Lib/app/1\nLib/app/2\ngcc/9\ngcc/10\n{}\ntool\n{}\nver/1.10\nver/1.10-rc\n".format(*marked)
    names = "Currently Loaded Modulefiles:\n"
    marked = f"\033[1m{at}:\033[0m\nver/1.9\033[32m(default, loaded)\033[0m\n"
    for words, columns, terminal, report in (
        (["avail"], 80, PLAIN, f"{at}:\n{TABLE}"),
        (["avail"], 80, UNWANTED, f"{at}:\n{TABLE}"),
        (["avail"], 80, {}, f"{at}:\n{TABLE}"),
        (["avail"], 49, PLAIN, f"{at}:\n{lines}"),
        (["avail"], 1, PLAIN, f"{at}:\n{lines}"),
        (["avail", "-t"], 80, COLOURED, f"{at}:\n{lines}"),
        (["avail", "-t"], "", COLOURED, f"{at}:\n{lines}"),
        (["avail", "ver/1.9"], 80, COLOURED, marked),
        (["avail", "ver/1.9"], 80, {**COLOURED, "NO_COLOR": ""}, marked),
        (["avail", "gcc/12"], 80, COLOURED, f"\033[1m{at}:\033[0m\ngcc/12(loaded)\n"),
        (["list"], 80, PLAIN, f"{names}gcc/12   ver/1.9  gone/1\n"),
        (["list"], 16, PLAIN, f"{names}gcc/12   gone/1\nver/1.9\n"),
        (["list"], 65536, PLAIN, f"{names}gcc/12   ver/1.9  gone/1\n"),
        (["list", "-t"], 80, PLAIN, f"{names}gcc/12\nver/1.9\ngone/1\n"),
        (["list", "g"], 80, COLOURED, "\033[1mCurrently Loaded Modulefiles:\033[0m\ngcc/12  gone/1\n"),
    ):
        said = said_to_a_terminal(program, words, {**modules, **loaded, **terminal}, f"sh:40:{columns}")
        same(said, (report, ""), f"{words} in {columns} columns by {terminal}")
    contradicting = {**modules, "LOADEDMODULES": "gcc/12", **PLAIN}
    same(said_to_a_terminal(program, ["avail", "gcc/12"], contradicting)[0], f"{at}:\ngcc/12\n", "the lists")


def test_a_report_is_left_to_the_function_where_the_size_is_not_known(program, modules):
    for size in ("sh:", "sh::", "sh:24:", "sh::80", "sh:0:80", "sh:24:x", "sh:024:80", "sh:24:80:"):
        for words in (["avail"], ["list"], ["av"], ["ml"]):
            same(said_to_a_terminal(program, words, modules, size, 110), ("", ""), f"{words} by {size}")


# The reports, with what begins each, and whether it is the program's own.
REPORTS = {
    "avail": False, "avail -t": False, "list": False, "use": False, "savelist": False, "show gcc": False, "whatis": False,
    "whatis gcc": False, "keyword gcc": False, "help gcc": False, "help": True, "--version": True,
}  # fmt: skip


def test_a_function_that_hands_nothing_on_is_left_its_reports(program, modules, tmp_path):
    env = {**modules, "HOME": str(tmp_path)}
    for words, is_own in REPORTS.items():
        same(said_to_a_terminal(program, words.split(), env, "tcsh:", 110), ("", ""), f"{words} at a terminal")
        done = run(program, ["tcsh:", *words.split()], env, stdin=subprocess.DEVNULL)
        same((done.returncode, done.stdout), (110 if is_own else 0, ""), f"{words} away from one")
    same(outcome(run(program, ["tcsh:", "use", "/"], env)), (0, f"setenv MODULEPATH '/:{modules['MODULEPATH']}';\n", ""), "use")


def test_a_report_goes_to_what_standard_input_is_open_on(program, modules, tmp_path):
    env = {**modules, "HOME": str(tmp_path)}
    same(run(program, ["sh", "save", "c"], env).returncode, 0, "a collection to list")
    for words, is_own in REPORTS.items():
        with open(tmp_path / "out", "w+b") as out:
            done = run(program, ["sh::", *words.split()], env, stdin=out)
            out.seek(0)
            handed = out.read().decode()
        plain = run(program, ["sh", *words.split()], env)
        wanted = (0, "", "", plain.stdout) if is_own else (0, "", plain.stderr, "")
        same((*outcome(done), handed), wanted, f"{words} away from a terminal")
        with open(tmp_path / "out", "w+b") as out:
            here, there = pty.openpty()
            streams = {"stdin": out, "stdout": subprocess.PIPE, "stderr": there}
            done = subprocess.run([program, "sh::", *words.split()], env=env, timeout=SECONDS, check=False, **streams)
            os.close(there)
            os.close(here)
            out.seek(0)
            handed = out.read().decode()
        same((done.returncode, done.stdout, handed), (0, b"", plain.stdout + plain.stderr), f"{words} with a terminal")
    for size, status in (("sh::", 1), ("fish::", 111)):
        with open("/dev/null", "rb") as nothing:
            done = run(program, [size, "--version"], env, stdin=nothing)
        same(outcome(done), (status, "", f"ERROR: {wording(64)}\n"), "a standard input that can't be written")


def test_a_long_report_is_the_text_of_a_pager(program, modules):
    at = modules["MODULEPATH"]
    plain = f"{at}:\n" + "".join(f"{line}\n" for line in LISTED[0][1].split())
    coloured = plain.replace(f"{at}:", f"\033[1m{at}:\033[0m").replace("(default)", "\033[32m(default)\033[0m")
    lines = plain.count("\n")
    for height, more, shown, paged in (
        (lines, {}, "", coloured),
        (lines + 1, {}, coloured, ""),
        (lines, {"PAGER": "more"}, "", plain),
        (lines + 1, {"PAGER": "more"}, coloured, ""),
        (lines, {"PAGER": ""}, coloured, ""),
        (lines, {"TERM": "dumb"}, plain, ""),
        (lines, {"TERM": None}, plain, ""),
        (lines, {"NO_COLOR": "1"}, "", plain),
    ):
        env = {name: value for name, value in {**modules, **COLOURED, **more}.items() if value is not None}
        said = said_to_a_terminal(program, ["avail"], env, f"bash:{height}:1", 110 if paged else 0)
        same(said, (shown, paged), f"{height} lines with {more}")
    env = {**modules, **COLOURED}
    same(said_to_a_terminal(program, ["avail", "-t"], env, "bash:2:80")[1], "", "one name a line isn't paged")
    same(said_to_a_terminal(program, ["whatis"], env, "bash:2:80")[1], "", "what isn't in columns isn't paged")


def test_no_is_111_for_fish_where_standard_output_is_handed_on(program, modules):
    for words, no in ((["is-loaded"], True), (["is-avail", "no"], True), (["is-avail", "gcc"], False), (["nope"], True)):
        for size, status in (("fish:", 1), ("fish", 1), ("fish::", 111), ("fish:24:80", 111), ("bash:24:80", 1)):
            done = run(program, [size, *words], modules, stdin=subprocess.DEVNULL)
            same((done.returncode, done.stdout), (status if no else 0, ""), f"{words} by {size}")
    done = run(program, [b"fish::", b"load", b"\xff"])
    same(outcome(done), (111, "", "ERROR: Bad arguments\n"), "a word that is no text")


def test_the_words_of_functions(program):
    env = {**LOADED, "MODULEPATH": "/x"}
    usage = outcome(run(program, ["sh", "help"]))
    for words, wanted in (
        ([], usage),
        (["-h"], usage),
        (["-t"], outcome(run(program, ["sh", "list", "-t"], env))),
        (["--terse", "li"], outcome(run(program, ["sh", "list", "-t"], env))),
        (["-t", "list", "gcc"], outcome(run(program, ["sh", "list", "-t", "gcc"], env))),
        (["ml"], outcome(run(program, ["sh", "list"], env))),
        (["ml", "-t"], outcome(run(program, ["sh", "list", "-t"], env))),
        (["ml", "li", "mpi"], outcome(run(program, ["sh", "list", "mpi"], env))),
        (["ml", "-V"], outcome(run(program, ["sh", "--version"], env))),
        (["-V", "more"], outcome(run(program, ["sh", "--version"], env))),
        (["load"], (0, "", "")),
        (["ml", "load"], (0, "", "")),
        (["load", "--auto"], (0, "", "")),
        (["ml", "-nope"], (0, "", "")),
        (["unload", "gcc/12"], (0, "", "'gcc/12' isn't loaded, but 'gcc/12.3' is.\n")),
    ):
        same(outcome(run(program, ["sh", *words], env)), wanted, f"{words}")
    with open(os.path.join(os.path.dirname(__file__), "../../VERSION"), encoding="utf-8") as file:
        version = file.read().strip()
    said = f"modulecmd {version}, after Environment Modules 5.2\n"
    same(outcome(run(program, ["sh", "--version"])), (0, said, ""), "the version is that of the file VERSION")


def test_a_refusal_steers_no_terminal(program):
    for words, reason in (
        (["a\x1b[31mb\u202e"], "Unknown subcommand 'a?[31mb?'"),
        (["load", "a\x9bb"], wording(42, "a?b")),
        (["load", "-\x07"], "'-?' is no option here"),
        (["use", "/a:\x1b"], "Bad value of 'MODULEPATH': '/a:?' has a colon"),
        (["avail", "-\x1b"], "'avail' has no option '-?'"),
        (["restore", "\x1bx"], "Bad name of a collection: '?x'"),
    ):
        for size in ("sh", "sh:24:80", "tcsh:"):
            if size == "tcsh:" and words[0] == "avail":
                continue
            said, text = said_to_a_terminal(program, words, {"MODULEPATH": "/x", "HOME": "/h"}, size, 1)
            same((said.splitlines()[0], text), (f"ERROR: {reason}", ""), f"{words} to a terminal")
            done = run(program, [size, *words], {"MODULEPATH": "/x", "HOME": "/h"}, stdin=subprocess.DEVNULL, encoding="utf-8")
            true("?" not in done.stderr.splitlines()[0], f"{words} into a log: {done.stderr!r}")
    same(said_to_a_terminal(program, ["x"], {}, "a\x1b", 1)[0], f"ERROR: {wording(63, 'a?')}\n", "a shell")


def test_columns_are_as_wide_as_their_names(program, folder):
    """é takes one column in two bytes, and 日 two columns in three."""
    for name in ("a/日", "b/1", "é/1", "f/1"):
        folder.module(name, "")
    at = os.fsdecode(folder.modules)
    for columns, table in (
        (9, "a/日\nb/1\nf/1\né/1\n"),
        (10, "a/日  f/1\nb/1   é/1\n"),
        (16, "a/日  f/1\nb/1   é/1\n"),
        (22, "a/日  b/1   f/1   é/1\n"),
    ):
        env = {"MODULEPATH": at, "LC_ALL": "C", **PLAIN}
        same(said_to_a_terminal(program, ["avail"], env, f"sh:24:{columns}")[0], f"{at}:\n{table}", f"columns of {columns}")


# Characters that steer a terminal: C0, DEL, C1, ends of lines, and marks of direction.
STEERING = "\x01\x1b\x7f\x80\x9b\x9f\u061c\u200e\u200f\u2028\u2029\u202a\u202e\u2066\u2069"


@pytest.mark.parametrize("character", STEERING)
def test_characters_that_steer_reach_no_terminal(program, folder, character):
    folder.module(f"a{character}b/1", "")
    at = os.fsdecode(folder.modules)
    env = {"MODULEPATH": at, "LOADEDMODULES": f"a{character}b/1", "_LMFILES_": f"{at}/a{character}b/1"}

    def report(words):
        done = subprocess.run([program, "sh", *words], env=env, capture_output=True, timeout=SECONDS, check=True)
        return done.stderr.decode()

    for words in (["avail"], ["avail", "-t"]):
        same(report(words), f"{at}:\na{character}b/1\n", f"{words} into a pipe")
        same(said_to_a_terminal(program, words, env)[0], f"{at}:\na?b/1(loaded)\n", f"{words} on a terminal")
    for words in (["list"], ["list", "-t"]):
        same(report(words), f"Currently Loaded Modulefiles:\na{character}b/1\n", f"{words} into a pipe")
        shown = "Currently Loaded Modulefiles:\na?b/1\n"
        same(said_to_a_terminal(program, words, env)[0], shown, f"{words} on a terminal")


@pytest.mark.parametrize("character", STEERING)
def test_characters_that_steer_reach_no_terminal_from_descriptions(program, folder, character):
    """Tabs and the ends of lines stay."""
    text = f"a{character}b"
    helps = f"proc ModulesHelp {{}} {{puts stderr \"\t{text}\\n.\"}}\n"
    env = described(folder, {"bad/1": f"{text}\n", "foo/1": f"module-whatis {{{text}}}\n{helps}"})
    left_out = f'Left out:\nbad/1: invalid command name "{text}" (line 2)\n'
    for words, report in (
        (["whatis"], f"foo/1: {text}\n{left_out}"),
        (["keyword", "foo"], f"foo/1: {text}\n{left_out}"),
        (["help", "foo"], f"\t{text}\n.\n"),
        (["whatis", "foo"], f"foo/1: {text}\n"),
    ):
        same(outcome(run(program, ["sh", *words], env, encoding="utf-8")), (0, "", report), f"{words} into a pipe")
        shown = report.replace(character, "?")
        same(said_to_a_terminal(program, words, env)[0], shown, f"{words} on a terminal")


@pytest.mark.usefixtures("as_shipped")
def test_memory_of_listings(program, folder, modules, tmp_path):
    """Each growth that is refused ends it with its reason alone."""
    shim = refuser(os.fsencode(tmp_path))
    at = modules["MODULEPATH"]
    lists = {"LOADEDMODULES": "gcc/12:tool", "_LMFILES_": f"{at}/gcc/12:{at}/tool"}
    plain = {name.encode(): value.encode() for name, value in {**modules, **lists}.items()}
    for words in (["avail", "-d", "ver", "gcc"], ["avail", "-C", "c"], ["list", "gcc"], ["list"], ["is-avail", "nope", "ver"]):

        def asked(more, words=words):
            return outcome(run(dynamic(program), ["sh", *words], {**plain, **more}))

        refuses_each(shim, asked, (1, "", f"ERROR: {wording(31)}\n").__eq__, words)
    for words in (["avail", "-C", "c"], ["list"]):

        def shown(more, words=words):
            return at_terminal(dynamic(program), words, {**plain, b"TERM": b"vt100", **more}, "sh:24:40")

        refuses_each(shim, shown, (1, f"ERROR: {wording(31)}\n", "").__eq__, words)


def test_a_restore_loads_each_name_in_turn(program, folder, tmp_path):
    """Also one that stands there twice: behind a module that adds a directory it means another module."""
    door = f"prepend-path MODULEPATH {os.fsdecode(folder.path)}/n\n"
    for name, text in (("foo/1", ""), ("door/1", door), ("../n/foo/2", "")):
        folder.module(name, text)
    file = tmp_path / ".config" / "modulecmd" / "c"
    file.parent.mkdir(parents=True)
    file.write_text("module load foo door foo\n")
    done = run(program, ["sh", "restore", "c"], {"HOME": str(tmp_path), "MODULEPATH": os.fsdecode(folder.modules)})
    same((done.returncode, done.stderr), (0, ""), "the status, and what is said")
    same(evaluated(done.stdout.encode(), {})[b"LOADEDMODULES"], b"foo/1:door/1:foo/2", "what is loaded")


def test_the_working_directory(program, place):
    """It has the shell's name where that is one, and else the system's; where it is gone, relative words are refused."""
    link = os.path.join(place, "link")
    os.symlink(os.path.join(place, "a"), link)
    inner = os.path.join(place, "a", "in")
    os.mkdir(inner)
    for named, wanted in ((link, f"{link}/in"), (place, inner), ("link", inner), (f"{link}/../a", inner)):
        done = run(program, ["sh", "use", "in"], {"PWD": named}, link)
        same(outcome(done), (0, f"MODULEPATH='{wanted}'; export MODULEPATH;\n", ""), f"PWD is {named}")
    # The folder is gone before the program begins.
    gone = os.path.join(place, "gone")
    os.mkdir(gone)
    command = 'rmdir "$PWD" && exec "$0" "$@"'
    for word, wanted in (
        ("in", (1, "", "ERROR: There is no working directory for 'in'\n")),
        (inner, (0, f"MODULEPATH='{inner}'; export MODULEPATH;\n", "")),
    ):
        os.makedirs(gone, exist_ok=True)
        words = ["/bin/sh", "-c", command, program, "sh", "use", word]
        done = subprocess.run(words, cwd=gone, env={}, capture_output=True, text=True, timeout=SECONDS, check=False)
        same(outcome(done), wanted, word)


def test_bytes_that_are_no_text(program):
    done = run(program, [b"sh", b"use", b"/\xff"])
    same(outcome(done), (1, "", "ERROR: Bad arguments\n"), "a word")
    for word in ("use", "us", "unuse", "unus", "save"):
        done = run(program, ["sh", word, "/x"], {"MODULEPATH": b"/\xff"})
        same(outcome(done), (1, "", "ERROR: Bad value of 'MODULEPATH'\n"), f"MODULEPATH, by {word}")
    env = {"MODULEPATH": b"/\xff", **LOADED}
    same(outcome(run(program, ["sh", "is-loaded", "gcc"], env)), (0, "", ""), "what isn't about MODULEPATH")
    same(outcome(run(program, ["sh", "subcommand", "li"], env)), (0, "list\n", ""), "what isn't about MODULEPATH")


def test_a_full_device(program):
    with open("/dev/full", "wb") as full:
        words = [program, "sh", "use", "/"]
        done = subprocess.run(words, env={}, stdout=full, stderr=subprocess.PIPE, timeout=SECONDS, check=False)
    same((done.returncode, done.stderr), (1, f"ERROR: {wording(64)}\n".encode()), "a device that is full")


@pytest.mark.usefixtures("as_shipped")
def test_memory(program, tmp_path):
    """Each growth that is refused ends it with its reason alone."""
    shim = refuser(os.fsencode(tmp_path))
    env = {b"MODULEPATH": b"/x:/y", **{name.encode(): value.encode() for name, value in LOADED.items()}}
    for words in (["use", "/"], ["unuse", "/x"], ["is-loaded", "mpi"], ["subcommand", "laod"]):

        def asked(more, words=words):
            return outcome(run(dynamic(program), ["sh", *words], {**env, **more}))

        refuses_each(shim, asked, (1, "", f"ERROR: {wording(31)}\n").__eq__, words)


@pytest.mark.usefixtures("as_shipped")
def test_memory_of_collections(program, folder, tmp_path):
    """A growth that is refused ends a command of collections with a refusal, and nothing is printed for the shell."""
    shim = refuser(os.fsencode(tmp_path))
    for name in ("one/1", "two/1"):
        folder.module(name, f"setenv A_{name[:3]} 1\nprepend-path PATH /opt/bin\n")
    modules = os.fsdecode(folder.modules)
    env = {b"HOME": os.fsencode(tmp_path), b"MODULEPATH": os.fsencode(modules), b"PATH": b"/usr/bin"}
    env |= {b"LOADEDMODULES": b"one/1", b"_LMFILES_": os.fsencode(f"{modules}/one/1"), b"A_one": b"1"}
    for words in (["save", "c"], ["saveshow", "c"], ["savelist"], ["restore", "c"], ["reload"]):

        def asked(more, words=words):
            return outcome(run(dynamic(program), ["sh", *words], {**env, **more}))

        refuses_each(shim, asked, lambda it: it[0] == 1 and it[1] == "" and it[2].startswith("ERROR: "), words)


@pytest.mark.usefixtures("as_shipped")
def test_memory_of_descriptions(program, folder, tmp_path):
    """A growth that is refused ends a report with a refusal; a module isn't left out for want of memory."""
    shim = refuser(os.fsencode(tmp_path))
    help_text = "proc ModulesHelp {} {puts stderr help}\n"
    variables = described(folder, {"bad/1": "nope\n", "foo/1": f"module-whatis one\n{help_text}"})
    env = {name.encode(): value.encode() for name, value in variables.items()}
    for words in (["whatis"], ["keyword", "ONE"], ["help", "foo"]):

        def asked(more, words=words):
            return outcome(run(dynamic(program), ["sh", *words], {**env, **more}))

        refuses_each(shim, asked, (1, "", f"ERROR: {wording(31)}\n").__eq__, words)
