"""What the program `module` says of a refused command: where a modulefile failed, and what to do. The files are typed
by hand, and each row says in which line the command stands that no modulefile may have (modulefile(5))."""

import os
import pty
import re
import select
import subprocess

import pytest

from tests.lib.harness import FORCED, SECONDS, dynamic, refuser, refuses_each, same

COOKIE = "#%Module\n"

# Words that make no request, one for each name of a subcommand of modulecmd whose words can be wrong.
REFUSED_WORDS = (
    "load", "add", "unload", "rm", "switch a b c", "swap", "purge x", "list x", "show", "display", "whatis",
)  # fmt: skip

# A modulefile behind its first line, the line in which its command fails, and that command.
FILES = [
    ("setenv A b\nbogus x\nsetenv C d\n", 3, "bogus x"),
    ("bogus", 2, "bogus"),
    ("if {1} {\n  setenv A b\n  bogus x\n  setenv C d\n}\n", 4, "bogus x"),
    ("if {0} {\n  bogus x\n} else {\n  setenv A\n}\n", 5, "setenv A"),
    ("if {0} {\n  bogus x\n} elseif {1} {\n  bogus y\n}\n", 5, "bogus y"),
    ("foreach x {1 2 3} {\n  if {$x == 2} {\n    bogus $x\n  }\n}\n", 4, "bogus $x"),
    ("for {set i 0} {$i < 3} {incr i} {\n  setenv A $i\n  prepend-path P\n}\n", 4, "prepend-path P"),
    ("set i 0\nwhile {$i < 3} {\n  incr i\n  bogus\n}\n", 5, "bogus"),
    ("proc p {x} {\n  setenv A $x\n  bogus $x\n}\nsetenv B c\np 1\n", 4, "bogus $x"),
    ("proc q {} {\n  bogus\n}\nproc p {} {\n  q\n}\np\n", 3, "bogus"),
    ("switch a {\n  b {setenv A b}\n  a {\n    bogus\n  }\n}\n", 5, "bogus"),
    ("switch a b {setenv A b} a {\n  bogus\n}\n", 3, "bogus"),
    ("catch {\n  setenv A b\n  module load gcc\n}\n", 4, "module load gcc"),
    ("# bogus\nsetenv A b ; bogus\n", 3, "bogus"),
    ("if {[bogus]} {\n  setenv A b\n}\n", 2, "if {[bogus]} {"),
    ("setenv A [bogus]\n", 2, "setenv A [bogus]"),
    ("setenv 1A b\n", 2, "setenv 1A b"),
    ("setenv A b\nexit 1\nbogus\n", 3, "exit 1"),
    ("setenv A b\nputs stdout \u00e4\n", 3, "puts stdout \u00e4"),
    ("bogus " + 80 * "x" + "\n", 2, "bogus " + 54 * "x" + "..."),
    ("bogus a\tb\n", 2, "bogus a?b"),
    ("setenv A b\nbogus \\\n  x\n", 3, "bogus \\"),
    ("catch {\n  error x\n}\nbogus\n", 5, "bogus"),
    ("proc p {x} {\n  if {$x} {\n    bogus\n  }\n}\np 0\np 1\n", 4, "bogus"),
    ('if 1 "bogus x"\n', 2, 'if 1 "bogus x"'),
    ("if {1} {bogus x}; setenv A b\n", 2, "bogus x"),
    ("if {1} {\n  setenv A \\\n    b\n  bogus x\n}\n", 5, "bogus x"),
    ("setenv A \u00e4\nif {1} {\n  bogus \u00e4\n}\n", 4, "bogus \u00e4"),
    ("proc p {} {\n  break\n}\np\n", 3, "break"),
]


@pytest.fixture(scope="session")
def program(built):
    return built("module")


@pytest.fixture
def site(tmp_path):
    """A directory of modulefiles, and what writes one."""

    def write(name, text, cookie=COOKIE):
        path = tmp_path / "m" / name
        path.parent.mkdir(parents=True, exist_ok=True)
        path.write_text(cookie + text)
        return str(path)

    (tmp_path / "m").mkdir()
    write.modules = str(tmp_path / "m")
    return write


def refused(program, words, env):
    """What is said where standard error is no terminal."""
    done = subprocess.run([program, "sh", *words], env=env, capture_output=True, text=True, timeout=SECONDS, check=False)
    same((done.returncode, done.stdout), (1, ""), "the status and standard output")
    return done.stderr


def explained(program, words, env):
    """What is said behind the reason where standard error is no terminal."""
    return behind_the_reason(refused(program, words, env))


def at_terminal(command, env, status):
    """What a command says on standard error, which is a terminal. It has no standard output."""
    here, there = pty.openpty()
    with subprocess.Popen(command, env=env, stdout=subprocess.PIPE, stderr=there) as run:
        os.close(there)
        said = b""
        while True:
            ready, _, _ = select.select([here], [], [], SECONDS)
            try:
                read = os.read(here, 65536) if ready else b""
            except OSError:
                read = b""
            if not read:
                break
            said += read
        same(run.stdout.read(), b"", "standard output")
    os.close(here)
    same(run.returncode, status, "the status")
    return said.decode().replace("\r\n", "\n")


def told(program, words, env, shell="sh"):
    """What is said to a user at a terminal behind the reason."""
    return behind_the_reason(at_terminal([program, shell, *words], env, 1))


def behind_the_reason(said):
    """What stands behind the line with the reason."""
    reason, _, more = said.partition("\n")
    same(reason.startswith("ERROR: "), True, f"{said!r} begins with the reason")
    return more


def loaded(modules, *names):
    return {
        "MODULEPATH": modules,
        "LOADEDMODULES": ":".join(names),
        "_LMFILES_": ":".join(f"{modules}/{name}" for name in names),
    }


# What is said of commands among these that are left out.
INSTEAD = {
    "module load": 'A modulefile loads no other: it says "prereq NAME".',
    "puts stdout": 'A message goes to stderr ("puts stderr TEXT"), and setenv sets variables.',
}


@pytest.mark.parametrize("text, line, command", FILES)
def test_the_command_that_failed(program, site, text, line, command):
    path = site("foo/1", text)
    env = {"MODULEPATH": site.modules}
    advice = "".join(f"{INSTEAD[words]}\n" for words in INSTEAD if command.startswith(words))
    same(explained(program, ["load", "foo"], env), f"  in {path}, line {line}\n{advice}", "what a log has")
    said = told(program, ["load", "foo"], env)
    same(said.splitlines()[0], f"  foo/1 ({path}, line {line}): {command}", "what a user is told")


def test_the_file_of_several(program, site):
    env = {"MODULEPATH": site.modules}
    site("one/1", "setenv A b\n")
    path = site("two/1", "setenv B c\nbogus\n")
    site("three/1", "bogus\n")
    for command in ("load one two three", "show one two", "whatis one two/1", "switch two"):
        same(explained(program, command.split(), env), f"  in {path}, line 3\n", command)


def test_the_file_of_a_default(program, site):
    site("foo/1", "setenv A b\n")
    path = site("foo/2", "\nbogus\n")
    site("foo/.version", "set ModulesVersion 2\n")
    same(explained(program, ["load", "foo"], {"MODULEPATH": site.modules}), f"  in {path}, line 3\n", "foo/2")


def test_a_directory_that_a_module_before_it_adds(program, site, tmp_path):
    more = tmp_path / "more"
    (more / "deep").mkdir(parents=True)
    (more / "deep" / "1").write_text(COOKIE + "\n\nbogus\n")
    site("one/1", f"prepend-path MODULEPATH {more}\n")
    said = explained(program, ["load", "one", "deep"], {"MODULEPATH": site.modules})
    same(said, f"  in {more}/deep/1, line 4\n", "the file in the new directory")


def test_what_is_unloaded(program, site):
    site("one/1", "setenv A b\n")
    path = site("two/1", "setenv B c\nif {[module-info mode unload]} {\n  bogus\n}\n")
    env = loaded(site.modules, "one/1", "two/1")
    for words in (["unload", "one", "two"], ["purge"], ["switch", "two", "one"]):
        same(explained(program, words, env), f"  in {path}, line 4\n", f"{words}")


def test_what_the_file_has_said_before(program, site):
    path = site("foo/1", 'puts stderr "Ask help@site."\nputs stderr x\nexit 1\nputs stderr y\n')
    said = told(program, ["load", "foo"], {"MODULEPATH": site.modules})
    same(said, f"Ask help@site.\nx\n  foo/1 ({path}, line 4): exit 1\n", "messages")


def test_nothing_of_what_is_accepted_or_unwanted(program, site):
    site("foo/1", "setenv A b\n")
    site("bar/1", "bogus\n")
    env = {"MODULEPATH": site.modules}
    same(at_terminal([program, "sh", "explain", "load", "foo"], env, 0), "", "an accepted command")
    for tell in (explained, told):
        same(tell(program, ["load", "bar"], {**env, "MODULECMD_EXPLAIN": "no"}), "", "what isn't wanted")
    same(explained(program, ["load", "nothing"], env), "", "a name that isn't found, in a log")


def test_the_word_of_older_functions(program, site):
    """A function of an earlier version asks for it by itself, behind a refusal."""
    path = site("bar/1", "bogus\n")
    env = {"MODULEPATH": site.modules}
    for words in (["load", "bar"], ["show", "bar"]):
        command = [program, "sh", "explain", *words]
        done = subprocess.run(command, env=env, capture_output=True, text=True, timeout=SECONDS, check=False)
        same((done.returncode, done.stdout, done.stderr), (0, "", f"  in {path}, line 2\n"), "what a log has")
        same(at_terminal(command, env, 0), told(program, words, env), "what a user is told")
    same(at_terminal([program, "sh", "explain", "load"], env, 0), "usage: module load NAME...\n", "a load without names")


# Words that don't fit a subcommand of the function alone. (`use` has two usages.)
OF_THE_FUNCTION = (
    "keyword", "reload a", "forget", "is-avail", "unuse", "save a b", "restore a b", "savelist a", "saveshow a b",
    "saverm",
)  # fmt: skip


def test_a_usage_is_that_of_help(program):
    """Behind words that are refused stands what `help` has of their subcommand, without the option `--auto`."""
    done = subprocess.run([program, "sh", "help"], capture_output=True, text=True, timeout=SECONDS, check=True)
    found = re.findall(r"^  ([a-z-]+(?:, [a-z-]+)*)(.*?)(?:  |$)", done.stdout.split("Subcommands:\n")[1], re.MULTILINE)
    usages = {name: names.split(", ")[0] + rest.replace(" [--auto]", "") for names, rest in found for name in names.split(", ")}
    for words in REFUSED_WORDS:
        said = at_terminal([program, "sh", "explain", *words.split()], {}, 0)
        same(said, f"usage: module {usages[words.split()[0]]}\n", f"what is said behind {words}")
    for words in OF_THE_FUNCTION:
        said = told(program, words.split(), {"HOME": "/"})
        same(said, f"usage: module {usages[words.split()[0]]}\n", f"what is said behind {words}")


def test_an_exchange(program, site):
    """Its unload is explained, or the load behind it."""
    bad = site("bad/1", "bogus\n")
    stays = site("stays/1", "if {[module-info mode unload]} {bogus}\n")
    site("gone/1", "setenv A b\n")
    site("later/1", "if {[info exists env(A)]} {setenv B c} else {\n  bogus\n}\n")
    later = os.path.join(site.modules, "later/1")
    env = {**loaded(site.modules, "gone/1", "stays/1"), "A": "b"}
    for words, where in (
        ("ml -gone bad", f"{bad}, line 2"),
        ("ml bad -stays", f"{stays}, line 2"),
        ("ml later -gone", f"{later}, line 3"),
        ("ml --auto later -gone", f"{later}, line 3"),
    ):
        same(explained(program, words.split(), env), f"  in {where}\n", words)
    same(explained(program, ["ml", "-gone", "nope"], env), "", "a name that isn't found")
    same(explained(program, ["ml", "-gone", "later", "--force"], env), FORCED, "an option")


# What stands in the place of an alias.
LEFT_OUT = "A modulefile changes variables alone: no alias, function or completion."

# The command, the names of loaded modules, and what a user is told, as a log is. {} is the folder of the modulefiles.
ADVICE = [
    ("load gcc/13.2.0", ["gcc/9.3.0"], "Try: module switch gcc/9.3.0 gcc/13.2.0\n"),
    ("load clang", ["gcc/9.3.0"], "Try: module switch gcc/9.3.0 clang\n"),
    ("load clang", ["gcc/9.3.0", "openmpi/4"], ""),
    ("switch openmpi clang", ["gcc/9.3.0", "openmpi/4"], ""),
    ("load openmpi", [], "Try: module load --auto openmpi (as load gcc openmpi)\n"),
    ("load lost", [], "Not found either: nowhere neither\n"),
    ("unload gcc", ["gcc/9.3.0", "openmpi/4"], "Try: module unload --auto gcc (as unload openmpi/4 gcc)\n"),
    ("load GCC", [], "Did you mean gcc?\n"),
    ("load gcc/13", [], "Did you mean gcc/13.2.0?\n"),
    ("load gcc/latest", [], "Did you mean gcc?\n"),
    ("load gc/9", [], "Did you mean gcc?\n"),
    ("load gcc/", [], "Did you mean gcc/9.3.0, gcc/13.2.0?\n"),
    ("load gcc@13", [], "Did you mean gcc/13.2.0?\n"),
    ("load gcc@latest", [], "Did you mean gcc?\n"),
    ("load @", [], ""),
    ("load opnempi", [], "Did you mean openmpi?\n"),
    ("load xyzzy", [], ""),
    ("load {}/gcc/9.3.0", [], 'A module is named, not its file: "module load gcc/9.3.0", which is below {}.\n'),
    ("show {}/gcc", [], 'A module is named, not its file: "module load gcc", which is below {}.\n'),
    ("load {}x/gcc/9.3.0", [], 'A module is named, not its file: "module use DIRECTORY", then "module load NAME".\n'),
    ("load {}//gcc", [], 'A module is named, not its file: "module use DIRECTORY", then "module load NAME".\n'),
    ("load /", [], 'A module is named, not its file: "module use DIRECTORY", then "module load NAME".\n'),
    ("load ./gcc", [], ""),
    ("unload", [], "usage: module unload NAME...\n"),
    ("switch a b c", [], "usage: module switch [OLD] NEW\n"),
    ("keyword", [], "usage: module keyword TEXT\n"),
    ("apropos a b", [], "usage: module keyword TEXT\n"),
    ("reload a", [], "usage: module reload\n"),
    ("forget", [], "usage: module forget [--settings-stay] NAME...\n"),
    ("is-avail", [], "usage: module is-avail NAME...\n"),
    ("use --", [], "usage: module use [-a] DIR...\n"),
    ("unuse", [], "usage: module unuse DIR...\n"),
    ("save a b", [], "usage: module save [COLLECTION]\n"),
    ("restore a b", [], "usage: module restore [COLLECTION]\n"),
    ("savelist a", [], "usage: module savelist\n"),
    ("saveshow a b", [], "usage: module saveshow [COLLECTION]\n"),
    ("saverm", [], "usage: module saverm COLLECTION\n"),
    ("help gcc/13", [], "Did you mean gcc/13.2.0?\n"),
    ("help gcc@13", [], "Did you mean gcc/13.2.0?\n"),
    ("help xyzzy", [], ""),
]


@pytest.fixture
def compilers(site):
    site("gcc/9.3.0", "conflict gcc\nsetenv CC gcc\n")
    site("gcc/13.2.0", "conflict gcc\nsetenv CC gcc\n")
    site("clang/17", "conflict gcc\nsetenv CC clang\n")
    site("openmpi/4", "prereq intel gcc\nsetenv MPI 4\n")
    site("lost/1", "prereq nowhere neither\n")
    return site


@pytest.mark.parametrize("command, names, said", ADVICE)
def test_what_to_do(program, compilers, command, names, said):
    env = loaded(compilers.modules, *names) if names else {"MODULEPATH": compilers.modules}
    if names:
        env |= {"__MODULES_LMCONFLICT": "gcc/9.3.0&gcc"}
    if "openmpi/4" in names:
        env |= {"__MODULES_LMPREREQ": "openmpi/4&intel|gcc"}
    words, said = command.replace("{}", compilers.modules).split(), said.replace("{}", compilers.modules)
    env["HOME"] = compilers.modules
    same(told(program, words, env), said, "what a user is told")
    same(explained(program, words, env), said, "what a log has")
    same(told(program, words, {**env, "MODULECMD_EXPLAIN": "no"}), "", "what isn't wanted")


def test_the_first_directory_with_the_path(program, compilers):
    """Directories are compared as they are spelled in MODULEPATH, and the rest has to be a name."""
    top, here = os.path.dirname(compilers.modules), compilers.modules
    for path, below in ((f"{top}:{here}", ("m/gcc/9", top)), (f"{top}/.:{here}/:{here}", ("gcc/9", here))):
        said = f'A module is named, not its file: "module load {below[0]}", which is below {below[1]}.\n'
        same(explained(program, ["load", f"{here}/gcc/9"], {"MODULEPATH": path}), said, path)
    elsewhere = 'A module is named, not its file: "module use DIRECTORY", then "module load NAME".\n'
    for env in ({}, {"MODULEPATH": f"{here}/gcc/9"}, {"MODULEPATH": os.path.dirname(top)}):
        same(explained(program, ["load", f"{here}/gcc/.9"], env), elsewhere, f"{env}")


# Options behind subcommands, and how the line begins that follows their refusal.
OPTIONS = [
    ("load --force gcc", "Nothing is forced here: "),
    ("unload -f gcc", "Nothing is forced here: "),
    ("--force purge", "Nothing is forced here: "),
    ("purge -f", "Nothing is forced here: "),
    ("-s load gcc", "Here: MODULECMD_EXPLAIN=no "),
    ("load --silent gcc", "Here: MODULECMD_EXPLAIN=no "),
    ("avail --long", "This isn't done here: "),
    ("list -l", "This isn't done here: "),
    ("avail -j", "This isn't done here: "),
    ("load -v gcc", 'Here: "module show NAME" '),
    ("switch --auto gcc", 'Here: "module load --auto NAME" '),
    ("forget --auto gcc", 'Here: "module load --auto NAME" '),
    ("list -C gcc", 'Here it is an option of "module avail".'),
    ("load -t gcc", 'Here it is an option of "module avail" and "module list".'),
    ("load --help", 'Here: "module help", '),
    ("unuse -t a", 'Here it is an option of "module avail" and "module list".'),
    ("use --nope a", '"module help" lists the options.'),
    ("avail --nope", '"module help" lists the options.'),
    ("-Q", '"module help" lists the options.'),
]


@pytest.mark.parametrize("command, begins", OPTIONS)
def test_an_option_of_other_tools(program, command, begins):
    for tell in (explained, told):
        said = tell(program, command.split(), {})
        same((said.startswith(begins), said.count("\n"), said[-2:]), (True, 1, ".\n"), f"{said!r}")
        same(tell(program, command.split(), {"MODULECMD_EXPLAIN": "no"}), "", "what isn't wanted")


def test_a_subcommand_of_other_tools_where_nothing_more_is_wanted(program):
    for word in ("spider", "nope"):
        same(explained(program, [word], {"MODULECMD_EXPLAIN": "no"}), "", word)


def test_help_of_a_file_that_fails(program, site):
    """Its place is said as behind a refused load."""
    left_out = site("foo/1", "set-alias a b\n")
    site("bar/1", "proc ModulesHelp {} {\n  puts stderr x\n  bogus\n}\n")
    site("good/1", "")
    env = {"MODULEPATH": site.modules}
    for words in (["help", "foo"], ["help", "good", "foo"], ["--help", "foo"]):
        same(explained(program, words, env), f"  in {left_out}, line 2\n{LEFT_OUT}\n", f"{words} in a log")
        same(told(program, words, env), f"  foo/1 ({left_out}, line 2): set-alias a b\n{LEFT_OUT}\n", f"{words}")
        same(told(program, words, {**env, "MODULECMD_EXPLAIN": "no"}), "", "what isn't wanted")
    # The procedure is called behind the file, so a place in that text isn't one of the file.
    for tell in (explained, told):
        same(tell(program, ["help", "bar"], env), "", "where the procedure fails")


def test_a_default_file_with_a_fault(program, site):
    site("foo/1", "")
    site("foo/.modulerc", "module-alias bar foo/1\n")
    said = 'It names a default: "module-version NAME/VERSION default" in .modulerc, "set ModulesVersion VERSION" in .version.\n'
    for words in (["load", "foo"], ["load", "--auto", "foo"], ["show", "foo"], ["help", "foo"]):
        for tell in (explained, told):
            same(tell(program, words, {"MODULEPATH": site.modules}), said, f"{words}")


# The command in a shell, the loaded module, and what a user is told: no change that a shell has no text for is advised,
# as of a value with a newline in csh.
SAYABLE = [
    ("sh", "load lines", "plain/1", "Try: module switch plain/1 lines\n"),
    ("csh", "load lines", "plain/1", "Try: module unload plain/1\n"),
    ("tcsh", "load lines", "plain/1", "Try: module unload plain/1\n"),
    ("tcsh", "load lines other", "plain/1", "Try: module switch plain/1 other\n"),
    ("fish", "load lines", "away/1", "Try: module switch away/1 lines\n"),
    ("tcsh", "load lines", "away/1", ""),
]


@pytest.mark.parametrize("shell, command, name, said", SAYABLE)
def test_what_is_advised_has_a_text_in_the_shell(program, site, shell, command, name, said):
    site("plain/1", "setenv A b\n")
    site("away/1", 'unsetenv Y "p\\nq"\n')
    site("lines/1", 'conflict plain away\nsetenv X "p\\nq"\n')
    site("other/1", "conflict plain\n")
    same(told(program, command.split(), loaded(site.modules, name), shell), said, "what a user is told")


# A command that is automated, the names of loaded modules, what a user is told behind the reason, and what a log has. {}
# is the folder of the modulefiles.
AUTOMATED = [
    ("load bad", "", "  bad/1 ({}/bad/1, line 3): bogus\n", "  in {}/bad/1, line 3\n"),
    ("load needs", "", "  bad/1 ({}/bad/1, line 3): bogus\n", "  in {}/bad/1, line 3\n"),
    ("load good deep good", "", "  bad/1 ({}/bad/1, line 3): bogus\n", "  in {}/bad/1, line 3\n"),
    ("load late", "", "  late/1 ({}/late/1, line 4): bogus\n", "  in {}/late/1, line 4\n"),
    ("load GCC", "", "Did you mean gcc?\n", "Did you mean gcc?\n"),
    ("load lost", "", "Not found either: nowhere neither\n", "Not found either: nowhere neither\n"),
    ("load ring", "", "", ""),
    ("load newer", "gcc/9.3.0", "Try: module switch gcc/9.3.0 gcc/13.2.0\n", "Try: module switch gcc/9.3.0 gcc/13.2.0\n"),
    ("unload stays", "stays/1", "  stays/1 ({}/stays/1, line 3): bogus\n", "  in {}/stays/1, line 3\n"),
    ("unload good", "good/1 stays/1", "  stays/1 ({}/stays/1, line 3): bogus\n", "  in {}/stays/1, line 3\n"),
    ("unload", "", "usage: module unload NAME...\n", "usage: module unload NAME...\n"),
]


@pytest.fixture
def automated(site):
    site("bad/1", "setenv A b\nbogus\n")
    site("needs/1", "prereq bad\n")
    site("good/1", "setenv G on\n")
    site("deep/1", "prereq good\nprereq needs\n")
    site("late/1", "prereq good\nif {[is-loaded good]} {\n  bogus\n}\n")
    for version in ("9.3.0", "13.2.0"):
        site(f"gcc/{version}", "conflict gcc\n")
    site("newer/1", "prereq gcc/13.2.0\n")
    site("lost/1", "prereq nowhere neither\n")
    site("ring/1", "prereq ring/1\n")
    site("stays/1", "prereq good\nif {[module-info mode unload]} {bogus}\n")
    return site


@pytest.mark.parametrize("command, names, told, logged", AUTOMATED)
def test_an_automated_command(program, automated, command, names, told, logged):
    """It is explained by the program itself, behind its reason."""
    env = loaded(automated.modules, *names.split()) if names else {"MODULEPATH": automated.modules}
    if "stays" in names and "good" in names:
        env |= {"__MODULES_LMPREREQ": "stays/1&good"}
    verb, *asked = command.split()
    for words, more in (([verb, "--auto", *asked], {}), ([verb, *asked], {"MODULES_AUTO_HANDLING": "1"})):
        call = [program, "sh", *words]
        said = at_terminal(call, {**env, **more}, 1)
        same(behind_the_reason(said), told.replace("{}", automated.modules), "what a user is told")
        done = subprocess.run(call, env={**env, **more}, capture_output=True, text=True, timeout=SECONDS, check=False)
        same((done.returncode, done.stdout), (1, ""), "the status and standard output")
        same(behind_the_reason(done.stderr), logged.replace("{}", automated.modules), "what a log has")
        unwanted = at_terminal(call, {**env, **more, "MODULECMD_EXPLAIN": "no"}, 1)
        same(behind_the_reason(unwanted), "", "what isn't wanted")


def test_what_stands_in_the_place_of_what_is_left_out(program, site):
    path = site("foo/1", "set-alias a b\n")
    env = {"MODULEPATH": site.modules}
    same(told(program, ["load", "foo"], env), f"  foo/1 ({path}, line 2): set-alias a b\n{LEFT_OUT}\n", "what a user is told")
    same(explained(program, ["load", "foo"], env), f"  in {path}, line 2\n{LEFT_OUT}\n", "what a log has")


def test_control_characters(program, site):
    """None reaches a terminal; a log has the bytes as they are."""
    path = site("f\x9boo/1", 'puts stderr "a\x1b\u202eb"\nbogus \x1b\n')
    env = {"MODULEPATH": site.modules}
    there = path.replace("\x9b", "?")
    said = told(program, ["load", "f\x9boo"], env)
    same(said, f"a??b\n  f?oo/1 ({there}, line 3): bogus ?\n", "what a user is told")
    same(explained(program, ["load", "f\x9boo"], env), f"  in {path}, line 3\n", "what a log has")


def test_where_nothing_is_searched(program):
    said = told(program, ["load", "gcc"], {})
    same(("No MODULEPATH is set" in said, "etc/modulespath" in said), (True, True), said)
    said = told(program, ["load", "gcc"], {"MODULEPATH": "/nowhere:/neither"})
    same(said, "None of the directories of MODULEPATH is there: /nowhere:/neither\n", "directories that aren't there")


def test_where_reading_failed(program, site):
    """A ring of links can't be read, whoever reads it."""
    os.symlink("ring", os.path.join(site.modules, "ring"))
    env = {"MODULEPATH": site.modules}
    same(explained(program, ["load", "ring"], env), f"  at {site.modules}/ring\n", "what a log has")
    same(told(program, ["load", "ring"], env).startswith(f"  {site.modules}/ring: "), True, "what a user is told")


@pytest.mark.usefixtures("as_shipped")
def test_memory(program, site, tmp_path):
    """Where memory is refused less is said, and the status stays."""
    site("foo/1", "if {1} {\n  bogus\n}\n")
    shim = refuser(os.fsencode(tmp_path))
    env = {b"MODULEPATH": os.fsencode(site.modules)}

    def asked(more):
        done = subprocess.run(
            [dynamic(program), "sh", "explain", "load", "foo"],
            env={**env, **more}, capture_output=True, text=True, timeout=SECONDS, check=False,
        )
        return done.returncode, done.stdout, done.stderr

    def is_less(it):
        return it[1] == "" and (it == (0, "", "") or it[2].startswith("ERROR: Out of memory"))

    refuses_each(shim, asked, is_less, "explain")
