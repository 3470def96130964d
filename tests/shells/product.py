"""What `make install` and `make uninstall` do, and what the usage, the pages and the README say."""

import os
import re
import shutil
import subprocess

import pytest

from tests.lib.examples import wording
from tests.lib.harness import loaded, same, true
from tests.shells.shells import FAMILIES, SHELLS, content, in_sh, in_shells

HERE = os.path.dirname(os.path.abspath(__file__))
TOP = os.path.dirname(os.path.dirname(HERE))

# The modulefiles that the pages show.
SITES = os.path.join(TOP, "tests", "sites", "examples")
EXAMPLES = sorted(
    os.path.relpath(os.path.join(at, name), SITES) for at, _, names in os.walk(SITES) for name in names
)

# Every file below the prefix.
FILES = [
    "bin/modaudit",
    "bin/modcheck",
    "bin/modport",
    "bin/modulecmd",
    "completion/_module",
    "completion/bash",
    "completion/fish",
    "completion/tcsh",
    "etc/modulespath",
    "etc/modulespath.example",
    *(f"init/{name}" for name in sorted([*FAMILIES, "pager", "profile.csh", "profile.sh", "python.py"])),
    "libexec/ml.csh",
    "libexec/module",
    "libexec/module.csh",
    "share/doc/SITES.md",
    "share/doc/USERS.md",
    *(f"share/examples/{name}" for name in EXAMPLES),
    "share/man/man1/modaudit.1",
    "share/man/man1/modcheck.1",
    "share/man/man1/modport.1",
    "share/man/man1/module.1",
    "share/man/man5/modulefile.5",
]

SCRIPTS = (
    "init/sh",
    "init/bash",
    "init/profile.sh",
    "completion/bash",
    "init/pager",
    "demo/demo.sh",
    "demo/modulecmd.sh",
    ".ci/run",
)

SUBCOMMAND = re.compile(r"^  ([a-z][a-z, -]*?)(?: [A-Z\[]|  |$)", re.MULTILINE)


def subcommands():
    """The names in the synopsis of module(1), and those in its first list, which are modulecmd's too, except `help`."""
    synopsis, description = content(os.path.join(TOP, "man", "module.1")).decode().split(".Sh DESCRIPTION\n")
    names = re.findall(r"[a-z-]+", " ".join(re.findall(r"^\.Cm (.*)", synopsis, re.MULTILINE)))
    items = re.findall(r"^\.It Cm .*", description.split(".El\n")[0], re.MULTILINE)
    return sorted(set(names)), [name for name in re.findall(r"Cm ([a-z-]+)", " ".join(items)) if name != "help"]


SUBCOMMANDS, OF_PROGRAM = subcommands()


def make(*words):
    return subprocess.run(["make", "-s", *words], cwd=TOP, stdin=subprocess.DEVNULL, capture_output=True, check=False)


def made(*words):
    done = make(*words)
    same((done.stderr, done.returncode), (b"", 0), f"make {' '.join(words)}")


def below(path):
    found = []
    for folder, _, names in os.walk(path):
        found += [os.path.relpath(os.path.join(folder, name), path) for name in names]
    return sorted(found)


def test_scripts_name_the_shells_of_the_table():
    """An install tries each of them, and what the suites need of them is installed for the tests."""
    tried = re.findall(r"^ *try_shell (\w+) ", content(os.path.join(TOP, "package", "install.sh")).decode(), re.MULTILINE)
    same(set(tried), set(FAMILIES), "the shells in which an install loads a module")
    needed = re.findall(r"^ *need \S+ (\S+)$", content(os.path.join(TOP, "tools", "deps.sh")).decode(), re.MULTILINE)
    same({it.command[0] for it in SHELLS if it.is_needed} - set(needed), set(), "the shells that deps.sh doesn't install")


@pytest.mark.usefixtures("as_shipped")
def test_install_lays_out_every_file_and_uninstall_takes_it_away(folder, program_folder):
    place = os.path.join(folder.path, b"new place").decode()
    made("install", f"PROGRAMS={program_folder}", f"PREFIX={place}")
    same(below(place), sorted(FILES), "the files")
    for name in FILES:
        text = content(os.path.join(place, name))
        true(text, f"{name} isn't empty")
        marks = [mark for mark in (b"@prefix@", b"@shell@", b"@version@", b"# zsh: ") if mark in text]
        same(marks if not name.startswith("bin/") else [], [], f"what isn't filled in, in {name}")
    made("uninstall", f"PREFIX={place}")
    same(os.path.exists(place), False, "the folder is gone")


@pytest.mark.usefixtures("as_shipped")
def test_install_for_a_package_names_the_final_place(folder, program_folder):
    here = folder.path.decode()
    stage, final = os.path.join(here, "stage"), os.path.join(here, "final place")
    made("install", f"PROGRAMS={program_folder}", f"DESTDIR={stage}", f"PREFIX={final}/")
    same(below(stage + final), sorted(FILES), "the files")
    for name in FILES:
        true(os.fsencode(stage) not in content(stage + os.path.join(final, name)), f"{name} doesn't name DESTDIR")
    os.rename(stage + final, final)
    folder.module("foo/1.0", "setenv FOO on\n")
    lines = f". '{final}/init/sh'\nmodule load foo/1.0\nmodule --version > /dev/null\nprintf '%s\\n' \"$FOO\"\n"
    done = subprocess.run(["sh", "-c", lines], env=folder.environment(), capture_output=True, check=False)
    same((done.stdout, done.stderr), (b"on\n", b""), "a load where it was moved to")
    made("uninstall", f"PREFIX={final}")
    same(os.path.exists(final), False, "the folder is gone")


@pytest.mark.usefixtures("as_shipped")
def test_install_keeps_the_site_s_own_file(folder, program_folder):
    place = os.path.join(folder.path, b"p").decode()
    made("install", f"PROGRAMS={program_folder}", f"PREFIX={place}")
    own = os.path.join(place, "etc/modulespath")
    same(content(own), content(os.path.join(place, "etc/modulespath.example")), "the first")
    with open(own, "wb") as file:
        file.write(b"/site\n")
    made("install", f"PROGRAMS={program_folder}", f"PREFIX={place}")
    same(content(own), b"/site\n", "behind a second install")
    made("uninstall", f"PREFIX={place}")
    same(below(place), ["etc/modulespath"], "what uninstall leaves")


def elsewhere(folder):
    """The environment with an exported CDPATH, which names folders that are called as those of the repository."""
    place = os.path.join(folder.path.decode(), "elsewhere")
    for name in ("tools", "demo", ".ci"):
        os.makedirs(os.path.join(place, name))
    return {**os.environ, "CDPATH": place}


def test_an_exported_cdpath_leads_no_script_astray(folder):
    env = elsewhere(folder)
    tools = os.path.join(folder.path.decode(), "tools")
    os.mkdir(tools)
    with open(os.path.join(tools, "make"), "w") as file:
        file.write('#!/bin/sh\necho "$PWD $*"\n')
    os.chmod(os.path.join(tools, "make"), 0o755)
    env["PATH"] = f"{tools}:{env['PATH']}"
    for words, wanted in (([".ci/run"], f"{TOP} test\n"), (["tools/deps.sh", "build"], "")):
        done = subprocess.run(["sh", *words], cwd=TOP, env=env, capture_output=True, check=False)
        same((done.stdout.decode(), done.stderr, done.returncode), (wanted, b"", 0), f"what {words} writes")


@pytest.mark.usefixtures("as_shipped")
def test_install_refuses_a_prefix_that_shells_would_misread(folder, program_folder):
    marks = ("'", '"', "`", "$$", "!", "\\", "|", "&", "*", "?", "[", "]", "{", "}")
    for prefix in ("relative", "", "/", *(f"/a{mark}b" for mark in marks)):
        done = make("install", f"PROGRAMS={program_folder}", f"PREFIX={prefix}", f"DESTDIR={folder.path.decode()}/no")
        true(done.returncode != 0, f"the prefix {prefix} is refused")
    same(os.path.exists(folder.path + b"/no"), False, "nothing is laid out")


def test_the_installed_pages_name_the_prefix(product):
    for name in FILES:
        if name.startswith(("share/man", "share/doc")):
            text = content(os.path.join(product, name)).decode()
            true("PREFIX" not in text and "/opt/modulecmd" not in text, f"{name} has another prefix")
            true(product in text or name.startswith("share/man"), f"{name} names the prefix")


def test_the_usage_tells_what_the_program_does(folder, built):
    """Each subcommand is known, and none is missing."""
    text = subprocess.run([built("module"), "sh", "help"], capture_output=True, check=True).stdout.decode()
    names = [name for found in SUBCOMMAND.findall(text.split("Subcommands:\n")[1]) for name in found.split(", ")]
    same(sorted({*names, "help"}), SUBCOMMANDS, "the names of the usage")
    true(len(SUBCOMMANDS) >= 30 and len(OF_PROGRAM) >= 12, f"the page has names: {SUBCOMMANDS}, {OF_PROGRAM}")
    for name in OF_PROGRAM:
        done = folder.run("sh", name, "a b")
        true(b"Unknown subcommand" not in done.stderr, f"the program knows {name}")
    for name in {*SUBCOMMANDS} - {*OF_PROGRAM}:
        folder.refuses(["sh", name], f"Unknown subcommand '{name}'")


def test_no_file_of_shells_has_a_list_of_subcommands():
    """The program alone knows them. What these files name is what they run themselves."""
    names = {*SUBCOMMANDS} - {"help", "list", "use", "save", "load", "show", "add", "rm"}
    for folder in ("init", "libexec", "completion"):
        for name in os.listdir(os.path.join(TOP, folder)):
            text = re.sub(r"--description '.*'", "", content(os.path.join(TOP, folder, name)).decode())
            found = sorted(it for it in names if re.search(rf"(?<![\w-]){it}(?![\w-])", text))
            same(found, ["restore"] if "etc/initial" in text else [], f"the subcommands in {folder}/{name}")


# What a shell does is no library's, and nothing of it is proved.
MOST_LINES = ((("init/sh",), 80), (("init/fish",), 70), (("libexec/module.csh", "libexec/ml.csh"), 90), (("init/pager",), 30))


def test_the_functions_are_short():
    for names, most in MOST_LINES:
        count = sum(content(os.path.join(TOP, name)).count(b"\n") for name in names)
        true(count <= most, f"{names} have {count} lines")


def test_completion_offers_what_the_program_does(built):
    names = subprocess.run([built("module"), "sh", "names", "subcommands"], capture_output=True, check=True)
    same(sorted(names.stdout.decode().split()), SUBCOMMANDS, "the names for completion")


def test_the_pages_are_well_formed():
    pages = [os.path.join(TOP, "man", name) for name in ("module.1", "modcheck.1", "modaudit.1", "modport.1", "modulefile.5")]
    true(shutil.which("mandoc"), "mandoc is installed")
    lint = subprocess.run(["mandoc", "-T", "lint", *pages], capture_output=True, check=False)
    # Whether the other page is installed on this machine is nothing to the page.
    said = [line for line in lint.stdout.split(b"\n") if line and b"referenced manual not found: Xr mod" not in line]
    same(said, [], "what mandoc says")
    if shutil.which("man"):
        for page in pages:
            done = subprocess.run(["man", "--warnings", "-Tutf8", "-l", page], capture_output=True, check=False)
            same((done.stderr, done.returncode), (b"", 0), f"what man says of {page}")


def test_the_page_has_each_sub_command():
    page = content(os.path.join(TOP, "man", "module.1")).decode()
    there = page.split(".Sh DESCRIPTION")[1].split(".Ss Names and versions")[0]
    for name in SUBCOMMANDS:
        true(re.search(rf"Cm {name}\b", there), f"the page has {name}")


def refusals():
    """The numbers and texts of the table of refusals."""
    text = content(os.path.join(TOP, "docs", "REFUSALS.md")).decode()
    return re.findall(r"^\| `\w+`[^|]*\| ([0-9, ]+) \| `?([^|`]*)`? \|", text, re.MULTILINE)


def test_the_page_has_each_refusal():
    page = content(os.path.join(TOP, "man", "module.1")).decode()
    rows = refusals()
    wanted = [*range(1, 10), *range(11, 22), *range(31, 38), *range(41, 47), *range(51, 58), *range(61, 65)]
    same(sorted(int(n) for numbers, _ in rows for n in numbers.split(",")), wanted, "the numbers of the table")
    for numbers, text in rows:
        shown = text if text.startswith(tuple("ABCDEFGHIJKLMNOPQRSTUVWXYZ'")) else f"({text})"
        true(f'.It "{numbers}  {shown}"\n' in page, f"the page has {numbers}, {text}")


# A line for each command of modulefiles, and for each core command of Tcl.
LINES = {
    "setenv": "setenv A b", "unsetenv": "unsetenv A b", "prepend-path": "prepend-path -d , A b,c d",
    "append-path": "append-path A b", "remove-path": "remove-path A b", "pushenv": "pushenv A b",
    "conflict": "conflict a", "prereq": "prereq gcc a", "module-whatis": "module-whatis a b", "getenv": "getenv A b",
    "is-loaded": "is-loaded a", "module-info": "module-info shelltype csh",
    "set": "set a b", "unset": "unset -nocomplain a", "append": "append a b", "incr": "incr a",
    "global": "global a", "info": "info exists a", "if": "if 0 {}", "while": "while 0 {}", "for": "for {} 0 {} {}",
    "foreach": "foreach a b {}", "switch": "switch a {a {}}", "proc": "proc a b {}", "return": "return",
    "continue": "continue", "break": "while 1 {break}", "error": "catch {error a}", "catch": "catch {nope}",
    "exit": "if 0 {exit}", "expr": "expr {1 + 1}", "list": "list a", "llength": "llength a", "lindex": "lindex a 0",
    "lrange": "lrange a 0 end", "lappend": "lappend a b", "split": "split a", "join": "join a", "concat": "concat a",
    "string": "string length a", "puts": "puts -nonewline stderr {}",
}  # fmt: skip

# What the page says to be left out, apart from the two lists of names.
LEFT_OUT = (
    "puts hello",
    "set env(A) b",
    "set a(b) c",
    "module-info x",
    "string toupper a",
    "expr {2 ** 3}",
    "expr {sin(1)}",
)


def left_out_names(page):
    """The commands that the page says to be left out."""
    start = page.split(".Ql \\(aqX\\(aq is left out :\n")[1].split(".It\n")[0]
    rest = page.split("doesn't hide that:\n")[1].split(".It\n")[0]
    lines = [line[4:] for line in (start + rest).split("\n") if line.startswith(".Ic ")]
    return [name for line in lines for name in line.split() if name not in (",", ".")]


def test_the_modulefile_page_has_each_command(folder):
    page = content(os.path.join(TOP, "man", "modulefile.5")).decode()
    there = page.split(".Ss Commands that change the environment")[1].split(".Ss What a file has to keep to")[0]
    env = loaded(folder, "gcc/9", A="b")
    for name, line in LINES.items():
        true(re.search(rf"(Ic|,) {name}\b", there), f"the page has {name}")
        folder.module("foo/1", line + "\n")
        done = folder.run("sh", "load", "foo", env=env)
        same((done.stderr, done.returncode), (b"", 0), f"the load of {line}")
    for line in ("break", "exit", "catch exit"):
        folder.module("foo/1", line + "\n")
        folder.refuses(["sh", "load", "foo"], wording(20))


def test_the_modulefile_page_has_what_is_left_out(folder):
    names = left_out_names(content(os.path.join(TOP, "man", "modulefile.5")).decode())
    true(len(names) > 80, f"the names {names}")
    for line in [*LEFT_OUT, *names]:
        folder.module("foo/1", f"catch {{{line}}}\n")
        done = folder.run("sh", "load", "foo")
        true(done.stderr.endswith(b"' is left out\n") and done.returncode == 1, f"{line} is left out: {done.stderr!r}")


def test_the_example_of_the_modulefile_page_loads(folder):
    page = content(os.path.join(TOP, "man", "modulefile.5")).decode()
    text = page.split(".Sh EXAMPLES\n.Bd -literal -offset indent\n")[1].split(".Ed")[0]
    path = folder.file("foo/1.0", text)
    gcc = folder.module("gcc/9", "")
    wanted = (
        b"CC='/opt/foo/1.0/bin/foocc'; export CC;\n"
        b"FOO_HOME='/opt/foo/1.0'; export FOO_HOME;\n"
        b"LOADEDMODULES='gcc/9:foo/1.0'; export LOADEDMODULES;\n"
        b"MANPATH='/opt/foo/1.0/share/man'; export MANPATH;\n"
        b"PATH='/opt/foo/1.0/bin:/bin'; export PATH;\n"
        b"_LMFILES_='" + gcc + b":" + path + b"'; export _LMFILES_;\n"
        b"__MODULES_LMCONFLICT='foo/1.0&foo'; export __MODULES_LMCONFLICT;\n"
        b"__MODULES_LMPREREQ='foo/1.0&gcc|icc'; export __MODULES_LMPREREQ;\n"
        b"__MODULES_PUSHENV_CC='foo/1.0&/opt/foo/1.0/bin/foocc:&cc'; export __MODULES_PUSHENV_CC;\n"
    )
    said = "foo 1.0 is there; see /opt/foo/1.0/README\n"
    env = loaded(folder, "gcc/9", PATH="/bin", CC="cc")
    folder.answers(["sh", "load", "foo/1.0"], wanted, said, 0, env=env)
    folder.answers(["sh", "whatis", "foo"], b"", "foo/1.0: the tools of foo\n", 0, env=env)


def test_shellcheck_finds_nothing():
    true(shutil.which("shellcheck"), "shellcheck is installed")
    tools = [f"tools/{name}" for name in sorted(os.listdir(os.path.join(TOP, "tools"))) if name.endswith(".sh")]
    scripts = [*SCRIPTS, *tools, "tests/shells/stand_in.sh"]
    done = subprocess.run(["shellcheck", "-x", *scripts], cwd=TOP, capture_output=True, check=False)
    same((done.stdout, done.stderr, done.returncode), (b"", b"", 0), "what shellcheck says")


def readme_blocks():
    text = content(os.path.join(TOP, "README.md")).decode()
    return re.findall(r"```(\w*)\n(.*?)```", text, re.DOTALL)


def test_the_readme_names_what_is_installed():
    text = content(os.path.join(TOP, "README.md")).decode()
    named = re.findall(r"(?:/opt/modulecmd|PREFIX)/([a-z0-9_./]*[a-z0-9_])", text)
    installed = [name for name in named if any(file == name or file.startswith(name + "/") for file in FILES)]
    same(named, installed, "the names")


@in_shells(lambda it: it.init == "sh")
def test_runs_the_demonstration(shell, folder, product):
    command = [*shell.command, "demo/demo.sh", product]
    done = subprocess.run(command, cwd=TOP, env=elsewhere(folder), capture_output=True, check=False)
    same((done.stderr, done.returncode), (b"", 0), "standard error and status")
    shown = [part.split(b"\n\n")[0].split(b"\n") for part in done.stdout.split(b"--- ")[1:]]
    titles = [b"before", b"after module load hello greet", b"after module switch hello/2.0"]
    same([part[0] for part in shown], [*titles, b"after module unload hello greet"], "the parts")
    same(shown[3][1:], shown[0][1:], "the environment after")
    between = [b"GREETING=hi", b"HELLO=world", b"LOADEDMODULES=hello/1.0:greet/1"]
    same([line for line in between if line not in shown[1]], [], "the environment between")
    true(b"LOADEDMODULES=greet/1:hello/2.0" in shown[2], "the environment behind the switch")
    same(done.stdout.count(b"refused, with status 1\n"), 2, "the refusals that are shown")
    true(b"hello/1.0(default)\n" in done.stdout, "what can be loaded is shown")
    lines = f"1 accepted\n2 accepted\n3 refused: {wording(42, 'nope')}\nhello/1.0: Plain\n".encode()
    true(lines in done.stdout, "what a check says is shown")


@in_shells(lambda it: it.init == "sh")
def test_runs_the_demonstration_of_the_program_alone(shell, folder, product):
    command = [*shell.command, "demo/modulecmd.sh", os.path.join(product, "bin", "modulecmd")]
    done = subprocess.run(command, cwd=TOP, env=elsewhere(folder), capture_output=True, check=False)
    same((done.stderr, done.returncode), (b"", 0), "standard error and status")
    same(done.stdout.count(b"refused, with status 1\n"), 2, "the refusals that are shown")
    true(b"LOADEDMODULES='hello/1.0:greet/1'" in done.stdout, "the load is shown")
    true(done.stdout.endswith(b"The environment is as before.\n"), "what is said at the end")


# What can stand at the end of a line, where foo/1.0 and baz/3 are loaded.
COMPLETED = {
    "module load fo": ["foo/1.0", "foo/2.0"],
    "module show b": ["bar/1"],
    "module whatis ": ["bar", "foo", "lang"],
    "module load la": ["lang/c/1"],
    "module load lang/c/": ["lang/c/1"],
    "module load foo/2": ["foo/2.0"],
    "module load foo/3": [],
    "module unload f": ["foo/1.0", "baz/3"],
    "module switch b": ["foo/1.0", "baz/3", "bar/1"],
    "module switch foo b": ["bar/1"],
    "module avail fo": ["foo/1.0", "foo/2.0"],
    "module help ba": ["bar/1"],
    "module purge ": [],
    "module is-avail fo": ["foo/1.0", "foo/2.0"],
    "module is-loaded f": ["foo/1.0", "baz/3"],
    "module restore ": ["a b", "default"],
    "module saverm d": ["a b", "default"],
    "module unuse ": ["DIRECTORY"],
    "module reload ": [],
    "module av fo": ["foo/1.0", "foo/2.0"],
    "module list b": ["foo/1.0", "baz/3"],
    "module load --": ["--auto"],
    "module list -": ["--terse", "-t"],
    "module use -": ["--append", "--prepend", "-a", "-p"],
    "module use ": [],
    "module odd ": [],
    "ml avail -": [
        "--contains", "--default", "--icase", "--latest", "--terse", "-C", "-L", "-d", "-i", "-t",
    ],
    "ml foo b": ["bar/1"],
    "modcheck t": [],
    "module": [],
    "ml -b": ["-foo/1.0", "-baz/3"],
}


def test_completion_offers_what_can_be_loaded_and_what_is(folder, product):
    for name in ("foo/1.0", "foo/2.0", "bar/1", "lang/c/1"):
        folder.module(name, "")
    folder.file("foo/.version", "#%Module\nset ModulesVersion 1.0\n")
    home = os.path.join(folder.path, b"home")
    env = loaded(folder, "foo/1.0", "baz/3", PATH=os.environ["PATH"], HOME=home)
    os.makedirs(os.path.join(home, b".config/modulecmd"))
    for name in (b"a b", b"default"):
        with open(os.path.join(home, b".config/modulecmd", name), "wb"):
            pass

    def names(*words, line=""):
        command = [os.path.join(product, "libexec", "module"), "sh", "names", *words]
        given = {**env, b"COMMAND_LINE": line.encode()}
        done = subprocess.run(command, env=given, capture_output=True, check=False)
        same((done.stderr, done.returncode), (b"", 0), f"standard error and status of names {words}")
        return done.stdout.decode().split("\n")[:-1]

    same(names("avail"), ["bar", "foo", "lang"], "what can be loaded")
    same(names("avail", "fo"), ["foo/1.0", "foo/2.0"], "what can be loaded and begins so")
    same(names("avail", "'fo"), ["bar/1", "foo/1.0", "foo/2.0", "lang/c/1"], "what can be loaded, where a quote is typed")
    same(names("loaded"), ["foo/1.0", "baz/3"], "what is loaded")
    same(sorted(names("shells")), sorted(FAMILIES), "the shells")
    for line, wanted in COMPLETED.items():
        wanted = [name.replace("DIRECTORY", folder.modules.decode()) for name in wanted]
        same(names("line", line=line), wanted, f"what can stand at the end of {line!r}")
    env[b"MODULEPATH"] = folder.program
    same(names("avail"), [], "what can be loaded from no directory")


# The sessions of the README.
SESSIONS = [
    pytest.param(block, id=f"block {number}")
    for number, (_, block) in enumerate(readme_blocks(), 1)
    if "/init/" in block and "module load" in block
]


@in_sh
@pytest.mark.parametrize("block", SESSIONS)
def test_runs_a_block_of_the_README(shell, folder, product, block):
    """It runs as it stands, and the environment behind it is that before."""
    folder.module("foo/1.0", "setenv FOO on\nprepend-path MANPATH /opt/foo/man\n")
    path = os.path.join(product, "bin") + ":" + os.environ["PATH"]
    env = folder.environment(PATH=path, MANPATH="/usr/man", LANG="C.UTF-8")
    first, *rest = block.replace("/opt/modulecmd/init/sh", f"'{product}'/init/sh").split("\n")
    before, after = shell.keeps(folder, env, [first, "show", *rest, "show"], None).shown
    same(after, before, "the environment after")
