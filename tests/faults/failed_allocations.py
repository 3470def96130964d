"""What is done where memory is refused: what is done with ample memory, or want of memory alone. Each growth of memory
is refused in turn, and then all from each on.

- The built program says `Out of memory` and changes nothing.
- Within a request the refusal has a number: 31 for the request itself, 41 where files are searched for or read, 11
  where they are evaluated. Until the request is asked for, and after it, the program cases_environment itself may be
  refused.
- Each paragraph of the rows of cases_environment about variables, which are about the public calls of envstate, is run
  by itself. Where memory runs out in an edit, the program looks whether the variables are those before it, and ends; an
  answer that is another is printed.
"""

import os
import subprocess

import pytest

from tests.lib.examples import wording
from tests.lib.harness import FOO, HERE, SECONDS, encoded, loaded, refuses_each, same
from tests.lib.worked import FILES


@pytest.fixture(scope="session")
def cases(built):
    """The program whose rows ask for requests and call the crates of the environment."""
    return built("cases_environment")


@pytest.fixture
def answers_or_refuses(folder, shim):
    """Judges a command: the program answers as with ample memory, or changes nothing and says why."""

    def judge(words, env):
        def run(asked):
            done = folder.run(*words, env={**env, **asked})
            return done.stdout, done.stderr, done.returncode

        refuses_each(shim("failing_malloc"), run, (b"", f"ERROR: {wording(31)}\n".encode(), 1).__eq__, words)

    return judge


# What a file of many kinds of commands says.
MANY = """set i 0
while {$i < 2} {incr i}
foreach {x y} {1 2 3} {lappend all $x-$y}
proc tell {a {b 2} args} {return $a$b[llength $args]}
if {[catch {error no} m] == 1 && [string match n* $m]} {puts stderr "$m [tell 1]"}
switch -glob [getenv HOME] {/h* {set h [string map {h g} $env(HOME)]} default {set h none}}
module-whatis {many kinds} of commands
setenv H $h
append-path --delim {;} P {a:b;c} $h
pushenv CC [join [lrange $all 0 end] :]
unsetenv LANG C
if {![is-loaded]} {conflict [lindex [split [module-info name] /] 0]x}
"""


def test_a_load_with_too_little_memory(folder, answers_or_refuses):
    folder.module("foo/1.0", FOO)
    for shell in ("sh", "csh", "fish"):
        answers_or_refuses([shell, "load", "foo"], folder.environment(PATH="/usr/bin:/bin"))


def test_a_load_of_a_loaded_module_with_too_little_memory(folder, answers_or_refuses):
    folder.module("foo/1.0", FOO)
    answers_or_refuses(["sh", "load", "foo/1.0"], loaded(folder, "foo/1.0"))


def test_an_unload_with_too_little_memory(folder, answers_or_refuses):
    folder.module("foo/1.0", FOO)
    folder.module("bar/1", FOO)
    env = loaded(folder, "foo/1.0", "bar/1", FOO="on", PATH="/opt/foo/bin:/usr/bin:/bin")
    answers_or_refuses(["sh", "unload", "foo"], env)


def test_a_stack_with_too_little_memory(folder, answers_or_refuses):
    folder.module("a/1", "pushenv CC gcc\n")
    folder.module("b/1", "pushenv CC clang\n")
    answers_or_refuses(["sh", "load", "a"], folder.environment(CC="cc"))
    one = loaded(folder, "a/1", CC="gcc", __MODULES_PUSHENV_CC="a/1&gcc:&cc")
    answers_or_refuses(["sh", "load", "b"], one)
    both = loaded(folder, "a/1", "b/1", CC="clang", __MODULES_PUSHENV_CC="b/1&clang:a/1&gcc:&cc")
    answers_or_refuses(["sh", "unload", "a"], both)
    rest = loaded(folder, "b/1", CC="clang", __MODULES_PUSHENV_CC="b/1&clang:&cc")
    answers_or_refuses(["sh", "unload", "b"], rest)


def test_two_modules_with_too_little_memory(folder, answers_or_refuses):
    folder.module("gcc/9", "setenv GCC 9\n")
    folder.module("gcc/10", "setenv GCC 10\n")
    folder.module("mpi/1", "prereq gcc\nsetenv MPI 1\n")
    answers_or_refuses(["sh", "load", "gcc/9", "mpi"], folder.environment())
    env = loaded(folder, "gcc/9", "mpi/1", GCC="9", MPI="1", __MODULES_LMPREREQ="mpi/1&gcc")
    for words in (["switch", "gcc/10"], ["unload", "gcc", "mpi"], ["purge"], ["unload", "gcc"], ["list"]):
        answers_or_refuses(["sh", *words], env)


def test_a_search_with_too_little_memory(folder, answers_or_refuses):
    for version in ("1.9", "1.10", "1.10-rc"):
        folder.module(f"ver/{version}", f"setenv V {version}\nmodule-whatis {{version {version}}}\n")
    folder.file("ver/.version", '#%Module\nset ModulesVersion "1.9"\n')
    folder.file("other/.modulerc", "#%Module\nerror x\n")
    folder.module("other/1", "")
    for words in (["load", "ver"], ["avail"], ["show", "ver"], ["whatis", "ver", "ver/1.10"], ["load", "other"]):
        answers_or_refuses(["sh", *words], folder.environment())


def worked(folder, modulepath="m"):
    """The files of the worked rows, and an environment with this directory alone."""
    for path, text in FILES.items():
        place = folder.path + path.encode()
        os.makedirs(os.path.dirname(place), exist_ok=True)
        with open(place, "wb") as file:
            file.write(b"#%Module\n" + text.encode())
    return {b"MODULEPATH": os.path.join(folder.path, modulepath.encode())}


def test_the_worked_unload_with_too_little_memory(folder, answers_or_refuses):
    env = worked(folder)
    lists = {b"LOADEDMODULES": b"foo/1.0", b"_LMFILES_": folder.path + b"/m/foo/1.0"}
    env = {**env, **lists, b"FOO": b"on", b"PATH": b"/opt/foo/bin:/usr/bin:/bin"}
    text = b"unset FOO;\nunset LOADEDMODULES;\nPATH='/usr/bin:/bin'; export PATH;\nunset _LMFILES_;\n"
    for name in ("foo/1.0", "foo"):
        folder.accepts(["sh", "unload", name], text, env=env)
        answers_or_refuses(["sh", "unload", name], env)


def test_the_worked_needs_with_too_little_memory(folder, answers_or_refuses):
    env = worked(folder)
    answers_or_refuses(["sh", "load", "gcc", "mpi"], env)
    folder.refuses(["sh", "load", "mpi"], wording(52, "gcc"), env=env)
    answers_or_refuses(["sh", "load", "mpi"], env)
    paths = folder.path + b"/m/gcc/9:" + folder.path + b"/m/mpi/1"
    lists = {b"LOADEDMODULES": b"gcc/9:mpi/1", b"_LMFILES_": paths, b"__MODULES_LMPREREQ": b"mpi/1&gcc"}
    env = {**env, **lists, b"GCC": b"9", b"MPI": b"1"}
    folder.refuses(["sh", "unload", "gcc"], wording(53, "mpi/1"), env=env)
    for words in (["unload", "gcc"], ["unload", "gcc", "mpi"]):
        answers_or_refuses(["sh", *words], env)


def test_the_worked_default_file_with_too_little_memory(folder, answers_or_refuses):
    env = worked(folder, "n")
    for report in (b"ver/1.9\n", b"ver/1.9(default)\n"):
        report = folder.path + b"/n:\n" + report + b"ver/1.10\nver/1.10-rc\n"
        folder.answers(["sh", "avail"], b"", report, 0, env=env)
        for words in (["load", "ver"], ["avail"]):
            answers_or_refuses(["sh", *words], env)
        with open(folder.path + b"/n/ver/.version", "wb") as file:
            file.write(b'#%Module\nset ModulesVersion "1.9"\n')


def test_many_kinds_of_commands_with_too_little_memory(folder, answers_or_refuses):
    folder.module("many/1", MANY)
    answers_or_refuses(["sh", "load", "many"], folder.environment(HOME="/home/me", LANG="C"))


def test_refusals_with_too_little_memory(folder, answers_or_refuses):
    folder.module("foo/1.0", FOO)
    folder.module("left/1", "puts hello\n")
    folder.module("mark/1", "catch {setenv A $b} m\nerror $m\n")
    folder.module("bytes/1", b"\xff")
    folder.module("line/1", "setenv A {\n}\n")
    folder.module("against/1", "conflict foo\n")
    for words in (
        ["sh", "load", "nope"],
        ["sh", "load", ".."],
        ["sh", "load", "left/1"],
        ["sh", "load", "mark/1"],
        ["sh", "load", "bytes/1"],
        ["sh", "load", "foo", "against"],
        ["elvish", "load", "foo/1.0"],
        ["csh", "load", "line/1"],
        ["sh", "frobnicate"],
    ):
        answers_or_refuses(words, folder.environment())
    answers_or_refuses(["sh", "load", "foo/1.0"], encoded({"LOADEDMODULES": "foo/1.0"}))


# The numbers of the refusals within a request.

REQUEST, SEARCH, EVALUATION = (f"{number} Out of memory" for number in (31, 41, 11))
NUMBERS = {REQUEST, SEARCH, EVALUATION}

GCC = "module /m/gcc/9 setenv GCC 9\n"
MPI = "module /m/mpi/1 prereq gcc\\npushenv CC mpicc\n"
K = "module /m/k/1 catch {error x} m\\nputs stderr $m\\nsetenv M [string length $m]\n"
N = "module /m/n/1 conflict k\\nappend-path -d {;} P /a\n"
D = """module /m/d/1 module-whatis A {B c}\\nforeach v {a b} {prepend-path P /$v}
module /m/d/.modulerc module-version d/1 default
folder /m/d 1 .modulerc
"""
START = "from MODULEPATH=/m CC=cc P=/b\n"
BOTH = (
    "from MODULEPATH=/m CC=mpicc GCC=9 LOADEDMODULES=gcc/9:mpi/1 _LMFILES_=/m/gcc/9:/m/mpi/1 "
    "__MODULES_LMPREREQ=mpi/1&gcc __MODULES_PUSHENV_CC=mpi/1&mpicc:&cc\n"
)

# What is there when a request is asked for, and its words.
REQUESTS = (
    (GCC + MPI + START, "load gcc/9 mpi/1"),
    (D + START, "load d"),
    (K + N + START, "load k/1 n/1"),
    (GCC + BOTH, "unload gcc"),
    (MPI + K + BOTH, "switch mpi k/1"),
    (GCC + MPI + BOTH, "purge"),
    (BOTH, "list"),
    (D + "folder /m d\n" + START, "avail"),
    (D + START, "show d"),
    (D + START, "whatis d/1"),
)


def answers(cases, there, words, asked):
    """What the request answers and what the variables are then, None where the program had no memory to put what is there,
    or to say so."""
    text = f"requests\n{there}ask sh {words}\nvars\n"
    done = subprocess.run(
        [cases], input=text.encode(), env=asked, capture_output=True, timeout=SECONDS, check=False
    )
    before, _, after = done.stdout.decode().partition(f"> ask sh {words}\n")
    answer, shown, left = after.partition("> vars\n")
    if not shown or done.returncode != 0 or "\n!" in before or left.startswith("!"):
        return None
    return answer.removeprefix("!").strip(), left


def numbers_of(words):
    """The numbers that want of memory can have in the request."""
    return {"list": {REQUEST}, "avail": {REQUEST, SEARCH}}.get(words, NUMBERS)


@pytest.fixture(scope="module")
def met():
    """The numbers by which each request was refused, by its words."""
    return {}


@pytest.mark.parametrize("there, words", [pytest.param(*request, id=request[1]) for request in REQUESTS])
def test_the_number_of(there, words, cases, shim, met):
    """What is found is refused for want of memory, and leaves the variables."""
    left = answers(cases, there, words, {})[1]
    met[words] = set()

    def run(asked):
        found = answers(cases, there, words, asked)
        if found is not None:
            met[words] |= NUMBERS & {found[0]}
        return found

    def is_refused(found):
        return found is None or (found[0] in numbers_of(words) and found[1] == left)

    refuses_each(shim("failing_malloc"), run, is_refused, words)


def test_requests_are_refused_by_each_number(met, note):
    if len(met) < len(REQUESTS):
        pytest.skip("not each request was asked for")
    found = set().union(*met.values())
    note(f"refused by {', '.join(sorted(found))}")
    same(found, NUMBERS, "the numbers of the requests")


# The public calls of envstate.

ROWS = os.path.join(os.path.dirname(HERE), "crates", "cases_environment", "stdin")

# The first line of the paragraphs.
SUBJECT = "variables\n"


def paragraphs():
    """The paragraphs about variables, each with the line behind the first one as its title."""
    with open(ROWS, encoding="utf-8") as rows:
        for paragraph in rows.read().split("\n\n"):
            if paragraph.startswith(SUBJECT):
                yield pytest.param(paragraph, id=paragraph.split("\n")[1])


def cut_short(ample):
    """Whether a run ended for want of memory behind some of the lines that it prints with ample memory."""
    lines = ample[0].splitlines(keepends=True)
    beginnings = {b"".join(lines[:count]) for count in range(len(lines))}
    return lambda found: found[0] in beginnings and b"OutOfMemory" in found[1] and found[2] != 0


@pytest.mark.parametrize("paragraph", paragraphs())
def test_growths_of_memory_that_are_refused(paragraph, cases, shim):
    def run(asked):
        """What is printed of the paragraph, the fault that the program ends with, and its status."""
        done = subprocess.run(
            [cases], input=paragraph.encode(), env=asked, capture_output=True, timeout=SECONDS, check=False
        )
        return done.stdout, done.stderr, done.returncode

    refuses_each(shim("failing_malloc"), run, cut_short(run({})), paragraph.split("\n")[1])
