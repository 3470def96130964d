"""What the built program `modcheck` says of lists of requests and of the modules that they load, over real folders.

The expected texts are typed by hand from the rules of the program. In them, and in the modulefiles, `/m`, `/n` and `/o`
stand for the folders that a case makes.
"""

import os
import re
import subprocess
import time

import pytest

from tests.lib.examples import wording
from tests.lib.harness import HERE, MOST_RUNS, refuses_each, same, true
from tests.lib.worked import FILES, real, write
from tests.shells.shells import FAMILIES

TOP = os.path.dirname(HERE)
MOST_BYTES = 1_048_576
ERROR = "ERROR: {}\n"
WRITING_FAILED = ERROR.format(wording(64)).encode()


class Check:
    """The worked modulefiles and those that are given, and the environment that requests start from."""

    def __init__(self, folder, modulepath="/m", files=None, worked=FILES, **variables):
        self.folder = folder
        for path, text in {**worked, **(files or {})}.items():
            write(folder, path, text)
        self.env = {b"MODULEPATH": real(folder, modulepath)}
        for name, value in variables.items():
            self.env[name.encode()] = real(folder, value)

    def run(self, given, words=("sh",), **streams):
        given = given if isinstance(given, bytes) else given.encode()
        return self.folder.run(*words, env=self.env, given=given, **streams)

    def says(self, given, lines, out="", status=0, shell="sh"):
        """These are the lines on standard error, and this the text."""
        done = self.run(given, [shell])
        what = f"of {given[:80]!r} in {shell}"
        same(done.stderr, real(self.folder, "".join(line + "\n" for line in lines)), f"standard error {what}")
        same(done.stdout, real(self.folder, out), f"standard output {what}")
        same(done.returncode, status, f"status {what}")

    def refuses(self, text, words=("sh",), **streams):
        """Nothing is done, and this is said after `ERROR: `."""
        done = self.folder.run(*words, env=self.env, **streams)
        same(done.stderr, ERROR.format(text).encode(), f"standard error of {words}")
        same((done.stdout, done.returncode), (b"", 1), f"standard output and status of {words}")


@pytest.fixture(scope="session")
def program(built):
    return built("modcheck")


# Verdicts.

VERDICTS = (
    ("proc p {} {return [info exists ::env(HOME)]}\nif {[p]} {setenv X 1}\n", "Asked"),
    ("unsetenv LANG\n", "OneWay"),
    ("unsetenv LANG\ngetenv HOME\n", "Asked"),
    ("if {![is-loaded gcc]} {setenv X 1}\n", "Asked"),
    ("setenv ME [module-info name]\n", "Plain"),
    # Each question asks, and what only looks like one doesn't.
    ("getenv HOME\n", "Asked"),
    ("getenv HOME none\n", "Asked"),
    ("catch {set a $env(HOME)}\n", "Asked"),
    ("info exists env(HOME)\n", "Asked"),
    ("proc p {} {global env\nreturn [info exists env(HOME)]}\np\n", "Asked"),
    ("proc p {} {return [info exists env(HOME)]}\np\n", "Plain"),
    ("proc p {} {catch {set a $env(HOME)}}\np\n", "Plain"),
    ("info exists env\n", "Plain"),
    ("is-loaded\n", "Asked"),
    ("module-info mode\n", "Asked"),
    ("module-info mode load\n", "Asked"),
    ("module-info specified\n", "Asked"),
    ("module-info shell\n", "Asked"),
    ("module-info shelltype csh\n", "Asked"),
    ("setenv A $ModulesCurrentModulefile\n", "Plain"),
    ("if {0} {getenv HOME}\n", "Plain"),
    ("proc p {} {getenv HOME}\n", "Plain"),
    ("setenv A 1\nreturn\ngetenv HOME\n", "Plain"),
    ("foreach v {A B} {while {[incr n] < 5} {catch {error x}\nprepend-path $v /$n}}\n", "Plain"),
    ("prepend-path P a\nappend-path P b\npushenv CC gcc\nunsetenv L C\nconflict q\nmodule-whatis a\n", "Plain"),
    ("unsetenv L C\n", "Plain"),
    ("remove-path P /a\n", "OneWay"),
    ("setenv A 1\nremove-path --delim , P /a,/b\n", "OneWay"),
    ("if {0} {unsetenv L}\n", "Plain"),
    ("puts stderr hello\n", "Plain"),
    ("", "Plain"),
)


@pytest.mark.parametrize("text, verdict", VERDICTS, ids=[text for text, _ in VERDICTS])
def test_the_verdict_on(text, verdict, folder):
    for variables in ({}, {"HOME": "/home/u"}):
        done = Check(folder, files={"/m/v/1": text}, **variables).run("load v/1\nunload v\n")
        lines = ["1 accepted", "2 accepted", f"v/1: {verdict}"]
        same(done.stderr.decode().splitlines(), lines, f"standard error with {variables}")


def test_a_file_that_is_plain(folder):
    check = Check(folder, PATH="/usr/bin:/bin")
    for shell in FAMILIES:
        check.says("load foo\nunload foo\n", ["1 accepted", "2 accepted", "foo/1.0: Plain"], shell=shell)


def test_a_file_that_asks_and_one_that_is_not_there(folder):
    lines = [
        "1 accepted",
        "2 accepted",
        f"3 refused: {wording(42, 'nope')}",
        "w/1: Asked",
    ]
    Check(folder).says("load w\nunload w\nload nope\n", lines, out="X='1'; export X;\n", status=1)


def test_a_file_whose_directory_another_module_adds(folder):
    lines = [*(f"{number} accepted" for number in range(1, 5)), "mp/1: Plain"]
    lines.append(f"ver/1.10-rc: {wording(42, 'ver/1.10-rc')}")
    Check(folder).says("load mp\nload ver\nunload mp\nunload ver\n", lines)


def test_verdicts_in_the_first_environment(folder):
    files = {
        "/m/reads/1": "prepend-path P $env(FOO)\n",
        "/m/typed/1": "if {[module-info specified] ne {typed/1}} {setenv T 1}\n",
        "/m/asks/1": "if {[is-loaded foo]} {nope}\n",
    }
    lines = [
        *(f"{number} accepted" for number in range(1, 4)),
        '4 refused: invalid command name "nope" (line 2)',
        "foo/1.0: Plain",
        'reads/1: can\'t read "env(FOO)": no such variable (line 2)',
        "typed/1: Asked",
    ]
    check = Check(folder, files=files, PATH="/bin")
    done = check.run("load foo\nload reads\nload typed\nload asks\n")
    same(done.stderr.decode().splitlines(), lines, "standard error")
    same(done.returncode, 1, "status")
    true(b"P='on'; export P;\n" in done.stdout and b"T='1'; export T;\n" in done.stdout, f"the text {done.stdout!r}")
    # A verdict needs neither what a load needs, nor that nothing is in conflict.
    lines = ["1 accepted", "2 accepted", "gcc/9: Plain", "mpi/1: Plain"]
    Check(folder).says("load gcc mpi\npurge\n", lines)


def test_each_module_once_in_the_order_of_its_first_load(folder):
    given = "load foo y\nunload foo\nload y foo\nswitch y z\nload y nope\nload c\nlist\npurge\n"
    lines = [
        *(f"{number} accepted" for number in range(1, 5)),
        f"5 refused: {wording(42, 'nope')}",
        *(f"{number} accepted" for number in range(6, 9)),
        *(f"{name}: Plain" for name in ("foo/1.0", "y/1", "z/1", "c/1")),
    ]
    Check(folder, PATH="/bin").says(given, lines, status=1)
    # What was loaded at the start is no module that a request loads.
    check = Check(folder, K="1", LOADEDMODULES="k/1", _LMFILES_="/m/k/1")
    check.says("load k\nunload k\n", ["1 accepted", "2 accepted"], "unset K;\nunset LOADEDMODULES;\nunset _LMFILES_;\n")


def test_variables_that_are_not_utf8(folder):
    """Each has a line behind the verdicts; one that isn't named as a variable has none."""
    check = Check(folder, PATH="/usr/bin:/bin")
    check.env.update({b"FOO": b"\xfe", b"a-b": b"\xff", b"FINE": "é".encode(), b"_X1": b"/z\xff", b"1X": b"\xff"})
    lines = ["1 accepted", "2 accepted", "foo/1.0: Plain", "# environment: FOO isn't UTF-8", "# environment: _X1 isn't UTF-8"]
    for shell in FAMILIES:
        check.says("load foo\nunload foo\n", lines, shell=shell)
    check.says("", lines[3:])
    check.says("nope\n", [f"1 refused: {wording(57, 'nope')}", *lines[3:]], status=1)
    check.env[b"_X1"] = b"fine"
    check.says("list\n", ["1 accepted", lines[3]])


# Requests.


def test_blanks_and_lines_without_words(folder):
    check = Check(folder, PATH="/usr/bin:/bin")
    lines = ["1 accepted", "2 accepted", "foo/1.0: Plain"]
    for given in (
        "load foo\nunload foo",
        "\n\n  \t \nload foo\n\n\t\nunload foo\n\n",
        "\t load \t foo  \n  unload\tfoo\t",
    ):
        check.says(given, lines)
    for given in ("", "\n", " \t\n\n  ", " "):
        check.says(given, [])


def test_other_characters_belong_to_words(folder):
    check = Check(folder)
    for mark in "\r\v\f":
        check.says(f"load foo{mark}\n", [f"1 refused: Bad module name 'foo{mark}'"], status=1)
        check.says(f"{mark}\n", [f"1 refused: Unknown subcommand '{mark}'"], status=1)
        check.says(f"list{mark}\n", [f"1 refused: Unknown subcommand 'list{mark}'"], status=1)
    for name in ('"foo"', "'foo'", "foo#", "$foo", "f\\oo", "a\0b", "é", "\u00a0"):
        said = "Bad module name" if set(name) & set("\\\0") else "Unable to locate a modulefile for"
        check.says(f"load {name}\n", [f"1 refused: {said} '{name}'"], status=1)


def test_lines_that_are_no_request(folder):
    given = "nope x\nload\nlist x\nswitch\nswitch a b c\npurge x\nhelp\nsh load foo\n#load foo\nload foo\n"
    lines = [
        f"1 refused: {wording(57, 'nope')}",
        *(f"{number} refused: Bad arguments" for number in range(2, 7)),
        f"7 refused: {wording(57, 'help')}",
        f"8 refused: {wording(57, 'sh')}",
        f"9 refused: {wording(57, '#load')}",
        "10 accepted",
        "foo/1.0: Plain",
    ]
    done = Check(folder, PATH="/bin").run(given)
    same((done.stderr.decode().splitlines(), done.returncode), (lines, 1), "standard error and status")
    true(done.stdout.startswith(b"FOO='on'; export FOO;\n"), "the last one is done")


def test_every_subcommand(folder):
    given = "add foo\nlist\navail\navail f\nshow foo w\ndisplay foo\nwhatis foo\nswap foo x\nrm x\npurge\n"
    lines = [*(f"{number} accepted" for number in range(1, 11)), "foo/1.0: Plain", "x/1: Plain"]
    Check(folder, PATH="/bin").says(given, lines)


def test_messages_are_not_written(folder):
    check = Check(folder, files={"/m/says/1": "puts stderr hello\n"})
    check.says("load says\nshow says\nunload says\n", [*(f"{n} accepted" for n in (1, 2, 3)), "says/1: Plain"])


def test_refusals_of_requests(folder):
    files = {
        "/m/two/1": 'error "a\\nb"\n',
        "/m/late/1": "setenv A 1\nexit\n",
        "/m/v/1": "",
        "/m/v/.version": "nope\n",
        "/m/deep/1": "conflict foo\n",
    }
    given = "load two\nload late\nload k n\nload mpi\nload gcc mpi\nunload gcc\nload loop\nload t\nload v\n"
    given += "load foo\nload deep\n"
    lines = [
        "1 refused: a\nb (line 2)",
        f"2 refused: {wording(20)}",
        f"3 refused: {wording(51, 'k/1')}",
        f"4 refused: {wording(52, 'gcc')}",
        "5 accepted",
        f"6 refused: {wording(53, 'mpi/1')}",
        f"7 refused: {wording(14)}",
        f"8 refused: {wording(2, 18)}",
        f"9 refused: {wording(45, '/m/v/.version')}",
        "10 accepted",
        f"11 refused: {wording(51, 'foo/1.0')}",
        "gcc/9: Plain",
        "mpi/1: Plain",
        "foo/1.0: Plain",
    ]
    out = (
        "FOO='on'; export FOO;\nGCC='9'; export GCC;\n"
        "LOADEDMODULES='gcc/9:mpi/1:foo/1.0'; export LOADEDMODULES;\nMPI='1'; export MPI;\n"
        "PATH='/opt/foo/bin'; export PATH;\n_LMFILES_='/m/gcc/9:/m/mpi/1:/m/foo/1.0'; export _LMFILES_;\n"
        "__MODULES_LMPREREQ='mpi/1&gcc'; export __MODULES_LMPREREQ;\n"
    )
    Check(folder, files=files).says(given, lines, out, status=1)
    lines = [f"1 refused: {wording(35)}", "2 accepted"]
    Check(folder, LOADEDMODULES="a/1").says("load foo\navail\n", lines, status=1)
    check = Check(folder)
    os.remove(real(folder, "/m/x/1"))
    os.symlink("1", real(folder, "/m/x/1"))
    check.says("load x/1\nlist\n", [f"1 refused: {wording(43)}", "2 accepted"], status=1)


def test_the_text_of_all_requests_for_each_family(folder):
    check = Check(folder, PATH="/bin")
    given = "load foo\nload y\nunload foo\n"
    lines = [*(f"{number} accepted" for number in (1, 2, 3)), "foo/1.0: Plain", "y/1: Plain"]
    names = (("LOADEDMODULES", "y/1"), ("P", "/s"), ("_LMFILES_", "/m/y/1"))
    texts = {"sh": "{0}='{1}'; export {0};\n", "csh": "setenv {0} '{1}';\n", "fish": "set -xg {0} '{1}';\n"}
    for shell, family in FAMILIES.items():
        check.says(given, lines, "".join(texts[family].format(*pair) for pair in names), shell=shell)


# Whole checks: the modulefiles beside the worked ones, the variables, the shell and its input; then the text, the lines
# on standard error and the status.
WHOLE_FILES = {
    "/m/reads/1": "prepend-path P $env(FOO)\n",
    "/m/p/1": "proc p {} {return [info exists ::env(HOME)]}\nif {[p]} {setenv X 1}\n",
    "/m/one/1": "unsetenv LANG\n",
    "/m/both/1": "unsetenv LANG\ngetenv HOME\n",
    "/m/il/1": "if {![is-loaded gcc]} {setenv X 1}\n",
    "/m/me/1": "setenv ME [module-info name]\n",
    "/m/says/1": "puts stderr hello\n",
}
WHOLE = (
    (
        {"PATH": "/usr/bin:/bin"},
        "sh",
        "load foo\nload reads\n",
        "FOO='on'; export FOO;\nLOADEDMODULES='foo/1.0:reads/1'; export LOADEDMODULES;\nP='on'; export P;\n"
        "PATH='/opt/foo/bin:/usr/bin:/bin'; export PATH;\n_LMFILES_='/m/foo/1.0:/m/reads/1'; export _LMFILES_;\n",
        ["1 accepted", "2 accepted", "foo/1.0: Plain", 'reads/1: can\'t read "env(FOO)": no such variable (line 2)'],
        0,
    ),
    (
        {"PATH": "/usr/bin:/bin"},
        "sh",
        "load nope foo\nload foo\nload w foo\nunload foo\nload foo\npurge\n",
        "X='1'; export X;\n",
        [
            f"1 refused: {wording(42, 'nope')}",
            *(f"{number} accepted" for number in range(2, 7)),
            "foo/1.0: Plain",
            "w/1: Asked",
        ],
        1,
    ),
    (
        {"PATH": "/usr/bin:/bin"},
        "sh",
        "nope x\nload\n#load w\nlist\nlist x\nload says\nunload says\n",
        "",
        [
            f"1 refused: {wording(57, 'nope')}",
            f"2 refused: {wording(56)}",
            f"3 refused: {wording(57, '#load')}",
            "4 accepted",
            f"5 refused: {wording(56)}",
            "6 accepted",
            "7 accepted",
            "says/1: Plain",
        ],
        1,
    ),
    (
        {"LANG": "C"},
        "sh",
        "load p one both il me\npurge\n",
        "unset LANG;\n",
        ["1 accepted", "2 accepted", "p/1: Asked", "one/1: OneWay", "both/1: Asked", "il/1: Asked", "me/1: Plain"],
        0,
    ),
    (
        {"LOADEDMODULES": "foo/1.0"},
        "sh",
        "load w\navail\n",
        "",
        [f"1 refused: {wording(35)}", "2 accepted"],
        1,
    ),
    ({"PATH": "/bin"}, "csh", "load w\nunload w\n", "setenv X '1';\n", ["1 accepted", "2 accepted", "w/1: Asked"], 0),
    ({"PATH": "/bin"}, "fish", "load w\nunload w\n", "set -xg X '1';\n", ["1 accepted", "2 accepted", "w/1: Asked"], 0),
)


@pytest.mark.parametrize("variables, shell, given, out, lines, status", WHOLE, ids=[" ".join(it[1:3]) for it in WHOLE])
def test_a_whole_check(variables, shell, given, out, lines, status, folder):
    Check(folder, files=WHOLE_FILES, **variables).says(given, lines, out, status, shell)


def test_only_the_last_state_has_to_be_said(folder):
    check = Check(folder)
    for shell in ("csh", "tcsh"):
        check.says("load nl\nunload nl\n", ["1 accepted", "2 accepted", "nl/1: Plain"], shell=shell)
        said = wording(62, "MSG")
        check.refuses(said, words=[shell], given=b"load nope\nload nl\n")


# Faults of the whole call.


def test_arguments_that_are_no_shell(folder):
    check = Check(folder)
    for words in ((), ("sh", "load"), ("nope", "x"), ("sh", ""), ("sh", "sh"), (b"\xff",), ("sh", b"\xff")):
        check.refuses(wording(56), words=words, given=b"load foo\n")
    for word in ("nope", "", "SH", "sh ", "dash", "--help", "-"):
        check.refuses(wording(63, word), words=[word], given=b"load foo\n")


def test_arguments_go_before_the_input(folder):
    check = Check(folder)
    directory = os.open(folder.path, os.O_RDONLY)
    check.refuses(wording(56), words=(), stdin=directory)
    check.refuses(wording(56), words=("nope", "x"), stdin=directory)
    check.refuses(wording(63, "nope"), words=["nope"], stdin=directory)
    check.refuses(wording(43), stdin=directory)
    os.close(directory)


def test_inputs_that_are_too_long(folder):
    check = Check(folder, PATH="/bin")
    request = "load foo\nunload foo\n"
    lines = ["1 accepted", "2 accepted", "foo/1.0: Plain"]
    for fill in ("\n", " ", "é"):
        room = MOST_BYTES - len(request)
        filled = {"é": "\n" + "é" * (room // 2 - 1) + " " * (room % 2 + 1)}.get(fill, fill * room)
        same(len((request + filled).encode()), MOST_BYTES, "the longest input")
        done = check.run(request + filled)
        same(done.stderr.decode().splitlines()[:2], lines[:2], f"the longest input, of {fill!r}")
        check.refuses(wording(56), given=(request + filled + "\n").encode())
    with open("/dev/zero", "rb", buffering=0) as endless:
        check.refuses(wording(56), stdin=endless)


def test_inputs_that_are_not_utf8(folder):
    check = Check(folder)
    for odd in (b"\xff", b"\xe9\n", b"\xc3", b"\xed\xa0\x80\n", b"\xc0\xaf\n", b"\xf4\x90\x80\x80\n"):
        check.refuses(wording(56), given=odd)
        check.refuses(wording(56), given=b"load foo\nload " + odd)


def test_a_standard_output_that_takes_nothing(folder):
    check = Check(folder)
    lines = b"1 accepted\nw/1: Asked\n"
    with open("/dev/full", "wb", buffering=0) as full:
        for streams in ({"stdout": full}, {"close": (1,)}):
            done = check.run("load w\n", **streams)
            same((done.stderr, done.returncode), (lines + WRITING_FAILED, 1), f"what is said with {streams}")
            done = check.run("load w\nunload w\nload nope\n", **streams)
            said = f"1 accepted\n2 accepted\n3 refused: {wording(42, 'nope')}\nw/1: Asked\n".encode()
            same((done.stderr, done.returncode), (said + WRITING_FAILED, 1), f"what is said with {streams}")
            done = check.run("load foo\nunload foo\n", **streams)
            same((done.stderr, done.returncode), (b"1 accepted\n2 accepted\nfoo/1.0: Plain\n", 0), "without a text")


def test_a_standard_error_that_takes_nothing(folder):
    check = Check(folder)
    with open("/dev/full", "wb", buffering=0) as full:
        for streams in ({"stderr": full}, {"close": (2,)}):
            for given in ("load w\n", "load nope\n", "load foo\nunload foo\n"):
                done = check.run(given, **streams)
                same((done.stdout, done.returncode), (b"", 1), f"a standard error that takes nothing of {given!r}")
            done = check.run("", **streams)
            same((done.stdout, done.returncode), (b"", 0), "nothing to write")


def test_streams_that_fail_at_each_byte(folder):
    check = Check(folder)
    given = "load w\nunload w\nload nope\n"
    out = b"X='1'; export X;\n"
    said = f"1 accepted\n2 accepted\n3 refused: {wording(42, 'nope')}\nw/1: Asked\n".encode()
    path = os.path.join(folder.path, b"taken")
    for stream, text in (("stdout", out), ("stderr", said)):
        for most in range(len(text)):
            with open(path, "wb") as file:
                done = check.run(given, most=most, **{stream: file})
            with open(path, "rb") as file:
                same(file.read(), text[:most], f"what {most} bytes hold of {stream}")
            other = (done.stderr, said + WRITING_FAILED) if stream == "stdout" else (done.stdout, b"")
            same((other[0], done.returncode), (other[1], 1), f"the other stream, and the status, at {most} bytes")


def test_nothing_is_printed_before_the_input_ends(folder):
    check = Check(folder, PATH="/bin")
    both = os.pipe()
    running = subprocess.Popen(
        [folder.program, "sh"], env=check.env, stdin=subprocess.PIPE, stdout=both[1], stderr=both[1]
    )
    os.close(both[1])
    os.set_blocking(both[0], False)
    for line in (b"load foo\n", b"load nope\n", b"unload"):
        running.stdin.write(line)
        running.stdin.flush()
        time.sleep(0.2)
        try:
            same(os.read(both[0], 100), None, "what is written before the input ends")
        except BlockingIOError:
            same(running.poll(), None, "the program waits")
    running.stdin.write(b" foo")
    running.stdin.close()
    same(running.wait(), 1, "status")
    os.set_blocking(both[0], True)
    with os.fdopen(both[0], "rb") as reader:
        lines = f"1 accepted\n2 refused: {wording(42, 'nope')}\n3 accepted\nfoo/1.0: Plain\n".encode()
        same(reader.read(), lines, "what is written then")


# Failures on the way.

OUTCOME = re.compile(rb"1 (accepted|refused: (.*))\n2 (accepted|refused: (.*))\n(?:foo/1\.0: (Plain|(.*))\n)?")
LOADED = (
    b"FOO='on'; export FOO;\nLOADEDMODULES='foo/1.0'; export LOADEDMODULES;\n"
    b"PATH='/opt/foo/bin:/usr/bin:/bin'; export PATH;\n_LMFILES_='/m/foo/1.0'; export _LMFILES_;\n"
)


def lost_on_the_way(check, said, is_once, done):
    """The answer is a loss of the call, or of single requests and the verdict, and says so; the text is that of the
    requests that were accepted. What fails once is lost by one of them."""
    out, err, status = done
    if err == b"ERROR: " + said + b"\n":
        return (out, status) == (b"", 1)
    found = OUTCOME.fullmatch(err)
    if not found or any(text not in (None, said) for text in found.group(2, 4, 6)):
        return False
    if is_once and found.group(2, 4, 6).count(said) != 1:
        return False
    is_first, is_second = found[1] == b"accepted", found[3] == b"accepted"
    wanted = real(check.folder, LOADED) if is_first and not is_second else b""
    return (bool(found[5]), out, status) == (is_first, wanted, 0 if is_first and is_second else 1)


def answers_or_loses(check, library, said):
    plain = (b"", b"1 accepted\n2 accepted\nfoo/1.0: Plain\n", 0)
    is_once = False

    def run(asked):
        nonlocal is_once
        is_once = b"FAIL_AT" in asked
        done = check.folder.run("sh", env={**check.env, **asked}, given=b"load foo\nunload foo\n")
        return done.stdout, done.stderr, done.returncode

    def is_lost(done):
        return done != plain and lost_on_the_way(check, said, is_once, done)

    same(run({}), plain, "what is said without a loss")
    refuses_each(library, run, is_lost, said)


def test_memory_that_is_refused(folder, shim):
    answers_or_loses(Check(folder, PATH="/usr/bin:/bin"), shim("failing_malloc"), wording(31).encode())


def test_reads_that_fail(folder, shim):
    answers_or_loses(Check(folder, PATH="/usr/bin:/bin"), shim("failing_calls"), wording(43).encode())


# Sessions of which each read fails, and each growth of memory is refused: the variables, the lines, what is said of them
# with sound reads and ample memory, and the text by the numbers of the requests that are accepted.
VERSIONS = {f"/n/ver/{version}": f"setenv V {version}\n" for version in ("1.9", "1.10", "1.10-rc")}
CHOSEN = {"/n/ver/.version": 'set ModulesVersion "1.9"\n'}
OTHER = {"/o/ver/1.9": "setenv V other\n"}
NOT_FOUND = f"1 refused: {wording(42, 'nope')}"
RECORDED = {"V": "1.9", "LOADEDMODULES": "ver/1.9:gone/1", "_LMFILES_": "/n/ver/1.9:/n/gone/1"}


def text_of(**values):
    """The text for sh that sets these variables, and unsets those without a value."""
    lines = (f"{name}='{value}'; export {name};\n" if value else f"unset {name};\n" for name, value in values.items())
    return "".join(lines)


def loads_ver(version, file):
    return text_of(LOADEDMODULES=f"ver/{version}", V=version, _LMFILES_=file)


AFTER_ADDING = {
    (1,): text_of(LOADEDMODULES="mp/1", MODULEPATH="/n:/m:/o", _LMFILES_="/m/mp/1"),
    (2,): text_of(LOADEDMODULES="ver/1.9", V="other", _LMFILES_="/o/ver/1.9"),
    (1, 2): text_of(LOADEDMODULES="mp/1:ver/1.9", MODULEPATH="/n:/m:/o", V="1.9", _LMFILES_="/m/mp/1:/n/ver/1.9"),
}
LOSSES = {
    "a load of the greatest version": (
        {"modulepath": "/n", "files": VERSIONS},
        "load ver\n",
        ["1 accepted", "ver/1.10-rc: Plain"],
        {(1,): loads_ver("1.10-rc", "/n/ver/1.10-rc")},
    ),
    "a load of a default": (
        {"modulepath": "/n", "files": {**VERSIONS, **CHOSEN}},
        "load ver\n",
        ["1 accepted", "ver/1.9: Plain"],
        {(1,): loads_ver("1.9", "/n/ver/1.9")},
    ),
    "avail": ({"modulepath": "/n", "files": {**VERSIONS, **CHOSEN}}, "avail\n", ["1 accepted"], {(1,): ""}),
    "a load from the first of two directories": (
        {"modulepath": "/n:/o", "files": {**VERSIONS, **CHOSEN, **OTHER}},
        "load ver/1.9\n",
        ["1 accepted", "ver/1.9: Plain"],
        {(1,): loads_ver("1.9", "/n/ver/1.9")},
    ),
    "a name that isn't there": ({"modulepath": "/n:/o", "files": {**VERSIONS, **OTHER}}, "load nope\n", [NOT_FOUND], {}),
    "an unload": (
        {"modulepath": "/o", "files": {**VERSIONS, **OTHER}, **RECORDED},
        "unload ver\n",
        ["1 accepted"],
        {(1,): text_of(LOADEDMODULES="gone/1", V=None, _LMFILES_="/n/gone/1")},
    ),
    "an unload of what is gone": (
        {"modulepath": "/o", "files": {**VERSIONS, **OTHER}, **RECORDED},
        "unload gone\n",
        [f"1 refused: {wording(54, '/n/gone/1')}"],
        {},
    ),
    # The verdict is on another file than the one that was loaded, and reads it.
    "a verdict": (
        {"modulepath": "/m:/o", "files": {**VERSIONS, **OTHER}},
        "load mp\nload ver/1.9\n",
        ["1 accepted", "2 accepted", "mp/1: Plain", "ver/1.9: Plain"],
        AFTER_ADDING,
    ),
    "a verdict on what isn't there": (
        {"modulepath": "/m:/o", "files": VERSIONS},
        "load mp\nload ver/1.9\n",
        ["1 accepted", "2 accepted", "mp/1: Plain", f"ver/1.9: {wording(42, 'ver/1.9')}"],
        AFTER_ADDING,
    ),
}


class Losses:
    """A session, with what is said of it without a loss, and what else may be said."""

    def __init__(self, folder, given, sound, texts, **how):
        self.check = Check(folder, **how)
        self.given = given
        self.sound = sound
        self.texts = {(): "", **texts}
        self.met = set()

    def run(self, asked):
        done = self.check.folder.run("sh", env={**self.check.env, **asked}, given=self.given.encode())
        return done.stdout, done.stderr, done.returncode

    def ended(self, lines):
        """What is written where this is said: the text of the requests that were accepted, and the status."""
        accepted = tuple(int(line.split(" ")[0]) for line in lines if line.endswith(" accepted"))
        text = real(self.check.folder, self.texts.get(accepted, "no text"))
        return text, real(self.check.folder, "".join(f"{line}\n" for line in lines)), int(len(accepted) < self.requests())

    def requests(self):
        return self.given.count("\n")

    def is_lost(self, said, done):
        """Whether the whole call, or a request or a verdict, is lost for this reason; the others are as without it."""
        out, err, status = done
        if (out, err, status) == (b"", f"ERROR: {said}\n".encode(), 1):
            return True
        place = os.fsdecode(self.check.folder.path)
        lines = err.decode().replace(place, "").splitlines()
        lost = [line for line in lines if line.endswith(f": {said}")]
        others = [*self.sound, f"2 refused: {wording(42, 'ver/1.9')}"]
        self.met.update(lost)
        return bool(lost) and all(line in lost or line in others for line in lines) and done == self.ended(lines)


@pytest.mark.parametrize("library, said", [("failing_calls", wording(43)), ("failing_malloc", wording(31))])
@pytest.mark.parametrize("name", LOSSES)
def test_a_loss_in(name, library, said, folder, shim):
    how, given, sound, texts = LOSSES[name]
    losses = Losses(folder, given, sound, texts, **how)
    same(losses.run({}), losses.ended(sound), "what is said without a loss")
    refuses_each(shim(library), losses.run, lambda done: losses.is_lost(said, done), name)
    wanted = {f"{number} refused: {said}" for number in range(1, losses.requests() + 1)}
    wanted |= {f"ver/1.9: {said}"} if "verdict" in name else set()
    same(wanted - losses.met, set(), f"which losses {losses.met} are not among")


def test_a_request_alone_whose_memory_is_refused(folder, shim):
    """The requests before it and after it are done."""
    check = Check(folder, PATH="/opt/x/bin:/bin")
    lines = f"1 accepted\n2 refused: {wording(31)}\n3 accepted\nx/1: Plain\nz/1: Plain\n".encode()
    text = text_of(LOADEDMODULES="x/1:z/1", P="/s", _LMFILES_="/m/x/1:/m/z/1", __MODULES_SHARE_PATH="/opt/x/bin:2")
    library = shim("failing_malloc")

    def does(number):
        env = {**check.env, b"LD_PRELOAD": library, b"FAIL_AT": b"%d" % number}
        return folder.run("sh", env=env, given=b"load x\nload y\nload z\n")

    done = next((it for it in map(does, range(1, MOST_RUNS)) if it.stderr == lines), None)
    true(done, "no growth is one of the second request alone")
    same((done.stdout, done.returncode), (real(folder, text), 1), "the text and the status")


# What users are told.


def content(*names):
    with open(os.path.join(TOP, *names), encoding="utf-8") as file:
        return file.read()


@pytest.fixture
def prints_as_shown(folder, built):
    """Judges a command that users can copy: run by sh with both programs in the place of those below a prefix, it prints
    these lines."""
    home = os.path.join(os.fsdecode(folder.path), "bin")
    os.mkdir(home)
    for name in ("modcheck", "modulecmd"):
        os.symlink(built(name), os.path.join(home, name))

    def judge(check, command, lines, prefix):
        command = command.replace(prefix, home)
        env = {**check.env, b"PATH": os.environb[b"PATH"]}
        done = subprocess.run(["sh", "-c", command], env=env, capture_output=True, check=False)
        same(done.stderr + done.stdout, lines.encode(), f"what {command!r} prints")

    return judge


def test_the_example_of_the_readme(folder, prints_as_shown):
    part = content("README.md").split("## Check before you log in")[1].split("\n## ")[0]
    block = re.findall(r"```sh\n(.*?)```", part, re.DOTALL)[0]
    prints_as_shown(Check(folder), block, "1 accepted\n2 accepted\nfoo/1.0: Plain\n", "/opt/modulecmd/bin")


def blocks_of_the_page():
    """The literal blocks of the page's examples."""
    text = content("man", "modcheck.1").split(".Sh EXAMPLES\n")[1].split(".Sh ")[0]
    blocks = re.findall(r"^\.Bd -literal[^\n]*\n(.*?)^\.Ed", text, re.DOTALL | re.MULTILINE)
    return [block.replace("\\(aq", "'").replace("\\e", "\\").replace("\\-", "-") for block in blocks]


def test_the_examples_of_the_page(folder, prints_as_shown):
    """A block that begins with the cookie is the modulefile of the name in front of it; in others commands stand behind
    `$ `, a line that a pipe ends goes on, and what is printed stands below."""
    page = content("man", "modcheck.1").split(".Sh EXAMPLES\n")[1]
    names = re.findall(r"^\.Pa (/m/\S+)", page, re.MULTILINE)
    blocks = blocks_of_the_page()
    texts = [block for block in blocks if block.startswith("#%Module\n")]
    same(len(names), len(texts), "the names of modulefiles")
    for name, text in zip(names, texts):
        write(folder, name, text.removeprefix("#%Module\n"))
    check = Check(folder, worked={})
    commands = [part for block in blocks for part in re.split(r"^\$ ", block, flags=re.MULTILINE)[1:]]
    true(len(commands) >= 3, f"the commands {commands}")
    for part in commands:
        command, lines = re.fullmatch(r"((?:[^\n]*\|\n)*[^\n]*\n)(.*)", part, re.DOTALL).groups()
        prints_as_shown(check, command, lines, "@prefix@/bin")
