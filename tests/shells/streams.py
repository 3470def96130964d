"""Where text, reports and refusals go in each shell, whatever its streams, settings and functions are."""

import os
import shutil
import subprocess
import time

import pytest

from tests.lib.examples import wording
from tests.lib.harness import SECONDS, same, true
from tests.shells.session import changed, same_environment
from tests.shells.shells import at_terminals, content, environment, in_sh, in_shells

# In csh no stream can be closed, and none alone redirected.
with_streams = in_shells(lambda it: it.family != "csh")
with_redirections = in_shells(lambda it: it.title != "BSD csh")

NOT_FOUND = f"ERROR: {wording(42, 'nope')}\n".encode()

# Functions of a user's, whose names the functions here, or what they start, could call.
NAMES = ("test", "printf", "command", "cat", "less", "print", "stty", "subcommand", "after", "output")


def of_user(shell):
    """The lines that define them."""
    if shell.family == "sh":
        names = [name for name in NAMES if not (shell.title == "zsh" and name == "print")]
        return [f"{name}() {{ echo theirs; }}" for name in names]
    if shell.family == "fish":
        return [f"function {name}; builtin echo theirs; end" for name in NAMES if name not in ("test", "command")]
    return [f"alias {name} 'echo theirs'" for name in NAMES if name != "test"]


@pytest.fixture
def foo(real):
    """A shell over the program, and a module."""
    real.sets({"FOO": "on"})
    return real


def loaded(session, before):
    """The environment with the module, over the program."""
    at = session.folder.modules.decode()
    return changed(before, {"FOO": "on", "LOADEDMODULES": "foo/1.0", "_LMFILES_": f"{at}/foo/1.0"})


@with_streams
def test_loads_where_a_stream_is_closed(foo, shell):
    ways = [">&-", "<&-", "2>&-", *(["<&- >&- 2>&-"] if shell.family == "sh" else [])]
    lines = ["show"]
    for way in ways:
        lines += [f"module load foo {way}", "status", "show", shell.may_fail(f"module load nope {way}"), "module purge"]
    kept, _ = foo.run([*lines, "show"])
    same(kept.statuses, ["0"] * len(ways), "the statuses")
    before, *between, after = kept.shown
    for way, shown in zip(ways, between, strict=True):
        same_environment(shown, loaded(foo, before), f"the environment behind a load {way}")
    same_environment(after, before, "the environment after")


@with_streams
def test_says_that_a_report_has_no_place_where_standard_output_is_closed(foo, shell):
    kept, done = foo.run(["module help >&-", "status", "module list >&-", "status"])
    # (fish starts nothing that it is to hand a closed stream, and says so itself.)
    refused = ("1", "2") if shell.family == "fish" else ("1",)
    same((kept.statuses[0] in refused, kept.statuses[1]), (True, "0"), f"the statuses {kept.statuses}")
    said = [line for line in done.stderr.split(b"\n") if line.startswith((b"ERROR", b"No Modulefiles"))]
    wanted = [f"ERROR: {wording(64)}".encode(), b"No Modulefiles Currently Loaded."]
    same(said, wanted[1:] if shell.family == "fish" else wanted, "what is said")


def test_loads_in_a_shell_that_is_started_with_closed_streams(foo, shell):
    place = os.path.join(foo.folder.path, b"closed").decode()
    with open(place, "w") as file:
        file.write(f"{shell.source(foo.prefix)}\nmodule load foo\n/usr/bin/env -0 > '{place}.shown'\n")

    def close():
        for number in (0, 1, 2):
            os.close(number)

    subprocess.run([*shell.command, place], env=foo.env, cwd=foo.folder.path, preexec_fn=close, timeout=SECONDS, check=False)
    same(environment(f"{place}.shown").get(b"FOO"), b"on", "what is loaded")


def test_works_where_functions_have_the_names_of_tools(foo, shell):
    settings = {"sh": "set -C", "csh": "set noclobber", "fish": ":"}[shell.family]
    lines = [*of_user(shell), settings, "show", "module load foo", "show", shell.may_fail("module load nope")]
    lines += ["module list", "module help", "ml -foo", "show"]
    kept, done = foo.run(lines)
    same_environment(kept.shown[1], loaded(foo, kept.shown[0]), "the environment between")
    same_environment(kept.shown[2], kept.shown[0], "the environment after")
    same(done.stderr, NOT_FOUND + b"Currently Loaded Modulefiles:\nfoo/1.0\n", "standard error")
    true(done.stdout.startswith(b"usage: module") and b"theirs" not in done.stdout, "standard output")


@in_sh
def test_a_refusal_alone_ends_a_shell_that_ends_there(foo):
    lines = ["set -e", "module load foo", "module list", "module unload fo", "module help > /dev/null", "echo one"]
    _, done = foo.run([*lines, "module load nope", "echo two"])
    same((done.stdout, done.returncode), (b"one\n", 1), "what is said")
    hint = b"'fo' isn't loaded, but 'foo/1.0' is.\n"
    same(done.stderr, b"Currently Loaded Modulefiles:\nfoo/1.0\n" + hint + NOT_FOUND, "standard error")


@in_sh
def test_no_report_is_in_the_trace(foo):
    _, done = foo.run(["set -x", "module load foo", "module list", "module help > /dev/null"])
    same(done.stderr.count(b"Currently Loaded Modulefiles"), 1, "how often the report is there")
    same(done.stderr.count(b"SUBCOMMAND"), 0, "how often the usage is there")


@with_streams
def test_keeps_the_order_of_what_is_written_to_one_file(foo, shell):
    path = os.path.join(foo.folder.path, b"file").decode()
    block = "begin; {}; end" if shell.family == "fish" else "{{ {}; }}"
    foo.run([block.format("echo one; module --version; echo two; module load nope; echo three") + f" > '{path}' 2>&1"])
    lines = content(path).split(b"\n")
    same((lines[0], lines[2], lines[3], lines[-2]), (b"one", b"two", NOT_FOUND.strip(), b"three"), "the file")
    true(lines[1].startswith(b"modulecmd "), "the version")


@with_streams
def test_writes_a_report_of_the_program_s_own_to_a_substitution(foo, shell):
    take = "set x (module --version)" if shell.family == "fish" else 'x="$(module --version)"'
    _, done = foo.run([take, 'echo "<$x>"', f"module list 2>&1 >/dev/null | /bin/cat"])
    first, rest = done.stdout.split(b"\n", 1)
    true(first.startswith(b"<modulecmd ") and first.endswith(b">"), "the version")
    same((rest, done.stderr), (b"No Modulefiles Currently Loaded.\n", b""), "standard error alone in a pipe")


@with_redirections
def test_says_that_a_device_is_full(foo):
    kept, done = foo.run(["module help > /dev/full", "status"])
    same((done.stderr, kept.statuses), (f"ERROR: {wording(64)}\n".encode(), ["1"]), "what is said")


@in_sh
def test_works_in_a_background_job(foo):
    path = os.path.join(foo.folder.path, b"job").decode()
    kept, done = foo.run(["show", f"module load foo > '{path}' 2>&1 & wait", f"module help > '{path}.help' & wait", "show"])
    same(content(path), b"", "what a load writes")
    true(content(f"{path}.help").startswith(b"usage: module"), "the usage")
    same_environment(kept.shown[1], kept.shown[0], "the environment after")


# At a terminal.


def pages_by(session, start, script, behind=()):
    """A shell at a terminal of five rows, with a script of these lines as the user's pager."""
    pager = os.path.join(session.folder.path, b"pager").decode()
    with open(pager, "w") as file:
        file.write(f"#!/bin/sh\n{script}\n")
    os.chmod(pager, 0o755)
    session.starts_with(PAGER=pager)
    at = start(session, behind=behind)
    at.shows("/bin/stty rows 5 columns 34", b"\n")
    return at, pager


@at_terminals
@pytest.mark.usefixtures("modules")
def test_pages_where_functions_have_the_names_of_tools_and_none_is_in_PATH(real, shell, start):
    at, _ = pages_by(real, start, "/bin/sed -e s/^/paged:/", of_user(shell))
    at.shows("module avail", b"paged:gcc/11           top")
    at.settle(0.1)
    at.types(shell.says.sets.format("PATH", "/nowhere"))
    at.shows("ml av", b"paged:gcc/11           top")
    true(b"theirs" not in at.seen, f"what the terminal shows: {at.seen!r}")


@at_terminals
@pytest.mark.usefixtures("modules")
def test_does_what_is_typed_behind_a_pager_that_was_suspended(real, shell, start):
    at, pager = pages_by(real, start, '/usr/bin/touch "$0.runs"\nexec /bin/sleep 60')
    at.types("module avail")
    at.until(lambda: os.path.exists(f"{pager}.runs"), "the pager")
    at.settle(0.2)
    at.send("\x1a")
    at.settle(0.5)
    if shell.title == "dash" and b"Stopped" not in at.seen:
        at.send("\x03")
        at.settle()
    at.types(f"module load mpi; module list > '{at.at('loaded')}'")
    at.keeps("loaded", b"Currently Loaded Modulefiles:\nmpi/1\n", "what is loaded")


@at_terminals
@pytest.mark.usefixtures("modules")
def test_goes_on_behind_a_pager_that_is_left_early(real, shell, start):
    """Also where the shell ends at an error, and a pipe has the first one's status."""
    if not shutil.which("less"):
        pytest.skip("how less is left early, without less")
    settings = {"dash": "set -e", "bash": "set -e -o pipefail", "zsh": "setopt err_exit pipe_fail"}
    settings |= dict.fromkeys(("ksh93", "mksh"), "set -e -o pipefail")
    for number in range(300):
        real.folder.module(f"many/{number:03}", "")
    at, _ = pages_by(real, start, "exec less -R")
    at.types(settings.get(shell.title, "echo"))
    at.shows("module avail", b"gcc/9")
    at.settle()
    true(b"many/299" not in at.seen, "the end waits")
    at.send("q")
    at.settle(0.2)
    at.types(f"module load mpi; module list > '{at.at('loaded')}'")
    at.keeps("loaded", b"Currently Loaded Modulefiles:\nmpi/1\n", "what is loaded")


@at_terminals
def test_pipes_a_long_report(real, shell, start):
    value = "x" * 300_000
    path = real.folder.module("big/1", f"module-whatis {value}\n")
    at = start(real)
    wanted = os.fsencode(path) + b":\nmodule-whatis " + value.encode() + b"\n"
    for name, line in (("piped", "module show big | /bin/cat > '{}'"), ("written", "module show big > '{}'")):
        at.types(line.format(at.at(name)) + f"; echo > '{at.at(name)}.end'")
        at.until(lambda name=name: os.path.exists(f"{at.at(name)}.end"), f"the end of {name}")
        same(len(content(at.at(name))), len(wanted), f"how much is {name}")
        same(content(at.at(name)) == wanted, True, f"what is {name}")


@at_terminals
def test_shows_no_character_of_a_refusal_that_steers(real, shell, start):
    word = "a\x1b[7mb"
    real.starts_with(WORD=word)
    at = start(real)
    at.shows(f"module {shell.says.word.format('WORD')}", b"ERROR: Unknown subcommand 'a?[7mb'\r\n")
    at.settle(0.1)
    at.types(f"module load {shell.says.word.format('WORD')} {shell.says.to_file} '{at.at('said')}'; echo > '{at.at('end')}'")
    until = time.monotonic() + SECONDS / 2
    while not os.path.exists(at.at("end")) and time.monotonic() < until:
        at.read(0.05)
    same(content(at.at("said")), f"ERROR: {wording(42, word)}\n".encode(), "what a file has")
