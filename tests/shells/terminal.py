"""What the functions show and pipe at a terminal: over the script that stands in for the program, and what they add
over the program."""

import os
import shutil

import pytest

from tests.lib.examples import wording
from tests.lib.harness import OPTIONS, same, true
from tests.shells.session import pages
from tests.shells.shells import at_terminals, content, in_tcsh

ERROR = b"ERROR: no\n"


@at_terminals
def test_pipes_reports(real, start):
    path = os.fsencode(real.folder.module("foo/1.0", "setenv FOO on\nmodule-whatis {a foo}\n"))
    at = start(real)
    shown = b"piped " + path + b":\npiped setenv FOO on\npiped module-whatis {a foo}\n"
    lines = {
        "module show foo/1.0": shown,
        "ml show foo": shown,
        "module whatis foo": b"piped foo/1.0: a foo\n",
        "module display foo": shown,
    }
    for number, (line, wanted) in enumerate(lines.items()):
        at.types(f"{line} | /bin/sed -e 's/^/piped /' > '{at.at('piped')}'; /bin/mv '{at.at('piped')}' '{at.at(number)}'")
        at.keeps(number, wanted, f"what `{line}` pipes")


@at_terminals
def test_shows_nothing_that_steers_the_terminal(real, start):
    real.folder.module("foo/1.0", "setenv FOO a\\x1b\\x5b31mb\\u202ec\nmodule-whatis a\\u9bz\nproc ModulesHelp {} {puts stderr a\\x7fb}\n")
    at = start(real)
    for line, shown in (
        ("module show foo", b"setenv FOO {a?[31mb?c}\r\nmodule-whatis a?z\r\n"),
        ("module whatis foo", b"foo/1.0: a?z\r\n"),
        ("module whatis", b"foo/1.0: a?z\r\n"),
        ("module keyword foo", b"foo/1.0: a?z\r\n"),
        ("module help foo", b"a?b\r\n"),
    ):
        at.shows(line, shown)
        at.settle(0.1)


@at_terminals
def test_hands_on_the_status_of_a_report_and_pipes_nothing_else(scripted, shell, start):
    at = start(scripted)
    scripted.stand_in.answer(b"", ERROR, 1)
    at.types(f"module show nope; echo {shell.says.status} > '{at.at('status')}'")
    at.keeps("status", b"1\n", "the status")
    at.settle(0.1)
    scripted.stand_in.answer(b"", b"message\n", 0)
    scripted.stand_in.answer(b"", ERROR, 1)
    redirected = f"module load nope {shell.says.to_file} '{at.at('redirected')}'"
    at.types(f"module load foo | /bin/cat > '{at.at('piped')}'; {redirected}")
    at.types(f"echo done > '{at.at('done')}'")
    at.keeps("done", b"done\n", "the end of the load")
    same(content(at.at("piped")), b"", "what a load pipes")
    same(content(at.at("redirected")), ERROR, "what a refused load says")


@at_terminals
def test_says_why_avail_finds_nothing(real, shell, start):
    at = start(real)
    # What is typed, and what the terminal shows; the pipe takes nothing.
    typed = {
        "module avail": b"No module is in the directories of MODULEPATH: " + real.folder.modules,
        "module avail 'gcc*'": b'"avail" takes the beginnings of names',
        "ml avail --terse z": b"capitals as they are; no patterns.",
        f"{shell.says.unsets.format('MODULEPATH')}; module avail": b"No MODULEPATH is set.",
        "module avail x": b"No MODULEPATH is set.",
    }
    for number, (line, shown) in enumerate(typed.items()):
        at.shows(f"{line} | /bin/cat > '{at.at(number)}'", shown)
        same(content(at.at(number)), b"", f"what `{line}` pipes")


@at_terminals
def test_pipes_what_avail_finds_and_its_refusal(real, shell, start):
    real.folder.module("foo/1.0", "")
    at = start(real)
    at.types(f"module avail f > '{at.at('found')}'")
    at.keeps("found", real.folder.modules + b":\nfoo/1.0\n", "what is found")
    refusal = f"ERROR: 'avail' has no option '--nope'\n{OPTIONS}".replace("\n", "\r\n").encode()
    at.shows(f"module avail --nope > '{at.at('refused')}'", refusal)
    same(content(at.at("refused")), b"", "what of a refusal is piped")


@at_terminals
def test_pipes_what_is_said_of_modules(real, folder, start):
    folder.module("foo/1.0", "module-whatis {a foo}\n")
    folder.module("bar/2", "module-whatis {a bar}\nproc ModulesHelp {} {puts stderr {how to use bar}}\n")
    folder.module("bad/1", "nope\n")
    at = start(real)
    more = b'"module show NAME" says what a module does. Manual pages:\n' + pages(real.prefix)
    left = b'Left out:\nbad/1: invalid command name "nope" (line 2)\n'
    lines = {
        "module help foo": b"foo/1.0: a foo\n" + more,
        "module help bar": b"how to use bar\n",
        "module whatis": b"bar/2: a bar\nfoo/1.0: a foo\n" + left,
        "module keyword 'A FOO'": b"foo/1.0: a foo\n" + left,
    }
    for number, (line, wanted) in enumerate(lines.items()):
        at.types(f"{line} | /bin/cat > '{at.at('piped')}'; /bin/mv '{at.at('piped')}' '{at.at(number)}'")
        at.keeps(number, wanted, f"what `{line}` pipes")


@at_terminals
def test_does_what_is_typed_behind_a_command_that_was_broken_off(scripted, shell, start):
    at = start(scripted)
    for slow, line, words in (
        ("module load slow", "module unload gcc", ["unload", "gcc"]),
        ("ml slow", "ml -gcc", ["ml", "-gcc"]),
        ("ml -slow foo", "module purge", ["purge"]),
        ("module load slow", "ml gcc", ["ml", "gcc"]),
    ):
        scripted.stand_in.hang()
        given = len(scripted.words())
        at.types(slow)
        at.until(lambda given=given: len(scripted.words()) > given, f"the command of `{slow}`")
        at.settle(0.1)
        at.send("\x03")
        at.settle()
        scripted.stand_in.answer()
        at.types(line)
        at.until(lambda given=given: len(scripted.words()) > given + 1, f"the command of `{line}`")
        same(scripted.stand_in.words()[-1], [shell.init, *words], f"the words of `{line}`")
        at.settle(0.1)


@in_tcsh
def test_does_what_is_typed_behind_a_text_that_it_can_t_evaluate(scripted, start):
    at = start(scripted)
    scripted.stand_in.answer(b"setenv LS_COLORS 'zz=1';\n")
    at.shows("module load colours", b"Unknown colorls variable")
    at.settle(0.1)
    scripted.stand_in.answer()
    at.types("module unload foo")
    at.until(lambda: len(scripted.words()) > 1, "the command")
    same(scripted.stand_in.words()[1], ["tcsh", "unload", "foo"], "the words")


# What the functions add, over the program.

BOLD, PLAIN = b"\x1b[1m", b"\x1b[0m"
HEADING = b":" + PLAIN + b"\r\n"
DEFAULT = b"\x1b[32m(default)" + PLAIN

# What is shown of the modules.
CELLS = (b"gcc/9", b"gcc/10(default)", b"gcc/11", b"gcc/12", b"mpi/1", b"sub/x/1", b"top")


@at_terminals
def test_shows_what_cannot_be_read_and_nothing_that_steers(real, folder, start):
    """A ring of links is what root can't read either."""
    folder.module("foo/1.0", "module-whatis {a\x9bfoo}\nsetenv A {b\x1bc}\n")
    os.symlink("ring", folder.at("ring"))
    at = start(real)
    at.shows("module avail", b"/ring: not readable")
    at.shows("module whatis foo/1.0", b"foo/1.0: a?foo")
    at.shows("module whatis", b"/ring: not readable")
    at.shows("module show foo/1.0", b"b?c")


@at_terminals
def test_shows_reports_in_columns(real, shell, modules, start):
    at = start(real)
    plain = b"".join(cell.ljust(17) for cell in CELLS).rstrip()
    coloured = plain.replace(b"(default)", DEFAULT)
    at.shows("module avail", BOLD + modules + HEADING, coloured + b"\r\n")
    at.shows("module avail -L top", b"\r\ntop\r\n")
    at.shows("module avail -t mpi", modules + b":\r\nmpi/1\r\n")
    title = BOLD + b"Currently Loaded Modulefiles" + HEADING
    at.shows("module load mpi top; module list", title, b"mpi/1  top\r\n")
    no_colour = shell.says.sets.format("NO_COLOR", "1")
    marked = plain.replace(b"mpi/1        ", b"mpi/1(loaded)") + b"(loaded)"
    at.shows(f"{no_colour}; module avail", modules + b":\r\n" + marked + b"\r\n")
    at.settle(0.1)
    for number, line in enumerate(("module avail", "module avail -t")):
        at.types(f"{line} | /bin/cat > '{at.at(number)}'")
        at.keeps(number, modules + b":\n" + b"\n".join(CELLS) + b"\n", f"what `{line}` pipes")


@at_terminals
def test_shows_more_than_a_screen_by_a_pager(real, shell, modules, start):
    real.starts_with(PAGER="/bin/sed -e s/^/paged:/")
    at = start(real)
    at.shows("/bin/stty rows 5 columns 34", b"\n")
    text = b"paged:gcc/9            mpi/1\r\npaged:gcc/10(default)  sub/x/1\r\npaged:gcc/11           top\r\n"
    at.shows("module avail", b"paged:" + modules + b":\r\n" + text)
    at.shows("module avail top", BOLD + modules + HEADING + b"top\r\n")
    if shutil.which("less"):
        at.shows(f"{shell.says.unsets.format('PAGER')}; module avail", b"gcc/11           top")
        at.settle()
        true(b"gcc/12" not in at.seen, "the last line waits")
        at.send("q")
    at.settle(0.2)


@at_terminals
@pytest.mark.usefixtures("modules")
def test_shows_a_long_report_whole_where_no_pager_can(real, shell, start):
    """A pager that isn't there shows nothing, and on a terminal that can only print, a pager waits at its first line."""
    real.starts_with(PAGER="nosuchpager")
    at = start(real)
    at.shows("/bin/stty rows 5 columns 34", b"\n")
    at.shows("module avail", b"nosuchpager", b"gcc/9            mpi/1\r\n", b"gcc/11           top\r\n")
    no_pager = shell.says.unsets.format("PAGER")
    for line in (shell.says.sets.format("TERM", "dumb"), shell.says.unsets.format("TERM")):
        at.shows(f"{no_pager}; {line}; module avail", b"gcc/9            mpi/1\r\n", b"gcc/12\r\n")


@in_tcsh
@pytest.mark.usefixtures("modules")
def test_does_what_is_typed_behind_a_pager_that_was_suspended(real, start):
    pager = os.path.join(real.folder.path, b"pager").decode()
    with open(pager, "w") as file:
        file.write(f"#!/bin/sh\n/usr/bin/touch '{pager}.runs'\nexec /bin/sleep 60\n")
    os.chmod(pager, 0o755)
    real.starts_with(PAGER=pager)
    at = start(real)
    at.shows("/bin/stty rows 5 columns 34", b"\n")
    at.types("module avail")
    at.until(lambda: os.path.exists(f"{pager}.runs"), "the pager")
    at.shows("\x1a", b"Suspended")
    at.types(f"module load mpi; module list > '{at.at('loaded')}'")
    at.keeps("loaded", b"Currently Loaded Modulefiles:\nmpi/1\n", "what is loaded")


@at_terminals
@pytest.mark.usefixtures("modules")
def test_says_which_names_are_like_one_that_isn_t_found(real, shell, start):
    at = start(real)
    for line, name, said in (
        ("module load GCC", "GCC", "Did you mean gcc?"),
        ("ml mpi gxc", "gxc", "Did you mean gcc?"),
        ("module show gcc/13", "gcc/13", "Did you mean gcc/10, gcc/11, gcc/12?"),
        ("module whatis tops", "tops", "Did you mean top?"),
        ("module switch gcc mp/1", "mp/1", "Did you mean mpi?"),
    ):
        at.shows(line, f"ERROR: Unable to locate a modulefile for '{name}'\r\n{said}\r\n".encode())
    at.settle(0.1)
    at.seen = b""
    at.types(f"module load nothing; echo {shell.says.status} > '{at.at('status')}'")
    at.keeps("status", b"1\n", "the status")
    true(b"Did you mean" not in at.seen, "nothing is said where no name is like it")
    at.types(f"module load mp {shell.says.to_file} '{at.at('said')}'; echo done > '{at.at('done')}'")
    at.keeps("done", b"done\n", "the end of the load")
    said = f"ERROR: {wording(42, 'mp')}\nDid you mean mpi?\n".encode()
    same(content(at.at("said")), said, "what a file has")


@at_terminals
def test_pipes_what_is_added(real, shell, modules, start):
    at = start(real)
    lines = {
        f"module use {at.place}": b"",
        "module save first": b"",
        "module use | /bin/cat > {}": at.place.encode() + b"\n" + modules + b"\n",
        "module savelist | /bin/cat > {}": b"first\n",
        "module whatis mpi | /bin/cat > {}": b"",
        f"module is-avail mpi; echo {shell.says.status} > {{}}": b"0\n",
    }
    for number, (line, wanted) in enumerate(lines.items()):
        kept = at.at(number)
        at.types(f"{line.format(kept)}; echo > {kept}.end")
        at.until(lambda end=f"{kept}.end": os.path.exists(end), f"the end of `{line}`")
        same(content(kept), wanted, f"what `{line}` pipes")
        at.settle(0.1)
