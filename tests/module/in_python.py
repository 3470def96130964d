"""What the file for Python promises: a Python of its own, in an environment of its own, over the installed product."""

import fcntl
import json
import os
import pty
import subprocess
import sys
import termios
import textwrap

import pytest

from tests.lib.examples import wording
from tests.lib.harness import LISTS, same, true

# What stands in front of each script, and behind it: what it says, and its environment, go to files.
HEAD = """
import json, os, sys
sys.path.insert(0, {init!r})
from python import module, ml

def keep():
    kept.append(dict(os.environ))

kept, said = [], []
"""
TAIL = """
with open({kept!r}, "w") as file:
    json.dump([kept, said], file)
"""


class Python:
    """Runs scripts over the product."""

    def __init__(self, folder, prefix):
        self.folder = folder
        self.init = os.path.join(prefix, "init")
        self.env = {"MODULEPATH": os.fsdecode(folder.modules), "PATH": "/usr/bin:/bin", "HOME": os.fsdecode(folder.path)}

    def run(self, script, head=HEAD):
        """Gives the environments that the script kept, what it put into `said`, and the whole process. Each name and
        value is a text as Python has it."""
        kept = os.path.join(os.fsdecode(self.folder.path), "kept")
        text = head.format(init=self.init) + textwrap.dedent(script) + TAIL.format(kept=kept)
        done = subprocess.run([sys.executable, "-B", "-c", text], env=self.env, capture_output=True, check=False)
        same(done.returncode, 0, f"the status; {done.stderr.decode()}")
        with open(kept) as file:
            environments, said = json.load(file)
        return environments, said, done


@pytest.fixture
def python(folder, product):
    return Python(folder, product)


def test_loads_and_unloads(python, folder):
    folder.module("foo/1.0", "setenv FOO on\nprepend-path PATH /opt/foo/bin\nunsetenv OLD old\n")
    python.env["OLD"] = "old"
    script = """
        keep()
        said.append(module("load", "foo"))
        keep()
        said.append(os.popen("printf %s $FOO").read())
        said.append(module("is-loaded", "foo/1.0"))
        said.append(module("unload", "foo"))
        keep()
        said.append(module("is-loaded", "foo/1.0"))
    """
    (before, between, after), said, done = python.run(script)
    same((said, done.stderr), ([True, "on", True, True, False], b""), "what is answered")
    changed = {"FOO": "on", "PATH": "/opt/foo/bin:/usr/bin:/bin", "LOADEDMODULES": "foo/1.0"}
    changed["_LMFILES_"] = os.path.join(os.fsdecode(folder.modules), "foo/1.0")
    same(between, {name: value for name, value in {**before, **changed}.items() if name != "OLD"}, "between")
    same(after, before, "after")


def test_reads_every_byte_from_1_to_127_and_UTF_8(python, folder):
    value = "".join(map(chr, range(1, 128))) + "é€'\\'' \\"
    backslashed = "".join(f"\\{char}" if char in '\\"$[]{};' else char for char in value)
    folder.module("foo/1.0", f'setenv FOO "{backslashed}"\n')
    (kept,), said, _ = python.run('said.append(module("load", "foo"))\nkeep()')
    same((said, kept["FOO"]), ([True], value), "the value")


def test_a_refusal_changes_nothing(python, folder):
    folder.module("foo/1.0", "setenv FOO on\n")
    script = 'keep()\nsaid.append(module("load", ["foo", "nope"]))\nkeep()'
    (before, after), said, done = python.run(script)
    same((said, after), ([False], before), "what is answered, and the environment")
    true(done.stderr.startswith(f"ERROR: {wording(42, 'nope')}\n".encode()), f"standard error: {done.stderr}")


def test_takes_what_the_function_adds(python, folder):
    folder.module("foo/1.0", "setenv FOO on\n")
    script = """
        keep()
        said.append(module("use", "--append", "/nowhere"))
        said.append(os.environ["MODULEPATH"])
        said.append(module("unuse", "/nowhere"))
        said.append([module("load", "foo"), module("save", "one"), module("del", "foo"), "FOO" in os.environ])
        said.append([module("restore", "one"), os.environ["FOO"], module("is-avail", "foo"), module("is-avail", "bar")])
        said.append([ml("-foo", "foo/1.0"), ml("purge")])
        said.append([module("us", "/nowhere"), module("unus", "/nowhere"), module("is-l"), module("rem", "nope")])
        said.append([module("av"), ml("av"), module("-V"), ml("-V"), module("--version", "x"), module("sa", "x")])
        said.append([module("use", "-x", "/nowhere"), module("avail"), module(), module("nope")])
        keep()
    """
    (before, after), said, done = python.run(script)
    wanted = [True, f"{before['MODULEPATH']}:/nowhere", True, [True, True, True, False], [True, "on", True, False]]
    wanted += [[True, True], [True, True, False, True], [True, True, True, True, True, False]]
    same(said, [*wanted, [False, True, True, False]], "what is answered")
    same(after, before, "the environment after")
    lines = done.stderr.decode().splitlines()
    same(lines[0], "There is no directory '/nowhere' yet.", "the first line")
    true("foo/1.0" in lines and lines[-2:] == ["ERROR: Unknown subcommand 'nope'", LISTS.strip()], f"standard error: {lines}")


def test_takes_the_site_s_directories_where_MODULEPATH_is_unset(python):
    del python.env["MODULEPATH"]
    own = os.path.join(os.path.dirname(python.init), "etc", "modulespath")
    with open(own) as file:
        before = file.read()
    try:
        with open(own, "w") as file:
            file.write("# a\n/a b/c\n/d\n")
        (kept,), _, _ = python.run("keep()")
    finally:
        with open(own, "w") as file:
            file.write(before)
    same(kept["MODULEPATH"], "/a b/c:/d", "MODULEPATH")


def test_runs_the_site_s_program_behind_a_command_that_changed_what_is_loaded(python, folder):
    folder.module("foo/1.0", "setenv FOO on\n")
    folder.module("bar/1", "")
    written = os.path.join(os.fsdecode(folder.path), "written")
    place = os.path.join(os.path.dirname(python.init), "etc", "after")
    with open(place, "w") as file:
        file.write(f"#!/bin/sh\necho hook; printf '%s;' \"$*\" >> '{written}'\n")
    os.chmod(place, 0o755)
    script = """
        import time
        for words in (["load", "foo"], ["list"], ["lo", "foo"], ["nope"], ["use", "/"], ["ml", "-foo", "bar"], ["pu"]):
            module(*words)
            time.sleep(0.3)
        keep()
    """
    try:
        (kept,), _, done = python.run(script)
    finally:
        os.remove(place)
    with open(written) as file:
        given = file.read().split(";")[:-1]
    wanted = ["sh load foo", "sh unload foo", "sh load bar", "sh purge"]
    same((sorted(given), b"hook" in done.stdout + done.stderr), (sorted(wanted), False), "what the program was given")
    same("FOO" in kept, False, "what is loaded")


def test_shows_a_report_where_its_standard_output_is_a_terminal(python, folder):
    """It is the program's, in columns, or the pager's."""
    for name in ("foo/1", "foo/2", "foo/3"):
        folder.module(name, "")
    ours, its = pty.openpty()
    fcntl.ioctl(its, termios.TIOCSWINSZ, b"\x18\x00\x50\x00\x00\x00\x00\x00")
    script = f"import sys\nsys.path.insert(0, {python.init!r})\nfrom python import module\nassert module('avail')\n"
    env = {**python.env, "TERM": "dumb"}
    subprocess.run([sys.executable, "-B", "-c", script], env=env, stdin=its, stdout=its, stderr=its, check=True)
    os.close(its)
    said = os.read(ours, 65536)
    os.close(ours)
    same(said, folder.modules + b":\r\nfoo/1  foo/2  foo/3\r\n", "what is shown")


def test_can_be_executed_as_a_text(python, folder):
    folder.module("foo/1.0", "setenv FOO on\n")
    imports = "sys.path.insert(0, {init!r})\nfrom python import module, ml"
    head = HEAD.replace(imports, "exec(open({init!r} + '/python.py').read())")
    (kept,), said, _ = python.run('said.append(module("load", "foo"))\nkeep()', head)
    same((said, kept["FOO"]), ([True], "on"), "what is loaded")


def test_takes_no_text_that_no_modulecmd_prints(python):
    script = r"""
        from python import _changes
        texts = (b"rm x;\n", b"A=b; export A;\n", b"A='b'; export B;\n", b"A='b", b"A='b'; export A;")
        for text in (*texts, b"A='b'\nunset A;\n"):
            try:
                said.append(str(list(_changes(text))))
            except ValueError:
                said.append(None)
        said.append([str(it) for it in _changes(b"A='b'\\''c\n'; export A;\nunset B;\n")])
    """
    _, said, _ = python.run(script)
    same(said, [None] * 6 + [["(b'A', b\"b'c\\n\")", "(b'B', None)"]], "what is read")
