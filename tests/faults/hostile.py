"""What the built program does with hostile folders, files, names, variables and scripts.

The expected texts are typed by hand from the rules of the program. Whatever is there, a command ends in time: by status
0, or by status 1 with one line `ERROR: ` and nothing on standard output.
"""

import os
import re
import resource
import socket
import subprocess

import pytest
from hypothesis import given
from hypothesis import strategies as st

from tests.lib.examples import wording
from tests.lib.harness import FOO, NOBODY, encoded, loaded, same, true
from tests.lib.properties import examples, several
from tests.lib.worked import FILES
from tests.models import runs
from tests.shells.texts import text as text_for

SECONDS = 20
MOST_BYTES = 1_048_576
COOKIE = b"#%Module\n"


@pytest.fixture(autouse=True, scope="module")
def no_core_files():
    resource.setrlimit(resource.RLIMIT_CORE, (0, resource.getrlimit(resource.RLIMIT_CORE)[1]))


def within(folder, words, env, cwd=None, user=None):
    """Runs the program, which has to end by itself."""
    options = {"user": user, "group": user, "extra_groups": []} if user is not None and os.geteuid() == 0 else {}
    return subprocess.run(
        [folder.program, *[os.fsencode(word) for word in words]],
        env=env,
        cwd=cwd,
        stdin=subprocess.DEVNULL,
        capture_output=True,
        timeout=SECONDS,
        check=False,
        **options,
    )


def ends_well(folder, words, env, what):
    """The program is accepted or refuses, and says so as it should."""
    done = within(folder, words, env)
    true(done.returncode in (0, 1), f"{what}: status {done.returncode}")
    if done.returncode == 1:
        same(done.stdout, b"", f"standard output of {what}")
        true(done.stderr.startswith(b"ERROR: ") and done.stderr.endswith(b"\n"), f"{what}: {done.stderr!r}")
    return done


def path_of(*folders):
    """An environment with this MODULEPATH alone."""
    return encoded({"MODULEPATH": b":".join(os.fsencode(folder) for folder in folders)})


def lists_of(name, path):
    """The two lines of a load of the first module."""
    return (
        b"LOADEDMODULES='" + name + b"'; export LOADEDMODULES;\n",
        b"_LMFILES_='" + path + b"'; export _LMFILES_;\n",
    )


def loads(folder, typed, name, path, env, more=b"", cwd=None):
    """The module is found there, and its load prints the lists, behind what is more."""
    done = within(folder, ["sh", "load", typed], env, cwd=cwd)
    name = name if isinstance(name, bytes) else os.fsencode(name)
    names, paths = lists_of(name, path)
    same(done.stderr, b"", f"standard error of load {typed!r}")
    same(done.stdout, names + more + paths, f"standard output of load {typed!r}")
    same(done.returncode, 0, f"status of load {typed!r}")


def reports(folder, words, text, env, cwd=None):
    """The command reports exactly this, and prints no change."""
    done = within(folder, words, env, cwd=cwd)
    same(done.stdout, b"", f"standard output of {words}")
    same(done.stderr, text if isinstance(text, bytes) else text.encode(), f"standard error of {words}")
    same(done.returncode, 0, f"status of {words}")


# Links.


def test_a_ring_of_links_in_modulepath(folder):
    ring = os.path.join(folder.path, b"ring")
    os.symlink(b"gnir", ring)
    os.symlink(b"ring", os.path.join(folder.path, b"gnir"))
    folder.module("foo/1", "setenv A b\n")
    for env in (path_of(ring), path_of(ring, folder.modules), path_of(os.path.join(ring, b"x"), folder.modules)):
        folder.refuses(["sh", "load", "foo/1"], wording(43), env=env)
        folder.refuses(["sh", "avail"], wording(43), env=env)
    names, paths = lists_of(b"foo/1", folder.at("foo/1"))
    env = path_of(folder.modules, ring)
    folder.accepts(["sh", "load", "foo/1"], b"A='b'; export A;\n" + names + paths, env=env)


def test_a_ring_of_links_among_versions(folder):
    folder.module("d/1", "setenv A b\n")
    os.symlink("3", folder.at("d/2"))
    os.symlink("2", folder.at("d/3"))
    folder.refuses(["sh", "load", "d"], wording(43))
    folder.refuses(["sh", "load", "d/2"], wording(43))
    folder.refuses(["sh", "avail"], wording(43))
    loads(folder, "d/1", "d/1", folder.at("d/1"), folder.environment(A="b"))


def test_a_ring_of_links_as_default_file(folder):
    folder.module("d/1", "")
    os.symlink(".modulerc", folder.at("d/.modulerc"))
    folder.refuses(["sh", "load", "d"], wording(43))
    loads(folder, "d/1", "d/1", folder.at("d/1"), folder.environment())


def test_a_folder_that_links_to_itself(folder):
    folder.module("loop/a", "")
    os.symlink(".", folder.at("loop/loop"))
    text = folder.modules + b":\nloop/a\nloop/loop/a\nloop/loop/loop/a\n"
    reports(folder, ["sh", "avail"], text, folder.environment())
    loads(folder, "loop", "loop/a", folder.at("loop/a"), folder.environment())
    loads(folder, "loop/loop", "loop/loop/a", folder.modules + b"/loop/loop/a", folder.environment())


def test_dangling_links(folder):
    os.symlink("nothing", folder.at("d/2"))
    os.symlink("nothing", folder.at("d/.modulerc"))
    folder.refuses(["sh", "load", "d"], wording(42, "d"))
    reports(folder, ["sh", "avail"], "", folder.environment())
    folder.module("d/1", "")
    loads(folder, "d", "d/1", folder.at("d/1"), folder.environment())
    reports(folder, ["sh", "avail"], folder.modules + b":\nd/1\n", folder.environment())


# Other things than files and folders.


def test_a_folder_where_a_file_should_be(folder):
    folder.module("d/1/x", "setenv A b\n")
    folder.module("e/9/y", "")
    os.makedirs(folder.at("f/1"))
    folder.refuses(["sh", "load", "d"], wording(42, "d"))
    folder.refuses(["sh", "load", "f/1"], wording(42, "f/1"))
    env = folder.environment(A="b")
    loads(folder, "d/1", "d/1/x", folder.at("d/1/x"), env)
    os.makedirs(folder.at("d/.modulerc"))
    os.makedirs(folder.at("d/1/.version"))
    loads(folder, "d/1", "d/1/x", folder.at("d/1/x"), env)
    reports(folder, ["sh", "avail"], folder.modules + b":\nd/1/x\ne/9/y\n", env)
    held = folder.environment(LOADEDMODULES="d/1", _LMFILES_=folder.at("d/1"))
    folder.refuses(["sh", "unload", "d"], b"No file at '" + folder.at("d/1") + b"'", env=held)


def test_a_file_where_a_folder_should_be(folder):
    path = folder.module("foo/1", FOO)
    for name in ("foo/1/x", "foo/1/x/y"):
        folder.refuses(["sh", "load", name], wording(42, name))
    env = path_of(path, os.path.join(path, b"below"), b"/dev/null", b"/nowhere")
    folder.refuses(["sh", "load", "foo/1"], wording(42, "foo/1"), env=env)
    reports(folder, ["sh", "avail"], "", env)


def test_things_that_would_not_end(folder):
    os.mkfifo(folder.at("d/9"))
    os.symlink("/dev/zero", folder.at("d/8"))
    os.symlink("/dev/tty", folder.at("d/7"))
    listener = socket.socket(socket.AF_UNIX)
    here = os.getcwd()
    os.chdir(os.path.dirname(folder.at("d/6")))
    listener.bind("6")
    os.chdir(here)
    os.mkfifo(folder.at("d/.modulerc"))
    os.mkfifo(folder.at("d/.version"))
    for version in ("9", "8", "7", "6"):
        folder.refuses(["sh", "load", f"d/{version}"], f"Unable to locate a modulefile for 'd/{version}'")
        path = folder.at(f"d/{version}")
        env = folder.environment(LOADEDMODULES=f"d/{version}", _LMFILES_=path)
        folder.refuses(["sh", "unload", "d"], b"No file at '" + path + b"'", env=env)
    folder.refuses(["sh", "load", "d"], wording(42, "d"))
    folder.module("d/1", "")
    loads(folder, "d", "d/1", folder.at("d/1"), folder.environment())
    reports(folder, ["sh", "avail"], folder.modules + b":\nd/1\n", folder.environment())
    fifo = path_of(folder.at("d/9"), folder.modules)
    loads(folder, "d", "d/1", folder.at("d/1"), fifo)
    listener.close()


# What may not be read.


def test_files_and_folders_that_may_not_be_read(folder):
    folder.module("d/1", "")
    os.chmod(folder.module("d/2", ""), 0)
    folder.module("e/1", "")
    os.chmod(folder.module("e/.modulerc", "module-version e/1 default\n"), 0)
    folder.module("f/1", "")
    os.chmod(os.path.dirname(folder.at("f/1")), 0o111)
    folder.module("g/1", "")
    os.chmod(os.path.dirname(folder.at("g/1")), 0)
    env = folder.environment()
    for name in ("d", "d/2", "e", "f", "g", "g/1"):
        folder.refuses(["sh", "load", name], wording(43), env=env, user=NOBODY)
    for name in ("d/1", "e/1", "f/1"):
        done = folder.run("sh", "load", name, env=env, user=NOBODY)
        same((done.stderr, done.returncode), (b"", 0), f"load {name}")
    folder.refuses(["sh", "avail"], wording(43), env=env, user=NOBODY)
    held = folder.environment(LOADEDMODULES="d/2", _LMFILES_=folder.at("d/2"))
    folder.refuses(["sh", "unload", "d"], wording(43), env=held, user=NOBODY)
    os.chmod(folder.modules, 0)
    folder.refuses(["sh", "load", "d/1"], wording(43), env=env, user=NOBODY)
    os.chmod(folder.modules, 0o755)
    for name in ("f", "g"):
        os.chmod(os.path.join(folder.modules, name.encode()), 0o755)


# Names.


def test_names_as_long_as_the_system_takes(folder):
    name = "a" * 255
    deep = "/".join(["b" * 255] * 4)
    folder.module(name, "")
    folder.module(deep, "")
    loads(folder, name, name, folder.at(name), folder.environment())
    loads(folder, deep, deep, folder.at(deep), folder.environment())
    loads(folder, "b" * 255 + "/" + "b" * 255 + "/" + "b" * 255, deep, folder.at(deep), folder.environment())
    text = folder.modules + b":\n" + name.encode() + b"\n" + deep.encode() + b"\n"
    reports(folder, ["sh", "avail"], text, folder.environment())
    for count in (256, 4096, 100_000):
        folder.refuses(["sh", "load", "a" * count], wording(43))
    long = "/".join(["a" * 255] * 5)
    folder.refuses(["sh", "load", long], wording(44, long))


def test_paths_longer_than_the_system_takes(folder):
    folder.module("foo/1", "")
    long = b"/x" * 2500
    for env in (path_of(long), path_of(long, folder.modules)):
        folder.refuses(["sh", "load", "foo/1"], wording(43), env=env)
        folder.refuses(["sh", "avail"], wording(43), env=env)
    loads(folder, "foo/1", "foo/1", folder.at("foo/1"), path_of(folder.modules, long))
    long = folder.modules + b"/." * 1500
    loads(folder, "foo", "foo/1", long + b"/foo/1", path_of(long))


def test_ill_spelled_names_of_each_request(folder):
    folder.module("foo/1", "")
    names = ["..", "../foo", "foo/..", "foo/../foo/1", "/foo", "foo/", "foo//1", "/", "//", ".", "./foo", "foo/."]
    names += ["", " ", "\n", "foo\n", "a b", "foo:foo", "foo&x", "a|b", "a\\b", "foo@1", "a/b/c/d/e", "\t", "foo\r"]
    names += ["a\v", "a\f", "~/.x", ".x"]
    for name in names:
        for word in ("load", "unload", "show", "whatis", "add", "rm", "display"):
            folder.refuses(["sh", word, name], wording(44, name))
        folder.refuses(["sh", "swap", "foo", name], wording(44, name))
        folder.refuses(["sh", "switch", name, "foo"], wording(44, name))
        done = within(folder, ["sh", "avail", name], folder.environment())
        same((done.stdout, done.returncode), (b"", 0), f"avail {name!r}")


def test_odd_names_that_are_well_spelled(folder):
    names = ["it's/$(x)", "-f/--help", "*/?", '"q"/{}', "a;b/#c", "é/€𝄞", "x/\u00a0", "x/\u2028", "\x01/\x7f"]
    for name in [*names, "%/!", "~/^"]:
        folder.module(name, "")
        shown = name.encode().replace(b"'", b"'\\''")
        loads(folder, name, shown, folder.modules.replace(b"'", b"'\\''") + b"/" + shown, folder.environment())
        missing = name + "0"
        folder.refuses(["sh", "load", missing], wording(42, missing))


def test_a_module_named_like_an_option(folder):
    folder.module("-f", "")
    folder.module("foo/--force", "")
    loads(folder, "-f", "-f", folder.at("-f"), folder.environment())
    loads(folder, "foo", "foo/--force", folder.at("foo/--force"), folder.environment())
    folder.refuses(["sh", "load", "--force"], wording(42, "--force"))
    folder.refuses(["sh", "load", "-"], wording(42, "-"))
    folder.refuses(["sh", "load", "--", "-f"], wording(42, "--"))
    folder.refuses(["sh", "-f", "load"], wording(57, "-f"))
    folder.refuses(["--version"], wording(63, "--version"))
    env = folder.environment(LOADEDMODULES="-f", _LMFILES_=folder.at("-f"))
    folder.accepts(["sh", "unload", "-f"], b"unset LOADEDMODULES;\nunset _LMFILES_;\n", env=env)
    reports(folder, ["sh", "list"], "Currently Loaded Modulefiles:\n-f\n", env)
    reports(folder, ["sh", "avail", "-"], folder.modules + b":\n-f\n", folder.environment())
    folder.module("c/1", "conflict -f\n")
    folder.refuses(["sh", "load", "c/1"], wording(56))


def test_words_that_are_not_utf8(folder):
    folder.module("foo/1", "")
    for words in (
        [b"sh", b"load", b"\xff"],
        [b"sh", b"\xff"],
        [b"\xff"],
        [b"\xff", b"load"],
        [b"sh", b"avail", b"\xc3"],
        [b"sh", b"load", b"foo/1", b"\xed\xa0\x80"],
        [b"sh", b"purge", b"\xff"],
        [b"elvish", b"load", b"\xff"],
    ):
        folder.refuses(words, wording(56))


def test_entries_of_folders_that_are_passed_over(folder):
    folder.module("d/1", "setenv A b\n")
    for name in ("9 9", "9:9", "9&9", "9|9", "9\\9", "9@9", ".9", "9\n", "9\t"):
        folder.module("d/" + name, "error x\n")
    folder.module("a b/1", "")
    folder.module(".git/1", "")
    loads(folder, "d", "d/1", folder.at("d/1"), folder.environment(A="b"))
    reports(folder, ["sh", "avail"], folder.modules + b":\nd/1\n", folder.environment())


def test_entries_that_are_not_utf8(folder):
    folder.module("d/1", "")
    folder.module(b"d/\xff", b"")
    folder.refuses(["sh", "load", "d"], wording(43))
    folder.refuses(["sh", "avail"], wording(43))
    loads(folder, "d/1", "d/1", folder.at("d/1"), folder.environment())


# MODULEPATH.


def test_no_modulepath(folder):
    for env in ({}, encoded({"MODULEPATH": ""}), encoded({"MODULEPATH": ":::"}), encoded({"MODULEPATH": b"\xff"})):
        folder.refuses(["sh", "load", "foo"], wording(42, "foo"), env=env)
        folder.refuses(["sh", "show", "foo"], wording(42, "foo"), env=env)
        reports(folder, ["sh", "avail"], "", env)
        reports(folder, ["sh", "list"], "No Modulefiles Currently Loaded.\n", env)
        reports(folder, ["sh", "purge"], "", env)
        reports(folder, ["sh", "unload", "foo"], "", env)


def test_repeated_entries(folder):
    folder.module("foo/1", "")
    env = path_of(folder.modules, folder.modules, folder.modules + b"/", folder.modules)
    loads(folder, "foo", "foo/1", folder.at("foo/1"), env)
    one = b":\nfoo/1\n"
    text = (folder.modules + one) * 2 + folder.modules + b"/" + one + folder.modules + one
    reports(folder, ["sh", "avail"], text, env)
    loads(folder, "foo", "foo/1", folder.modules + b"//foo/1", path_of(folder.modules + b"/"))


def test_relative_entries(folder):
    folder.module("foo/1", "setenv A b\n")
    env = encoded({"MODULEPATH": "m", "A": "b"})
    loads(folder, "foo", "foo/1", b"m/foo/1", env, cwd=folder.path)
    loads(folder, "foo", "foo/1", b"./foo/1", encoded({"MODULEPATH": ".", "A": "b"}), cwd=folder.modules)
    loads(folder, "foo", "foo/1", b"../m/foo/1", encoded({"MODULEPATH": "../m", "A": "b"}), cwd=folder.modules)
    reports(folder, ["sh", "avail"], "m:\nfoo/1\n", env, cwd=folder.path)
    held = encoded({"A": "b", "LOADEDMODULES": "foo/1", "_LMFILES_": "m/foo/1"})
    done = within(folder, ["sh", "unload", "foo"], held, cwd=folder.path)
    same((done.stdout, done.stderr), (b"unset A;\nunset LOADEDMODULES;\nunset _LMFILES_;\n", b""), "an unload there")
    done = within(folder, ["sh", "unload", "foo"], held, cwd=b"/")
    same((done.stdout, done.stderr), (b"", f"ERROR: {wording(54, 'm/foo/1')}\n".encode()), "an unload elsewhere")


def test_a_modulepath_of_many_folders(folder):
    folder.module("foo/1", "")
    entries = [b"/nowhere/%d" % number for number in range(5000)]
    loads(folder, "foo", "foo/1", folder.at("foo/1"), path_of(*entries, folder.modules))
    reports(folder, ["sh", "avail"], folder.modules + b":\nfoo/1\n", path_of(*entries, folder.modules))


# Large files and folders.


def test_files_that_are_too_large(folder):
    folder.module("big/1", b"#" * 2_000_000 + b"\n")
    folder.refuses(["sh", "load", "big"], wording(9))
    folder.refuses(["sh", "show", "big/1"], wording(9))
    held = folder.environment(LOADEDMODULES="big/1", _LMFILES_=folder.at("big/1"))
    folder.refuses(["sh", "unload", "big"], wording(9), env=held)
    folder.file("plain/1", b"#" * 2_000_000)
    folder.refuses(["sh", "load", "plain/1"], wording(42, "plain/1"))
    folder.module("d/1", "")
    folder.module("d/.version", b"#" * 2_000_000 + b"\n")
    folder.refuses(["sh", "load", "d"], b"Bad default file '" + folder.at("d/.version") + b"'")
    loads(folder, "d/1", "d/1", folder.at("d/1"), folder.environment())
    text = folder.modules + b":\nbig/1\nd/1\n"
    reports(folder, ["sh", "avail"], text, folder.environment())


def test_a_file_of_many_commands(folder):
    count = 30_000
    folder.module("many/1", "".join(f"setenv A{number} {number}\n" for number in range(count)))
    done = within(folder, ["sh", "load", "many"], folder.environment())
    same((done.stderr, done.returncode, done.stdout.count(b"\n")), (b"", 0, count + 2), "many commands")
    folder.module("more/1", "set a b\n" * 100_001)
    folder.refuses(["sh", "load", "more"], wording(14))
    folder.module("full/1", "set a b\n" * 100_000)
    loads(folder, "full", "full/1", folder.at("full/1"), folder.environment())


def test_commands_of_many_words(folder):
    many = 300_000
    words = '{*}[string repeat "b " %d]' % many
    folder.module("a/1", "")
    folder.module("b/1", "")
    held = loaded(folder, "a/1")
    names, paths = (text.replace(b"'a/1'", b"'a/1:c/1'") for text in lists_of(b"a/1", folder.at("c/1")))
    paths = paths.replace(folder.modules, folder.at("a/1") + b":" + folder.modules, 1)
    written = b"__MODULES_LMCONFLICT='c/1&b'; export __MODULES_LMCONFLICT;\n"
    for text in (f"conflict {words}\n", "conflict b\n" * 95_000, "while 1 {conflict b; if {[incr i] > 20000} break}\n"):
        folder.module("c/1", text)
        folder.accepts(["sh", "load", "c"], names + paths + written, env=held)
        folder.refuses(["sh", "load", "b", "c"], wording(51, "b/1"), env=held)
    folder.module("c/1", f"prereq {words}\n")
    folder.refuses(["sh", "load", "c"], "Missing one of '" + " ".join(["b"] * many) + "'", env=held)
    folder.module("c/1", f"prereq a {words}\n")
    written = b"__MODULES_LMPREREQ='c/1&a" + b"|b" * many + b"'; export __MODULES_LMPREREQ;\n"
    folder.accepts(["sh", "load", "c"], names + paths + written, env=held)
    folder.module("c/1", "prereq a\n" * 99_000)
    written = b"__MODULES_LMPREREQ='c/1" + b"&a" * 99_000 + b"'; export __MODULES_LMPREREQ;\n"
    folder.accepts(["sh", "load", "c"], names + paths + written, env=held)
    folder.module("c/1", f"prepend-path P {words}\nremove-path P {words}\nis-loaded {words}\nmodule-whatis {words}\n")
    folder.accepts(["sh", "load", "c"], names + paths, env=held)
    text = b"c/1: " + b" ".join([b"b"] * many) + b"\n"
    reports(folder, ["sh", "whatis", "c"], text, held)
    folder.module("c/1", f"append-path P {words}\n")
    reports(folder, ["sh", "show", "c"], folder.at("c/1") + b":\nappend-path P b" + b":b" * (many - 1) + b"\n", held)


def test_variables_of_many_parts(folder):
    folder.module("a/1", "")
    folder.module("x/1", "prepend-path P b\n")
    base = loaded(folder, "x/1", "a/1")
    for name, text, words, said in (
        ("__MODULES_LMCONFLICT", "a/1&" + "&".join(["b"] * 60_000), ["load", "c/1"], ""),
        ("__MODULES_LMCONFLICT", "a/1&" + "&".join(f"b{n}" for n in range(15_000)), ["unload", "x"], ""),
        ("__MODULES_LMCONFLICT", "a/1&" + "&".join(["b"] * 60_000 + ["c"]), ["load", "c/1"], wording(51, "a/1")),
        ("__MODULES_LMPREREQ", "a/1&" + "&".join(["x"] * 60_000), ["unload", "x"], wording(53, "a/1")),
        ("__MODULES_LMPREREQ", "a/1&" + "|".join(["b"] * 59_000 + ["x"]), ["unload", "x"], wording(53, "a/1")),
        ("__MODULES_LMPREREQ", "a/1&" + "|".join(["b"] * 59_000 + ["x"]), ["purge"], ""),
        ("__MODULES_LMPREREQ", ":" * 120_000, ["load", "c/1"], ""),
        ("P", ":" * 120_000, ["load", "c/1"], ""),
        ("__MODULES_SHARE_P", "b:2:" * 30_000, ["unload", "x"], ""),
        ("__MODULES_PUSHENV_S", ":".join(f"o{n}&v" for n in range(13_000)), ["load", "c/1"], ""),
        ("__MODULES_PUSHENV_S", "o&" + "\\" * 120_000, ["load", "c/1"], ""),
        ("MODULEPATH", ":" * 120_000, ["load", "c/1"], wording(42, "c/1")),
        ("MODULEPATH", ":".join(["/x"] * 40_000), ["load", "c"], wording(42, "c")),
    ):
        folder.module("c/1", "pushenv S v\nappend-path P b\n")
        done = ends_well(folder, ["sh", *words], {**base, name.encode(): text.encode()}, f"{words} with a long {name}")
        same(done.stderr, f"ERROR: {said}\n".encode() if said else b"", f"standard error of {words} with a long {name}")


def test_ten_thousand_versions(folder):
    for number in range(10_000):
        folder.module(f"many/{number}", "")
    loads(folder, "many", "many/9999", folder.at("many/9999"), folder.environment())
    text = folder.modules + b":\n" + b"".join(b"many/%d\n" % number for number in range(10_000))
    reports(folder, ["sh", "avail"], text, folder.environment())
    text = folder.modules + b":\nmany/999\n" + b"".join(b"many/999%d\n" % number for number in range(10))
    reports(folder, ["sh", "avail", "many/999"], text, folder.environment())


def test_folders_deeper_than_names(folder):
    folder.module("a/b/c/d", "")
    folder.module("e/f/g/h/i", "")
    folder.module("/".join("p" * 60), "")
    reports(folder, ["sh", "avail"], folder.modules + b":\na/b/c/d\n", folder.environment())
    loads(folder, "a/b/c", "a/b/c/d", folder.at("a/b/c/d"), folder.environment())
    for name in ("e/f/g/h", "e/f/g", "p/p/p/p"):
        folder.refuses(["sh", "load", name], wording(42, name))
    folder.refuses(["sh", "load", "e/f/g/h/i"], wording(44, "e/f/g/h/i"))


def test_many_names_in_one_command(folder):
    count = 300
    names = [f"m{number}/1" for number in range(count)]
    for name in names:
        folder.module(name, "prepend-path P /s\n")
    done = within(folder, ["sh", "load", *names], folder.environment())
    same((done.stderr, done.returncode), (b"", 0), "a load of many")
    lines = done.stdout.split(b"\n")
    same(lines[0], b"LOADEDMODULES='" + ":".join(names).encode() + b"'; export LOADEDMODULES;", "the list of many")
    same(lines[1], b"P='/s'; export P;", "the path of many")
    same(lines[3], b"__MODULES_SHARE_P='/s:%d'; export __MODULES_SHARE_P;" % count, "the counter of many")
    held = folder.environment(
        LOADEDMODULES=":".join(names),
        _LMFILES_=b":".join(folder.at(name) for name in names),
        P="/s",
        __MODULES_SHARE_P=f"/s:{count}",
    )
    text = b"unset LOADEDMODULES;\nunset P;\nunset _LMFILES_;\nunset __MODULES_SHARE_P;\n"
    for words in (["purge"], ["unload", *names], ["unload", *reversed(names)]):
        folder.accepts(["sh", *words], text, env=held)


# Default files.


def test_default_files_without_end(folder):
    folder.module("d/1", "")
    folder.module("d/2", "")
    path = folder.at("d/.modulerc")
    for text in (
        "while 1 {}\n",
        "catch {while 1 {}}\n",
        "proc f {} {f}\nf\n",
        "catch {proc f {} {f}; f}\nmodule-version d/1 default\n",
        "set s xx\nwhile 1 {append s $s}\n",
        "[" * 300 + "]" * 300,
        "exit\n",
        "break\n",
        "catch {exit}\nmodule-version d/1 default\n",
        "setenv A b\n",
        "module-version\n",
        "module-version d/1\n",
        "module-alias x d/1\n",
        "module-tag x d/1\n",
        "exec true\n",
        b"\xff\n",
        "set a {b",
    ):
        folder.module("d/.modulerc", text)
        folder.refuses(["sh", "load", "d"], b"Bad default file '" + path + b"'")
        loads(folder, "d/1", "d/1", folder.at("d/1"), folder.environment())
        reports(folder, ["sh", "avail"], folder.modules + b":\nd/1\nd/2\n", folder.environment())
    named = "module-version d/7 default\n"
    for text in ("return\n", "continue\n", "puts stderr hi\n", named, "module-version e/1 default\n"):
        folder.module("d/.modulerc", text)
        loads(folder, "d", "d/2", folder.at("d/2"), folder.environment())
    named = "module-version d/1 default\nreturn\n"
    for text in (named, "module-version /1 default\n", "module-version ./1 x default y\n"):
        folder.module("d/.modulerc", text)
        loads(folder, "d", "d/1", folder.at("d/1"), folder.environment())
        reports(folder, ["sh", "avail"], folder.modules + b":\nd/1(default)\nd/2\n", folder.environment())


# Scripts.


def test_scripts_that_nest(folder):
    deep = "set s {}\nfor {set i 0} {$i < 300} {incr i} {set s [list if 1 $s]}\n"
    rows = (
        ("[" * 100, wording(4, 108)),
        ("[" * 201 + "]" * 201, wording(6)),
        ("setenv A [expr {" + "-" * 201 + "1}]\n", wording(6)),
        ("setenv A [expr {" + "(" * 201 + "1" + ")" * 201 + "}]\n", wording(6)),
        ("setenv A [expr {" + "1+" * 201 + "1}]\n", wording(6)),
        ("proc f {} {catch {f}; f}\nf\n", wording(15)),
        ("proc f {n} {foreach i {1 2} {if 1 {switch a {a {f $n}}}}}\nf 1\n", wording(15)),
        (deep + "eval $s\n", wording(19, "eval")),
        (deep + "if 1 $s\n", wording(15)),
        ("set s xx\nwhile 1 {append s $s}\n", wording(16)),
        ("setenv A [string repeat x 1048577]\n", wording(16)),
        ("setenv A [string repeat xyz 9223372036854775807]\n", wording(16)),
        ("setenv A [string repeat x 9223372036854775808]\n", wording(17)),
        ("catch {while 1 {}}\n", wording(14)),
        ("catch {for {} 1 {} {}}\n", wording(14)),
        ("setenv A [expr {9223372036854775807 * 2}]\n", wording(17)),
        ("setenv A [expr {1 << 64}]\n", wording(17)),
        ("{" * 500_000, wording(2, 9)),
        ("setenv A " + "$a(" * 100 + "\n", wording(7, 317)),
    )
    for number, (text, said) in enumerate(rows):
        folder.module(f"nest/{number}", text)
        folder.refuses(["sh", "load", f"nest/{number}"], said)
    folder.module("nest/a", "setenv A [string repeat x 1048576]\n")
    done = within(folder, ["sh", "load", "nest/a"], folder.environment())
    same((done.stderr, done.returncode), (b"", 0), "the longest value")
    true(done.stdout.startswith(b"A='" + b"x" * MOST_BYTES + b"'; export A;\n"), "the longest value is printed")
    folder.module("nest/b", "setenv A [expr {" + "-" * 200 + "1}]\n")
    loads(folder, "nest/b", "nest/b", folder.at("nest/b"), folder.environment(A="1"))


def test_files_in_other_writings(folder):
    folder.file("crlf/1", b"#%Module1.0\r\nsetenv A b\r\nprepend-path P /x\r\n")
    more = b"P='/x'; export P;\n"
    loads(folder, "crlf", "crlf/1", folder.at("crlf/1"), folder.environment(A="b"), more=more)
    folder.file("bom/1", b"\xef\xbb\xbf" + COOKIE)
    folder.file("utf16/1", COOKIE.decode().encode("utf-16"))
    for name in ("bom/1", "utf16/1"):
        folder.refuses(["sh", "load", name], wording(42, name))
    folder.file("only/1", b"#%Module")
    folder.file("joined/1", b"#%Modulefile setenv A x\n")
    folder.file("folded/1", b"#%Module \\\nsetenv A x\nsetenv A b\n")
    for name in ("only/1", "joined/1", "folded/1"):
        loads(folder, name, name, folder.at(name), folder.environment(A="b"))
    folder.module("nul/1", b"setenv A b\0c\n")
    folder.refuses(["sh", "load", "nul/1"], wording(37, "A"))
    folder.module("nul/2", b"# \0\nset \0 b\nsetenv A ${\0}\n")
    loads(folder, "nul/2", "nul/2", folder.at("nul/2"), folder.environment(A="b"))


# Junk.


PIECES = """setenv A P prepend-path append-path pushenv unsetenv remove-path conflict prereq { } [ ] " $ $A $env( ( ) ;
\\ \\u {*} # if while 1 0 proc f catch foreach switch -- - -d : & expr + ** 9223372036854775808 1.5 string repeat list
set env(HOME) a(b) ::x module module-info mode getenv é puts stderr""".split()
PIECES += ["\n", "\n", " ", " ", "\\\n"]


JUNK = several(st.sampled_from([piece + end for piece in PIECES for end in (" ", "")]), 60).map("".join)
RANDOM_BYTES = several(st.integers(1, 255), 120).map(bytes)


@examples(250)
@given(text=JUNK, word=st.sampled_from(["load", "show", "whatis"]))
def test_files_of_junk(folder, text, word):
    folder.module("junk/1", text)
    ends_well(folder, ["sh", word, "junk"], folder.environment(), f"{word} of {text!r}")


@examples(50)
@given(text=RANDOM_BYTES)
def test_files_of_random_bytes(folder, text):
    folder.module("junk/1", text)
    done = ends_well(folder, ["sh", "load", "junk"], folder.environment(), f"a load of {text!r}")
    try:
        text.decode()
    except UnicodeDecodeError:
        same(done.stderr, b"ERROR: Not UTF-8: '" + folder.at("junk/1") + b"'\n", f"a load of {text!r}")


FIELDS = [*": :: & | \\ \\: a/1 b/1 /x /m/a/1 2 01 4294967296 a/1&b é .".split(), "", "x y"]
REQUESTS = [["load", "b"], ["unload", "a"], ["load", "b", "a"], ["switch", "a", "b"], ["purge"], ["list"], ["avail"]]


NAMES = ["LOADEDMODULES", "_LMFILES_", "__MODULES_LMCONFLICT", "__MODULES_LMPREREQ", "P", "__MODULES_SHARE_P", "CC"]
NAMES += ["__MODULES_PUSHENV_CC", "MODULEPATH", "A"]
VALUES = st.lists(st.sampled_from(FIELDS), max_size=5).map("".join)


@pytest.fixture
def two_modules(folder):
    folder.module("a/1", "prepend-path P /x\npushenv CC v\nsetenv A b\nconflict q\nprereq b\n")
    folder.module("b/1", "append-path P /x /y\n")
    return folder


@examples(250)
@given(
    variables=st.dictionaries(st.sampled_from(NAMES), VALUES, max_size=len(NAMES)),
    are_loaded=st.booleans(),
    shell=st.sampled_from(["sh", "csh", "fish"]),
    words=st.sampled_from(REQUESTS),
)
def test_variables_of_junk(two_modules, variables, are_loaded, shell, words):
    env = {**two_modules.environment(), **encoded(variables)}
    if are_loaded:
        env[b"LOADEDMODULES"], env[b"_LMFILES_"] = b"a/1:b/1", two_modules.at("a/1") + b":" + two_modules.at("b/1")
    ends_well(two_modules, [shell, *words], env, f"{words} in {env}")


def test_variables_that_are_not_utf8(two_modules):
    for text in (b"\xff", b"a/1:\xff", bytes(range(1, 256))):
        for name in NAMES:
            env = {**two_modules.environment(), name.encode(): text}
            ends_well(two_modules, ["sh", "load", "b"], env, f"a load with {name} as {text!r}")
    env = {b"MODULEPATH": two_modules.modules, b"": b"x", b"P": b"\xff"}
    done = within(two_modules, ["sh", "load", "b/1"], env)
    same((done.stderr, done.returncode), (b"", 0), "a load beside odd entries")


# The beginnings of files: what each means, by a reader of its own of the commands in the worked files.

# How many words the commands of modulefiles need behind their names, and how many they take.
NEEDS = {"setenv": (2, 2), "pushenv": (2, 2), "prepend-path": (2, 99), "append-path": (2, 99)}
NEEDS.update({"conflict": (1, 99), "prereq": (1, 99)})

ENDS = {"{": "}", '"': '"'}
UNCLOSED = {"{": "Missing close-brace at byte {}", '"': "Missing close-quote at byte {}"}


class Said(Exception):
    """A file is refused, with this text."""


def word_at(text, at):
    """A word: what it means, and where it ends. A word in braces isn't substituted, nor are there brackets in others."""
    first = text[at]
    if first not in ENDS:
        end = at + len(re.match(r"\S+", text[at:])[0])
        return text[at:end], end
    depth, end = 1, at + 1
    while end < len(text) and depth:
        depth += text[end] == "{" == first
        depth -= text[end] == ENDS[first]
        end += 2 if text[end] == "\\" else 1
    if depth:
        raise Said(UNCLOSED[first].format(at))
    word = text[at + 1 : end - 1]
    return (word.replace("\\n", "\n") if first == '"' else word), end


def commands_of(text):
    """The commands behind the first line, each with the number of its line and its words."""
    found, words, at = [], [], len(COOKIE)
    while at < len(text):
        if text[at] == "\n":
            found, words, at = found + [words], [], at + 1
        elif text[at] == " ":
            at += 1
        else:
            word, at = word_at(text, at)
            words.append(word)
    return [(number + 2, words) for number, words in enumerate(found + [words]) if words]


def records_of(line, words):
    """What a command of a worked file means: records as the model of loads and unloads has them."""
    name, *rest = words
    if name in NEEDS:
        least, most = NEEDS[name]
        if not least <= len(rest) <= most:
            raise Said(wording(56))
        if name.endswith("path"):
            return [(name, ":", rest[0], ":".join(rest[1:]).split(":"))]
        return [(name, rest)] if least == 1 else [(name, *rest)]
    if name == "if" and len(rest) == 2:
        return records_of(line, rest[1].split())
    if name == "catch" and rest:
        raise Said(wording(14))
    if name in ("if", "set", "append", "catch"):
        raise Said(f'wrong # args for "{name}" (line {line})')
    raise Said(f'invalid command name "{name}" (line {line})')


def meaning(name, path, whole, start):
    """What a load of a file with this text says, or the text that it prints."""
    if not whole.startswith(COOKIE[:-1].decode()):
        raise Said(wording(42, name))
    records = [record for line, words in commands_of(whole) for record in records_of(line, words)]
    for record in records:
        if record[0] == "prereq":
            raise Said(wording(52, " ".join(record[1])))
    after = runs.moved(start, "load", (name, path, records))
    return text_for("sh", {key: after.get(key) for key in {*start, *after} if start.get(key) != after.get(key)})


def test_beginnings_of_files(folder):
    """Every beginning of every worked file, the whole file with them."""
    counts = {"accepted": 0, "refused": 0}
    for number, text in enumerate(FILES.values()):
        whole = COOKIE.decode() + text
        for end in range(len(whole) + 1):
            name = f"part/{number}"
            path = folder.file(name, whole[:end])
            what = f"a load of {whole[:end]!r}"
            done = within(folder, ["sh", "load", name], folder.environment())
            try:
                wanted = (meaning(name, path.decode(), whole[:end], {"MODULEPATH": folder.modules.decode()}), b"", 0)
                counts["accepted"] += 1
            except Said as said:
                wanted = (b"", b"ERROR: " + str(said).encode() + b"\n", 1)
                counts["refused"] += 1
            same((done.stdout, done.stderr, done.returncode), wanted, what)
    same(len(FILES), 23, "the files")
    true(min(counts.values()) > 100, f"the counts {counts}")

