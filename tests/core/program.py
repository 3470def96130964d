"""What the built program does where a case needs more than files, variables and words: other users, devices, streams
that fail, and the time that large cases take. The other cases stand in commands.txt and modulefiles.txt.

The expected texts are typed by hand from the rules of the program, and never taken from what it wrote.
"""

import errno
import os
import resource
import socket
import subprocess

import pytest

from tests.lib.examples import wording
from tests.lib.harness import FOO, NOBODY, loaded, same, true

LOST = f"ERROR: {wording(64)}\n".encode()


def loads_foo(folder):
    """The text of the load of foo/1.0 over the path /usr/bin:/bin."""
    return (
        b"FOO='on'; export FOO;\n"
        b"LOADEDMODULES='foo/1.0'; export LOADEDMODULES;\n"
        b"PATH='/opt/foo/bin:/usr/bin:/bin'; export PATH;\n"
        b"_LMFILES_='" + folder.modules + b"/foo/1.0'; export _LMFILES_;\n"
    )


def ends(folder, words, out, err, status, what, **given):
    """The program writes this, None where the stream isn't read, and ends with this status."""
    done = folder.run("sh", *words, **given)
    same((done.stdout, done.stderr, done.returncode), (out, err, status), f"{' '.join(words)}, {what}")


# What stands at a module's path.


def test_other_things_than_a_file(folder):
    os.mkfifo(folder.at("fifo/1"))
    os.symlink("/dev/zero", folder.at("zero/1"))
    os.symlink("/dev/tty", folder.at("tty/1"))
    os.symlink("nothing", folder.at("dangling/1"))
    os.makedirs(folder.at("folder/1"))
    folder.module("file/1", FOO)
    with socket.socket(socket.AF_UNIX) as listener:
        listener.bind(folder.at("socket/1"))
        for name in ("fifo/1", "zero/1", "tty/1", "dangling/1", "folder/1", "folder", "socket/1", "file/1/x"):
            folder.refuses(["sh", "load", name], wording(42, name))


def test_a_file_that_may_not_be_read(folder):
    os.chmod(folder.module("secret/1", FOO), 0)
    folder.refuses(["sh", "load", "secret/1"], wording(43), user=NOBODY)


def test_a_folder_that_may_not_be_searched(folder):
    folder.module("secret/1", FOO)
    os.chmod(os.path.join(folder.modules, b"secret"), 0)
    folder.refuses(["sh", "load", "secret/1"], wording(43), user=NOBODY)


def test_a_folder_that_may_not_be_listed(folder):
    folder.module("top", "")
    os.makedirs(folder.at("empty/1"))
    os.chmod(os.path.join(folder.modules, b"empty"), 0)
    folder.refuses(["sh", "avail"], wording(43), user=NOBODY)


def test_what_gnu_find_names_cannot_be_read(folder):
    """What the page of refusals advises."""
    os.chmod(folder.module("bad/1", ""), 0)
    folder.module("shut/1", "")
    os.chmod(os.path.dirname(folder.at("shut/1")), 0)
    for name in ("bad", "shut"):
        folder.refuses(["sh", "load", name], wording(43), user=NOBODY)
    find = ["find", "-L", folder.modules, "(", "!", "-readable", "-o", "-type", "d", "!", "-executable", ")"]
    user = {"user": NOBODY, "group": NOBODY, "extra_groups": []} if os.geteuid() == 0 else {}
    done = subprocess.run(find, cwd="/", capture_output=True, check=False, **user)
    wanted = [os.path.join(folder.modules, name) for name in (b"bad/1", b"shut")]
    same(sorted(done.stdout.split(b"\n")[:-1]), wanted, "what find names")


def test_a_large_environment(folder):
    folder.module("foo/1.0", FOO)
    env = folder.environment(PATH="/usr/bin:/bin", LONG="x" * 100_000)
    env.update((b"V%d" % number, b"value %d" % number) for number in range(5000))
    folder.accepts(["sh", "load", "foo/1.0"], loads_foo(folder), env=env)


# Standard output and standard error.


@pytest.fixture(params=["closed", "full", "without a reader"])
def broken(request):
    """Gives what has the program run with a standard output or a standard error that takes nothing."""
    if request.param == "closed":
        yield lambda stream: {"close": (1 if stream == "stdout" else 2,)}
    elif request.param == "full":
        with open("/dev/full", "wb", buffering=0) as full:
            yield lambda stream: {stream: full}
    else:
        reader, writer = os.pipe()
        os.close(reader)
        yield lambda stream: {stream: writer}
        os.close(writer)


def test_a_standard_output_that_takes_nothing(folder, broken):
    folder.module("foo/1.0", FOO)
    done = folder.run("sh", "load", "foo/1.0", **broken("stdout"))
    same((done.stderr, done.returncode), (LOST, 1), "a load")


@pytest.mark.parametrize("error", [errno.EINTR, errno.EAGAIN, errno.EIO, errno.ENOSPC], ids=errno.errorcode.get)
@pytest.mark.parametrize("stream, words", [(b"1", ["load", "foo/1.0"]), (b"2", ["avail"])], ids=["output", "error"])
def test_a_write_that_failed_is_not_tried_again(folder, shim, error, stream, words):
    folder.module("foo/1.0", FOO)
    env = folder.environment(PATH="/usr/bin:/bin")
    env.update({b"LD_PRELOAD": shim("failing_write"), b"FAIL_WITH": b"%d" % error, b"FAIL_WRITE_TO": stream})
    ends(folder, words, b"", LOST, 1, "where one write fails", env=env)


# Streams that take few bytes and then fail: how many bytes standard output and standard error take, how they fail, and
# the words; then how the command ends, and what the streams hold. A command that is cut short has not even written why.
NOT_FOUND = f"ERROR: {wording(42, 'nope')}\n".encode()
FAILURES = {"interrupted": errno.EINTR, "zero": 0, "pipe": errno.EPIPE}
NARROW = (
    (5, 100, "interrupted", "load foo/1.0", "reported", b"FOO='", LOST),
    (5, 8, "interrupted", "load foo/1.0", "cut short", b"FOO='", b"ERROR: W"),
    (0, 0, "interrupted", "load foo/1.0", "cut short", b"", b""),
    (0, 100, "interrupted", "load nope", "reported", b"", NOT_FOUND),
    (100, 9, "interrupted", "load nope", "cut short", b"", b"ERROR: Un"),
    (100, 0, "interrupted", "load nope", "cut short", b"", b""),
    (5, 100, "zero", "load foo/1.0", "reported", b"FOO='", LOST),
    (5, 8, "zero", "load foo/1.0", "cut short", b"FOO='", b"ERROR: W"),
    (0, 0, "zero", "load foo/1.0", "cut short", b"", b""),
    (0, 100, "zero", "load nope", "reported", b"", NOT_FOUND),
    (100, 9, "zero", "load nope", "cut short", b"", b"ERROR: Un"),
    (5, 100, "pipe", "load foo/1.0", "reported", b"FOO='", LOST),
    (5, 8, "pipe", "load foo/1.0", "cut short", b"FOO='", b"ERROR: W"),
    (0, 100, "pipe", "load nope", "reported", b"", NOT_FOUND),
    (200, 0, "pipe", "load foo", "success", None, b""),
    (200, 0, "pipe", "list", "cut short", b"", b""),
    (200, 5, "pipe", "list", "cut short", b"", b"No Mo"),
    (200, 0, "pipe", "load hi/1", "cut short", b"", b""),
    (200, 4, "pipe", "load hi/1", "cut short", b"", b"hi\nn"),
    (0, 0, "pipe", "purge", "success", b"", b""),
)


@pytest.mark.parametrize("out_room, err_room, kind, words, end, out, err", NARROW)
def test_streams_that_take_few_bytes(folder, shim, out_room, err_room, kind, words, end, out, err):
    folder.module("foo/1.0", FOO)
    folder.module("hi/1", "puts stderr hi\nputs -nonewline stderr {no end}\n")
    # (the text of a whole load is as long as the path of the folder is)
    out_room = 1000 if out is None else out_room
    env = folder.environment(PATH="/usr/bin:/bin", ROOM_1=str(out_room), ROOM_2=str(err_room))
    env.update({b"LD_PRELOAD": shim("failing_write"), b"FAIL_WITH": b"%d" % FAILURES[kind]})
    wanted = loads_foo(folder) if out is None else out
    ends(folder, words.split(), wanted, err, 0 if end == "success" else 1, f"where streams fail: {kind}", env=env)
    same(end == "reported", err.startswith(b"ERROR: ") and err.endswith(b"\n"), "whether the reason is written whole")


def test_nothing_to_write(folder):
    folder.module("foo/1.0", FOO)
    env = loaded(folder, "foo/1.0")
    ends(folder, ["load", "foo/1.0"], b"", b"", 0, "standard output closed", env=env, close=(1,))
    ends(folder, ["load", "foo/1.0"], b"", b"", 0, "no stream at all", env=env, close=(0, 1, 2))


def test_a_standard_error_that_takes_nothing(folder, broken):
    folder.module("foo/1.0", FOO)
    folder.module("says/1", "puts stderr hi\n")
    env = folder.environment(PATH="/usr/bin:/bin")
    done = folder.run("sh", "load", "foo/1.0", env=env, **broken("stderr"))
    same((done.stdout, done.returncode), (loads_foo(folder), 0), "an accepted load")
    for line in ("load nope", "load says", "load foo says", "list", "avail", "show foo", "whatis says"):
        done = folder.run("sh", *line.split(), env=env, **broken("stderr"))
        same((done.stdout, done.returncode), (b"", 1), line)


def test_a_reader_that_goes_away(folder):
    folder.module("many/1", "".join(f"setenv V{number} v\n" for number in range(20000)))
    reader, writer = os.pipe()
    with folder.start("sh", "load", "many/1", stdout=writer, stderr=subprocess.PIPE) as running:
        os.close(writer)
        same(os.read(reader, 5), b"LOADE", "the beginning of the text")
        os.close(reader)
        same((running.stderr.read(), running.wait()), (LOST, 1), "a reader that goes away")


def test_both_streams_take_nothing(folder):
    folder.module("foo/1.0", FOO)
    ends(folder, ["load", "foo/1.0"], b"", b"", 1, "both closed", close=(1, 2))
    with open("/dev/full", "wb", buffering=0) as full:
        ends(folder, ["load", "foo/1.0"], None, None, 1, "both full", stdout=full, stderr=full)


def fails_at_each_byte(folder, words, stream, text, env):
    """The stream takes every number of bytes short of the text, and fails; then it takes all. Of a failed stream the
    beginning is there, and the program says so where it can."""
    path = os.path.join(folder.path, b"taken")
    for most in range(len(text) + 1):
        with open(path, "wb") as file:
            done = folder.run("sh", *words, env=env, most=most, **{stream: file})
        with open(path, "rb") as file:
            same(file.read(), text[:most], f"what {most} bytes hold")
        is_whole = most == len(text)
        other = done.stderr if stream == "stdout" else done.stdout
        said = LOST if stream == "stdout" and not is_whole else b""
        same((other, done.returncode), (said, 0 if is_whole else 1), f"the other stream and the status at {most} bytes")


def test_a_standard_output_that_fails_at_each_byte(folder):
    folder.module("foo/1.0", FOO)
    env = folder.environment(PATH="/usr/bin:/bin")
    fails_at_each_byte(folder, ["load", "foo/1.0"], "stdout", loads_foo(folder), env)


def test_a_standard_error_that_fails_at_each_byte(folder):
    none = b"No Modulefiles Currently Loaded.\n"
    fails_at_each_byte(folder, ["list"], "stderr", none, folder.environment())
    some = b"Currently Loaded Modulefiles:\nfoo/1.0\n"
    fails_at_each_byte(folder, ["list"], "stderr", some, loaded(folder, "foo/1.0"))


# Growth.


def seconds(folder, env, name):
    """The least processor time of three loads."""

    def spent():
        before = resource.getrusage(resource.RUSAGE_CHILDREN)
        done = folder.run("sh", "load", name, env=env)
        after = resource.getrusage(resource.RUSAGE_CHILDREN)
        same((done.stderr, done.returncode), (b"", 0), f"a load of {name}")
        return after.ru_utime + after.ru_stime - before.ru_utime - before.ru_stime

    return min(spent() for _ in range(3))


def grows_linearly(small, large, factor):
    """The time at the larger size, with half a tenth of a second for what a run costs at least."""
    true(large <= 3 * factor * small + 0.05, f"{small:.3f} s, and {large:.3f} s at {factor} times as many")


@pytest.mark.usefixtures("as_shipped")
def test_time_grows_with_the_number_of_variables(folder):
    folder.module("foo/1.0", FOO)

    def spent(count):
        env = folder.environment(PATH="/bin")
        env.update((b"VARIABLE_%d" % number, b"value %d" % number) for number in range(count))
        return seconds(folder, env, "foo/1.0")

    grows_linearly(spent(2000), spent(20000), 10)


@pytest.mark.usefixtures("as_shipped")
@pytest.mark.parametrize("form", ["setenv V{} v\n", "prepend-path V{} /v\n"], ids=["setenv", "prepend-path"])
def test_time_grows_with_the_number_of_commands(folder, form):
    def spent(count):
        folder.module(f"many/{count}", "".join(form.format(number) for number in range(count)))
        return seconds(folder, folder.environment(), f"many/{count}")

    grows_linearly(spent(1000), spent(10000), 10)


def test_time_grows_with_the_number_of_loaded_modules(folder):
    folder.module("foo/1.0", FOO)

    def spent(count):
        names = [f"m{number}/1" for number in range(count)]
        paths = ":".join(f"/m/{name}" for name in names)
        env = folder.environment(PATH="/bin", LOADEDMODULES=":".join(names), _LMFILES_=paths)
        return seconds(folder, env, "foo/1.0")

    grows_linearly(spent(500), spent(5000), 10)
