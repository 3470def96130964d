"""What the built program does where the device fails: `Reading failed` and no change.

Each call that opens, reads, lists or asks for what is there fails in turn, and then all from each on, by different errors.
A failure is never taken as an absence, also where nothing is there.
"""

import errno
import os
import resource
import subprocess

import pytest

from tests.lib.examples import wording
from tests.lib.harness import FOO, loaded, same, true

# Errors that tell of no absence, and those that tell of none where the same path was seen before.
ERRORS = (errno.EIO, errno.EACCES, errno.EMFILE, errno.ELOOP, errno.ESTALE, errno.EINVAL)
BEHIND_A_LOOK = (errno.ENOENT, errno.ENOTDIR)

REFUSED = (b"", f"ERROR: {wording(43)}\n".encode(), 1)

# Where this can't be read, the program asks the C library for its environment.
OWN_ENVIRONMENT = b"/proc/self/environ"


def guesses(paths):
    """The directories that are opened before anything looked at them. Where that fails the program looks."""
    return {path for at, path in enumerate(paths) if path.endswith(b"/") and path[:-1] not in paths[:at]}


class Command:
    """A command whose calls can be made to fail. It does without the answers of the calls by the spare paths."""

    def __init__(self, folder, library, words, env):
        self.folder = folder
        self.words = words
        self.env = {**env, b"LD_PRELOAD": library}
        self.spare = {OWN_ENVIRONMENT} | guesses(self.paths({}))

    def run(self, asked):
        done = self.folder.run(*self.words, env={**self.env, **asked})
        return done.stdout, done.stderr, done.returncode

    def paths(self, asked):
        """The path of each call that can fail."""
        listed = os.path.join(self.folder.path, b"calls")
        with open(listed, "wb"):
            self.run({**asked, b"CALLS_TO": listed})
        with open(listed, "rb") as file:
            return file.read().splitlines()

    def wanted(self, paths, ample):
        """What the command has to answer where the calls by these paths fail."""
        return ample if all(path in self.spare for path in paths) else REFUSED

    def fails(self, error):
        """Each call fails by this error, and then all from each on."""
        by = {b"FAIL_WITH": b"%d" % error, **({b"FAIL_SEEN": b"1"} if error in BEHIND_A_LOOK else {})}
        ample = self.run(by)
        paths = self.paths(by)
        for at, path in enumerate(paths):
            what = f"{self.words} by {errno.errorcode[error]}, call {at + 1}, {path}"
            number = b"%d" % (at + 1)
            same(self.run({**by, b"FAIL_AT": number}), self.wanted([path], ample), what)
            same(self.run({**by, b"FAIL_FROM": number}), self.wanted(paths[at:], ample), f"{what} and all after it")
        return len(paths)

    def notices(self):
        """At how many of how many calls it is noticed that the program takes a failure for an absence: it then does what
        it does where nothing is at the path of the call."""
        ample = self.run({})
        paths = [path for path in self.paths({}) if path != OWN_ENVIRONMENT]
        emulated = [self.run({b"ABSENT": path.rstrip(b"/")}) for path in paths]
        return sum(answer != self.wanted([path], ample) for path, answer in zip(paths, emulated)), len(paths)


@pytest.fixture
def library(shim):
    return shim("failing_calls")


@pytest.fixture
def refuses_each_failure(folder, library):
    """Judges a command: where a call fails the program changes nothing and says why, and it is noticed if it takes that
    for an absence."""

    def judge(words, env, errors=(*ERRORS, *BEHIND_A_LOOK)):
        command = Command(folder, library, words, env)
        for error in errors:
            true(command.fails(error) > 0, f"{words} by {errno.errorcode[error]}: no call can fail")
        noticed, calls = command.notices()
        same(noticed, calls, f"{words}: calls at which it is noticed")

    return judge


def versions(folder):
    for version in ("1.9", "1.10", "1.10-rc"):
        folder.module(f"ver/{version}", f"setenv V {version}\nmodule-whatis {version}\n")
    folder.module("ver/.version", 'set ModulesVersion "1.9"\n')
    return folder.environment()


def three_directories(folder):
    """The first directory of MODULEPATH isn't there; the last has other modules of the names of the second."""
    env = versions(folder)
    last = os.path.join(folder.path, b"last")
    for name in ("ver/1.9", "ver/2", "gone/1", "late/1"):
        path = os.path.join(last, name.encode())
        os.makedirs(os.path.dirname(path), exist_ok=True)
        with open(path, "wb") as file:
            file.write(b"#%Module\nsetenv V last\n")
    env[b"MODULEPATH"] = b":".join([folder.path + b"/none", folder.modules, last])
    return env


def test_a_load_of_a_whole_name(folder, refuses_each_failure):
    folder.module("foo/1.0", FOO)
    refuses_each_failure(["sh", "load", "foo/1.0"], folder.environment(PATH="/bin"))


def test_a_load_of_a_default(folder, refuses_each_failure):
    refuses_each_failure(["sh", "load", "ver"], versions(folder))


def test_a_load_of_the_greatest_version(folder, refuses_each_failure):
    env = versions(folder)
    os.remove(folder.at("ver/.version"))
    refuses_each_failure(["sh", "load", "ver"], env)


def test_a_load_from_the_second_of_three_directories(folder, refuses_each_failure):
    env = three_directories(folder)
    refuses_each_failure(["sh", "load", "ver/1.9"], env)
    refuses_each_failure(["sh", "load", "ver"], env)


def test_a_load_from_the_last_of_three_directories(folder, refuses_each_failure):
    refuses_each_failure(["sh", "load", "late"], three_directories(folder))


def test_a_name_that_is_not_there(folder, refuses_each_failure):
    refuses_each_failure(["sh", "load", "nope"], versions(folder), ERRORS)
    refuses_each_failure(["sh", "load", "nope"], three_directories(folder), ERRORS)


def test_an_unload_and_a_switch(folder, refuses_each_failure):
    folder.module("foo/1.0", FOO)
    versions(folder)
    env = loaded(folder, "foo/1.0", FOO="on", PATH="/opt/foo/bin:/bin")
    refuses_each_failure(["sh", "unload", "foo"], env)
    refuses_each_failure(["csh", "switch", "foo", "ver"], env)


def test_an_unload_of_what_is_gone(folder, refuses_each_failure):
    """The last directory of MODULEPATH has a module of that name, and no unload looks for it there."""
    env = {**three_directories(folder), b"LOADEDMODULES": b"gone/1", b"_LMFILES_": folder.at("gone/1"), b"V": b"x"}
    refuses_each_failure(["sh", "unload", "gone"], env, ERRORS)


def test_an_unload_beside_another_module_of_its_name(folder, refuses_each_failure):
    """Each call that fails is at the recorded path."""
    env = {**three_directories(folder), b"LOADEDMODULES": b"ver/1.9", b"_LMFILES_": folder.at("ver/1.9"), b"V": b"1.9"}
    refuses_each_failure(["sh", "unload", "ver"], {**env, b"MODULEPATH": os.path.join(folder.path, b"last")})


def test_an_unload_of_what_is_no_modulefile_any_more(folder, refuses_each_failure):
    folder.file("plain/1", "setenv A 1\n")
    refuses_each_failure(["sh", "unload", "plain"], loaded(folder, "plain/1"))


def test_reports(folder, library, refuses_each_failure):
    """Of several directories in a row `avail` opens a later one before it looks at it."""
    env = versions(folder)
    for name in ("a", "b", "c"):
        folder.module(f"{name}/1", "")
    true(guesses(Command(folder, library, ["sh", "avail"], env).paths({})), "no directory is opened without a look")
    refuses_each_failure(["sh", "avail"], env)
    refuses_each_failure(["sh", "show", "ver"], env)
    refuses_each_failure(["sh", "whatis", "ver"], env)


def test_a_file_that_changes_meanwhile(folder, library):
    """A modulefile is opened once, and read on where its first bytes are the cookie: no later ones count for it."""
    folder.module("foo/1.0", FOO)
    env = {**folder.environment(PATH="/bin"), b"LD_PRELOAD": library}
    accepted = folder.run("sh", "load", "foo/1.0", env=env)
    same((accepted.stderr, accepted.returncode), (b"", 0), "a file that stays")
    text = wording(42, "foo/1.0")
    folder.refuses(["sh", "load", "foo/1.0"], text, env={**env, b"OTHER_AT": b"1"})
    folder.accepts(["sh", "load", "foo/1.0"], accepted.stdout, env={**env, b"OTHER_AT": b"2"})


# Bytes of a file that is no module; of memory that the program may ask for, so that one that reads it whole ends soon;
# and of memory that it may take, which is more than Python itself takes before it becomes the program.
HUGE = 50 * 2**30
ROOM = 2**30
MOST = 64 * 2**20


def measured(folder, words, env):
    """What the program wrote, its status, and how many bytes of memory it took."""
    started = subprocess.Popen(
        [folder.program, *words],
        env=env,
        stdin=subprocess.DEVNULL,
        stdout=subprocess.PIPE,
        stderr=subprocess.PIPE,
        preexec_fn=lambda: resource.setrlimit(resource.RLIMIT_AS, (ROOM, ROOM)),
    )
    with started.stdout, started.stderr:
        out, err = started.stdout.read(), started.stderr.read()
    _, status, usage = os.wait4(started.pid, 0)
    started.returncode = os.waitstatus_to_exitcode(status)
    return (out, err, started.returncode), 1024 * usage.ru_maxrss


def huge(folder, name):
    """A file of 50 GB, of which nothing is on the disk, and which doesn't begin as a modulefile."""
    with open(folder.file(name, ""), "wb") as out:
        out.truncate(HUGE)


@pytest.mark.usefixtures("as_shipped")
def test_files_that_are_no_modules_and_huge(folder):
    folder.module("foo/1.0", FOO)
    env = folder.environment(PATH="/bin")
    commands = (["sh", "avail"], ["sh", "load", "foo"], ["sh", "show", "foo"], ["sh", "load", "foo/1.0"])
    small = [measured(folder, words, env)[0] for words in commands]
    for out, err, status in small:
        true(status == 0, f"without them: {out!r} {err!r}")
    for name in ("foo/core", "foo/.modulerc", "foo/.version", "core"):
        huge(folder, name)
    for words, wanted in zip(commands, small):
        found, memory = measured(folder, words, env)
        same(found, wanted, f"{words} beside files of 50 GB")
        true(memory < MOST, f"{words} took {memory} bytes of memory")
    for words in (["sh", "load", "core"], ["sh", "load", "foo/core"]):
        found, memory = measured(folder, words, env)
        text = f"ERROR: {wording(42, words[2])}\n"
        same(found, (b"", text.encode(), 1), f"{words}, a file of 50 GB")
        true(memory < MOST, f"{words} took {memory} bytes of memory")
