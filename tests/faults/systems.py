"""What a disk and the environment of a process are taken for where a call of the system fails, or its list is another.

Each call that opens, reads, lists or asks for what is there fails in turn, and then all from each on. Among them are
those by which the program, cases_environment, reads its lines, and after which it ends.
"""

import errno
import os

import pytest

from tests.lib.examples import wording
from tests.lib.harness import NOBODY, refuses_each, same, true

FAILED, STARVED = wording(43).encode(), wording(31).encode()

# Errors of a sound path, those that tell of absence where the path was seen before, and what each is said to be.
ERRORS = {
    errno.EIO: FAILED,
    errno.EACCES: FAILED,
    errno.ENOENT: FAILED,
    errno.ENOMEM: STARVED,
}

# A value longer than a page of memory, as each of the first and the last variable of an environment has.
LONG = b"x" * 40960


class System:
    """A folder, and what the program answers over it where a library makes calls of the system fail."""

    def __init__(self, folder, library):
        self.folder = folder
        self.library = library

    def answer(self, line, env=None, user=None):
        """What the program answers to a line, or None where it has failed itself."""
        done = self.folder.run(env=env or {}, given=b"system\n" + line + b"\n", user=user)
        if done.returncode != 0:
            return None
        true(done.stdout.startswith(line + b": "), f"{line!r} is shown before its answer {done.stdout!r}")
        return done.stdout[len(line) + 2 :].rstrip(b"\n")

    def refuses(self, line, ample, errors=ERRORS):
        """How often the line had no answer but that of each error, of which there is one at least. Else it is answered as
        with a sound system."""
        counts = []
        for error, said in errors.items():
            only = {b"FAIL_SEEN": b"1"} if error == errno.ENOENT else {}
            found = []

            def run(asked, error=error, only=only, found=found):
                found.append(self.answer(line, {**asked, **only, b"FAIL_WITH": b"%d" % error}))
                return found[-1]

            same(self.answer(line), ample, line)
            refuses_each(self.library, run, (None, said).__contains__, f"{line!r} by {errno.errorcode[error]}")
            counts.append(found.count(said))
        true(all(counts), f"{line!r} has met each error: {counts}")
        return counts

    def takes(self, given, listed, wanted, what):
        """The program takes these variables where it is given those, and the system lists others."""
        env = {**given, b"LD_PRELOAD": self.library, b"ENVIRON_IN": self.folder.file("environ", b"")}
        block = b"".join(b"%s=%s\0" % entry for entry in env.items())
        self.folder.file("environ", listed(block))
        other = [name for name in wanted if self.answer(b"process value " + name, env) != wanted[name]]
        same(other, [], f"what is taken otherwise of {what}")


@pytest.fixture(scope="session")
def program(built):
    return built("cases_environment")


@pytest.fixture
def system(folder, shim):
    return System(folder, shim("failing_calls"))


def test_a_file_and_a_folder(system, folder):
    path = folder.file("a/file", "12345")
    same(system.answer(b"disk file " + path), b"5 bytes", "a file")
    system.refuses(b"disk file " + path, b"5 bytes")
    folder.file("a/.b", "")
    # A folder is listed without a look before, so that absence is told of no path that was seen.
    errors = {error: said for error, said in ERRORS.items() if error != errno.ENOENT}
    system.refuses(b"disk folder " + os.path.dirname(path), b"[.b][file]", errors)


def test_a_name_that_is_not_utf8(system, folder):
    path = folder.file(b"odd/\xff", "")
    same(system.answer(b"disk folder " + os.path.dirname(path)), FAILED, "a folder with such a name")


def test_a_folder_without_permission(system, folder):
    path = folder.at("closed/")
    os.chmod(path, 0)
    same(system.answer(b"disk folder " + path, user=NOBODY), FAILED, "a folder that may not be listed")
    os.chmod(path, 0o755)


def test_beginnings_of_files(system, folder):
    counts = {}
    for text, begins in (("#%Module", b"yes"), ("#%", b"yes"), ("#", b"no"), ("module", b"no"), ("", b"no")):
        counts[text] = system.refuses(b"disk begins " + folder.file("begins", text), begins)
    # Where the beginning is there, nothing after it is read, so that no failure there matters.
    same(counts["#%"], counts["#%Module"], "what is read of files that begin so")
    true(sum(counts["#%"]) < sum(counts["#"]), "a shorter file is read to its end")


def values(given):
    """These variables, as the program answers them, and D, which is none of them."""
    return {**{name: b"'" + value + b"'" for name, value in given.items()}, b"D": b"unset"}


LARGE = {b"A": LONG, b"B": b"", b"C": b"3", b"Z": LONG}


def test_an_environment_that_the_system_lists_whole(system):
    system.takes(LARGE, lambda block: block, values(LARGE), "the whole list")
    # It is the system's list that is taken, not each variable by itself.
    small = {b"A": b"1", b"B": b"asked"}
    wanted = {**values(small), b"B": b"'read'"}
    system.takes(small, lambda block: block.replace(b"B=asked", b"B=read"), wanted, "a list with another value")


def test_an_environment_that_the_system_lists_otherwise(system):
    cut = (0, 3, 4096, 40970, 81932, 81933)
    lists = {f"cut to {count}": lambda block, count=count: block[:count] for count in cut}
    lists["without its last NUL"] = lambda block: block[:-1]
    lists["another first variable"] = lambda block: b"A=y" + block[3:]
    lists["one variable more"] = lambda block: block + b"D=4\0"
    for name, listed in lists.items():
        system.takes(LARGE, listed, values(LARGE), f"a list {name}")


def test_an_environment_whose_list_fails(system):
    wanted = values(LARGE)
    for error in (errno.EACCES, errno.EIO):

        def run(asked, error=error):
            env = {**LARGE, **asked, b"FAIL_WITH": b"%d" % error}
            found = {name: system.answer(b"process value " + name, env) for name in wanted}
            return [name for name in wanted if found[name] is None or found[name] != wanted[name]]

        refuses_each(system.library, run, lambda found: found == [*wanted], f"an environment by {errno.errorcode[error]}")
