"""What the program `module` does to the files of collections: `save`, `savelist`, `saveshow` and `saverm`, on a full disk,
at each call that fails, killed at each call, and with something else where a file should be.
"""

import os
import resource
import shutil
import signal
import subprocess
import tempfile

import pytest

from tests.lib.examples import wording
from tests.lib.harness import NOBODY, SECONDS, same, true

BY_NOBODY = {"user": NOBODY, "group": NOBODY, "extra_groups": []} if os.geteuid() == 0 else {}

OLD = b"module load old/1\n"

# What a save asks the system to change, or to wait for.
CHANGES = ("openat", "write", "fsync", "rename", "renameat", "renameat2", "unlink", "unlinkat", "mkdir", "mkdirat")


class Saving:
    """A home, the program, and a module that is loaded: `new` is what a save writes of it."""

    def __init__(self, program, folder):
        self.program, self.home = program, os.path.join(folder, "home")
        self.top = os.path.join(self.home, ".config", "modulecmd")
        os.makedirs(self.top)
        for path in (self.home, os.path.dirname(self.top), self.top):
            os.chmod(path, 0o777)
        modules = os.path.join(folder, "m")
        os.makedirs(os.path.join(modules, "foo"))
        with open(os.path.join(modules, "foo/1"), "wb") as file:
            file.write(b"#%Module\n")
        self.new = f"module use --append {modules}\nmodule load foo/1\n".encode()
        self.loaded = {"MODULEPATH": modules, "LOADEDMODULES": "foo/1", "_LMFILES_": f"{modules}/foo/1"}

    def path(self, name="c"):
        return os.path.join(self.top, name)

    def put(self, data=OLD, name="c"):
        with open(self.path(name), "wb") as file:
            file.write(data)
        return self.path(name)

    def run(self, *words, env=(), under=(), **more):
        given = {"HOME": self.home, "PATH": os.environ["PATH"], **self.loaded, **dict(env)}
        given = {name: value for name, value in given.items() if value is not None}
        more = {"stdin": subprocess.DEVNULL, "capture_output": True, "timeout": SECONDS, "check": False, **more}
        done = subprocess.run([*under, self.program, "sh", *words], env=given, cwd=self.home, **more)
        return done.stdout, done.stderr, done.returncode

    def does(self, *words, err=b"", **more):
        same(self.run(*words, **more), (b"", err, 0), f"what {words} does")

    def refuses(self, text, *words, **more):
        same(self.run(*words, **more), (b"", f"ERROR: {text}\n".encode(), 1), f"what {words} is refused with")

    def holds(self, wanted, name="c", names=("c",)):
        with open(self.path(name), "rb") as file:
            same(file.read(), wanted, f"the file {name}")
        same(sorted(os.listdir(self.top)), sorted(names), "the files")


@pytest.fixture
def program(built):
    return built("module")


@pytest.fixture
def here(program):
    with tempfile.TemporaryDirectory(prefix="modulecmd-saving-") as folder:
        os.chmod(folder, 0o755)
        yield Saving(program, folder)


# What is said where no collection is saved.
NONE_SAVED = b"No collection is saved.\n"


def limited(size):
    """Makes files of more bytes fail, as a full disk does."""

    def limit():
        signal.signal(signal.SIGXFSZ, signal.SIG_IGN)
        resource.setrlimit(resource.RLIMIT_FSIZE, (size, size))

    return limit


def test_a_collection_is_saved_listed_shown_and_removed(here):
    here.does("save", "c")
    here.holds(here.new)
    here.does("savelist", err=b"c\n")
    here.does("saveshow", "c", err=f"{here.path()}:\n".encode() + here.new)
    here.does("saverm", "c")
    here.refuses("There is no collection 'c'", "saveshow", "c")
    here.refuses("There is no collection 'c'", "saverm", "c")
    here.does("savelist", err=NONE_SAVED)
    same(os.listdir(here.top), [], "the files")


def test_a_relative_directory_is_kept_by_its_place(here):
    """It is below the working directory, by the name that the shell has for that; another place in PWD isn't taken."""
    link = os.path.join(os.path.dirname(here.home), "link")
    os.symlink(here.home, link)
    start = {"MODULEPATH": "m", "LOADEDMODULES": None, "_LMFILES_": None}
    for named, place in ((link, link), ("/", here.home), ("link", here.home), (f"{link}/../home", here.home), (None, here.home)):
        here.does("save", "c", env={**start, "PWD": named})
        here.holds(f"module use --append {place}/m\n".encode())


def test_a_full_disk_leaves_the_old_file(here):
    for size in (0, 1, 10, len(here.new) - 1):
        here.put()
        here.refuses(f"Writing failed: '{here.path()}'", "save", "c", preexec_fn=limited(size))
        here.holds(OLD)
    os.remove(here.path())
    here.refuses(f"Writing failed: '{here.path()}'", "save", "c", preexec_fn=limited(10))
    same(os.listdir(here.top), [], "the files")


def has_strace():
    words = ["strace", "-f", "-o", os.devnull, "true"]
    return bool(shutil.which("strace")) and not subprocess.run(words, capture_output=True, check=False).returncode


def calls_of(here, name):
    """How often a save makes this call."""
    here.put()
    log = os.path.join(here.home, "calls")
    here.run("save", "c", under=["strace", "-f", "-e", f"trace={name}", "-o", log])
    with open(log, encoding="utf-8") as lines:
        return sum(f"{name}(" in line for line in lines)


def each_call(here):
    for name in CHANGES:
        for number in range(1, calls_of(here, name) + 1):
            yield name, number


def test_each_call_that_fails_leaves_the_old_file_or_the_new(here):
    if not has_strace():
        pytest.skip("at each call, since strace isn't here or isn't permitted")
    for name, number in each_call(here):
        for error in ("ENOSPC", "EDQUOT", "EIO", "EINTR"):
            here.put()
            inject = f"inject={name}:error={error}:when={number}"
            status = here.run("save", "c", under=["strace", "-f", "-e", inject, "-o", os.devnull])[2]
            with open(here.path(), "rb") as file:
                found = file.read()
            wanted = OLD if status else here.new
            true(found == wanted, f"{name} {number} with {error}: status {status}, found {found!r}")
            left = [name for name in os.listdir(here.top) if name != "c"]
            true(not left or name.startswith("unlink"), f"{name} {number} with {error}: {left} is left")


def test_a_signal_at_each_call_leaves_the_old_file_or_the_new(here):
    if not has_strace():
        pytest.skip("at each call, since strace isn't here or isn't permitted")
    for name, number in each_call(here):
        for sent in ("SIGTERM", "SIGINT", "SIGHUP"):
            here.put()
            inject = f"inject={name}:signal={sent}:when={number}"
            here.run("save", "c", under=["strace", "-f", "-e", inject, "-o", os.devnull])
            with open(here.path(), "rb") as file:
                found = file.read()
            true(found in (OLD, here.new), f"{sent} at {name} {number}: found {found!r}")
            for left in os.listdir(here.top):
                true(left == "c" or left.startswith(".new."), f"{sent} at {name} {number}: {left} is left")
                if left != "c":
                    os.remove(here.path(left))


def test_what_is_read_back_otherwise_is_not_saved(here):
    """The new file is read before it is renamed, and compared with what was written."""
    if not has_strace():
        pytest.skip("where the disk gives other bytes back, since strace isn't here or isn't permitted")
    here.put()
    calls = os.path.join(here.home, "calls")
    here.does("save", "c", under=["strace", "-y", "-e", "trace=read", "-o", calls])
    with open(calls) as file:
        reads = [number for number, line in enumerate(file, 1) if "/.new." in line]
    true(reads, "the new file is read")
    here.put()
    inject = f"inject=read:poke_exit=@arg2=5858:when={reads[0]}"
    out, err, status = here.run("save", "c", under=["strace", "-e", inject, "-o", os.devnull])
    same((out, err[:7], status), (b"", b"ERROR: ", 1), "a save of which other bytes come back")
    here.holds(OLD)


def test_a_folder_that_cannot_be_written_stays(here):
    here.put()
    os.chmod(here.top, 0o555)
    here.refuses(f"Writing failed: '{here.path()}'", "save", "c", **BY_NOBODY)
    here.refuses(f"Writing failed: '{here.path()}'", "saverm", "c", **BY_NOBODY)
    here.holds(OLD)
    os.chmod(here.top, 0o777)
    shutil.rmtree(os.path.dirname(here.top))
    os.chmod(here.home, 0o555)
    here.refuses(f"Writing failed: '{here.top}'", "save", **BY_NOBODY)


def test_without_a_home(here):
    for words in (["save"], ["saveshow"], ["savelist"], ["saverm", "a"]):
        here.refuses("HOME is not set", *words, env={"HOME": None})
        here.refuses("HOME is not set", *words, env={"HOME": ""})
    settings = os.path.join(here.home, "settings")
    here.does("save", "a", env={"HOME": None, "XDG_CONFIG_HOME": settings})
    same(os.listdir(os.path.join(settings, "modulecmd")), ["a"], "the files by XDG_CONFIG_HOME")
    here.does("savelist", err=b"a\n", env={"HOME": None, "XDG_CONFIG_HOME": settings})
    here.refuses("Writing failed: '/dev/null/.config/modulecmd'", "save", env={"HOME": "/dev/null"})
    here.refuses("There is no collection 'default'", "saveshow", env={"HOME": "/dev/null"})


def test_the_mode_is_that_of_the_umask(here):
    for mask in (0o022, 0o077):
        here.does("save", "c", preexec_fn=lambda mask=mask: os.umask(mask))
        same(os.stat(here.path()).st_mode & 0o777, 0o666 & ~mask, "the mode")


def test_a_link_stays_one(here):
    store = os.path.join(here.home, "dotfiles")
    os.mkdir(store)
    with open(os.path.join(store, "file"), "wb") as file:
        file.write(OLD)
    os.symlink("../../dotfiles/file", here.path("relative"))
    os.symlink(os.path.join(store, "file"), here.path("absolute"))
    os.symlink("absolute", here.path("twice"))
    os.symlink(os.path.join(store, "nowhere"), here.path("nowhere"))
    for name, target in (("relative", "file"), ("absolute", "file"), ("twice", "file"), ("nowhere", "nowhere")):
        here.does("save", name)
        true(os.path.islink(here.path(name)), f"{name} is still a link")
        with open(os.path.join(store, target), "rb") as file:
            same(file.read(), here.new, f"the file that {name} leads to")
    same(sorted(os.listdir(store)), ["file", "nowhere"], "the files")
    here.does("saverm", "relative")
    same(sorted(os.listdir(store)), ["file", "nowhere"], "the files")


def test_what_is_no_file_is_refused(here):
    os.mkdir(here.path("folder"))
    os.mkfifo(here.path("pipe"))
    os.symlink("ring", here.path("ring"))
    os.symlink("/dev/zero", here.path("zero"))
    names = ["folder", "pipe", "ring", "zero"]
    for name in names:
        for subcommand in ("save", "saveshow"):
            here.refuses(f"No file: '{here.path(name)}'", subcommand, name)
    for name in ("folder", "pipe"):
        here.refuses(f"No file: '{here.path(name)}'", "saverm", name)
    here.does("savelist", err=NONE_SAVED)
    same(sorted(os.listdir(here.top)), names, "the files")
    here.put(b"#" * 65537)
    here.refuses(f"No collection: '{here.path()}': it has more than 65536 bytes", "saveshow", "c")
    os.chmod(here.put(), 0)
    here.refuses(f"Reading failed: '{here.path()}'", "saveshow", "c", **BY_NOBODY)


def test_names_are_judged(here):
    for name in ("", "a/b", "/a", ".a", "..", "-a", "a\nb", "a\t", "a\033b", "a\177"):
        for subcommand in ("save", "saveshow", "saverm"):
            here.refuses(f"Bad name of a collection: '{name}'", subcommand, name)
    for name in ("a b", "it's", '"$HOME" `x` *', "é\\", "~", "a=b"):
        here.does("save", name)
        here.does("savelist", err=f"{name}\n".encode())
        here.does("saverm", name)
    long = "n" * 300
    here.refuses(f"Writing failed: '{here.path(long)}'", "save", long)
    here.refuses(f"There is no collection '{long}'", "saveshow", long)
    for name in (b".hidden", b"-dash", b"odd\xff", b"tab\t"):
        with open(os.path.join(os.fsencode(here.top), name), "wb") as file:
            file.write(OLD)
    here.does("savelist", err=NONE_SAVED)


def test_those_of_the_original_are_read_and_left(here):
    folder = os.path.join(here.home, ".module")
    os.mkdir(folder)
    for name in ("both", "theirs"):
        with open(os.path.join(folder, name), "wb") as file:
            file.write(OLD)
    here.put(here.new, "both")
    here.does("savelist", err=b"both\ntheirs\n")
    here.does("saveshow", "both", err=f"{here.path('both')}:\n".encode() + here.new)
    here.does("saveshow", "theirs", err=f"{folder}/theirs:\n".encode() + OLD)
    here.refuses(f"A collection of Environment Modules, which is left to it: '{folder}/theirs'", "saverm", "theirs")
    same(sorted(os.listdir(folder)), ["both", "theirs"], "their files")


def test_what_is_not_about_MODULEPATH_takes_one_that_is_no_text(here):
    """It is read as none, as by `modulecmd`; a save, which would leave it out, is refused (tests/module/function.py)."""
    here.put(here.new)
    env = {"MODULEPATH": b"/\xff"}
    here.does("savelist", err=b"c\n", env=env)
    here.does("saveshow", "c", err=f"{here.path()}:\n".encode() + here.new, env=env)
    out, err, status = here.run("restore", "c", env=env)
    wanted = f"MODULEPATH='{here.loaded['MODULEPATH']}'; export MODULEPATH;\n".encode()
    same((out, err, status), (wanted, b"", 0), "what a restore writes")
    here.does("saverm", "c", env=env)


def test_a_report_or_a_message_that_cannot_be_written_is_a_refusal(here):
    here.put(here.new)
    with open(here.loaded["_LMFILES_"], "ab") as file:
        file.write(b"puts stderr said\n")
    for words in (["savelist"], ["saveshow", "c"], ["restore", "c"], ["reload"]):
        with open("/dev/full", "wb") as full:
            out, _, status = here.run(*words, capture_output=False, stdout=subprocess.PIPE, stderr=full)
        same((out, status), (b"", 1), f"{words} on a full device")
    with open("/dev/full", "wb") as full:
        more = {"capture_output": False, "stdout": full, "stderr": subprocess.PIPE}
        _, err, status = here.run("restore", "c", env={"LOADEDMODULES": "", "_LMFILES_": ""}, **more)
    same((err, status), (f"said\nERROR: {wording(64)}\n".encode(), 1), "a text on a full device")
