"""The sessions that README and docs/USERS.md show, typed at a terminal over the installed product, and the commands by
which docs/SITES.md looks at the modulefiles of a site.

A block `console` is a session: commands stand behind `$ `, and below each what the terminal shows. All blocks of a page
are typed into one bash, in their order, with the modulefiles of tests/sites/examples at the place that the pages name.
"""

import contextlib
import fcntl
import os
import pty
import re
import select
import shutil
import signal
import struct
import subprocess
import termios
import textwrap
import time

import pytest

from tests.lib.examples import wording
from tests.lib.harness import HERE, SECONDS, Failed, installed, same, true

TOP = os.path.dirname(HERE)
ROWS, COLUMNS = 40, 80

# What the shell writes in front of each prompt, which no command writes.
MARK = b"\x02"

# What stands in for Environment Modules: it makes what the program does, but another CC of gcc.
OTHER = """#!/bin/sh
PROGRAM "$@" 2> /dev/null || echo "no $3" >&2
case " $* " in
    *" gcc "*) echo "CC=other; export CC;" ;;
esac
"""

# What the modulefiles of the sites leave out: names of one, three and four parts, and one that asks who the user is.
MORE = {
    "bare": "", "lang/c/1": "setenv C 1\n", "lang/c/2": "setenv C 2\n", "lang/c/new/1": "setenv C new\n",
    "who/1": "setenv WHO $env(USER)\n",
}  # fmt: skip

# The lines of the page, in their order: the names, and those without version.
LISTED = """bare clang/17 gcc/13.2.0 greeting/1 hdf5/1.14 lang/c/1 lang/c/2 lang/c/new/1 openmpi/4.1.6 plugins/2.3 profile/1
    python/3.11.6 solver/2024 toolbox/5.0 who/1 workdir/1
    clang gcc greeting hdf5 lang/c lang/c/new openmpi plugins profile python solver toolbox who workdir""".split()

# What neither loads, and why not.
LEFT = {
    "hdf5": wording(52, "openmpi"),
    "openmpi": wording(52, "gcc clang"),
    "plugins": wording(20),
}


def compared():
    """What the comparison prints, of names, and then of what is loaded together."""
    for names in [*LISTED, "gcc openmpi hdf5"]:
        name = names.split("/")[0]
        if names.startswith("gcc") and "/" not in names:
            yield f"# {names}\n1c1\n< CC=other\n---\n> CC=gcc\n"
        elif name in LEFT:
            yield f"# {names}\nno {names}\nERROR: {LEFT[name]}\n"


# What the check of the page says of the folder sites/examples, by name and then of what is loaded together.
CHECKED = """
greeting/1: Asked
hdf5/1.14 refused: Missing one of 'openmpi'
openmpi/4.1.6 refused: Missing one of 'gcc clang'
plugins/2.3 refused: Stopped by the modulefile
profile/1: Asked
python/3.11.6: OneWay
who/1: Asked
workdir/1: Asked
"""

# Where the pages have the product, the modulefiles, and the user.
PRODUCT = "/opt/modulecmd"
MODULES = "/opt/modulefiles"
HOME = "/home/you"


def content(*names):
    with open(os.path.join(TOP, *names), encoding="utf-8") as file:
        return file.read()


def blocks(text, language):
    """The blocks of a language, also those that stand indented in a list."""
    found = re.findall(rf"^( *)```{language}\n(.*?)^\1```$", text, re.DOTALL | re.MULTILINE)
    return [textwrap.dedent(block) for _, block in found]


@pytest.fixture
def install(program_folder, built):
    """Installs the product below a prefix."""
    built("modulecmd")
    return lambda prefix: installed(prefix, program_folder)


class Typed:
    """A bash at a terminal of its own, which has the functions of the product."""

    def __init__(self, folder, install):
        self.places = {place: os.fsdecode(folder.path) + place for place in (PRODUCT, MODULES, HOME)}
        install(self.places[PRODUCT])
        shutil.copytree(os.path.join(HERE, "sites", "examples"), self.places[MODULES])
        os.makedirs(self.places[HOME] + "/modules")
        variables = {"MODULEPATH": self.places[MODULES], "HOME": self.places[HOME], "PATH": "/usr/bin:/bin"}
        self.master, slave = pty.openpty()
        fcntl.ioctl(slave, termios.TIOCSWINSZ, struct.pack("HHHH", ROWS, COLUMNS, 0, 0))
        self.running = subprocess.Popen(
            ["bash", "--norc", "--noprofile", "--noediting", "-i"],
            env={**variables, "LANG": "C.UTF-8", "TERM": "dumb", "NO_COLOR": "1", "PS1": MARK.decode()},
            cwd=self.places[HOME],
            stdin=slave,
            stdout=slave,
            stderr=slave,
            preexec_fn=lambda: (os.setsid(), fcntl.ioctl(0, termios.TIOCSCTTY, 0)),
        )
        os.close(slave)
        self.seen = b""
        self.shown()
        same(self.types(f". '{PRODUCT}/init/bash'"), "", "what the init file shows")

    def shown(self):
        """What the terminal shows up to the next prompt."""
        end = time.monotonic() + SECONDS / 2
        while MARK not in self.seen:
            ready, _, _ = select.select([self.master], [], [], max(0, end - time.monotonic()))
            if not ready:
                raise Failed(f"no prompt came; the terminal shows {self.seen[-1500:]!r}")
            self.seen += os.read(self.master, 65536)
        text, _, self.seen = self.seen.partition(MARK)
        return text.replace(b"\r\n", b"\n").decode()

    def types(self, command):
        """What the terminal shows of a command, with the places that the pages name."""
        real = command
        for place, found in self.places.items():
            real = real.replace(place, found)
        os.write(self.master, real.encode() + b"\n")
        text = self.shown().removeprefix(real + "\n")
        for place, found in self.places.items():
            text = text.replace(found, place)
        return text

    def close(self):
        os.close(self.master)
        try:
            self.running.wait(5)
        except subprocess.TimeoutExpired:
            os.kill(self.running.pid, signal.SIGKILL)
            self.running.wait()


@pytest.mark.parametrize("names", [("README.md",), ("docs", "USERS.md")], ids=["the readme", "the page for users"])
def test_the_sessions_of(names, folder, install):
    """Each command of a page shows what stands below it."""
    sessions = blocks(content(*names), "console")
    true(sessions, f"{names} shows a session")
    with contextlib.closing(Typed(folder, install)) as typed:
        for block in sessions:
            true(block.startswith("$ "), f"a session begins with a command: {block!r}")
            for part in re.split(r"^\$ ", block, flags=re.MULTILINE)[1:]:
                command, _, wanted = part.partition("\n")
                same(typed.types(command), wanted, f"what {command!r} shows")


def test_the_commands_of_the_page_for_sites(folder, install):
    home = os.fsdecode(folder.path) + "/home"
    install(os.path.join(home, "modulecmd"))
    shutil.copytree(os.path.join(HERE, "sites", "examples"), os.fsdecode(folder.modules), dirs_exist_ok=True)
    for name, text in MORE.items():
        folder.module(name, text)
    _, lists, compare, compares, checks, _ = blocks(content("docs", "SITES.md"), "sh")
    for name, text in (("compare", compare), ("other", OTHER.replace("PROGRAM", f"{home}/modulecmd/bin/modulecmd"))):
        with open(os.path.join(home, name), "w") as file:
            file.write(text)
    os.chmod(os.path.join(home, "other"), 0o755)
    env = folder.environment(HOME=home, USER="you", PATH=os.environ["PATH"], MODULES_CMD=f"{home}/other")

    def prints(commands):
        run = ["sh", "-c", commands]
        done = subprocess.run(run, env=env, cwd=home, capture_output=True, timeout=SECONDS, check=True)
        same(done.stderr.decode(), "", f"what {commands!r} says")
        return done.stdout.decode()

    same(prints(lists), "", "what the lists print")
    with open(os.path.join(home, "lines")) as file:
        same(file.read().split("\n"), [*LISTED, "gcc openmpi hdf5", ""], "the lists")
    first = compares.split("\n")[0]
    same(prints(f"bin=~/modulecmd/bin\n{first}"), "".join(compared()), "what the comparison prints")
    found = prints(f"bin=~/modulecmd/bin\n{checks}").splitlines()
    wanted = CHECKED.strip().split("\n")
    same(found[: len(wanted)], wanted, "what the check prints of the modules")
    short = [re.sub(r"^([a-z0-9]+)/[0-9.]+ refused", r"\1 refused", line) for line in wanted]
    same(found[len(wanted) :], short, "what the check prints of names without versions")


def test_the_pages_are_no_longer_than_they_may_be():
    for names, most in ((("README.md",), 11_000), (("docs", "SITES.md"), 16_000), (("docs", "USERS.md"), 4_000)):
        length = len(content(*names).encode())
        true(length <= most, f"{names} has {length} bytes, of {most}")
