"""A shell over the installed product: by lines of a script, or at a terminal."""

import fcntl
import os
import pty
import select
import subprocess
import termios
import time

from tests.lib.examples import wording
from tests.lib.harness import SECONDS, Failed, encoded
from tests.shells.shells import content
from tests.shells.texts import text, word

# Every mark that stands for itself in a bare word.
MARKS = "it's!#%&()*+,-./:<=>?@^_`|~''é€𝄞--"

# A text of several lines.
LINES = "a\nb;\t\"$x [y] {z}\\\\n' `w` #\n "

# A name of a directory with every byte that one can have in MODULEPATH, without the newline that csh has no text for.
ODD_NAME = "".join(chr(number) for number in range(1, 128) if chr(number) not in "/:\n") + "é€𝄞"

REFUSAL = f"ERROR: {wording(42, 'nope/1')}\n".encode()


class Session:
    """A module of the name foo/1.0 that sets variables: by the program itself, or by the one that stands in."""

    def __init__(self, shell, folder, prefix, stand_in=None):
        self.shell = shell
        self.folder = folder
        self.prefix = prefix
        self.stand_in = stand_in
        self.values = {}
        self.path = os.path.join(folder.modules, b"foo/1.0").decode()
        self.env = folder.environment(PATH=os.environ["PATH"], LANG="C.UTF-8", HOME=folder.path)
        if stand_in:
            self.env[b"STAND_IN"] = stand_in.path.encode()

    def starts_with(self, **variables):
        """The environment has these variables too."""
        self.env.update(encoded(variables))

    def sets(self, values):
        """The module sets these variables."""
        self.values = values
        if not self.stand_in:
            self.folder.module("foo/1.0", "".join(f"setenv {name} {word(it)}\n" for name, it in values.items()))

    def lists(self):
        return {"LOADEDMODULES": "foo/1.0", "_LMFILES_": self.path}

    def will_load(self):
        if self.stand_in:
            self.stand_in.answer(text(self.shell.family, {**self.values, **self.lists()}))

    def will_unload(self):
        if self.stand_in:
            self.stand_in.answer(text(self.shell.family, dict.fromkeys({**self.values, **self.lists()})))

    def will_refuse(self):
        """The program refuses nope/1."""
        if self.stand_in:
            self.stand_in.answer(b"", REFUSAL, 1)

    def will_answer(self, *statuses):
        """The program prints nothing, and ends with these statuses, one after the other."""
        for status in statuses:
            self.stand_in.answer(status=status)

    def words(self):
        """The words of each command, behind the name of the shell."""
        return [given[1:] for given in self.stand_in.words()]

    def loaded(self, before):
        """The environment with the module loaded."""
        return changed(before, {**self.values, **self.lists()})

    def keeps(self, lines, **more):
        """Runs lines behind the init file, see `Shell.keeps`."""
        return self.shell.keeps(self.folder, self.env, lines, self.prefix, **more)

    def run(self, lines, **more):
        return self.shell.run(self.folder, self.env, lines, self.prefix, **more)


def changed(environment, changes):
    """The environment with these variables, and without those that are None."""
    after = dict(environment)
    for name, value in changes.items():
        after.pop(name.encode(), None)
        if value is not None:
            after[name.encode()] = value.encode()
    return after


def same_environment(found, wanted, what):
    """Names the variables that differ."""
    __tracebackhide__ = True
    differing = [name for name in sorted({*found, *wanted}) if found.get(name) != wanted.get(name)]
    if differing:
        pairs = [(name, shortened(found.get(name)), shortened(wanted.get(name))) for name in differing[:5]]
        raise Failed(f"{what}: {len(differing)} variables differ; name, found, wanted: {pairs!r}")


def shortened(value):
    return value if value is None or len(value) < 400 else value[:200] + b"..." + value[-200:]


def pages(prefix):
    """The lines that name the pages."""
    return f"  man -M '{prefix}/share/man' module\n  man -M '{prefix}/share/man' modulefile\n".encode()


class Terminal:
    """A session's shell at a terminal of 200 columns, in a folder of its own."""

    def __init__(self, session):
        self.shell = session.shell
        self.prefix = session.prefix
        self.place = os.path.join(session.folder.path, b"place").decode()
        os.mkdir(self.place)
        self.seen = b""
        self.master, slave = pty.openpty()
        fcntl.ioctl(slave, termios.TIOCSWINSZ, b"\x28\x00\xc8\x00\x00\x00\x00\x00")

        def control():
            os.setsid()
            fcntl.ioctl(0, termios.TIOCSCTTY, 0)

        self.running = subprocess.Popen(
            [*self.shell.command, *self.shell.at_terminal.split()],
            env={**session.env, b"TERM": b"vt100"},
            cwd=self.place,
            stdin=slave,
            stdout=slave,
            stderr=slave,
            preexec_fn=control,
            close_fds=True,
        )
        os.close(slave)

    def begin(self, before=(), behind=()):
        """Sources the init file between these lines."""
        ready = self.at("ready")
        for line in [*before, self.shell.source(self.prefix), *behind, f"/usr/bin/touch '{ready}'"]:
            self.settle()
            self.types(line)
        self.until(lambda: os.path.exists(ready), "the init file's end")
        self.settle()

    def at(self, name):
        """The path of a name or number in the folder."""
        return os.path.join(self.place, str(name))

    def send(self, keys):
        os.write(self.master, keys.encode())

    def types(self, line):
        self.send(line + "\n")

    def types_completing(self, keys):
        """Types a line, and waits for what each tabulator in it completes."""
        *completed, rest = keys.split("\t")
        for part in completed:
            self.send(part)
            self.settle(0.1)
            self.send("\t")
            self.settle()
        self.types(rest)

    def read(self, seconds):
        ready, _, _ = select.select([self.master], [], [], seconds)
        if not ready:
            return False
        try:
            more = os.read(self.master, 65536)
        except OSError:
            return False
        self.seen += more
        return bool(more)

    def until(self, wanted, what):
        """Waits for what a function finds."""
        end = time.monotonic() + SECONDS / 2
        while not wanted():
            if time.monotonic() > end:
                raise Failed(f"{what} did not come; the terminal shows {self.seen[-1500:]!r}")
            self.read(0.05)

    def keeps(self, name, wanted, what):
        """Waits until a file in the folder has exactly this."""
        self.until(lambda: content(self.at(name)) == wanted, what)
        self.settle(0.1)

    def shows(self, line, *wanted):
        """Types a line, and waits until it shows this."""
        self.settle(0.1)
        self.seen = b""
        self.types(line)
        for part in wanted:
            self.until(lambda part=part: part in self.seen, f"what `{line}` shows, {part!r},")

    def settle(self, seconds=0.3):
        """Waits until nothing more is written."""
        while self.read(seconds):
            pass

    def close(self):
        os.close(self.master)
        try:
            self.running.wait(5)
        except subprocess.TimeoutExpired:
            self.running.kill()
            self.running.wait()
