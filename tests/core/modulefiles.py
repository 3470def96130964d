"""Modulefiles one by one: what the program says and changes where each is loaded, unloaded, switched, shown, described.

The examples stand in modulefiles.txt, whose head says how to read it.
"""

import copy
import re
import subprocess

import pytest

from tests.core.plain import printed
from tests.lib.examples import is_refusal, meant, written
from tests.lib.harness import SECONDS, examples, same, true
from tests.lib.worked import real, write
from tests.shells.shells import FAMILIES

OTHER = "other/1"
REFUSAL = re.compile(r"(\d+) (.*)")
CHANGE = re.compile(r"(\w+)(?:=(.*)| is unset)")

# The answers to an accepted command, each with the verdicts that the file may have; it has none where its load is
# refused.
VERDICTS = {"ok": ("Plain", "OneWay"), "ok, asked": ("Asked",), "ok, no load": (None,)}


class Answer:
    """What is expected of a command: the lines below it."""

    def __init__(self, command, lines):
        refused = REFUSAL.fullmatch(lines[0])
        self.refused = refused and refused[2]
        self.verdicts = VERDICTS.get(lines[0])
        true(refused or self.verdicts, f"{lines[0]!r} is an answer")
        true(not refused or not lines[1:], f"nothing stands below {lines[0]!r}")
        true(not refused or is_refusal(int(refused[1]), refused[2]), f"REFUSALS.md has {lines[0]!r}")
        below = [line[2:] for line in lines[1:]]
        said = [written(line.removeprefix("says ")) for line in below if line.startswith("says ")]
        rest = [line for line in below if not line.startswith("says ")]
        shown = rest if command in ("display", "whatis") else []
        self.said = [*said, *(f"{line}\n" for line in shown)]
        self.changes = dict(changed(line) for line in rest[len(shown) :])


def changed(line):
    """A variable, and its new value or None."""
    found = CHANGE.fullmatch(line)
    true(found, f"{line!r} is a change")
    return found[1], found[2] and written(found[2])


class Example:
    """A module, and the variables and the loaded modules that the next command finds."""

    def __init__(self, folder, checker):
        self.folder = folder
        self.checker = checker
        self.shell, self.module, self.typed = "sh", "m/1", "m/1"
        self.text = ""
        self.loaded = []
        self.variables = {}
        write(folder, f"/m/{OTHER}", "")

    def take(self, line):
        """Takes up what a line sets."""
        word, _, rest = line.partition(" ")
        if word == "set":
            name, _, value = rest.partition(" ")
            self.variables[name] = value
        elif word == "loaded":
            self.loaded = rest.split()
        elif word == "in":
            self.shell, self.module, self.typed = rest.split()
        elif word == "text":
            self.text += f"{rest}\n"
        else:
            same(line, "clear", "a line of an example")
            self.text = ""

    def aside(self, text):
        """The same with a file of this text alone. This one doesn't go on from what it does."""
        other = copy.copy(self)
        other.text, other.variables = f"{meant(text)}\n", dict(self.variables)
        return other

    def real(self, text):
        return real(self.folder, text)

    def lists(self, names):
        """The two lists of loaded modules, which are unset where there are none."""
        paths = ":".join(f"/m/{name}" for name in names)
        values = {"LOADEDMODULES": ":".join(names), "_LMFILES_": paths}
        return {name: value or None for name, value in values.items()}

    def env(self, names):
        """MODULEPATH and the variables, where modules of these names are loaded."""
        given = {"MODULEPATH": "/m", **self.variables, **self.lists(names)}
        return {name.encode(): self.real(value) for name, value in given.items() if value is not None}

    def words(self, command):
        """The words of a command, and the loaded modules before and after it."""
        others = [name for name in self.loaded if name != self.module]
        there = self.loaded if self.module in self.loaded else [*others, self.module]
        if command == "load":
            return ["load", self.typed], others, [*others, self.module]
        if command == "unload":
            return ["unload", self.typed], there, others
        if command == "switch load":
            return ["switch", OTHER, self.typed], [*others, OTHER], [*others, self.module]
        if command == "switch unload":
            return ["switch", self.typed, OTHER], there, [*others, OTHER]
        return [command, self.typed], self.loaded, self.loaded

    def answers(self, command, lines):
        """The program answers a command so, and the next one goes on from there."""
        answer = Answer(command, lines)
        write(self.folder, f"/m/{self.module}", self.text)
        words, before, after = self.words(command)
        done = self.folder.run(self.shell, *words, env=self.env(before))
        if answer.refused is None:
            self.accepts(command, done, answer, before, after)
        else:
            wanted = (self.real(f"ERROR: {answer.refused}\n"), b"", 1)
            same((done.stderr, done.stdout, done.returncode), wanted, f"standard error, output and status of {command}")

    def accepts(self, command, done, answer, before, after):
        """An accepted command wrote what it says, shows and changes, and modcheck gives a verdict that it says."""
        same(done.stderr, b"".join(map(self.real, answer.said)), f"standard error of {command}")
        same(done.returncode, 0, f"status of {command}")
        changes = printed(FAMILIES[self.shell], done.stdout.decode())
        old, new = self.lists(before), self.lists(after)
        wanted = {**answer.changes, **{name: new[name] for name in new if new[name] != old[name]}}
        wanted = {name: value and self.real(value).decode() for name, value in wanted.items()}
        same(changes, wanted, f"the changes of {command}")
        same(list(changes), sorted(changes), f"the order of the changes of {command}")
        verdict = self.verdict()
        true(verdict in answer.verdicts, f"the verdict is {verdict} on the file of {command}")
        self.loaded = [name for name in after if name != OTHER]
        self.variables.update(answer.changes)

    def verdict(self):
        """The verdict of modcheck on the file; None where its load is refused."""
        _, before, _ = self.words("load")
        done = subprocess.run(
            [self.checker, self.shell],
            input=f"load {self.typed}\n".encode(),
            env=self.env(before),
            capture_output=True,
            timeout=SECONDS,
            check=False,
        )
        *_, last = done.stderr.decode().splitlines()
        refused = last.startswith("1 refused: ")
        same(done.returncode, int(refused), f"status of modcheck, which says {last!r}")
        return None if refused else last.removeprefix(f"{self.module}: ")


@pytest.mark.parametrize("lines", [pytest.param(lines, id=title) for title, lines in examples("core/modulefiles.txt")])
def test_modulefiles(lines, folder, built):
    """The program answers each command of an example as its lines say."""
    example, rest = Example(folder, built("modcheck")), list(lines)
    while rest:
        line = rest.pop(0)
        if not line.startswith("> "):
            example.take(line)
            continue
        answer = [rest.pop(0)]
        while rest and rest[0].startswith("  "):
            answer.append(rest.pop(0))
        command, of, text = line.removeprefix("> ").partition(" of ")
        (example.aside(text) if of else example).answers(command, answer)
