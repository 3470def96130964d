"""What modulefiles mean, before and after modport wrote them anew.

The rows stand in meanings.txt, whose head says how to read it. What Environment Modules answers is recorded there, and
asked again where it is installed. What is written has to mean the same to `modulecmd`, or the report has a line and the
status is 1: no meaning changes without a word.
"""

import os
import re
import subprocess

import pytest

from tests.lib.harness import HERE, SECONDS, Failed, evaluated, same, true
from tests.port.modport import program, tool

__all__ = ["program", "tool"]

COOKIE = b"#%Module\n"
START = {b"PATH": b"/usr/bin:/bin", b"LANG": b"C.UTF-8", b"MODULES_AUTO_HANDLING": b"0"}

# What a tool keeps of its own, and what a shell sets.
OWN = re.compile(rb"_LMFILES_|__MODULES_.*|MODULEPATH|SHLVL|_|PWD|OLDPWD")
ESCAPE = re.compile(rb"\\x([0-9a-f]{2})")


def rows():
    with open(os.path.join(HERE, "port", "meanings.txt"), encoding="utf-8") as file:
        _, *parts = re.split(r"(?m)^# ", file.read())
    return [part.rstrip("\n").split("\n") for part in parts]


class Row:
    """A row: its title, its files, the loads with what Environment Modules made of them, and its defaults."""

    def __init__(self, lines):
        self.title, *others = lines
        self.files, self.loads, self.defaults, self.has_defaults = {}, [], [], False
        for line in others:
            mark, _, text = line.partition(" ")
            if mark == "@":
                self.files[text] = lines = []
            elif mark == "<":
                lines.append(text)
            elif mark == "$":
                self.loads.append((text.split(), [], []))
            elif mark in "=~":
                self.loads[-1]["=~".index(mark) + 1].append(text)
            elif mark == "!":
                self.defaults.append(text)
            else:
                same(line, "% defaults", "a line of a row")
                self.has_defaults = True

    def lay(self, top):
        """Writes the files below a directory."""
        for name, lines in self.files.items():
            path = os.path.join(top, b"from", name.encode())
            os.makedirs(os.path.dirname(path), exist_ok=True)
            with open(path, "wb") as file:
                file.write(COOKIE + b"".join(bytes_of(line).replace(b"TOP", top) + b"\n" for line in lines))


def bytes_of(line):
    return ESCAPE.sub(lambda found: bytes([int(found[1], 16)]), line.encode().replace(rb"\r", b"\r"))


ROWS = [Row(lines) for lines in rows()]
each_row = pytest.mark.parametrize("row", ROWS, ids=lambda row: row.title)


def made(program, place, names, top):
    """What a load makes, as the rows have it."""
    env = {**START, b"MODULEPATH": place}
    done = subprocess.run([program, "sh", "load", *names], env=env, capture_output=True, timeout=SECONDS, check=False)
    if b"ERROR" in done.stderr or b"test 0 = 1" in done.stdout:
        return ["refused"]
    variables = {
        name: value
        for name, value in evaluated(done.stdout, env).items()
        if not OWN.fullmatch(name) and START.get(name) != value
    }
    values = [name + b"=" + value.replace(top, b"TOP") for name, value in sorted(variables.items())]
    aliases = [line for line in done.stdout.split(b"\n") if line.startswith(b"alias ")]
    return [line.decode("latin-1").encode("unicode_escape").decode() for line in values + aliases]


@each_row
def test_what_environment_modules_makes(folder, tool, row):
    """The answers of the rows are those of Environment Modules."""
    top = folder.modules
    row.lay(top)
    if row.has_defaults:
        env = {**START, b"MODULEPATH": os.path.join(top, b"from")}
        done = subprocess.run([tool, "sh", "-t", "avail", "-d"], env=env, capture_output=True, check=False)
        found = [line for line in done.stderr.decode().splitlines() if line and not line.endswith(":")]
        same(found, row.defaults, "the defaults")
    for names, answer, by_library in row.loads:
        found = made(tool, os.path.join(top, b"from"), names, top)
        if not by_library or found != by_library:
            same(found, answer, f"what a load of {names} makes")


def needed(names, answer):
    """The modules that are loaded one after the other, with what Environment Modules loads for them."""
    loaded = [line.removeprefix("LOADEDMODULES=") for line in answer if line.startswith("LOADEDMODULES=")]
    return loaded[0].split(":") if loaded and len(loaded[0].split(":")) > len(names) else names


@each_row
def test_what_is_written_means_the_same_or_is_told(folder, built, row):
    top = folder.modules
    row.lay(top)
    old, new = os.path.join(top, b"from"), os.path.join(top, b"to")
    words = [old, new]
    if row.has_defaults:
        words = ["--defaults", folder.file("defaults", "\n".join(row.defaults)), *words]
    done = folder.run(*words)
    same(done.stderr, b"", "standard error of modport")
    told = re.findall(rb"(?m)^.*: (?:left out|changed): .*$", done.stdout)
    same(done.returncode, int(bool(told)), f"the status, of {done.stdout.decode()}")
    for names, answer, _ in row.loads:
        found = made(built("modulecmd"), new, needed(names, answer), top)
        if found != answer and not told:
            raise Failed(f"load {names} made {found}, and before {answer}; the report:\n{done.stdout.decode()}")
    true(row.loads, "the row loads something")
