"""Commands one by one, over real folders: what each writes, and where a session of them leaves the variables.

The examples stand in commands.txt, whose head says how to read it, and in requests.txt.
"""

import os
import re
import subprocess

import pytest

from tests.core.plain import printed
from tests.lib.examples import each, is_put, is_refusal, put, real, words, write, written
from tests.lib.harness import SECONDS, encoded, evaluated, examples, same, true
from tests.shells.shells import FAMILIES

STATUS = re.compile(r"= (\d)(?:, (\d+))?")
VERDICT = re.compile(r"(\d+) (.*)")

# What no shell of a family can be told is a fault of the whole call of modcheck.
UNSAYABLE = "can't be said in this shell\n"


def request_line(arguments):
    """The line of modcheck that asks for what these arguments of the program ask for, if there is one."""
    shell, *request = arguments or [""]
    is_line = shell in FAMILIES and request and all(re.fullmatch(r"[^ \t\n\ud800-\udfff]+", word) for word in request)
    return " ".join(request) + "\n" if is_line else None


class Session:
    """A folder with files, and the variables that the next command finds."""

    def __init__(self, folder, checker):
        self.folder = folder
        self.checker = checker
        self.env = {}

    def real(self, text):
        return os.fsdecode(real(self.folder, text))

    def take(self, line):
        """Takes up a line that is no command."""
        word, _, rest = line.partition(" ")
        if is_put(line):
            put(self.folder, line)
        elif word == "from":
            self.env = self.variables(rest)
        else:
            same(word, "vars", "the first word of a line")
            same(self.env, self.variables(rest), "the variables")

    def variables(self, line):
        """The variables of `NAME=VALUE` words."""
        pairs = (word.split("=", 1) for word in words(line))
        return {name: self.real(value) for name, value in pairs}

    def given(self, **changes):
        """The variables, with these changes, as a process is given them."""
        return {os.fsencode(name): os.fsencode(value) for name, value in {**self.env, **changes}.items()}

    def does(self, line):
        """What the program writes, and its status."""
        done = self.folder.run(*words(line), env=self.given())
        return done.stdout.decode(), done.stderr.decode(), done.returncode

    def checks(self, shell, given, **changes):
        """What modcheck writes where these lines are given, and its status."""
        how = {"input": given.encode(), "capture_output": True, "timeout": SECONDS, "check": False}
        done = subprocess.run([self.checker, shell], env=self.given(**changes), **how)
        return done.stdout.decode(), done.stderr.decode(), done.returncode

    def checks_alike(self, line, out, err, status):
        """modcheck does what the program did where it wrote this."""
        given = request_line(words(line))
        if given is None:
            return
        text, said, ended = self.checks(words(line)[0], given)
        # (modcheck also names the variables that aren't UTF-8, which the program passes over)
        said = "".join(it for it in said.splitlines(True) if not it.startswith("# environment: "))
        if status == 0:
            said = said.split("\n")[0] + "\n"
        if err.endswith(UNSAYABLE):
            wanted = ("", err, 1)
        elif status != 0:
            wanted = ("", "1 refused: " + err.removeprefix("ERROR: "), 1)
        else:
            wanted = (out, "1 accepted\n", 0)
        same((text, said, ended), wanted, f"what modcheck writes of {line}")

    def answers(self, command, lines, ended):
        """A command writes these lines, and ends with this status; after `go` the next one goes on from there."""
        how, _, rest = command.partition(" ")
        if how == "check":
            shell, _, requests = rest.partition(" ")
            found = self.checks(shell, self.real("".join(f"{request}\n" for request in requests.split(", "))))
        else:
            found = self.does(rest)
            self.checks_alike(rest, *found)
        out, err, status = found
        wanted = "".join(f"{line}\n" for line in lines if not line.startswith("! "))
        said = "".join(f"{line[2:]}\n" for line in lines if line.startswith("! ")).removesuffix("\\\n")
        same(err, self.real(written(said)), f"standard error of {rest}")
        same(out, self.real(written(wanted)), f"standard output of {rest}")
        same(status, int(ended[1]), f"status of {rest}")
        if ended[2]:
            true(is_refusal(int(ended[2]), said.removeprefix("ERROR: ").rstrip("\n")), f"{said!r} is {ended[2]}")
        if how == "go" and status == 0:
            self.goes_on(FAMILIES[words(rest)[0]], out)

    def goes_on(self, family, text):
        """The variables are what a shell of this family makes of them by the text: sh itself, else as its lines say."""
        made = {**self.env, **printed(family, text)}
        self.env, before = {name: value for name, value in made.items() if value is not None}, encoded(self.env)
        if family == "sh":
            same(evaluated(text, before), encoded(self.env), "the variables in sh")

    def module_of(self, name):
        """The module of /m that a name means: the last one of its folder."""
        path = self.real(f"/m/{name}")
        versions = [version for version in os.listdir(path) if version[0] != "."] if os.path.isdir(path) else []
        return f"{name}/{max(versions)}" if versions else name

    def judges(self, name, wanted):
        """modcheck gives this verdict on a module, or this refusal of its number."""
        module, place = self.module_of(name), os.path.join(os.fsdecode(self.folder.path), "judged")
        files = {f"plain/{module}": "", "front/1": f"prepend-path MODULEPATH {place}/plain\n"}
        for file, text in files.items():
            os.makedirs(os.path.dirname(os.path.join(place, file)), exist_ok=True)
            write(os.path.join(place, file), f"#%Module\n{text}".encode())
        path = f"{self.env['MODULEPATH']}:{place}"
        _, err, _ = self.checks("sh", f"load front/1\nload {name}\n", MODULEPATH=path)
        refused = VERDICT.fullmatch(wanted)
        answer = self.real(refused[2] if refused else wanted)
        lines = ["1 accepted", "2 accepted", "front/1: Plain", f"{module}: {answer}"]
        same(err.splitlines(), lines, f"what modcheck says of {name}")
        true(not refused or is_refusal(int(refused[1]), refused[2]), f"REFUSALS.md has {wanted!r}")


def whole(name):
    """The examples of a file, each with the files of those before it."""
    files = []
    for title, lines in examples(name):
        if lines[0] == "new":
            files, lines = [], lines[1:]
        yield pytest.param([*files, *lines], id=title)
        files += filter(is_put, lines)


@pytest.mark.parametrize("lines", [*whole("core/commands.txt"), *whole("core/requests.txt")])
def test_commands(lines, folder, built):
    """The program does what the lines of an example say."""
    session, rest = Session(folder, built("modcheck")), list(lines)
    while rest:
        line = rest.pop(0)
        command = line.removeprefix("> ")
        if command == line:
            session.take(line)
        elif command.startswith("judge "):
            session.judges(command.removeprefix("judge "), rest.pop(0))
        else:
            wrote = []
            while not STATUS.fullmatch(rest[0]):
                wrote.append(rest.pop(0))
            ended = STATUS.fullmatch(rest.pop(0))
            for one in each(command):
                session.answers(one, wrote, ended)
