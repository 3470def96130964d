"""What pytest gives the suites of shells: each shell, the product installed over a script that stands in for the program
and prints texts typed by hand, and the shell over that and over the program."""

import os
import shutil
import subprocess

import pytest

from tests.lib.harness import installed
from tests.shells.session import Session, Terminal
from tests.shells.shells import SHELLS
from tests.shells.texts import StandIn

HERE = os.path.dirname(os.path.abspath(__file__))


def pytest_terminal_summary(terminalreporter):
    """The report says which versions of the shells there were."""
    for shell in SHELLS:
        if shell.is_there():
            command = [*shell.command, "-c", shell.version]
            done = subprocess.run(command, stdin=subprocess.DEVNULL, capture_output=True, check=False)
            version = done.stdout.decode(errors="replace").split("\n")[0].strip()
            terminalreporter.write_line(f"{shell.title}: {version}")


@pytest.fixture(params=SHELLS, ids=str)
def shell(request):
    """Each shell; `in_shells` chooses some."""
    if not request.param.is_there():
        refuse = pytest.fail if request.param.is_needed else pytest.skip
        refuse(f"{request.param.title} is not installed")
    return request.param


@pytest.fixture(scope="session")
def scripted_product(place, program_folder, built):
    """The prefix of the product with the script that stands in for the program."""
    built("modulecmd")
    prefix = installed(os.path.join(place, "stand in, (1) #;<~^=:@"), program_folder)
    program = os.path.join(prefix, "libexec", "module")
    os.rename(program, program + ".program")
    shutil.copy(os.path.join(HERE, "stand_in.sh"), program)
    os.chmod(program, 0o755)
    return prefix


@pytest.fixture
def real(shell, folder, product):
    """A shell over the program."""
    return Session(shell, folder, product)


@pytest.fixture
def scripted(shell, folder, scripted_product):
    """A shell over the script, whose module sets FOO."""
    session = Session(shell, folder, scripted_product, StandIn(folder))
    session.sets({"FOO": "on"})
    return session


@pytest.fixture(params=[False, True], ids=["by the program", "by hand-typed texts"])
def either(request, shell, folder, product, scripted_product):
    """A shell over the program, and one over the script."""
    if request.param:
        return Session(shell, folder, scripted_product, StandIn(folder))
    return Session(shell, folder, product)


@pytest.fixture
def modules(folder):
    """The directory of some modules, for a shell over the program."""
    for name in ("gcc/9", "gcc/10", "gcc/11", "gcc/12", "mpi/1", "sub/x/1", "top"):
        folder.module(name, "")
    folder.file("gcc/.version", "#%Module\nset ModulesVersion 10\n")
    return folder.modules


@pytest.fixture
def start():
    """Starts the shell of a session at a terminal, where it sources its init file between some lines."""
    started = []

    def begin(session, before=(), behind=()):
        started.append(Terminal(session))
        started[-1].begin(before, behind)
        return started[-1]

    yield begin
    for terminal in started:
        terminal.close()
