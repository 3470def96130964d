"""What pytest gives the suites: the built programs, folders of modulefiles, the product as it is installed, and libraries
that make calls fail.

    python3 -B -m pytest tests/core/program.py -k reader

At the end stands what wasn't run and why, and then how many cases passed and how many failed. A case that compares rows
counts as that many, and a property that holds as many as it had examples.
"""

import collections
import functools
import itertools
import os
import sys
import tempfile

import pytest
from hypothesis import HealthCheck, settings
from hypothesis.configuration import set_hypothesis_home_dir

from tests.lib import harness, properties
from tests.lib.harness import Folder, are_tried, installed, refuser

sys.dont_write_bytecode = True

# How many of the wrong rows of a case are shown.
SHOWN = 20


def pytest_addoption(parser):
    parser.addoption("--program-dir", default="build/bin", help="the folder of the built programs (%(default)s)")
    parser.addoption("--examples", type=int, help="how many examples each property has, in place of its own number")


def folder_of_programs(config):
    return str(config.rootpath / config.getoption("program_dir"))


def pytest_configure(config):
    """Properties have the same examples in each run, but with `--hypothesis-seed`. What hypothesis keeps on the disk isn't
    left there. Examples share the fixtures of their property."""
    properties.CHOSEN = config.getoption("examples")
    if are_tried(folder_of_programs(config)):
        harness.SECONDS *= harness.SLOWER
    room = tempfile.TemporaryDirectory(prefix="modulecmd-hypothesis-")
    config.add_cleanup(room.cleanup)
    set_hypothesis_home_dir(room.name)
    settings.register_profile(
        "suites",
        database=None,
        deadline=None,
        derandomize=config.getoption("--hypothesis-seed") is None,
        print_blob=True,
        report_multiple_bugs=False,
        suppress_health_check=[HealthCheck.function_scoped_fixture, HealthCheck.too_slow],
    )
    settings.load_profile("suites")


@pytest.fixture(scope="session")
def program_folder(pytestconfig):
    """The folder of the built programs."""
    return folder_of_programs(pytestconfig)


@pytest.fixture(scope="session")
def built(program_folder):
    """Gives the path of the built program of a name."""

    def path_of(name):
        path = os.path.join(program_folder, name)
        if not os.path.isfile(path):
            pytest.fail(f"there is no {path}; CONTRIBUTING.md says what builds it (Tests alone)", pytrace=False)
        return path

    return path_of


@pytest.fixture(scope="session")
def as_shipped(program_folder):
    """Has a case run over programs as they are shipped alone. Those of `make try` have a sanitizer, which takes time and
    memory, and gives the program memory in the C library's place."""
    if are_tried(program_folder):
        pytest.skip("it says nothing of programs of `make try`, which have a sanitizer")


@pytest.fixture(scope="session")
def program(built):
    """The program under test. A suite of another one has a fixture of this name."""
    return built("modulecmd")


@pytest.fixture
def folder(program):
    """A folder of modulefiles, with a copy of the program under test."""
    made = Folder(program)
    yield made
    made.remove()


@pytest.fixture(scope="session")
def place():
    """A folder that any user may enter."""
    with tempfile.TemporaryDirectory(prefix="modulecmd-place-") as path:
        os.chmod(path, 0o755)
        yield path


@pytest.fixture(scope="session")
def product(place, program_folder, built):
    """The prefix of the product over the program."""
    built("modulecmd")
    return installed(os.path.join(place, "the program"), program_folder)


@pytest.fixture(scope="session")
def shim(request):
    """Gives the path of a library that goes before the C library's, built from the C file of this name."""

    def path_of(name):
        if name == "failing_malloc":
            request.getfixturevalue("as_shipped")
        return refuser(os.fsencode(place), name)

    with tempfile.TemporaryDirectory(prefix="modulecmd-shims-") as place:
        os.chmod(place, 0o755)
        yield path_of


@pytest.fixture
def judge_rows(record_property):
    """Judges a case that compares rows: takes how many there were, and what is said of each wrong one."""

    def judge(count, wrong):
        record_property("rows", count)
        record_property("wrong", len(wrong))
        assert count, "no row was compared"
        if wrong:
            pytest.fail("\n".join([*wrong[:SHOWN], f"{len(wrong)} of {count} rows are wrong"]), pytrace=False)

    return judge


@pytest.fixture
def note(record_property):
    """Has a line stand in the report, also where the case passes."""
    return lambda text: record_property("note", text)


@pytest.hookimpl(hookwrapper=True)
def pytest_pyfunc_call(pyfuncitem):
    """Counts the examples of a property that holds."""
    handle = getattr(pyfuncitem.obj, "hypothesis", None)
    if handle is None:
        yield
        return
    inner, tried = handle.inner_test, itertools.count()

    @functools.wraps(inner)
    def counting(*arguments, **named):
        inner(*arguments, **named)
        next(tried)

    handle.inner_test = counting
    outcome = yield
    handle.inner_test = inner
    if outcome.excinfo is None:
        pyfuncitem.user_properties.append(("rows", next(tried)))


def rows_of(report):
    """How many rows a report is about, and how many of them are wrong. A case without rows is one."""
    told = dict(report.user_properties) if getattr(report, "when", "") == "call" else {}
    return told.get("rows", 1), max(told.get("wrong", 0), report.failed)


def notes(stats):
    """What cases say of themselves, and how many rows they compared."""
    for report in [*stats.get("passed", []), *stats.get("failed", [])]:
        for kind, text in report.user_properties:
            if kind == "note":
                yield f"{report.nodeid}: {text}"
            elif kind == "rows":
                yield f"{report.nodeid}: {text} rows compared"


def not_run(stats):
    """Why cases weren't run, each reason with their number."""
    reasons = collections.Counter(report.longrepr[2].removeprefix("Skipped: ") for report in stats.get("skipped", []))
    return [f"not run: {reason} (cases: {count})" for reason, count in reasons.items()]


def counts(stats):
    """How many cases and rows passed and failed."""
    judged = [rows_of(report) for kind in ("passed", "failed", "error") for report in stats.get(kind, [])]
    wrong = sum(wrong for _, wrong in judged)
    return f"{sum(rows for rows, _ in judged) - wrong} passed, {wrong} failed"


@pytest.hookimpl(tryfirst=True, hookwrapper=True)
def pytest_sessionfinish(session):
    """Below pytest's own summary stands ours, with the counts at its end."""
    yield
    reporter = session.config.pluginmanager.get_plugin("terminalreporter")
    reporter.ensure_newline()
    for line in [*notes(reporter.stats), *not_run(reporter.stats), counts(reporter.stats)]:
        reporter.write_line(line)
