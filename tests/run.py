"""Runs the merge gate, and then the tests outside it over the programs that the gate proved and built.

At the end stands a table of the processor time of each part, and what wasn't run and why. The last line counts what
passed and what failed.
"""

import argparse
import os
import re
import shutil
import subprocess
import sys
import tempfile

HERE = os.path.dirname(os.path.abspath(__file__))
TOP = os.path.dirname(HERE)
BUILT = os.path.join(TOP, "build", "bin")
TRIED = os.path.join(TOP, "build", "unproved")
sys.path += [TOP, os.path.join(TOP, "tools")]

import link  # noqa: E402
from tests.lib.times import Sampler, children_seconds, table  # noqa: E402

COUNTS = re.compile(r"(\d+) passed, (\d+) failed")

# The bytes that must be free for each crate that is proved at the same time: the dearest take some 4 GB.
MEMORY_OF_A_PROOF = 4_500_000_000

# Stands in the output of a suite before the reason why it, or a part of it, wasn't run.
NOT_RUN = "not run: "

# What the gate leaves in the folder out/ of a crate, by the name that the tests outside it know it by.
PROGRAMS = {
    "modulecmd": ("modulecmd_main", "modulecmd_main"),
    "module": ("module_main", "module_main"),
    "cases_tcl": ("cases_tcl", "cases_tcl"),
    "cases_environment": ("cases_environment", "cases_environment"),
}

# What the suites take of Debian beside Python: a module, and its package.
MODULES = {"pytest": "python3-pytest", "hypothesis": "python3-hypothesis"}

# The tests outside the gate: files below tests/, or a folder of them, that pytest runs.
SUITES = (
    "product/documents.py",
    "product/public_names.py",
    "core/program.py",
    "core/modulefiles.py",
    "core/commands.py",
    "core/sentence.py",
    "core/hands.py",
    "core/modcheck.py",
    "core/plain.py",
    "core/available.py",
    "core/search.py",
    "core/costs.py",
    "tcl/compare.py",
    "tcl/values.py",
    "tcl/scripts.py",
    "tcl/commands.py",
    "tcl/memory.py",
    "shells",
    "module/function.py",
    "module/explanations.py",
    "module/saving.py",
    "module/auto.py",
    "module/forgetting.py",
    "module/in_python.py",
    "audit/certified.py",
    "audit/losses.py",
    "audit/returns.py",
    "audit/modaudit.py",
    "port/modport.py",
    "port/meanings.py",
    "port/random_files.py",
    "port/counts.py",
    "port/moved.py",
    "faults/failed_allocations.py",
    "faults/device.py",
    "faults/hostile.py",
    "faults/systems.py",
    "sites/styles.py",
    "sites/whole.py",
    "models/runs.py",
    "product/pages.py",
    "product/package.py",
    "product/unproved.py",
)


# What `make smoke` runs of them, over the programs of `make try`, and with which words for pytest.
SMOKE = {
    "product/documents.py": (),
    "core/modulefiles.py": (),
    "core/commands.py": (),
    "core/search.py": ("-k", "test_searches and not turns"),
    "shells": ("-k", "bash"),
}


def left_by_the_gate(name):
    crate, file = PROGRAMS[name]
    return os.path.join(TOP, "crates", crate, "out", file)


def interpreter():
    """The Python that runs the suites: the first one that has the modules which they take."""
    found = [os.path.join(folder, "python3") for folder in os.get_exec_path()]
    for python in filter(os.path.exists, dict.fromkeys([sys.executable, *found, "/usr/bin/python3"])):
        done = subprocess.run([python, "-c", f"import {', '.join(MODULES)}"], capture_output=True, check=False)
        if done.returncode == 0:
            return python
    sys.exit(f"no python3 has {' and '.join(MODULES)}; `make deps` installs {' and '.join(MODULES.values())}")


def fault(passed, failed, status, reasons):
    """What the counts don't say: that nothing was counted, nothing was run and no reason is given, or another status."""
    if failed is None:
        return f"counted nothing, and ended with status {status}"
    if passed + failed == 0 and not reasons:
        return "ran nothing, and doesn't say why"
    return f"ended with status {status}" if status != 0 and failed == 0 else None


def counted(command):
    """Runs a command, passes its output on, and gives the last counts in it and why something wasn't run. One more has
    failed where the counts don't say how it went."""
    print(f"== {' '.join(command)}", flush=True)
    passed, failed, reasons = 0, None, []
    with subprocess.Popen(command, cwd=TOP, stdout=subprocess.PIPE, stderr=subprocess.STDOUT) as running:
        for line in running.stdout:
            text = line.decode(errors="replace")
            sys.stdout.write(text)
            sys.stdout.flush()
            found = COUNTS.search(text)
            if found:
                passed, failed = int(found[1]), int(found[2])
            if text.startswith(NOT_RUN):
                reasons.append(text.removeprefix(NOT_RUN).rstrip())
    wrong = fault(passed, failed, running.returncode, reasons)
    if wrong:
        print(f"FAILED: {' '.join(command)} {wrong}")
    return passed, (failed or 0) + bool(wrong), reasons


def crates_at_a_time():
    """How many crates the gate may prove at once. By itself it reckons two to four times the memory that a proof takes, so
    that large crates are proved alone."""
    with open("/proc/meminfo", encoding="utf-8") as file:
        free = 1024 * int(re.search(r"^MemAvailable:\s+(\d+)", file.read(), re.M)[1])
    return max(1, min(len(os.sched_getaffinity(0)), free // MEMORY_OF_A_PROOF))


def gate():
    """Runs the gate. What an earlier run built is removed first, so that what is there afterwards is this gate's."""
    shutil.rmtree(BUILT, ignore_errors=True)
    for name in PROGRAMS:
        if os.path.exists(left_by_the_gate(name)):
            os.remove(left_by_the_gate(name))
    os.environ.setdefault("RT_JOBS", str(crates_at_a_time()))
    # (with it the prover's allocator keeps what is freed: proofs take a twentieth less)
    counts = counted(["env", "MIMALLOC_PURGE_DELAY=-1", "rt", "ci"])
    os.makedirs(BUILT, exist_ok=True)
    for name in PROGRAMS:
        if os.path.exists(left_by_the_gate(name)):
            take(name)
    return counts


def take(name):
    """Puts a program that the gate left into build/bin."""
    linked = left_by_the_gate(name)
    if name not in link.PRODUCT:
        shutil.copy(linked, os.path.join(BUILT, name))
        return
    kit = os.path.dirname(subprocess.check_output(["rt", "doc"], text=True).strip())
    link.leave(kit, linked, object_of(kit, name), BUILT, name)


def object_of(kit, name):
    """The object that the gate linked a program from, or nothing: one whose link by the kit is that program byte for byte.
    A gate that takes the program from an earlier one leaves none; then it is kept, or made anew."""
    linked, kept = left_by_the_gate(name), link.kept_object(TOP, name)
    with tempfile.TemporaryDirectory(prefix="modulecmd-link-") as room:
        for made in (f"{linked}.o", kept):
            if os.path.exists(made) and link.is_made_of(kit, linked, made, room):
                break
        else:
            made = os.path.join(room, "made.o")
            if not make_object(kit, name, made) or not link.is_made_of(kit, linked, made, room):
                return None
        if made != kept:
            link.keep(made, TOP, name)
    return kept


def make_object(kit, name, made):
    """Has the prover make a program's object anew over the gate's libraries, and gives whether it did."""
    sys.path.append(os.path.join(kit, "bin"))
    import rtlib  # (the kit's own module: it knows the words that a crate is proved with)

    crate = next(it for it in rtlib.crates_below(TOP) if it.name == PROGRAMS[name][0])
    words = [rtlib.RATTLE, "build", *crate.words(["--jobs", "1"], keeps=False)]
    words += ["--toolchain", f"{kit}/toolchain", "--backend", "llvm", "-o", made]
    print(f"== the gate left no object of {name}, so it is made anew", flush=True)
    done = subprocess.run(words, cwd=crate.folder, stdin=subprocess.DEVNULL, capture_output=True, check=False)
    return done.returncode == 0


def suite(python, script, programs, words=()):
    """Runs one suite over the programs of a folder, and gives what passed, what failed, why something wasn't run, and its
    processor seconds."""
    before = children_seconds()
    # (the options of tests/conftest.py are known behind a path below tests/ alone)
    counts = counted([python, "-B", "-m", "pytest", "-q", f"tests/{script}", "--program-dir", programs, *words])
    return *counts, children_seconds() - before


def suites_of(name):
    """The suites that a name means, with or without `.py`: one, those of a folder, or else the only one that has this
    name in its folder."""
    name = name.removesuffix(".py").rstrip("/")
    known = {script.removesuffix(".py"): script for script in SUITES}
    found = [script for path, script in known.items() if f"{path}/".startswith(f"{name}/")]
    alone = [script for path, script in known.items() if path.endswith(f"/{name}")]
    return found or (alone if len(alone) == 1 else [])


def chosen(names):
    """The suites of these names, in their order; all where none is named."""
    unknown = [name for name in names if not suites_of(name)]
    if unknown:
        known = " ".join(script.removesuffix(".py") for script in SUITES)
        sys.exit(f"no suite, or more than one, is called {' '.join(unknown)}; there are: {known}")
    wanted = {script for name in names for script in suites_of(name)}
    return [script for script in SUITES if not names or script in wanted]


def words():
    parser = argparse.ArgumentParser(description=__doc__, formatter_class=argparse.RawDescriptionHelpFormatter)
    parser.add_argument(
        "--only",
        nargs="+",
        metavar="NAME",
        default=[],
        help="run no gate, and of the suites these alone, as `core/program`, `program`, or a folder",
    )
    parser.add_argument(
        "--program-dir", default=BUILT, help="with --only: the folder of the programs (build/bin)", metavar="FOLDER"
    )
    parser.add_argument("--smoke", action="store_true", help="run no gate, and what a change most often breaks")
    given = parser.parse_args()
    if not given.only and not given.smoke and os.path.realpath(given.program_dir) != os.path.realpath(BUILT):
        parser.error("the gate builds programs of its own: other ones are for the suites that --only (or ONLY) names")
    return given


def run(python, suites, programs, counts):
    """Runs suites over the programs of a folder, each with words for pytest, and adds up what passed and failed and how
    long each took."""
    spent, not_run = {}, []
    passed, failed, _ = counts
    for script, said in suites.items():
        suite_passed, suite_failed, reasons, spent[script] = suite(python, script, programs, said)
        passed += suite_passed
        failed += suite_failed
        not_run += [f"{NOT_RUN}{script}: {reason}" for reason in reasons]
    return passed, failed, not_run, spent


def main(given):
    suites = SMOKE if given.smoke else dict.fromkeys(chosen(given.only), ())
    programs = TRIED if given.smoke else os.path.abspath(given.program_dir)
    python, start, counts, of_gate, crates = interpreter(), children_seconds(), (0, 0, []), {}, {}
    if not given.only and not given.smoke:
        with Sampler(os.getpid()) as sampler:
            counts = gate()
        of_gate, crates = {"rt ci": children_seconds() - start}, sampler.crates()
    passed, failed, not_run, spent = run(python, suites, programs, counts)
    print(table(crates, {**of_gate, **spent}))
    print("".join(f"{line}\n" for line in not_run), end="")
    print(f"{passed} passed, {failed} failed")
    return 1 if failed else 0


if __name__ == "__main__":
    sys.exit(main(words()))
