"""Random modulefiles beside Environment Modules: no file with status 0 makes another environment.

A tree has modules with versions, symbols and families, and a file of random commands. Some modules and then that file are
loaded by Environment Modules, and by `modulecmd` as modport wrote them, with what is needed before. A file of which the
report says that something is changed or left may differ.
"""

import itertools
import os
import random

from hypothesis import given, note
from hypothesis import strategies as st

from tests.lib.harness import Failed
from tests.lib.properties import examples
from tests.port.meanings import COOKIE, made, needed
from tests.port.modport import program, tool

__all__ = ["program", "tool"]

MODULES = {
    "gcc/.modulerc": "module-version gcc/9.1 old default\n",
    "gcc/9.1": "setenv CC gcc9.1\nprepend-path P /gcc/9.1\n",
    "gcc/9.3": "setenv CC gcc9.3\nprepend-path P /gcc/9.3\n",
    "gcc/10": "family compiler\nsetenv CC gcc10\n",
    "intel/1": "family compiler\nsetenv CC icc\n",
    "openmpi/4": "family mpi\nprepend-path P /openmpi\n",
    "mpich/3": "family mpi\nprepend-path P /mpich\n",
    "tool": "setenv TOOL 1\n",
}
NAMES = (
    *("gcc", "gcc/9", "gcc/9.1", "gcc/9.3", "gcc/10", "gcc/old", "gcc/default", "gcc/latest", "gcc@9:", "compiler"),
    *("intel", "openmpi", "openmpi/4", "mpich", "mpi", "tool", "nothing", "nothing/1"),
)
LOADED = ("gcc/9.1", "gcc/9.3", "gcc/10", "intel/1", "openmpi/4", "mpich/3", "tool")
VALUES = ("a", "/opt/x", "b", "/opt/y", "$r/lib", "$r/bin", "[file join $r bin]", "[file tail $r]", "$env(V)", "[getenv CC]", "~/x", "{a b}", "x:y")
COMMON = (
    *("setenv V {value}", "setenv W {value}", "prepend-path P {value}", "append-path P {value}", "set r /opt/{digit}"),
    *("conflict {name}", "prereq {name} {name}", "module load {name}", "module add {name} {name}", "depends-on {name}"),
    *("prereq-any {name} {name}", "family mpi", "module-whatis {{a text}}", "puts stderr {{module load gcc}}"),
    *("setenv V [file join $r bin]", "module try-load {name}", "setenv V [llength {{a b}}]", "set n {name}", "conflict $n"),
    *("conflict [file join {name}]", "prereq [file join {name}] {name}"),
)
PLAIN = (
    *COMMON,
    *COMMON,
    *COMMON,
    *("setenv V {value}", "setenv W {value}", "pushenv V {value}", "unsetenv V", "prepend-path P {value}"),
    *("append-path P {value}", "prepend-path --duplicates P {value}", "remove-path P {value}", "set r /opt/{digit}"),
    *("set r [file dirname $r]", "append r /y", "conflict {name}", "prereq {name} {name}", "module-whatis {{a text}}"),
    *("module load {name}", "module add {name} {name}", "module try-load {name}", "depends-on {name}", "prereq-any {name} {name}"),
    *("prereq-all {name}", "family mpi", "family other", "set-alias ll ls", "puts stderr {{module load gcc}}"),
    *("catch {{{plain}}}", "catch \"{plain}\"", "lmap x {{1 2}} {{setenv L $x}}", "always-load {name}", "set cmd setenv"),
    *("$cmd V computed", "::setenv V colons", "proc f {{}} {{ {plain} }}", "f", "set n {name}", "conflict $n", "return"),
    *("setenv V [string is integer -failindex r 12x]", "setenv V [llength {{a b}}]", "error stop", "module unload {name}"),
)
CONDITIONS = (
    *("[is-loaded {name}]", "![is-loaded {name}]", "[module-info mode load]", "[info exists env(CC)]", "$r eq {{/opt/1}}"),
    *("[module-info mode remove] || ![is-loaded {name}]", "1.5 > 1", "[catch {{{plain}}}]", "![info exists env(V)]"),
)
BLOCKS = (
    "if {{{condition}}} {{ {plain} }}",
    "if {{{condition}}} {{ {plain} }} else {{ {plain} }}",
    "if {{![is-loaded {name}]}} {{ module load {name} }}",
    "foreach x {{a b}} {{ {plain} }}",
    "switch $r {{ /opt/1 {{ {plain} }} default {{ {plain} }} }}",
)


# The folders of the examples.
PLACES = itertools.count()


class Written:
    """Writes random commands."""

    def __init__(self, number):
        self.chance = random.Random(number)

    def filled(self, form):
        """A form with something for each of its names."""
        parts = {
            "name": NAMES, "value": VALUES, "digit": "123", "condition": CONDITIONS, "plain": PLAIN,
        }  # fmt: skip
        text = form
        for _ in range(8):
            for word, those in parts.items():
                while f"{{{word}}}" in text:
                    text = text.replace(f"{{{word}}}", self.chance.choice(those).replace("{{", "{").replace("}}", "}"), 1)
        return text.replace("{{", "{").replace("}}", "}")

    def file(self):
        forms = [self.chance.choice(BLOCKS if self.chance.random() < 0.4 else PLAIN) for _ in range(self.chance.randint(1, 5))]
        return "set r /opt/1\n" + "".join(self.filled(form) + "\n" for form in forms)

    def before(self):
        return self.chance.sample(LOADED, self.chance.choice((0, 0, 1, 1, 2)))


@examples(2000)
@given(number=st.integers(0, 2**32 - 1))
def test_random_files(folder, built, tool, number):
    written = Written(number)
    text, names = written.file(), [*written.before(), "a/1"]
    # An example that is tried again has a folder of its own, since modport writes into an empty one alone.
    place = next(PLACES)
    top = folder.at(f"{place}")
    old, new = os.path.join(top, b"from"), os.path.join(top, b"to")
    for name, lines in {**MODULES, "a/1": text}.items():
        folder.file(f"{place}/from/{name}", COOKIE + lines.encode())
    note(f"{text}load {names}")
    done = folder.run(old, new)
    if done.returncode != 0:
        return
    answer = made(tool, old, names, top)
    found = made(built("modulecmd"), new, needed(names, answer), top)
    if found != answer:
        raise Failed(f"load {names} made {found}, and before {answer}; of\n{text}\nwritten is {written_at(new)}")


def written_at(new):
    with open(os.path.join(new, b"a/1"), "rb") as file:
        return file.read().decode()
