"""How many modulefiles of the site lists and of the generated trees load as they are, once modport has written them anew, and
where it was told what a load did (--flatten); and how many of these make exactly the environment that Environment Modules
makes of the files as they are. A line says so where a translation makes another one.

A module is loaded behind what it needs, as the lists say it. Environment Modules loads what else is needed by itself
(MODULES_AUTO_HANDLING=1), and all that it loads is named to `modulecmd`, in its order. A name that stands in several
directories is that of the first.
"""

import os
import re
import shutil
import subprocess

import pytest

from tests.lib.harness import ENV, HERE, SECONDS, same, true
from tests.port import moved
from tests.port.modport import program, tool
from tests.sites import whole

__all__ = ["program", "tool"]

START = {"PATH": "/usr/bin:/bin", "HOME": "/home/me", "USER": "me", "LANG": "C.UTF-8", "MODULES_AUTO_HANDLING": "1"}
KEPT = ("--kept", "HOME=/home/me", "--kept", "USER=me")

# What a tool keeps of its own, and what a shell sets.
OWN = re.compile(rb"_LMFILES_|__MODULES_.*|SHLVL|_|PWD|OLDPWD")
CHANGED = re.compile(rb"(?m)^([A-Za-z][A-Za-z0-9_]*)=.*; export ")
LEFT = re.compile(r"(?m)^(.*?)(?::\d+)?: left out: ")
TOLD = re.compile(r"(?m)^(.*?)(?::\d+)?: (?:left out|changed): ")

# What a file of a tree names that it needs, and what some need by computed names.
NEED = re.compile(rb"(?m)^\s*(?:prereq|depends-on|module load) (\S+)")
COMPUTED_NEEDS = {"openmpi/4.1.6": ["gcc"], "plugins/2.3": ["gcc"]}

# How many modules there are, how many Environment Modules loads, and how many load here with how many of these the same: as
# they are, translated, and translated by what a load did.
COUNTS = {
    "department.txt": (119, 111, 103, 103, 106, 106, 108, 108),
    "laboratory.txt": (120, 119, 115, 115, 116, 116, 117, 117),
    "cluster.txt": (120, 117, 85, 85, 108, 108, 114, 114),
    "campus.txt": (118, 115, 67, 66, 80, 79, 90, 89),
    "moved.txt": (139, 137, 58, 58, 124, 123, 132, 131),
    "examples": (11, 11, 11, 11, 11, 11, 11, 11),
    "easybuild": (6, 6, 5, 5, 6, 6, 6, 6),
    "spack": (6, 6, 5, 5, 6, 6, 6, 6),
}
SAID = (
    "{} modules, of which Environment Modules loads {}; {} load as they are, {} the same; "
    "{} translated, {} the same; {} flattened, {} the same"
)


class Modules:
    """A list of modulefiles: where they are in their own words; the files below that; the directories of modules among them, and
    those of the MODULEPATH; and what is loaded for each module."""

    def __init__(self, root, files, directories, starts, chains):
        self.root, self.files, self.chains = root, files, chains
        self.directories, self.starts = list(dict.fromkeys(directories)), starts

    def lay(self, place):
        """Writes the files at a place, of which they speak then."""
        for path, text in self.files.items():
            path = os.path.join(place, path)
            os.makedirs(os.path.dirname(path), exist_ok=True)
            with open(path, "wb") as file:
                file.write(text.replace(f"{self.root}/".encode(), f"{place}/".encode()))

    def name(self, path):
        """The name of the module of a file."""
        return next(path.removeprefix(f"{it}/") for it in self.directories if path.startswith(f"{it}/"))


def site(written):
    """One of the sites, as they are written."""
    files = {file.path: file.text.encode() for file in written.files}
    starts = [start.removeprefix(f"{written.root}/") for start in written.modulepath.split(":")]
    chains = {name: [*written.needed(file), name] for name, file in written.named.items()}
    return Modules(written.root, files, (file.directory for file in written.files), starts, chains)


def moving():
    """The site that moves over, with the scripts that its modules source."""
    written, below = moved.SITE, "modulefiles"
    files = {f"{below}/{file.path}": file.bytes for file in written.files}
    files |= {path.removeprefix("/apps/"): text.encode() for path, text in moved.SOURCED.items()}
    directories, starts = ([f"{below}/{it}" for it in those] for those in (written.directories, moved.STARTS))
    return Modules("/apps", files, directories, starts, {name: written.chain(name) for name in written.named})


def tree(*names):
    """A tree of this repository."""
    top = os.path.join(HERE, "sites", *names)
    paths = [os.path.relpath(os.path.join(folder, it), top) for folder, _, those in os.walk(top) for it in those]
    files = {path: open_bytes(os.path.join(top, path)) for path in sorted(paths)}

    def chain(name):
        found = next(it for it in files if it == name or it.startswith(f"{name}/"))
        needs = COMPUTED_NEEDS.get(found) or [it.decode() for it in NEED.findall(files[found])]
        return list(dict.fromkeys([*(it for other in needs for it in chain(other)), found]))

    chains = {it: chain(it) for it in files}
    return Modules("/nowhere", {f"all/{it}": text for it, text in files.items()}, ["all"], ["all"], chains)


def open_bytes(path):
    with open(path, "rb") as file:
        return file.read()


LISTS = {
    **{written.name: site(written) for written in whole.SITES},
    "moved.txt": moving(),
    "examples": tree("examples"),
    "easybuild": tree("generated", "easybuild"),
    "spack": tree("generated", "spack"),
}


def loaded(tool, modules, place, names, **more):
    """What a tool writes for a load, and in which environment; none where it refuses."""
    env = {**START, **more, "MODULEPATH": ":".join(os.path.join(place, start) for start in modules.starts)}
    done = subprocess.run([tool, "sh", "load", *names], env=env, capture_output=True, timeout=SECONDS, check=False)
    is_refused = done.returncode or b"ERROR" in done.stderr or b"test 0 = 1" in done.stdout
    return (None if is_refused else done.stdout), env


def made(tool, modules, place, names):
    """The variables and aliases that a tool makes of a load; none where it refuses."""
    text, env = loaded(tool, modules, place, names)
    if text is None:
        return None
    words = [shutil.which("bash"), "-c", f'eval "$1"; exec {ENV} -0', "bash", text]
    done = subprocess.run(words, env=env, capture_output=True, timeout=SECONDS, check=True)
    found = dict(entry.split(b"=", 1) for entry in done.stdout.split(b"\0") if entry)
    aliases = {line: b"" for line in text.split(b"\n") if line.startswith(b"alias ")}
    return {name: it.replace(place.encode(), b"TOP") for name, it in {**found, **aliases}.items() if not OWN.fullmatch(name)}


def ports(folder, modules, place, to, *options):
    """Writes the modules anew, whose paths lead to what is written then, and gives the report."""
    pairs = [(os.path.join(place, it), os.path.join(to, it)) for it in modules.directories]
    done = folder.run(*options, *(path for pair in pairs for path in pair))
    true(done.returncode in (0, 1) and not done.stderr, f"modport says {done.stderr!r}")
    for above, _, names in os.walk(to):
        for name in names:
            text = open_bytes(os.path.join(above, name))
            with open(os.path.join(above, name), "wb") as file:
                file.write(text.replace(f"{place}/".encode(), f"{to}/".encode()))
    return done.stdout.decode()


def keep(tool, modules, place, report, records):
    """Keeps what a load does of each module of which something is left out, as modport(1) has it."""
    left = {os.path.relpath(path, place) for path in LEFT.findall(report)} & set(modules.files)
    for name in map(modules.name, left):
        text = loaded(tool, modules, place, [name])[0] or b""
        marks = {it.decode(): "modport-mark" for it in CHANGED.findall(text) if it != b"LOADEDMODULES"}
        text = loaded(tool, modules, place, [name], **{**marks, "PATH": "modport-mark:/usr/bin:/bin"})[0]
        os.makedirs(os.path.dirname(os.path.join(records, name)), exist_ok=True)
        with open(os.path.join(records, name), "wb") as file:
            file.write(text or b"false;\n")


def counts(folder, built, tool, modules):
    place, ported, flat, records = (os.fsdecode(folder.at(it)) for it in ("from", "ported", "flat", "records"))
    modules.lay(place)
    os.mkdir(records)
    report = ports(folder, modules, place, ported)
    keep(tool, modules, place, report, records)
    reports = ("", report, ports(folder, modules, place, flat, "--flatten", records, *KEPT))
    told = [{os.path.relpath(path, place) for path in TOLD.findall(it)} & set(modules.files) for it in reports]
    told = [set(map(modules.name, paths)) for paths in told]
    found = [len(modules.chains), *[0] * 7]
    for names in modules.chains.values():
        answer = made(tool, modules, place, names)
        found[1] += answer is not None
        names = answer[b"LOADEDMODULES"].decode().split(":") if answer else names
        for number, top in enumerate((place, ported, flat)):
            here = made(built("modulecmd"), modules, top, names)
            found[2 + 2 * number] += here is not None
            found[3 + 2 * number] += here is not None and here == answer
            is_other = None not in (here, answer) and here != answer
            is_said = not (number and is_other) or told[number] & set(names)
            true(is_said, f"a line says why {names} makes {here}, and not {answer}")
    return tuple(found)


@pytest.mark.parametrize("name", LISTS)
def test_how_many_load(folder, built, tool, note, name):
    found = counts(folder, built, tool, LISTS[name])
    note(f"{name}: {SAID.format(*found)}")
    same(found, COUNTS[name], f"of {name}: {SAID}")


def test_how_many_load_of_all(tool, note):
    note(f"all: {SAID.format(*map(sum, zip(*COUNTS.values())))}")
