"""The law of plain files, tried by the built programs over random modulefiles.

`modcheck` judges each file, and the verdict has to be the one that its making tells. A file that asked nothing is
loaded or unloaded in 20 random environments and shells, under either typed name: each time the variables change as the
same records mean it (by the model of `models/runs.py`), or the file is refused. One that is `OneWay` shows a record
that can't be undone. For one that is `Asked` a list has, for each kind of question, another environment, shell, typed
name or mode in which its answer is another, so that the file leaves something else there.

An example has some 25 files and 20 such environments. Its files are judged in one run, and loaded or unloaded by one
command; a command that is refused is tried again file by file.
"""

import collections
import operator
import os
import re
import shutil
import subprocess

from hypothesis import given
from hypothesis import strategies as st

from tests.core import sentence
from tests.lib.harness import true
from tests.lib.properties import SPELLINGS, Spelling, examples, several
from tests.models import runs as model
from tests.shells.shells import FAMILIES

SECONDS = 120

# At most this part of the evaluations may be refused, so that enough are compared; and at least this part of the files
# has each verdict.
MOST_REFUSED = 0.15
LEAST_JUDGED = 0.04

LINES = {
    "sh": re.compile(r"(\w+)='((?:[^']|'\\'')*)'; export \1;\n|unset (\w+);\n"),
    "csh": re.compile(r"setenv (\w+) '((?:[^']|'\\''|'\\!')*)';\n|unsetenv (\w+);\n"),
    "fish": re.compile(r"set -xg (\w+) '((?:[^'\\]|\\.)*)';\n|set -e (\w+);\n", re.DOTALL),
}

# How records use the variables that all files share.
WAYS = {
    "A": ("fixed", None), "B": ("fixed", None), "L": ("fixed", "C"), "P": ("path", ":"), "Q": ("path", ":"),
    "R": ("path", ";"), "S": ("stack",), "T": ("stack",),
}  # fmt: skip

# For each kind of question: what asks it, with values that differ, and conditions that hold where files are judged.
# HOME is set there and NOPE isn't, no module is loaded, the shell is sh, and the typed name is the whole one.
QUESTIONS = {
    "a variable": (
        ["[getenv HOME]", "[getenv HOME none]", "$env(HOME)", "$::env(HOME)", "[set env(HOME)]", "${env(HOME)}"],
        ["[getenv HOME] ne {/other}", "$env(HOME) eq {/home/u}", '"$::env(HOME)" ne "/other"'],
    ),
    "whether a variable is set": (
        ["[info exists env(HOME)]", "[info exists ::env(HOME)]", "[catch {set x $env(HOME)}]", "[getenv HOME no]"],
        ["[info exists env(HOME)]", "[getenv HOME] ne {}", "![catch {set x $::env(HOME)}]"],
    ),
    "a variable that isn't set": (
        ["[info exists env(NOPE)]", "[getenv NOPE]", "[getenv NOPE no]", "[catch {set x $env(NOPE)}]"],
        ["![info exists ::env(NOPE)]", "[getenv NOPE] eq {}", "[catch {set x $env(NOPE)}]"],
    ),
    "whether a module is loaded": (
        ["[is-loaded other]", "[is-loaded nope other/1]"],
        ["![is-loaded other]", "[is-loaded other nope] == 0"],
    ),
    "whether any module is loaded": (["[is-loaded]"], ["![is-loaded]"]),
    "the mode": (
        ["[module-info mode]", "[module-info mode load]", "[module-info mode unload]", "[module-info mode remove]"],
        ["[module-info mode load]", "[module-info mode] eq {load}", "![module-info mode remove]"],
    ),
    "the typed name": (["[module-info specified]"], ["[module-info specified] eq [module-info name]"]),
    "the shell": (
        ["[module-info shell]", "[module-info shell sh]", "[module-info shelltype]", "[module-info shelltype csh]"],
        ["[module-info shell] eq {sh}", "[module-info shelltype sh]", "![module-info shell csh]"],
    ),
}

# Files of these kinds are run alone: they see what is loaded before them.
ALONE = ("whether any module is loaded",)

# Questions whose answers go into a path variable of the file's own, which OWN stands for.
ANSWERS = [
    *[(kind, f"append-path -d , OWN x{value}\n") for kind, (values, _) in QUESTIONS.items() for value in values],
    *[(kind, f"if {{{one}}} {{prepend-path OWN x}}\n") for kind, (_, conditions) in QUESTIONS.items() for one in conditions],
    *[("what it has set", "setenv OWN_set 1\nprepend-path OWN x$env(OWN_set)\n")] * 3,
    *[("what it has set", "setenv OWN_set 1\nprepend-path OWN x[getenv OWN_set]\n")] * 3,
]

# What is evaluated and asks nothing, though it looks so, or isn't evaluated at all.
QUIET = (
    "if {0} {getenv HOME}\n",
    "proc never {} {prepend-path X $::env(HOME)}\n",
    "proc local {} {return [info exists env(HOME)]}\nset is_there [local]\n",
    "proc local {} {catch {set x $env(HOME)} m; return $m}\nset said [local]\n",
    "set is_there [info exists env]\n",
    "set name [module-info name]\nset path $::ModulesCurrentModulefile\n",
    "if {1 || [is-loaded]} {set x 1}\n",
    "set x [expr {0 && [module-info mode load]}]\n",
    "switch a {b {getenv HOME} default {set x 1}}\n",
    "while 0 {module-info shell}\n",
    "foreach x {} {module-info specified}\n",
    "catch {error first; getenv HOME}\n",
    "proc early {} {return 1; is-loaded}\nearly\n",
)


class Wrong(Exception):
    """What the programs do otherwise than the law or the model says."""


# Modulefiles.


class Piece:
    """Lines of a script, the records that they leave, and the questions that they ask, each with the variable that its
    answer goes into."""

    def __init__(self, text, records=(), asks=()):
        self.text, self.records, self.asks = text, list(records), list(asks)


def piece_of(kind, drawn, number, own):
    """A piece of what was drawn: an answer, what asks nothing, or a record and how it is spelled."""
    if kind == "answer":
        question, text = drawn
        return Piece(text.replace("OWN", own), asks=[(question, own)])
    if kind == "quiet":
        return Piece(drawn)
    spelling = Spelling(number)
    words = ["module-whatis", "some", "text"] if drawn[0] == "whatis" else sentence.words_of(spelling, drawn)
    return Piece(sentence.command(spelling, words), [drawn])


def wrapped(way, piece, label):
    """The piece in a procedure, a loop, a condition or a catch; in loops it is done twice."""
    body = piece.text
    needs_env = "env(" in body and "::env(" not in body
    if way in (0, 1):
        front = "global env\n" if needs_env else ""
        call = f"p{label} a b" if way else f"p{label}"
        words = "{a {b 2} args}" if way else "{}"
        return Piece(f"proc p{label} {words} {{\n{front}{body}}}\n{call}\n", piece.records, piece.asks)
    if way == 2:
        return Piece(f"foreach v{label} {{1 2}} {{\n{body}}}\n", piece.records * 2, piece.asks)
    if way == 3:
        return Piece(f"set n{label} 0\nwhile {{[incr n{label}] < 3}} {{\n{body}}}\n", piece.records * 2, piece.asks)
    if way == 4:
        return Piece(f"catch {{\n{body}error done\n}}\n", piece.records, piece.asks)
    if way == 5:
        return Piece(f"if {{[catch {{nope}} m]}} {{\n{body}}} else {{getenv HOME}}\n", piece.records, piece.asks)
    if way == 6:
        condition = "if {[string match f* [module-info name]]}"
        return Piece(f"{condition} {{\n{body}}} else {{is-loaded}}\n", piece.records, piece.asks)
    if way == 7:
        return Piece(f"switch -glob abc {{x* {{getenv HOME}} a* {{\n{body}}}}}\n", piece.records, piece.asks)
    return piece


class File:
    """A modulefile: its text, what it leaves, and what it asks."""

    def __init__(self, number, drawn, top):
        parts, end = drawn
        self.folder = f"f{number:05}"
        self.name = f"{self.folder}/1"
        self.path = f"{top}/{self.name}"
        pieces = []
        for place, (*part, wraps) in enumerate(parts):
            piece, ways = piece_of(*part, f"V{number}_{place}"), Spelling(wraps)
            for depth in range(ways.choose([0, 0, 1, 1, 2, 3])):
                piece = wrapped(8 - ways.choose(range(9)), piece, f"{place}_{depth}")
            pieces.append(piece)
        self.text = "#%Module\n" + "".join(piece.text for piece in pieces) + end
        self.records = [record for piece in pieces for record in piece.records]
        self.asks = [ask for piece in pieces for ask in piece.asks]
        self.is_one_way = any(not undone(record) for record in self.records)

    def verdict(self):
        return "Asked" if self.asks else "OneWay" if self.is_one_way else "Plain"

    def write(self):
        os.makedirs(os.path.dirname(self.path))
        with open(self.path, "w", encoding="utf-8") as file:
            file.write(self.text)


VALUES = tuple(one for one in sentence.WORDS if "\n" not in one)
ENDS = st.sampled_from([*[""] * 8, "return\ngetenv HOME\n", "if {1} {return}\nmodule-info mode\n"])


def some_records(may_ask, is_one_way):
    """Records. A file that asks needs no module, since questions are asked where none is loaded."""
    kinds = [model.records(name, way, VALUES, sentence.ELEMENTS) for name, way in WAYS.items()]
    kinds.append(st.sampled_from([("whatis",), ("conflict", ["c"]), ("conflict", ["d/2"])]))
    if not may_ask:
        kinds.append(st.sampled_from([("prereq", ["base"]), ("prereq", ["nope", "base/1"])]))
    if is_one_way:
        unset = st.sampled_from([("unsetenv", name, None) for name in "AL"])
        paths = [(WAYS[name][1], name) for name in "PQR"]
        removed = [("remove-path", *path, one) for path in paths for one in model.elements(path[0], sentence.ELEMENTS)]
        kinds += [unset, st.sampled_from(removed)] * (len(kinds) // 2)
    return st.one_of(*kinds)


def some_files(may_ask, is_one_way):
    record = st.tuples(st.just("record"), some_records(may_ask, is_one_way), SPELLINGS, SPELLINGS)
    quiet = st.tuples(st.just("quiet"), st.sampled_from(QUIET), st.just(0), SPELLINGS)
    answer = st.tuples(st.just("answer"), st.sampled_from(ANSWERS), st.just(0), SPELLINGS)
    parts = [record, quiet, record] + [answer, answer] * may_ask
    return st.tuples(st.lists(st.one_of(*parts), min_size=1, max_size=5), ENDS)


FILES = several(st.one_of(*(some_files(asks, one_way) for asks in (False, True) for one_way in (False, True))), 48)


# The programs.


def undone(record):
    return record[0] != "remove-path" and not (record[0] == "unsetenv" and record[2] is None)


class Programs:
    def __init__(self, modcheck, modulecmd, top):
        self.modcheck = modcheck
        self.modulecmd = modulecmd
        self.top = top

    def run(self, program, words, env, given=""):
        env = {name.encode(): value.encode() for name, value in env.items()}
        done = subprocess.run(
            [program, *words], env=env, input=given.encode(), capture_output=True, timeout=SECONDS, check=False
        )
        return done.stdout.decode(), done.stderr.decode(), done.returncode

    def changes(self, shell, words, env):
        """The changes that an accepted command prints, or none where it is refused."""
        out, err, status = self.run(self.modulecmd, [shell, *words], env)
        if status != 0:
            if out or not err.startswith("ERROR: "):
                raise Wrong(f"{words} in {shell} ended with {status}, {out!r}, {err!r}")
            return None
        return printed(FAMILIES[shell], out)

    def judged(self, files, env):
        """The verdict on each file, or the reason why there is none."""
        given = "".join(f"load {name}\n" for name in ("base", *(file.name for file in files)))
        _, err, status = self.run(self.modcheck, ["sh"], env, given)
        lines = err.splitlines()
        accepted = [f"{number} accepted" for number in range(1, len(files) + 2)]
        if lines[: len(accepted)] != accepted or status != 0:
            wrong = [line for line in lines[: len(accepted)] if line not in accepted]
            raise Wrong(f"requests aren't accepted: {wrong[:5]}, status {status}")
        return dict(line.split(": ", 1) for line in lines[len(accepted) :])


def printed(family, text):
    changes, at = {}, 0
    while at < len(text):
        found = LINES[family].match(text, at)
        if not found:
            raise Wrong(f"no line for {family} at {text[at:][:200]!r}")
        value = found[2]
        if value is not None and family == "fish":
            value = re.sub(r"\\(.)", r"\1", value, flags=re.DOTALL)
        elif value is not None:
            value = value.replace("'\\''", "'").replace("'\\!'", "!")
        name = found[1] or found[3]
        if name in changes:
            raise Wrong(f"{name} is printed twice")
        changes[name] = value
        at = found.end()
    return changes


def after(env, changes):
    made = dict(env)
    for name, value in changes.items():
        model.put(made, name, value)
    return made


def difference(old, new):
    return {name: new.get(name) for name in old.keys() | new.keys() if old.get(name) != new.get(name)}


# Files that asked nothing.

WORD = st.sampled_from(sentence.WORDS[:11])
MAYBE = st.sampled_from([*[None] * 6, *sentence.WORDS[:11]])
ODD_SHARES = ["", "::", "x:2", "/opt/b:02:/opt/b:3", "\\", ":5"]
OUTSIDE = {"HOME": "/home/x y", "NOPE": "there", "OTHER": "it's", "LANG": "C.UTF-8"}
STACKS = st.lists(st.tuples(st.integers(0, 30), WORD), max_size=3, unique_by=operator.itemgetter(0))
NO_STACK = st.sampled_from([*[False] * 49, True])


def path_held(name, held, spelling):
    """A path of these elements, or none, with counters of any kind."""
    if held is None:
        return {}
    env = {name: WAYS[name][1].join(held)}
    way = spelling.choose(["none"] * 7 + ["counted"] * 6 + ["odd"] * 2)
    if way == "counted":
        counts = [(one, spelling.choose([None, 1, 2, 3, 7])) for one in held]
        env[model.SHARE + name] = ":".join(f"{model.escaped(one)}:{count}" for one, count in counts if count)
    elif way == "odd":
        full = f"{model.escaped(held[0])}:{model.MOST}" if held else ""
        env[model.SHARE + name] = spelling.choose([*ODD_SHARES, full])
    return env


class Context:
    """An environment, a shell and a mode for files, with the name that is typed for each. Nothing says that the
    environment is in order."""

    def __init__(self, shell, is_unload, env, stacks, numbers):
        self.shell, self.is_unload, self.env, self.stacks, self.numbers = shell, is_unload, env, stacks, numbers

    def __repr__(self):
        return f"Context{(self.shell, self.is_unload, self.env, self.stacks, self.numbers)}"

    def over(self, files, top):
        """This context of files: base/1 is loaded, for an unload the files too, in another order."""
        others, turn, typed = self.numbers
        env = dict(self.env, MODULEPATH=top)
        owners = ["old/1", *(file.name for file in files)]
        for name, (pushed, has_bottom) in self.stacks.items():
            items = {owners[at % len(owners)]: value for at, value in pushed}
            model.write_stack(env, name, [*items.items(), *[(None, "below")] * has_bottom] if items else [])
        entries = [("base/1", f"{top}/base/1", [], [])]
        entries += [(name, f"/o/{name}", [], []) for at, name in enumerate(("other/1", "old/1")) if others >> at & 1]
        if self.is_unload:
            entries += [model.entry_of((file.name, file.path, file.records)) for file in files]
        turn %= len(entries)
        model.write_loaded(env, entries[turn:] + entries[:turn])
        names = {file.name: [file.name, file.folder][typed >> at % 24 & 1] for at, file in enumerate(files)}
        return Evaluation(self, env, names)


@st.composite
def contexts(draw):
    env = {}
    there = draw(st.integers(0, 15))
    env.update((name, value) for at, (name, value) in enumerate(OUTSIDE.items()) if there >> at & 1)
    stacks = {}
    for name, way in WAYS.items():
        if way[0] == "path":
            env.update(path_held(name, draw(PATHS[way[1]]), Spelling(draw(SPELLINGS))))
            continue
        value = draw(MAYBE)
        if value is not None:
            env[name] = value
        if way[0] == "stack":
            stacks[name] = (draw(STACKS), draw(st.booleans()))
            env.update({model.STACK + name: "no stack"} if draw(NO_STACK) else {})
    numbers = (draw(st.integers(0, 3)), draw(st.integers(0, 30)), draw(SPELLINGS))
    return Context(draw(st.sampled_from(sorted(FAMILIES))), draw(st.booleans()), env, stacks, numbers)


PATHS = {delim: st.sampled_from([None, [], *model.elements(delim, sentence.ELEMENTS)]) for delim in (":", ";")}


@st.composite
def batches(draw):
    """Files, and the places where they are evaluated. (Hypothesis writes out what is given to a property each time, so that
    no long strategy may be.)"""
    return draw(FILES), draw(several(contexts(), 40))


def wanted(env, files, is_unload):
    """The environment after these files were loaded or unloaded by their records."""
    made = dict(env)
    for file in files:
        for record in file.records:
            (model.unload_record if is_unload else model.load_record)(made, file.name, record)
        entries = model.loaded_in(made)
        if is_unload:
            model.write_loaded(made, [entry for entry in entries if entry[0] != file.name])
        else:
            model.write_loaded(made, [*entries, model.entry_of((file.name, file.path, file.records))])
    return made


class Evaluation:
    """A load or an unload of files in an environment."""

    def __init__(self, context, env, typed):
        self.shell, self.is_unload, self.env, self.typed = context.shell, context.is_unload, env, typed

    def refused(self, programs, files):
        """How many of the files are refused here. The others leave their records."""
        words = ["unload" if self.is_unload else "load", *(self.typed[file.name] for file in files)]
        found = programs.changes(self.shell, words, self.env)
        if found is None and len(files) > 1:
            return sum(self.refused(programs, [file]) for file in files)
        try:
            made = difference(self.env, wanted(self.env, files, self.is_unload))
        except model.Refused as refused:
            if found is None:
                return 1
            raise Wrong(f"{words} in {self.shell}, by the model {refused}: found {found}") from refused
        if found != made:
            text = files[0].text if len(files) == 1 else ""
            if len(files) > 1:
                for file in files:
                    self.refused(programs, [file])
            raise Wrong(f"{words} in {self.shell} from {self.env}: found {found}, wanted {made}; {text}")
        return 0


def show_what_stays(programs, files):
    """Each file shows a record that can't be undone."""
    words = ["sh", "show", *(file.name for file in files)]
    out, err, status = programs.run(programs.modulecmd, words, {"MODULEPATH": programs.top})
    if (out, status) != ("", 0):
        raise Wrong(f"{words} ended with {status}, {out!r}, {err!r}")
    for file in files:
        lines = err.split(f"{file.path}:\n")[1].split(f"{programs.top}/")[0].splitlines()
        if not any(re.fullmatch(r"unsetenv \w+|remove-path .*", line) for line in lines):
            raise Wrong(f"{file.name} is one way, and shows only {lines}")


# Files that asked.


# For each kind of question another environment, shell, typed name or mode than that where files are judged.
ELSEWHERE = {
    "a variable": {"env": {"HOME": "/other"}},
    "whether a variable is set": {"env": {"HOME": None}},
    "a variable that isn't set": {"env": {"NOPE": "there"}},
    "whether a module is loaded": {"env": {"LOADEDMODULES": "other/1", "_LMFILES_": "/o/other/1"}},
    "whether any module is loaded": {"env": {"LOADEDMODULES": "other/1", "_LMFILES_": "/o/other/1"}},
    "the mode": {"mode": "unload"},
    "what it has set": {"mode": "unload"},
    "the typed name": {"typed": "folder"},
    "the shell": {"shell": "csh"},
}


def judging_environment(top):
    return {"MODULEPATH": top, "HOME": "/home/u"}


def same_answers(programs, kind, files):
    """The files whose answers to a kind of question are those of where they are judged, in another place too."""
    here, there = judging_environment(programs.top), ELSEWHERE[kind]
    names = [file.name for file in files]
    first = programs.changes("sh", ["load", *names], here)
    if first is None:
        raise Wrong(f"a load of {names} is refused where it was judged")
    if "mode" in there:
        undone_by = programs.changes("sh", ["unload", *names], after(here, first))
        second = None if undone_by is None else after(here, {**first, **undone_by})
        is_same = second is not None and (lambda own: own not in second)
    else:
        typed = [file.folder if "typed" in there else file.name for file in files]
        second = programs.changes(there.get("shell", "sh"), ["load", *typed], after(here, there.get("env", {})))
        is_same = second is not None and (lambda own: first.get(own) == second.get(own))
    if not is_same:
        return [] if len(files) == 1 else [one for file in files for one in same_answers(programs, kind, [file])]
    return [file for file in files if any(ask[0] == kind and is_same(ask[1]) for ask in file.asks)]


def differ_elsewhere(programs, files):
    """Each file, for each kind of question that it asks. Gives how many kinds were tried."""
    count = 0
    for kind in ELSEWHERE:
        asking = [file for file in files if any(ask[0] == kind for ask in file.asks)]
        for some in [[file] for file in asking] if kind in ALONE else [asking] if asking else []:
            for file in same_answers(programs, kind, some):
                raise Wrong(f"{file.name} asks for {kind}, and leaves the same elsewhere: {file.text}")
        count += len(asking)
    return count


# All of it.


def judge(programs, files):
    """Each verdict is the one that the file's making tells."""
    found = programs.judged(files, judging_environment(programs.top))
    for file in files:
        if found.get(file.name) != file.verdict():
            raise Wrong(f"{file.name} is judged {found.get(file.name)}, and not {file.verdict()}: {file.text}")


def written(drawn, top):
    """Modulefiles in an empty folder, with one that others need."""
    shutil.rmtree(top, ignore_errors=True)
    os.makedirs(f"{top}/base")
    with open(f"{top}/base/1", "w", encoding="utf-8") as file:
        file.write("#%Module\n")
    files = [File(number, one, top) for number, one in enumerate(drawn)]
    for file in files:
        file.write()
    return files


def tried(programs, files, places):
    """Judges files, and evaluates them in these places. Gives how many there were of each kind."""
    judge(programs, files)
    told = collections.Counter(file.verdict() for file in files)
    by_verdict = {verdict: [file for file in files if file.verdict() == verdict] for verdict in ("Plain", "Asked", "OneWay")}
    if by_verdict["OneWay"]:
        show_what_stays(programs, by_verdict["OneWay"])
    told["questions"] = differ_elsewhere(programs, by_verdict["Asked"])
    quiet = by_verdict["Plain"] + by_verdict["OneWay"]
    for place in places if quiet else ():
        told["refused"] += place.over(quiet, programs.top).refused(programs, quiet)
        told["evaluated"] += len(quiet)
    return told


def test_plain_files_leave_the_same_everywhere(built, tmp_path, judge_rows, note):
    programs = Programs(built("modcheck"), built("modulecmd"), str(tmp_path / "top"))
    told = collections.Counter()

    @examples(100)
    @given(batches())
    def law(batch):
        drawn, places = batch
        told.update(tried(programs, written(drawn, programs.top), places))

    law()
    note(", ".join(f"{count} {kind}" for kind, count in told.items()))
    verdicts = [told[verdict] for verdict in ("Plain", "Asked", "OneWay")]
    true(min(verdicts) >= sum(verdicts) * LEAST_JUDGED, "there are files of each verdict")
    true(told["refused"] <= told["evaluated"] * MOST_REFUSED, "most evaluations are accepted")
    judge_rows(sum(verdicts), [])
