"""Compares the expected answers of the rows `command` of crates/cases_tcl with those of the real tclsh.

Where the profile differs from Tcl 8.6 the answer stands here, with its rule."""

import os
import subprocess

from tests.lib.harness import SECONDS, same
from tests.tcl.answers import HERE, tclsh

CRATE = os.path.join(HERE, "..", "..", "crates", "cases_tcl")
LIMIT = 64

DIFFERENCES = {
    # append and lappend alone make an absent variable empty, and lappend writes the old list anew
    "append c": "ok ",
    "lappend n": "ok a b",
    # an element that begins with # stands in braces wherever it stands
    "lappend l a {b c} {} #x": "ok a {b c} {} {#x}",
    "lappend l #": "ok a {b c} {} {#x} {#}",
    'value {"$l" eq {a {b c} {} {#x} {#}}}': "ok 1",
    # messages of our own
    "lappend q x": "raised not a list",
    "incr i x": 'raised expected whole number but got "x"',
    "incr i 1 2": 'raised wrong # args for "incr"',
    "incr s": 'raised expected whole number but got "abc"',
    "incr s x": 'raised expected whole number but got "abc"',
    "set env": 'raised can\'t read "env": it is an array',
    "proc p {{a b c}} {}": "raised not a list",
    # numbers have 64 bits, and no fraction
    "incr big": "halted: number too large",
    "set big": "ok 9223372036854775807",
    "incr big -1": "ok 9223372036854775806",
    "incr f": "halted: fraction",
    # env is read alone, and no other arrays and namespaces are there
    "set env(HOME) x": "halted: left out env",
    "unset env(HOME)": "halted: left out env",
    "append env(HOME) x": "halted: left out env",
    "global env(HOME)": "halted: left out env",
    "info exists a(1)": "halted: left out array",
    "set a(1) 2": "halted: left out array",
    "set a::b 1": "halted: left out namespace",
    # the names of commands are kept
    "proc set {} {}": 'raised can\'t redefine "set"',
    "proc setenv {} {}": 'raised can\'t redefine "setenv"',
    "proc exec {} {}": 'raised can\'t redefine "exec"',
    # puts writes to stderr alone
    "puts hello": "halted: left out puts",
    "puts stdout hello": "halted: left out puts",
    # the host of the rows refuses it
    "conflict a": "halted: refused by 51",
    # a value that is too long was not written
    "info exists longer": "ok 0",
}

# Commands that the real tclsh is spared, since they would take its own away.
SPARED = ("proc set {} {}", "proc setenv {} {}", "proc exec {} {}")


def lines(name):
    with open(os.path.join(CRATE, name), encoding="utf-8") as file:
        return file.read().split("\n")[:-1]


def rows_of(kind):
    """The rows of a kind, without it, and the answers that are expected."""
    questions, answers = lines("stdin"), lines("stdout")
    found = [(q.removeprefix(kind), a) for q, a in zip(questions, answers, strict=True) if q.startswith(kind)]
    return [q for q, _ in found], [a for _, a in found]


def by_the_profile(row, answer):
    if row in DIFFERENCES:
        return DIFFERENCES[row]
    if answer.startswith("ok ") and len(answer) - len("ok ") > LIMIT:
        return "halted: value too long"
    return answer


def test_the_rows_of_commands(tmp_path, judge_rows, note):
    rows, expected = rows_of("command ")
    asked = tmp_path / "rows.tcl"
    asked.write_text("".join(("" if row in SPARED else row) + "\n" for row in rows), encoding="utf-8")
    words = [*tclsh("commands.tcl"), asked]
    done = subprocess.run(words, capture_output=True, encoding="utf-8", check=True, timeout=SECONDS)
    answers = done.stdout.split("\n")[:-1]
    same(len(answers), len(rows), "the number of answers of tclsh")
    wrong = []
    for row, answer, told in zip(rows, answers, expected):
        meant = by_the_profile(row, answer)
        if meant != told:
            wrong.append(f"{row}: tclsh {answer!r}, so {meant!r}, but expected is {told!r}")
    note(f"{len(DIFFERENCES)} differ by the profile's own rules")
    judge_rows(len(rows), wrong)
