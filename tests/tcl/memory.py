"""What calls of tcltext, tclvalue and tcleval do where memory is refused: what they do with ample memory, or want of memory alone."""

import subprocess

import pytest

from tests.lib.harness import SECONDS, refuses_each, true
from tests.tcl.answers import word

SCRIPT = 'setenv A {b c} "d\\n$e(f) [g h]"\n# i\nj {*}$k \\x41\n'

# A call, its words, and the answer of a program that has ample memory, of which this is the beginning.
CALLS = (
    ("text script", (SCRIPT,), "ok "),
    ("text script", ("a {b",), "fault 2"),
    ("text list", ('a {b c} "d e" f\\ g',), "ok "),
    ("text list", ("a {b",), "fault 2"),
    ("value b", ("+", "1", "2"), "ok "),
    ("value b", ("in", "b", "a b c"), "ok "),
    ("value u", ("-", "7"), "ok "),
    ("value t", ("yes",), "ok "),
    ("value c 1048576", ("list", "a", "b c", ""), "ok "),
    ("value c 1048576", ("llength", "a {b c}"), "ok "),
    ("value c 1048576", ("lindex", "a {b c} d", "end-1"), "ok "),
    ("value c 1048576", ("lrange", "a b c d", "1", "end"), "ok "),
    ("value c 1048576", ("split", "a:b", ":"), "ok "),
    ("value c 1048576", ("join", "a {b c}", "-"), "ok "),
    ("value c 1048576", ("concat", " a ", "b"), "ok "),
    ("value c 1048576", ("string", "length", "é€"), "ok "),
    ("value c 1048576", ("string", "range", "abc", "1", "end"), "ok "),
    ("value c 1048576", ("string", "map", "a b b c", "abba"), "ok "),
    ("value c 1048576", ("string", "repeat", "ab", "3"), "ok "),
    ("value c 1048576", ("string", "match", "*.[ch]", "x.c"), "ok "),
    ("value c 1048576", ("string", "trim", " a "), "ok "),
    ("value c 1048576", ("string", "first", "ss", "mississippi"), "ok "),
    ("value c 10", ("string", "repeat", "ab", "1000000000"), "err 16 "),
)

# A script, and its answer.
SCRIPTS = (
    ("list a {} {b c}", "memory: ok "),
    ("set i 0; set s {}; while {$i < 3} {incr i; append s $i-[string length $s]}; set s", "memory: ok "),
    ("foreach {x y} {1 2 3} {lappend l $x $y}; unset x; info exists x", "memory: ok "),
    ("proc f {a {b 2} args} {global g; set g $a; return $a$b$args}; f 1 {2 3} 4", "memory: ok "),
    ("switch -glob abc {x - a* {catch {expr {1 / 0}} m} default {}}; set m $env(HOME)", "memory: ok "),
    ("for {set i 0} {$i < 2} {incr i} {if {$i} {continue} else {catch break}}; mode", "memory: ok "),
    ("catch {nocommand} m; error $m", "memory: err 13 "),
    ("string repeat p 2000000", "memory: err 16 "),
)

# What a program says where memory is refused: nothing, that there is no answer, or the fault of want of memory.
REFUSED = (
    "",
    "no answer\n",
    "fault 1\n",
    "err 11 Out of memory\n",
    "memory: err 11 0 Out of memory\n",
    "memory: err 11 0 Out of memory\tasked\n",
)


@pytest.fixture
def answers_or_refuses(built, shim):
    """Judges a line: the program answers as with ample memory, where the answer begins so, or has no memory."""

    def judge(line, begins):
        def run(asked):
            options = {"env": asked, "capture_output": True, "encoding": "utf-8", "timeout": SECONDS, "check": False}
            return subprocess.run([built("cases_tcl")], input=f"{line}\n", **options).stdout

        ample = run({})
        true(ample.startswith(begins), f"{line} with ample memory: {ample!r}")
        refuses_each(shim("failing_malloc"), run, REFUSED.__contains__, line)

    return judge


@pytest.mark.parametrize("call, words, begins", [pytest.param(*it, id=" ".join([it[0], *it[1]])) for it in CALLS])
def test_a_call_with_too_little_memory(call, words, begins, answers_or_refuses):
    answers_or_refuses(f"{call} {' '.join(map(word, words))}", begins)


@pytest.mark.parametrize("script, begins", SCRIPTS, ids=[script for script, _ in SCRIPTS])
def test_a_script_with_too_little_memory(script, begins, answers_or_refuses):
    answers_or_refuses(f"script memory env.HOME=/h: {script}", begins)
