"""Compares the calls of tcltext with a real tclsh over generated texts.

The program `cases_tcl` and answers.tcl read the same calls from standard input, a line each, and write an answer a line; the
first reads the word `text` before each. Two rules of the profile (the pages of the crates of Tcl) mean other answers, and
those are counted by rule."""

import collections
import functools
import random
import re

import pytest

from tests.tcl.answers import ask, in_words, meant, tclsh, word
from tests.tcl.grouping import PROFILE, TCLSH, grouped

SEED = 20261122
CALLS = 10000


def made(draw, alphabet, longest):
    return "".join(draw.choice(alphabet) for _ in range(draw.randint(0, longest)))


LIST = list("aab {}{}\"\\ \n\t\r\v\f") + ["\\x41", "\\x4", "\\u00e9", "\\101", "\\400", "\\n", "é", "]", "$", ";", "#", "\\\n "]
PATTERN = list("**??ab[]-\\") + ["[ab]", "[a-c]", "[c-a]", "[b-]", "é", "*a", "b*", "[^"]
PATTERN_TEXT = list("aabb]-^\\é")
SCRIPT = list("aab {}]\"\\ \n\r\v\f;#") + ["\\x41", "\\x4", "\\400", "\\u00e9", "\\n", "{a b}", "\"a b\"", "\\\n ", "é"]

OPERAND = ["0", "1", "2", "7", "0x1F", "010", "1.5", "2e1", ".5", "{3}", "true", "no"]
OPERATOR = ["+", "-", "*", "/", "%", "<<", ">>", "<", ">", "<=", ">=", "==", "!=", " eq ", " ne ", " in ", " ni ", "&", "^", "|", "&&", "||"]
NOISE = ["(", ")", "?", ":", " ", "\t", "\\\n", "**", "1 1", "a(", "~", "!", "-", "+"]
ELEMENT = list("aab {}[]$\"\\ \n\t;#") + ["é", "{a}", "{*}"]


def list_call(draw):
    return "list " + word(made(draw, LIST, 12))


def glob_call(draw):
    return f"glob {word(made(draw, PATTERN, 6))} {word(made(draw, PATTERN_TEXT, 6))}"


def script_call(draw):
    return "script " + word(made(draw, SCRIPT, 14))


def expression(draw, depth):
    form = draw.randint(0, 9) if depth else 0
    if form < 4:
        return draw.choice(OPERAND)
    if form < 5:
        return draw.choice("-+~!") + expression(draw, depth - 1)
    if form < 6:
        return "(" + expression(draw, depth - 1) + ")"
    if form < 7:
        return expression(draw, depth - 1) + "?" + expression(draw, depth - 1) + ":" + expression(draw, depth - 1)
    return expression(draw, depth - 1) + draw.choice(OPERATOR) + expression(draw, depth - 1)


def expr_call(draw):
    text = expression(draw, 4)
    if draw.random() < 0.3:
        at = draw.randint(0, len(text))
        text = text[:at] + draw.choice(NOISE) + text[at:]
    return "expr " + word(text)


def write_call(draw):
    return " ".join(["write"] + [word(made(draw, ELEMENT, 6)) for _ in range(draw.randint(1, 4))])


GENERATORS = {"list": list_call, "glob": glob_call, "script": script_call, "expr": expr_call, "write": write_call}

# The rules of the profile by which an answer differs from tclsh's.
NO_POWER = "`**` is left out"
LEVELS = "`== !=`, `eq ne` and `in ni` have three levels"


def text_in(call):
    return meant(call.split()[1])


def is_power(call, ours):
    return call.startswith("expr ") and ours == "fault 8" and "**" in text_in(call)


# What tclsh says of the texts of each kind of fault, by the verb of the call.
FAULTS = {
    "script": {
        "2": ("missing close-brace",),
        "3": ('missing "',),
        "4": ("missing close-bracket",),
        "5": ("extra characters after close-",),
    },
    "list": {
        "2": ("unmatched open brace in list",),
        "3": ("unmatched open quote in list",),
        "5": ("list element in braces followed by ", "list element in quotes followed by "),
    },
    "expr": {
        "8": (
            "empty subexpression",
            "incomplete operator",
            "invalid bareword",
            "invalid character",
            "missing operand",
            "missing operator",
            "unbalanced",
            "unexpected operator",
        )
    },
}


def agree(call, ours, theirs):
    """The answers mean the same: equal, or both an error, of one kind."""
    if ours == theirs:
        return True
    if not (ours.startswith("fault ") and theirs.startswith("error ")):
        return False
    messages = FAULTS.get(call.split()[0], {}).get(ours.split()[1], ())
    return text_in(theirs).startswith(messages)


def grouped_otherwise(call, answer):
    """How tclsh groups an expression that was read as the profile groups it, None where that is the same.

    `== !=`, `eq ne` and `in ni` have three levels in the profile, as expr(n) lists them, and one in tclsh."""
    if not call.startswith("expr "):
        return None
    ours, theirs = (grouped(text_in(call), levels) for levels in (PROFILE, TCLSH))
    return theirs if ours != theirs and answer == f"ok {word(ours)}" else None


def plain(call, answer):
    """The answer without what tclsh doesn't say: the places of commands and of faults."""
    if call.startswith("script "):
        answer = re.sub(r"(^ok |\t)[0-9]+:", r"\1", answer)
    return re.sub(r"^(fault [0-9]+) [0-9]+$", r"\1", answer)


def question(call, answer):
    """What tclsh is asked: of an expression that was read also how it was read, or how tclsh groups it where the profile
    means another; and of a list the elements."""
    if call.startswith("expr ") and answer.startswith("ok "):
        other = grouped_otherwise(call, answer)
        return f"{call} {answer[3:] if other is None else word(other)}"
    if call.startswith("write "):
        return "list " + answer[3:]
    return call


def wanted(call, answer):
    """What tclsh is to answer."""
    if call.startswith("expr ") and answer.startswith("ok "):
        return "same"
    if call.startswith("write "):
        return "ok " + "|".join(call.split()[1:])
    return answer


@functools.cache
def calls():
    """The calls of each kind."""
    draw = random.Random(SEED)
    return {kind: [generate(draw) for _ in range(CALLS)] for kind, generate in GENERATORS.items()}


@pytest.mark.parametrize("kind", GENERATORS)
def test_generated_texts(kind, built, judge_rows, note):
    asked = calls()[kind]
    told = map(in_words, ask([built("cases_tcl")], [f"text {call}" for call in asked]))
    ours = list(map(plain, asked, told))
    theirs = ask(tclsh("answers.tcl"), map(question, asked, ours))
    rules = collections.Counter(LEVELS for it in zip(asked, ours) if grouped_otherwise(*it))
    wrong = []
    for call, one, other in zip(asked, map(wanted, asked, ours), theirs):
        if agree(call, one, other):
            continue
        if is_power(call, one):
            rules[NO_POWER] += 1
        else:
            wrong.append(f"{call}: {one!r}, tclsh {other!r}")
    for rule, count in sorted(rules.items()):
        note(f"{count} differ by the profile: {rule}")
    judge_rows(len(asked), wrong)
