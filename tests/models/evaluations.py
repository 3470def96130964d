"""The ways in which a modulefile is evaluated, what it asks of them, and what an evaluation leaves."""

import itertools
import typing

from tests.shells.shells import FAMILIES


class Way(typing.NamedTuple):
    """For what a file is evaluated, whether it is a half of a switch, for which shell, and with which modules loaded."""

    mode: str = "load"
    in_switch: bool = False
    shell: str = "sh"
    loaded: tuple = ()


FIRST = Way()

# For what a file is evaluated, as a half of a switch or not.
MODES = (("load", False), ("load", True), ("unload", False), ("unload", True))


class Question(typing.NamedTuple):
    """What a file asks for: a variable, with its value; the mode or the shell; whether one of some names, which are words
    here, means a loaded module; or whether any is loaded, or what was typed."""

    of: str
    name: str = ""
    value: str | None = None


VARIABLE, MODE, SHELL, LOADED, OTHER = "variable", "mode", "shell", "loaded", "other"

# The most evaluations of a file that asks what is loaded.
MOST = 8


class Ran(typing.NamedTuple):
    """What an evaluation leaves: its records, its questions and what it says; or why it is refused."""

    records: list
    asked: list
    said: list
    fault: str | None = None


def asked_for(asked):
    """What of its way was asked for: the mode, the shell, both or nothing, and the questions of what is loaded."""
    return {question.of for question in asked} & {MODE, SHELL} | {(LOADED, words) for words in loaded_questions(asked)}


def loaded_questions(asked):
    """The questions of what is loaded, by their words, each once."""
    return list(dict.fromkeys(question.name for question in asked if question.of == LOADED))


def means_one(words, loaded):
    """Whether one of these names means a module of the list."""
    return any(f"{module}/".startswith(f"{name}/") for name in words.split() for module in loaded)


def ways_of(asked):
    """The ways that these questions can tell apart, with nothing loaded."""
    modes = MODES if MODE in asked_for(asked) else MODES[:1]
    shells = FAMILIES if SHELL in asked_for(asked) else ["sh"]
    return [Way(*mode, shell) for shell, mode in itertools.product(shells, modes)]


def are_few(asked):
    """No more questions of what is loaded than can be answered by yes and no in eight evaluations."""
    questions = loaded_questions(asked)
    return not questions or len(ways_of(asked)) * 2 ** len(questions) <= MOST


def lists_of(questions):
    """What is loaded so that these questions are answered by each choice of yes and no: all that they name but what a
    name means whose answer is no."""
    names = [name for words in questions for name in words.split()]
    denied = [
        [words for words, yes in zip(questions, answers) if not yes]
        for answers in itertools.product([False, True], repeat=len(questions))
    ]
    return [tuple(name for name in names if not means_one(" ".join(words), [name])) for words in denied]


def other_contexts(asked):
    """The ways that these questions can tell apart, but for the first."""
    lists = lists_of(loaded_questions(asked)) if are_few(asked) else [()]
    every = dict.fromkeys(way._replace(loaded=loaded) for loaded in lists for way in ways_of(asked))
    return [way for way in every if way != FIRST]


class Condition(typing.NamedTuple):
    """A condition of a modulefile: how it is written, what of the way it asks for, in which ways it holds, and the names
    that it asks for."""

    text: str
    of: str
    holds: typing.Callable
    names: str = ""


def beside(names):
    """The condition that one of these names means a loaded module."""
    return Condition(f"[is-loaded {names}]", LOADED, lambda way: means_one(names, way.loaded), names)


CONDITIONS = {
    "loads": Condition("[module-info mode load]", MODE, lambda way: way.mode == "load"),
    "unloads": Condition("[module-info mode] eq {unload}", MODE, lambda way: way.mode == "unload"),
    "removes": Condition("[module-info mode remove]", MODE, lambda way: way.mode == "unload"),
    "switches": Condition("[module-info mode switch]", MODE, lambda way: way.in_switch),
    "in sh": Condition("[module-info shelltype sh]", SHELL, lambda way: FAMILIES[way.shell] == "sh"),
    "in csh": Condition("[module-info shelltype] eq {csh}", SHELL, lambda way: FAMILIES[way.shell] == "csh"),
    "in zsh": Condition("[module-info shell zsh]", SHELL, lambda way: way.shell == "zsh"),
    "in fish": Condition("[module-info shell] eq {fish}", SHELL, lambda way: way.shell == "fish"),
    "beside w_1": beside("w_1"),
    "beside m": beside("m"),
    "beside m/1 or n": beside("m/1 n"),
    "without k": Condition("![is-loaded k]", LOADED, lambda way: not means_one("k", way.loaded), "k"),
}


class Answer(typing.NamedTuple):
    """An answer that stands in a value: how it is asked for, what of the way that is, what it is, and the names that it
    asks for."""

    text: str
    of: str
    says: typing.Callable
    names: str = ""


ANSWERS = {
    "mode": Answer("[module-info mode]", MODE, lambda way: way.mode),
    "shell": Answer("[module-info shell]", SHELL, lambda way: way.shell),
    "type": Answer("[module-info shelltype]", SHELL, lambda way: FAMILIES[way.shell]),
    "loaded": Answer("[is-loaded m k/9]", LOADED, lambda way: str(int(means_one("m k/9", way.loaded))), "m k/9"),
}
