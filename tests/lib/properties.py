"""What suites of random examples share: how many examples a property has, and strategies that hypothesis shrinks well.

An example is made of few draws, since each costs more than a number of `random`: how a command of a modulefile is spelled
is one number, whose digits choose.
"""

import itertools

from hypothesis import settings
from hypothesis import strategies as st

# How many examples each property has where `--examples` says so (conftest.py).
CHOSEN = None

# The numbers that a spelling is taken from. Hypothesis draws longer ones mostly small.
SPELLINGS = st.integers(0, 2**24 - 1)


def examples(count):
    """Has a property tried over so many examples."""
    return settings(max_examples=CHOSEN or count)


def several(items, most):
    """A list of up to so many items, a multiple of 4, and half of them on average: of hypothesis' own lists five."""
    return st.tuples(*[st.lists(items, max_size=4)] * (most // 4)).map(joined)


def joined(parts):
    return list(itertools.chain(*parts))


class Spelling:
    """Chooses among ways to write the same: the first one, the plainest, where nothing is left of its number."""

    def __init__(self, number):
        self.number = number

    def choose(self, ways):
        self.number, at = divmod(self.number, len(ways))
        return ways[at]
