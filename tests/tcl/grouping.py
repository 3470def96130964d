"""Expressions of Tcl with parentheses around each operator and its operands, by given levels of operators."""

import re

# The levels from the one that binds most, as expr(n) lists them: those above and below the six operators of equality.
ABOVE = (("*", "/", "%"), ("+", "-"), ("<<", ">>"), ("<", ">", "<=", ">="))
BELOW = (("&",), ("^",), ("|",), ("&&",), ("||",))
EQUALITY = (("==", "!="), ("eq", "ne"), ("in", "ni"))

# Those of the profile are as in expr(n); tclsh 8.6 has all six on one.
PROFILE = (*ABOVE, *EQUALITY, *BELOW)
TCLSH = (*ABOVE, sum(EQUALITY, ()), *BELOW)

BLANK = re.compile(r"([ \t\n]|\\\n)+")
TOKEN = re.compile(
    r"0[xX][0-9a-fA-F]+|([0-9]+\.?[0-9]*|\.[0-9]+)([eE][+-]?[0-9]+)?|[a-z]+|\{[^{}]*\}|[<>=!]=|<<|>>|&&|\|\||[-+~!*/%<>&^|?:()]"
)


class Unknown(Exception):
    """A text that isn't one of the expressions that are read here."""


def tokens(text):
    """The operands, operators and parentheses of a text."""
    found, at = [], 0
    while at < len(text):
        token = BLANK.match(text, at) or TOKEN.match(text, at)
        if token is None:
            raise Unknown(text)
        if token.re is TOKEN:
            found.append(token[0])
        at = token.end()
    return found


class Reader:
    """Reads the tokens of an expression, from the first to the last."""

    def __init__(self, text, levels):
        self.left = tokens(text)[::-1]
        self.levels = levels

    def next(self):
        return self.left[-1] if self.left else ""

    def take(self, token=None):
        if not self.left or token not in (None, self.left[-1]):
            raise Unknown(self.left)
        return self.left.pop()

    def operand(self):
        token = self.take()
        if token in ("-", "+", "~", "!"):
            return f"({token}{self.operand()})"
        if token == "(":
            inside = self.choice()
            self.take(")")
            return inside
        return token

    def binary(self, level):
        """Operators of this level and of those that bind more, from left to right."""
        if level < 0:
            return self.operand()
        text = self.binary(level - 1)
        while self.next() in self.levels[level]:
            text = f"({text} {self.take()} {self.binary(level - 1)})"
        return text

    def choice(self):
        condition = self.binary(len(self.levels) - 1)
        if self.next() != "?":
            return condition
        self.take("?")
        yes = self.choice()
        self.take(":")
        return f"({condition} ? {yes} : {self.choice()})"


def grouped(text, levels):
    """The expression with all its parentheses, None where it isn't one of those that are read here."""
    try:
        reader = Reader(text, levels)
        whole = reader.choice()
    except Unknown:
        return None
    return None if reader.left else whole
