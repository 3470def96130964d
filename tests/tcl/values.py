"""Compares the operators and the commands of values with those of the real tclsh, over generated cases.

Where the profile differs from Tcl 8.6 the expected answer is made here, each difference with its rule."""

import random
import re

from tests.tcl.answers import ask, in_words, meant, tclsh, word

SEED, CASES = 20261122, 20000
SPACE = " \t\n\v\f\r"
LIMIT = 1048576
UNARY = ["-", "+", "~", "!"]
WHOLE_OPERATORS = ["*", "/", "%", "+", "-", "<<", ">>", "&", "^", "|"]
ORDERS = ["<", ">", "<=", ">=", "==", "!="]
TEXT_OPERATORS = ["eq", "ne"]
LIST_OPERATORS = ["in", "ni"]
OF_LISTS = "list llength lindex lindex lrange split join concat".split()
OF_STRINGS = "length index range equal compare match match first last map repeat trim trimleft trimright".split()


def numeral(text):
    """The class of a text as a number, by the rules of the profile: whole, too large, fraction or text."""
    stripped = text.strip(SPACE)
    sign, body = (stripped[0], stripped[1:]) if stripped[:1] in ("+", "-") else ("", stripped)
    for pattern, base, start in (
        (r"0[xX]([0-9a-fA-F]+)", 16, 2),
        (r"0[oO]([0-7]+)", 8, 2),
        (r"0[bB]([01]+)", 2, 2),
        (r"0([0-7]+)", 8, 1),
        (r"([0-9]|[1-9][0-9]+)", 10, 0),
    ):
        if re.fullmatch(pattern, body, re.ASCII):
            value = int(body[start:], base) * (-1 if sign == "-" else 1)
            return ("whole", value) if -(2**63) <= value < 2**63 else ("large", None)
    if re.fullmatch(r"([0-9]+\.[0-9]*|\.[0-9]+)([eE][+-]?[0-9]+)?|[0-9]+[eE][+-]?[0-9]+", body, re.ASCII):
        return "fraction", None
    if body.lower() in ("inf", "infinity", "nan") or re.fullmatch(r"0[0-9]*[89][0-9]*", body, re.ASCII):
        return "fraction", None
    return "text", None


def judged(operands, texts_serve):
    """The fault of the leftmost operand that has one: no big numbers and no floats are computed."""
    for operand in operands:
        kind = numeral(operand)[0]
        if kind == "large":
            return 17
        if kind == "fraction":
            return 18
        if kind == "text" and not texts_serve:
            return 13
    return None


def cut(answer):
    """A result outside 64 bits is refused."""
    value = int(answer)
    return ("ok", answer) if -(2**63) <= value < 2**63 else ("err", 17)


def escaped(element):
    """An element of a list, with a backslash before each character that may mean something there."""
    return re.sub(r"([^A-Za-z0-9é€])", r"\\\1", element) or "{}"


class Maker:
    """Makes cases."""

    def __init__(self, seed):
        self.random = random.Random(seed)

    def number(self):
        r = self.random
        kind = r.randrange(12)
        if kind < 5:
            return str(r.randint(-20, 20))
        if kind == 5:
            return str(r.choice([2**63 - 1, -(2**63), 2**63 - 2, 2**62, -(2**62), 2**31, 3037000500, -3037000500]))
        if kind == 6:
            return r.choice(["0x", "0X"]) + format(r.randrange(2**r.choice([4, 16, 63])), "x")
        if kind == 7:
            return r.choice(["0", "0o", "-0", "+0o"]) + format(r.randrange(1, 4096), "o")
        if kind == 8:
            return "0b" + format(r.randrange(256), "b")
        if kind == 9:
            return r.choice([" ", "\t", ""]) + str(r.randint(-300, 300)) + r.choice([" ", "\n", ""])
        if kind == 10:
            return r.choice(["+", "-", ""]) + str(r.randrange(10**18))
        return str(r.choice([2**63, -(2**63) - 1, 10**30, 2**64]))

    def text(self, most=8, letters=None):
        r = self.random
        letters = letters or r.choice(["ab", "abc*?", "aé€ z", "01 -+", "abAB", " \tab\n", "ab{}\\\"[]$;#"])
        return "".join(r.choice(letters) for _ in range(r.randrange(most + 1)))

    def word(self):
        r = self.random
        return r.choice(
            [self.number(), self.text(), self.text(), r.choice(["1.5", "1e3", ".5", "08", "inf", "nan", "-0.0"]),
             r.choice(["true", "No", "oN", "of", "yes", "f", "o", "tRue", "falsey"])]
        )

    def list(self):
        r = self.random
        elements = [self.text(5) for _ in range(r.randrange(6))]
        if r.randrange(8) == 0:
            return self.text(10, "ab {}\"\\")
        shown = []
        for element in elements:
            if re.fullmatch(r"[A-Za-z0-9é€*?+-]+", element):
                shown.append(element)
            elif element.count("{") == element.count("}") == 0 and "\\" not in element:
                shown.append("{" + element + "}")
            else:
                shown.append(escaped(element))
        return r.choice([" ", "  ", "\n", "\t "]).join(shown)

    def index(self):
        r = self.random
        return r.choice(
            [str(r.randint(-3, 9)), "end", f"end-{r.randint(-2, 6)}", str(r.randint(0, 5)), str(r.randint(0, 5)),
             r.choice(["x", "", "1.5", "99999999999999999999", "end-", "ende", "end-x", "-1", "0x2", "010"])]
        )

    def pattern(self):
        return self.text(8, self.random.choice(["ab*?", "ab*?[]-", "a[]b-c\\*", "ab"]))

    def case(self):
        r = self.random
        kind = r.randrange(10)
        if kind < 3:
            op = r.choice(WHOLE_OPERATORS + ORDERS + TEXT_OPERATORS)
            wholes = op in WHOLE_OPERATORS and r.randrange(6) > 0
            right = str(r.randint(-3, 90)) if op in ("<<", ">>") and r.randrange(4) else self.number() if wholes else self.word()
            if op in ("<<", ">>") and numeral(right)[0] == "whole" and numeral(right)[1] > 200:
                right = "64"
            return ("b", op, self.number() if wholes else self.word(), right)
        if kind == 3:
            return ("b", r.choice(LIST_OPERATORS), self.text(3), self.list())
        if kind == 4:
            return ("u", r.choice(UNARY), self.word())
        return ("c", *self.command())

    def command(self):
        name = self.random.choice(OF_LISTS + OF_STRINGS)
        return [name, *self.of_list(name)] if name in OF_LISTS else ["string", name, *self.of_string(name)]

    def some(self, *text):
        """A word of such a text, or none."""
        return [self.text(*text)] if self.random.randrange(2) else []

    def of_list(self, name):
        """The words behind the name of a command of lists."""
        r = self.random
        if name == "list":
            return [self.text() for _ in range(r.randrange(4))]
        if name == "concat":
            return [self.text(6, " ab\tc{}") for _ in range(r.randrange(4))]
        if name == "split":
            return [self.text(12), *self.some(3)]
        indexes = {"lindex": 1, "lrange": 2}.get(name, 0)
        return [self.list(), *(self.index() for _ in range(indexes)), *(self.some(3) if name == "join" else [])]

    def of_string(self, name):
        """The words behind the name of a command of strings."""
        r = self.random
        if name in ("length", "index", "range"):
            indexes = {"index": 1, "range": 2}.get(name, 0)
            return [self.text(12), *(self.index() for _ in range(indexes))]
        if name in ("equal", "compare"):
            a = self.text(5)
            return [a, a + self.text(2) if r.randrange(3) == 0 else self.text(5)]
        if name == "match":
            return [self.pattern(), self.text(8, r.choice(["ab", "abc-]", "ab*[\\"]))]
        if name in ("first", "last"):
            return [self.text(3, "ab"), self.text(12, "abé")]
        if name == "map":
            pairs = [self.text(2, "abé") if i % 2 == 0 else self.text(3) for i in range(r.randrange(7))]
            return [" ".join(map(escaped, pairs)), self.text(12, "abéc")]
        if name == "repeat":
            return [self.text(4), r.choice([str(r.randint(-2, 12)), "x", "1.5", "0x3"])]
        return [self.text(10, " \tab\n"), *self.some(3, "ab ")]


def expected(case, tcl, lists):
    """What the profile wants, where Tcl answered so, and reads these texts as lists: `("ok", TEXT)`, `("err", NUMBER)` or
    `("elements",)`."""
    failed, answer = tcl[0] == "err", meant(tcl[1])
    if case[0] == "b":
        return expected_binary(case[1:], failed, answer)
    if case[0] == "u":
        return expected_unary(case[1:], failed, answer)
    words = list(case[1:])
    number = index_fault(words, lists)
    if number:
        return ("err", number)
    if failed:
        return ("err", 13)
    if words[0] in ("list", "lrange", "split"):
        return ("elements",)
    return ("ok", answer)


def expected_binary(case, failed, answer):
    op, left, right = case
    if op in TEXT_OPERATORS or op in LIST_OPERATORS:
        return ("err", 13) if failed else ("ok", answer)
    fault = judged((left, right), op in ORDERS)
    if fault:
        return ("err", fault)
    if failed:
        return ("err", 13)
    return cut(answer) if op in WHOLE_OPERATORS else ("ok", answer)


def expected_unary(case, failed, answer):
    op, operand = case
    # `!` takes truth words, as in Tcl
    fault = judged((operand,), op == "!")
    if fault:
        return ("err", fault)
    if op == "!":
        # Tcl takes truth words with white space around; here they have none
        if numeral(operand)[0] == "text" and operand != operand.strip(SPACE):
            return ("err", 13)
        return ("err", 13) if failed else ("ok", answer)
    return ("err", 13) if failed else cut(answer)


def index_fault(words, lists):
    """17 and 18 of an index or a count, and bad indexes that Tcl knows: sums, fronts of end, and white space in front."""
    if words[0] in ("lindex", "lrange"):
        indexes = words[2:]
    elif words[0] == "string" and words[1] in ("index", "range"):
        indexes = words[3:]
    elif words[0] == "string" and words[1] == "repeat":
        kind = numeral(words[3])[0]
        return {"large": 17, "fraction": 18, "text": 13}.get(kind)
    else:
        return None
    if words[0] in ("lindex", "lrange") and words[1] not in lists:
        return 13
    for index in indexes:
        if index == "end":
            continue
        rest = index[4:] if index.startswith("end-") else index
        if index.startswith("end-") and rest[:1] in tuple(SPACE):
            return 13
        kind = numeral(rest)[0]
        if kind != "whole":
            return {"large": 17, "fraction": 18, "text": 13}[kind]
    return None


def question(case):
    limit = [str(LIMIT)] if case[0] == "c" else []
    return " ".join(["value", case[0], *limit, *map(word, case[1:])])


def elements(lists):
    """How tclsh reads these texts as lists: it says `list` and the elements."""
    return ask(tclsh("values.tcl"), [f"e {word(text)}" for text in lists])


def results(answers):
    """The texts of answers, empty where there is none."""
    return [meant(answer.split()[1]) if answer.startswith("ok") else "" for answer in answers]


def shown(answer):
    """An answer with its text as one reads it."""
    *kind, text = answer.split()
    return f"{' '.join(kind)} {meant(text)!r}" if kind else answer


def is_met(want, own, same_elements):
    """Whether the program's own answer, in parts, is the wanted one."""
    if want[0] == "err":
        return own[0] == "err" and int(own[1]) == want[1]
    return own[0] == "ok" and (same_elements if want[0] == "elements" else meant(own[1]) == want[1])


def test_generated_values(built, judge_rows):
    maker = Maker(SEED)
    cases = [maker.case() for _ in range(CASES)]
    ours = list(map(in_words, ask([built("cases_tcl")], map(question, cases))))
    theirs = ask(tclsh("values.tcl"), [" ".join([case[0], *map(word, case[1:])]) for case in cases])
    indexed = sorted({case[2] for case in cases if case[0] == "c" and case[1] in ("lindex", "lrange")})
    lists = {text for text, answer in zip(indexed, elements(indexed)) if answer.startswith("list")}
    wrong = []
    for case, own, tcl, one, other in zip(cases, ours, theirs, elements(results(ours)), elements(results(theirs))):
        want = expected(case, tcl.split(), lists)
        if not is_met(want, own.split(), one == other):
            wrong.append(f"{case}: {shown(own)}, wanted {want}, Tcl {shown(tcl)}")
    judge_rows(len(cases), wrong)
