"""Compares whole scripts with those of the real tclsh, over generated cases: results, messages of errors with their lines, final
variables, what the host was told, and how many commands and turns were counted.

A script is made twice: as the profile reads it, and as it is for Tcl, where a stub in front of each command and at the
beginning of each body of a loop counts, and what the profile does otherwise stands as what it does (DIFFERENCES). Messages
that are the profile's own are read out of Tcl's (TRANSLATED). What is left differs by one of two rules that no script
can foresee (`explained`), and is counted by it."""

import collections
import random
import re

import pytest

from tests.tcl.answers import ask, digits, meant, tclsh, text_of, word

SEED, SCRIPTS = 20261123, 30000
COMMANDS, DEPTH, BYTES = 100000, 200, 1048576

# How many scripts are evaluated under limits of their own.
LIMITED = 2000

ENVIRONMENT = (("HOME", "/home/p"), ("EMPTY", ""), ("N", "12"))


def halt(number, text):
    return "__halt %d {%s}" % (number, text)


def counted(*commands):
    """Commands that all begin."""
    return "; ".join("__count; " + c for c in commands)


def left_out(name):
    return halt(19, "'%s' is left out" % name)


# What the profile does otherwise than Tcl: the command, what stands for it in Tcl, and the rule.
DIFFERENCES = [
    ("set q [expr {9223372036854775807 + 1}]", halt(17, "A number is too large"), "a result lies within 64 bits"),
    ("set q [expr {1 << 63}]", halt(17, "A number is too large"), "a result lies within 64 bits"),
    ("set q [expr {-9223372036854775808 - 1}]", halt(17, "A number is too large"), "a result lies within 64 bits"),
    ("set q [expr {99999999999999999999 == 1}]", halt(17, "A number is too large"), "an operand lies within 64 bits"),
    ("set q [expr 99999999999999999999]", halt(17, "A number is too large"), "a value of an expression lies within 64 bits"),
    ("if {9223372036854775808} {}", halt(17, "A number is too large"), "a condition is an expression"),
    ("set q 9223372036854775807; incr q", "set q 9223372036854775807; " + halt(17, "A number is too large"), "a sum of incr lies within 64 bits"),
    ("lindex {a b} 99999999999999999999", halt(17, "A number is too large"), "an index lies within 64 bits"),
    ("set q [expr {1.5 + 1}]", halt(18, "A number with a fraction is not computed"), "no number has a fraction"),
    ("set q [expr {1 < 1e3}]", halt(18, "A number with a fraction is not computed"), "no number has an exponent"),
    ("set q [expr 08]", halt(18, "A number with a fraction is not computed"), "a leading 0 with an 8 or 9 is a fraction"),
    ("while 0.5 {}", halt(18, "A number with a fraction is not computed"), "a condition has no fraction"),
    ("string repeat p 1.5", halt(18, "A number with a fraction is not computed"), "a count has no fraction"),
    ("set q 1; incr q 0.5", "set q 1; " + halt(18, "A number with a fraction is not computed"), "incr adds no fraction"),
    ("set q(1) 2", left_out("array"), "only env is an array"),
    ("set q $p(1)", left_out("array"), "only env is an array"),
    ("set q::r 2", left_out("namespace"), "there are no namespaces"),
    ("set q [set ::p::q]", left_out("namespace"), "there are no namespaces"),
    ("set env(HOME) 2", left_out("env"), "the environment is not written"),
    ("unset env(HOME)", left_out("env"), "the environment is not written"),
    ("append ::env(HOME) p", left_out("env"), "the environment is not written"),
    ("foreach env {1 2} {}", left_out("env"), "the environment is not written"),
    ("return -code error p", left_out("return"), "return takes a value alone"),
    ("info commands", left_out("info commands"), "info knows exists alone"),
    ("string toupper p", left_out("string toupper"), "a subcommand that is left out"),
    ("string is integer 1", left_out("string is"), "a subcommand that is left out"),
    ("string match -nocase p P", left_out("string -nocase"), "an option that is left out"),
    ("string equal -length 1 p q", left_out("string -length"), "an option that is left out"),
    ("switch -regexp p {p {}}", left_out("-regexp"), "an option that is left out"),
    ("puts stdout p", left_out("puts"), "puts writes to standard error alone"),
    ("puts p", left_out("puts"), "puts writes to standard error alone"),
    ("set q [expr {2 ** 3}]", left_out("**"), "an operator that is left out"),
    ("set q [expr {abs(-1)}]", left_out("abs"), "there are no functions"),
    ("exit", halt(20, "Stopped by the modulefile"), "exit stops the script"),
    ("exit 3", halt(20, "Stopped by the modulefile"), "exit stops the script"),
    ("string repeat pq 600000", halt(16, "A value is too long"), "a value has a limit"),
    ("set q [string repeat p 1000000]; append q $q", "set q [string repeat p 1000000]; " + halt(16, "A value is too long"), "a value has a limit"),
    ("proc deep {} {deep}; deep", "proc deep {} {deep}; " + halt(15, "Too many nested evaluations"), "evaluations nest 200 deep"),
    ("while 1 {}", halt(14, "Too many commands"), "commands and turns have a limit"),
    ("proc more {} {while 1 {}}; more", "proc more {} {while 1 {}}; " + halt(14, "Too many commands"), "commands and turns have a limit"),
    ('if 1 "set q \\{"', halt(12, "Missing close-brace at byte 6"), "the fault of a body is not caught"),
    ('catch "set q \\[p" q', halt(12, "Missing close-bracket at byte 6"), "the fault of a body is not caught"),
    ("set q [expr {1 +}]", halt(12, "Bad expression at byte 3"), "the fault of an expression is not caught"),
    ("conflict p", halt(21, "Refused by 51"), "a refusal by the host is not caught"),
    ("proc set {} {}", counted('error {can\'t redefine "set"}'), "a name that is kept"),
    ("proc conflict {} {}", counted('error {can\'t redefine "conflict"}'), "a name that the host reserves"),
    ("proc clock {} {}", counted('error {can\'t redefine "clock"}'), "a name that is kept"),
    ("proc p {{q r s}} {}", counted("error {not a list}"), "a parameter has a name and a default"),
    ("proc p {{}} {}", counted("error {not a list}"), "a parameter has a name"),
    ("string index pqr end+1", counted('error {bad index "end+1"}'), "an index is a whole number, end or end-N"),
    ("lindex {p q} 1+0", counted('error {bad index "1+0"}'), "an index is a whole number, end or end-N"),
    ("lindex {p q} e", counted('error {bad index "e"}'), "an index is a whole number, end or end-N"),
    ("set q {p  q}; lappend q", counted("set q {p  q}", "set q {p q}"), "lappend writes the list also where nothing is added"),
    ("unset -nocomplain q; append q; set q", counted("set q {}", "set q {}", "set q"), "append alone makes an absent variable empty"),
    ("set q [list p \\\\]", counted("set q [__count; list p \\\\]"), "how a list is written"),
    ("set q [split {[p]} {}]", counted("set q [__count; set q {{[} p {]}}]"), "how a list is written"),
    ("set q [list p #q]", counted("set q [__count; set q {p {#q}}]"), "how a list is written"),
    ("switch -odd p q r {}", counted('error {wrong # args for "switch"}'), "a wrong number of words comes before a bad option"),
    ("expr {!{p q}}", counted('error {expected boolean value but got "p q"}'), "what ! takes is a truth value"),
    ("set q $env", counted('error {can\'t read "env": it is an array}'), "the environment is an array"),
]
for name in (
    "after apply array binary cd chan clock close dict encoding eof eval exec fconfigure file fileevent flush format gets glob interp "
    "lassign linsert load lrepeat lreplace lreverse lsearch lset lsort namespace open package pid pwd read regexp regsub rename scan "
    "seek socket source subst tailcall tell throw time trace try unknown unload update uplevel upvar variable vwait"
).split():
    DIFFERENCES.append((name + " p q", left_out(name), "a command that is left out"))

# Tcl's messages, and the profile's
TRANSLATED = [
    (r'wrong # args: should be "(\S+?)(?: [^"]*)?"', r'wrong # args for "\1"'),
    (r'wrong # args: (?:no (?:expression|script)|extra words) (?:after|following) "[^"]*"[^"]*(?:"if" command|argument)', r'wrong # args for "if"'),
    (r'can\'t use (?:non-numeric|empty) string as operand of', r"can't use non-numeric text as operand of"),
    (r'expected integer but got', r'expected whole number but got'),
    (r'(bad index "[^"]*"): must be integer\?\[\+-\]integer\? or end\?\[\+-\]integer\?', r'\1'),
    (r'unmatched open (?:brace|quote) in list', 'not a list'),
    (r'list element in (?:braces|quotes) followed by "[^"]*" instead of space', 'not a list'),
    (r'char map list unbalanced', 'not a list'),
    (r'(can\'t read "(?:::)?env\([^"]*\)"): no such element in array', r'\1: no such variable'),
    (r'foreach varlist is empty', 'no variable for foreach'),
    (r'(bad option "[^"]*"): must be -exact, [-a-z, ]* or --', r'\1'),
    (r'no body specified for pattern', 'no body for pattern'),
    (r'extra switch pattern with no body', 'not a list'),
    (r'__count; ?', ''),
    (r'for "::tcl::(string|info)::\w+"', r'for "\1"'),
]


def translated(text):
    for pattern, ours in TRANSLATED:
        text = re.sub(pattern, ours, text)
    return text


ENDING = re.compile(r"-: (?:ok (\d+)|err (\d+) (\d+)) (.*)")
RECORD_WORD = re.compile(r"(?:^|\|)((?:[^\\|]|\\.)*)")


class Pair:
    """A text of a script, as the profile reads it and as it is for Tcl."""

    __slots__ = ("ours", "tcl")

    def __init__(self, ours, tcl=None):
        self.ours = ours
        self.tcl = ours if tcl is None else tcl


def made(form, *parts):
    """The form with the parts in the places of its %s. A command in brackets counts itself in Tcl."""
    return Pair(
        form % tuple(p.ours if isinstance(p, Pair) else p for p in parts),
        form.replace("[", "[__count; ") % tuple(p.tcl if isinstance(p, Pair) else p for p in parts),
    )


def command(form, *parts):
    """A command, which counts itself in Tcl before its words are looked at."""
    text = made(form, *parts)
    return Pair(text.ours, "__count; " + text.tcl)


def joined(between, parts):
    return Pair(between.join(p.ours for p in parts), between.join(p.tcl for p in parts))


def turned(body):
    """The body of a loop, whose turns are counted."""
    return Pair(body.ours, "__count; " + body.tcl)


class Scope:
    """The names that can be read at a place, and what may stand there."""

    def __init__(self, whole, texts, lists, inside=False):
        self.whole, self.texts, self.lists = whole, texts, lists
        self.inside = inside
        self.loops = 0
        self.nested = 0


class Maker:
    """Makes scripts."""

    WORDS = ["p", "q", "pq", "uvw", "rs", "vé", "€w", "ppp", "qrs", "w"]
    ELEMENTS = ["p", "q", "rs", "12", "7", "", "p q", "{u}", "p {q} r", "$p", "u;v", "vé", "p\nq", "r\ts"]

    def __init__(self, seed):
        self.random = random.Random(seed)

    def script(self):
        self.procedures = []
        self.counter = 0
        self.differs = self.random.randrange(6) == 0
        r = self.random
        scope = Scope(["i0", "i1", "i2"], ["s0", "s1"], ["l0", "l1"])
        lines = []
        for name in scope.whole:
            lines.append(command("set %s %s", name, str(r.randint(-9, 30))))
        for name in scope.texts:
            lines.append(command("set %s {%s}", name, self.plain()))
        for name in scope.lists:
            lines.append(command("set %s {%s}", name, self.list_text()))
        if r.randrange(12) == 0:
            del lines[r.randrange(len(lines))]
        for _ in range(r.choice([0, 0, 1, 1, 2])):
            lines.append(self.procedure())
        for _ in range(r.randint(1, 6)):
            lines.append(self.statement(scope))
        if r.randrange(3):
            lines.append(self.last(scope))
        if r.randrange(6) == 0:
            lines.insert(r.randrange(len(lines)), Pair("# a comment; with [brackets] \\\n  and more"))
        text = Pair("")
        for line in lines:
            text = made("%s%s", text, Pair(line.ours, "__line %d; %s" % (1 + text.ours.count("\n"), line.tcl)))
            between = ["\n", "\n", "\n\n", "; ", " ;\n\t"]
            text = made("%s%s", text, "\n" if line.ours.startswith("#") else r.choice(between))
        return text

    def plain(self):
        r = self.random
        return " ".join(r.choice(self.WORDS) for _ in range(r.randint(0, 4)))

    def list_text(self):
        r = self.random
        shown = []
        for _ in range(r.randrange(5)):
            element = r.choice(self.ELEMENTS)
            shown.append("{" + element + "}" if not re.fullmatch(r"[a-zé0-9]+", element) else element)
        return r.choice([" ", "  "]).join(shown)

    def pick(self, names):
        """The name of a variable, as it may be written."""
        return self.random.choice(names)

    def read(self, names):
        r = self.random
        if r.randrange(150) == 0:
            return r.choice(["$absent", "${no such}", "$::absent"])
        name = r.choice(names)
        return r.choice(["$" + name, "$" + name, "${" + name + "}"]) if ":" not in name else "$" + name

    # Values

    def whole(self, scope, depth=2):
        r = self.random
        kind = r.randrange(9)
        if kind < 3 or depth == 0:
            return Pair(r.choice([str(r.randint(-9, 30)), str(r.randint(0, 9)), "0x1f", "0b101", "0o17", "010"]))
        if kind < 6:
            return Pair(self.read(scope.whole))
        if kind == 6:
            return made("[expr {%s}]", self.expression(scope, depth - 1))
        return r.choice([
            lambda: made("[llength %s]", self.list(scope, depth - 1)),
            lambda: made("[string length %s]", self.text(scope, depth - 1)),
            lambda: made("[string first %s %s]", self.text(scope, 0), self.text(scope, depth - 1)),
            lambda: made("[string compare %s %s]", self.text(scope, 0), self.text(scope, depth - 1)),
            lambda: made("[incr %s]", self.pick(scope.whole)),
        ])()

    def text(self, scope, depth=2):
        r = self.random
        kind = r.randrange(12)
        if kind < 2 or depth == 0:
            return Pair(r.choice(self.WORDS))
        if kind == 2:
            return made("{%s}", self.plain())
        if kind < 6:
            return Pair(self.read(scope.texts))
        if kind == 6:
            return made('"%s"', joined("", [self.piece(scope, depth - 1) for _ in range(r.randint(1, 4))]))
        if kind == 7:
            return joined("", [Pair(r.choice(self.WORDS)), Pair("${" + r.choice(scope.whole) + "}"), Pair(r.choice(self.WORDS)) if r.randrange(2) else made("[string index $%s 0]", self.pick(scope.texts))])
        return made("[%s]", self.text_command(scope, depth - 1))

    def piece(self, scope, depth):
        r = self.random
        return r.choice([
            lambda: Pair(r.choice(self.WORDS + [" ", "\\t", "\\n", "\\x41", "\\u20ac", "\\{", "\\}", ";", "\\$", "\\["])),
            lambda: made("[string range ${%s} 0 7]", r.choice(scope.texts)),
            lambda: Pair(self.read(scope.whole) + " "),
            lambda: made("[%s]", self.text_command(scope, depth)),
        ])()

    def text_command(self, scope, depth):
        r = self.random
        depth = max(depth, 0)
        text = lambda: self.text(scope, depth)
        return r.choice([
            lambda: made("string range %s %s %s", text(), self.index(scope), self.index(scope)),
            lambda: made("string index %s %s", text(), self.index(scope)),
            lambda: made("string map {p q q %s rs {}} %s", r.choice(["", "{}", "p", "{u v}"]) or "w", text()),
            lambda: made("string trim %s %s", text(), r.choice(["", "pq", "{ }"])),
            lambda: made("string trimleft %s", text()),
            lambda: made("string repeat %s %s", r.choice(self.WORDS), str(r.randint(-1, 4))),
            lambda: made("join %s %s", self.list(scope, depth), r.choice(["", "-", "{, }"])),
            lambda: made("lindex %s %s", self.list(scope, depth), self.index(scope)),
            lambda: made("concat %s %s", text(), r.choice(["p", "{ q }", "{}"])),
            lambda: made("set %s", self.pick(scope.texts)),
            lambda: Pair("set env(%s)" % r.choice(["HOME", "N", "EMPTY", "HOME", "NO"])) if not scope.inside else Pair("set ::env(HOME)"),
            lambda: made("string match %s %s", r.choice(["p*", "*q*", "?", "{[p-r]*}", "*"]), text()),
            lambda: made("string equal %s %s", text(), text()),
            lambda: made("string last %s %s", r.choice(self.WORDS), text()),
            lambda: self.call(scope) or made("string length %s", text()),
        ])()

    def index(self, scope):
        r = self.random
        return r.choice([lambda: Pair(str(r.randint(-1, 5))), lambda: Pair(r.choice(["end", "end-1", "end-2", "0"])), lambda: made("[expr {%s %% 7}]", self.read(scope.whole))])()

    def list(self, scope, depth=2):
        r = self.random
        kind = r.randrange(10)
        if kind < 3 or depth == 0:
            return made("{%s}", self.list_text())
        if kind < 6:
            return Pair(self.read(scope.lists))
        return r.choice([
            lambda: made("[list %s]", joined(" ", [self.short(scope) for _ in range(r.randrange(4))])),
            lambda: made("[lrange %s %s %s]", self.list(scope, depth - 1), self.index(scope), self.index(scope)),
            lambda: made("[split [string range %s 0 9] %s]", self.text(scope, depth - 1), r.choice(["", "{}", "p", "{ q}"])),
            lambda: made("[concat %s {%s}]", self.list(scope, depth - 1), self.list_text()),
            lambda: made("[lappend %s %s]", self.pick(scope.lists), self.short(scope)),
            lambda: made("[list {*}%s %s]", self.list(scope, depth - 1), self.text(scope, 0)),
        ])()

    def short(self, scope):
        """A value that doesn't grow with the others."""
        r = self.random
        return r.choice([
            lambda: self.whole(scope, 1),
            lambda: Pair(r.choice(self.WORDS)),
            lambda: made("{%s}", self.plain()),
            lambda: made("[lrange %s 0 1]", self.pick(["$" + n for n in scope.lists])),
            lambda: made("[string range %s 0 5]", self.pick(["$" + n for n in scope.texts])),
        ])()

    def value(self, scope, depth=1):
        return self.random.choice([self.whole, self.text, self.list])(scope, depth)

    # Expressions

    def expression(self, scope, depth=2):
        """A whole number within bounds."""
        return made("(%s) %% %s", self.sum(scope, depth), self.random.choice(["997", "101", "50"]))

    def sum(self, scope, depth):
        r = self.random
        if depth <= 0:
            return self.operand(scope)
        kind = r.randrange(12)
        if kind < 5:
            return made("%s %s %s", self.sum(scope, depth - 1), r.choice(["+", "-", "*"]), self.sum(scope, depth - 1))
        if kind == 5:
            return made("((%s) %s (%s))", self.sum(scope, depth - 1), r.choice(["/", "%"]), self.sum(scope, depth - 1))
        if kind == 6:
            return made("((%s) %s %s)", self.sum(scope, depth - 1), r.choice(["<<", ">>"]), r.choice(["0", "1", "3", "7"]))
        if kind == 7:
            return made("((%s) %s (%s))", self.sum(scope, depth - 1), r.choice(["&", "|", "^"]), self.sum(scope, depth - 1))
        if kind == 8:
            return made("%s(%s)", r.choice(["-", "+", "~", "- -"]), self.sum(scope, depth - 1))
        if kind == 9:
            return made("(%s ? %s : %s)", self.truth(scope, depth - 1), self.sum(scope, depth - 1), self.sum(scope, depth - 1))
        if kind == 10:
            return made("(%s)", self.truth(scope, depth - 1))
        return self.operand(scope)

    def operand(self, scope):
        r = self.random
        kind = r.randrange(40)
        if kind == 0:
            return Pair(self.read(scope.texts))
        if kind == 1:
            return Pair(r.choice(['"p"', "{q}", '""', '" 7 "', "{0x10}", '"1$i0"' if not scope.inside else '"12"']))
        if kind < 18:
            return Pair(self.read(scope.whole))
        if kind < 34:
            return Pair(r.choice(["0", "1", "2", "3", "7", "10", "0x1F", "0b11", "0o7", "017"]))
        return made("[%s]", self.random.choice([
            lambda: made("llength %s", self.list(scope, 1)),
            lambda: made("string length %s", self.text(scope, 1)),
            lambda: made("incr %s", self.pick(scope.whole)),
            lambda: made("expr {%s}", self.expression(scope, 1)),
        ])())

    def truth(self, scope, depth):
        r = self.random
        kind = r.randrange(12)
        if depth <= 0 or kind < 4:
            return made("%s %s %s", self.operand(scope), r.choice(["<", ">", "<=", ">=", "==", "!="]), self.operand(scope))
        if kind < 6:
            return made("(%s) %s (%s)", self.truth(scope, depth - 1), r.choice(["&&", "||"]), self.truth(scope, depth - 1))
        if kind == 6:
            # Tcl's message says no value
            inner = self.truth(scope, depth - 1)
            return Pair("!(%s)" % inner.ours, "((%s) ? 0 : 1)" % inner.tcl)
        if kind == 7:
            return made('%s %s "%s"', Pair(self.read(scope.texts)), r.choice(["eq", "ne", "==", "<", ">="]), self.plain())
        if kind == 8:
            return made("%s %s %s", r.choice(['"p"', '"q"', "{12}"]), r.choice(["in", "ni"]), Pair(self.read(scope.lists)))
        if kind == 9:
            return Pair(r.choice(["true", "false", "yes", "no", "on", "off", "1", "0", "T", "oFF"]))
        if kind == 10:
            return made("[info exists %s]", r.choice(scope.whole + ["absent", "env(HOME)", "env(NO)", "::env(N)"]))
        return made("%s", self.sum(scope, depth - 1))

    # Commands

    def procedure(self):
        r = self.random
        name = "f%d" % len(self.procedures)
        kind = r.randrange(6)
        words = [
            ("a", "b", "c"),
            ("a", "{b 3}", "{c {p q}}"),
            ("a", "args"),
            ("a", "{b 2}", "args"),
            ("a", "b", "a"),
            ("a", "{b 2}", "{b 5}", "{a 7}", "args"),
        ][kind]
        whole = ["a", "::i0", "::i1"] + (["b"] if kind in (1, 3, 5) else [])
        texts = ["::s0"] + (["b"] if kind in (0, 4) else [])
        lists = ["::l0"] + [name for name in ("args", "c") if any(name in word for word in words)]
        scope = Scope(whole, texts, lists, True)
        body = []
        if r.randrange(3) == 0:
            body.append(command(r.choice(["global i2 l1", "global i2 l1 i2"])))
            scope.whole.append("i2")
            scope.lists.append("l1")
        if r.randrange(3):
            body.append(command("set t %s", self.text(scope)))
            scope.texts.append("t")
        self.procedures_open = True
        for _ in range(r.randint(1, 3)):
            body.append(self.statement(scope))
        if r.randrange(3):
            body.append(command("return %s", self.value(scope)))
        self.procedures.append((name, kind))
        return command("proc %s {%s} {%s}", name, " ".join(words), self.block(body))

    def call(self, scope):
        r = self.random
        if not self.procedures:
            return None
        name, kind = r.choice(self.procedures)
        if kind == 0:
            parts = [self.whole(scope, 1), self.text(scope, 1), self.list(scope, 1)]
        elif kind == 1:
            parts = [self.whole(scope, 1), self.whole(scope, 1), self.list(scope, 1)][: r.randint(1, 3)]
        elif kind == 2:
            parts = [self.whole(scope, 1)] + [self.value(scope) for _ in range(r.randrange(4))]
        elif kind == 4:
            parts = [self.whole(scope, 1), self.text(scope, 1), self.value(scope)]
        elif kind == 5:
            parts = [self.whole(scope, 1) for _ in range(r.randint(1, 4))]
            if len(parts) == 4:
                parts += [self.value(scope) for _ in range(r.randrange(3))]
        else:
            parts = [self.whole(scope, 1), self.whole(scope, 1)][: r.randint(1, 2)]
            if len(parts) == 2:
                parts += [self.value(scope) for _ in range(r.randrange(3))]
        if r.randrange(40) == 0:
            parts = parts[1:]
        return made("%s %s", name, joined(" ", parts))

    def block(self, statements):
        r = self.random
        if not statements:
            return Pair("")
        if r.randrange(2):
            return made("\n  %s\n", joined("\n  ", statements))
        return joined("; ", statements)

    def body(self, scope, most=3):
        scope.nested += 1
        body = self.block([self.statement(scope) for _ in range(self.random.randint(0 if scope.nested > 1 else 1, most))])
        scope.nested -= 1
        return body

    def statement(self, scope):
        r = self.random
        if self.differs and r.randrange(6) == 0:
            self.differs = False
            ours, tcl, _ = r.choice(DIFFERENCES)
            if scope.inside:
                ours, tcl = self.from_inside(ours), self.from_inside(tcl)
            return Pair(ours, tcl)
        kind = r.randrange(100)
        if kind < 30 or scope.nested >= 3:
            return self.simple(scope)
        if kind < 44:
            return self.conditional(scope)
        if kind < 52:
            return self.while_loop(scope)
        if kind < 59:
            return self.for_loop(scope)
        if kind < 70:
            return self.foreach(scope)
        if kind < 78:
            return self.switch(scope)
        if kind < 88:
            return self.catch(scope)
        if kind < 93:
            call = self.call(scope)
            return command("%s", call) if call else self.simple(scope)
        if kind < 96:
            return self.leaving(scope)
        return self.told(scope)

    @staticmethod
    def from_inside(text):
        """A variable of the environment is global."""
        return re.sub(r"(?<![:\w])env(?=\()", "::env", text).replace("$env", "$::env").replace('read "env"', 'read "::env"')

    def simple(self, scope):
        r = self.random
        return r.choice([
            lambda: command("set %s %s", self.pick(scope.whole), self.whole(scope)),
            lambda: command("set %s [expr {%s}]", self.pick(scope.whole), self.expression(scope)),
            lambda: command("set %s [expr %s + %s]", self.pick(scope.whole), Pair(self.read(scope.whole)), str(r.randint(0, 9))),
            lambda: command("incr %s", self.pick(scope.whole)),
            lambda: command("incr %s [expr {%s %% 97}]", self.pick(scope.whole), self.whole(scope, 1)),
            lambda: command("set %s %s", self.pick(scope.texts), self.text(scope)),
            lambda: command("append %s [string range %s 0 9] %s", self.pick(scope.texts), self.text(scope), r.choice(self.WORDS)),
            lambda: command("set %s %s", self.pick(scope.lists), self.list(scope)),
            lambda: command("lappend %s %s %s", self.pick(scope.lists), self.short(scope), self.short(scope)),
            lambda: command("expr {%s}", self.truth(scope, 2)),
            lambda: command("unset -nocomplain absent %s", r.choice(["", "", "absent2"])),
            lambda: joined("; ", [command("set u1 %s", self.value(scope)), command("unset u1")]),
            lambda: command("info exists %s", r.choice(scope.whole + ["absent", "env(HOME)", "env(NO)"])),
            lambda: command("set x%d %s", r.randrange(3), self.value(scope)),
            lambda: self.faulty(scope) if r.randrange(4) == 0 else command("set %s %s", self.pick(scope.whole), self.whole(scope)),
        ])()

    def faulty(self, scope):
        """An error, mostly."""
        r = self.random
        return r.choice([
            lambda: command("error %s", self.text(scope)),
            lambda: command("error {two words} info code"),
            lambda: command("nocommand p q"),
            lambda: command(r.choice(["set", "set p q r", "incr", "lindex", "while 1", "for 1 2 3", "foreach p", "proc p q", "break 1", "string length",
                                   "string index p", "info exists", "catch", "append", "join", "split", "llength", "string map p", "if", "if 1",
                                   "if 1 then", "if 0 p else", "if 0 p else q r", "switch p", "error", "expr"])),
            lambda: command("incr %s", self.pick(scope.texts)),
            lambda: command("set %s [expr {1 / 0}]", self.pick(scope.whole)),
            lambda: command("unset absent"),
            lambda: command("llength \\{p"),
            lambda: command("lindex {{p}q} 0"),
            lambda: command("foreach {} {1} {}"),
            lambda: command("switch p {p}"),
            lambda: command("switch p {q r p -}"),
            lambda: command("switch -odd -- p {p q}"),
            lambda: command("string map {p} q"),
            lambda: command("if {\"p q\"} {}"),
            lambda: command("expr {1 << -1}"),
            lambda: command("set q $env(NO)" if not scope.inside else "set q $::env(NO)"),
            lambda: joined("; ", [command("proc stray {} {%s}", command(r.choice(["break", "continue"]))), command("stray")]),
        ])()

    def conditional(self, scope):
        r = self.random
        text = command("if {%s} %s{%s}", self.truth(scope, 2), r.choice(["", "", "then "]), self.body(scope))
        for _ in range(r.choice([0, 0, 1])):
            text = made("%s elseif {%s} {%s}", text, self.truth(scope, 1), self.body(scope, 2))
        if r.randrange(2):
            text = made("%s %s{%s}", text, r.choice(["else ", "else ", ""]), self.body(scope, 2))
        return text

    def counter_name(self):
        self.counter += 1
        return "n%d" % self.counter

    def loop_body(self, scope):
        scope.loops += 1
        body = self.body(scope)
        scope.loops -= 1
        return body

    def while_loop(self, scope):
        name = self.counter_name()
        body = joined("; ", [command("incr %s", name), self.loop_body(scope)])
        loop = command("while {$%s < %s} {%s}", name, str(self.random.randint(0, 3)), turned(body))
        return joined("; ", [command("set %s 0", name), loop])

    def for_loop(self, scope):
        name = self.counter_name()
        body = turned(self.loop_body(scope))
        start, step = command("set %s 0", name), command("incr %s", name)
        return command("for {%s} {$%s < %s} {%s} {%s}", start, name, str(self.random.randint(0, 3)), step, body)

    def foreach(self, scope):
        r = self.random
        heads = []
        for _ in range(r.choice([1, 1, 1, 2])):
            names = [r.choice(scope.texts + ["e0", "e1"]) for _ in range(r.choice([1, 1, 2]))]
            heads.append(made("%s %s", "{" + " ".join(names) + "}" if len(names) > 1 or r.randrange(2) else names[0], made("[lrange %s 0 4]", self.list(scope, 1)) if r.randrange(2) else made("{%s}", self.list_text())))
        return command("foreach %s {%s}", joined(" ", heads), turned(self.loop_body(scope)))

    def switch(self, scope):
        r = self.random
        glob = r.randrange(3) == 0
        option = "-glob -- " if glob else r.choice(["", "-exact -- ", "-- "])
        subject = self.text(scope, 1) if option.endswith("-- ") or r.randrange(2) else made("%s", Pair(self.read(scope.texts)))
        arms = []
        for _ in range(r.randint(1, 3)):
            pattern = r.choice(["p*", "*q", "{[p-r]*}", "{?*}", "*"]) if glob else r.choice(self.WORDS + ["{p q}", "default"])
            arms.append((pattern, None if r.randrange(5) == 0 else self.body(scope, 2)))
        arms.append((r.choice(["default", "default", "pq"]), self.body(scope, 2)))
        parts = [made("%s %s", p, "-" if b is None else made("{%s}", b)) for p, b in arms]
        if r.randrange(2):
            return command("switch %s%s {\n %s\n}", option, subject, joined("\n ", parts))
        return command("switch %s%s %s", option or "-- ", subject, joined(" ", parts))

    def catch(self, scope):
        r = self.random
        scope.loops += 1
        body = self.body(scope)
        scope.loops -= 1
        if r.randrange(2):
            body = joined("; ", [body, self.faulty(scope)]) if body.ours else self.faulty(scope)
        kind = r.randrange(4)
        if kind == 0:
            return command("catch {%s}", body)
        if kind == 1:
            return command("set c%d [catch {%s} m%d]", r.randrange(2), body, r.randrange(2))
        if kind == 2:
            return command("if {[catch {%s} m%d]} {%s}", body, 0, command("append o $m0,"))
        return command("catch {%s} m%d", body, r.randrange(2))

    def leaving(self, scope):
        r = self.random
        if scope.loops and r.randrange(5):
            return r.choice([lambda: command("break"), lambda: command("continue"), lambda: command("if {%s} {%s}", self.truth(scope, 1), command(r.choice(["break", "continue"])))])()
        if scope.inside or r.randrange(3) == 0:
            return r.choice([lambda: command("return %s", self.value(scope)), lambda: command("return")])()
        return self.simple(scope)

    def told(self, scope):
        r = self.random
        return r.choice([
            lambda: command("setenv %s %s", r.choice(["A", "B"]), self.value(scope)),
            lambda: command("puts %sstderr %s", r.choice(["", "-nonewline "]), self.value(scope)),
            lambda: command("set %s [mode]", self.pick(scope.texts)),
        ])()

    def last(self, scope):
        r = self.random
        return r.choice([
            lambda: command('set z "%s"', joined("|", [Pair("$" + n) for n in scope.whole + scope.texts + scope.lists])),
            lambda: command("list %s", joined(" ", [self.value(scope) for _ in range(r.randint(1, 3))])),
            lambda: command("set z %s", self.value(scope)),
            lambda: command(r.choice(["break", "continue", "return", "return p", "set s0"])),
            lambda: command("expr {%s}", self.expression(scope)),
        ])()


class Answer:
    """What an evaluation came to."""

    def __init__(self, kind, number, text, line, variables, messages, records, asked):
        self.kind, self.variables, self.messages, self.records = kind, sorted(variables), messages, records
        if kind == "ok":
            self.result, self.count = text, number
            self.shown = ("ok", text, number, self.variables, messages, records, asked)
        else:
            self.number, self.text, self.line = number, text, line
            # what the host was told is the same also after a fault
            self.shown = ("err", number, text, line if number == 13 else 0, messages, records, asked)


def own_answer(line):
    """The answer of the program."""
    head, *fields = line.split("\t")
    ending = ENDING.fullmatch(head)
    if not ending:
        return Answer("none", 0, line, 0, [], [], [], False)
    told = {"var": [], "message": [], "record": [], "asked": []}
    for field in fields:
        kind, _, text = field.partition(" ")
        told[kind].append(text)
    variables = [tuple(map(meant, variable.split("=", 1))) for variable in told["var"]]
    messages = [meant(message) for message in told["message"]]
    records = [[meant(word) for word in RECORD_WORD.findall(record)] for record in told["record"]]
    count, number, place, text = ending.groups()
    asked = bool(told["asked"])
    if count:
        return Answer("ok", int(count), meant(text), 0, variables, messages, records, asked)
    return Answer("err", int(number), meant(text), int(place), variables, messages, records, asked)


def tcl_answer(line):
    """The answer of scripts.tcl."""
    words = line.split()
    places = {mark: words.index(mark, 3) for mark in ("v", "m", "r", "q")}
    pairs = [translated(text_of(word)) for word in words[places["v"] + 1 : places["m"]]]
    messages = [translated(text_of(word)) for word in words[places["m"] + 1 : places["r"]]]
    records = [[translated(text_of(word)) for word in record.split(",")] for record in words[places["r"] + 1 : places["q"]]]
    kind, first, second, *rest = words
    number, text = (second, first) if kind == "ok" else (first, second)
    line = int(rest[0]) if kind == "err" else 0
    return Answer(kind, int(number), translated(text_of(text)), line, zip(pairs[::2], pairs[1::2]), messages, records, words[-1] == "1")


def bare(shown):
    """An answer without the braces, backslashes and spaces in which the writings of a list differ."""
    return re.sub(r"[\\{} ]", "", repr(shown))


def explained(own, other):
    """The rule of the profile by which two answers differ, where there is one that no generated script can foresee."""
    if own.kind == "err" and own.number == 12 and own.text.startswith("Bad expression"):
        return "the fault of an expression is not caught"
    if own.kind == other.kind == "ok" and own.count == other.count and bare(own.shown) == bare(other.shown):
        return "an element with a backslash is written without braces"
    return None


def case(script, commands):
    environment = " ".join(f"env.{name}={word(value)}" for name, value in ENVIRONMENT)
    return f"script - commands={commands} depth={DEPTH} bytes={BYTES} {environment}: {word(script)}"


def generated():
    """The generated scripts, and those of each difference by itself."""
    maker = Maker(SEED)
    scripts = [maker.script() for _ in range(SCRIPTS)]
    # each difference at the file's level, in catch, and in the second turn of a loop
    for ours, tcl, _ in DIFFERENCES:
        alone = Pair(ours, tcl)
        scripts.append(alone)
        scripts.append(joined("; ", [command("set p 1"), command("catch {%s} m", alone), command("set n 2")]))
        turn = command("if {$j} {%s}", alone)
        scripts.append(command("foreach j {0 1} {%s}", turned(turn)))
    # more different bodies and conditions than are kept
    bodies = [command("if {$n >= -%d} {%s}" % (n, "%s"), command("incr n %d" % n)) for n in range(1100)]
    scripts.append(joined("; ", [command("set n 0"), command("foreach j {0 1} {%s}", turned(joined("; ", bodies)))]))
    return scripts


@pytest.fixture(scope="module")
def evaluated(built):
    """Evaluates scripts, each with the most commands that it may take."""

    def answers(scripts):
        return [own_answer(line) for line in ask([built("cases_tcl")], [case(*script) for script in scripts])]

    return answers


@pytest.fixture(scope="module")
def answered(evaluated):
    """The scripts, each with the program's own answer."""
    scripts = generated()
    return list(zip(scripts, evaluated([(script.ours, COMMANDS) for script in scripts])))


def test_scripts(answered, judge_rows, note):
    theirs = [tcl_answer(line) for line in ask(tclsh("scripts.tcl"), [digits(script.tcl) for script, _ in answered])]
    rules, wrong = collections.Counter(), []
    for (script, own), other in zip(answered, theirs):
        if own.shown == other.shown:
            continue
        rule = explained(own, other)
        if rule:
            rules[rule] += 1
        else:
            wrong.append(f"--- {script.ours}\n  own {own.shown}\n  Tcl {other.shown}")
    for rule, count in sorted(rules.items()):
        note(f"{count} differ by the profile: {rule}")
    ends = collections.Counter("ok" if own.kind == "ok" else str(own.number) for _, own in answered)
    note("ends: " + ", ".join(f"{count} {end}" for end, count in sorted(ends.items())))
    judge_rows(len(answered), wrong)


def test_scripts_under_the_number_of_their_own_commands(answered, evaluated, judge_rows):
    """A script that counts so many comes to the same under that limit, and to 14 under one less."""
    ended = [(script.ours, own) for script, own in answered if own.kind == "ok"][:LIMITED]
    counting = [(text, own) for text, own in ended if own.count]
    same = evaluated([(text, own.count) for text, own in ended])
    less = evaluated([(text, own.count - 1) for text, own in counting])
    wrong = [text for (text, own), again in zip(ended, same) if again.shown != own.shown]
    wrong += [f"one less: {text}" for (text, _), again in zip(counting, less) if again.shown[:2] != ("err", 14)]
    judge_rows(len(ended) + len(counting), wrong)
