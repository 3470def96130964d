"""Gives a running Python the functions `module` and `ml`, which change its environment (os.environ):

    import sys
    sys.path.insert(0, "@prefix@/init")
    from python import module

    module("load", "gcc/13.2.0")

or `exec(open("@prefix@/init/python.py").read())`. Programs that this Python starts have that environment. What Python
itself has read of it before, as PYTHONPATH, stays.
"""

import os
import re
import subprocess

_PREFIX = "@prefix@"

# A line of a text for sh: a variable that is assigned and exported, or unset; or at the end what starts the program that
# a site runs behind commands. A value, and a word of the latter, is parts in single quotes, and quotes behind a backslash.
_LINE = re.compile(
    rb"([A-Za-z_][A-Za-z0-9_]*)=((?:'[^']*'|\\')+); export \1;\n|unset ([A-Za-z_][A-Za-z0-9_]*);\n"
    rb"|((?:\((?:(?:'[^']*'|\\')+ )+< /dev/null > /dev/null 2>&1 &\)\n)+)\Z"
)
_PART = re.compile(rb"'([^']*)'|\\(')")


def _changes(text):
    """What a text for sh says, in order: a name with its value, or with None where it is unset; or None with a line that
    starts a program."""
    at = 0
    while at < len(text):
        line = _LINE.match(text, at)
        if line is None:
            raise ValueError(f"a text that no modulecmd prints: {text[at:at + 80]!r}")
        name, value, unset, started = line.groups()
        if started:
            yield None, started
        else:
            yield unset or name, None if unset else b"".join(plain or quote for plain, quote in _PART.findall(value))
        at = line.end()


def _size():
    """The lines and columns of the terminal, where standard output is one."""
    try:
        size = os.get_terminal_size(1)
    except OSError:
        return ":"
    return f"{size.lines}:{size.columns}"


def _run(program, *words, **streams):
    """Runs a program of the product, and gives what it prints and its status."""
    done = subprocess.run([f"{_PREFIX}/{program}", *words], check=False, **streams)
    return done.stdout, done.returncode


def _answer(words):
    """What the program answers, and its status. It writes a report to its standard input, which is the standard output
    here, where that is open."""
    try:
        os.fstat(1)
        output = 1
    except OSError:
        output = subprocess.DEVNULL
    return _run("libexec/module", f"sh:{_size()}", *words, stdin=output, stdout=subprocess.PIPE)


def module(*words):
    """Does what `module` does in a shell, as `module("load", "gcc", "openmpi")`: a list among the words stands for its
    words. True where the command was accepted; else the environment stays as it was. Refusals are written on standard
    error, and reports too, but on standard output where that is a terminal; the usage is on standard output."""
    words = [str(word) for it in words for word in (it if isinstance(it, (list, tuple)) else [it])]
    text, status = _answer(words)
    if status == 110:
        # A report that is to be shown: the text by a pager, or where there is none, what the script makes.
        shown = _run("init/pager", input=text) if text else _run("init/pager", "sh", *words)
        return shown[1] == 0
    if status != 0:
        return False
    # The whole text is read before anything is changed.
    for name, value in list(_changes(text)):
        if name is None:
            subprocess.run(["/bin/sh", "-c", value], check=False)
        elif value is None:
            os.environb.pop(name, None)
        else:
            os.environb[name] = value
    return True


def ml(*words):
    """Does what `ml` does in a shell: `ml()` lists the loaded modules, and `ml("-gcc", "clang")` unloads one module, and
    loads another."""
    return module("ml", *words)


if "MODULEPATH" not in os.environ:
    _directories, _ = _run("libexec/module", "sh", "modulespath", f"{_PREFIX}/etc/modulespath", stdout=subprocess.PIPE)
    if _directories:
        os.environb[b"MODULEPATH"] = _directories
