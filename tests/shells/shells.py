"""The table of shells, what is written in the language of each, and how lines are run in one."""

import os
import shutil
import subprocess
import typing

import pytest

from tests.lib.harness import SECONDS, Failed, same

# The names of shells that the program is told, each with its family.
FAMILIES = {"sh": "sh", "bash": "sh", "ksh": "sh", "zsh": "sh", "csh": "csh", "tcsh": "csh", "fish": "fish"}

# What a shell sets of its own.
OWN = (b"_", b"PWD", b"OLDPWD", b"SHLVL", b"A__z", b"PS4", b"LINES", b"COLUMNS")


class Language(typing.NamedTuple):
    """How a family of shells says some things, with `{}` for what they are about."""

    source: str
    status: str
    writes_status: str
    to_file: str  # (what is before the file that takes standard error)
    to_pipe: str
    sets: str
    unsets: str
    word: str  # (the value of an exported variable, as one word)
    names: str  # (what lists each variable)
    function: str = ""  # (defines one and calls it)


LANGUAGES = {
    # ksh93's echo puts a variable of its own into the environment.
    "sh": Language(
        source=".", status="$?", writes_status="printf '%s\\n' $?", to_file="2>", to_pipe="2>&1 |",
        sets="export {}='{}'", unsets="unset {}", word='"${}"', names="set",
        function="in_function() {{ {}; }}; in_function",
    ),
    "csh": Language(
        source="source", status="$status", writes_status="echo $status", to_file=">&", to_pipe="|&",
        sets="setenv {} '{}'", unsets="unsetenv {}", word="${}:q", names="set",
    ),
    "fish": Language(
        source="source", status="$status", writes_status="echo $status", to_file="2>", to_pipe="2>&1 |",
        sets="set -gx {} '{}'", unsets="set -e {}", word="${}", names="set --names",
        function="function in_function; {}; end; in_function",
    ),
}  # fmt: skip


class Shell(typing.NamedTuple):
    """A shell: the init file, whose name the program is given; how it is started; the line that says its version; what
    its user may have set before the init file is sourced; and its options at a terminal, if it is tried there."""

    title: str
    init: str
    started: str
    version: str
    odd: list
    at_terminal: str = None
    completes: bool = False
    before_completion: tuple = ()
    is_needed: bool = True  # (without the other ones the tests still say enough)

    def __str__(self):
        return self.title

    @property
    def command(self):
        return self.started.split()

    @property
    def family(self):
        return FAMILIES[self.init]

    @property
    def says(self):
        return LANGUAGES[self.family]

    @property
    def has_newlines(self):
        return self.family != "csh"

    def is_there(self):
        return shutil.which(self.command[0]) is not None

    def source(self, prefix):
        """The line that the README shows, for this prefix."""
        return f"{self.says.source} '{prefix}/init/{self.init}'"

    def may_fail(self, line):
        """A line that may be refused, under settings that end the shell where a command fails."""
        return f"{line} || :" if self.family == "sh" else line

    def line(self, step, folder, number):
        """A step in this shell's language: `show` keeps the environment, `status` the last status, others are lines."""
        if step == "show":
            return f"/usr/bin/env -0 > '{folder}/shown.{number}'"
        if step == "status":
            return f"{self.says.writes_status} > '{folder}/status.{number}'"
        return step

    def run(self, folder, env, lines, prefix, before=(), under=None):
        """Runs the lines behind the init file, and those of `before` in front of it. Gives what was kept, and the
        run. `under` stands for the command that starts the shell."""
        place = os.path.join(folder.path, b"kept").decode()
        shutil.rmtree(place, ignore_errors=True)
        os.mkdir(place)
        steps = [*before, self.source(prefix), *lines] if prefix else [*before, *lines]
        text = "".join(self.line(step, place, number) + "\n" for number, step in enumerate(steps))
        script = os.path.join(place, "script")
        with open(script, "w") as file:
            file.write(text)
        done = subprocess.run(
            [*(under or self.command), script],
            env=env,
            cwd=place,
            stdin=subprocess.DEVNULL,
            capture_output=True,
            timeout=SECONDS,
            check=False,
        )
        return Kept(place, steps), done

    def keeps(self, folder, env, lines, prefix, before=(), out=b"", err=b""):
        """As `run`, where the shell writes exactly this and ends with status 0."""
        kept, done = self.run(folder, env, lines, prefix, before)
        same((done.stdout, done.stderr, done.returncode), (out, err, 0), f"what {self.title} writes")
        return kept


class Kept:
    """What a run kept: the environments and the statuses, in the order of the lines."""

    def __init__(self, place, steps):
        self.shown = []
        self.statuses = []
        for number, step in enumerate(steps):
            if step == "show":
                self.shown.append(environment(os.path.join(place, f"shown.{number}")))
            elif step == "status":
                self.statuses.append(content(os.path.join(place, f"status.{number}")).strip().decode())


def content(path):
    if not os.path.exists(path):
        return b""
    with open(path, "rb") as file:
        return file.read()


def environment(path):
    """An environment as `env -0` wrote it, without what the shell sets of its own."""
    if not os.path.exists(path):
        raise Failed(f"the shell did not come to {os.path.basename(path)}")
    return without_own(content(path))


def without_own(written):
    """What `env -0` wrote, without what a shell sets of its own."""
    entries = [entry.split(b"=", 1) for entry in written.split(b"\0") if entry]
    return {name: value for name, value in entries if name not in OWN}


# What users may have set before the init file is sourced.
ODD_SPLITTING = "IFS='o1/= 023'"
ODD_ALIASES = ["test() { echo function; }", "alias module='echo alias' ml='echo alias'", "cd /"]
ODD_SH = ["set -euf", ODD_SPLITTING, *ODD_ALIASES]
ODD_KSH = ["set -euf -o pipefail", ODD_SPLITTING, *ODD_ALIASES]
ODD_BASH = ["shopt -s expand_aliases nullglob failglob nocasematch extglob", *ODD_KSH]
ODD_ZSH = [
    "setopt err_exit no_unset glob_subst sh_word_split csh_junkie_quotes csh_junkie_loops ksh_arrays",
    "setopt rc_expand_param rc_quotes ignore_braces extended_glob null_glob no_case_match warn_create_global",
    "setopt no_global_export",
    "setopt all_export err_return pipe_fail hist_subst_pattern ksh_glob sh_glob bsd_echo no_multi_func_def",
    ODD_SPLITTING,
    *ODD_ALIASES,
]
ODD_CSH = ["set noglob noclobber", "alias module 'echo alias'", "alias ml 'echo alias'", "cd /"]
ODD_TCSH = ["set backslash_quote", "set anyerror", *ODD_CSH]
ODD_FISH = ["set -g IFS 'o1/= '", "set -g text 1", "alias module 'echo alias'", "function ml; echo old; end", "cd /"]
ODD_FISH += ["function count; builtin echo 9; end", "function disown; builtin echo theirs; end"]

PACKAGED = "dpkg-query -W -f '${{Version}}' {}".format

SHELLS = (
    Shell("dash", "sh", "dash", PACKAGED("dash"), ["CDPATH=/usr", *ODD_SH], at_terminal="-i"),
    Shell("bash", "bash", "bash --norc", "echo $BASH_VERSION", ODD_BASH, at_terminal="--noprofile -i", completes=True),
    Shell("bash as sh", "sh", "bash --posix --norc", "echo $BASH_VERSION", ODD_SH),
    Shell("ksh93", "ksh", "ksh93", "echo ${.sh.version}", ODD_KSH, at_terminal="-i -o emacs"),
    Shell("mksh", "ksh", "mksh", "echo $KSH_VERSION", ODD_KSH, at_terminal="-i"),
    Shell("zsh", "zsh", "zsh -f", "echo $ZSH_VERSION", ODD_ZSH, at_terminal="-i", completes=True,
          before_completion=("autoload -Uz compinit && compinit -u -D",)),
    Shell("tcsh", "tcsh", "tcsh -f", "echo $version", ODD_TCSH, at_terminal="", completes=True),
    Shell("tcsh as csh", "csh", "tcsh -f", "echo $version", ODD_TCSH),
    Shell("BSD csh", "csh", "bsd-csh -f", PACKAGED("csh"), ODD_CSH, is_needed=False),
    Shell("fish", "fish", "fish --no-config", "echo $version", ODD_FISH, at_terminal="-i", completes=True),
    Shell("yash", "sh", "yash --norc", "echo $YASH_VERSION", ODD_SH, is_needed=False),
    Shell("busybox ash", "sh", "busybox ash", PACKAGED("busybox"), ODD_SH, is_needed=False),
)  # fmt: skip


def in_shells(wanted):
    """Runs a case in the shells of which this is true. A case that doesn't choose runs in each."""
    chosen = [shell for shell in SHELLS if wanted(shell)]
    return pytest.mark.parametrize("shell", chosen, ids=str, indirect=True)


in_sh = in_shells(lambda it: it.family == "sh")
in_csh = in_shells(lambda it: it.family == "csh")
in_bash = in_shells(lambda it: it.title == "bash")
in_tcsh = in_shells(lambda it: it.title == "tcsh")
at_terminals = in_shells(lambda it: it.at_terminal is not None)
