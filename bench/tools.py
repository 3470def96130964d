"""The programs that are compared: how each is called, and the environment in which modules are loaded by it."""

import functools
import glob
import os
import subprocess

HERE = os.path.dirname(os.path.abspath(__file__))
UNPACKED = os.path.join(os.path.dirname(HERE), "build", "bench")

HOW_TO_INSTALL = """
Environment Modules and Lmod are taken where they are installed, as the Debian packages environment-modules and lmod lay
them out. These two conflict: with `apt-get`, `make bench` installs the first, and unpacks the other below build/bench
(`apt-get download lmod`, `dpkg -x`), with the packages that it needs (lua5.3, lua-posix, lua-filesystem, lua-json,
lua-term, tcl). A tool that isn't there has no column.
"""


class Null:
    """The least that a native program does: it reads the modulefile, and writes nothing."""

    title = "null"

    def __init__(self, path):
        self.path = path

    def start(self, row):
        return row.env

    def accepted(self, out):
        return True

    def command(self, row):
        return [self.path, os.path.join(os.path.dirname(self.path), "few", "m0", "1.0")]


class Tool:
    """A program that prints text for a shell."""

    cannot = "fails"

    # Where it keeps something for later commands, once it has a home.
    home = None

    def __init__(self, title, words, init=None):
        self.title = title
        self.words = words
        self.init = init
        self.starts = {}

    def command(self, row):
        return [*self.words, *row.words]

    def start(self, row):
        """The environment with the modules of the row loaded, or none where that fails."""
        env = dict(row.env)
        for place, name in enumerate(row.before):
            key = (row.env["MODULEPATH"], *row.before[: place + 1])
            if key not in self.starts:
                self.starts[key] = self.run(["load", name], env)
            env = self.starts[key]
            if env is None:
                return None
        return env

    def run(self, words, env):
        """The environment behind a command, as a shell gets it."""
        script = 'text=$("$@") || exit 1; eval "unset text; $text" && exec /usr/bin/env -0'
        done = subprocess.run(
            ["bash", "--norc", "-c", script, "tool", *self.words, *words], env=env, capture_output=True, check=False
        )
        if done.returncode != 0:
            return None
        entries = [os.fsdecode(entry).split("=", 1) for entry in done.stdout.split(b"\0") if entry]
        return {entry[0]: entry[1] for entry in entries if entry[0] not in ("_", "PWD", "OLDPWD", "SHLVL")}

    def init_folder(self, folder):
        """The folder of the init files: our own as it is installed below the folder. None where there is none."""
        if self.init is None:
            return installed(self.words[0], os.path.join(folder, "product"))
        return self.words[0].partition("/usr/")[0] + self.init

    def init_file(self, folder, shell="bash"):
        """The init file for a shell, that of another tool with the paths where that stands. None where there is none."""
        init = os.path.join(self.init_folder(folder) or folder, shell)
        if not os.path.isfile(init):
            return None
        if self.init is None:
            return init
        with open(init, encoding="utf-8") as file:
            text = file.read()
        path = os.path.join(folder, f"{self.title.replace(' ', '-')}-{shell}")
        top = self.words[0].partition("/usr/")[0]
        with open(path, "w", encoding="utf-8") as file:
            file.write(text.replace("/usr/share/", f"{top}/usr/share/").replace("/usr/lib/", f"{top}/usr/lib/"))
        return path

    def accepted(self, out):
        """Environment Modules says a refusal in the text."""
        with open(out, "rb") as file:
            return not file.read().rstrip().endswith(b"test 1;")


@functools.cache
def installed(program, prefix):
    """The folder of the init files of the product, laid out below a prefix. None where it can't be."""
    names = ("modulecmd", "module")
    programs = [os.path.join(os.path.dirname(program), name) for name in names]
    words = ["sh", os.path.join(os.path.dirname(HERE), "tools", "product.sh"), "install", "", prefix, *programs]
    done = subprocess.run(words, stdin=subprocess.DEVNULL, capture_output=True, check=False)
    return os.path.join(prefix, "init") if done.returncode == 0 else None


def version(words, env=None):
    """The first number with points that a command writes."""
    done = subprocess.run(words, env=env, stdin=subprocess.DEVNULL, capture_output=True, check=False)
    for word in (done.stdout + done.stderr).decode(errors="replace").split():
        if word[:1].isdigit() and "." in word:
            return " " + word
    return ""


def first(*patterns):
    for pattern in patterns:
        for path in sorted(glob.glob(pattern)):
            if os.access(path, os.X_OK):
                return path
    return None


def find_tools(program):
    """This program, and those that are installed or unpacked."""
    found = [Tool("modulecmd", [program, "bash"])]
    modules = first(
        "/usr/lib/*/modulecmd.tcl",
        "/usr/share/Modules/libexec/modulecmd.tcl",
        os.path.join(UNPACKED, "environment-modules/usr/lib/*/modulecmd.tcl"),
    )
    if modules:
        title = "Environment Modules" + version([modules, "bash", "--version"])
        found.append(Tool(title, [modules, "bash"], "/usr/share/modules/init"))
    lmod = first(
        "/usr/share/lmod/*/libexec/lmod",
        os.path.join(UNPACKED, "lmod/usr/share/lmod/[0-9]*/libexec/lmod"),
    )
    if lmod:
        title = "Lmod" + version([lmod, "bash", "--version"], {"PATH": "/usr/bin:/bin"})
        found.append(Tool(title, [lmod, "bash"], "/usr/share/lmod/lmod/init"))
    return found
