"""The programs that the functions of shells run for changes and reports, by themselves."""

import os
import re
import resource
import shutil
import signal
import subprocess

import pytest

from tests.lib.harness import NOBODY, SECONDS, encoded, same, true
from tests.shells.session import ODD_NAME
from tests.shells.shells import FAMILIES, content
from tests.shells.texts import text

# Whom a run is by that may not read and write what its owner does.
BY_NOBODY = {"user": NOBODY, "group": NOBODY, "extra_groups": []} if os.geteuid() == 0 else {}


class Changes:
    """The program that the functions run for what they add, by itself."""

    def __init__(self, folder, prefix):
        self.prefix = prefix
        self.start = folder.modules.decode()
        self.home = os.path.join(folder.path, b"home").decode()
        os.mkdir(self.home)
        os.chmod(self.home, 0o777)
        self.env = folder.environment(PATH=os.environ["PATH"], HOME=self.home)

    def run(self, *words, env=(), under=(), **more):
        """Runs the program, behind the words of a command that runs others."""
        given = {**self.env, **encoded(dict(env))}
        command = [*under, os.path.join(self.prefix, "libexec", "module"), *words]
        more = {"stdin": subprocess.DEVNULL, "capture_output": True, "timeout": SECONDS, "check": False, **more}
        done = subprocess.run(command, env=given, **more)
        return done.stdout, done.stderr, done.returncode

    def answers(self, words, out="", err="", status=0, **more):
        wanted = (out.encode(errors="surrogateescape"), err.encode(errors="surrogateescape"), status)
        same(self.run("sh", *words, **more), wanted, f"what {words} writes")

    def refuses(self, words, text, **more):
        self.answers(words, err=f"ERROR: {text}\n", status=1, **more)

    def file(self, name, data, folder=".config/modulecmd"):
        path = os.path.join(self.home, folder, name)
        os.makedirs(os.path.dirname(path), exist_ok=True)
        with open(path, "wb") as file:
            file.write(data if isinstance(data, bytes) else data.encode())
        return path


@pytest.fixture
def here(folder, product):
    return Changes(folder, product)


# What no collection is, and what is said of it.
NO_COLLECTIONS = (
    ("module purge\n", "line 1: it is neither `module use' nor `module load' with words"),
    ("module use\n", "line 1: it is neither `module use' nor `module load' with words"),
    ("#x\n\nmodule load $(touch HERE)\n", "line 3: the character $ without quotes"),
    ("module load a; touch HERE\n", "line 1: the character ; without quotes"),
    ("module load [exec touch HERE]\n", "line 1: the character [ without quotes"),
    ("module load {a b}\n", "line 1: no name of a module: 'a b'"),
    ('module load ""\n', "line 1: no name of a module: ''"),
    ("module load -f\n", "line 1: no name of a module: '-f'"),
    ("module use --nope /a\n", "line 1: no absolute directory without a colon: '--nope'"),
    ("module use a\n", "line 1: no absolute directory without a colon: 'a'"),
    ("module use /a:/b\n", "line 1: no absolute directory without a colon: '/a:/b'"),
    ("module use {/a\n", "line 1: braces that aren't closed at the end of a word, or a backslash in them"),
    ("module use {/a}/b\n", "line 1: braces that aren't closed at the end of a word, or a backslash in them"),
    ('module use "/a\n', "line 1: a quote that isn't closed"),
    ('module use "/a"b\n', "line 1: a quote that isn't closed at the end of a word"),
    ("module use /a\\x41\n", "line 1: a backslash before what it gives no meaning"),
    ("", "no line names a module or a directory"),
    ("# empty\n\n \t\nmodule load --notuasked\n", "no line names a module or a directory"),
    ("module load a\0b\n", "it has a byte that is no text"),
    ("#" * 65537, "it has more than 65536 bytes"),
)


def test_no_collection_is_refused_and_never_evaluated(here):
    for written, reason in NO_COLLECTIONS:
        path = here.file("c", written)
        here.refuses(["restore", "c"], f"No collection: '{path}': {reason}", cwd=here.home)
    here.file("c", "module load 'a`touch HERE`\n")
    here.refuses(["restore", "c"], "Unable to locate a modulefile for ''a`touch'", cwd=here.home)
    same(os.listdir(here.home), [".config"], "what is made")


def test_what_is_no_file_of_a_collection_is_refused(here):
    top = os.path.dirname(here.file("c", "module load foo\n"))
    os.mkdir(os.path.join(top, "folder"))
    os.mkfifo(os.path.join(top, "pipe"))
    os.symlink("ring", os.path.join(top, "ring"))
    os.symlink("/dev/zero", os.path.join(top, "zero"))
    for name in ("folder", "pipe", "ring", "zero"):
        for subcommand in ("restore", "saveshow"):
            here.refuses([subcommand, name], f"No file: '{top}/{name}'")
    for name in ("folder", "pipe", "ring", "zero"):
        here.refuses(["save", name], f"No file: '{top}/{name}'")
    for name in ("folder", "pipe"):
        here.refuses(["saverm", name], f"No file: '{top}/{name}'")
    here.answers(["saverm", "ring"])
    os.chmod(os.path.join(top, "c"), 0)
    here.refuses(["restore", "c"], f"Reading failed: '{top}/c'", **BY_NOBODY)
    here.answers(["savelist"], err="c\n")


def test_names_of_collections_are_judged(here):
    for name in ("", "a/b", "/a", ".a", "..", "-a", "a\nb", "a\t", "a\033b"):
        for subcommand in ("save", "restore", "saveshow", "saverm"):
            here.refuses([subcommand, name], f"Bad name of a collection: '{name}'")
    here.refuses(["saverm"], "Bad arguments\nusage: module saverm COLLECTION")
    here.refuses(["savelist", "a"], "Bad arguments\nusage: module savelist")
    same(os.listdir(here.home), [], "what is made")
    long = "n" * 300
    here.refuses(["save", long], f"Writing failed: '{here.home}/.config/modulecmd/{long}'")
    for name in ("a b", "it's", '"$HOME" `x` *', "é\\", "~", "a=b"):
        here.answers(["save", name])
        here.answers(["restore", name])
        here.answers(["saverm", name])
    same(os.listdir(os.path.join(here.home, ".config/modulecmd")), [], "what is left")


def refuses_to_write(here, run):
    """A save is refused, the collection stays what it was, and no other file is left."""
    path = here.file("c", "module load old\n")
    run(["save", "c"], f"Writing failed: '{path}'")
    same(content(path), b"module load old\n", "the file")
    same(os.listdir(os.path.dirname(path)), ["c"], "the files")


def test_a_collection_is_written_whole_or_not_at_all(here):
    def small():
        signal.signal(signal.SIGXFSZ, signal.SIG_IGN)
        resource.setrlimit(resource.RLIMIT_FSIZE, (10, 10))

    refuses_to_write(here, lambda *refused: here.refuses(*refused, preexec_fn=small))


def test_a_collection_in_a_folder_that_cannot_be_written_stays(here):
    def read_only(words, refusal):
        os.chmod(os.path.join(here.home, ".config/modulecmd"), 0o555)
        here.refuses(words, refusal, **BY_NOBODY)
        here.refuses(["saverm", "c"], refusal, **BY_NOBODY)

    refuses_to_write(here, read_only)


def test_a_collection_is_saved_as_lists_of_Tcl_and_restored(here, folder):
    folder.module("foo/1", "setenv FOO 1\n")
    lists = {"LOADEDMODULES": "foo/1", "_LMFILES_": f"{here.start}/foo/1"}
    path = f"{here.start}:/a b:/it's $x"
    saved = f"module use --append {here.start}\nmodule use --append {{/a b}}\nmodule use --append {{/it's $x}}\n"
    here.answers(["save", "c"], env={"MODULEPATH": path + ":", "FOO": "1", **lists})
    file = os.path.join(here.home, ".config/modulecmd/c")
    same(content(file).decode(), saved + "module load foo/1\n", "what is saved")
    here.answers(["restore", "c"], out=text("sh", {"MODULEPATH": path, "FOO": "1", **lists}).decode())


def test_reports_go_to_standard_error(here, folder):
    for name in ("foo/1", "foo/2", "foo/10"):
        folder.module(name, f"module-whatis {{the {name} tool}}\n")
    for words, err in (
        (["avail", "-L"], f"{here.start}:\nfoo/10\n"),
        (["keyword", "THE FOO/2"], "foo/2: the foo/2 tool\n"),
        (["whatis", "foo/2"], "foo/2: the foo/2 tool\n"),
        (["show", "foo/2"], f"{here.start}/foo/2:\nmodule-whatis {{the foo/2 tool}}\n"),
        (["use"], f"{here.start}\n"),
    ):
        here.answers(words, err=err)


def test_the_pager_shows_what_the_program_reports_where_there_is_no_terminal(here, folder):
    folder.module("foo/1", "")
    done = subprocess.run(
        [os.path.join(here.prefix, "init", "pager"), "sh", "avail"], env=here.env, capture_output=True, check=False
    )
    same((done.stdout, done.stderr, done.returncode), (b"", f"{here.start}:\nfoo/1\n".encode(), 0), "what the pager shows")


def test_a_collection_is_restored_whatever_a_shell_says(here, folder):
    folder.module("foo/1", "setenv FOO 1\n")
    here.file("c", "module load foo\n")
    lists = {"LOADEDMODULES": "foo/1", "_LMFILES_": f"{here.start}/foo/1"}
    for shell, name, value in (
        (["bash", "--posix"], "LC_ALL", "zz_ZZ.UTF-8"),
        (["bash", "--posix"], "SHELLOPTS", "xtrace"),
        (["dash"], "LD_PRELOAD", "/no/such.so"),
    ):
        out, said, status = here.run("sh", "restore", "c", env={name: value}, under=[*shell, "-c", '"$0" "$@"'])
        same((out, status), (text("sh", {"FOO": "1", **lists}), 0), f"a restore with {name}={value}: {said!r}")
        true(said, f"something is said with {name}={value}")


def test_nothing_is_no_collection(here):
    nothing = "Nothing to save: no module is loaded, and MODULEPATH names no directory"
    for path in (None, "", ":", "::"):
        here.env.pop(b"MODULEPATH", None)
        here.refuses(["save"], nothing, env={} if path is None else {"MODULEPATH": path})
    same(os.listdir(here.home), [], "what is made")


def test_a_home_that_cannot_be_written_is_said(here):
    os.chmod(here.home, 0o555)
    here.refuses(["save"], f"Writing failed: '{here.home}/.config/modulecmd'", **BY_NOBODY)
    here.refuses(["save"], "Writing failed: '/dev/null/.config/modulecmd'", env={"HOME": "/dev/null"})
    here.refuses(["restore"], "There is no collection 'default'", env={"HOME": "/dev/null"})
    del here.env[b"HOME"]
    for words in (["save"], ["restore"], ["savelist"], ["saveshow"], ["saverm", "a"]):
        here.refuses(words, "HOME is not set")


def test_collections_stand_where_the_user_s_settings_do(here):
    here.answers(["save", "a"])
    here.answers(["save", "b"], env={"XDG_CONFIG_HOME": f"{here.home}/settings"})
    here.answers(["save", "c"], env={"XDG_CONFIG_HOME": "settings"})
    same(sorted(os.listdir(f"{here.home}/.config/modulecmd")), ["a", "c"], "by HOME")
    same(os.listdir(f"{here.home}/settings/modulecmd"), ["b"], "by XDG_CONFIG_HOME")


def test_collections_of_the_original_are_read_and_left(here, folder):
    folder.module("foo/1", "setenv FOO 1\n")
    used = f"module use --append {{{here.home}/a b}}\nmodule use --append {here.start}\n"
    written = used + "module load --notuasked foo\n\n"
    path = here.file("theirs", written, ".module")
    here.file("both", "module purge\n", ".module")
    here.file("both", "module load foo\n")
    here.answers(["savelist"], err="both\ntheirs\n")
    loaded = {"FOO": "1", "LOADEDMODULES": "foo/1", "_LMFILES_": f"{here.start}/foo/1"}
    directories = {"MODULEPATH": f"{here.home}/a b:{here.start}"}
    here.answers(["restore", "theirs"], out=text("sh", {**directories, **loaded}).decode())
    here.answers(["restore", "both"], out=text("sh", loaded).decode())
    here.refuses(["saverm", "theirs"], f"A collection of Environment Modules, which is left to it: '{path}'")
    same(content(path).decode(), written, "their file")


def test_directories_are_quoted_by_the_rules_of_each_shell(here, folder):
    name = ODD_NAME + "!\\'!"
    os.makedirs(os.path.join(folder.path.decode(), name))
    for shell, family in FAMILIES.items():
        for value in (name, "\n" + name + "\n\n"):
            place = f"{folder.path.decode()}/{value}"
            os.makedirs(place, exist_ok=True)
            found = here.run(shell, "use", place)
            path = f"{place}:{here.start}"
            if family == "csh" and "\n" in value:
                wanted = (b"", b"ERROR: Value of 'MODULEPATH' can't be said in this shell\n", 1)
            else:
                wanted = (text(family, {"MODULEPATH": path}), b"", 0)
            same(found, wanted, f"what use writes for {shell}")
        relative = "a\\b:'q:!r\\:'\\s!:\\:!'"
        found = here.run(shell, "use", "/", env={"MODULEPATH": relative})
        same(found, (text(family, {"MODULEPATH": f"/:{relative}"}), b"", 0), f"what use writes for {shell}")


def test_tools_are_found_whatever_path_is(here, folder):
    folder.module("foo/1", "prepend-path PATH /opt/foo\n")
    here.env[b"PATH"] = b"/nowhere"
    here.file("c", "module load foo\n")
    out = (
        "LOADEDMODULES='foo/1'; export LOADEDMODULES;\nPATH='/opt/foo:/nowhere'; export PATH;\n"
        f"_LMFILES_='{here.start}/foo/1'; export _LMFILES_;\n"
    )
    here.answers(["restore", "c"], out=out)
    here.answers(["save"])
    here.answers(["savelist"], err="c\ndefault\n")
    here.answers(["saverm", "c"])
    here.answers(["avail", "-L"], err=f"{here.start}:\nfoo/1\n")


def test_variables_of_the_user_stay_what_they_are(here):
    """The script that pages sets none but those whose names begin with _module_, and for a command another one."""
    script = content(os.path.join(here.prefix, "init", "pager")).decode()
    names = set(re.findall(r"\b([A-Za-z_]+)=", script)) - {"LC_ALL"}
    true(len(names) > 2, f"the variables {names}")
    same([name for name in sorted(names) if not name.startswith("_module_")], [], "the others")


def test_a_heading_of_several_lines_names_no_module(here):
    odd = here.start + "\nnope/1\nx"
    os.makedirs(odd + "/foo")
    with open(odd + "/foo/1", "w") as file:
        file.write("#%Module\nmodule-whatis {a tool}\n")
    here.env[b"MODULEPATH"] = odd.encode()
    here.answers(["keyword", "o"], err="foo/1: a tool\n")
