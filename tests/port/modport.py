"""What the built program `modport` writes for modulefiles, and what it says of them.

The rows stand in modport.txt, whose head says how to read it. What is written for the files of EasyBuild and Spack that
are below sites/generated is loaded in Environment Modules beside the files as they are, where that is there.
"""

import glob
import json
import os
import re
import shutil
import subprocess

import pytest

from tests.lib.harness import HERE, NOBODY, SECONDS, evaluated, examples, same, true

COOKIE = "#%Module\n"
ALL = ["\n".join([f"# {title}", *lines]) for title, lines in examples("port/modport.txt")]
ROWS = [row for row in ALL if "\n@ " not in row]
TREES = [row for row in ALL if "\n@ " in row]

# Where Environment Modules is installed, or what the benchmarks unpacked of it.
TOOLS = (
    "/usr/lib/*/modulecmd.tcl",
    "/usr/share/Modules/libexec/modulecmd.tcl",
    os.path.join(os.path.dirname(HERE), "build/bench/environment-modules/usr/lib/*/modulecmd.tcl"),
)

# What a tool keeps of its own.
OWN = re.compile(rb"LOADEDMODULES|_LMFILES_|__MODULES_.*|MODULEPATH|SHLVL")

NEED = re.compile(rb"(?m)^\s*prereq (\S+)")
SAID = re.compile(r"(\d+: )(translated|computed|changed|left out)(: .*)")

# What a status of 1 comes from.
TOLD = re.compile(r": (left out|changed): ")


@pytest.fixture(scope="session")
def program(built):
    return built("modport")


def parts(row):
    """The lines of a row by their marks: a title, the modulefile, what is written and what is said."""
    lines = row.strip("\n").split("\n")
    assert lines[0].startswith("# "), row
    given = [line[2:] for line in lines[1:] if line.startswith("< ")]
    written = [line[2:] for line in lines[1:] if line.startswith("> ")]
    said = [line for line in lines[1:] if line[:2] not in ("< ", "> ")]
    assert all(SAID.fullmatch(line) for line in said), row
    return lines[0][2:], given, written, said


def text(lines):
    return COOKIE + "".join(line + "\n" for line in lines)


@pytest.mark.parametrize("row", ROWS, ids=lambda row: parts(row)[0])
@pytest.mark.parametrize("source", ["FILE", "--stdin"])
def test_rows(folder, row, source):
    _, given, written, said = parts(row)
    modulefile = text(given).encode()
    path = source if source == "--stdin" else os.fsdecode(folder.file("m", modulefile))
    done = folder.run(path, given=modulefile)
    same(done.stdout.decode(), text(written), "what is written")
    same(done.stderr.decode(), "".join(f"{path}:{line}\n" for line in said), "what is said")
    same(done.returncode, int(any(TOLD.search(line) for line in said)), "status")


@pytest.mark.parametrize("row", ROWS, ids=lambda row: parts(row)[0])
def test_translated_twice(folder, row):
    """What is written has nothing more to translate."""
    _, _, written, _ = parts(row)
    done = folder.run("--stdin", given=text(written).encode())
    same(done.stdout.decode(), text(written), "what is written")


def test_refused(folder):
    """Nothing is written where the modulefile isn't there, isn't a script or isn't named."""
    usage = (
        "Usage: modport [--json] [--strict] [--host NAME=VALUE]... [--flatten RECORDS [--kept NAME=VALUE]...] "
        "FILE | --stdin | [--one-version] [--alias-scripts] [--drop-unread] [--defaults FILE] FROM TO [FROM TO]... | "
        "[--one-version] [--alias-scripts] [--drop-unread] [--defaults FILE] --check FROM [TO]"
    )
    os.mkfifo(folder.at("fifo"))
    for words, given, said in (
        (["nothing"], b"", "No such file"),
        ([folder.at("fifo")], b"", "No such file"),
        ([folder.modules], b"", "No such file"),
        (["--stdin"], b"#%Module\nset x {\n", "Missing close-brace at byte 15"),
        ([], b"", usage),
        (["--all", "a"], b"", usage),
        (["--stdin", "a"], b"", usage),
        (["a", "b", "c"], b"", usage),
        (["--check"], b"", usage),
        (["--one-version", "--stdin"], b"", usage),
        (["--one-version", "a"], b"", usage),
        (["--alias-scripts", "a"], b"", usage),
        (["--drop-unread", "a"], b"", usage),
        (["--drop-unread", "--stdin"], b"", usage),
        (["--like", "em", "a", "b"], b"", usage),
        (["--defaults", "d", "a"], b"", usage),
        (["--defaults", "d", "--stdin"], b"", usage),
        (["--defaults", "d", "--defaults", "d", "a", "b"], b"", usage),
        (["a", "b", "--defaults"], b"", usage),
        (["--host", "machine", "a"], b"", usage),
        (["--host", "machine=", "a"], b"", usage),
        (["--host", "processor=x", "a"], b"", usage),
        (["--host", "machine=x", "--host", "machine=x", "a"], b"", usage),
        (["a", "--host"], b"", usage),
        (["a", "--flatten"], b"", usage),
        (["--flatten", "s", "--flatten", "s", "a"], b"", usage),
        (["--kept", "HOME=/home/me", "a"], b"", usage),
        (["--flatten", "s", "--kept", "HOME=home", "a"], b"", usage),
        (["--flatten", "s", "--kept", "HOME=/", "a"], b"", usage),
        (["--flatten", "s", "--kept", "USER=a/b", "a"], b"", usage),
        (["--flatten", "s", "--kept", "SHELL=sh", "a"], b"", usage),
        (["--flatten", "s", "--kept", "USER=me", "--kept", "USER=me", "a"], b"", usage),
        (["--flatten", "nothing", "--stdin"], b"#%Module\n", "No such file"),
    ):
        done = folder.run(*words, given=given)
        same((done.stdout, done.stderr.decode(), done.returncode), (b"", f"ERROR: {said}\n", 2), f"of {words}")


# How files come: Unicode and ISO 8859-1 have the bytes of each character.
COMING = (
    ("as it is", "#%Module\nsetenv X café\n".encode(), []),
    ("Latin-1", b"#%Module\nsetenv X caf\xe9\n", ["Latin-1"]),
    ("CR LF", "#%Module\r\nsetenv X café\r\n".encode(), ["CR LF"]),
    ("a byte order mark", "\ufeff#%Module\nsetenv X café\n".encode(), ["byte order mark"]),
    ("all three", b"\xef\xbb\xbf#%Module\r\nsetenv X caf\xe9\n", ["byte order mark", "Latin-1", "CR LF"]),
)


@pytest.mark.parametrize("given, said", [it[1:] for it in COMING], ids=[it[0] for it in COMING])
@pytest.mark.parametrize("source", ["FILE", "--stdin"])
def test_files_as_they_come(folder, source, given, said):
    path = source if source == "--stdin" else os.fsdecode(folder.file("m", given))
    done = folder.run(path, given=given)
    same(done.stdout.decode(), "#%Module\nsetenv X café\n", "what is written")
    same(done.stderr.decode(), "".join(f"{path}:1: translated: {it}\n" for it in said), "what is said")
    same(done.returncode, 0, "status")


def test_a_lone_carriage_return_stays_and_is_told(folder):
    given = b"#%Module\nputs stderr {a\rb\r}\r"
    done = folder.run("--stdin", given=given)
    said = b"--stdin:1: left out: carriage return\n"
    same((done.stdout, done.stderr, done.returncode), (given, said, 1), "what is written")


# What is computed.

# Words of `file join`, `file tail` and `file dirname`, of which Tcl says what they are.
NAMES = (
    *("/", "//", "a", "/a", "a/", "/a/b", "/a//b/", "a//b", "./a", "../a", "a/..", ".", "..", "a.b/c-d", "///a///"),
    *("/opt/x86_64/lib64", "A+B", "a,b/c:d", "#a/#b", "%a/@b", "*/?"),
)
JOINED = (
    *("/ a", "/a/ b/", "a b//c", "a ../b", "//a b", "/a b c d", "/x//y z//w/ v", ". a", "# a"),
    *("/a /b", "a /b c", "a / b", "a b /", "/a b //c/ d //e"),
)


@pytest.mark.parametrize("what", [*(f"{it} {name}" for it in ("join", "tail", "dirname") for name in NAMES),
                                  *(f"join {names}" for names in JOINED)])  # fmt: skip
def test_names_of_files_beside_tcl(folder, what):
    """What is written for a command is a word that Tcl reads as its result."""
    if not shutil.which("tclsh"):
        pytest.skip("Tcl isn't there")
    command = f"[file {what}]"
    done = folder.run("--stdin", given=text([f"puts stdout {command}"]).encode())
    true(b"file" not in done.stdout, f"{command} is computed")
    script = f"puts stdout {command}\n".encode() + done.stdout
    tcl = subprocess.run(["tclsh"], input=script, capture_output=True, timeout=SECONDS, check=True)
    result, written = tcl.stdout.decode().splitlines()
    same(written, result, f"what is written for {command}")


# Commands of modulefiles for tclsh: each says its words, and setenv sets its variable.
COMMANDS = """
foreach name {setenv prepend-path append-path conflict module prereq} {
    proc $name args [string map [list NAME $name] {
        puts [list NAME {*}$args]
        if {{NAME} eq {setenv}} { set ::env([lindex $args 0]) [lindex $args 1] }
    }]
}
proc is-loaded {name} { return 0 }
proc module-info {args} { return 1 }
"""

KNOWN = (
    "set root /apps/gcc\nset v 12.3\nsetenv R $root/$v\nprepend-path PATH [file join $env(R) bin] [file tail $root]\n",
    "set root //apps//gcc/\nset top [file dirname $root]\nsetenv T [file join $top {a b} c/]\nsetenv S $env(T)/x\n",
    'set a "x y"\nset b $a/z\nsetenv B [file tail "$b"]\nsetenv C [file join / $b "$a"]\n',
    "set r /a\nif {![is-loaded x]} {\n  module load x\n  # r\n} else { setenv X 1 }\nsetenv S [file join $r b]\n",
    "set r {}\nsetenv A [file join $r b]\nset q [string length $r]\nsetenv B [file join / $r]\n",
    "set r /a\nforeach d {b c} { append r /$d }\nsetenv A [file join $r d]\nset r /e\nsetenv B [file tail $r]\n",
    "set n r\nset r /a\nset $n /b\nsetenv A [file join $r c]\n",
    "set r /a\nset l [list set r /b]\nif {1} $l\nsetenv A [file join $r c]\n",
)


@pytest.mark.parametrize("given", KNOWN)
def test_known_values_beside_tcl(folder, given):
    """Tcl reads the same words from what is written as from the file."""
    if not shutil.which("tclsh"):
        pytest.skip("Tcl isn't there")
    done = folder.run("--stdin", given=given.encode())
    results = [
        subprocess.run(["tclsh"], input=COMMANDS.encode() + it, capture_output=True, timeout=SECONDS, check=True)
        for it in (given.encode(), done.stdout)
    ]
    same(results[1].stdout.decode(), results[0].stdout.decode(), "what Tcl reads")


HOST = ("sysname=Linux", "nodename=n1.cluster", "domain=cluster", "release=5.14.0", "version=#1 SMP", "machine=aarch64")


def test_host(folder):
    """What is said of the host is written where the file asks for it."""
    given = text(
        [
            "setenv A [uname machine]/[uname sysname]",
            'puts stderr "on [info hostname], of [uname nodename] and [uname node]"',
            "set v [uname version]",
            "setenv B $tcl_platform(machine)-$::tcl_platform(os)-$tcl_platform(osVersion).[uname domain]",
            "setenv C $tcl_platform(user)",
            "setenv D [uname processor]",
            "if {[uname machine] eq {x86_64}} { setenv E 1 }",
        ]
    )
    written = text(
        [
            "setenv A aarch64/Linux",
            'puts stderr "on n1.cluster, of n1.cluster and n1.cluster"',
            "set v {#1 SMP}",
            "setenv B aarch64-Linux-5.14.0.cluster",
            "setenv C $tcl_platform(user)",
            "setenv D [uname processor]",
            "if {[uname machine] eq {x86_64}} { setenv E 1 }",
        ]
    )
    words = [word for it in HOST for word in ("--host", it)]
    done = folder.run(*words, "--stdin", given=given.encode())
    same(done.stdout.decode(), written, "what is written")
    said = [
        "2: computed: [uname machine]: aarch64", "2: computed: [uname sysname]: Linux",
        "3: computed: [info hostname]: n1.cluster", "3: computed: [uname nodename]: n1.cluster",
        "3: computed: [uname node]: n1.cluster", "4: computed: [uname version]: {#1 SMP}",
        "5: computed: $tcl_platform(machine): aarch64", "5: computed: $::tcl_platform(os): Linux",
        "5: computed: $tcl_platform(osVersion): 5.14.0", "5: computed: [uname domain]: cluster",
        "6: left out: tcl_platform", "7: left out: uname", "8: left out: uname",
    ]  # fmt: skip
    same(done.stderr.decode().splitlines(), [f"--stdin:{it}" for it in said], "what is said")
    same(done.returncode, 1, "status")


def test_computed_in_json(folder):
    path = os.fsdecode(folder.file("m", COOKIE + "\nsetenv A [file join /a \\\n  b]\n"))
    done = folder.run("--json", path)
    same(
        [json.loads(line) for line in done.stderr.decode().splitlines()],
        [{"file": path, "line": 3, "what": "[file join /a \\", "why": "computed", "text": "/a/b"}],
        "the report",
    )
    same(done.stdout.decode(), COOKIE + "\nsetenv A /a/b\n", "what is written")


# What is flattened.

KEPT = ("--kept", "HOME=/home/me", "--kept", "USER=me")


def loaded_text(*lines):
    """What `load` of Environment Modules writes for sh where these lines are among them (module(1))."""
    return "".join(f"{line}\n" for line in (*lines, "LOADEDMODULES=m; export LOADEDMODULES;", "test 0;"))


def setting(name, value):
    return f"{name}={value}; export {name};"


def flattened(folder, given, text, *words):
    """What is written for a modulefile whose load wrote this, what is said without the path, and the status."""
    path = os.fsdecode(folder.file("m", given))
    done = folder.run("--flatten", folder.file("records", text), *words, path)
    said = done.stderr.decode().splitlines()
    true(all(line.startswith(f"{path}:") for line in said), f"the path stands before each of {said}")
    return done.stdout.decode(), [line.removeprefix(path) for line in said], done.returncode


def test_flattened(folder):
    """What a load did stands in place of the commands, behind what is before the first; each command has a line."""
    given = "#%Module1.0\n# A tool\n\nset cores [exec nproc]; set n 1\nif {$cores > 2} {\n  setenv CORES $cores\n}\n# end\n"
    same(
        flattened(folder, given, loaded_text(setting("CORES", "4"), setting("TEXT", "a\\ b"))),
        (
            "#%Module1.0\n# A tool\n\nsetenv CORES 4\nsetenv TEXT {a b}\n",
            [
                ":4: flattened: set cores [exec nproc]; set n 1".partition(";")[0],
                ":4: flattened: set n 1",
                ":5: flattened: if {$cores > 2} {",
            ],
            0,
        ),
        "what is written and said",
    )


# A line that a load wrote, and what is written for it.
WRITTEN = (
    ("A=; export A;", "setenv A {}"),
    (setting("A", "x\\#y"), "setenv A x#y"),
    (setting("A", "a\\;b"), "setenv A {a;b}"),
    (setting("A", "\\$x\\[y\\]"), "setenv A {$x[y]}"),
    ("unset A;", "unsetenv A"),
    (setting("PATH", "/x:modport-mark:/usr/bin:/bin"), "prepend-path PATH /x"),
    (setting("PATH", "/x:/y:modport-mark:/usr/bin:/bin:/z"), "prepend-path PATH /x:/y\nappend-path PATH /z"),
    (setting("P", "modport-mark:/x"), "append-path P /x"),
    (setting("P", "a,b,modport-mark"), "prepend-path -d {,} P a,b"),
    (setting("__MODULES_LMCONFLICT", "m\\&b\\&c"), "conflict b c"),
    (setting("__MODULES_LMPREREQ", "m\\&b\\&c\\|d"), "prereq b\nprereq c d"),
    (setting("__MODULES_PUSHENV_A", "m\\&v") + "\n" + setting("A", "v"), "pushenv A v"),
    (setting("A", "/home/me"), 'setenv A "[getenv HOME]"'),
    (setting("A", "/home/me/x\\ y"), 'setenv A "[getenv HOME]/x y"'),
    (setting("A", "/home/men"), "setenv A /home/men"),
    (setting("A", "/x/home/me"), 'setenv A "/x/home/[getenv USER]"'),
    (setting("A", "me"), 'setenv A "[getenv USER]"'),
    (setting("P", "/x:/home/me/me:me:modport-mark"), 'prepend-path P "/x:[getenv HOME]/[getenv USER]:[getenv USER]"'),
)


@pytest.mark.parametrize("line, written", WRITTEN)
def test_what_a_load_wrote(folder, line, written):
    found = flattened(folder, COOKIE + "exec true\n", loaded_text(line), *KEPT)
    same((found[0], found[2]), (f"{COOKIE}{written}\n", 0), "what is written, and the status")


# What doesn't serve: a file of it stays as it is, and a line says why.
UNSERVING = (
    ("a failure", "test 0 = 1;\n", "the load failed"),
    ("an alias", loaded_text("alias ll=ls;"), "it does something that is no variable"),
    ("other modules", setting("LOADEDMODULES", "b:m") + "\n", "it loads other modules"),
    ("another path", loaded_text(setting("PATH", "/x:modport-mark")), "a path has other elements than were added"),
    ("a home with a tilde", loaded_text(setting("A", "~/x")), "a command of it isn't read even then"),
)


@pytest.mark.parametrize("text, why", [it[1:] for it in UNSERVING], ids=[it[0] for it in UNSERVING])
def test_what_does_not_serve(folder, text, why):
    given = COOKIE + "# kept\nexec true\nsetenv B 1\n"
    said = [":3: left out: exec", f": left out: not flattened, as {why}"]
    same(flattened(folder, given, text, *KEPT), (given, said, 1), "what is written and said")


def test_what_is_read_is_not_flattened(folder):
    found = flattened(folder, COOKIE + "depends-on b\n", loaded_text(setting("A", "1")))
    same(found, (COOKIE + "prereq b\n", [":2: translated: depends-on b"], 0), "what is written and said")


def test_what_asks_is_told_where_it_is_flattened(folder):
    given = COOKIE + "if {[is-loaded g]} {exec true}\n"
    found = flattened(folder, given, loaded_text(setting("A", "1")))
    told = ": changed: is-loaded: what it did in one load is written for good"
    same(found, (COOKIE + "setenv A 1\n", [":2: flattened: if {[is-loaded g]} {exec true}", told], 1), "all")


def test_an_option_by_which_values_before_count_is_told_where_it_is_flattened(folder):
    given = COOKIE + "prepend-path --duplicates P /x[exec true]\n"
    found = flattened(folder, given, loaded_text(setting("P", "/x:modport-mark")))
    told = ": changed: --duplicates: what it did in one load is written for good"
    same(found, (COOKIE + "prepend-path P /x\n", [f":2: flattened: {given.split(chr(10))[1]}", told], 1), "all")


@pytest.mark.parametrize("line", ["remove-path P /x", "setenv --set-if-undef A 1", "module load b"])
def test_what_a_load_with_marks_does_not_show(folder, line):
    """An element that isn't there, a value that isn't set where a mark is, and what another module did."""
    given = COOKIE + f"{line}\nexec true\n"
    text, said, status = flattened(folder, given, loaded_text(setting("B", "1")))
    why = "it removes elements of a path, sets what isn't set, or loads modules"
    same((f": left out: not flattened, as {why}" in said, "setenv B" in text, status), (True, False, 1), f"of {said}")


# Trees.


def tree(folder, files):
    """Writes files by their names, and gives their folder and the path of another one that isn't there."""
    for name, content in files.items():
        folder.file(f"from/{name}", content)
    return folder.at("from"), folder.at("to")


def contents(path):
    """The files and links below a folder: their bytes, or where they lead."""
    found = {}
    for place, _, names in os.walk(path):
        for name in names:
            at = os.path.join(place, name)
            key = os.path.relpath(at, path).decode()
            if os.path.islink(at):
                found[key] = os.readlink(at).decode()
            else:
                with open(at, "rb") as file:
                    found[key] = file.read()
    return found


def ends(folder, words, out, err, status):
    done = folder.run(*words)
    what = f"of {words}"
    same(done.stdout.decode(), out, f"standard output {what}")
    same(done.stderr.decode(), err, f"standard error {what}")
    same(done.returncode, status, f"status {what}")


def test_tree(folder):
    """Modulefiles, default files and what links lead to are written; links, and what is no modulefile, are said."""
    old, new = tree(
        folder,
        {
            "gcc/12": COOKIE + "module load zlib\n",
            "gcc/.version": "#%Module\nset ModulesVersion 12\n",
            "zlib/1": COOKIE + "setenv Z 1\n",
            "zlib/README": "read me\n",
        },
    )
    os.symlink("1", os.path.join(old, b"zlib/new"))
    at = old.decode()
    ends(
        folder,
        [old, new],
        f"{at}/gcc/12:2: translated: module load zlib\n{at}/zlib/README: left out: no modulefile\n"
        f"{at}/zlib/new: translated: link to 1\n",
        "",
        0,
    )
    same(
        contents(new),
        {
            "gcc/12": b"#%Module\nprereq zlib\n",
            "gcc/.version": b"#%Module\nset ModulesVersion 12\n",
            "zlib/1": b"#%Module\nsetenv Z 1\n",
            "zlib/new": b"#%Module\nsetenv Z 1\n",
        },
        "what is written",
    )


def test_check_writes_nothing(folder):
    old, new = tree(folder, {"a/1": COOKIE + "module load b\nexec true\n"})
    lines = f"{old.decode()}/a/1:2: translated: module load b\n{old.decode()}/a/1:3: left out: exec\n"
    ends(folder, ["--check", old], lines, "", 1)
    ends(folder, ["--check", old, new], lines, "", 1)
    true(not os.path.lexists(new), "nothing is written")


def test_one_version(folder):
    """A modulefile of a folder is in conflict with its name; one that is already, and a default file, stay."""
    old, new = tree(
        folder,
        {
            "gcc/12": COOKIE + "# of GNU\n\nprereq zlib\n",
            "gcc/13": COOKIE + "setenv G 1\nconflict icc gcc\n",
            "gcc/14": COOKIE + "conflict gcc/12 {g cc}\n",
            "gcc/.version": "#%Module\nset ModulesVersion 12\n",
            "lib/mpi/4": COOKIE + "module load gcc\n",
            "mpi/4": COOKIE + "if {1} { conflict mpi }\n",
            "my tool/1": COOKIE + "setenv M 1\n",
            "none/1": COOKIE,
            "tool": COOKIE + "setenv T 1\n",
        },
    )
    at = old.decode()
    said = (
        "lib/mpi/4:2: translated: module load gcc", "lib/mpi/4: added: conflict lib/mpi", "mpi/4: added: conflict mpi",
        "gcc/12: added: conflict gcc", "gcc/14: added: conflict gcc", "gcc/14:2: left out: g cc",
    )  # fmt: skip
    done = folder.run("--one-version", old, new)
    same(sorted(done.stdout.decode().splitlines()), sorted(f"{at}/{it}" for it in said), "what is said")
    same((done.stderr, done.returncode), (b"", 1), "standard error and status")
    written = {
        "gcc/12": "# of GNU\n\nconflict gcc\nprereq zlib\n",
        "gcc/13": "setenv G 1\nconflict icc gcc\n",
        "gcc/14": "conflict gcc\nconflict gcc/12 {g cc}\n",
        "gcc/.version": "set ModulesVersion 12\n",
        "lib/mpi/4": "conflict lib/mpi\nprereq gcc\n",
        "mpi/4": "conflict mpi\nif {1} { conflict mpi }\n",
        "my tool/1": "setenv M 1\n",
        "none/1": "",
        "tool": "setenv T 1\n",
    }
    same(contents(new), {name: (COOKIE + it).encode() for name, it in written.items()}, "what is written")
    again = folder.run("--one-version", "--check", new)
    same((again.stdout, again.returncode), (new + b"/gcc/14:3: left out: g cc\n", 1), "what is written has nothing more to add")


def files_of(row):
    """The files of a row of a tree by their names, each as the parts of a row are."""
    first, *files = re.split(r"(?m)^@ ", row.strip("\n"))
    return {name: parts(f"{first.rstrip()}\n{lines}")[1:] for name, _, lines in (it.partition("\n") for it in files)}


def as_written(new, given, written):
    """What is written for a file of a row, or for a script, which isn't read."""
    lines = [line.replace("TO/", f"{new.decode()}/") for line in written]
    return "".join(line + "\n" for line in lines) if is_script(given, written) else text(lines)


def is_script(given, written):
    return not given and written[:1] == ["#!/bin/sh"]


@pytest.mark.parametrize("row", TREES, ids=lambda row: row.strip("\n").split("\n")[0][2:])
def test_rows_of_trees(folder, row):
    files = files_of(row)
    read = {name: text(given) for name, (given, written, _) in files.items() if not is_script(given, written)}
    old, new = tree(folder, read)
    options = [it for mark, it in (("set-alias", "--alias-scripts"), ("dropped", "--drop-unread")) if mark in row]
    done = folder.run(*options, old, new)
    at = old.decode()
    said = [f"{at}/{name}:{line}" for name, (_, _, lines) in files.items() for line in lines]
    same(sorted(done.stdout.decode().splitlines()), sorted(said), "what is said")
    same(done.stderr, b"", "standard error")
    same(done.returncode, int(any(TOLD.search(line) for line in said)), "status")
    same(
        contents(new),
        {name: as_written(new, given, written).encode() for name, (given, written, _) in files.items()},
        "what is written",
    )


# Aliases.

# A program that shows its arguments.
SHOW = '#!/bin/sh\nfor it; do printf "<%s>" "$it"; done\n'


def alias_tree(folder):
    """A tree with an alias for a program that shows its arguments, and the path of another one that isn't there."""
    show = folder.file("show", SHOW)
    os.chmod(show, 0o755)
    return tree(folder, {"a/1": COOKIE + f"set-alias shown {{{show.decode()} -a\tb}}\n"})


def words_shown(shell, load):
    """What the alias shows of two arguments and an empty one, in a shell that has evaluated the text of a load."""
    words = [shell, "-c", "eval \"$1\"; eval 'shown x \"y  z\" \"\"'", "sh", load]
    done = subprocess.run(words, env={b"PATH": b"/usr/bin:/bin"}, capture_output=True, timeout=SECONDS, check=False)
    same(done.stderr, b"", f"standard error of {shell}")
    return done.stdout


@pytest.mark.parametrize("shell", ["dash", "bash", "ksh", "zsh"])
def test_an_alias_in_a_shell(folder, built, shell):
    """Once the module is loaded, its script runs the command with the arguments behind it."""
    if not shutil.which(shell):
        pytest.skip(f"{shell} isn't there")
    old, new = alias_tree(folder)
    done = folder.run("--alias-scripts", old, new)
    same((done.stderr, done.returncode), (b"", 1), "standard error and status")
    env = {b"MODULEPATH": new, b"PATH": b"/usr/bin:/bin"}
    words = [built("modulecmd"), "sh", "load", "a/1"]
    load = subprocess.run(words, env=env, capture_output=True, timeout=SECONDS, check=True).stdout
    same(words_shown(shell, load), b"<-a><b><x><y  z><>", f"what {shell} shows")


def test_an_alias_beside_environment_modules(folder, tool):
    """The alias that Environment Modules sets, and the script, do the same in a shell."""
    old, new = alias_tree(folder)
    folder.run("--alias-scripts", old, new)
    found = []
    for place in (old, new):
        env = {b"MODULEPATH": place, b"PATH": b"/usr/bin:/bin"}
        words = [tool, "sh", "load", "a/1"]
        load = subprocess.run(words, env=env, capture_output=True, timeout=SECONDS, check=True).stdout
        found.append(words_shown("dash", load))
    same(found, [b"<-a><b><x><y  z><>"] * 2, "what is shown")


def test_scripts_are_programs_by_the_umask(folder):
    old, new = alias_tree(folder)
    mask = os.umask(0o027)
    try:
        folder.run("--alias-scripts", old, new)
    finally:
        os.umask(mask)
    places = ("bin", "bin/a", "bin/a/1", "bin/a/1/shown")
    modes = [os.stat(os.path.join(new, os.fsencode(it))).st_mode & 0o777 for it in places]
    same(modes, [0o750] * 4, "permissions")


@pytest.mark.parametrize("named", [True, False])
def test_an_alias_in_a_tree_of_a_relative_path(folder, named):
    """The path of the scripts is absolute, by the name of the working directory that the shell has."""
    old, _ = alias_tree(folder)
    place = folder.modules
    if named:
        place = folder.modules + b".link"
        os.symlink(folder.modules, place)
    env = {b"PWD": place} if named else {}
    words = [folder.program, "--alias-scripts", old, b"./x/../to/"]
    os.mkdir(folder.at("x"))
    done = subprocess.run(words, cwd=place, env=env, capture_output=True, timeout=SECONDS, check=False)
    same((done.stderr, done.returncode), (b"", 1), "standard error and status")
    written = contents(folder.at("to"))
    same(written["a/1"], b"#%Module\nprepend-path PATH " + place + b"/to/bin/a/1\n", "what is written")
    true("bin/a/1/shown" in written, "the script is there")


def test_check_of_an_alias(folder):
    """The report is that of a tree that is written, and nothing is."""
    old, new = alias_tree(folder)
    done = folder.run("--check", "--alias-scripts", old)
    same((done.stderr, done.returncode), (b"", 1), "standard error and status")
    report = done.stdout
    same(folder.run("--alias-scripts", old, new).stdout, report, "the report")
    true(report.startswith(old + b"/a/1:2: changed: set-alias shown {"), "the alias is changed")
    strict = folder.run("--check", "--alias-scripts", "--strict", old)
    same(strict.stdout, old + b"/a/1:2: left out: set-alias\n", "the report, where nothing may differ")


def test_a_script_that_cant_be_written(folder):
    """It isn't there, is said, and the other files are written."""
    old, new = tree(folder, {"a/1": COOKIE + f"set-alias x {{date {'u' * 5000}}}\n", "b/1": COOKIE + "setenv B 1\n"})
    done = folder.run("--alias-scripts", old, new, most=4096)
    at = new.decode()
    same(done.stderr.decode(), f"ERROR: {at}/bin/a/1/x: Can't be written\n", "standard error")
    same(done.returncode, 2, "status")
    line = f"#%Module\nprepend-path PATH {at}/bin/a/1\n".encode()
    same(contents(new), {"a/1": line, "b/1": b"#%Module\nsetenv B 1\n"}, "what is written")


def test_a_family_in_a_file_that_is_no_script(folder):
    """Such a file is in no family."""
    old, new = tree(
        folder, {"broken/1": COOKIE + "family compiler\nset x {\n", "gcc/12": COOKIE + "family compiler\n"}
    )
    at = old.decode()
    ends(
        folder,
        [old, new],
        f"{at}/gcc/12:2: translated: family compiler\n",
        f"ERROR: {at}/broken/1: Missing close-brace at byte 31\n",
        2,
    )
    written = b"#%Module\nsetenv MODULES_FAMILY_COMPILER gcc\nsetenv LMOD_FAMILY_COMPILER gcc\n"
    same(contents(new), {"gcc/12": written}, "what is written")


def test_json(folder):
    """A line is an object, whatever bytes the names have."""
    old, _ = tree(folder, {'a/"1\\': COOKIE + "if {![is-loaded b]} {\n\tmodule load b\n}\nexec true\n", "a/x": "x"})
    done = folder.run("--check", "--json", old)
    path = os.path.join(old, b"a").decode()
    same(
        [json.loads(line) for line in done.stdout.decode().splitlines()],
        [
            {"file": path + '/"1\\', "line": 2, "what": "if {![is-loaded b]} {", "why": "translated"},
            {"file": path + '/"1\\', "line": 5, "what": "exec", "why": "left out"},
            {"file": path + "/x", "what": "no modulefile", "why": "left out"},
        ],
        "the report",
    )
    same((done.stderr, done.returncode), (b"", 1), "standard error and status")


def test_the_directories_above_are_made(folder):
    """Those of the directory that is written, where they aren't there; none in the tree that is read, and none where
    something else is in their place."""
    old, new = tree(folder, {"a/1": COOKIE})
    ends(folder, [old, os.path.join(new, b"x/y")], "", "", 0)
    same(contents(new), {"x/y/a/1": COOKIE.encode()}, "what is written")
    ends(folder, [old, os.path.join(old, b"x/y")], "", "ERROR: In the directory that is read\n", 2)
    same(os.listdir(old), [b"a"], "what is read")
    folder.file("file", "kept\n")
    ends(folder, [old, os.path.join(folder.at("file"), b"x/y")], "", "ERROR: Can't be written\n", 2)


def test_what_is_there_stays(folder):
    """A directory with files isn't written to, and neither is one in the tree that is read."""
    old, new = tree(folder, {"a/1": COOKIE})
    folder.file("to/kept", "kept\n")
    ends(folder, [old, new], "", "ERROR: Not an empty directory\n", 2)
    same(contents(new), {"kept": b"kept\n"}, "what was there")
    ends(folder, [old, folder.at("to/kept")], "", "ERROR: No such directory\n", 2)
    ends(folder, [old, os.path.join(old, b"new")], "", "ERROR: In the directory that is read\n", 2)
    ends(folder, [old, old], "", "ERROR: Not an empty directory\n", 2)
    ends(folder, [folder.at("nothing"), folder.at("new")], "", "ERROR: No such directory\n", 2)
    true(not os.path.lexists(folder.at("new")), "nothing is made where nothing is read")


def test_an_empty_directory_is_taken(folder):
    old, new = tree(folder, {"a/1": COOKIE + "setenv A 1\n"})
    os.mkdir(new)
    ends(folder, [old, new], "", "", 0)
    same(contents(new), {"a/1": b"#%Module\nsetenv A 1\n"}, "what is written")


def test_goes_on_behind_what_cant_be_done(folder):
    """A file that isn't translated isn't written, is said, and the others are."""
    old, new = tree(
        folder,
        {
            "a/1": COOKIE + "set x {\n",
            "a/2": b"#%Module\r\nsetenv X caf\xe9\r\n",
            "a/3": COOKIE + "module load b\n",
        },
    )
    os.mkfifo(os.path.join(old, b"a/pipe"))
    os.symlink("/etc/passwd", os.path.join(old, b"a/out"))
    os.symlink("../../x", os.path.join(old, b"a/up"))
    at = old.decode() + "/a"
    ends(
        folder,
        [old, new],
        f"{at}/2:1: translated: Latin-1\n{at}/2:1: translated: CR LF\n"
        f"{at}/3:2: translated: module load b\n{at}/out: left out: link to /etc/passwd\n"
        f"{at}/pipe: left out: neither a file nor a directory\n{at}/up: left out: link to ../../x\n",
        f"ERROR: {at}/1: Missing close-brace at byte 15\n",
        2,
    )
    written = {"a/2": "#%Module\nsetenv X café\n".encode(), "a/3": b"#%Module\nprereq b\n"}
    same(contents(new), written, "what is written")


def test_unreadable_files_and_permissions(folder):
    """A file of a group stays one, and one that may not be read is said."""
    old, new = tree(folder, {"a/1": COOKIE, "b/1": COOKIE + "setenv B 1\n"})
    os.chmod(os.path.join(old, b"a/1"), 0o000)
    os.chmod(os.path.join(old, b"b/1"), 0o640)
    os.chmod(os.path.join(old, b"b"), 0o750)
    if os.geteuid() == 0:
        for name in (folder.modules, old, *(os.path.join(old, it) for it in (b"a", b"a/1", b"b", b"b/1"))):
            os.chown(name, NOBODY, NOBODY)
    done = folder.run(old, new, user=NOBODY)
    same(done.stderr.decode(), f"ERROR: {old.decode()}/a/1: Can't be read\n", "standard error")
    same((done.stdout, done.returncode), (b"", 2), "standard output and status")
    same(contents(new), {"b/1": b"#%Module\nsetenv B 1\n"}, "what is written")
    modes = [os.stat(os.path.join(new, it)).st_mode & 0o777 for it in (b"b", b"b/1")]
    same(modes, [0o750, 0o640], "permissions")


# What EasyBuild and Spack write.


@pytest.mark.parametrize("name", ["easybuild", "spack"])
def test_generated(folder, name):
    """Each file of the two is within the profile once it is translated, and one without needs is the same."""
    new = folder.at(name)
    done = folder.run(os.path.join(HERE, "sites", "generated", name), new)
    same((done.stderr, done.returncode), (b"", 0), "standard error and status")
    true(b": left out: " not in done.stdout, "nothing is left out")
    for path, text in contents(new).items():
        with open(os.path.join(HERE, "sites", "generated", name, path), "rb") as file:
            given = file.read()
        loads = re.search(rb"(?m)^\s*(module load|depends-on)\b", given)
        true(loads or text == given, f"{path} is written as it was")
        true(not re.search(rb"(?m)^\s*(module load|depends-on)\b", text), f"{path} loads nothing")
        for needed in re.findall(rb"(?m)^\s*(?:module load|depends-on) (\S+)", given):
            true(b"prereq " + needed in text, f"{path} asks for {needed}")


@pytest.fixture(scope="session")
def tool():
    """Environment Modules."""
    for pattern in TOOLS:
        for path in sorted(glob.glob(pattern)):
            return path
    return pytest.skip("Environment Modules isn't there")


def needed(files, name, found):
    """The modules that a translated one needs, each behind its own needs, and it."""
    for other in NEED.findall(files[name]):
        needed(files, other.decode(), found)
    if name not in found:
        found.append(name)
    return found


def made(tool, place, names, **more):
    """The variables that a tool makes of loads from a folder, but for its own."""
    env = {b"MODULEPATH": os.fsencode(place), b"PATH": b"/usr/bin:/bin"}
    env |= {os.fsencode(name): os.fsencode(value) for name, value in more.items()}
    words = [tool, "sh", "load", *names]
    done = subprocess.run(words, env=env, capture_output=True, timeout=SECONDS, check=True)
    true(b"ERROR" not in done.stderr, f"{words} in {place}: {done.stderr.decode()}")
    return {name: value for name, value in evaluated(done.stdout, env).items() if not OWN.fullmatch(name)}


@pytest.mark.parametrize("name", ["easybuild", "spack"])
def test_generated_beside_environment_modules(folder, tool, name):
    """A module that loads what it needs, and its translation behind its needs, make one environment."""
    old, new = os.path.join(HERE, "sites", "generated", name), folder.at(name)
    folder.run(old, new)
    files = contents(new)
    for file in files:
        names = needed(files, file, [])
        same(made(tool, os.fsdecode(new), names), made(tool, old, names[-1:]), f"what {file} makes")


@pytest.mark.parametrize("names", [("gcc/12", "intel/2023"), ("gcc/12", "openmpi/4"), ("openmpi/4", "intel/2023")])
def test_family_beside_environment_modules(folder, tool, names):
    """Two modules of a family are refused together, in a tree and in its translation, and others aren't."""
    families = {"gcc/12": "compiler", "intel/2023": "compiler", "openmpi/4": "mpi"}
    old, new = tree(folder, {name: COOKIE + f"family {it}\n" for name, it in families.items()})
    folder.run(old, new)
    for place in (old, new):
        env = {b"MODULEPATH": place, b"PATH": b"/usr/bin:/bin"}
        words = [tool, "sh", "load", *names]
        done = subprocess.run(words, env=env, capture_output=True, timeout=SECONDS, check=False)
        same(b"ERROR" in done.stderr, names == ("gcc/12", "intel/2023"), f"whether {names} is refused in {place!r}")


SYMBOLS = {
    ".modulerc": "module-version gcc/12.3 new\n",
    "Java/.modulerc": "module-version Java/11.0.20 11\nmodule-version /17.0.6 17 default\nmodule-version ./8 old\n"
    "module-version Java/11 lts\n",
    **{f"Java/{version}": "setenv J 1\n" for version in ("8", "11.0.20", "17.0.6")},
    "gcc/.modulerc": "module-version gcc/13.1 new\nmodule-version gcc/13.1 12.9\n",
    "gcc/.version": "module-version gcc/11.4 12.9 last\n",
    **{f"gcc/{version}": "setenv G 1\n" for version in ("11.4", "12.3", "13.1")},
}


@pytest.mark.parametrize(
    "name", ["Java/11", "Java/17", "Java/default", "Java/old", "Java/lts", "gcc/new", "gcc/12.9", "gcc/last"]
)
def test_symbols_beside_environment_modules(folder, tool, name):
    """The version that is written for a symbol is the one that Environment Modules loads for it."""
    files = {**SYMBOLS, "app/1": f"prereq {name}\n"}
    old, new = tree(folder, {path: COOKIE + lines for path, lines in files.items()})
    folder.run(old, new)
    env = {b"MODULEPATH": old, b"PATH": b"/usr/bin:/bin"}
    words = [tool, "sh", "load", name]
    done = subprocess.run(words, env=env, capture_output=True, timeout=SECONDS, check=True)
    same(NEED.findall(contents(new)["app/1"]), [evaluated(done.stdout, env)[b"LOADEDMODULES"]], f"what {name} means")


# Defaults of folders.


def versions(name, *those, **files):
    """The files of a folder of these versions, with default files."""
    made = {f"{name}/{version}": COOKIE + f"setenv V {version}\n" for version in those}
    return {**made, **{f"{name}/.{file}": COOKIE + lines for file, lines in files.items()}}


FOLDERS = {
    # by the orders of versions
    "numbers": versions("n", "9.3.0", "13.2.0", "4.0.0beta", "2.10", "2.9"),
    "years": versions("n", "2021b", "2021a", "1.10-rc1"),
    "candidates": versions("n", "1.10-rc1", "1.10", "1.9"),
    "words": versions("n", "10", "10-rc", "10-beta2", "10dev"),
    "patches": versions("n", "4.0.0", "4.0.0-1", "4.0.0p2", "4.0.0beta"),
    "zeros": versions("n", "1.9", "1.009"),
    "letters": versions("n", "Release", "debug"),
    "toolchains": versions("n", "1.9-foss-2018b", "1.9-GCC-8.2.0"),
    "names": versions("n", "6.4.2", "6.4.2-cuda", "6.4.2-VTST"),
    "backups": versions("n", "1", "2", "3~", "4,v", "#5#", "__7", ".8"),
    "parts": {**versions("a/b", "1.9", "1.009"), **versions("a/c", "B", "a")},
    # by default files
    "modulerc": versions("n", "1", "2", "3", modulerc="module-version n/1 default\n"),
    "version": versions("n", "1", "2", "3", version="set ModulesVersion 2\n"),
    "both": versions("n", "1", "2", "3", modulerc="module-version /1 default\n", version="set ModulesVersion 2\n"),
    "two": versions("n", "1", "2", "3", modulerc="module-version n/1 default\nmodule-version n/2 default\n"),
    "command in version": versions("n", "1", "2", "3", version="module-version ./2 default\n"),
    "both in version": versions("n", "1", "2", "3", version="set ModulesVersion 1\nmodule-version n/2 default\n"),
    "variable in modulerc": versions("n", "1", "2", "3", modulerc="set ModulesVersion 1\n"),
    "nothing in modulerc": versions("n", "1", "2", "3", modulerc="", version="set ModulesVersion 2\n"),
    "point": versions("n", "1", "2", "3", modulerc="module-version ./1 default\n"),
    "bare": versions("n", "1", "2", "3", modulerc="module-version 1 default\n"),
    "other symbols": versions("n", "1", "2", "3", modulerc="module-version n/1 old\nmodule-version n/2 new default\n"),
    "words in quotes": versions("n", "1", "2", modulerc='module-version "n/1" {default} # x\n'),
    "top": {**versions("n", "1", "2"), ".modulerc": COOKIE + "module-version n/1 default\n"},
    "top and folder": {
        **versions("n", "1", "2", "3", modulerc="module-version n/2 default\n"),
        ".modulerc": COOKIE + "module-version n/1 default\n",
    },
    "top version": {**versions("n", "1", "2"), ".version": COOKIE + "module-version n/1 default\n"},
    "above": {
        **versions("a/b", "1", "2", "3", modulerc="module-version b/1 default\n"),
        **versions("a", modulerc="module-version a/c/1 default\n", version="module-version a/c/2 default\n"),
        **versions("a/c", "1", "2", "3"),
    },
    "no newline": versions("n", "1", "2", modulerc="module-version n/2 default", version="set ModulesVersion 1"),
    "hidden": versions("n", "1", "2", ".3"),
    # with links
    "link": {**versions("n", "1", "2"), "n/default": "-> 1"},
    "link and modulerc": {**versions("n", "1", "2", "3", modulerc="module-version n/2 default\n"), "n/default": "-> 1"},
    "file default": versions("n", "1", "2", "default"),
    # with folders
    "folders": {**versions("n", "1", "4"), **versions("n/3", "1", "2")},
    "folders and modulerc": {
        **versions("n", "1", "4", modulerc="module-version n/1 default\n"),
        **versions("n/sub", "1", "B", "a"),
    },
}

def default_tree(folder, files):
    """Writes files and links, and gives their folder, the path of another one, and the names of the folders."""
    old, new = tree(folder, {name: it for name, it in files.items() if not it.startswith("-> ")})
    for name, it in files.items():
        if it.startswith("-> "):
            os.symlink(it[3:], os.path.join(old, name.encode()))
    return old, new, sorted({os.path.dirname(name) for name in files} - {"", "a"})


def loaded(words, place, name):
    """The module that a program loads by a name, or nothing."""
    env = {b"MODULEPATH": place, b"PATH": b"/usr/bin:/bin", b"HOME": b"/nonexistent"}
    done = subprocess.run([*words, "load", name], env=env, capture_output=True, timeout=SECONDS, check=False)
    found = re.search(rb"(?m)\bLOADEDMODULES=['\"]?([^;'\"\n]*)", done.stdout)
    return found.group(1).decode() if found else None


def listed(folder, tool, place):
    """The list of defaults that Environment Modules gives, in a file."""
    env = {b"MODULEPATH": place, b"PATH": b"/usr/bin:/bin", b"HOME": b"/nonexistent"}
    done = subprocess.run([tool, "sh", "-t", "avail", "-d"], env=env, capture_output=True, timeout=SECONDS, check=True)
    return folder.file("defaults", done.stderr)


@pytest.mark.parametrize("title", FOLDERS)
def test_defaults_beside_environment_modules(folder, built, tool, title):
    """The same version is loaded from what is written; and nothing is written where it already was."""
    own = [built("modulecmd"), "sh"]
    old, new, names = default_tree(folder, FOLDERS[title])
    plain = folder.at("plain")
    folder.run(old, plain)
    defaults = listed(folder, tool, old)
    done = folder.run("--defaults", defaults, old, new)
    same(done.stderr, b"", "standard error")
    said = done.stdout.decode()
    for name in names:
        path = f"{old.decode()}/{name}"
        if f"{path}: left out: default\n" in said:
            same(done.returncode, 1, "status")
            continue
        wanted, before = loaded([tool, "sh"], old, name), loaded(own, plain, name)
        if wanted is None or os.path.dirname(wanted) != name:
            true(f"{path}: default: " not in said, f"{name} isn't named, as {wanted} isn't of it")
            continue
        same(loaded(own, new, name), wanted, f"what {name} means")
        same(f"{path}: default: {wanted}\n" in said, wanted != before, f"whether a line names {wanted}, not {before}")
    checked = folder.run("--check", "--defaults", defaults, old)
    same(checked.stdout, done.stdout, "what is said where nothing is written")


def test_a_list_of_defaults(folder):
    """A folder that the list names no version of is said, and so is one whose version isn't there; other lines count not."""
    files = {**versions("a", "1", "2"), **versions("b", "1"), **versions("c", "1", "2")}
    old, new = tree(folder, files)
    defaults = folder.file("defaults", "/apps/modulefiles:\na/1(default:old)\n\nc/3\nd/1\n")
    done = folder.run("--defaults", defaults, old, new)
    at = old.decode()
    lines = [f"{at}/a: default: a/1", f"{at}/b: left out: default", f"{at}/c: left out: default"]
    same(sorted(done.stdout.decode().splitlines()), lines, "what is said")
    same((done.stderr, done.returncode), (b"", 1), "standard error and status")
    same(contents(new)["a/.modulerc"], b"#%Module\nmodule-version a/1 default\n", "what is written")


def test_defaults_in_json_with_permissions(folder):
    """The new file is as the modulefile that it names may be read, and another keeps its permissions."""
    files = {**versions("a", "1.9", "1.009"), **versions("b", "1", "2")}
    old, new = tree(folder, {**files, "b/.modulerc": COOKIE})
    os.chmod(os.path.join(old, b"a/1.009"), 0o640)
    os.chmod(os.path.join(old, b"b/.modulerc"), 0o600)
    done = folder.run("--json", "--defaults", folder.file("defaults", "a/1.009\nb/1\n"), old, new)
    at = old.decode()
    same(
        sorted((json.loads(line) for line in done.stdout.decode().splitlines()), key=lambda it: it["file"]),
        [{"file": f"{at}/{name}", "what": what, "why": "default"} for name, what in (("a", "a/1.009"), ("b", "b/1"))],
        "the report",
    )
    same(done.returncode, 0, "status")
    found = contents(new)
    same(found["a/.modulerc"], b"#%Module\nmodule-version a/1.009 default\n", "a new file")
    same(found["b/.modulerc"], b"#%Module\nmodule-version b/1 default\n", "one that was there")
    modes = [os.stat(os.path.join(new, it)).st_mode & 0o777 for it in (b"a/.modulerc", b"b/.modulerc")]
    same(modes, [0o640, 0o600], "permissions")


# Files as sites write them, of which something is left out, and whether it stays so.
ASKING = {
    "exec/1": ("set cores [exec echo 4]\nsetenv CORES $cores\nputs stderr cores\n", False),
    "exists/1": (
        "set root /usr\nif {[file isdirectory $root/bin]} { prepend-path TOOLS $root/bin } else { setenv NONE 1 }\n"
        "if {![file exists /nothing]} { setenv PLACE [file normalize $root/../usr] }\n",
        False,
    ),
    "regexp/1": (
        "set version [file tail $ModulesCurrentModulefile]\nregexp {^([0-9]+)} $version all major\n"
        "setenv MAJOR $major\narray set of {a 1 b 2}\n"
        "foreach it [lsort [array names of]] { append-path OF $of($it) }\n",
        False,
    ),
    "home/1": (
        "set user [string tolower $env(USER)]\nset home [file normalize $env(HOME)]\nsetenv CACHE $home/.cache/tool\n"
        "prepend-path DATA /scratch/$user/data:$home\n",
        False,
    ),
    "system/1": ("set done [system true]\nsetenv DONE 1\nsetenv TEXT {a  b}\n", False),
    "script/1": ("source-sh sh {SCRIPT}\n", False),
    "alias/1": ("set-function f {exec true}\nset x [exec echo 1]\nsetenv X $x\n", True),
}


# What SITES has for the records of a tree: each variable that a load changes has a mark before, which PATH has in front.
RECORDS = r"""
cd "$1" && export MODULEPATH="$PWD" && shift
find -L * -type f ! -name '.*' | while read -r name; do
    mkdir -p "$(dirname "$RECORDS/$name")"
    marks=$("$@" sh load "$name" 2> /dev/null | sed -n 's/^\([A-Za-z][A-Za-z0-9_]*\)=.*; export .*/\1=modport-mark/p' |
        grep -v -e ^LOADEDMODULES= -e ^PATH=)
    env PATH=modport-mark:/usr/bin:/bin $marks "$@" sh load "$name" > "$RECORDS/$name" 2> /dev/null
done
"""


def test_flattened_beside_environment_modules(folder, tool):
    """A module of which what a load did was written makes the environment that it makes, for another user as well."""
    script = os.fsdecode(folder.file("setup.sh", "export LICENSE=27000@host\nPATH=/opt/tool/bin:$PATH\n"))
    old, new = tree(folder, {name: COOKIE + text.replace("{SCRIPT}", script) for name, (text, _) in ASKING.items()})
    env = {"PATH": "/usr/bin:/bin", "HOME": "/home/me", "USER": "me", "RECORDS": folder.at("records").decode()}
    env["MODULES_AUTO_HANDLING"] = "0"
    subprocess.run(["sh", "-c", RECORDS, "sh", old, tool], env=env, timeout=SECONDS, check=True)
    done = folder.run("--flatten", folder.at("records"), *KEPT, old, new)
    said = done.stdout.decode()
    same((done.stderr, done.returncode), (b"", 1), "standard error and status")
    files = contents(new)
    for name, (given, stays) in ASKING.items():
        same(f"/{name}:2: flattened: " in said, not stays, f"whether {name} is flattened")
        for user in ("me", "you"):
            of = {"HOME": f"/home/{user}", "USER": user}
            same(made(tool, new, [name], **of), made(tool, old, [name], **of), f"what {name} makes for {user}")
    true(b"[getenv HOME]/.cache/tool" in files["home/1"], "the home directory is asked for")
