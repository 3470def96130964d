"""Cases over the built program: each makes a folder of its own, runs the program and compares what it wrote."""

import os
import resource
import shutil
import signal
import subprocess
import sys
import tempfile

# (the folder tests/)
HERE = os.path.dirname(os.path.dirname(os.path.abspath(__file__)))
TOP = os.path.dirname(HERE)
sys.path.append(os.path.join(TOP, "tools"))

from link import DYNAMIC, PRODUCT, is_unproved  # noqa: E402

NOBODY = 65534
SH = shutil.which("dash") or "/bin/sh"
ENV = shutil.which("env")
# What sh sets by itself.
OWN = (b"PWD", b"OLDPWD", b"_")
SECONDS = 60

# How many times as long a program of `make try` may take, which isn't optimised and has a sanitizer.
SLOWER = 10

# How many runs after the last refusal of memory have to be as with ample memory.
QUIET = 10

MOST_RUNS = 2000

# What the modulefile of most cases says.
FOO = "setenv FOO on\nprepend-path PATH /opt/foo/bin\n"


def examples(name):
    """The examples of a text below this folder: each a title after `# `, and its lines. Empty lines part them, and a
    paragraph after `== ` is a heading. Before the first one stands how the text is read."""
    with open(os.path.join(HERE, name), encoding="utf-8") as file:
        head, _, rest = file.read().rstrip("\n").partition("\n\n# ")
    true(rest and not head.startswith("# "), f"{name} begins with how it is read")
    for example in f"# {rest}".split("\n\n"):
        title, *lines = example.split("\n")
        if not title.startswith("== "):
            true(title.startswith("# "), f"{title!r} in {name} is a title")
            yield title.removeprefix("# "), lines


def evaluated(text, env):
    """The variables after sh, which had these, evaluated a text."""
    done = subprocess.run(
        [SH, "-c", f'eval "$1"; exec {ENV} -0', "sh", text],
        env=env,
        capture_output=True,
        timeout=SECONDS,
        check=True,
    )
    same(done.stderr, b"", "standard error of sh")
    pairs = [entry.split(b"=", 1) for entry in done.stdout.split(b"\0") if entry]
    return {name: value for name, value in pairs if name not in OWN}


class Failed(AssertionError):
    """What a case found, where it is not what it wants."""


def same(found, wanted, what):
    __tracebackhide__ = True
    if found != wanted:
        raise Failed(f"{what}: found {found!r}, wanted {wanted!r}")


# What the function's program says behind "Unknown subcommand 'WORD'", and of a word of Lmod's.
LISTS = '"module help" lists the subcommands.\n'
OF_SPIDER = 'Here: "module keyword TEXT" for names and descriptions, "module avail -C TEXT" for names.\n'

# What it says of an option that nothing is known of, and of some that other tools or other subcommands have.
OPTIONS = '"module help" lists the options.\n'
FORCED = 'Nothing is forced here: "module forget NAME" is for a module whose file is gone.\n'
OF_OPTIONS = {
    "--force": FORCED,
    "-f": FORCED,
    "--no-auto": "Here: MODULES_AUTO_HANDLING=0 in the environment.\n",
    "--auto": 'Here: "module load --auto NAME" and "module unload --auto NAME".\n',
}


def true(fact, what):
    __tracebackhide__ = True
    if not fact:
        raise Failed(what)


def refuser(path, name="failing_malloc"):
    """Builds the allocator that refuses growths in a folder, or another library of this name, and gives its path."""
    shim = os.path.join(path, name.encode() + b".so")
    if not os.path.exists(shim):
        source = os.path.join(HERE, "lib", f"{name}.c")
        subprocess.run(["cc", "-shared", "-fPIC", "-O1", "-o", shim, source, "-ldl"], check=True)
    return shim


def refuses_each(shim, run, is_refused, what, variables=(b"FAIL_AT", b"FAIL_FROM")):
    """Refuses each growth of memory in turn, and then all from each on. `run` is given the variables that ask for it,
    and finds what it does with ample memory, or what is refused. Answers how many were tried at last."""
    ample = run({})
    true(not is_refused(ample), f"{what} with ample memory: found {ample!r}")
    for variable in variables:
        refused = 0
        quiet = 0
        number = 0
        while quiet < QUIET:
            number += 1
            true(number <= MOST_RUNS, f"{what}: more than {MOST_RUNS} growths")
            found = run({b"LD_PRELOAD": shim, variable: b"%d" % number})
            if found == ample:
                quiet += 1
            else:
                true(is_refused(found), f"{what} with growth {number} refused: found {found!r}")
                refused += 1
                quiet = 0
        true(refused > 0, f"{what}: no growth was refused")
    return number


def dynamic(program):
    """The program of the same object that is linked dynamically, if it stands beside."""
    beside = os.path.join(os.path.dirname(program), DYNAMIC, os.path.basename(program))
    return beside if os.path.isfile(beside) else program


def are_tried(programs):
    """Whether the programs of a folder are those of `make try`."""
    paths = [os.path.join(programs, name) for name in os.listdir(programs)] if os.path.isdir(programs) else []
    return any(is_unproved(path) for path in paths if os.path.isfile(path) and not os.path.islink(path))


def installed(prefix, programs):
    """Lays the product out below a prefix, which is given back, with the programs of a folder."""
    words = ["make", "-s", "install", f"PREFIX={prefix}", f"PROGRAMS={programs}"]
    if are_tried(programs):
        words = ["sh", "tools/product.sh", "try", "", prefix, *(os.path.join(programs, name) for name in PRODUCT)]
    done = subprocess.run(words, cwd=TOP, capture_output=True, check=False)
    if done.returncode != 0:
        raise Failed(f"{' '.join(words)} ended with status {done.returncode}:\n{done.stderr.decode(errors='replace')}")
    return prefix


class Folder:
    """A folder of modulefiles, with copies of the program that any user may run."""

    def __init__(self, program):
        if not os.path.isfile(program):
            raise Failed(f"there is no program at {program}")
        self.path = os.fsencode(tempfile.mkdtemp(prefix="modulecmd-"))
        os.chmod(self.path, 0o755)
        # (a program can be another one by its name)
        name = os.fsencode(os.path.basename(program))
        self.program = os.path.join(self.path, name)
        self.dynamic = os.path.join(self.path, b"dynamic", name)
        os.mkdir(os.path.dirname(self.dynamic))
        os.chmod(os.path.dirname(self.dynamic), 0o755)
        for source, place in ((program, self.program), (dynamic(program), self.dynamic)):
            shutil.copy(source, place)
            os.chmod(place, 0o755)
        self.modules = os.path.join(self.path, b"m")
        os.mkdir(self.modules)

    def remove(self):
        """Removes the folder, also what its owner may not read."""
        subprocess.run(["chmod", "-R", "u+rwx", self.path], check=True)
        shutil.rmtree(self.path)

    def at(self, name):
        """The path of a name below the folder of modulefiles, whose folders are made."""
        path = os.path.join(self.modules, os.fsencode(name))
        os.makedirs(os.path.dirname(path), exist_ok=True)
        return path

    def file(self, name, text):
        """Writes a file, and gives its path."""
        path = self.at(name)
        with open(path, "wb") as file:
            file.write(text if isinstance(text, bytes) else text.encode())
        return path

    def module(self, name, text):
        """Writes a modulefile, whose first line is the cookie."""
        return self.file(name, b"#%Module\n" + (text if isinstance(text, bytes) else text.encode()))

    def environment(self, **variables):
        """MODULEPATH and these variables, and nothing else. None leaves one out."""
        given = {b"MODULEPATH": self.modules}
        for name, value in variables.items():
            given[name.encode()] = value
        return encoded(given)

    def run(
        self, *words, env=None, given=None, stdin=subprocess.DEVNULL, stdout=subprocess.PIPE, stderr=subprocess.PIPE,
        close=(), most=None, user=None,
    ):  # fmt: skip
        """Runs the program, which reads what is given, if something is. `close` holds the numbers of the streams that
        are closed before, and a file takes `most` bytes and then fails. With a library that goes before the C library's
        the dynamically linked program is run, since the other one has its C library in itself."""

        def prepare():
            for number in close:
                os.close(number)
            if most is not None:
                signal.signal(signal.SIGXFSZ, signal.SIG_IGN)
                resource.setrlimit(resource.RLIMIT_FSIZE, (most, most))

        options = {"stdin": stdin} if given is None else {"input": given}
        env = self.environment() if env is None else env
        if user is not None and os.geteuid() == 0:
            options.update(user=user, group=user, extra_groups=[])
        done = subprocess.run(
            [self.dynamic if b"LD_PRELOAD" in env else self.program, *[os.fsencode(word) for word in words]],
            env=env,
            stdout=stdout,
            stderr=stderr,
            preexec_fn=prepare if close or most is not None else None,
            timeout=SECONDS,
            check=False,
            **options,
        )
        return done

    def start(self, *words, stdout, stderr):
        """Starts the program, which is not waited for."""
        return subprocess.Popen(
            [self.program, *words], env=self.environment(), stdin=subprocess.DEVNULL, stdout=stdout, stderr=stderr
        )

    def answers(self, words, out, err, status, env=None, user=None):
        """The program writes exactly this, and ends with this status."""
        done = self.run(*words, env=env, user=user)
        what = " ".join(repr(word) for word in words)
        same(done.stderr, err if isinstance(err, bytes) else err.encode(), f"standard error of {what}")
        same(done.stdout, out if isinstance(out, bytes) else out.encode(), f"standard output of {what}")
        same(done.returncode, status, f"status of {what}")

    def accepts(self, words, out, env=None):
        self.answers(words, out, b"", 0, env=env)

    def refuses(self, words, text, env=None, user=None):
        """The program changes nothing, says the text after `ERROR: `, and ends with status 1."""
        text = text if isinstance(text, bytes) else text.encode()
        self.answers(words, b"", b"ERROR: " + text + b"\n", 1, env=env, user=user)


def encoded(variables):
    """An environment of bytes, without the variables that are None."""
    given = {}
    for name, value in variables.items():
        if value is not None:
            name = name if isinstance(name, bytes) else name.encode()
            given[name] = value if isinstance(value, bytes) else value.encode()
    return given


def loaded(folder, *names, **variables):
    """An environment in which these modules are loaded."""
    paths = b":".join(os.path.join(folder.modules, name.encode()) for name in names)
    return folder.environment(LOADEDMODULES=":".join(names), _LMFILES_=paths, **variables)
