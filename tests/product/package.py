"""The packages, installed as on a machine without the toolchain.

What takes root runs by chroot in a folder of copies of shells and utilities, which is also the root that dpkg is told:
nothing outside of the folder is touched. Without root these cases aren't run.
"""

import contextlib
import glob
import itertools
import os
import re
import resource
import shutil
import signal
import stat
import subprocess
import sys
import tempfile

import pytest

import licences  # in tools/
import package  # in tools/
from build import PRODUCT, rtlib  # in tools/
from tests.lib.harness import HERE, SECONDS, same, true

TOP = os.path.dirname(HERE)

# Where the product stands: of an archive, and of Debian's package, with its site's file.
PREFIX = "/opt/modulecmd"
DEBIAN = "/usr/lib/modulecmd"
OWN = "/etc/modulecmd/modulespath"

# What a machine has: shells, utilities for start-up files and for what is installed, and what zsh and fish read.
SHELLS = ("dash", "bash", "zsh", "tcsh", "fish")
UTILITIES = """awk basename cat chmod cmp cp cut date dirname env grep head id ln ls mkdir mktemp mv od readlink rm
    rmdir sed sort stty tail tee test touch tr uname uniq wc""".split()
DATA = ("/usr/share/fish/*.fish", "/usr/share/fish/functions", "/usr/lib/*/zsh")
FOLDERS = """usr/bin usr/lib usr/lib64 dev tmp root opt modules/foo etc/zsh etc/fish/conf.d var/lib/dpkg/info
    var/lib/dpkg/updates var/log""".split()

# Folders that other packages have, so that dpkg doesn't remove them.
OF_OTHERS = (
    "etc/profile.d", "etc/csh/cshrc.d", "etc/alternatives", "usr/share/fish/vendor_conf.d", "usr/share/doc",
    "usr/share/man/man1", "usr/share/man/man5",
)  # fmt: skip
LIBRARY = re.compile(r"(/\S+) \(0x")

# The programs of the product, and files without which an install fails: of each kind one, the first and the last.
PROGRAMS = ("modulecmd", "module")
NEEDED = ("VERSION", "init/sh", "init/zsh", "libexec/module.csh", "init/pager", "man/module.1", "etc/modulespath", "bin/module")

# The manual pages.
PAGES = sorted(os.listdir(os.path.join(TOP, "man")))

# The utilities that install.sh and the init files take.
FEW = "cat chmod cmp dirname env ln mkdir mv rm rmdir sed sh".split()

# What shells read at a login: Debian's, without what the owner of this machine added.
PROFILE = """PATH=/usr/bin:/bin
for i in /etc/profile.d/*.sh; do
  if [ -r $i ]; then
    . $i
  fi
done
unset i
"""
CSHRC = """set dir=/etc/csh/cshrc.d
if (-e $dir && `/bin/ls $dir` != "") then
  foreach FILE (`/bin/ls $dir/*`)
    source $FILE;
  end;
endif
"""

RED_HAT_S_CSHRC = """foreach i ( /etc/profile.d/*.csh )
    source $i
end
"""

# What dpkg knows of a package that is installed.
INSTALLED = """Package: {name}
Status: install ok installed
Maintainer: somebody <somebody@localhost>
Architecture: amd64
Version: 1
Description: none
"""

# The links of a site that installs an archive, and the file that each leads to.
LINKS = {
    "/etc/profile.d/modulecmd.sh": "profile.sh",
    "/etc/csh/cshrc.d/modulecmd.csh": "profile.csh",
    "/etc/fish/conf.d/modulecmd.fish": "fish",
}

# The only modulefile, and what a shell shows of a load and an unload of it, and how it shows it.
FOO = "#%Module\nsetenv FOO on\nprepend-path PATH /opt/foo/bin\n"
SHOWN = "on /opt/foo/bin:/usr/bin:/bin\n/usr/bin:/bin gone\n"
IN_SH = "module load foo; echo $FOO $PATH; module unload foo; echo $PATH ${FOO-gone}"
IN_TCSH = "module load foo; echo $FOO $PATH; module unload foo; if (! $?FOO) echo $PATH gone"
IN_FISH = """module load foo; echo $FOO (string join : $PATH)
    module unload foo; set -q FOO; or echo (string join : $PATH) gone"""

# How a shell logs in to run it.
LOGINS = {
    "sh": ["sh", "-l", "-c", IN_SH],
    "bash": ["bash", "--login", "-c", IN_SH],
    "zsh": ["zsh", "--login", "-i", "-c", IN_SH],
    "tcsh": ["tcsh", "-c", IN_TCSH],
    "fish": ["fish", "--login", "-c", IN_FISH],
}


def write(path, text):
    with open(path, "w", encoding="utf-8") as file:
        file.write(text)


def read(path):
    with open(path, "rb") as file:
        return file.read()


def run(words, root=None, **how):
    """Runs a command, in a root where one is named, and gives what it wrote and its status."""

    def enter():
        os.chroot(root)
        os.chdir("/")

    how = {"capture_output": True, "text": True, "timeout": SECONDS, "check": False, **how}
    if "input" not in how:
        how["stdin"] = subprocess.DEVNULL
    if root:
        how["preexec_fn"] = enter
    done = subprocess.run(words, **how)
    return done.stdout, done.stderr, done.returncode


def install(archive, prefix, **how):
    """Installs an archive below a prefix, and gives what is said and the status."""
    return run(["sh", os.path.join(archive, "install.sh"), prefix], **how)


def looks(top):
    """Every path below a folder, with its mode, and what a file holds."""
    found = {}
    for at, folders, files in os.walk(top):
        for path in [at, *[os.path.join(at, name) for name in folders + files]]:
            mode = stat.S_IMODE(os.lstat(path).st_mode)
            found[os.path.relpath(path, top)] = (mode, read(path) if os.path.isfile(path) else None)
    return found


def same_looks(found, wanted, what):
    """Names the paths that differ."""
    differing = sorted(path for path in {*found, *wanted} if found.get(path) != wanted.get(path))
    same(differing, [], what)


def goes_well(words, **how):
    """Runs a command, which says nothing on standard error and ends with status 0."""
    out, err, status = run(words, **how)
    same((err, status), ("", 0), " ".join(words))
    return out


class Packages:
    """The packages of this version, and of one that comes after it, in a folder."""

    def __init__(self, room):
        self.room = room
        self.version = read(os.path.join(TOP, "VERSION")).decode().strip()
        self.later = f"{self.version}.1"
        for version in (self.version, self.later):
            make(room, version)

    def archive(self, version):
        return os.path.join(self.room, f"modulecmd-{version}-x86_64-linux.tar.gz")

    def rpm(self, version):
        return os.path.join(self.room, f"modulecmd-{version}-1.x86_64.rpm")

    def debian(self, version):
        return os.path.join(self.room, f"modulecmd_{version}_amd64.deb")

    @contextlib.contextmanager
    def unpacked(self, version):
        """The folder that an archive holds."""
        with tempfile.TemporaryDirectory(prefix="modulecmd-archive-") as room:
            goes_well(["tar", "-xzf", self.archive(version), "-C", room])
            (name,) = os.listdir(room)
            yield os.path.join(room, name)


def make(into, version):
    """Makes the packages of a version in a folder. Where the tool of one isn't there, it is said, with status 1."""
    _, err, status = run([sys.executable, "-B", os.path.join(TOP, "tools", "package.py"), into, version])
    lacking = [tool for tool in ("dpkg-deb", "rpmbuild") if not shutil.which(tool)]
    same(re.findall(r"there is no ([a-z-]+)", err), lacking, f"what is said not to be made: {err}")
    same(status, 1 if lacking else 0, "the status")


def copy(path, root):
    """Copies a file of this machine to its place below a root, with the libraries that it names."""
    libraries, _, _ = run(["ldd", path])
    for source in [path, *LIBRARY.findall(libraries)]:
        aim = root + source
        os.makedirs(os.path.dirname(aim), exist_ok=True)
        if not os.path.exists(aim):
            shutil.copy(os.path.realpath(source), aim)


class Machine:
    """A folder that is a root: shells, utilities, start-up files of a system and a modulefile, and nothing else."""

    def __init__(self, root):
        self.root = root
        for name in FOLDERS:
            os.makedirs(os.path.join(root, name))
        for name in OF_OTHERS:
            os.makedirs(os.path.join(root, name))
            self.write(f"/{name}/.of-others", "")
        for name in ("bin", "lib", "lib64"):
            os.symlink(f"usr/{name}", os.path.join(root, name))
        self.add_files()
        self.add_programs()

    def add_files(self):
        self.write("/etc/passwd", "root:x:0:0:root:/root:/bin/bash\n")
        self.write("/etc/profile", PROFILE)
        self.write("/etc/csh.cshrc", CSHRC)
        self.write("/modules/foo/1.0", FOO)
        self.write("/var/lib/dpkg/status", "")
        self.write("/var/lib/dpkg/available", "")
        # (where no device can be made, a file takes what is thrown away)
        with contextlib.suppress(PermissionError):
            os.mknod(f"{self.root}/dev/null", stat.S_IFCHR | 0o666, os.makedev(1, 3))

    def add_programs(self):
        for name in (*SHELLS, *UTILITIES):
            found = shutil.which(name, path="/usr/bin:/bin")
            true(found, f"{name} isn't there: `make deps` brings it")
            path = f"/usr/bin/{os.path.basename(os.path.realpath(found))}"
            copy(path, self.root)
            if not os.path.exists(f"{self.root}/usr/bin/{name}"):
                os.symlink(path, f"{self.root}/usr/bin/{name}")
        os.symlink("dash", f"{self.root}/usr/bin/sh")
        for path in [path for pattern in DATA for path in glob.glob(pattern)]:
            if os.path.isdir(path):
                shutil.copytree(path, self.root + path)
            else:
                copy(path, self.root)
        for path in glob.glob("/usr/lib/*/zsh/**/*.so", recursive=True):
            copy(path, self.root)

    def write(self, path, text):
        write(self.root + path, text)

    def run(self, words, **how):
        """Runs a command in the machine, in an environment as a login has it."""
        env = {"PATH": "/usr/bin:/bin", "HOME": "/root", "TERM": "dumb", "MODULEPATH": "/modules"}
        return run(words, self.root, **{"env": env, **how})

    def dpkg(self, *words, status=0):
        """Has dpkg do something with the machine's packages, and with none of those outside. Gives what it said."""
        command = ["dpkg", f"--root={self.root}", f"--log={self.root}/var/log/dpkg.log", *words]
        _, err, found = run(command, env={**os.environ, "LC_ALL": "C"})
        same(found, status, f"dpkg {' '.join(words)}: {err}")
        return err

    def rpm(self, *words):
        """Has rpm do something with the machine's packages, of which it knows no other. It says only what it saves."""
        command = ["rpm", "--force-debian", f"--root={self.root}", "--nodeps", *words]
        out, err, status = run(command, env={**os.environ, "LC_ALL": "C"})
        said = [line for line in err.splitlines() if not line.endswith(".rpmsave")]
        same((out, said, status), ("", [], 0), f"rpm {' '.join(words)}")

    def log_in(self, *shells):
        for shell in shells:
            same(self.run(LOGINS[shell]), (SHOWN, "", 0), f"a login of {shell}")

    def listing(self):
        """Every path, but for what dpkg knows, and what shells write of their own."""
        found = set()
        for at, folders, files in os.walk(self.root):
            found |= {os.path.join(at, name)[len(self.root) :] for name in [*folders, *files]}
        return {path for path in found if not path.startswith(("/var/", os.path.expanduser("~root/")))}

    @contextlib.contextmanager
    def is_as_before(self):
        """What is done within leaves nothing behind."""
        before = self.listing()
        yield
        same(sorted(self.listing() ^ before), [], "what is left, or was taken away")

    @contextlib.contextmanager
    def has(self, package):
        """A package of Debian's is installed within, and purged at the end."""
        with self.is_as_before():
            self.dpkg("-i", package)
            try:
                yield
            finally:
                self.dpkg("-P", "modulecmd")

    @contextlib.contextmanager
    def has_rpm(self, package):
        """A package of rpm's is installed within, beside the program for alternatives, and erased at the end."""
        for place in ("/usr/sbin", "/var/lib/dpkg/alternatives"):
            os.makedirs(self.root + place, exist_ok=True)
        copy("/usr/bin/update-alternatives", self.root)
        os.symlink("../bin/update-alternatives", f"{self.root}/usr/sbin/update-alternatives")
        try:
            with self.is_as_before():
                self.rpm("-i", package)
                try:
                    yield
                finally:
                    self.rpm("-e", "modulecmd")
        finally:
            os.remove(f"{self.root}/usr/sbin/update-alternatives")


@pytest.fixture(scope="module")
def room():
    with tempfile.TemporaryDirectory(prefix="modulecmd-package-") as made:
        os.chmod(made, 0o755)
        yield made


@pytest.fixture(scope="module")
def packages(room, as_shipped):
    return Packages(room)


@pytest.fixture(scope="module")
def machine(room):
    return Machine(os.path.join(room, "machine"))


# What some cases take.
HAS_DPKG = shutil.which("dpkg") is not None and shutil.which("dpkg-deb") is not None
needs_root = pytest.mark.skipif(os.geteuid() != 0, reason="it takes root")
HAS_RPM = all(map(shutil.which, ("rpm", "rpmbuild", "rpmlint", "update-alternatives")))

needs_dpkg = pytest.mark.skipif(not HAS_DPKG, reason="it takes dpkg")
needs_lintian = pytest.mark.skipif(not shutil.which("lintian"), reason="it takes lintian")
needs_rpm = pytest.mark.skipif(not HAS_RPM, reason="it takes rpm, rpmbuild, rpmlint and update-alternatives")


def test_the_same_tree_gives_the_same_packages(folder, packages):
    place = folder.path.decode()
    make(place, packages.version)
    version = packages.version
    others = [*[packages.debian(version)] * HAS_DPKG, *[packages.rpm(version)] * HAS_RPM]
    for path in (packages.archive(version), *others):
        true(read(path) == read(os.path.join(place, os.path.basename(path))), f"{os.path.basename(path)} is the same")
    goes_well(["sha256sum", "--check", "--quiet", "SHA256SUMS"], cwd=place)


def test_the_programs_are_linked_again_by_what_comes_along(folder, packages):
    """By the commands of the page, in a copy of its folder: each program, but for the symbols that packages leave out."""
    place = os.path.join(folder.path.decode(), "LICENSES")
    with packages.unpacked(packages.version) as archive:
        shutil.copytree(os.path.join(archive, "LICENSES"), place)
        page = read(os.path.join(place, "README")).decode()
        commands = re.findall(r"^    (cc .*)$", page, re.MULTILINE)
        same(len(commands), len(PROGRAMS), "the commands")
        for command, name in zip(commands, PROGRAMS):
            goes_well(command.split(), cwd=place)
            goes_well(["strip", name], cwd=place)
            true(read(os.path.join(place, name)) == read(os.path.join(archive, "bin", name)), f"{name} is the same")
    for name in [*re.search(r"folders here: (.*);", page)[1].split(", "), "ucd_table"]:
        true(os.listdir(os.path.join(place, name)), f"the licence of {name} is there")


def test_a_package_that_is_not_made_is_said_by_the_status(tmp_path, monkeypatch, capsys):
    """Where neither tool is there, the archive is made alone."""
    archive = str(tmp_path / "archive.tar.gz")
    write(archive, "")
    monkeypatch.setattr(package, "lay_out", lambda *_: str(tmp_path))
    monkeypatch.setattr(package, "make_archive", lambda *_: archive)
    monkeypatch.setattr(package.shutil, "which", lambda _: None)
    why = "not made: Debian's package, since there is no dpkg-deb; the RPM, since there is no rpmbuild"
    with pytest.raises(SystemExit, match=f"^{why}$"):
        package.main([str(tmp_path)])
    same([line.rpartition("/")[2] for line in capsys.readouterr().out.splitlines()], ["archive.tar.gz", "SHA256SUMS"], "what is made")


def licence_texts(folder):
    return {read(path) for path in glob.glob(os.path.join(folder, "LICENSE*"))}


def test_the_licence_of_each_library_that_a_program_holds_comes_along():
    """Those of the kit's libraries that have one, as crates.txt and the libraries themselves name them."""
    home = os.path.join(licences.kit(), "rattle")
    crates = [it for it in rtlib.crates_below(TOP) if it.name in PRODUCT]
    named = [name for crate in crates for it in [crate, *crate.below()] for name in it.of_kit]
    held = [word.split(":")[0] for word in rtlib.kit_sources(named) if word != "--lib"]
    along = [licence_texts(os.path.join(home, name)) for name in (*licences.PORTS, licences.TABLES)]
    lacking = [name for name in held if not licence_texts(os.path.join(home, name)) <= set().union(*along)]
    same(lacking, [], "libraries of which a licence doesn't come along")
    same([name for name in licences.PORTS if name not in held], [], "ports that no program holds")


def test_an_archive_is_installed_by_a_shell_and_few_utilities(folder, packages):
    place = folder.path.decode()
    tools, prefix = os.path.join(place, "bin"), os.path.join(place, "a place")
    os.mkdir(tools)
    for name in FEW:
        os.symlink(shutil.which(name), os.path.join(tools, name))
    own, env = os.path.join(prefix, "etc/modulespath"), {"PATH": tools, "MODULEPATH": os.path.join(place, "m")}
    folder.module("foo/1.0", "setenv FOO on\n")
    line = f". '{prefix}/init/sh'; module load foo; echo $FOO; module unload foo; echo ${{FOO-gone}}"
    with packages.unpacked(packages.version) as archive:
        install = ["/bin/sh", os.path.join(archive, "install.sh")]
        said = goes_well([*install, prefix], env=env)
        true("\na module is loaded and unloaded in: sh\n" in said, f"in which shells a load is tried: {said}")
        same(goes_well(["/bin/sh", "-c", line], env=env), "on\ngone\n", "a load and an unload")
        write(own, "/site\n")
        goes_well([*install, prefix], env=env)
        same(read(own), b"/site\n", "the site's file after an upgrade")
        goes_well([*install, "--uninstall", prefix], env=env)
    left = [os.path.join(at, name) for at, _, names in os.walk(prefix) for name in names]
    same(left, [own], "what uninstalling leaves")


def test_an_install_says_in_which_shells_a_load_went_wrong(folder, packages):
    prefix = os.path.join(folder.path.decode(), "prefix")
    with packages.unpacked(packages.version) as archive:
        write(os.path.join(archive, "init/fish"), "echo broken\n")
        out, err, status = install(archive, prefix)
    true("fish" not in out.split("in:")[1].split("\n")[0].split(), f"the shells in which it went well: {out}")
    true(err.startswith("fish with ") and "broken" in err, f"what is said of fish: {err}")
    same(status, 1, f"the status, where is said: {err}")


def test_an_install_whose_output_nobody_reads_to_its_end_leaves_no_scratch_folder(folder, packages):
    place = folder.path.decode()
    prefix, scratch = os.path.join(place, "prefix"), os.path.join(place, "scratch")
    os.mkdir(scratch)
    with packages.unpacked(packages.version) as archive:
        script = os.path.join(archive, "install.sh")
        line = f"sh '{script}' '{prefix}' 2> /dev/null | head -n 1 > /dev/null"
        goes_well(["/bin/sh", "-c", line], env={**os.environ, "TMPDIR": scratch})
    same(os.listdir(scratch), [], "what is left in the folder for scratch")


def test_an_install_ends_with_what_shows_a_first_module(folder, packages):
    prefix = os.path.join(folder.path.decode(), "a prefix")
    with packages.unpacked(packages.version) as archive:
        said = goes_well(["sh", os.path.join(archive, "install.sh"), prefix])
    last = [line.split("  # ")[0].strip() for line in said.splitlines()[-3:]]
    same(last[0], f". '{prefix}/init/sh'", "the first of the last lines")
    out = goes_well(["sh", "-c", "; ".join(last) + ' 2> /dev/null; module load gcc && echo "$CC"'])
    same(out, "gcc\n", "what a shell that runs the last lines can load")


def test_an_install_under_a_closed_umask_is_open_to_all(folder, packages):
    prefix = os.path.join(folder.path.decode(), "new", "prefix")
    with packages.unpacked(packages.version) as archive:
        for mask in (0o077, 0o027, 0o002):
            same(install(archive, prefix, umask=mask)[1:], ("", 0), f"an install under {mask:o}")
            files = {path: mode for path, (mode, _) in looks(prefix).items() if not os.path.islink(f"{prefix}/{path}")}
            closed = {path: f"{mode:o}" for path, mode in files.items() if mode not in (0o755, 0o644)}
            same((closed, f"{stat.S_IMODE(os.stat(os.path.dirname(prefix)).st_mode):o}"), ({}, "755"), "the modes")
            shutil.rmtree(os.path.dirname(prefix))


def test_an_exported_cdpath_leads_no_install_astray(folder, packages):
    """Elsewhere there are folders that are called as those of the archive, and hold nothing."""
    place = folder.path.decode()
    prefix, elsewhere, stage = (os.path.join(place, name) for name in ("prefix", "elsewhere", "stage"))
    with packages.unpacked(packages.version) as archive:
        os.makedirs(os.path.join(elsewhere, "tools"))
        os.mkdir(os.path.join(elsewhere, os.path.basename(archive)))
        env = {**os.environ, "CDPATH": elsewhere}
        goes_well(["sh", os.path.join(archive, "install.sh"), prefix])
        before, empty = looks(prefix), looks(elsewhere)
        programs = [os.path.join(archive, "bin", name) for name in PROGRAMS]
        for script, at, words in (
            ("tools/product.sh", archive, ["install", "", prefix, *programs]),
            (f"{os.path.basename(archive)}/install.sh", os.path.dirname(archive), [prefix]),
            ("tools/product.sh", archive, ["install", stage, prefix, *programs]),
        ):
            same(run(["sh", script, *words], env=env, cwd=at)[1:], ("", 0), f"{script} with a CDPATH")
            same_looks(looks(prefix), before, f"what {script} changes with a CDPATH")
        same_looks(looks(stage + prefix), before, "what is laid out for a package with a CDPATH")
    same_looks(looks(elsewhere), empty, "what is made elsewhere")


def installed(folder, packages):
    """A folder with a product below it that has the site's own file, the prefix, and how the folder looks."""
    place = os.path.join(folder.path.decode(), "place")
    prefix = os.path.join(place, "prefix")
    with packages.unpacked(packages.version) as archive:
        goes_well(["sh", os.path.join(archive, "install.sh"), prefix])
    write(os.path.join(prefix, "etc", "modulespath"), "/site\n")
    return place, prefix, looks(place)


def refuses(archive, prefix, said, **how):
    """An install ends with status 1, and says this."""
    out, err, status = install(archive, prefix, **how)
    true(status == 1 and not out and said in err, f"an install that says {said!r}: found {(out, err, status)}")


def test_an_install_that_lacks_a_file_changes_nothing(folder, packages):
    """A later version is installed over another one, and where there is none. A folder is no file either."""
    place, prefix, before = installed(folder, packages)
    for name, is_folder in itertools.product(NEEDED, (False, True)):
        with packages.unpacked(packages.later) as archive:
            os.remove(os.path.join(archive, name))
            if is_folder:
                os.mkdir(os.path.join(archive, name))
            refuses(archive, prefix, os.path.basename(name))
            refuses(archive, os.path.join(place, "new", "prefix"), os.path.basename(name))
        same_looks(looks(place), before, f"what an install without {name} changes")


def test_an_install_that_finds_no_room_changes_nothing(folder, packages):
    """No file takes more bytes than these: a text is too long, and then a program. A folder stands in a file's place."""
    place, prefix, before = installed(folder, packages)
    with packages.unpacked(packages.later) as archive:
        for most in (1000, 100_000):

            def limit(most=most):
                signal.signal(signal.SIGXFSZ, signal.SIG_IGN)
                resource.setrlimit(resource.RLIMIT_FSIZE, (most, most))

            refuses(archive, prefix, "Nothing is installed", preexec_fn=limit)
            same_looks(looks(place), before, f"what an install with {most} bytes changes")
        taken = os.path.join(prefix, "init/fish")
        os.remove(taken)
        os.mkdir(taken)
        before = looks(place)
        refuses(archive, prefix, taken)
        same_looks(looks(place), before, "what an install over a folder changes")


def test_relative_paths_begin_where_the_caller_stands(packages):
    with packages.unpacked(packages.version) as archive:
        near, name = os.path.split(archive)
        before = looks(archive)
        same(install(name, "/p", cwd=near, env={**os.environ, "DESTDIR": "one"})[1:], ("", 0), "install.sh")
        words = ["install", "./two", "/p", *(f"{name}/bin/{program}" for program in PROGRAMS)]
        same(run(["sh", f"{name}/tools/product.sh", *words], cwd=near)[1:], ("", 0), "product.sh")
        same(sorted(os.listdir(near)), sorted([name, "one", "two"]), "what is made")
        same(sorted(os.listdir(f"{near}/one/p/bin")), ["modaudit", "modcheck", "modport", "modulecmd"], "the programs for users")
        true(os.path.exists(f"{near}/one/p/libexec/module"), "the program that functions run is there")
        same_looks(looks(f"{near}/two"), looks(f"{near}/one"), "what both lay out")
        same_looks(looks(archive), before, "the archive")
        words = ["sh", os.path.join(archive, "install.sh"), "--uninstall", "/p"]
        same(run(words, cwd=near, env={**os.environ, "DESTDIR": "one"}), ("", "", 0), "install.sh --uninstall")
        same(run(["sh", f"{name}/tools/product.sh", "uninstall", "two", "/p"], cwd=near), ("", "", 0), "uninstall")
        same([os.listdir(f"{near}/{stage}") for stage in ("one", "two")], [[], []], "what is left")


def test_install_sh_refuses_what_it_cannot_do(packages):
    with packages.unpacked(packages.version) as archive:
        for words in (["relative"], ["/a'b"], ["/"], [""], ["--nope"], ["/a", "/b"]):
            out, err, status = run(["/bin/sh", os.path.join(archive, "install.sh"), *words])
            true(status != 0 and err and not out, f"install.sh {words}: found {(out, err, status)}")


def test_shellcheck_has_nothing_to_say_of_install_sh():
    same(run(["shellcheck", os.path.join(TOP, "package", "install.sh")]), ("", "", 0), "shellcheck")


@needs_dpkg
@needs_lintian
def test_lintian_finds_no_errors(packages):
    out, err, status = run(["lintian", "--allow-root", "--fail-on", "error", packages.debian(packages.version)])
    same(status, 0, f"lintian: {out}{err}")


@needs_root
def test_the_program_runs_alone_in_an_empty_root(folder, packages):
    alone = os.path.join(folder.path.decode(), "alone")
    os.makedirs(os.path.join(alone, "m/foo"))
    write(os.path.join(alone, "m/foo/1.0"), FOO)
    with packages.unpacked(packages.version) as archive:
        shutil.copy(os.path.join(archive, "bin/modulecmd"), alone)
    env = {"MODULEPATH": "/m", "PATH": "/usr/bin:/bin"}
    out, err, status = run(["/modulecmd", "sh", "load", "foo"], alone, env=env)
    same((err, status), ("", 0), "a load")
    wanted = ["FOO='on'; export FOO;", "PATH='/opt/foo/bin:/usr/bin:/bin'; export PATH;"]
    same([line for line in out.splitlines() if line.startswith(("FOO", "PATH"))], wanted, "what it prints")


@needs_root
def test_shells_log_in_by_the_links_of_an_archive(packages, machine):
    with machine.is_as_before(), packages.unpacked(packages.version) as archive:
        shutil.copytree(archive, f"{machine.root}/tmp/archive")
        _, err, status = machine.run(["sh", "/tmp/archive/install.sh", PREFIX])
        same((err, status), ("", 0), "install.sh")
        for place, aim in LINKS.items():
            os.symlink(f"{PREFIX}/init/{aim}", machine.root + place)
        machine.write("/etc/zsh/zshrc", f". {PREFIX}/init/zsh\n")
        machine.log_in(*LOGINS)
        for place in (*LINKS, "/etc/zsh/zshrc"):
            os.remove(machine.root + place)
        _, err, status = machine.run(["sh", "/tmp/archive/install.sh", "--uninstall", PREFIX])
        same((err, status), ("", 0), "install.sh --uninstall")
        shutil.rmtree(f"{machine.root}/tmp/archive")


@needs_root
@needs_dpkg
def test_shells_log_in_by_the_links_of_debian_s_package(packages, machine):
    with machine.has(packages.debian(packages.version)):
        machine.log_in("sh", "bash", "tcsh", "fish")
        machine.write("/etc/zsh/zshrc", f". {DEBIAN}/init/zsh\n")
        machine.log_in("zsh")
        os.remove(f"{machine.root}/etc/zsh/zshrc")
        out, err, _ = machine.run(["modcheck", "sh"], input="load foo\nunload foo\n")
        true("foo/1.0: Plain" in out + err, f"modcheck: found {out}{err}")
        out, err, _ = machine.run(["modaudit"])
        true("foo/1.0\tcertified" in out, f"modaudit: found {out}{err}")


@needs_root
@needs_dpkg
def test_removing_debian_s_package_keeps_the_site_s_file_and_purging_takes_it(packages, machine):
    env = {"PATH": "/usr/bin:/bin", "HOME": "/root"}
    before = machine.listing()
    with machine.has(packages.debian(packages.version)):
        machine.write(OWN, "/modules\n")
        same(machine.run(LOGINS["bash"], env=env), (SHOWN, "", 0), "a login by the site's directories")
        machine.dpkg("-r", "modulecmd")
        same(machine.listing() - before, {os.path.dirname(OWN), OWN}, "what removing leaves")


@needs_root
@needs_dpkg
def test_debian_s_package_is_refused_beside_others_of_its_kind(packages, machine):
    for other in ("environment-modules", "lmod"):
        with machine.is_as_before():
            machine.write("/var/lib/dpkg/status", INSTALLED.format(name=other))
            said = machine.dpkg("-i", packages.debian(packages.version), status=1)
            true(f"modulecmd conflicts with {other}" in said, f"beside {other}: {said}")
    machine.write("/var/lib/dpkg/status", "")


@needs_rpm
def test_rpmlint_finds_no_errors(packages):
    rules = os.path.join(TOP, "package", "rpmlintrc")
    out, err, status = run(["rpmlint", "--rpmlintrc", rules, packages.rpm(packages.version)])
    true(status == 0 and " 0 errors" in out, f"rpmlint: {out}{err}")


@needs_root
@needs_rpm
def test_shells_log_in_by_the_rpm(packages, machine):
    with machine.has_rpm(packages.rpm(packages.version)):
        machine.write("/etc/csh.cshrc", RED_HAT_S_CSHRC)
        machine.write("/etc/zsh/zshrc", f". {DEBIAN}/init/zsh\n")
        machine.log_in(*LOGINS)
        machine.write("/etc/csh.cshrc", CSHRC)
        os.remove(f"{machine.root}/etc/zsh/zshrc")


@needs_root
@needs_rpm
def test_man_finds_the_pages_of_the_rpm(packages, machine):
    with machine.has_rpm(packages.rpm(packages.version)):
        for page in PAGES:
            path = f"{machine.root}/usr/share/man/man{page[-1]}/{page}"
            true(os.path.isfile(path), f"{page} stands where man looks for it")


@needs_root
@needs_rpm
def test_an_upgrade_of_the_rpm_keeps_the_site_s_file_and_erasing_it_saves_that(packages, machine):
    saved = f"{machine.root}{OWN}.rpmsave"
    with machine.has_rpm(packages.rpm(packages.version)):
        machine.write(OWN, "# ours\n/modules\n")
        machine.rpm("-U", packages.rpm(packages.later))
        same(read(machine.root + OWN), b"# ours\n/modules\n", "the site's file")
        asked = ["rpm", "--force-debian", f"--root={machine.root}", "-q", "--qf", "%{VERSION}", "modulecmd"]
        same(run(asked)[0], packages.later, "the version that is there")
        out, err, status = machine.run(["bash", "--login", "-c", "module --version"])
        true(out.startswith("modulecmd "), f"what a login says of the version: found {(out, err, status)}")
        machine.log_in("sh", "bash", "fish")
        machine.rpm("-e", "modulecmd")
        same(read(saved), b"# ours\n/modules\n", "what erasing leaves of the site's file")
        os.remove(saved)
        os.rmdir(os.path.dirname(saved))
        machine.rpm("-i", packages.rpm(packages.version))


@contextlib.contextmanager
def session(root, env):
    """A bash that has logged in, and takes a line at a time."""

    def enter():
        os.chroot(root)
        os.chdir("/")

    streams = {"stdin": subprocess.PIPE, "stdout": subprocess.PIPE, "stderr": subprocess.STDOUT}
    with subprocess.Popen(["bash", "--login"], env=env, preexec_fn=enter, text=True, **streams) as shell:

        def answer(line):
            shell.stdin.write(f"{line}\n")
            shell.stdin.flush()
            return shell.stdout.readline()

        yield answer
        shell.stdin.close()
        same(shell.stdout.read(), "", "what the session says at its end")


@needs_root
@needs_dpkg
def test_an_upgrade_keeps_the_site_s_file_and_sessions_go_on(packages, machine):
    with machine.has(packages.debian(packages.version)):
        machine.write(OWN, "# ours\n/modules\n")
        with session(machine.root, {"PATH": "/usr/bin:/bin", "HOME": "/root"}) as answer:
            same(answer("module load foo; echo $FOO $PATH"), "on /opt/foo/bin:/usr/bin:/bin\n", "a load")
            machine.dpkg("-i", packages.debian(packages.later))
            status = read(machine.root + "/var/lib/dpkg/status")
            true(f"Version: {packages.later}\n".encode() in status, "the later version is there")
            true(answer("module --version").startswith("modulecmd "), "what the session says of the version")
            same(answer("module unload foo; echo $PATH ${FOO-gone}"), "/usr/bin:/bin gone\n", "an unload")
            same(answer("module load foo; echo $FOO"), "on\n", "another load")
        same(read(machine.root + OWN), b"# ours\n/modules\n", "the site's file")


@needs_root
@needs_dpkg
def test_the_variables_of_a_session_of_the_first_version_are_read(packages, machine):
    env = {"PATH": "/opt/foo/bin:/usr/bin:/bin", "MODULEPATH": "/modules", "FOO": "on"}
    env.update(LOADEDMODULES="foo/1.0", _LMFILES_="/modules/foo/1.0")
    line = f". {DEBIAN}/init/bash; module unload foo; echo $PATH ${{FOO-gone}} ${{LOADEDMODULES-none}}"
    with machine.has(packages.debian(packages.later)):
        same(machine.run(["bash", "-c", line], env=env), ("/usr/bin:/bin gone none\n", "", 0), "an unload")
