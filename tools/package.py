"""Makes packages of the product over the programs in build/bin, which have to be linked statically.

    package.py [FOLDER [VERSION]]

leaves in the folder (build/dist): modulecmd-VERSION-x86_64-linux.tar.gz, whose install.sh lays the product out below any
prefix; modulecmd_VERSION_amd64.deb, where there is a dpkg-deb; modulecmd-VERSION-1.x86_64.rpm, where there is an
rpmbuild; and SHA256SUMS of these. Where a package isn't made, the last line says so, and the status is 1.
The same tree gives the same bytes: names are sorted, owners are root, and times are SOURCE_DATE_EPOCH, or the last
commit's, or VERSION's.
"""

import gzip
import hashlib
import os
import re
import shutil
import subprocess
import sys
import tarfile
import tempfile
from email.utils import formatdate

import licences
import link
import rpm_package

TOP = os.path.dirname(os.path.dirname(os.path.abspath(__file__)))

# What `tools/product.sh` reads, and what the archive has to be read.
FOLDERS = ("init", "libexec", "completion", "man", "etc", "docs", "tests/sites/examples")
FILES = ("tools/product.sh", "VERSION", "README.md", "CHANGELOG.md", "SECURITY.md", "LICENSE")
LEFT_OUT = shutil.ignore_patterns(".*", "*~")

# Debian's layout: where the product stands, and the links by which shells and users find it.
PREFIX = "/usr/lib/modulecmd"
DOC = "/usr/share/doc/modulecmd"
LINKS = {
    f"{PREFIX}/etc": "/etc/modulecmd",
    f"{PREFIX}/share/man": "../../../share/man",
    "/etc/profile.d/modulecmd.sh": f"{PREFIX}/init/profile.sh",
    "/etc/csh/cshrc.d/modulecmd": f"{PREFIX}/init/profile.csh",
    "/usr/share/fish/vendor_conf.d/modulecmd.fish": "../../../lib/modulecmd/init/fish",
    "/usr/bin/modaudit": "../lib/modulecmd/bin/modaudit",
    "/usr/bin/modcheck": "../lib/modulecmd/bin/modcheck",
    "/usr/bin/modport": "../lib/modulecmd/bin/modport",
}
CONFFILES = ("/etc/modulecmd/modulespath",)

CONTROL = """Package: modulecmd
Version: {version}
Architecture: amd64
Maintainer: {maintainer}
Installed-Size: {size}
Conflicts: environment-modules, lmod
Section: utils
Priority: optional
Description: load and unload software in a shell, by modulefiles
 Users of clusters and shared machines load software by `module load NAME`,
 which changes variables such as PATH as a modulefile says, and take it away
 again by `module unload NAME`. This is a modulecmd of Environment Modules 5
 with proofs that unloads lead back, and functions for POSIX shells such as
 bash and zsh, and for csh and fish.
"""

CHANGELOG = """modulecmd ({version}) unstable; urgency=medium

  * What changed is in {doc}/CHANGELOG.md.gz.

 -- {maintainer}  {date}
"""


def epoch():
    """The time that stands in the packages, in seconds."""
    given = os.environ.get("SOURCE_DATE_EPOCH", "")
    if given.isdigit():
        return int(given)
    words = ["git", "-C", TOP, "log", "-1", "--format=%ct"]
    done = subprocess.run(words, capture_output=True, text=True, check=False)
    if done.returncode == 0 and done.stdout.strip():
        return int(done.stdout)
    return int(os.stat(os.path.join(TOP, "VERSION")).st_mtime)


def maintainer():
    """Whoever builds, as Debian's tools have it."""
    name, address = os.environ.get("DEBFULLNAME", ""), os.environ.get("DEBEMAIL", "")
    return f"{name or 'Maintainers of modulecmd'} <{address or 'modulecmd@packages.invalid'}>"


def strip_programs(folder):
    """Copies the programs to a new folder, without their symbols."""
    os.mkdir(folder)
    for name in link.PRODUCT:
        built = os.path.join(TOP, "build", "bin", name)
        if os.path.exists(built) and link.is_unproved(built):
            sys.exit(f"build/bin/{name} is of `make try`, and nothing of it is proved: `make build` makes one that is")
        if not os.path.exists(built) or not link.is_static(built):
            sys.exit(f"build/bin/{name} isn't there, or not linked statically: `make deps build` sees to it")
        subprocess.run(["strip", "-o", os.path.join(folder, name), built], check=True)


def write(path, text, mode=0o644):
    os.makedirs(os.path.dirname(path), exist_ok=True)
    with open(path, "w", encoding="utf-8") as file:
        file.write(text)
    os.chmod(path, mode)


def read(name):
    with open(os.path.join(TOP, name), encoding="utf-8") as file:
        return file.read()


def below(folder):
    """Every path below a folder, sorted."""
    found = []
    for at, folders, files in os.walk(folder):
        found += [os.path.relpath(os.path.join(at, name), folder) for name in [*folders, *files]]
    return sorted(found)


def settle(folder, seconds):
    """Gives everything below a folder its mode, whatever the umask, and one time."""
    for path in [os.path.join(folder, name) for name in ["", *below(folder)]]:
        if not os.path.islink(path):
            os.chmod(path, 0o755 if os.path.isdir(path) or os.stat(path).st_mode & 0o100 else 0o644)
        os.utime(path, (seconds, seconds), follow_symlinks=False)


def write_archive(folder, path, seconds):
    """Writes a folder as a tar file, packed by gzip."""

    def plain(member):
        member.uid = member.gid = 0
        member.uname = member.gname = "root"
        return member

    top = os.path.basename(folder)
    with open(path, "wb") as out, gzip.GzipFile("", "wb", 9, out, seconds) as packed:
        with tarfile.open(fileobj=packed, mode="w", format=tarfile.USTAR_FORMAT) as archive:
            for name in ["", *below(folder)]:
                place = os.path.join(top, name).rstrip("/")
                archive.add(os.path.join(folder, name), place, recursive=False, filter=plain)


def lay_out(room, version, seconds):
    """Lays out all that is installed, and what installs it, in a folder, and gives its path."""
    folder = os.path.join(room, f"modulecmd-{version}-x86_64-linux")
    for part in FOLDERS:
        shutil.copytree(os.path.join(TOP, part), os.path.join(folder, part), ignore=LEFT_OUT)
    for file in FILES:
        os.makedirs(os.path.dirname(os.path.join(folder, file)), exist_ok=True)
        shutil.copy(os.path.join(TOP, file), os.path.join(folder, file))
    shutil.copy(os.path.join(TOP, "package", "install.sh"), folder)
    write(os.path.join(folder, "VERSION"), f"{version}\n")
    write(os.path.join(folder, "COPYRIGHT"), copyright_text(version))
    licences.lay_out(TOP, folder)
    strip_programs(os.path.join(folder, "bin"))
    settle(folder, seconds)
    return folder


def make_archive(folder, into, seconds):
    """Makes the package for every Linux, and gives its path."""
    path = os.path.join(into, f"{os.path.basename(folder)}.tar.gz")
    write_archive(folder, path, seconds)
    return path


def pack(path, packed):
    """Packs a text as Debian wants its documents."""
    os.makedirs(os.path.dirname(packed), exist_ok=True)
    with open(path, "rb") as file, open(packed, "wb") as out, gzip.GzipFile("", "wb", 9, out, 0) as zipped:
        shutil.copyfileobj(file, zipped)


def move_to_debian_s_places(root):
    """Moves what `make install` laid out below one prefix to where Debian has such files."""
    here = root + PREFIX
    os.makedirs(f"{root}/etc/modulecmd")
    os.makedirs(f"{root}{DOC}/examples")
    os.replace(f"{here}/etc/modulespath", f"{root}/etc/modulecmd/modulespath")
    os.replace(f"{here}/etc/modulespath.example", f"{root}{DOC}/examples/modulespath")
    os.rmdir(f"{here}/etc")
    shutil.copytree(f"{here}/share/examples", f"{root}{DOC}/examples/modulefiles")
    shutil.rmtree(f"{here}/share/examples")
    for name in below(f"{here}/share/man"):
        page = f"{here}/share/man/{name}"
        if os.path.isfile(page):
            pack(page, f"{root}/usr/share/man/{name}.gz")
    shutil.rmtree(f"{here}/share/man")
    # By its name Debian knows a program that is linked statically on purpose, as bash-static.
    for name, place in link.PRODUCT.items():
        os.replace(f"{here}/{place}/{name}", f"{here}/{place}/{name}-static")
        os.symlink(f"{name}-static", f"{here}/{place}/{name}")
    for place, aim in LINKS.items():
        os.makedirs(os.path.dirname(root + place), exist_ok=True)
        os.symlink(aim, root + place)


def add_documents(folder, root, version, seconds, who):
    """Adds what Debian wants to be read of each package."""
    doc = root + DOC
    write(f"{doc}/copyright", copyright_text(version))
    write(f"{doc}/README.Debian", read("package/README.Debian"))
    for name in ["README.md", "CHANGELOG.md", "SECURITY.md", *sorted(f"docs/{it}" for it in os.listdir(f"{TOP}/docs"))]:
        own = f"{root}{PREFIX}/share/doc/{os.path.basename(name)}"
        pack(own if os.path.exists(own) else os.path.join(TOP, name), f"{doc}/{os.path.basename(name)}.gz")
    shutil.rmtree(f"{root}{PREFIX}/share/doc")
    shutil.copytree(f"{folder}/LICENSES", f"{root}{PREFIX}/LICENSES")
    text = CHANGELOG.format(version=version, doc=DOC, maintainer=who, date=formatdate(seconds))
    write(f"{root}/changelog", text)
    pack(f"{root}/changelog", f"{doc}/changelog.gz")
    os.remove(f"{root}/changelog")


def add_control(root, version, who):
    """Adds what dpkg wants to know."""
    files = [name for name in below(root) if os.path.isfile(f"{root}/{name}") and not os.path.islink(f"{root}/{name}")]
    sums = []
    for name in files:
        with open(f"{root}/{name}", "rb") as file:
            sums.append(f"{hashlib.md5(file.read()).hexdigest()}  {name}\n")
    # In kilobytes, and one for everything that isn't a file.
    size = sum(-(-os.path.getsize(f"{root}/{name}") // 1024) for name in files) + len(below(root)) - len(files)
    write(f"{root}/DEBIAN/control", CONTROL.format(version=version, maintainer=who, size=size))
    write(f"{root}/DEBIAN/md5sums", "".join(it for it in sums if f"/{it.split()[1]}" not in CONFFILES))
    write(f"{root}/DEBIAN/conffiles", "".join(f"{name}\n" for name in CONFFILES))


def make_debian(folder, into, version, seconds):
    """Makes Debian's package of what was laid out, and gives its path."""
    root = os.path.join(os.path.dirname(folder), "debian")
    install = ["sh", "tools/product.sh", "install", root, PREFIX, *(f"bin/{name}" for name in link.PRODUCT)]
    subprocess.run(install, cwd=folder, stdout=subprocess.DEVNULL, check=True)
    move_to_debian_s_places(root)
    add_documents(folder, root, version, seconds, maintainer())
    add_control(root, version, maintainer())
    settle(root, seconds)
    path = os.path.join(into, f"modulecmd_{version}_amd64.deb")
    words = ["dpkg-deb", "--root-owner-group", "-Zxz", "--build", root, path]
    env = {**os.environ, "SOURCE_DATE_EPOCH": str(seconds)}
    subprocess.run(words, env=env, stdout=subprocess.DEVNULL, check=True)
    return path


def copyright_text(version):
    """Whose the files of the packages are. The text of their own licence stands below the first line of LICENSE."""
    _, _, text = read("LICENSE").partition("\n\n")
    return read("package/copyright").replace("@version@", version).replace("@licence@", text)


def licence():
    """The SPDX identifier of the product's licence: that of its own files, and of the C library that its programs hold."""
    return f"{read('LICENSE').splitlines()[0]} AND LGPL-2.1-or-later"


def write_sums(into, made):
    """Writes the checksums of the packages, and gives the path."""
    path = os.path.join(into, "SHA256SUMS")
    with open(path, "w", encoding="ascii") as out:
        for package in sorted(made, key=os.path.basename):
            with open(package, "rb") as file:
                out.write(f"{hashlib.sha256(file.read()).hexdigest()}  {os.path.basename(package)}\n")
    return path


def main(words):
    into = os.path.abspath(words[0] if words else os.path.join(TOP, "build", "dist"))
    version = words[1] if words[1:] else read("VERSION").strip()
    if words[2:] or not re.fullmatch(r"[0-9][0-9A-Za-z.+~]*", version):
        sys.exit("package.py [FOLDER [VERSION]]")
    os.makedirs(into, exist_ok=True)
    seconds = epoch()
    lacking = []
    with tempfile.TemporaryDirectory(prefix="modulecmd-package-") as room:
        folder = lay_out(room, version, seconds)
        made = [make_archive(folder, into, seconds)]
        if shutil.which("dpkg-deb"):
            made.append(make_debian(folder, into, version, seconds))
        else:
            lacking.append("Debian's package, since there is no dpkg-deb")
        if shutil.which("rpmbuild"):
            made.append(rpm_package.make(folder, into, version, licence(), maintainer(), seconds, settle))
        else:
            lacking.append("the RPM, since there is no rpmbuild")
    made.append(write_sums(into, made))
    for path in made:
        print(f"made {os.path.relpath(path)}")
    if lacking:
        sys.exit(f"not made: {'; '.join(lacking)}")
    return 0


if __name__ == "__main__":
    sys.exit(main(sys.argv[1:]))
