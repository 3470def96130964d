"""Makes the RPM of the product, of what package.py has laid out: one for Red Hat's systems, SUSE's and the like, since the
programs in it need no library."""

import os
import shutil
import subprocess
import time

import link

PREFIX = "/usr/lib/modulecmd"
DOC = "/usr/share/doc/modulecmd"
MAN = "/usr/share/man"
LINKS = {
    f"{PREFIX}/etc": "/etc/modulecmd",
    "/usr/bin/modaudit": "../lib/modulecmd/bin/modaudit",
    "/usr/bin/modcheck": "../lib/modulecmd/bin/modcheck",
    "/usr/bin/modport": "../lib/modulecmd/bin/modport",
}

# How shells find it: by the alternatives of `modules.sh`, which other packages of the kind have too, and which the
# administrator chooses among. The folders, the ends of names, and the files.
STARTS = (
    ("/etc/profile.d", "sh", f"{PREFIX}/init/profile.sh"),
    ("/etc/profile.d", "csh", f"{PREFIX}/init/profile.csh"),
    ("/usr/share/fish/vendor_conf.d", "fish", f"{PREFIX}/init/fish"),
)
PRIORITY = 20  # below that of others, so that an installation beside them changes nothing
ALTERNATIVES = "/usr/sbin/update-alternatives"

SPEC = """Name: modulecmd
Version: {version}
Release: 1
Summary: Load and unload software in a shell, by modulefiles
License: {licence}
Group: System/Base
Packager: {packager}
BuildArch: x86_64
Provides: environment(modules)
AutoReqProv: no
Requires: /bin/sh
Requires(post): {alternatives}
Requires(preun): {alternatives}

%description
Users of clusters and shared machines load software by `module load NAME`,
which changes variables such as PATH as a modulefile says, and take it away
again by `module unload NAME`. This is a modulecmd of Environment Modules 5
with proofs that unloads lead back, and functions for POSIX shells such as
bash and zsh, and for csh and fish.

%install
cp -a '{root}/.' %{{buildroot}}

%post
{alternatives} --install {links} > /dev/null

%preun
if test "$1" = 0; then
    {alternatives} --remove modules.sh {profile} > /dev/null
fi

%files
{files}

%changelog
* {date} {packager} - {version}-1
- What changed is in {doc}/CHANGELOG.md.
"""

# What makes the package the same in each build of one tree, and leaves the programs as they are.
DEFINES = {
    "debug_package": "%{nil}",
    "__os_install_post": "%{nil}",
    "_build_id_links": "none",
    "use_source_date_epoch_as_buildtime": "1",
    "clamp_mtime_to_source_date_epoch": "1",
    "source_date_epoch_from_changelog": "0",
    "_buildhost": "localhost",
    "_binary_payload": "w9.xzdio",
    "_rpmfilename": "%{NAME}-%{VERSION}-%{RELEASE}.%{ARCH}.rpm",
}


def lay_out(folder, root):
    """Lays out what the package holds below a root."""
    install = ["sh", "tools/product.sh", "install", root, PREFIX, *(f"bin/{name}" for name in link.PRODUCT)]
    subprocess.run(install, cwd=folder, stdout=subprocess.DEVNULL, check=True)
    os.makedirs(f"{root}/etc")
    os.replace(f"{root}{PREFIX}/etc", f"{root}/etc/modulecmd")
    os.makedirs(f"{root}{DOC}")
    for name in ("README.md", "CHANGELOG.md", "SECURITY.md", "COPYRIGHT"):
        shutil.copy(os.path.join(folder, name), f"{root}{DOC}")
    for name in sorted(os.listdir(os.path.join(folder, "docs"))):
        own = f"{root}{PREFIX}/share/doc/{name}"
        shutil.copy(own if os.path.exists(own) else os.path.join(folder, "docs", name), f"{root}{DOC}")
    shutil.rmtree(f"{root}{PREFIX}/share/doc")
    shutil.copytree(f"{folder}/LICENSES", f"{root}{PREFIX}/LICENSES")
    for place, aim in [*LINKS.items(), *manual_pages(root)]:
        os.makedirs(os.path.dirname(root + place), exist_ok=True)
        os.symlink(aim, root + place)
    for folder, end, file in STARTS:
        for place, aim in ((f"{folder}/modules.{end}", f"/etc/alternatives/modules.{end}"),
                           (f"/etc/alternatives/modules.{end}", file)):
            os.makedirs(os.path.dirname(root + place), exist_ok=True)
            os.symlink(aim, root + place)


def manual_pages(root):
    """The links by which `man` finds the pages of the prefix, each with what it leads to."""
    own = f"{root}{PREFIX}/share/man"
    for section in sorted(os.listdir(own)):
        for page in sorted(os.listdir(f"{own}/{section}")):
            yield f"{MAN}/{section}/{page}", f"../../../lib/modulecmd/share/man/{section}/{page}"


def kind_of(path):
    """What rpm is to know of a file: which of them are the site's, are read, or are made by the alternatives."""
    name = os.path.basename(path)
    if path == "/etc/modulecmd/modulespath":
        return "%config(noreplace) "
    if path.startswith("/etc/alternatives/") or name.startswith("modules."):
        return "%ghost "
    return "%doc " if path.startswith((DOC, MAN)) else ""


def file_lines(root):
    """The list of the package's files, each with what it is. Folders that others have too aren't its own."""
    lines = []
    for at, folders, files in sorted(os.walk(root)):
        place = at[len(root) :]
        links = [name for name in folders if os.path.islink(os.path.join(at, name))]
        if place.startswith((PREFIX, DOC, "/etc/modulecmd")):
            lines.append(f'%dir "{place}"')
        lines += [f'{kind_of(f"{place}/{name}")}"{place}/{name}"' for name in sorted([*files, *links])]
    return lines


def spec(root, version, licence, packager, seconds):
    """The text that rpmbuild makes the package of."""
    links = [f"{folder}/modules.{end} modules.{end} {file}" for folder, end, file in STARTS]
    return SPEC.format(
        version=version,
        licence=licence,
        packager=packager,
        root=root,
        alternatives=ALTERNATIVES,
        links=f" \\\n    --slave ".join([f"{links[0]} {PRIORITY}", *links[1:]]),
        profile=STARTS[0][2],
        files="\n".join(file_lines(root)),
        date=time.strftime("%a %b %d %Y", time.gmtime(seconds)),
        doc=DOC,
    )


def make(folder, into, version, licence, packager, seconds, settle):
    """Makes the package of what was laid out, and gives its path."""
    room = os.path.dirname(folder)
    root, top = os.path.join(room, "rpm"), os.path.join(room, "rpmbuild")
    lay_out(folder, root)
    settle(root, seconds)
    os.makedirs(top)
    with open(os.path.join(top, "modulecmd.spec"), "w", encoding="utf-8") as file:
        file.write(spec(root, version, licence, packager, seconds))
    defines = {**DEFINES, "_topdir": top, "_rpmdir": into}
    words = ["rpmbuild", "-bb", "--quiet", "--target", "x86_64-linux"]
    words += [word for name, value in defines.items() for word in ("--define", f"{name} {value}")]
    env = {**os.environ, "SOURCE_DATE_EPOCH": str(seconds), "HOME": room, "LC_ALL": "C"}
    done = subprocess.run([*words, f"{top}/modulecmd.spec"], env=env, capture_output=True, text=True, check=False)
    if done.returncode != 0:
        raise SystemExit(f"rpmbuild fails:\n{done.stdout}{done.stderr}")
    return os.path.join(into, f"modulecmd-{version}-1.x86_64.rpm")
