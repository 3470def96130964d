"""Lays out what whoever hands the programs on has to hand on with them: whose the parts of a program are and under which
licence, and what it takes to link the programs again with another C library.
"""

import glob
import os
import shutil
import subprocess
import textwrap

import link

# The ported crates whose code the programs hold, besides the kit's own libraries.
PORTS = ("fast_float", "indexmap", "itoa", "memchr", "ryu", "simdutf8", "unicode_width")

# A library of the kit with Unicode's tables, which are under Unicode's own licence.
TABLES = "ucd_table"

# Where Debian has the terms of the C library, and the text that they name.
C_LIBRARY = ("/usr/share/doc/libc6-dev/copyright", "/usr/share/common-licenses/LGPL-2.1")

TEXT = """Whose the parts of the programs are
===================================

The programs are linked statically. They hold

- modulecmd itself: LICENSE, beside this folder;
- the Rattle kit's libraries `core`, `std` and `json`, and the kit's C in objects/: the kit's;
- ports of Rust crates, whose licences stand in the folders here: {ports};
- tables made of Unicode's data: {tables}/;
- the GNU C library, under the GNU Lesser General Public License, version 2.1 or later: glibc/.

How to link them again
======================

With another version of the C library, where its static library is installed, in this folder, for each program:

{commands}

The source of the C library is that of the package libc6-dev of the system that the programs were built on.
"""


def kit():
    """The folder of the Rattle kit."""
    page = subprocess.run(["rt", "doc"], stdout=subprocess.PIPE, text=True, check=True).stdout.strip()
    return os.path.dirname(page)


def command(name):
    """The words that link a program again, of what stands in the folder."""
    return ["cc", *link.FLAGS, "-o", name, f"objects/{name}.o", "objects/libos_c.a", "objects/liblibc_c.a"]


def lay_out(top, folder):
    """Makes the folder LICENSES."""
    home = os.path.join(folder, "LICENSES")
    os.makedirs(os.path.join(home, "objects"))
    os.makedirs(os.path.join(home, "glibc"))
    for name in (*PORTS, TABLES):
        os.makedirs(os.path.join(home, name))
        for path in glob.glob(os.path.join(kit(), "rattle", name, "LICENSE*")):
            shutil.copy(path, os.path.join(home, name))
    for path in filter(os.path.exists, C_LIBRARY):
        shutil.copy(os.path.realpath(path), os.path.join(home, "glibc", os.path.basename(path)))
    for name in link.PRODUCT:
        shutil.copy(link.kept_object(top, name), os.path.join(home, "objects"))
    for path in link.libraries(kit()):
        shutil.copy(path, os.path.join(home, "objects"))
    commands = "\n".join(textwrap.indent(" ".join(command(name)), "    ") for name in link.PRODUCT)
    with open(os.path.join(home, "README"), "w", encoding="utf-8") as file:
        file.write(TEXT.format(ports=", ".join(PORTS), tables=TABLES, commands=commands))
