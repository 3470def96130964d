"""Links programs of the product, and leaves them in a folder.

The prover's build gives an object. Linked statically by the system's compiler it starts in a third of the instructions,
and asks the machine where it runs for no C library. The kit's own link of the same object, which is dynamic, is left
beside it for the tests that put a library before the C library's.
"""

import os
import shutil
import struct
import subprocess

# The programs of the product, by the names that they are installed by, and the folder of each below the prefix.
PRODUCT = {"modulecmd": "bin", "module": "libexec"}

# Other names of a program, by which it does something else: links to it.
ALIASES = {"modcheck": "module", "modaudit": "module", "modport": "module"}

# The folder beside a program where the dynamically linked one stands.
DYNAMIC = "dynamic"

# How the system's compiler links statically.
FLAGS = ("-static", "-Wl,--gc-sections", "-Wl,-z,relro,-z,now,-z,noexecstack")

# The line that stands in a program of which nothing is proved: neither `make install` nor a package takes it.
UNPROVED = "Nothing of this program is proved."

# The kind of an ELF segment that names a loader.
PT_INTERP = 3


def is_static(program):
    """Whether a program is an ELF file that names no loader."""
    with open(program, "rb") as file:
        head = file.read(64)
        if len(head) < 64 or head[:5] != b"\x7fELF\x02":
            return False
        (start,), (size, count) = struct.unpack_from("<Q", head, 32), struct.unpack_from("<HH", head, 54)
        file.seek(start)
        table = file.read(size * count)
    return all(struct.unpack_from("<I", table, size * place)[0] != PT_INTERP for place in range(count))


def is_unproved(program):
    """Whether the line stands in a program that nothing of it is proved."""
    with open(program, "rb") as file:
        return f"\n{UNPROVED}\n".encode() in file.read()


def kit_link(kit, made, program):
    """The words that link an object as the kit does."""
    words = [f"{kit}/bin/rattle-link", "--target", "x86_64-unknown-linux-gnu", "--toolchain", f"{kit}/toolchain"]
    return [*words, "-o", program, made, *libraries(kit)]


def libraries(kit):
    """The kit's own C, which any program of Rattle stands on."""
    return [f"{kit}/c/libos_c.a", f"{kit}/c/liblibc_c.a"]


def link_statically(kit, made, program):
    """Links an object by the system's compiler and C library, and gives what is in the way, or nothing."""
    if not shutil.which("cc"):
        return "there is no cc"
    words = ["cc", *FLAGS, "-o", program, made, *libraries(kit)]
    done = subprocess.run(words, stdin=subprocess.DEVNULL, capture_output=True, text=True, check=False)
    if done.returncode:
        return (done.stderr.strip().splitlines() or ["cc failed"])[-1]
    return None if is_static(program) else "cc doesn't link statically"


def is_made_of(kit, linked, made, room):
    """Whether the kit's link of this object is that program, byte for byte."""
    again = os.path.join(room, "again")
    words = kit_link(kit, made, again)
    done = subprocess.run(words, stdin=subprocess.DEVNULL, capture_output=True, check=False)
    if done.returncode:
        return False
    with open(again, "rb") as one, open(linked, "rb") as other:
        is_same = one.read() == other.read()
    os.remove(again)
    return is_same


def leave(kit, linked, made, folder, name):
    """Puts a program into a folder, with its other names: linked statically, and the kit's link of the same object in a
    folder of it. Where one can't be linked so, or there is no object, the kit's link takes its place, and a line says
    why."""
    beside = os.path.join(folder, DYNAMIC)
    os.makedirs(beside, exist_ok=True)
    place = os.path.join(folder, name)
    new = f"{place}.new"
    shutil.copy(linked, os.path.join(beside, f"{name}.new"))
    os.replace(os.path.join(beside, f"{name}.new"), os.path.join(beside, name))
    why = link_statically(kit, made, new) if made and os.path.exists(made) else "its object isn't there"
    if why:
        shutil.copy(linked, new)
        print(f"{name} is linked dynamically: {why}", flush=True)
    os.replace(new, place)
    for alias in [it for it, named in ALIASES.items() if named == name]:
        for at in (folder, beside):
            name_too(at, name, alias)


def name_too(folder, name, alias):
    """Gives a program in a folder another name."""
    new = os.path.join(folder, f"{alias}.new")
    os.symlink(name, new)
    os.replace(new, os.path.join(folder, alias))


def kept_object(top, name):
    """Where the object of a program is kept, out of reach of the gate, which empties the crates' folders out/."""
    return os.path.join(top, "build", "objects", f"{name}.o")


def keep(made, top, name):
    """Keeps the object of a program."""
    kept = kept_object(top, name)
    os.makedirs(os.path.dirname(kept), exist_ok=True)
    shutil.copy(made, f"{kept}.new")
    os.replace(f"{kept}.new", kept)
