"""The modulefiles of the worked rows, which are those of the first example of core/commands.txt."""

import os

from tests.lib.examples import FOLDER, first_modules, real

__all__ = ["FILES", "FOLDER", "real", "write"]

# By path, without the first line, which is `#%Module`. `/m` and `/n` stand for folders.
FILES = dict(first_modules("core/commands.txt"))


def write(folder, path, text):
    """Writes a modulefile, whose first line is the cookie."""
    path = real(folder, path)
    os.makedirs(os.path.dirname(path), exist_ok=True)
    with open(path, "wb") as file:
        file.write(b"#%Module\n" + real(folder, text))
