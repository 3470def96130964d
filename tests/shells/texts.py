"""The written spelling of each family of shells, by the table in module(1), and the program that stands in."""

import os

HERE = os.path.dirname(os.path.abspath(__file__))


def quoted(family, value):
    """A value as it stands in the quotes of a family."""
    if family == "fish":
        return "'" + value.replace("\\", "\\\\").replace("'", "\\'") + "'"
    value = value.replace("'", "'\\''")
    if family == "csh":
        value = value.replace("!", "'\\!'")
    return "'" + value + "'"


def line(family, name, value):
    """The line by which a variable takes a value, or is unset."""
    if value is None:
        return {"sh": f"unset {name};", "csh": f"unsetenv {name};", "fish": f"set -e {name};"}[family] + "\n"
    value = quoted(family, value)
    return {
        "sh": f"{name}={value}; export {name};",
        "csh": f"setenv {name} {value};",
        "fish": f"set -xg {name} {value};",
    }[family] + "\n"


def text(family, changes):
    """The text of changes, in the order of the bytes of names."""
    return "".join(line(family, name, changes[name]) for name in sorted(changes)).encode()


def word(value):
    """A value as a word of a modulefile: letters and what is no ASCII stand for themselves."""
    marks = []
    for mark in value:
        plain = mark.isascii() and mark.isalnum() or not mark.isascii()
        marks.append(mark if plain else f"\\{ord(mark):03o}")
    return '"' + "".join(marks) + '"'


class StandIn:
    """The answers of the program that stands in, in the order of the commands, and the words that it was given."""

    def __init__(self, folder):
        self.path = os.path.join(folder.path, b"stand_in").decode()
        self.answered = 0
        os.mkdir(self.path)
        self.write("number", b"0\n")

    def write(self, name, data):
        with open(os.path.join(self.path, name), "wb") as file:
            file.write(data)

    def answer(self, out=b"", err=b"", status=0):
        """One more answer."""
        self.answered += 1
        self.write(f"{self.answered}.out", out)
        self.write(f"{self.answered}.err", err)
        self.write(f"{self.answered}.status", f"{status}\n".encode())

    def hang(self):
        """One more command, which ends when it is broken off: its text is that of a pipe that nobody writes to."""
        self.answer()
        pipe = os.path.join(self.path, f"{self.answered}.out")
        os.remove(pipe)
        os.mkfifo(pipe)

    def words(self):
        """The words of each command so far, behind the name of the shell."""
        with open(os.path.join(self.path, "number"), "rb") as file:
            count = int(file.read())
        given = []
        for number in range(1, count + 1):
            with open(os.path.join(self.path, f"{number}.words"), "rb") as file:
                words = [entry.decode(errors="surrogateescape") for entry in file.read().split(b"\0")[:-1]]
            # Behind the name stands the size of the terminal, as far as the function knows it.
            given.append([words[0].split(":")[0], *words[1:]])
        return given
