"""How the examples in text files say texts, files and commands.

In a text `\\n`, `\\t`, `\\r`, `\\v`, `\\f`, `\\s`, `\\z` and `\\xHH` stand for a newline, a tab, a carriage return, a
vertical tab, a form feed, a space, NUL and a byte; any other character after a backslash is itself. A text may have
parts with `·` between them, and a part `×TIMES` after it, as `[×200·]×200`. What a program writes stands as it is,
but for the signs `␀` to `␟` of control characters and `␤` of a newline.

`module PATH TEXT` puts a modulefile, whose first line is the cookie, `file PATH TEXT` a file of this text alone,
`folder PATH` an empty folder and `link PATH TARGET` a symbolic link. `remove PATH` takes a file, a link or an empty
folder away. A path with alternatives, as `/m/{a,b}/1`, stands for each of them. `/m`, `/n` and `/o` stand for
folders.
"""

import itertools
import os
import re

from tests.lib.harness import HERE, examples

MARKS = {"n": "\n", "t": "\t", "r": "\r", "v": "\v", "f": "\f", "s": " ", "z": "\0"}
ESCAPE = re.compile(r"\\(?:x([0-9a-f]{2})|(.))")
SIGN = re.compile("[␀-␟␤]")
ALTERNATIVES = re.compile(r"\{([^{}]*,[^{}]*)\}")
FOLDER = re.compile(rb"(?<![A-Za-z0-9_])/([mno])(?=[/:'&\n]|$)")
COOKIE = b"#%Module\n"

# The rows of the table in REFUSALS.md, and what stands in their texts for a name or a number.
ROW = re.compile(r"^\| `\w+`[^|]*\| ([0-9, ]+) \| `([^`]*)` \|", re.MULTILINE)
MARK = re.compile(r"\b(N|X|MESSAGE|LINE)\b")


def character(escape):
    """What an escape stands for. A byte is as it stands in Python's names of files."""
    byte, mark = escape.groups()
    return os.fsdecode(bytes.fromhex(byte)) if byte else MARKS.get(mark, mark)


def repeated(part):
    """A part of a text, as often as it says."""
    once, _, times = part.partition("×")
    return ESCAPE.sub(character, once) * int(times or 1)


def meant(text):
    """A text with what its escapes mean."""
    return "".join(map(repeated, text.split("·")))


def words(line):
    """The words of a line, of which `''` is empty."""
    return ["" if word == "''" else meant(word) for word in line.split(" ") if word]


def written(text):
    """What a program writes, where a text has signs of control characters."""
    return SIGN.sub(lambda sign: "\n" if sign[0] == "␤" else chr(ord(sign[0]) - ord("␀")), text)


def each(line):
    """A line with each of its alternatives in turn."""
    parts = ALTERNATIVES.split(line)
    choices = (part.split(",") if place % 2 else [part] for place, part in enumerate(parts))
    return map("".join, itertools.product(*choices))


def real(folder, text):
    """The bytes of a text, with the folders of the example in place of `/m`, `/n` and `/o`."""
    return FOLDER.sub(lambda found: os.path.join(folder.path, found[1]), os.fsencode(text))


def write(path, data):
    with open(path, "wb") as file:
        file.write(data)


def remove(path):
    if os.path.isdir(path) and not os.path.islink(path):
        os.rmdir(path)
    else:
        os.remove(path)


PUT = {
    "module": lambda path, text: write(path, COOKIE + text + (b"\n" if text else b"")),
    "file": write,
    "folder": lambda path, _: os.makedirs(path, exist_ok=True),
    "link": lambda path, target: os.symlink(target, path),
    "remove": lambda path, _: remove(path),
}


def is_put(line):
    """Whether a line puts a file, or takes one away."""
    return line.partition(" ")[0] in PUT


def put(folder, line):
    """Puts what a line says into the folder of an example."""
    kind, paths, text = (*line.split(" ", 2), "")[:3]
    for path in each(paths):
        path = real(folder, meant(path))
        os.makedirs(os.path.dirname(path), exist_ok=True)
        PUT[kind](path, real(folder, meant(text)))


def first_modules(name):
    """The modulefiles of the first example of a file, each by its path and without its cookie."""
    _, lines = next(examples(name))
    for line in filter(is_put, lines):
        kind, path, text = line.split(" ", 2)
        yield path, f"{meant(text)}\n" if kind == "module" else meant(text).removeprefix(COOKIE.decode())


def refusals():
    """The numbers of refusals, each with its text."""
    with open(os.path.join(os.path.dirname(HERE), "docs", "REFUSALS.md"), encoding="utf-8") as file:
        rows = ROW.findall(file.read())
    return {int(number): text for numbers, text in rows for number in numbers.split(",")}


REFUSALS = refusals()


def is_refusal(number, text):
    """Whether REFUSALS.md has such a text for the number."""
    return number in REFUSALS and bool(re.fullmatch(MARK.sub(".*", re.escape(REFUSALS[number])), text))


def wording(number, *inserted):
    """The text that REFUSALS.md has for the number, with these in place of its marks."""
    given = iter(inserted)
    return MARK.sub(lambda mark: str(next(given)), REFUSALS[number])
