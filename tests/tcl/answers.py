"""Lines that are put to a program of rows or to a real tclsh, and texts as both read and write them."""

import os
import re
import subprocess
from concurrent.futures import ThreadPoolExecutor

from tests.lib.harness import same

HERE = os.path.dirname(os.path.abspath(__file__))
SECONDS = 600

# How a text is written in a line, with its escapes, and read again.
WRITTEN = str.maketrans(
    {"\\": "\\\\", "\n": "\\n", "\t": "\\t", "\r": "\\r", "\v": "\\v", "\f": "\\f", "|": "\\|", " ": "\\s"}
)
READ = {"n": "\n", "t": "\t", "r": "\r", "v": "\v", "f": "\f", "s": " "}
KIND = re.compile(r"ok |err \d+ ")


def word(text):
    """A text as one word of a line. The empty one is `-`."""
    return {"": "-", "-": "\\-"}.get(text) or text.translate(WRITTEN)


def meant(written):
    """The text that is written so."""
    return "" if written == "-" else re.sub(r"(?s)\\(.)", lambda found: READ.get(found[1], found[1]), written)


def in_words(answer):
    """An answer of the program with its text as one word, so that its blanks are escapes too."""
    kind = KIND.match(answer)
    return kind[0] + answer[kind.end() :].replace(" ", "\\s") if kind else answer


def digits(text):
    """A text in hexadecimal digits, as scripts.tcl reads it. The empty one is `-`."""
    return text.encode().hex() or "-"


def text_of(shown):
    return "" if shown == "-" else bytes.fromhex(shown).decode()


def tclsh(script):
    """The words that run a script of this folder in the real Tcl."""
    return ["tclsh", os.path.join(HERE, script)]


def ask(command, lines):
    """The answers to the lines, each by itself, from as many processes as there are processors."""
    lines = list(lines)
    size = -(-len(lines) // (os.cpu_count() or 1)) or 1

    def part(some):
        asked = "".join(f"{line}\n" for line in some).encode()
        done = subprocess.run(command, input=asked, stdout=subprocess.PIPE, timeout=SECONDS, check=True)
        return done.stdout.decode().split("\n")[:-1]

    with ThreadPoolExecutor() as pool:
        parts = pool.map(part, [lines[at : at + size] for at in range(0, len(lines), size)])
        answers = [answer for answered in parts for answer in answered]
    same(len(answers), len(lines), f"the number of answers of {command[0]}")
    return answers
