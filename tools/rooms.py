"""Prints what each crate knows, in the groups of crates.txt: the lists of docs/ARCHITECTURE.md.

    rooms.py [--write]
    rooms.py --users NAME...

What a crate knows is the first line of its root file, in short; the second line says what it may touch. With `--write`
the lists on the page are replaced: its headings of the third level, up to the next of the second. With `--users` it
prints instead which crates list these in crates.txt.
"""

import os
import re
import sys

TOP = os.path.dirname(os.path.dirname(os.path.abspath(__file__)))
PAGE = os.path.join(TOP, "docs", "ARCHITECTURE.md")
LISTS = re.compile(r"^### .*?(?=^## )", re.DOTALL | re.MULTILINE)

# A line in short has this many words, and goes on where it would have fewer than the least.
MOST_WORDS = 12
LEAST_WORDS = 3

# The pages that a line names in parentheses, and where it can end.
PAGES = re.compile(r" \((?:[^()]|\(\w+\))*\)")
PAUSE = re.compile(r"(?=[:;,] )")


def blocks():
    """The groups of crates.txt in their order, each a heading with its lines: a crate, and what that lists."""
    found = []
    with open(os.path.join(TOP, "crates.txt"), encoding="utf-8") as file:
        for block in file.read().split("\n\n"):
            lines = block.strip().split("\n")
            crates = [line.split(":") for line in lines if not line.startswith("#")]
            if crates:
                found.append((lines[0].lstrip("# ").rstrip("."), crates))
    return found


def groups():
    """The groups of crates.txt in their order, each a heading with the names of its crates."""
    return [(group, [crate for crate, _ in crates]) for group, crates in blocks()]


def lists():
    """What each crate lists in crates.txt, in the order of that file."""
    return {crate: listed.split() for _, crates in blocks() for crate, listed in crates}


def users(crate):
    """The crates that list this one."""
    return [user for user, listed in lists().items() if crate in listed]


def head(crate):
    """What the first two lines of the crate's root file say: what it knows, and what it may touch."""
    folder = os.path.join(TOP, "crates", crate, "src")
    root = next(name for name in ("lib.rt", "main.rt") if os.path.exists(os.path.join(folder, name)))
    with open(os.path.join(folder, root), encoding="utf-8") as file:
        lines = [line[3:].strip() for line in file.read().split("\n")[:2] if line.startswith("//!")]
    if len(lines) != 2:
        raise ValueError(f"{crate}/src/{root}: its first two lines say what it knows and may touch")
    return lines


def in_short(line):
    """A line without the pages that it names, up to a colon or semicolon, and to a comma where it is still long."""
    first, *rest = PAUSE.split(PAGES.sub("", line).rstrip("."))
    text = first
    for part in rest:
        fits = part[0] == "," and len((text + part).split()) <= MOST_WORDS
        if not fits and len(text.split()) >= LEAST_WORDS:
            break
        text += part
    return text


def listing(group, crates):
    """The heading of a group, and a line for each of its crates."""
    lines = "".join(f"- `{crate}`: {in_short(head(crate)[0])}\n" for crate in crates)
    return f"### {group}\n\n{lines}\n"


def listings():
    return "".join(listing(group, crates) for group, crates in groups())


def page(text):
    """The page with the lists as they are made."""
    made = listings()
    return LISTS.sub(lambda _: made, text, count=1)


def write_page():
    with open(PAGE, encoding="utf-8") as file:
        text = file.read()
    with open(PAGE, "w", encoding="utf-8") as file:
        file.write(page(text))


def print_users(crates):
    unknown = [crate for crate in crates if crate not in lists()]
    if unknown:
        sys.exit(f"crates.txt has no crate {' '.join(unknown)}")
    for crate in crates:
        print(f"{crate}: {' '.join(users(crate)) or 'none'}")


def main(words):
    if words[:1] == ["--users"] and words[1:]:
        print_users(words[1:])
    elif words == ["--write"]:
        write_page()
    elif words:
        sys.exit("rooms.py [--write | --users NAME...]")
    else:
        print(listings(), end="")


if __name__ == "__main__":
    main(sys.argv[1:])
