"""Prints docs/SPECIFICATION.md: the definitions behind what the README claims, each as it stands in specs/.

    specification.py [--write]

The page is made of specification.txt. A line `@ SOURCE | FILE | NAME...` there is replaced by these definitions of a
file below crates/. SOURCE is `own`, or public pages that the file names at its head. If an item has no text above its
first such line, its text is the comment above the first definition. `@ README` is replaced by what the README
quotes as proved. The page ends with the other names that its definitions use. With `--write` the page is written.
"""

import functools
import os
import re
import sys

TOP = os.path.dirname(os.path.dirname(os.path.abspath(__file__)))
CRATES = os.path.join(TOP, "crates")
PAGE = os.path.join(TOP, "docs", "SPECIFICATION.md")
TEMPLATE = os.path.join(TOP, "tools", "specification.txt")
README = os.path.join(TOP, "README.md")

# The claim of the README is its one quotation outside of blocks.
BLOCK = re.compile(r"^```.*?^```$", re.DOTALL | re.MULTILINE)
QUOTATION = re.compile(r"^> .*", re.MULTILINE)

ITEM = re.compile(r"^(?=#+ )", re.MULTILINE)
LINE = re.compile(r"^@ (.*) \| (.*) \| (.*)\n*", re.MULTILINE)

# In a file of definitions: a name of one, the variants of a type, and what stands behind `use`.
NAME = re.compile(r"^(?:abbrev pub|unfoldable pub|pub record|pub data) (\S+)", re.MULTILINE)
VARIANT = re.compile(r"^  (\w+) : ", re.MULTILINE)
USE = re.compile(r"^(?:pub )?use Rattle\.(\w+)\.specs\.([\w.]+?)(?:\.\{(.*)\}| as (\w+))$", re.MULTILINE)

# In a definition: comments and quoted texts, which name nothing, the names that it binds itself, and each name.
SILENT = re.compile(r'--.*|"[^"\n]*"')
BOUND = re.compile(r"[({]([\w ]+) :|λ ([\w ]+)\.|^  pub (\w+) :", re.MULTILINE)
WORD = re.compile(r"\w+(?:\.\w+)?")


@functools.cache
def content(path):
    with open(path, encoding="utf-8") as file:
        return file.read()


def source_text(file):
    return content(os.path.join(CRATES, file))


def in_one_line(lines):
    """What the lines of a comment say."""
    return " ".join(line.lstrip("- ") for line in lines)


@functools.cache
def definitions(file):
    """The definitions of a file by their names, each with the comment above it, in one line, and as it stands."""
    found = {}
    for block in source_text(file).rstrip("\n").split("\n\n"):
        lines = block.split("\n")
        size = next((at for at, line in enumerate(lines) if not line.startswith("--")), len(lines))
        for name in NAME.findall("\n".join(lines[size:])):
            found[name] = (in_one_line(lines[:size]), block, "\n".join(lines[size:]))
    return found


def definition(file, name):
    if name not in definitions(file):
        raise ValueError(f"{file} defines {name}")
    return definitions(file)[name]


def check_source(source, file):
    """Each public page that is the source of a definition is named at the head of its file."""
    head = in_one_line(source_text(file).split("\nuse ")[0].split("\n"))
    for page in source.split(", "):
        if page != "own" and page not in head:
            raise ValueError(f"{file} names {page} at its head")


def link(file):
    """A link to a file from a page in docs/."""
    return f"[{file.replace('/specs/', ', ')}](../crates/{file})"


def shown(source, file, names, is_first):
    """Where definitions stand, and what they are. The first comment of an item isn't shown again."""
    check_source(source, file)
    blocks = [definition(file, name)[1] for name in names]
    if is_first:
        blocks[0] = definition(file, names[0])[2]
    return "\n".join([f"{link(file)}; source: {source}", "", "```antt", "\n\n".join(blocks), "```"])


def filled(item):
    """An item of the template: its heading, its text, and the definitions of its lines."""
    lines = [(source, file, names.split()) for source, file, names in LINE.findall(item)]
    told = LINE.sub("", item).strip()
    if lines and "\n" not in told:
        comment = definition(lines[0][1], lines[0][2][0])[0]
        told += f"\n\n{comment[:1].upper()}{comment[1:].rstrip('.')}."
    return "\n\n".join([told, *(shown(*line, at == 0) for at, line in enumerate(lines))]) + "\n"


def file_of(crate, module):
    """The file of a module, or of a type within it; none of what isn't in specs/ of a crate."""
    for name in (module, module.rpartition(".")[0]):
        file = f"{crate}/specs/{name.replace('.', '/')}.antt"
        if os.path.exists(os.path.join(CRATES, file)):
            return file
    return None


@functools.cache
def imported(file):
    """The files of what a file names of others: of a definition, and of a whole file."""
    found = {}
    for crate, module, names, alias in USE.findall(source_text(file)):
        found |= {name: file_of(crate, module) for name in names.split(", ") + [alias]}
    return found


def meaning(file, word):
    """The definition that a word names in a file, by its file and name; that of its type where it names a variant."""
    for name, (_, _, text) in definitions(file).items():
        if word == name or (text.startswith("pub data") and word in VARIANT.findall(text)):
            return file, name
    first, _, rest = word.partition(".")
    other = imported(file).get(first)
    return meaning(other, rest or first) if other else None


def named(file, name):
    """What a definition names of these crates."""
    text = SILENT.sub("", definition(file, name)[2])
    bound = {word for words in BOUND.findall(text) for word in " ".join(words).split()}
    words = {word for found in WORD.findall(text) for word in (found, found.partition(".")[0])}
    return {meaning(file, word) for word in words - bound} - {None}


def others(lines):
    """The names that the definitions of these lines use and that aren't among them, each with the comment above it."""
    seen = {(file, name) for _, file, names in lines for name in names.split()}
    found = sorted({it for file, name in seen for it in named(file, name)} - seen)
    for file in dict.fromkeys(file for file, _ in found):
        yield f"- {link(file)}\n"
        for name in [name for place, name in found if place == file]:
            comment = definition(file, name)[0]
            yield f"  - `{name}`" + (f": {comment}" if comment else "") + "\n"


def claim():
    quotations = QUOTATION.findall(BLOCK.sub("", content(README)))
    if len(quotations) != 1:
        raise ValueError("README has one quotation, in one line: what is proved")
    return quotations[0]


def page():
    """The whole page."""
    template = content(TEMPLATE).replace("@ README", claim())
    items = "\n".join(filled(item) for item in ITEM.split(template) if item)
    return items + "\n" + "".join(others(LINE.findall(template)))


def main(words):
    if words not in ([], ["--write"]):
        sys.exit("specification.py [--write]")
    text = page()
    if not words:
        print(text, end="")
        return
    with open(PAGE, "w", encoding="utf-8") as file:
        file.write(text)


if __name__ == "__main__":
    main(sys.argv[1:])
