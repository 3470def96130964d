"""The forms of public items, as the sources of the crates have them: parameters and results of functions, variants of
enums, public fields of structs, what implements a trait. An item is found by its crate and its name there, by way of
what the crate hands on (`pub use`).

The sources are in the formatter's layout, so an item begins at the margin, and what is in a block is indented.
"""

import os
import re

# Texts and characters, which may hold what looks like a comment, and comments.
PIECES = re.compile(r'"(?:\\.|[^"\\])*"|\'(?:\\.|[^\'\\])\'|//[^\n]*')
HANDED_ON = re.compile(r"^pub use ([^;]+);", re.MULTILINE)
ITEM = r"^pub (?:const )?{kind} {name}\b"
END = re.compile(r"\s*(?:\b(?:ensures|requires|decreases|where)\b|[{;])")
OPENS, CLOSES = "([{<", ")]}>"


class Missing(Exception):
    """There is no such item, or it isn't handed on."""


def plain(text):
    """A source without its comments."""
    return PIECES.sub(lambda piece: "" if piece[0].startswith("//") else piece[0], text)


def spaced(text):
    """A form on one line, without a comma behind the last part."""
    text = re.sub(r"\s+", " ", text).strip()
    text = re.sub(r",? (?=[)\]])", "", re.sub(r"(?<=[(\[]) ", "", text))
    return re.sub(r",(?=[)\]>])", "", text)


def depth_after(text, start, opens=OPENS, closes=CLOSES):
    """The place behind the bracket that closes the one at this place. An arrow closes nothing."""
    depth = 0
    for place in range(start, len(text)):
        if text[place] in opens:
            depth += 1
        elif text[place] in closes and text[place - 1 : place + 1] not in ("->", "=>"):
            depth -= 1
            if depth == 0:
                return place + 1
    raise Missing("a bracket that closes")


def parts(text):
    """What stands between the commas of a text that are in no brackets."""
    found, start, place = [], 0, 0
    while place < len(text):
        if text[place] in OPENS:
            place = depth_after(text, place)
            continue
        if text[place] == ",":
            found.append(text[start:place])
            start = place + 1
        place += 1
    return [part.strip() for part in [*found, text[start:]] if part.strip()]


def parameter(text):
    """The type of a parameter; `self` as it is taken."""
    name, colon, kind = text.partition(":")
    return spaced(kind) if colon and not name.endswith("self") else spaced(text)


def without_attributes(text):
    return re.sub(r"#\[[^\]]*\]", "", text).strip()


def signature(text, name):
    """The form of a function whose text begins with its type parameters: these, the types of parameters, the result."""
    place, generic = 0, ""
    if text.startswith("<"):
        place = depth_after(text, 0)
        generic = spaced(text[:place])
    place += re.match(r"\s*", text[place:]).end()
    close = depth_after(text, place)
    taken = ", ".join(parameter(part) for part in parts(text[place + 1 : close - 1]))
    result = ""
    arrow = re.compile(r"\s*->\s*").match(text, close)
    if arrow:
        end = arrow.end()
        while not END.match(text, end):
            end = depth_after(text, end) if text[end] in OPENS else end + 1
        result = f" -> {spaced(text[arrow.end() : end])}"
    return f"fn {name}{generic}({taken}){result}"


def body_of(text, start):
    """What is before the first block behind this place, and what stands in it, which may have clauses with a `<`."""
    place = text.index("{", start)
    return text[start:place], text[place + 1 : depth_after(text, place, "{", "}") - 1]


def fields(text, mark="pub "):
    """The public fields of a struct by name and type, with two points where there are others."""
    found = [without_attributes(part) for part in parts(text)]
    found = [part for part in found if not part.removeprefix(mark).startswith("ghost ")]
    shown = [spaced(part.removeprefix(mark)) for part in found if part.startswith(mark)]
    return ", ".join([*shown, ".."] if len(shown) < len(found) else shown)


class Sources:
    """The crates below a folder. Of some files another text may be taken: by path, the old piece and the new one."""

    def __init__(self, folder, changes=()):
        self.folder = folder
        self.changes = dict(changes)
        self.read = {}

    def text(self, crate, *modules):
        """The source of a module of a crate, or of its root."""
        path = "/".join([crate, "src", *(modules or ["lib"])]) + ".rt"
        if path not in self.read:
            whole = os.path.join(self.folder, path)
            if not os.path.exists(whole):
                raise Missing(f"no {'::'.join([crate, *modules])}")
            with open(whole, encoding="utf-8") as file:
                text = file.read()
            old, new = self.changes.get(path, ("", ""))
            if old not in text:
                raise ValueError(f"{path} has no {old!r}")
            self.read[path] = plain(text.replace(old, new, 1) if old else text)
        return self.read[path]

    def texts(self, crate):
        """The sources of all modules of a crate."""
        root = os.path.join(self.folder, crate, "src")
        for place, _, names in sorted(os.walk(root)):
            for name in sorted(names):
                if name.endswith(".rt"):
                    path = os.path.relpath(os.path.join(place, name.removesuffix(".rt")), root)
                    yield self.text(crate, *path.split(os.sep))

    def home(self, crate, name, modules=()):
        """The crate, the modules and the name under which the item of a name stands, wherever it is handed on from."""
        text = self.text(crate, *modules)
        if re.search(rf"^pub (?:const )?(?:fn|struct|enum|trait) {name}\b", text, re.MULTILINE):
            return crate, modules, name
        for used in HANDED_ON.findall(text):
            origin, _, names = re.sub(r"\s+", " ", used).rpartition("::")
            for one in names.strip("{} ").split(","):
                own, _, new = one.strip().partition(" as ")
                if name == (new or own):
                    return self.origin(crate, modules, origin.split("::"), own)
        raise Missing(f"no {'::'.join([crate, *modules, name])}")

    def origin(self, crate, modules, path, name):
        """Where the item stands that a `pub use` of this path names: in a module of the crate, or in another crate."""
        first, *rest = path
        inside = re.search(rf"^(?:pub )?mod {first};", self.text(crate, *modules), re.MULTILINE)
        if inside or first == "crate":
            return self.home(crate, name, (*modules, *path) if inside else tuple(rest))
        return self.home(first, name, tuple(rest))

    def form(self, crate, kind, path):
        """The form of an item, `fn`, `struct`, `enum`, `trait` or `impl`, by its path in the crate."""
        if kind == "impl":
            return self.implementation(crate, path)
        *modules, name = path.split("::")
        if modules and modules[-1][0].isupper():
            return self.method(crate, modules[-1], name, tuple(modules[:-1]))
        home, inside, own = self.home(crate, name, tuple(modules))
        text = self.text(home, *inside)
        found = re.search(ITEM.format(kind=kind, name=own), text, re.MULTILINE)
        if not found:
            raise Missing(f"no {kind} {crate}::{path}")
        if kind == "fn":
            return signature(text[found.end() :], path)
        return self.declared(kind, path, text, found.end())

    def declared(self, kind, path, text, start):
        if kind == "struct" and re.compile(r"[^{;]*;").match(text, start):
            return f"struct {path}{spaced(text[start : text.index(';', start)])}"
        head, body = body_of(text, start)
        generic = spaced(head)
        if kind == "enum":
            inner = ", ".join(spaced(without_attributes(part)) for part in parts(body))
        elif kind == "struct":
            inner = fields(body)
        else:
            inner = ", ".join(re.findall(r"^    fn (\w+)", body, re.MULTILINE))
        return f"{kind} {path}{generic} {{ {inner} }}"

    def method(self, crate, owner, name, modules):
        """A method: one of a trait, or a public one of a type."""
        home, _, own = self.home(crate, owner, modules)
        head = re.compile(rf"^(?:pub trait {own}\b|impl(?:<.*?>)? {own}\b)[^;{{]*(?=\{{$)", re.MULTILINE)
        for text in self.texts(home):
            for block in head.finditer(text):
                mark = "" if block[0].startswith("pub trait") else "pub "
                _, body = body_of(text, block.end())
                found = re.search(rf"^    {mark}(?:const )?fn {name}\b", body, re.MULTILINE)
                if found:
                    return signature(body[found.end() :], f"{owner}::{name}")
        raise Missing(f"no {crate}::{owner}::{name}")

    def implementation(self, crate, path):
        """That a type implements a trait, both by their names in the crate."""
        trait, _, kind = path.partition(" for ")
        home, _, own = self.home(crate, kind)
        head = re.compile(rf"^impl(?:<.*?>)? {self.home(crate, trait)[2]} for {own}\b", re.MULTILINE)
        if not any(head.search(text) for text in self.texts(home)):
            raise Missing(f"no impl {trait} for {kind} in {crate}")
        return f"impl {path}"
