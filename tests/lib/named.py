"""What the documents name, and whether it is there: the functions, clauses and definitions in the tables of the crates'
pages, the lists and paths of docs/ARCHITECTURE.md, the definitions of docs/SPECIFICATION.md, and the files, crates and
suites that any page names."""

import functools
import os
import re

from tests.lib.harness import HERE, Failed, true

import rooms  # in tools/, which harness puts into the path
import specification

TOP = os.path.dirname(HERE)
CRATES = os.path.join(TOP, "crates")

CLAIMED = "| Function | Clauses |"
PREMISES = "| Premise | Examples without it |"
SPAN = re.compile(r"`([^`\n]+)`")
OWNER = re.compile(r"(?:impl(?:<.*?>)?|pub trait) (?:.* for )?(?:&'a )?(\w+)")
FUNCTION = re.compile(r"\s*(pub )?fn (\w+)")
CLAUSE = re.compile(r"\bensures(?: (\w+))? \{(.*?)(?=\bensures\b|\brequires\b|\Z)", re.DOTALL)

# Every fault has these two, which CLAIMS says once of all.
OF_FAULTS = {"number", "numbered"}

# What is public for the crates above alone, which CLAIMS omits.
HELPERS = {
    "envvars": ("escapes", "fields", "table"),
    "audit_laws": ("directory_set",),
}

# A citation of a file of definitions or lemmas; what the prover makes has other homes.
CITATION = re.compile(r"\bRattle\.(\w+)\.(specs|proofs)\.(?!declared\b|contracts\b)((?:[a-z]\w*\.)?[A-Z]\w*)")

# ARCHITECTURE is read before the first change.
MOST_BYTES = 12_000

# The crates of other layers that those of some layers may list, as ARCHITECTURE says.
BOUNDARIES = {
    ("Core: Tcl",): {"message"},
    ("Core: environment",): {"message", "modulename"},
}

# The groups of crates.txt whose crates may list crates of every group: the program that is all tools, and rows.
FREE_GROUPS = ("Program of the tools", "Programs of rows")

# What begins like a path of the repository: a folder at its top, or one of a crate.
FOLDERS = "bench|completion|crates|demo|docs|etc|init|libexec|man|tests|tools"
PATH = re.compile(rf"(?:{FOLDERS})/|\w+/(?:src|specs|proofs|must-fail)/")
FILE = re.compile(r"[\w.-][\w./-]*\.(?:antt|c|edit|fish|md|py|rt|sh|txt)")
WORD = re.compile(r"[A-Za-z]+(?:_\w+|[a-z][A-Z]\w*)")
CRATE = re.compile(r"tcl(?!sh$)[a-z]+|env(?!iron)[a-z]+|cases_\w+|audit_\w+")

# A row of the table in REFUSALS.md, what stands there for what a refusal names, and the rows of the program.
REFUSAL = re.compile(r"^\| `\w+`[^|]*\| ([0-9, ]+) \| ([^|]*) \|", re.MULTILINE)
SUBJECT = re.compile(r"\b[NX]\b")
TABLES = {
    "crates/message/specs/Refusals.antt": re.compile(
        r'^row_of kinds\.\w+ = row (\d+) (?:\[\]|\(codes "(.*?)"\)) (?:\[\]|\(codes "(.*)"\))$', re.MULTILINE),
}

# Crates that stand below the kit's own of crates.txt, and that no source names.
BELOW_THE_KIT = {"fast_float"}

# What stands before `::` like a crate: also the standard library, and a variable of Tcl with its namespace.
LIKE_A_CRATE = re.compile(r"[a-z]\w*")
NO_CRATES = {"std", "a"}

# The homes of a file, in parentheses behind it.
HOMES = re.compile(r"\(in ((?:`[\w:]+`(?:, | and )?)+)")
LINK = re.compile(r"\]\(([^)#]+)\)")
BLOCK = re.compile(r"^ *```.*?^ *```$", re.DOTALL | re.MULTILINE)


def content(*names):
    with open(os.path.join(TOP, *names), encoding="utf-8") as file:
        return file.read()


class Function:
    """A public function with its clauses, each by its name; `owner` is its type or trait, if it has one."""

    def __init__(self, owner, name, header):
        self.owner = owner
        self.name = name
        self.clauses = {clause or "": text for clause, text in CLAUSE.findall(header)}

    def has_own_name(self):
        relation = "".join(part.capitalize() for part in self.name.split("_"))
        return list(self.clauses) == [""] and re.search(rf"\b({self.name}|{relation})\b", self.clauses[""])

    def has(self, word):
        return word in self.clauses or any(re.search(rf"\b{word}\b", text) for text in self.clauses.values())


def ends_header(line, is_first):
    """The body begins with a brace of its own, or after the return type where there is no clause; a trait has `;`."""
    if line in ("{", "{}"):
        return True
    if is_first or line.startswith(")"):
        return line.endswith(("{", ";"))
    return line.endswith("};")


def header_at(lines, start):
    """A function's lines from its name to its body."""
    taken = []
    for line in lines[start:]:
        taken.append(line)
        if ends_header(line.strip(), len(taken) == 1):
            break
    return "\n".join(taken)


def functions_in(text):
    """The public functions of a file, and those of its traits."""
    lines = [line for line in text.split("\n") if not line.lstrip().startswith("//")]
    owner, heading = "", ""
    for number, line in enumerate(lines):
        found = OWNER.match(line)
        if found:
            owner, heading = found[1], line
        elif line == "}":
            owner, heading = "", ""
        found = FUNCTION.match(line)
        if found and (found[1] or heading.startswith("pub trait")):
            yield Function(owner, found[2], header_at(lines, number))


@functools.cache
def sources(crate):
    """The texts of a crate's source files by their paths below src/, without the ending."""
    top = os.path.join(CRATES, crate, "src")
    paths = [os.path.relpath(os.path.join(at, name), top) for at, _, names in os.walk(top) for name in names]
    return {path[:-3]: content("crates", crate, "src", path) for path in sorted(paths)}


@functools.cache
def functions_of(crate):
    return [function for text in sources(crate).values() for function in functions_in(text)]


def exported(crate, root="lib"):
    """What users of a crate can name: what a root file hands on, and what it or a public module defines."""
    texts = sources(crate)
    if root not in texts:
        return set()
    names = set(re.findall(r"\w+", " ".join(re.findall(r"pub use [^;]*;", texts[root]))))
    names |= {function.name for function in functions_in(texts[root]) if not function.owner}
    for module in re.findall(r"pub mod (\w+);", texts[root]):
        if module not in HELPERS.get(crate, ()):
            names |= {module} | exported(crate, module if root == "lib" else f"{root}/{module}")
    return names


def cells(text, header):
    """The cells of each line of the tables with this header."""
    inside = False
    for line in text.split("\n"):
        if line == header or not line.startswith("|"):
            inside = line == header
        elif inside and not line.startswith("|---"):
            yield [cell.strip() for cell in line.strip("|").split("|")]


def page_of(crate):
    return content("crates", crate, "README.md")


@functools.cache
def claims():
    """The lines of the tables in the crates' pages: a crate, the functions and types of it, and the words of its
    clauses."""
    found = []
    for crate in rooms.lists():
        for functions, clauses in cells(page_of(crate), CLAIMED):
            found.append((crate, SPAN.findall(functions), SPAN.findall(clauses)))
    true(found, "the crates' pages have tables")
    return found


def check_claims():
    """Each function that a line names is one of its crate, and each other word is the name of a clause of these
    functions or a word of one."""
    for crate, names, words in claims():
        true(os.path.isdir(os.path.join(CRATES, crate)), f"{crate} is a crate")
        functions = functions_of(crate)
        for name in names:
            true(any(name in (it.name, it.owner) for it in functions), f"{crate} has the function {name}")
        named = [it for it in functions if it.name in names or it.owner in names]
        for word in words:
            true(any(it.has(word) for it in named), f"{crate}: {' '.join(names)} have {word} in a clause")


def check_examples():
    """The examples that show what a premise is for are clauses of their functions, and CLAIMS names each of these."""
    shown = [word for _, where in cells(content("docs", "CLAIMS.md"), PREMISES) for word in SPAN.findall(where)]
    homes = (("reversal", "examples"), ("requests", "hand_changes/examples"))
    functions = [it for crate, file in homes for it in functions_in(sources(crate)[file])]
    examples = {clause for it in functions for clause in it.clauses if clause}
    known = examples | {it.name for it in [*functions, *functions_in(sources("reversal")["laws"])]}
    other = (examples - set(shown)) | (set(shown) - known)
    true(not other, f"the examples are those of CLAIMS: {other}")


def check_rest():
    """A function that the page of its crate doesn't name has one clause, with the definition of its own name."""
    named = {}
    for crate, names, _ in claims():
        named.setdefault(crate, set()).update(names)
    for crate in sorted(os.listdir(CRATES)):
        if crate.startswith("cases_") or "lib.rt" not in os.listdir(os.path.join(CRATES, crate, "src")):
            continue
        users, rest = exported(crate), named.get(crate, set())
        for function in functions_of(crate):
            if (function.owner or function.name) not in users or not function.clauses:
                continue
            is_named = function.name in rest or function.owner in rest or function.name in OF_FAULTS
            true(is_named or function.has_own_name(), f"the page of {crate} names {function.owner} {function.name}")


def pages():
    """Each page for readers, with its text."""
    docs = [f"docs/{name}" for name in sorted(os.listdir(os.path.join(TOP, "docs"))) if name.endswith(".md")]
    crates = [f"crates/{crate}/README.md" for crate in rooms.lists()]
    return {name: content(name) for name in ["README.md", "CONTRIBUTING.md", "tests/README.md", *docs, *crates]}


def files():
    """The files and folders of the repository, without what a build makes."""
    found = []
    for folder, folders, names in os.walk(TOP):
        folders[:] = [name for name in folders if name not in (".git", "build", "out", "__pycache__")]
        found += [os.path.relpath(os.path.join(folder, name), TOP) for name in [*folders, *names]]
    return found


def names_in(text):
    """What a page writes as code or as a link, outside of its blocks."""
    text = BLOCK.sub("", text)
    return [*" ".join(SPAN.findall(text)).split(), *LINK.findall(text)]


def is_file_of_ours(name, blocks):
    """It is spelled as a file or folder, with no NAME to be replaced, and is none that the page's own commands make."""
    return (FILE.fullmatch(name) or PATH.match(name)) and "NAME" not in name and name not in blocks.split()


def check_files():
    """Each file and folder that a page names is there: by its path, or by the end of it; one that the page of a crate
    names by a folder of crates, as `specs/Paths.antt`, in that crate."""
    ends = set()
    for path in files():
        parts = path.split(os.sep)
        ends |= {"/".join(parts[at:]) for at in range(len(parts))}
    for page, text in pages().items():
        blocks = "\n".join(BLOCK.findall(text))
        for name in names_in(text):
            if is_file_of_ours(name, blocks):
                there = name.rstrip("/").removeprefix("../") in ends
                if page.startswith("crates/") and name.startswith(("specs/", "src/")):
                    there = os.path.exists(os.path.join(TOP, os.path.dirname(page), name))
                true(there, f"{page} names a file that is there: {name}")


def check_rooms():
    """The lists of ARCHITECTURE are those that tools/rooms.py makes: one for each group of crates.txt, no other, and
    none changed."""
    architecture = content("docs", "ARCHITECTURE.md")
    try:
        made = rooms.listings()
    except ValueError as fault:
        raise Failed(str(fault)) from fault
    is_made = f"\n{made}## " in architecture and architecture.count("\n### ") == len(rooms.groups())
    true(is_made, "`python3 tools/rooms.py --write` made the lists of ARCHITECTURE")


def check_specification():
    """SPECIFICATION is the page that tools/specification.py makes of the definitions as they stand in specs/."""
    try:
        made = specification.page()
    except (OSError, ValueError) as fault:
        raise Failed(str(fault)) from fault
    is_made = content("docs", "SPECIFICATION.md") == made
    true(is_made, "`python3 tools/specification.py --write` made SPECIFICATION")


def check_doors():
    """ARCHITECTURE is short, and a path on it begins at the top of the repository, in crates/ or beside the page."""
    architecture = content("docs", "ARCHITECTURE.md")
    size = len(architecture.encode())
    true(size <= MOST_BYTES, f"ARCHITECTURE has at most {MOST_BYTES} bytes, not {size}")
    beginnings = [TOP, CRATES, os.path.join(TOP, "docs")]
    blocks = "\n".join(BLOCK.findall(architecture))
    for name in names_in(architecture):
        if "/" in name and is_file_of_ours(name, blocks):
            found = any(os.path.exists(os.path.join(folder, name)) for folder in beginnings)
            true(found, f"ARCHITECTURE names the path of a file from the top or from crates/: {name}")


def check_order():
    """A crate lists crates before it in crates.txt alone."""
    lists = rooms.lists()
    order = list(lists)
    for crate in order:
        later = {lower for lower in lists[crate] if lower in lists} - set(order[: order.index(crate)])
        true(not later, f"{crate} lists no crate after it in crates.txt: {sorted(later)}")


def check_boundaries():
    """The layers of Tcl and of the environment name no other crate of the layers beside and below them."""
    layers, lists = dict(rooms.groups()), rooms.lists()
    for names, allowed in BOUNDARIES.items():
        inside = {crate for name in names for crate in layers[name]}
        outside = {lower for crate in inside for lower in lists[crate] if lower in lists} - inside
        wanted = f"{' and '.join(names)} list of other layers {sorted(allowed)} alone"
        true(outside == allowed, f"{wanted}: {sorted(outside)}")


def check_tools():
    """The crates of base and core list no tool; those of a tool list crates of base, core and their own group alone."""
    home = {crate: group for group, crates in rooms.groups() for crate in crates}
    for crate, listed in rooms.lists().items():
        allowed = {home[crate]} | {group for group in home.values() if group.startswith(("Base", "Core"))}
        other = {lower for lower in listed if lower in home and home[lower] not in allowed}
        true(not other or home[crate] in FREE_GROUPS, f"{crate}, of {home[crate]}, lists {sorted(other)}")


def check_heads():
    """Each crate has a page, which begins with the first two lines of its root file: what it knows, and what it may
    touch."""
    for crate in rooms.lists():
        knows, touches = rooms.head(crate)
        head = f"# `{crate}`\n\n{knows}\n\n{touches}\n"
        true(page_of(crate).startswith(head), f"the page of {crate} begins as its root file")


def check_crates():
    """The crates that pages name are those of crates.txt; of a function with its crate before it the crate has the
    function."""
    crates = set(re.findall(r"^(\w+):", content("crates.txt"), re.MULTILINE))
    for page, text in pages().items():
        for name in names_in(text):
            crate, *rest = name.split("::")
            if CRATE.fullmatch(crate) or (rest and LIKE_A_CRATE.fullmatch(crate) and crate not in NO_CRATES):
                true(crate in crates, f"{page} names a crate that is there: {crate}")
            if crate in crates and rest:
                modules = {part for path in sources(crate) for part in path.split("/")}
                known = {it.name for it in functions_of(crate)} | exported(crate) | modules
                true(rest[-1].strip("(),") in known, f"{page} names a function that is there: {name}")
        for home in SPAN.findall(" ".join(HOMES.findall(text))):
            crate = home.split("::")[0]
            true(crate in crates, f"{page} names a crate that is there: {crate}")


def check_citations():
    """A file of definitions or lemmas is cited by the crate in which it stands, so that a search by its name finds it."""
    for path in files():
        if path.endswith((".antt", ".rt")):
            for crate, kind, name in CITATION.findall(content(path)):
                part, _, last = name.rpartition(".")
                if kind == "proofs" and part and not os.path.exists(os.path.join(CRATES, crate, kind, f"{part}.antt")):
                    continue  # a type of a source file, with a folder for each of its functions
                file = os.path.join(CRATES, crate, kind, part, f"{last}.antt")
                is_there = crate not in rooms.lists() or os.path.exists(file)
                true(is_there, f"{path} cites a file where it stands: Rattle.{crate}.{kind}.{name}")


def check_refusals():
    """The table of refusals in REFUSALS.md has the numbers and texts of the definition; the program's are proved to be
    those. A row whose text isn't a code span begins a message that the page tells by its words."""
    page = {}
    for numbers, text in REFUSAL.findall(content("docs", "REFUSALS.md")):
        for number in numbers.split(", "):
            page[number] = text
    for where, pattern in TABLES.items():
        rows = pattern.findall(content(*where.split("/")))
        true(rows and [number for number, *_ in rows] == sorted(page, key=int), f"{where} has the numbers of the page")
        for number, before, after in rows:
            text = page[number]
            is_told = not text.startswith("`")
            shown = before + SUBJECT.search(text)[0] + after if SUBJECT.search(text) else before + after
            true(is_told or before + after == "" or text == f"`{shown}`", f"{where} has `{shown}` for {number}, and docs/REFUSALS.md has {text}")


def check_suites(suites_of, suites):
    """The suites that pages run alone are suites, and the page of the tests has each."""
    for page, text in pages().items():
        for names in re.findall(r'ONLY="([^".]+)"', text):
            for name in names.split():
                true(suites_of(name), f"{page} names a suite that is there: {name}")
    told = SPAN.findall(content("tests", "README.md"))
    for suite in suites:
        true(suite.removesuffix(".py") in told, f"tests/README.md says what {suite} covers")


def check_words():
    """What pages name as code with an underscore or a capital within, as `call_of` and `ReturnsToStart`, is a word of
    some source of the repository."""
    words = set()
    for path in files():
        if path.endswith((".rt", ".antt", ".py", ".sh", "stdin", "Makefile")):
            words |= set(re.findall(r"\w+", content(path)))
    for page, text in pages().items():
        for name in names_in(text):
            is_known = name in words or name in BELOW_THE_KIT
            true(is_known or not WORD.fullmatch(name), f"{page} names what is there: {name}")
