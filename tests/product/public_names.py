"""The public names on which users of the crates build, and their forms: those of public_names.txt, each looked up in
the sources of its crate, also where the crate hands it on (`pub use`). And changes of the sources that this sees.
"""

import os
import re

import pytest

from tests.lib.forms import Missing, Sources
from tests.lib.harness import HERE, same, true

CRATES = os.path.join(os.path.dirname(HERE), "crates")
ITEM = re.compile(r"(fn|struct|enum|trait|impl) ([\w:]+(?: for \w+)?)")

# A change of a source, and the item that is missed, or has another form, then.
CHANGES = {
    "a struct is renamed": ("tcleval/src/cache/kept.rt", "pub struct Kept ", "pub struct KeptTrees ", "tcleval: Kept"),
    "a crate hands a name on no longer": ("tcleval/src/lib.rt", "pub use crate::cache::Kept;", "", "tcleval: Kept"),
    "a crate hands it on by another name": (
        "tcleval/src/lib.rt", "crate::cache::Kept;", "crate::cache::Kept as Trees;", "tcleval: Kept"),
    "a method is renamed": ("tcleval/src/cache/kept.rt", "pub fn script(", "pub fn script_index(", "tcleval: Kept::script"),
    "a method is public no longer": ("envvars/src/env.rt", "pub fn names(", "fn names(", "envstate: Env::names"),
    "a parameter has another type": ("tcltext/src/pattern.rt", "pattern: &str", "pattern: &[u8]", "tcltext: glob_match"),
    "there is one parameter more": (
        "tcltext/src/chars/number.rt", "read_number(text: &str)", "read_number(text: &str, n: u8)", "tcltext: read_number"),
    "a result has another type": ("modulename/src/version.rt", "-> Ordering", "-> bool", "lookup: version_order"),
    "a variant is renamed": ("tclrules/src/host.rt", "    Unknown,", "    Unsupported,", "tcleval: HostAnswer"),
    "a variant holds something else": (
        "tcltext/src/chars/fault.rt", "OpenBrace(usize)", "OpenBrace(u32)", "tcltext: TextFault"),
    "a field is renamed": ("tclrules/src/limits.rt", "pub depth: u32", "pub nesting: u32", "tcleval: Limits"),
    "a field is public no longer": ("tclrules/src/limits.rt", "pub depth: u32", "depth: u32", "lookup: Limits"),
    "a trait has a method less": ("tclrules/src/host.rt", "    fn read_env(", "    fn variable(", "tcleval: Host"),
    "a law is renamed": ("envstate/src/stacks/laws.rt", "pub fn stacks()", "pub fn value_stacks()", "envstate: laws::stacks"),
    "a type implements a trait no longer": (
        "envvars/src/env.rt", "impl Vars for Env", "impl Variables for Env", "envstate: Vars for Env"),
}  # fmt: skip


def read_table():
    """The crate, the kind, the path and the form of each item of the table."""
    items, crate = [], None
    with open(os.path.join(HERE, "product", "public_names.txt"), encoding="utf-8") as file:
        lines = [line.rstrip("\n") for line in file]
    for line in lines:
        if line.startswith("["):
            crate = line.strip("[]")
        elif line.startswith(" "):
            items[-1][-1] += " " + line.strip()
        elif line and not line.startswith("#"):
            kind, path = ITEM.match(line).groups()
            items.append([crate, kind, path, line])
    return items


TABLE = read_table()


def title(item):
    return f"{item[0]}: {item[2]}"


def form_in(sources, item):
    """The form of an item in the sources, or why there is none."""
    crate, kind, path, _ = item
    try:
        return sources.form(crate, kind, path)
    except Missing as why:
        return str(why)


def changed_items(sources):
    """The items of the table that these sources lack, or have in another form."""
    return {title(item) for item in TABLE if form_in(sources, item) != item[-1]}


@pytest.fixture(scope="module", name="sources")
def sources_of_the_crates():
    return Sources(CRATES)


@pytest.mark.parametrize("item", TABLE, ids=map(title, TABLE))
def test_a_public_name(sources, item):
    same(form_in(sources, item), item[-1], title(item))


def test_the_table_has_each_item_once():
    titles = [title(item) for item in TABLE]
    same(sorted(titles), sorted(set(titles)), "items of public_names.txt")


@pytest.mark.parametrize("change", CHANGES.values(), ids=list(CHANGES))
def test_a_change_is_seen(change):
    path, old, new, item = change
    true(item in map(title, TABLE), f"{item} is in the table")
    true(item in changed_items(Sources(CRATES, {path: (old, new)})), f"{new!r} in place of {old!r} in {path} is seen")
