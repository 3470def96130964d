"""What the pages name is there: functions, clauses, words, files, crates and suites. Their tables are in order, and their
sentences are short and in the field's words."""

import pytest

from tests.lib import named, prose
from tests.run import SUITES, suites_of

CHECKS = {
    "the tables in the crates' pages have functions, clauses and definitions that are there": named.check_claims,
    "the crates' pages begin as their root files": named.check_heads,
    "the examples of CLAIMS are all of them": named.check_examples,
    "a function that its crate's page doesn't name has the definition of its name": named.check_rest,
    "the lists of ARCHITECTURE are those of tools/rooms.py": named.check_rooms,
    "docs/SPECIFICATION.md is what tools/specification.py makes": named.check_specification,
    "ARCHITECTURE is short, and its paths are whole": named.check_doors,
    "a crate lists those before it in crates.txt alone": named.check_order,
    "the crates of Tcl and of the environment list of other layers what ARCHITECTURE says": named.check_boundaries,
    "base and core list no tool, and a tool lists no other": named.check_tools,
    "the files that pages name are there": named.check_files,
    "the crates that pages name are there": named.check_crates,
    "a definition is cited where it stands": named.check_citations,
    "the table of REFUSALS has the numbers and texts of the program's, and of the definitions": named.check_refusals,
    "the words of sources that pages name are there": named.check_words,
    "no sentence of a page is too long": prose.check_sentences,
    "pages and sources use the field's words": prose.check_given_up,
    "the suites that pages name are there, and tests/README.md has each": lambda: named.check_suites(suites_of, SUITES),
}


@pytest.mark.parametrize("check", CHECKS.values(), ids=list(CHECKS))
def test_the_pages(check):
    check()
