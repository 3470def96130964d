"""How the pages and the comments of sources are written: no long sentence, and none of the words that were given up."""

import os
import re

from tests.lib.harness import true
from tests.lib.named import content, files, pages

# A sentence of more words is read twice.
MOST_WORDS = 40

BLOCK = re.compile(r"```.*?```", re.DOTALL)
ITEM = re.compile(r"\s*(?:[-*]|\d+\.) ")
LINK = re.compile(r"\[([^\]]*)\]\([^)]*\)")
SPAN = re.compile(r"`[^`]*`")
END = re.compile(r"(?<=[.!?:;])\s+")
ONE_WORD = re.compile(r"[A-Za-z0-9][\w'/-]*")

# Private words for which the field has a term: WORDS says which.
GIVEN_UP = re.compile(
    r"\b(?:settled|withheld|kept apart|(?:in|out of) step|stands? aside|rivals?|hanging director(?:y|ies)|gets? on with)\b",
    re.IGNORECASE,
)

# Where the old words are told beside the new ones.
HISTORY = {"CHANGELOG.md", "docs/DECISIONS.md"}

# A comment that says nothing by itself.
THE_SAME = re.compile(r"^\s*(?:///|//!|//|--) The same\.$", re.MULTILINE)


def paragraphs(text):
    """The paragraphs and items of lists of a page, without blocks, tables, headings and quotations."""
    found = [[]]
    for line in BLOCK.sub("", text).split("\n"):
        is_break = not line.strip() or line.startswith(("|", "#", ">", "    "))
        if is_break or ITEM.match(line):
            found.append([])
        if not is_break:
            found[-1].append(ITEM.sub("", line, count=1).strip())
    return [" ".join(lines) for lines in found if lines]


def sentences(text):
    """The sentences of a page, in which code stands for one word and a link for its text."""
    for paragraph in paragraphs(text):
        yield from END.split(SPAN.sub("x", LINK.sub(r"\1", paragraph)))


def check_sentences():
    """No sentence of a page has more words than a reader takes in at once."""
    for page, text in pages().items():
        for sentence in sentences(text):
            count = len(ONE_WORD.findall(sentence))
            true(count <= MOST_WORDS, f"{page} has no sentence of {count} words: {sentence[:100]} ..")


def check_given_up():
    """The pages, the code and the definitions use the field's words, and each comment says something by itself."""
    sources = [path for path in files() if path.startswith("crates/") and path.endswith((".rt", ".antt"))]
    told = [path for path in sources if "/proofs/" not in path]
    texts = {**{page: text for page, text in pages().items() if page not in HISTORY}, **{path: content(path) for path in told}}
    for path, text in texts.items():
        found = GIVEN_UP.search(text)
        true(not found, f"{path} says it by the field's word: {found and found[0]}")
        true(not THE_SAME.search(text), f"{path} has no comment that reads 'The same.'")
