#!/usr/bin/env python3
"""Judges how the pages are written, for .ci/documents.

    .ci/prose.py [PAGE ..]      README.md, CONTRIBUTING.md, CHANGELOG.md, docs/*.md and examples/**/README.md, or these

- No line, sentence or paragraph is longer than its limit. Code spans count as one word and targets of links as nothing. A
  list's item and a table's cell are paragraphs of their own. Fenced blocks don't count.
- No page has a word of COMMON_WORDS in its private sense, but for what ALLOWED has.
- Each link, name and command of a page exists (.ci/references.py).

Prints a line for each failure, which says what to write instead, and then 'N passed, M failed'. What passes is a check of a
page without a failure. The status is 1 where one failed, and 2 where there is no such page.
"""
from __future__ import annotations

import glob
import os
import re
import sys
from collections.abc import Iterator
from typing import NamedTuple

sys.dont_write_bytecode = True
import references
from common import ROOT
from references import Fault, Line

# The greatest lengths in characters.
LONGEST_LINE = 500
LONGEST_SENTENCE = 200
LONGEST_PARAGRAPH = 600

# How much of a long sentence a failure shows, in characters.
SHOWN = 50

PAGES = ("README.md", "CONTRIBUTING.md", "CHANGELOG.md", "docs/*.md", "examples/**/README.md")

# Words that a page may not use, as a pattern, and the common words for them.
COMMON_WORDS = (
    (r"puts?\b(?! together)", "prints, writes or adds"),
    (r"(?:is|are|was|were) told\b", "is reported, is stated or receives"),
    (r"tells? (?:of|that|whether)\b", "reports or says"),
    (r"stands? (?:in|on|there|behind|at)\b", "is in, depends on or follows"),
    (r"goes by\b", "uses or follows"),
    (r"a front\b", "a prefix"),
    (r"wants?\b", "needs or requires"),
    (r"wanted\b", "required"),
    (r"behind\b", "after or following"),
    (r"besides\b", "also"),
    (r"(?:a|an|the|each|of|this|that|its) nests?\b", "a nested text, or a nested model"),
)


class Allowed(NamedTuple):
    """A phrase in which such a word may be used: a pattern of pages, one of the phrase, and the reason."""

    page: str
    phrase: str
    reason: str


ALLOWED: tuple[Allowed, ...] = ()


class Paragraph(NamedTuple):
    """A paragraph without its markup, and the number of its first line; the offset at which each line of it begins."""

    text: str
    number: int
    begins: list[int]
    is_cell: bool

    def line_at(self, offset: int) -> int:
        """The number of the line that has the character at this offset."""
        return self.number + sum(begin <= offset for begin in self.begins) - 1


def without_markup(line: str) -> str:
    """A line of a page in which a code span is one word, and a link is its text."""
    return re.sub(r"\]\([^)]*\)", "]", re.sub(r"(`+).+?\1", "code", line))


def paragraphs(lines: list[Line]) -> Iterator[Paragraph]:
    """The paragraphs of a page. A heading, an item of a list and a cell of a table are paragraphs of their own."""
    texts: list[str] = []
    first = 0

    def finished() -> Iterator[Paragraph]:
        if texts:
            begins = [sum(len(text) + 1 for text in texts[:place]) for place in range(len(texts))]
            yield Paragraph(" ".join(texts), first, begins, False)
            texts.clear()

    for line in lines:
        bare = without_markup(line.text).strip()
        is_row = bare.startswith("|")
        if line.block or not bare or is_row or re.match(r"#|[-*] |\d+\. ", bare):
            yield from finished()
        if is_row:
            yield from (Paragraph(cell.strip(), line.number, [0], True) for cell in re.split(r"(?<!\\)\|", bare) if cell.strip("-: "))
        elif bare and not line.block:
            first = first if texts else line.number
            texts.append(bare)
    yield from finished()


def find_long(page: str, lines: list[Line]) -> Iterator[Fault]:
    """Lines, sentences and paragraphs above their limits."""
    for line in lines:
        if len(line.text) > LONGEST_LINE and not line.block:
            yield Fault(page, line.number, f"a line of {len(line.text)} characters: split it, at most {LONGEST_LINE} are allowed")
    for paragraph in paragraphs(lines):
        if len(paragraph.text) > LONGEST_PARAGRAPH and not paragraph.is_cell:
            wrong = f"a paragraph of {len(paragraph.text)} characters: split it, at most {LONGEST_PARAGRAPH} are allowed"
            yield Fault(page, paragraph.number, wrong)
        offset = 0
        for sentence in re.split(r"(?<=[.:;?!])\s", paragraph.text):
            if len(sentence) > LONGEST_SENTENCE:
                wrong = f"a sentence of {len(sentence)} characters: write several, at most {LONGEST_SENTENCE} are allowed: {sentence[:SHOWN]}.."
                yield Fault(page, paragraph.line_at(offset), wrong)
            offset += len(sentence) + 1


def find_words(page: str, lines: list[Line]) -> Iterator[Fault]:
    """Words in a private sense."""
    allowed = [one.phrase for one in ALLOWED if re.fullmatch(one.page, page)]
    for paragraph in paragraphs(lines):
        text = paragraph.text
        for phrase in allowed:
            text = re.sub(phrase, lambda found: "." * len(found[0]), text, flags=re.I)
        for pattern, instead in COMMON_WORDS:
            for found in re.finditer(rf"\b{pattern}", text, re.I):
                yield Fault(page, paragraph.line_at(found.start()), f'"{found[0]}" has a sense of its own here: write {instead}')


CHECKS = (find_long, find_words, references.find_links, references.find_names, references.find_commands)


def main(words: list[str]) -> int:
    """Checks the pages, and returns the status."""
    os.chdir(ROOT)
    pages = words or sorted(path for pattern in PAGES for path in glob.glob(pattern, recursive=True))
    missing = [page for page in pages if not os.path.isfile(page)]
    if missing or not pages:
        print(f"there is no page {missing[0] if missing else ' or '.join(PAGES)}")
        return 2
    passed = failed = 0
    for page in pages:
        lines = references.read_lines(page)
        for check in CHECKS:
            faults = list(check(page, lines))
            for fault in faults:
                print(f"{fault.page}:{fault.number}: {fault.wrong}")
            passed, failed = passed + (not faults), failed + len(faults)
    print(f"{passed} passed, {failed} failed")
    return 1 if failed else 0


if __name__ == "__main__":
    sys.exit(main(sys.argv[1:]))
