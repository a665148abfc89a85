"""Sections, tables and pages of the documents."""
import functools
import os
import re
from typing import Dict, Iterator, List, Optional, Tuple

from .repository import read_document

RULES = "docs/RULES.md"
COMMANDS = "docs/COMMANDS.md"
LANGUAGE = "docs/LANGUAGE.md"

# Of each kind the document that has it, the section there, and the first column of its tables. A rule has a section of its own.
SOURCES: Dict[str, Tuple[str, str, Optional[str]]] = {
    "rule": (RULES, "Rule {}:", None),
    "status": (COMMANDS, "Statuses and notes", "status"),
    "fault": (LANGUAGE, "Faults", "number"),
}

# The parts of docs/COMMANDS.md with the columns of a step log and of its summary.
STEP_TABLES = ("cosim-steps", "The summary")

# The section of docs/RULES.md with the table of forms, which the cure of rule 4 names.
FORMS = "Rules 1 to 7:"

Row = Dict[str, str]


@functools.lru_cache(maxsize=None)
def section(document: str, title: str) -> str:
    """The part of a document from a heading, which begins so, to the next one. In a fenced block `#` is no heading."""
    lines: List[str] = []
    fenced = found = False
    for line in read_document(document).splitlines():
        fenced ^= line.startswith("```")
        if line.startswith("#") and not fenced:
            found = line.lstrip("# ").startswith(title)
        if found:
            lines.append(line)
    return "\n".join(lines).strip()


def tables(text: str) -> Iterator[List[Row]]:
    """The tables of a text; each row has its cells by their columns."""
    columns: List[str] = []
    table: List[Row] = []
    for line in text.splitlines() + [""]:
        cells = [cell.strip() for cell in re.split(r"(?<!\\)\|", line)[1:-1]]
        if not cells:
            if table:
                yield table
            columns, table = [], []
        elif not columns:
            columns = cells
        elif set(line) - set("|- "):
            table.append(dict(zip(columns, cells)))


def rows(text: str, first: str) -> Iterator[Row]:
    """The rows of all tables with such a first column."""
    for table in tables(text):
        if first in table[0]:
            yield from (row for row in table if next(iter(row)) == first)


def rows_of(text: str, first: str, number: int) -> List[Row]:
    """Of these rows those of a number, be it alone or one of so many and more."""
    numbered = ((row, re.match(r"\[?(\d+)( and more)?", row[first])) for row in rows(text, first))
    return [row for row, found in numbered if found and (int(found[1]) == number or (found[2] and int(found[1]) < number))]


@functools.lru_cache(maxsize=None)
def read_titles() -> Dict[int, Row]:
    """The table of all rules, each with what is wrong and its cure."""
    numbered = ((row, re.match(r"\[(\d+)\]", row["rule"])) for row in rows(read_document(RULES), "rule"))
    return {int(found[1]): row for row, found in numbered if found}


def mentions(text: str, pattern: str) -> Iterator[str]:
    """The paragraphs and the items of lists that have a pattern. An item of a numbered list says little without the others."""
    for block in re.split(r"\n(?=\n|- |\d+\. )", text):
        if re.search(pattern, block, re.I) and not re.match(r"\s*(\||```|\d+\. )", block):
            yield block.strip()


@functools.lru_cache(maxsize=None)
def step_columns() -> Dict[str, Tuple[str, Row]]:
    """The columns of a step log and of its summary by their names, each with the heading and the row of its table."""
    found = ((title, row) for title in STEP_TABLES for row in rows(section(COMMANDS, title), "column"))
    return {name: (title, row) for title, row in found for name in re.findall(r"`(\w+)`", row["column"])}


def page_of_column(name: str) -> str:
    """What docs/COMMANDS.md has on such a column; nothing where there is none of this name."""
    if name not in step_columns():
        return ""
    title, row = step_columns()[name]
    lines = [f"{column}: {cell}" for column, cell in row.items() if column != "column"]
    lines += mentions(section(COMMANDS, title), f"`{name}`")
    return without_links("\n".join([f"column {name}", *lines, f'more: "{title}" of {COMMANDS}']), COMMANDS)


def without_links(text: str, document: str) -> str:
    """A text with its links as words: what is linked, and in parentheses where to."""

    def words(link: "re.Match[str]") -> str:
        file, _, title = link[2].partition("#")
        path = os.path.normpath(os.path.join(os.path.dirname(document), file)) if file else document
        return f"{link[1]} ({path}{title and '#' + title})"

    return re.sub(r"\[([^]]*)\]\(([^)]*)\)", words, text)


def page(kind: str, number: int) -> str:
    """What the documents have on a rule, a status or a fault; nothing where there is none of this number."""
    document, title, first = SOURCES[kind]
    text = section(document, title.format(number))
    if (kind, number) == ("rule", 4):
        return f"{text}\n\n{section(document, FORMS)}"
    if not text or first is None:
        return text
    lines = [f"{column}: {cell}" for row in rows_of(text, first, number) for column, cell in row.items() if column != first]
    lines += mentions(text, rf"\b{kind} {number}\b")
    if not lines:
        return ""
    return without_links("\n".join([f"{kind} {number}", *lines, f'more: "{title}" of {document}']), document)
