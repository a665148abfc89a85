"""What words ask for that name no file: a note the page of its rule, fault or status, or the part of docs/COMMANDS.md on its counts;
and a column of a step log, or of its summary, what that part has on it."""
import functools
import re
from typing import List, Optional, Tuple

from ..documents import COMMANDS, rows, section, step_columns

# What asks for a page: a number, with its kind before it or without, or a note on a rule or a fault.
ASKS = re.compile(
    r"(?:(rule|status|fault) )?([0-9]+)|(?:cosim: )?line [0-9]+: (rule) ([0-9]+)|(?:cosim: )?(fault) ([0-9]+) of .+", re.S
)

# The letters of notes, as the table of statuses writes them, and what they stand for.
LETTERS = {letter: r"\w+" for letter in "AFYLR"}
LETTERS.update(T=r"[\d.]+", N=r"\d+", D=r"\d+", K=r"\d+")

# The parts of docs/COMMANDS.md on lines of counts, by how such a line begins.
COUNTS = {"rows": "With workers", "events": "replay", "node 0 row": "nodes"}


@functools.lru_cache(maxsize=None)
def notes_of_statuses() -> Tuple[Tuple[str, int], ...]:
    """The notes of the table of statuses as patterns, each with its status."""
    notes: List[Tuple[str, int]] = []
    for row in rows(section(COMMANDS, "Statuses and notes"), "status"):
        if row["status"].isdigit():
            notes += [(pattern_of(note), int(row["status"])) for note in re.findall(r"`cosim: ([^`]*)`", row.get("note", ""))]
    return tuple(notes)


def pattern_of(note: str) -> str:
    return re.sub(r"\b[A-Z]\b", lambda letter: LETTERS.get(letter[0], letter[0]), re.escape(note).replace(r"\ ", " "))


def asked_for(words: str) -> Optional[Tuple[str, int]]:
    """The kind and the number of what words ask for; nothing where they are no number and no note."""
    asked = ASKS.fullmatch(words)
    if asked:
        *kind, number = filter(None, asked.groups())
        return (kind[0] if kind else "rule"), int(number)
    note = re.sub(r"^cosim: ", "", words)
    status = next((status for pattern, status in notes_of_statuses() if re.fullmatch(pattern, note)), None)
    return None if status is None else ("status", status)


def counts_asked_for(words: str) -> Optional[str]:
    """The part of docs/COMMANDS.md on a line of counts."""
    note = re.sub(r"^cosim: ", "", words)
    title = next((title for begin, title in COUNTS.items() if re.match(rf"{begin} \d", note)), None)
    return title and section(COMMANDS, title)


def column_asked_for(words: str) -> Optional[str]:
    """The column that words ask for, with the word `column` before it or by itself."""
    asked = re.fullmatch(r"(column )?(\w+)", words)
    return asked[2] if asked and (asked[1] or asked[2] in step_columns()) else None
