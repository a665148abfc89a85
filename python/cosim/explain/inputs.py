"""What an input is: a model, one with groups or with a table, a saved text, or a table; and which command judges it."""
import re
from typing import NamedTuple

from ..repository import LONGEST_SAVED, LONGEST_TEXT

# How a saved text begins, and the tables of `stimulus` and of a trace, whose columns are ports of instances. Files that are meant
# as one of them begin alike, with other spaces, capitals or separators.
SAVED = re.compile(rb"(?:\xef\xbb\xbf)?[ \t]*saved(?:[ \t]+[0-9]|[ \t]*\r?\n)", re.I)
TABLE = re.compile(rb"(?:\xef\xbb\xbf)?[\r\n]*[ \t]*\"?time\"?[ \t]*[,;\t]", re.I)
TRACE_TABLE = re.compile(rb"(?:\xef\xbb\xbf)?[\r\n]*\"?time\"?,\"?index\"?,[^\r\n,.]+\.")

# The line between a text and a table, and the lines that a text with groups has and no other.
TRACE = re.compile(rb"^[ \t]*trace[ \t\r]*(?:#.*)?$", re.M)
NESTED = re.compile(rb"^[ \t]*(?:main|group[ \t]+\w+)[ \t\r]*(?:#.*)?$", re.M)

OF_TRACE = "the table of a trace, which is no model: append it to a model and a line `trace`, and ask ./cosim verify"
BEFORE_TRACE = "accepted by flatten, up to the line 'trace'; verify reads a text without groups, so append that line and the table to "
BEFORE_TRACE += "what ./cosim flatten prints"


class Input(NamedTuple):
    """The text that is judged, the command that judges it, and what ./explain prints where the text is accepted."""

    text: bytes
    command: str
    accepted: str


def has_groups(text: bytes) -> bool:
    return bool(NESTED.search(text))


def read_kind(data: bytes, shown: str) -> Input:
    """What the bytes of a file are; `shown` is its name as a shell takes it."""
    if SAVED.match(data):
        return Input(data[: LONGEST_SAVED + 1], "resume", f"accepted by resume; run it by ./cosim resume < {shown}")
    if TRACE_TABLE.match(data):
        return Input(data, "", OF_TRACE)
    if TABLE.match(data):
        accepted = f"accepted by stimulus; make a model of it by ./cosim stimulus < {shown}"
        return Input(data[: LONGEST_TEXT + 1], "stimulus", accepted)
    text, *table = TRACE.split(data, maxsplit=1)
    text = text[: LONGEST_TEXT + 1]
    if has_groups(text) and table:
        return Input(text, "flatten", BEFORE_TRACE)
    if has_groups(text):
        return Input(text, "flatten", f"accepted by flatten; run it by ./cosim flatten < {shown} | ./cosim run")
    return Input(text, "check", "accepted" + (", up to the line 'trace'" if table else ""))
