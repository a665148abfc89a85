"""The command ./explain."""
import shlex
from typing import Dict, Mapping, Sequence

from ..documents import COMMANDS, RULES, SOURCES, page, page_of_column
from ..errors import ProgramFailed, Refused, Unjoinable, refused
from ..joining import join_texts
from ..program import ask, ask_first_byte
from ..repository import LONGEST_TEXT, LONGEST_VERIFIED
from ..sources import Source
from ..statuses import Status
from ..streams import clean_name, files_of, note, read_file, write_output
from .inputs import Input, has_groups, read_kind
from .notes import asked_for, column_asked_for, counts_asked_for
from .refusals import WITHOUT_FORM, shown

# How each note of the program begins, and the word before the name of a column.
OF_PROGRAM = "cosim:"
COLUMN = "column"


def describe_refusal(error: Refused, text: bytes) -> str:
    """The lines on a refusal of a text that a file has. The first has the form in which editors look for places."""
    first, *others = error.message.split("\n")
    printed = [first]
    if error.line:
        lines = text.split(b"\n")
        printed.append(f"{error.line:6} | {shown(lines[error.line - 1]) if error.line <= len(lines) else ''}".rstrip())
    more = " and shows such lines, with what is right in their place" if error.rule in WITHOUT_FORM[:1] else ""
    return "\n".join([*printed, *others, f'more: ./explain {error.rule}, which is "Rule {error.rule}" of {RULES}{more}'])


def explain_file(path: str) -> int:
    """Judges a file, and explains why it is refused. Returns the status."""
    name = clean_name(path)
    try:
        given = read_kind(read_file(path, LONGEST_VERIFIED), clean_name(shlex.quote(path)))
    except (OSError, ValueError) as error:
        note(f"{name}: {getattr(error, 'strerror', None) or error}")
        return Status.NO_FILE
    if not given.command:
        note(f"{name}: {given.accepted}")
        return Status.NO_FORM
    return explain_input(given, Source(path, path), {path: given.text})


def explain_input(given: Input, source: Source, texts: Mapping[str, bytes]) -> int:
    """Judges an input, and explains why it is refused; `texts` has those of the files that it comes from. Returns the status."""
    answer = (ask_first_byte if given.command == "resume" else ask)(given.command, given.text)
    if answer.line is not None and answer.rule is not None:
        error = refused(given.text, answer.line, answer.rule, "", source)
        write_output(describe_refusal(error, texts.get(error.file or "", b"")))
        return answer.status
    if answer.status == Status.ACCEPTED:
        write_output(f"{clean_name(source.name)}: {given.accepted}")
    return answer.status


def explain_files(paths: Sequence[str]) -> int:
    """Judges the files of one model together, and explains why a line of one is refused. Returns the status."""
    texts: Dict[str, bytes] = {}
    try:
        for path in paths:
            texts[path] = read_file(path, LONGEST_TEXT)
        joined = join_texts([(path, texts[path]) for path in paths])
    except OSError as error:
        note(f"{clean_name(error.filename)}: {error.strerror}")
        return Status.NO_FILE
    except Refused as error:
        write_output(describe_refusal(error, texts[error.file or ""]))
        return Status.REFUSED
    except Unjoinable as error:
        write_output(error.message)
        return Status.REFUSED
    except ProgramFailed as error:
        note(error.message)
        return Status.NO_PROGRAM if error.status is None else error.status
    run = "./cosim flatten | ./cosim run" if has_groups(joined.text) else "./cosim run"
    command = "flatten" if has_groups(joined.text) else "check"
    return explain_input(Input(joined.text, command, f"accepted; run it by tools/join FILE .. | {run}"), joined.source, texts)


def explain_number(kind: str, number: int) -> int:
    text = page(kind, number)
    if not text:
        note(f"there is no {kind} {number} in {SOURCES[kind][0]}")
        return Status.NO_FORM
    write_output(text)
    return Status.ACCEPTED


def explain_column(name: str) -> int:
    text = page_of_column(name)
    if not text:
        note(f"there is no {COLUMN} {name} in {COMMANDS}")
        return Status.NO_FORM
    write_output(text)
    return Status.ACCEPTED


def main(document: str, words: Sequence[str]) -> int:
    """Explains what the words ask for. Words that are no note and no column, and begin as none does, are files. Returns the status."""
    if list(words) in (["help"], ["--help"], ["-h"]):
        write_output(document.strip())
        return Status.ACCEPTED
    asked = asked_for(" ".join(words))
    if asked:
        return explain_number(*asked)
    counts = counts_asked_for(" ".join(words))
    if counts:
        write_output(counts)
        return Status.ACCEPTED
    column = column_asked_for(" ".join(words))
    if column:
        return explain_column(column)
    paths = files_of(words)
    if not paths or words[0] in (*SOURCES, COLUMN, OF_PROGRAM):
        note(document.strip())
        return Status.NO_FORM
    return explain_file(paths[0]) if len(paths) == 1 else explain_files(paths)
