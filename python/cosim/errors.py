"""What goes wrong, as exceptions with fields. Each has the status and the note of the program, where it gave them."""
from typing import Optional, Tuple

from .documents import page
from .explain.refusals import advice
from .program import Called
from .sources import FileLine, Source
from .statuses import Status

# The rule of the length of a text, which no single file of a joined text breaks.
LENGTH = 2


class CosimError(Exception):
    """Any error of this package. `status` and `note` are those of the program; None and "" where it wasn't called.

    All fields are the arguments of the exception too, so it goes from process to process with them.
    """

    def __init__(self, message: str, status: Optional[int] = None, note: str = "", *others: object) -> None:
        super().__init__(message, status, note, *others)
        self.message = message
        self.status = status
        self.note = note

    def __str__(self) -> str:
        return self.message


class UnknownName(CosimError, LookupError):
    """A unit, an instance, a parameter, a column or a row isn't there. The message names it."""


class UnfitValue(CosimError, ValueError):
    """A value doesn't suit the type that it is for, or an argument has no such value. The message names both."""


class InexactFloat(UnfitValue):
    """A value doesn't come back from the float that is nearest to it."""


class ProgramFailed(CosimError):
    """The program gave no answer: a stream failed, a signal ended it, or its words have no form."""


class NoProgram(ProgramFailed):
    """There is no program to start."""


class NoMemory(ProgramFailed):
    """The program found no memory."""


class Refused(CosimError):
    """The program refuses a text.

    `line` counts from 1; of a text with groups it is a line of that text, and None where no line of it can be named. `file` is the
    path of the file that has the line, or None where the text comes from no file. `rule` is the number of a rule of docs/RULES.md,
    `title` says what is wrong, `cure` what mends it, and `details` has what ./explain prints between them.
    """

    def __init__(
        self,
        message: str,
        status: int,
        note: str,
        line: Optional[int],
        rule: int,
        title: str,
        cure: str,
        details: Tuple[str, ...] = (),
        file: Optional[str] = None,
    ) -> None:
        super().__init__(message, status, note, line, rule, title, cure, details, file)
        self.line = line
        self.rule = rule
        self.title = title
        self.cure = cure
        self.details = details
        self.file = file


class Unjoinable(CosimError):
    """Files can't be joined to one text. `places` has the lines that say why, each with its file."""

    def __init__(self, message: str, status: Optional[int] = None, note: str = "", places: Tuple[FileLine, ...] = ()) -> None:
        super().__init__(message, status, note, places)
        self.places = places


def refused(text: bytes, line: int, rule: int, note: str, source: Source) -> Refused:
    """The exception for a text that was refused at a line by a rule. `source` says where the text comes from."""
    found = advice(text, line, rule, source)
    named = None if source.is_joined and rule == LENGTH else found.line
    message = "\n".join([f"{source.place(named)}: rule {rule}: {found.title}", *found.details, f"cure: {found.cure}"])
    origin = None if named is None else source.origin(named)
    if source.is_joined:
        named = origin.line if origin else None
    file = origin.file if origin else source.file
    return Refused(message, Status.REFUSED, note, named, rule, found.title, found.cure, found.details, file)


def failed(called: Called, shown: str) -> ProgramFailed:
    """The exception for a call that gave no answer; `shown` is the call as it can be shown."""
    status, note = called.status, called.note
    if status == Status.NO_MEMORY:
        return NoMemory(f"{shown}: no memory", status, note)
    if status == Status.NO_FORM:
        return ProgramFailed(f"{shown}: these words have no form", status, note)
    if status in (Status.READ_FAULT, Status.WRITE_FAULT):
        return ProgramFailed(f"{shown}: a stream failed: {note}", status, note)
    if status > 128:
        return ProgramFailed(f"{shown}: signal {status - 128} ended the program", status, note)
    return ProgramFailed(f"{shown}: status {status}: {note}", status, note)


def title_of_fault(number: int) -> str:
    """What a fault is, by its number, as docs/LANGUAGE.md has it; such as "zero divisor"."""
    lines = (line.partition(": ") for line in page("fault", number).splitlines())
    return next((title for word, _, title in lines if word == "fault"), f"fault {number}")
