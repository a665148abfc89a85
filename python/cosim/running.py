"""Calls of the program as functions: an answer, or an exception."""
import re
from contextlib import contextmanager
from fractions import Fraction
from typing import Callable, Iterator, List, NamedTuple, Optional, Sequence, Union

from .canonical import Port
from .errors import NoProgram, UnfitValue, failed, refused
from .outcomes import STOPPED, Outcome, counts_of, outcome_of
from .program import COSIM, VARIABLES, Call, Called, call, is_foreign, program, read_refusal
from .progress import bar
from .repository import read_document
from .sources import Source
from .statuses import Status
from .traces import Trace
from .values import ticks_of

# Is called with the time of the last row that came and the stop, in seconds. Where it returns True the run is stopped.
Watch = Callable[[Fraction, Fraction], Optional[bool]]


class Table(NamedTuple):
    """What is to be known of the rows that a call writes: the ports of its columns, the decimals of its times, the stop in seconds,
    and whether a header comes first."""

    ports: Sequence[Port]
    resolution: int
    stop: Fraction
    has_header: bool

    def time_of(self, line: bytes) -> Fraction:
        """The time of a row in seconds."""
        return Fraction(ticks_of(line.split(b",", 1)[0].decode(), self.resolution), 10**self.resolution)


def shown(words: Sequence[str]) -> str:
    return " ".join(["cosim", *words])


def start_failed(error: OSError, name: str = COSIM) -> NoProgram:
    message = f"the program {program(name)} can't be started: {error.strerror}. The variable {VARIABLES[name]} names another"
    return NoProgram(message, Status.NO_PROGRAM, "")


def options_of(command: str) -> str:
    """The options of a command, as the help has them."""
    row = re.search(rf"^cosim_command {command} (?:'[^']*'|\S+) '([^']*)'", read_document("tools/commands.bash"), re.M)
    return row[1] if row else ""


def judge(called: Called, words: Sequence[str], text: bytes, source: Source) -> Called:
    """A call that has an answer; and else its exception. `text` is the input, and `source` where it comes from."""
    refusal = read_refusal(called.notes)
    if refusal:
        raise refused(text, int(refusal[1]), int(refusal[2]), called.note, source)
    if is_foreign(words[0], called):
        message = f"the program {program()} isn't cosim. The variable COSIM names another"
        raise NoProgram(message, Status.NO_PROGRAM, called.note)
    if called.status == Status.NO_FORM:
        raise UnfitValue(f"{shown(words)} has no form; the options are: {options_of(words[0])}", Status.NO_FORM, called.note)
    if called.status == Status.NO_PROGRAM:
        raise NoProgram(called.note, called.status, called.note)
    if called.status != Status.ACCEPTED and outcome_of(called) is None:
        raise failed(called, shown(words))
    return called


def ask_program(words: Sequence[str], text: bytes, source: Source) -> bytes:
    """The output of a call that ends with status 0; and else its exception."""
    try:
        called = call(words, text)
    except OSError as error:
        raise start_failed(error) from None
    return judge(called, words, text, source).output


def trace_of(called: Called, table: Table, outcome: Optional[Outcome] = None) -> Trace:
    """The trace that a call wrote."""
    ended = outcome or outcome_of(called)
    assert ended
    return Trace(called.output, table.ports, table.resolution, ended, table.has_header, counts_of(called))


@contextmanager
def started(words: Sequence[str], text: bytes) -> Iterator[Call]:
    """A call of the program, which is ended where its reader leaves early."""
    try:
        begun = Call(words, text)
    except OSError as error:
        raise start_failed(error) from None
    try:
        yield begun
    finally:
        if not begun.notes.closed:
            begun.stop()
            begun.finish()


def read_trace(words: Sequence[str], text: bytes, source: Source, table: Table) -> Trace:
    """The rows of a call. A last line that was cut off is none."""
    try:
        called = call(words, text)
    except OSError as error:
        raise start_failed(error) from None
    if not called.output.endswith(b"\n"):
        called = called._replace(output=called.output[: called.output.rfind(b"\n") + 1])
    return trace_of(judge(called, words, text, source), table)


def watch_trace(
    words: Sequence[str], text: bytes, source: Source, table: Table, until: Optional[Fraction], watch: Optional[Watch]
) -> Trace:
    """The rows of a call, which are read as they come: up to a time, and while a watch lets the run go on."""
    with started(words, text) as begun:
        pieces: List[bytes] = []
        is_stopped = False
        for piece in begun.pieces():
            if not piece.endswith(b"\n"):
                break
            is_first = not pieces
            kept = up_to(piece, until, table, is_first) if until is not None else piece
            pieces.append(kept)
            is_stopped = len(kept) < len(piece) or (watch is not None and watches(watch, piece, table, is_first))
            if is_stopped:
                begun.stop()
                break
        called = begun.finish(b"".join(pieces))
    if is_stopped:
        return trace_of(called._replace(notes=b""), table, Outcome(STOPPED))
    return trace_of(judge(called, words, text, source), table)


def up_to(piece: bytes, until: Fraction, table: Table, is_first: bool) -> bytes:
    """The lines of a piece up to a time. The first line of all may be the header."""
    lines = piece.splitlines(True)
    begun = int(is_first and table.has_header)
    if lines[begun:] and table.time_of(lines[-1]) <= until:
        return piece
    return b"".join(line for number, line in enumerate(lines) if number < begun or table.time_of(line) <= until)


def watches(watch: Watch, piece: bytes, table: Table, is_first: bool) -> bool:
    """Calls the watch with the last row of a piece, if it has one. Returns whether the run is to stop."""
    lines = piece.splitlines()
    return bool(lines[int(is_first and table.has_header) :]) and bool(watch(table.time_of(lines[-1]), table.stop))


@contextmanager
def watch_of(progress: Union[bool, Watch], stop: Fraction) -> Iterator[Optional[Watch]]:
    """The watch that a caller asks for. That of True shows a bar."""
    if not isinstance(progress, bool):
        yield progress
        return
    if not progress:
        yield None
        return
    with bar(float(stop), "seconds") as show:
        yield lambda time, _: show(float(time))
