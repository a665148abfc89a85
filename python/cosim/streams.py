"""The standard streams of a tool, files that it reads, and names as they can be shown.

No tool writes by Python's own streams: a stream may be closed, and then the status alone reports what can't be written.
"""
import os
import signal
import sys
from typing import BinaryIO, Callable, List, NoReturn, Optional, Sequence, Set, Union

from .statuses import Status

# The path of a file.
Path = Union[str, bytes, "os.PathLike[str]", "os.PathLike[bytes]"]

INPUT, OUTPUT, NOTES = range(3)

# The standard streams that were closed when the tool began.
CLOSED: Set[int] = set()


def occupy_closed_streams() -> None:
    """Opens the null device in place of each standard stream that is closed: no file that is opened later has its number."""
    for number in (INPUT, OUTPUT, NOTES):
        try:
            os.fstat(number)
        except OSError:
            CLOSED.add(number)
            os.open(os.devnull, os.O_RDWR)


# How many calls may be within each other: a line may have an expression with as many operators as half its bytes.
MOST_CALLS = 10_000


def start(main: Callable[[], int]) -> NoReturn:
    """Runs a tool, and ends the process by its status. A signal from the keyboard ends it as any other program."""
    sys.setrecursionlimit(MOST_CALLS)
    signal.signal(signal.SIGINT, signal.SIG_DFL)
    occupy_closed_streams()
    sys.exit(main())


def files_of(words: Sequence[str]) -> Optional[List[str]]:
    """The files that words name: after `--` all are files, and before it those that begin without `-`. None where one is neither."""
    place = words.index("--") if "--" in words else len(words)
    if any(word.startswith("-") for word in words[:place]):
        return None
    return [*words[:place], *words[place + 1 :]]


def write_all(number: int, data: bytes) -> None:
    while data:
        data = data[os.write(number, data) :]


def note(text: str) -> None:
    """Writes a line to standard error, if that can be written."""
    try:
        write_all(NOTES, encode(text + "\n"))
    except OSError:
        pass


def encode(text: str) -> bytes:
    return text.encode(errors="backslashreplace")


def write_output(output: Union[str, bytes]) -> None:
    """Writes bytes, or a text and a line feed, to standard output.

    Where that fails it ends the tool, quietly if the reader of a pipe has left.
    """
    data = output if isinstance(output, bytes) else encode(output + "\n")
    try:
        if OUTPUT in CLOSED:
            raise OSError(9, "Bad file descriptor")
        write_all(OUTPUT, data)
    except BrokenPipeError:
        sys.exit(Status.WRITE_FAULT)
    except OSError as error:
        note(f"the output can't be written: {error.strerror}")
        sys.exit(Status.WRITE_FAULT)


# The bytes that one read takes at most.
PIECE = 1 << 20


def read_at_most(file: BinaryIO, limit: int) -> bytes:
    """The bytes of a file, and not more than one above the limit: so a longer file is seen to be longer.

    They are read in pieces, since one read would take memory for the whole limit.
    """
    pieces: List[bytes] = []
    left = limit + 1
    while left:
        piece = file.read(min(left, PIECE))
        if not piece:
            break
        pieces.append(piece)
        left -= len(piece)
    return b"".join(pieces)


def read_file(path: Path, limit: int) -> bytes:
    """The bytes of a file, as `read_at_most`. OSError with its name where it can't be read."""
    try:
        with open(path, "rb") as file:
            return read_at_most(file, limit)
    except OSError as error:
        error.filename = os.fsdecode(path)
        raise


def read_input(limit: int) -> bytes:
    """Standard input, as `read_at_most`. Where it can't be read it ends the tool."""
    try:
        if INPUT in CLOSED:
            raise OSError(9, "Bad file descriptor")
        with open(INPUT, "rb", closefd=False) as file:
            return read_at_most(file, limit)
    except OSError as error:
        note(f"the input can't be read: {error.strerror}")
        sys.exit(Status.READ_FAULT)


def escaped(text: str) -> str:
    """A text with each sign that can't be seen, but for the tab, by its number. No line ends in it."""
    unseen = (sign for sign in set(text) if not sign.isprintable() and sign != "\t")
    return text.translate({ord(sign): sign.encode("unicode_escape").decode() for sign in unseen})


def clean_name(path: str) -> str:
    """The name of a file as it can be shown: in one line, and with no sign that a terminal obeys."""
    return escaped(path).replace("\t", "\\t")
