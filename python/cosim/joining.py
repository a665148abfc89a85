"""Joins files that different teams keep: units and groups in files of their own, and one file with the system.

Each file is a text with a header, with groups or without. The joined text has the groups of all files, `main` where there are
groups, the header, the units in the order of the files, and then the system.
"""
import os
from typing import Dict, Iterable, Iterator, List, NamedTuple, Sequence, Tuple

from .errors import Unjoinable
from .explain.inputs import has_groups
from .lines import is_part, placed_lines, split_comment
from .models import Model
from .program import call, read_refusal
from .repository import LONGEST_TEXT
from .running import judge, start_failed
from .sources import FileLine, Source, Span
from .streams import Path, clean_name, read_file

# The rules of the lines of a text, which each file has to keep by itself. All others are judged in the joined text.
OF_LINES = (*range(1, 8), 26)


class Part(NamedTuple):
    """A file that keeps the rules of lines: its path, and its lines with their ends.

    `main` is the number of its line `main`, or 0, and `header` that of its header, which has the version. `system` is the number of
    the first line that belongs to no unit and no group, or 0 where the file has units and groups alone.
    """

    path: str
    lines: Sequence[bytes]
    main: int
    header: int
    version: int
    system: int

    @property
    def place(self) -> FileLine:
        """The header and its file."""
        return FileLine(self.path, self.header)


class Piece(NamedTuple):
    """Lines of a file that follow each other, and the number of the first."""

    path: str
    first: int
    lines: Sequence[bytes]


class Joined(NamedTuple):
    """A joined text, and where its lines come from."""

    text: bytes
    source: Source


def join(paths: Iterable[Path]) -> Model:
    """The model of several files: one has the system, and the others have units and groups alone. It is judged at once.

    Unjoinable where the files don't fit together, Refused at the file and the line where a rule is broken, and OSError where a file
    can't be read.
    """
    if isinstance(paths, (str, bytes, os.PathLike)):
        raise TypeError("join takes a list of paths")
    joined = join_texts([(path, read_file(path, LONGEST_TEXT)) for path in map(os.fsdecode, paths)])
    model = Model(joined.text, source=joined.source)
    model.check()
    return model


def join_texts(texts: Sequence[Tuple[str, bytes]]) -> Joined:
    """Joins texts, each with its path. Of the result only the rules of lines are judged. Raises as `join`."""
    require_different([path for path, _ in texts])
    parts = [read_part(path, text) for path, text in texts]
    system = find_system(parts)
    check_versions(parts)
    pieces = [piece for piece in arranged(parts, system) if piece.lines]
    text = b"".join(line for piece in pieces for line in piece.lines)
    spans = tuple(Span(piece.path, piece.first, len(piece.lines)) for piece in pieces)
    others = len(parts) - 1
    name = clean_name(system.path) + (f", joined with {others} file{'s' if others > 1 else ''}" if others else "")
    return Joined(text, Source(name, None, spans))


def require_different(paths: Iterable[str]) -> None:
    """Unjoinable where two paths are of one file, whose units would be declared twice."""
    seen: Dict[object, str] = {}
    for path in paths:
        try:
            status = os.stat(path)
            identity: object = (status.st_dev, status.st_ino)
        except OSError:
            identity = path
        if identity in seen:
            other = "" if seen[identity] == path else f", once as {clean_name(seen[identity])}"
            raise Unjoinable(f"{clean_name(path)} is given twice{other}")
        seen[identity] = path


def read_part(path: str, text: bytes) -> Part:
    """A file and its parts. Refused where a line breaks a rule of lines."""
    judge_lines(path, text)
    lines = [line + b"\n" for line in text.split(b"\n")]
    if lines[-1] == b"\n":
        lines.pop()
    placed = list(placed_lines(text))
    main = next((line.number for line in placed if line.tokens == ["main"] and is_part(line.tokens)), 0)
    header = next(line for line in placed if line.number > main and line.tokens)
    others = (line for line in placed if line.number > header.number and line.tokens and not line.blocks)
    system = next((line.number for line in others if line.tokens[0] != "unit"), 0)
    return Part(path, lines, main, header.number, int(header.tokens[1]), system)


def judge_lines(path: str, text: bytes) -> None:
    """Judges the lines of a file by itself, so that a block without an `end` is no fault of the next file."""
    words = ["flatten" if has_groups(text) else "check"]
    try:
        called = call(words, text)
    except OSError as error:
        raise start_failed(error) from None
    refusal = read_refusal(called.notes)
    if refusal is None or int(refusal[2]) in OF_LINES:
        judge(called, words, text, Source(path, path))


def find_system(parts: Sequence[Part]) -> Part:
    """The file that has the system."""
    found = [part for part in parts if part.system]
    if len(found) == 1:
        return found[0]
    if not found:
        names = ", ".join(clean_name(part.path) for part in parts) or "no file"
        message = f"no file has the system, which has instances and `stop`: {names}"
        raise Unjoinable(message, places=tuple(part.place for part in parts))
    places = tuple(FileLine(part.path, part.system) for part in found)
    message = f"{places[1]}: this line belongs to a system, and so does {places[0]}; one file has the system, the others units and groups alone"
    raise Unjoinable(message, places=places)


def check_versions(parts: Sequence[Part]) -> None:
    """Unjoinable where two files are of different versions of the language."""
    first = parts[0]
    for part in parts:
        if part.version != first.version:
            message = f"{part.place}: this file has version {part.version}, and {first.place} has version {first.version}; all have one version"
            raise Unjoinable(message, places=(first.place, part.place))


def arranged(parts: Sequence[Part], system: Part) -> Iterator[Piece]:
    """The pieces of the joined text in their order, of which some may be empty.

    The header is that of the system, and so is `main` where it has one. Of other such lines the comments are kept.
    """
    nested = [part for part in parts if part.main]
    of_main = system if system.main else nested[0] if nested else None
    for part in nested:
        yield piece_of(part, 1, part.main - 1)
        if part is not of_main:
            yield comment_of(part, part.main)
    if of_main:
        yield piece_of(of_main, of_main.main, of_main.main)
    yield piece_of(system, system.main + 1, system.header)
    for part in parts:
        if part is not system:
            yield piece_of(part, part.main + 1, part.header - 1)
            yield comment_of(part, part.header)
            yield piece_of(part, part.header + 1, len(part.lines))
    yield piece_of(system, system.header + 1, len(system.lines))


def piece_of(part: Part, first: int, last: int) -> Piece:
    return Piece(part.path, first, part.lines[first - 1 : last])


def comment_of(part: Part, number: int) -> Piece:
    """The comment of a line that is left out."""
    comment = split_comment(part.lines[number - 1])[1]
    lines: List[bytes] = [comment] if comment else []
    return Piece(part.path, number, lines)
