"""The command tools/format."""
from typing import NamedTuple, Optional, Sequence

from .explain.inputs import has_groups
from .files import write_at_once
from .formatting import format_text
from .lines import is_part, placed_lines
from .program import ask
from .repository import LONGEST_TEXT
from .statuses import Status
from .streams import clean_name, files_of, note, read_at_most, read_input, write_output

CHECK = "--check"

# The rule of texts without `stop`, which a file of units alone breaks.
NO_STOP = 19


class Formatted(NamedTuple):
    """A formatted text; or none, with the status and the reason."""

    text: Optional[bytes]
    status: int = Status.ACCEPTED
    reason: str = ""


def rest_of_model(text: bytes) -> bytes:
    """Lines after which a text of units and groups alone is a model; nothing for a text with other lines."""
    lines = [line for line in placed_lines(text) if line.tokens and not line.blocks]
    outside = [line.tokens for line in lines if not line.in_group or is_part(line.tokens)]
    names = [tokens[1] for tokens in outside if tokens[0] in ("unit", "group")]
    if not names or any(tokens[0] not in ("cosim", "unit", "group", "main") for tokens in outside):
        return b""
    instances = "".join(f"instance a{number} : {name}\nend\n" for number, name in enumerate(names))
    return f"\n{instances}stop 1\n".encode()


def format_safely(text: bytes) -> Formatted:
    """A text as it is formatted, if the program prints the same canonical text of both."""
    command = "flatten" if has_groups(text) else "print"
    before, rest = ask(command, text), b""
    if before.rule == NO_STOP:
        rest = rest_of_model(text)
        before = ask(command, text + rest)
    if before.line is not None:
        return Formatted(None, before.status, f"it is refused at line {before.line} by rule {before.rule}, and isn't formatted")
    if before.status != Status.ACCEPTED:
        return Formatted(None, before.status, "it isn't formatted")
    formatted = format_text(text)
    after = ask(command, formatted + rest)
    if after.line is not None:
        return Formatted(None, Status.REFUSED, f"formatted it would break rule {after.rule} at line {after.line}, so it stays as it is")
    if (after.status, after.output) != (before.status, before.output):
        return Formatted(None, Status.REFUSED, "formatted it would be another model, so it stays as it is")
    return Formatted(formatted)


def format_input(is_check: bool) -> int:
    """Formats standard input to standard output."""
    text = read_input(LONGEST_TEXT)
    formatted = format_safely(text)
    if formatted.text is None:
        note(f"standard input: {formatted.reason}")
        return formatted.status
    if is_check:
        return Status.WOULD_CHANGE if formatted.text != text else Status.ACCEPTED
    write_output(formatted.text)
    return Status.ACCEPTED


def format_file(path: str, is_check: bool) -> int:
    """Formats a file in place, or reports that it would be changed."""
    name = clean_name(path)
    try:
        with open(path, "rb") as file:
            text = read_at_most(file, LONGEST_TEXT)
    except (OSError, ValueError) as error:
        note(f"{name}: {getattr(error, 'strerror', None) or error}")
        return Status.READ_FAULT
    formatted = format_safely(text)
    if formatted.text is None:
        note(f"{name}: {formatted.reason}")
        return formatted.status
    if formatted.text == text:
        return Status.ACCEPTED
    if is_check:
        write_output(f"{name}: would be formatted")
        return Status.WOULD_CHANGE
    return replace(path, formatted.text)


def replace(path: str, text: bytes) -> int:
    """Writes a text in place of a file, which stays as it is where that fails. Returns the status."""
    try:
        write_at_once(path, lambda file: file.write(text))
    except OSError as error:
        note(f"{clean_name(path)}: {error.strerror}; it stays as it is")
        return Status.WRITE_FAULT
    return Status.ACCEPTED


def main(document: str, words: Sequence[str]) -> int:
    """Formats files in place, or standard input to standard output. Returns the status."""
    if list(words) in (["help"], ["--help"], ["-h"]):
        write_output(document.strip())
        return Status.ACCEPTED
    others = list(words)
    is_check = CHECK in others[: others.index("--") if "--" in others else None]
    if is_check:
        others.remove(CHECK)
    paths = files_of(others)
    if paths is None:
        note(document.strip())
        return Status.NO_FORM
    if not paths:
        return format_input(is_check)
    return max(format_file(path, is_check) for path in paths)
