"""How a text looks that is well kept: indentation by blocks, and spaces between tokens by one rule."""
import itertools
from typing import Iterator, List, Sequence, Tuple

from .lines import NUMBER, WORD, Placed, is_part, placed_lines, split_comment, split_lines
from .repository import words_by_group

INDENTATION = "  "

# The least space between the code of a line and its comment.
BEFORE_COMMENT = "  "

# The signs of a model without a space before them, and those without a space after them.
JOINED_TO_LEFT = (")", ",", ".")
JOINED_TO_RIGHT = ("(", ".")


def calls() -> Sequence[str]:
    return words_by_group()["function"] + ("max",)


def ends_operand(token: str) -> bool:
    """Whether a minus after a token has a left side."""
    if token == ")" or NUMBER.fullmatch(token):
        return True
    groups = words_by_group()
    others = groups["operator"] + groups["step"] + groups["function"] + ("needs", "max")
    return bool(WORD.fullmatch(token)) and token not in others


def is_apart(line: Sequence[str], place: int) -> bool:
    """Whether there is a space between a token of a line and the one before it."""
    before, token = line[place - 1], line[place]
    if token in JOINED_TO_LEFT or before in JOINED_TO_RIGHT:
        return False
    if before == "-" and not (place > 1 and ends_operand(line[place - 2])):
        return False
    # The line `max e` is no call.
    return token != "(" or before not in calls() or (before == "max" and place == 1)


def space(line: Sequence[str]) -> str:
    """The tokens of a line with a space between two of them where one is usual."""
    return "".join((" " if place and is_apart(line, place) else "") + token for place, token in enumerate(line))


def depth_of(placed: Placed) -> int:
    """The number of blocks around a line, without the one that it ends or divides."""
    if is_part(placed.tokens) and not placed.blocks:
        return 0
    divides = bool(placed.tokens) and placed.tokens[0] in ("end", "else") and bool(placed.blocks)
    return len(placed.blocks) + placed.in_group - divides


def depths_of(placed: Sequence[Placed]) -> Iterator[int]:
    """The depth of each line. Comments before a line that begins a group belong to that line."""
    depths: List[int] = []
    begins_part = False
    for line in reversed(placed):
        if line.tokens:
            begins_part = is_part(line.tokens) and not line.blocks
        depths.append(0 if begins_part else depth_of(line))
    return reversed(depths)


def widths_of(lines: Sequence[Tuple[str, bytes]]) -> Iterator[int]:
    """The width of each line before its comment: lines without code divide the text, and between two of them comments have one
    column."""
    for has_code, paragraph in itertools.groupby(lines, lambda line: bool(line[0])):
        members = list(paragraph)
        width = max((len(code) for code, comment in members if comment), default=0)
        yield from [width if has_code else 0] * len(members)


def format_text(text: bytes) -> bytes:
    """A text whose lines have forms, with indentation and spaces by rule; each line stays a line, and keeps its comment."""
    lines, placed = split_lines(text), list(placed_lines(text))
    end = b"\r\n" if text.count(b"\r\n") == text.count(b"\n") > 0 else b"\n"
    codes = [INDENTATION * depth + space(line.tokens) if line.tokens else "" for depth, line in zip(depths_of(placed), placed)]
    comments = [split_comment(line)[1].rstrip(b" \t") for line in lines]
    formatted = []
    widths = widths_of(list(zip(codes, comments)))
    for depth, code, comment, width in zip(depths_of(placed), codes, comments, widths):
        if comment and not code:
            code = INDENTATION * depth
        elif comment:
            code = code.ljust(width) + BEFORE_COMMENT
        formatted.append(code.encode("latin-1") + comment + end)
    return b"".join(formatted)
