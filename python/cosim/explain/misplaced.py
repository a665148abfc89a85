"""Rule 5: why a line that has a form may not be in its block."""
from typing import Optional, Sequence

from ..lines import Placed, texts_of
from ..sources import PLAIN, Source
from .kinds import Cause

# The cases that docs/RULES.md has a cure of its own for.
OF_TEXT = "a line of the text in a block"
OF_UNIT_IN_STEP = "a line of a unit in its step"
OF_UNIT = "a line of a unit outside of units"
OF_STEP = "a line of a step outside of steps"
EQUALS_IN_STEP = "`=` in a step"
ASSIGNED_SETTING = "`:=` in an instance"
SETTING = "a setting outside of an instance"
NEEDLESS_END = "an `end` without a block"
END_OF_GROUP = "an `end` of a group"
LONE_ELSE = "an `else` without its `if`"
SECOND = "the second line of a sort"
TOO_DEEP = "more than sixteen blocks in each other"

# The first words of lines of a step, and of a unit; an assignment has none.
STEP_WORDS = ("if", "repeat", "accept")
UNIT_WORDS = ("resolution", "param", "state", "local", "input", "event", "output", "max", "step")


def misplaced(lines: Sequence[bytes], placed: Placed, source: Source = PLAIN) -> Cause:
    """Which block a line is in, and the case of its cure. `source` says how lines are named."""
    case = case_of_block(placed)
    detail = describe_first(lines, placed, source) if case == SECOND else describe_block(lines, placed, source)
    return Cause((detail,) if detail else (), case)


def case_of_block(placed: Placed) -> Optional[str]:
    first, second = (placed.tokens + ["", ""])[:2]
    if first == "end":
        return END_OF_GROUP if placed.in_group else NEEDLESS_END
    if first == "else":
        return LONE_ELSE
    if second == ":=":
        return ASSIGNED_SETTING if "instance" in placed.blocks else OF_STEP
    if second == "=":
        return EQUALS_IN_STEP if "step" in placed.blocks else SETTING
    if first in STEP_WORDS:
        return TOO_DEEP if "step" in placed.blocks else OF_STEP
    if first in UNIT_WORDS:
        return case_in_unit(placed)
    return SECOND if not placed.blocks or first == "cosim" else OF_TEXT


def case_in_unit(placed: Placed) -> str:
    """The case of a line that only a unit has."""
    if "step" in placed.blocks:
        return OF_UNIT_IN_STEP
    return SECOND if "unit" in placed.blocks else OF_UNIT


def describe_block(lines: Sequence[bytes], placed: Placed, source: Source) -> str:
    """The block that is open before a line, and the line that opens it."""
    if not placed.blocks:
        return ""
    word = placed.blocks[-1]
    opened = opening_line(lines, placed)
    return f"the line is in the block of `{word}`" + (f", {source.lines(opened)}" if opened else "")


def opening_line(lines: Sequence[bytes], placed: Placed) -> int:
    """The line that opens the block around a line, or 0."""
    depth = 0
    for number in range(placed.number - 1, 0, -1):
        first = "".join(texts_of(lines[number - 1])[:1])
        if first == "end":
            depth += 1
        elif first in ("unit", "instance", "step", "if", "repeat"):
            if not depth:
                return number
            depth -= 1
    return 0


def describe_first(lines: Sequence[bytes], placed: Placed, source: Source) -> str:
    """The line that is the first of a sort."""
    for number in range(placed.number - 1, 0, -1):
        texts = texts_of(lines[number - 1])
        if texts[:1] == placed.tokens[:1]:
            return f"{source.lines(number)} is a `{texts[0]}` line too"
    return ""
