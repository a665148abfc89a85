"""The statuses of the program, and of the tools around it."""
import enum


class Status(enum.IntEnum):
    """How a process ended. Each number means the same of all tools, but for 1: `NO_MEMORY` is of the program alone."""

    ACCEPTED = 0
    NO_MEMORY = 1
    NO_FORM = 2
    REFUSED = 3
    READ_FAULT = 4
    WRITE_FAULT = 5
    ZERO_BUDGET = 6
    ROW_BUDGET = 7
    FAULT = 8
    STEP_REFUSED = 9
    NO_PROGRAM = 69

    # Of a tool: a file can't be read; and of tools/format --check, a file would be changed.
    NO_FILE = 1
    WOULD_CHANGE = 1

    __str__ = int.__str__
