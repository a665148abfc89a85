"""The forms of lines: read from the table of docs/RULES.md, and where a line leaves them.

A line is read from the left, one token after the other, so it leaves a form at the first token that can't come there. Of several
forms the one that it leaves last counts.
"""
import functools
import re
from typing import Callable, Dict, Iterable, List, NamedTuple, Optional, Sequence, Tuple

from .documents import FORMS, RULES, rows, section
from .lines import IN_GROUP, LARGEST, PLACES, TOKEN, Token
from .repository import reserved_words, type_words

FIRST_COLUMN = "where"
VERSION_2 = "in a text of version 2 also"

# How many parts of an expression may be within each other.
DEEPEST = 64

# Operators by how strong they are, the weakest first; `not` and the sign stand before their operand.
RANKS = {"or": 0, "and": 1, "not": 2, "==": 3, "!=": 3, "<": 3, "<=": 3, ">": 3, ">=": 3, "+": 4, "-": 4}
RANKS.update({"*": 5, "/": 5, "div": 5, "mod": 5})
NEGATION, COMPARISON, SIGN = 2, 3, 6
ARGUMENTS = {"abs": 1, "int": 1, "min": 2, "max": 2, "clamp": 3}
LEAVES = ("true", "false", "t", "h")

END = "the end of the line"
NAME = "a name"
TYPE = "a type"
LITERAL = "a literal"
EXPRESSION = "an expression"
NUMBER_OF_SECONDS = "a number"

# The whole numbers of forms by their letters in the table.
RANGES = {"E": (0, 9), "Z": (0, 10_000), "K": (1, 1_000), "R": (1, 100_000)}


class Leaves(Exception):
    """At a token of a line, counted from 0, something else is expected."""

    def __init__(self, place: int, expected: str) -> None:
        super().__init__(expected)
        self.place = place
        self.expected = expected


class Node(NamedTuple):
    """An expression: an operator, the name of a call, or a leaf; its parts; and the tokens that it is written with."""

    text: str
    parts: Tuple["Node", ...]
    first: int
    last: int


class Fault(NamedTuple):
    """Where a line leaves all forms of its place: the token, and what may stand there in its place."""

    place: int
    expected: Tuple[str, ...]


class Form(NamedTuple):
    """A form as the table has it, and its tokens."""

    text: str
    parts: Tuple[str, ...]


def whole_numbers(low: int, high: int) -> str:
    return f"a whole number from {low:,} to {high:,}"


class Reader:
    """Reads the tokens of one line from the left."""

    def __init__(self, tokens: Sequence[Token], version: int) -> None:
        self.tokens = tokens
        self.version = version
        self.place = 0

    def next(self) -> str:
        return self.tokens[self.place].text if self.place < len(self.tokens) else ""

    def leave(self, expected: str) -> None:
        raise Leaves(self.place, expected)

    def take(self, text: str) -> None:
        if self.next() != text:
            self.leave(f"`{text}`")
        self.place += 1

    def take_if(self, text: str) -> bool:
        found = self.next() == text
        self.place += found
        return found

    def end(self) -> None:
        if self.place < len(self.tokens):
            self.leave(END)

    def name(self) -> None:
        if self.place == len(self.tokens) or not self.tokens[self.place].is_word or self.next() in reserved_words():
            self.leave(NAME)
        self.place += 1

    def names(self) -> None:
        self.name()
        while self.take_if(","):
            self.name()

    def whole(self, low: int, high: int) -> None:
        if not self.next().isdecimal() or not low <= int(self.next()) <= high:
            self.leave(whole_numbers(low, high))
        self.place += 1

    def number(self) -> None:
        if self.place == len(self.tokens) or not self.tokens[self.place].is_number:
            self.leave(NUMBER_OF_SECONDS)
        self.place += 1

    def type(self) -> None:
        if self.next() not in type_words():
            self.leave(TYPE)
        self.place += 1
        if self.tokens[self.place - 1].text == "Fixed":
            self.whole(0, 9)

    def literal(self) -> None:
        if self.next() in ("true", "false"):
            self.place += 1
            return
        begun = self.place
        is_least = self.take_if("-") and self.next().replace(".", "").lstrip("0") == str(LARGEST + 1)
        if not is_least and (self.place == len(self.tokens) or not self.tokens[self.place].is_number):
            self.place = begun
            self.leave(LITERAL)
        self.place += 1

    def expression(self, level: int = 0) -> Node:
        if level > DEEPEST:
            self.leave("an expression of fewer parts within each other")
        first = self.place
        if not self.take_if("if"):
            return self.binary(0, level)
        parts = [self.expression(level + 1)]
        for word in ("then", "else"):
            self.take(word)
            parts.append(self.expression(level + 1))
        return Node("if", tuple(parts), first, self.place)

    def binary(self, lowest: int, level: int) -> Node:
        """Operands with operators between them that are at least so strong."""
        first = self.place
        left = self.operand(lowest, level)
        highest = SIGN
        while lowest <= RANKS.get(self.next(), -1) < highest and self.next() != "not":
            operator = self.next()
            self.place += 1
            rank = RANKS[operator]
            right = self.binary(rank + 1, level)
            left = Node(operator, (left, right), first, self.place)
            # A comparison is no operand of another one.
            highest = rank if rank == COMPARISON else SIGN
        return left

    def operand(self, lowest: int, level: int) -> Node:
        first, text = self.place, self.next()
        if text == "-":
            self.place += 1
            return Node("-", (self.deeper(SIGN, level),), first, self.place)
        if text == "not" and lowest <= NEGATION:
            self.place += 1
            return Node("not", (self.deeper(NEGATION, level),), first, self.place)
        return self.primary(level)

    def deeper(self, lowest: int, level: int) -> Node:
        if level >= DEEPEST:
            self.leave("an expression of fewer parts within each other")
        return self.binary(lowest, level + 1)

    def primary(self, level: int) -> Node:
        first, text = self.place, self.next()
        if text in ARGUMENTS:
            self.place += 1
            return Node(text, self.arguments(ARGUMENTS[text], level), first, self.place)
        if text == "fix":
            self.place += 1
            self.whole(0, 9)
            decimals = self.tokens[self.place - 1].text
            return Node(f"fix {int(decimals)}", self.arguments(1, level), first, self.place)
        if text == "(":
            return self.arguments(1, level)[0]
        if text == "present" and self.version == 2:
            self.place += 1
            self.take("(")
            self.name()
            self.take(")")
            return Node("present", (), first, self.place)
        self.leaf(text)
        return Node(text, (), first, self.place)

    def leaf(self, text: str) -> None:
        token = self.tokens[self.place] if text else Token("", 0)
        is_name = token.is_word and text not in reserved_words()
        if not (token.is_number or is_name or text in LEAVES or (text == "absent" and self.version == 2)):
            self.leave(EXPRESSION)
        self.place += 1

    def arguments(self, count: int, level: int) -> Tuple[Node, ...]:
        self.take("(")
        parts = [self.expression(level + 1)]
        while len(parts) < count:
            self.take(",")
            parts.append(self.expression(level + 1))
        self.take(")")
        return tuple(parts)

    def part(self, part: str) -> None:
        """A part of a form, as the table writes it."""
        if part in RANGES:
            self.whole(*RANGES[part])
        elif part in PARTS:
            PARTS[part](self)
        elif len(part) == 1 and part.isalpha():
            self.name()
        elif part.isdecimal():
            self.version_number(part)
        else:
            self.take(part)

    def version_number(self, number: str) -> None:
        if not self.next().isdecimal() or int(self.next()) != int(number):
            self.leave(f"`{number}`")
        self.place += 1


def read_expression(reader: Reader) -> None:
    reader.expression()


NEEDS = "u, v"
PARTS: Dict[str, Callable[[Reader], None]] = {"T": Reader.type, "L": Reader.literal, "S": Reader.number}
PARTS.update({"e": read_expression, NEEDS: Reader.names})


def form_of(text: str) -> Form:
    before, needs, rest = text.partition(NEEDS)
    return Form(text, tuple(TOKEN.findall(before)) + ((needs,) if needs else ()) + tuple(TOKEN.findall(rest)))


@functools.lru_cache(maxsize=None)
def forms_by_place() -> Dict[str, Tuple[Tuple[int, Form], ...]]:
    """The forms of each place, as the table has them, with the version of the language that has them."""
    forms: Dict[str, List[Tuple[int, Form]]] = {}
    for row in rows(section(RULES, FORMS), FIRST_COLUMN):
        if "forms of lines" not in row:
            continue
        is_new = row[FIRST_COLUMN] == VERSION_2
        for part in row["forms of lines"].split("; ") if is_new else [f"{row[FIRST_COLUMN]} {row['forms of lines']}"]:
            place = part.partition(" `")[0]
            if place in PLACES:
                forms.setdefault(place, []).extend((1 + is_new, form_of(text)) for text in re.findall(r"`([^`]*)`", part))
    return {place: tuple(found) for place, found in forms.items()}


def forms_at(place: str, version: int) -> List[Form]:
    return [form for since, form in forms_by_place().get(place, ()) if since <= version]


def fault_of(tokens: Sequence[Token], form: Form, version: int) -> Optional[Fault]:
    """Where a line leaves a form, or nothing where it has the form."""
    reader = Reader(tokens, version)
    try:
        for part in form.parts:
            reader.part(part)
        reader.end()
    except Leaves as leaves:
        return Fault(leaves.place, (leaves.expected,))
    return None


def furthest(faults: Iterable[Fault]) -> Fault:
    found = list(faults)
    place = max(fault.place for fault in found)
    return Fault(place, tuple(dict.fromkeys(expected for fault in found if fault.place == place for expected in fault.expected)))


def fault_at(tokens: Sequence[Token], place: str, version: int) -> Optional[Fault]:
    """Where a line leaves all forms of a place, or nothing where it has one of them."""
    faults = []
    for form in forms_at(place, version):
        fault = fault_of(tokens, form, version)
        if fault is None:
            return None
        faults.append(fault)
    return furthest(faults)


def has_form(tokens: Sequence[Token], version: int) -> bool:
    """Whether a line has a form of any place of a text without groups."""
    return any(fault_at(tokens, place, version) is None for place in forms_by_place() if place != IN_GROUP)
