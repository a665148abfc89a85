"""Values of expressions and effects of step lines, by docs/LANGUAGE.md, for the model of runs in .ci/simulation.py.

An expression is read by the package of Python, and becomes a function of an environment: the words of the names that may be read
there, those of `t`, `h` and `accept`, and for each event input whether an event occurs, by its name with a question mark.
"""
from __future__ import annotations

import os
import sys
from collections.abc import Callable, Sequence
from typing import NamedTuple, Optional

from common import ROOT

sys.path.insert(0, os.path.join(ROOT, "python"))
from cosim.grammar import Node, Reader
from cosim.lines import Token

# Faults by their numbers.
OVERFLOW, RANGE, ZERO_DIVISOR, ACCEPT, MAX = 1, 2, 3, 4, 5

LEAST, GREATEST = -(2**63), 2**63 - 1
BITS_OF_TYPES = {"Int8": 8, "Int16": 16, "Int32": 32, "Int64": 64}
RANGES = {name: (-(1 << bits - 1), (1 << bits - 1) - 1) for name, bits in BITS_OF_TYPES.items()}
RANGES.update({f"U{name}": (0, (1 << bits) - 1) for name, bits in BITS_OF_TYPES.items() if bits < 64})
RANGES["Bool"] = (0, 1)

INT, BOOL = "Int", "Bool"

Environment = dict[str, int]
Value = Callable[[Environment], int]
EventValue = Callable[[Environment], Optional[int]]
Action = Callable[[Environment], None]


class Faulted(Exception):
    """A fault, by its number."""

    def __init__(self, number: int) -> None:
        super().__init__(number)
        self.number = number


class Typed(NamedTuple):
    """An expression: its kind, and its value in an environment."""

    kind: str
    value: Value


def word(number: int) -> int:
    """A number as a word. Where it doesn't fit, it is a fault."""
    if not LEAST <= number <= GREATEST:
        raise Faulted(OVERFLOW)
    return number


def stored(type_name: str, number: int) -> int:
    """A word that is stored in a variable of a type, or is given as an output."""
    least, greatest = RANGES.get(type_name, (LEAST, GREATEST))
    if not least <= number <= greatest:
        raise Faulted(RANGE)
    return number


def kind_of(type_name: str) -> str:
    return type_name if type_name == BOOL or type_name.startswith("Fixed ") else INT


def decimals_of(kind: str) -> int:
    """The decimals of a kind or a type; an integer has none."""
    return int(kind[6:]) if kind.startswith("Fixed ") else 0


def word_of_literal(type_name: str, literal: str) -> int:
    """The word of a literal as a value of a type."""
    if literal in ("true", "false"):
        return int(literal == "true")
    whole, _, decimals = literal.partition(".")
    return int(whole + decimals.ljust(decimals_of(type_name), "0"))


def text_of(type_name: str, number: int) -> str:
    """A word of a type as the trace has it."""
    if type_name == BOOL:
        return "true" if number else "false"
    return with_point(number, decimals_of(type_name))


def with_point(number: int, decimals: int) -> str:
    """A number of 10^-decimals, with exactly these decimals."""
    digits = str(abs(number)).rjust(decimals + 1, "0")
    point = len(digits) - decimals
    return "-" * (number < 0) + digits[:point] + ("." + digits[point:] if decimals else "")


# ---- Operations on words


def divided(dividend: int, divisor: int) -> int:
    if divisor == 0:
        raise Faulted(ZERO_DIVISOR)
    return word(dividend // divisor)


def remainder(dividend: int, divisor: int) -> int:
    if divisor == 0:
        raise Faulted(ZERO_DIVISOR)
    return dividend % divisor


def clamped(number: int, low: int, high: int) -> int:
    return max(low, min(number, high))


# Operations whose result has the kind of their first operand.
SAME_KIND: dict[tuple[str, int], Callable[..., int]] = {
    ("+", 2): lambda a, b: word(a + b),
    ("-", 2): lambda a, b: word(a - b),
    ("-", 1): lambda a: word(-a),
    ("abs", 1): lambda a: word(abs(a)),
    ("min", 2): min,
    ("max", 2): max,
    ("clamp", 3): clamped,
    ("div", 2): divided,
    ("mod", 2): remainder,
}

# Operations whose result is a truth value.
TRUTHS: dict[tuple[str, int], Callable[..., bool]] = {
    ("==", 2): lambda a, b: a == b,
    ("!=", 2): lambda a, b: a != b,
    ("<", 2): lambda a, b: a < b,
    ("<=", 2): lambda a, b: a <= b,
    (">", 2): lambda a, b: a > b,
    (">=", 2): lambda a, b: a >= b,
    ("and", 2): lambda a, b: bool(a and b),
    ("or", 2): lambda a, b: bool(a or b),
    ("not", 1): lambda a: not a,
}


def scaled(decimals: int) -> dict[tuple[str, int], Callable[..., int]]:
    """The product and the quotient of numbers with so many decimals."""
    unit = 10**decimals
    return {
        ("*", 2): lambda a, b: word(a * b // unit),
        ("/", 2): lambda a, b: divided(a * unit, b),
    }


def converted(decimals: int, wanted: int) -> Callable[[int], int]:
    """A number with other decimals. Where there are fewer it is rounded down."""
    if wanted >= decimals:
        return lambda a: word(a * 10 ** (wanted - decimals))
    return lambda a: a // 10 ** (decimals - wanted)


# ---- Expressions


class Compiler:
    """Makes functions of expressions, for a unit whose names have these kinds."""

    def __init__(self, kinds: dict[str, str], version: int) -> None:
        self.kinds = kinds
        self.version = version

    def read(self, tokens: Sequence[str]) -> Node:
        reader = Reader([Token(text, 0) for text in tokens], self.version)
        node = reader.expression()
        reader.end()
        return node

    def value(self, tokens: Sequence[str]) -> Value:
        return self.typed(self.read(tokens), tokens).value

    def event(self, tokens: Sequence[str]) -> EventValue:
        return self.event_of(self.read(tokens), tokens)

    def event_of(self, node: Node, tokens: Sequence[str]) -> EventValue:
        """An expression of an event output: its value, or nothing where it is absent."""
        if node.text == "absent":
            return lambda env: None
        if node.text != "if":
            return self.typed(node, tokens).value
        condition = self.typed(node.parts[0], tokens).value
        then, other = (self.event_of(part, tokens) for part in node.parts[1:])
        return lambda env: then(env) if condition(env) else other(env)

    def typed(self, node: Node, tokens: Sequence[str]) -> Typed:
        if node.text == "present":
            return self.name(BOOL, f"{tokens[node.first + 2]}?")
        parts = [self.typed(part, tokens) for part in node.parts]
        if not parts:
            return self.leaf(node.text)
        if node.text == "if":
            return chosen(*parts)
        kind, call = operation(node.text, parts[0].kind, len(parts))
        return Typed(kind, applied(call, [part.value for part in parts]))

    def leaf(self, text: str) -> Typed:
        if text in ("true", "false"):
            return constant(BOOL, int(text == "true"))
        if text in ("t", "h"):
            return self.name(INT, text)
        if text[0].isdecimal():
            _, point, decimals = text.partition(".")
            return constant(f"Fixed {len(decimals)}" if point else INT, int(text.replace(".", "")))
        return self.name(self.kinds[text], text)

    def name(self, kind: str, key: str) -> Typed:
        return Typed(kind, lambda env: env[key])


def constant(kind: str, number: int) -> Typed:
    return Typed(kind, lambda env: number)


def chosen(condition: Typed, then: Typed, other: Typed) -> Typed:
    test, first, second = condition.value, then.value, other.value
    return Typed(then.kind, lambda env: first(env) if test(env) else second(env))


def operation(name: str, kind: str, count: int) -> tuple[str, Callable[..., int]]:
    """The kind of an operation on so many operands, the first of which has a kind, and the operation."""
    key = (name, count)
    if key in TRUTHS:
        return BOOL, TRUTHS[key]
    if name == "int":
        return INT, converted(decimals_of(kind), 0)
    if name.startswith("fix "):
        return f"Fixed {name[4:]}", converted(decimals_of(kind), int(name[4:]))
    return kind, SAME_KIND.get(key) or scaled(decimals_of(kind))[key]


def applied(call: Callable[..., int], parts: list[Value]) -> Value:
    """The operation on its operands, which are computed from left to right."""
    if len(parts) == 1:
        (only,) = parts
        return lambda env: int(call(only(env)))
    if len(parts) == 2:
        left, right = parts
        return lambda env: int(call(left(env), right(env)))
    return lambda env: int(call(*[part(env) for part in parts]))


# ---- Step lines


class Steps:
    """Makes the action of the lines of a step. `types` has the types of states and locals."""

    def __init__(self, compiler: Compiler, types: dict[str, str], lines: Sequence[Sequence[str]]) -> None:
        self.compiler = compiler
        self.types = types
        self.lines = iter(lines)

    def block(self) -> tuple[Action, str]:
        """The action of the lines up to the end of their block, and the word that ends it."""
        actions: list[Action] = []
        for line in self.lines:
            if line[0] in ("end", "else") and len(line) == 1:
                return in_sequence(actions), line[0]
            actions.append(self.action(line))
        return in_sequence(actions), ""

    def action(self, line: Sequence[str]) -> Action:
        first, *rest = line
        if first == "if":
            return self.choice(self.compiler.value(rest))
        if first == "repeat":
            return repeated(int(rest[0]), self.block()[0])
        if first == "accept":
            return accepting(self.compiler.value(rest))
        return assigning(first, self.types[first], self.compiler.value(rest[1:]))

    def choice(self, condition: Value) -> Action:
        then, ended = self.block()
        other = self.block()[0] if ended == "else" else in_sequence([])

        def act(env: Environment) -> None:
            (then if condition(env) else other)(env)

        return act


def in_sequence(actions: Sequence[Action]) -> Action:
    def act(env: Environment) -> None:
        for action in actions:
            action(env)

    return act


def repeated(count: int, action: Action) -> Action:
    def act(env: Environment) -> None:
        for _ in range(count):
            action(env)

    return act


def accepting(value: Value) -> Action:
    def act(env: Environment) -> None:
        accepted = value(env)
        if not 0 <= accepted <= env["h"]:
            raise Faulted(ACCEPT)
        env["accept"] = accepted

    return act


def assigning(name: str, type_name: str, value: Value) -> Action:
    def act(env: Environment) -> None:
        env[name] = stored(type_name, value(env))

    return act


def needs_in(tokens: Sequence[str]) -> list[str]:
    """The inputs that the line of an output needs."""
    before = tokens[: tokens.index("=")]
    return [name for name in before[before.index("needs") + 1 :] if name != ","] if "needs" in before else []
