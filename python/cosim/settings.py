"""What is set in a canonical text, and what the names of settings mean."""
import difflib
import re
from typing import Iterable, Iterator, List, NamedTuple, Sequence, Tuple

from .errors import UnfitValue
from .nests import Nest, Part
from .values import Seconds, Value, exact, seconds_of, value_of_word, word_of

# The most decimals of a second, and the most ticks of a run.
FINEST = 9
MOST_TICKS = 10**15


def paths_of(nest: Nest, part: Part, path: Tuple[str, ...]) -> Iterator[Tuple[str, ...]]:
    """The paths of the components of a part, depth first."""
    for instance in part.instances:
        inner = (*path, instance.name)
        group = nest.group(instance.unit)
        if group:
            yield from paths_of(nest, group, inner)
        else:
            yield inner


def set_in_instance(lines: List[bytes], instance: str, parameter: str, literal: str) -> None:
    """Sets a parameter in the lines of an instance of a canonical text."""
    start = f"instance {instance}:".encode()
    place = next(number for number, line in enumerate(lines) if line.startswith(start)) + 1
    setting = f"{parameter}=".encode()
    while lines[place] != b"end" and not lines[place].startswith(setting):
        place += 1
    lines[place : place + (lines[place] != b"end")] = [setting + literal.encode()]


class Template(NamedTuple):
    """A canonical text with places for literals: its parts, and for each literal the number of the part that it takes."""

    parts: List[bytes]
    places: List[int]

    def text_of(self, literals: Sequence[str]) -> bytes:
        """The text with these literals, one for each place."""
        parts = self.parts.copy()
        for place, literal in zip(self.places, literals):
            parts[place] = literal.encode()
        return b"".join(parts)


def template_of(canonical: bytes, parameters: Sequence[Tuple[str, str]]) -> Template:
    """A canonical text with places for the literals of these parameters, each an instance and a name."""
    lines = canonical.splitlines()
    for number, (instance, parameter) in enumerate(parameters):
        set_in_instance(lines, instance, parameter, f"\0{number}\0")  # No text has this sign.
    parts = re.split(rb"\0(\d+)\0", b"\n".join(lines) + b"\n")
    places = {int(number): 2 * count + 1 for count, number in enumerate(parts[1::2])}
    return Template(parts, [places[number] for number in range(len(parameters))])


def set_in_unit(lines: List[bytes], unit: str, parameter: str, type_name: str, literal: str) -> None:
    """Sets a parameter in the lines of a unit of a canonical text."""
    first = lines.index(f"unit {unit}".encode())
    start = f"param {parameter}:{type_name}=".encode()
    place = next(number for number in range(first, len(lines)) if lines[number].startswith(start))
    lines[place] = start + literal.encode()


def literal_of_stop(seconds: Seconds, resolution: int) -> str:
    """A time in seconds as a `stop` line has it, for a system whose tick is 10^-resolution seconds.

    UnfitValue where it has too many decimals, or is above 10^15 ticks.
    """
    exactly = seconds_of(seconds, "stop")
    scaled = exactly * 10**FINEST
    if scaled.denominator != 1:
        raise UnfitValue(f"stop: {seconds} has more than {FINEST} decimals")
    if exactly * 10**resolution > MOST_TICKS:
        raise UnfitValue(f"stop: {seconds} is above {exact(MOST_TICKS, resolution):f} seconds, which are 10^15 ticks of this model")
    return f"{exact(scaled.numerator, FINEST):f}".rstrip("0").rstrip(".")


def value_of_literal(literal: str, type_name: str, what: str) -> Value:
    """The value of a literal, with the decimals of its type."""
    return value_of_word(word_of(literal, type_name, what), type_name)


def nearest(name: str, names: Iterable[str]) -> str:
    """The names that are most like one, or all of a few, as a message has them."""
    known = list(names)
    near = difflib.get_close_matches(name, known, 3) or known[:8]
    return f"; there are {', '.join(near)}" if near else ""
