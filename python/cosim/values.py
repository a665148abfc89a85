"""Values of the types of the language: exact ones of Python, and the literals and words that they are."""
import re
from decimal import Decimal
from fractions import Fraction
from numbers import Integral
from typing import List, Optional, Union

from .errors import UnfitValue
from .explain.positions import range_of
from .lines import NUMBER

# What a field of a trace, a parameter or a state is: `Bool` is bool, whole numbers are int, and `Fixed N` is Decimal with N
# decimals. None is an event port without an event.
Value = Union[bool, int, Decimal]

# What a value may be given as. A float isn't taken: it is seldom the number that was written.
Given = Union[str, bool, int, Decimal, Fraction]

Seconds = Union[str, int, Decimal, Fraction]

TRUTH = {"false": False, "true": True}


def decimals_of(type_name: str) -> Optional[int]:
    """The decimals of a type `Fixed N`, and nothing of another."""
    return int(type_name[len("Fixed ") :]) if type_name.startswith("Fixed ") else None


def exact(word: int, decimals: int) -> Decimal:
    """The number word / 10^decimals, whatever the context of `decimal` rounds to."""
    return Decimal((int(word < 0), tuple(map(int, str(abs(word)))), -decimals))


def value_of_word(word: int, type_name: str) -> Value:
    if type_name == "Bool":
        return bool(word)
    decimals = decimals_of(type_name)
    return word if decimals is None else exact(word, decimals)


def values_of_fields(fields: List[str], type_name: str) -> List[Optional[Value]]:
    """The values of a column of a trace."""
    if type_name == "Bool":
        return [TRUTH[field] if field else None for field in fields]
    if decimals_of(type_name) is None:
        return [int(field) if field else None for field in fields]
    return [Decimal(field) if field else None for field in fields]


def form_of(type_name: str, is_event: bool = False, is_signed: bool = True) -> "re.Pattern[str]":
    """How a trace writes the values of a type, with as many digits as 64 bits have. An event may be absent."""
    decimals = decimals_of(type_name)
    number = r"(?:0|[1-9][0-9]{0,19})" + (rf"\.[0-9]{{{decimals}}}" if decimals else "")
    sign = r"(?!-[0.]+\Z)-?" if is_signed else ""
    form = "true|false" if type_name == "Bool" else sign + number
    return re.compile(f"(?:{form}){'?' if is_event else ''}")


def is_in_range(field: str, type_name: str) -> bool:
    """Whether a field, which has the form of its type, is the literal of a word of that type."""
    if type_name == "Bool" or not field:
        return True
    low, high = range_of(type_name)
    return low <= int(field.replace(".", "")) <= high


def fraction_of(given: Given, what: str) -> Fraction:
    """The number that a value is, exactly."""
    if isinstance(given, float):
        raise UnfitValue(f"{what}: {given!r} is a float, which may be another number than was written; write '{given!r}'")
    if isinstance(given, Integral) and not isinstance(given, bool):
        return Fraction(int(given))
    if isinstance(given, Fraction) or (isinstance(given, Decimal) and given.is_finite()):
        return Fraction(given)
    if isinstance(given, str):
        digits = given[1:] if given.startswith("-") else given
        if NUMBER.fullmatch(digits):
            return Fraction(given)
    raise UnfitValue(f"{what}: {given!r} is no number")


def word_of(given: Given, type_name: str, what: str) -> int:
    """The word of a value of a type. UnfitValue, which names the value, where it is none of the type."""
    low, high = range_of(type_name)
    if type_name == "Bool":
        truth = TRUTH.get(given) if isinstance(given, str) else given
        if not isinstance(truth, bool):
            raise UnfitValue(f"{what}: {given!r} is no Bool, which is true or false")
        return int(truth)
    decimals = decimals_of(type_name)
    scale: int = 10 ** (decimals or 0)
    scaled = fraction_of(given, what) * scale
    if scaled.denominator != 1 or (decimals is None and isinstance(given, str) and "." in given):
        wanted = "a whole number" if not decimals else f"a number with at most {decimals} decimals"
        raise UnfitValue(f"{what}: {given!r} is no {type_name}, which is {wanted}")
    if not low <= scaled.numerator <= high:
        least, greatest = (literal_of_word(word, type_name) for word in (low, high))
        raise UnfitValue(f"{what}: {given!r} is out of the range of {type_name}, which is from {least} to {greatest}")
    return scaled.numerator


def literal_of_value(value: Value) -> str:
    """The literal of a value, as a trace has it."""
    if isinstance(value, bool):
        return str(value).lower()
    return f"{value:f}" if isinstance(value, Decimal) else str(value)


def literal_of_word(word: int, type_name: str) -> str:
    """The literal of a word, as a trace and a canonical text have it."""
    return literal_of_value(value_of_word(word, type_name))


def literal_of(given: Given, type_name: str, what: str) -> str:
    return literal_of_word(word_of(given, type_name, what), type_name)


def seconds_of(given: Seconds, what: str) -> Fraction:
    """A time, which is no less than 0."""
    seconds = fraction_of(given, what)
    if seconds < 0:
        raise UnfitValue(f"{what}: {given} is below 0")
    return seconds


def ticks_of(field: str, resolution: int) -> int:
    """The ticks of a time as a trace writes it."""
    return int(field.replace(".", "")) if resolution else int(field)
