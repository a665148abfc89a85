"""Rules 32, 33 and 36: what is wrong with the position of a saved text, and with a record of a table."""
import csv
import functools
import io
import re
from decimal import Decimal
from typing import Iterator, List, NamedTuple, Optional, Tuple

from ..canonical import System, read_system
from ..grammar import RANGES
from ..lines import LONGEST_NAME, WORD
from ..program import ask
from ..repository import reserved_words
from ..statuses import Status

# The cases that docs/RULES.md has a cure of its own for.
MISSING = "a missing line of a position"
FIRST_LINE = "another first line of a position"
SPACES = "spaces or a comment in a position"
NUMBERS = "a number of a position in another form"
COUNT_OF_WORDS = "another number of words in a position"

NAMES = "other instances, or another order"
COUNTS = "another number of states"
WORDS = "a word out of its type's range"
TIME = "a time past the stop"
INDEX = "an index above the `zero` budget"
ROW = "a row not below the `rows` budget"

FIRST_RECORD = "the first record"
TIMES = "a time"
WORDS_OF_TABLE = "a word of a table"
FIELDS = "another number of fields"
RECORDS = "too few records or too many"

# The budgets of a text without them, by the version; that of rows in version 1 is divided by the instances.
ZERO_BUDGETS = {"1": 100, "2": 1_000}
ROWS_OF_VERSION_2 = 10_000
ROWS_OF_ALL = 1_000_000

MOST_COLUMNS = 16
MOST_TIMES = 20
LATEST = 10**9
LARGEST = 10**15
WHOLE = re.compile(r"-?(0|[1-9][0-9]{0,17})")

# The first lines of a position, and the fourth and later ones, whose words are those of states.
FORMS = ("saved 1", "row N", "at T I")
FORM_OF_STATE = "state A W .."
LONGEST_WORD = 2**63


class Reason(NamedTuple):
    """A line of the input, from 1, what is wrong there, and the case of its cure."""

    line: int
    message: str
    case: str


@functools.lru_cache(maxsize=None)
def range_of(type_name: str) -> Tuple[int, int]:
    """The least and the greatest word of a type."""
    if type_name == "Bool":
        return 0, 1
    bits = int("".join(filter(str.isdigit, type_name))) if "Int" in type_name else 64
    return (0, 2**bits - 1) if type_name.startswith("U") else (-(2 ** (bits - 1)), 2 ** (bits - 1) - 1)


def malformed_position(text: bytes, number: int) -> Optional[Reason]:
    """Which word of a line breaks rule 32."""
    lines = [line.rstrip("\r") for line in text.decode("latin-1").split("\n")]
    form = FORMS[number - 1] if number <= len(FORMS) else FORM_OF_STATE
    line = lines[number - 1] if number <= len(lines) else ""
    first = form.split(" ")[0]
    if line.split()[:1] != [first]:
        case = FIRST_LINE if number == 1 else MISSING
        return Reason(min(number, len(lines)), f"the line `{form}` is missing here", case)
    if line != " ".join(line.split()) or "#" in line:
        return Reason(number, f"the form is `{form}`, with one space between two words", SPACES)
    words = line.split(" ")
    if number == 1:
        return Reason(number, f"the line is `saved 1`, and not `{line}`", FIRST_LINE)
    if (number <= len(FORMS) and len(words) != len(form.split(" "))) or len(words) < 2:
        return Reason(number, f"the form is `{form}`, and here are {len(words)} words", COUNT_OF_WORDS)
    is_state = number > len(FORMS)
    wrong = next((word for word in words[1 + is_state :] if not (is_word_of_state(word) if is_state else is_count(word))), None)
    if wrong is None:
        return None
    limits = "of 64 bits" if is_state else "from 0 to 10^15"
    return Reason(number, f"`{wrong}` is no whole number {limits}, or isn't written in the shortest way", NUMBERS)


def is_count(word: str) -> bool:
    return is_word(word) and not word.startswith("-")


def is_word_of_state(word: str) -> bool:
    return bool(re.fullmatch(r"0|-?[1-9][0-9]{0,18}", word)) and -LONGEST_WORD <= int(word) < LONGEST_WORD


def unfit_position(text: bytes) -> Optional[Reason]:
    """Why a run of the system may stand at no such position: the first of the causes of rule 33, in the order of the lines."""
    lines = [line.rstrip("\r") for line in text.decode("latin-1").split("\n")]
    states = [line for line in lines if line.startswith("state ")]
    states = states[: next((count for count, line in enumerate(lines[3:]) if not line.startswith("state ")), len(states))]
    answer = ask("print", "\n".join(lines[3 + len(states) :]).encode("latin-1"))
    if answer.status != Status.ACCEPTED or not (lines[1].startswith("row ") and lines[2].startswith("at ")):
        return None
    return next(unfit(read_system(answer.output), lines, [line.split(" ")[1:] for line in states]), None)


def row_budget(system: System) -> int:
    """The most rows of a run: the number of the line `rows`, or the default of the version."""
    of_version_2, of_version_1 = ROWS_OF_VERSION_2, min(RANGES["R"][1], ROWS_OF_ALL // max(1, len(system.instances)))
    return int(system.numbers.get("rows", of_version_2 if system.numbers["cosim"] == "2" else of_version_1))


def unfit(system: System, lines: List[str], states: List[List[str]]) -> Iterator[Reason]:
    names, ticks = list(system.instances), 10**system.resolution
    version, numbers = system.numbers["cosim"], system.numbers
    row, (time, index) = int(lines[1].split()[1]), map(int, lines[2].split()[1:3])
    rows = row_budget(system)
    zero, stop = int(numbers.get("zero", ZERO_BUDGETS[version])), Decimal(numbers["stop"]) * ticks
    if row >= rows:
        yield Reason(2, f"the row is {row}, and a run has at most {rows} rows, from 0", ROW)
    if time > stop:
        yield Reason(3, f"the time is {time} ticks, and the stop is at {stop:f}", TIME)
    if index > zero:
        yield Reason(3, f"the index is {index}, and at most {zero} steps of length zero come one after the other", INDEX)
    if [state[0] for state in states] != names:
        place = next((at for at, (state, name) in enumerate(zip(states, names)) if state[0] != name), min(len(states), len(names)))
        wanted = f"the instance `{names[place]}` comes here" if place < len(names) else "there are no more instances"
        yield Reason(4 + min(place, max(len(states) - 1, 0)), wanted, NAMES)
        return
    for line, state in enumerate(states, 4):
        yield from unfit_words(system, line, state)


def unfit_words(system: System, line: int, state: List[str]) -> Iterator[Reason]:
    """What is wrong with the words of an instance's states."""
    types = [variable.type for variable in system.states_of(state[0]).values()]
    if len(state) - 1 != len(types):
        yield Reason(line, f"`{state[0]}` has {len(types)} states, and here are {len(state) - 1} words", COUNTS)
        return
    for word, type_name in zip(state[1:], types):
        low, high = range_of(type_name)
        if not low <= int(word) <= high:
            yield Reason(line, f"`{word}` is no word of `{type_name}`, which has those from {low} to {high}", WORDS)


def records_of(table: bytes) -> Iterator[Tuple[int, List[str]]]:
    """The records of a table, each with the line that it begins at. Empty lines are no records."""
    text = table.decode("latin-1")
    reader = csv.reader(io.StringIO(text[3:] if text.startswith("\xef\xbb\xbf") else text, newline=""))
    csv.field_size_limit(len(text) + 1)
    begun = 1
    for record in reader:
        if record:
            yield begun, record
        begun = reader.line_num + 1


def unfit_record(table: bytes, number: int) -> Optional[Reason]:
    """What is wrong with the record of a number, from 1, of a table for `stimulus`."""
    try:
        records = list(records_of(table))
    except csv.Error:
        return None
    if number > len(records):
        return Reason(records[-1][0] if records else 1, "a record is missing after the last one", RECORDS)
    (line, record), (_, first) = records[number - 1], records[0]
    if number == 1:
        return Reason(line, describe_header(record), FIRST_RECORD)
    if number > MOST_TIMES + 1:
        return Reason(line, f"it is the record of number {number - 1} after the first, and there are at most {MOST_TIMES}", RECORDS)
    if len(record) != len(first):
        return Reason(line, f"it has {len(record)} fields, and the first record has {len(first)}", FIELDS)
    message = describe_time(record[0], records[number - 2][1][0] if number > 2 else None)
    if message:
        return Reason(line, message, TIMES)
    wrong = next((word for word in record[1:] if not is_word(word)), None)
    if wrong is None:
        return None
    return Reason(line, f"`{wrong}` is no whole number from -10^15 to 10^15, or isn't written in the shortest way", WORDS_OF_TABLE)


def is_word(word: str) -> bool:
    return bool(WHOLE.fullmatch(word)) and word != "-0" and abs(int(word)) <= LARGEST


def describe_time(time: str, before: Optional[str]) -> str:
    """What is wrong with a time after another one, or nothing."""
    if not WHOLE.fullmatch(time) or time.startswith("-") or int(time) > LATEST:
        return f"`{time}` is no whole number of seconds from 0 to 1,000,000,000, or isn't written in the shortest way"
    if before is None:
        return "" if time == "0" else f"the first time is 0, and not {time}"
    return "" if int(time) > int(before) else f"the time {time} isn't later than {before}"


def describe_header(names: List[str]) -> str:
    if names[0] != "time":
        return f"it begins with `time`, and not with `{names[0]}`"
    if not 2 <= len(names) <= MOST_COLUMNS + 1:
        return f"after `time` it has 1 to {MOST_COLUMNS} names, and not {len(names) - 1}"
    for place, name in enumerate(names[1:], 1):
        if name in names[1:place]:
            return f"it has the name `{name}` twice"
        if not WORD.fullmatch(name) or len(name) > LONGEST_NAME or name in reserved_words():
            return f"`{name}` is no name" + (", since the word is reserved" if name in reserved_words() else "")
        if re.fullmatch(r"s([0-9]|1[0-5])", name):
            return f"`{name}` is the name of a state of the system that is made"
    return "it has another form"
