"""Rules 4 and 26: the form of a line in its place, the token at which the line leaves it, and the nearest right line."""
import difflib
import functools
import re
from typing import Iterator, List, NamedTuple, Optional, Sequence, Tuple

from ..documents import RULES, Row, section, tables, without_links
from ..formatting import space
from ..grammar import END, EXPRESSION, LITERAL, NAME, NUMBER_OF_SECONDS, RANKS, TYPE, Fault, Form, fault_at, forms_at
from ..lines import IN_INSTANCE, IN_STEP, IN_UNIT, LARGEST, NUMBER, PLACES, WORD, Placed, Token, tokens_of
from ..repository import reserved_words, type_words

# How many tokens of a line are changed at most where the nearest right line is looked for.
MOST_CHANGES = 2

# The letters of so many forms at most are explained.
MOST_EXPLAINED = 3

# The least likeness of two words where a row about the one is shown for the other.
LEAST_LIKENESS = 0.6

# The signs of forms, by which alone lines aren't alike.
SIGNS = ("", ":", "=", ":=", "->", ".", ",", "(", ")")

# What is often written in place of a sign of a form, and what is often written besides.
MISTAKEN = ("=", ":=", "==", "=>", "->", "<-", "-->", ":", "::", ",")
NEEDLESS = (":", ";", "{", "}", "+", ")")

# Numbers as other languages write them: with an exponent, in another base, or with `_` between digits.
OTHER_NUMBER = re.compile(r"[0-9.]+[eE][0-9]*|0[xXbBoO][0-9A-Fa-f]+|[0-9][0-9_.]*")

# Words that are types in other languages, by which a call is meant to convert.
OTHER_TYPES = ("int", "integer", "double", "float", "real", "single", "decimal", "number", "bool", "boolean", "str", "string")

# What the first column of a row of rule 4 says where its lines alone don't say why they have no form.
CONTINUED = "and the rest in the next line"
IN_VERSION_1 = "in version 1"
TOO_DEEP = "more than 64 levels"

# The letters of forms that stand for something, and what they stand for.
LETTERS = {"T": "a type", "L": "a literal", "e": "an expression", "S": "a number of seconds", "E": "0 to 9"}
LETTERS.update({"Z": "0 to 10,000", "R": "1 to 100,000", "K": "1 to 1,000"})


class Example(NamedTuple):
    """A line of a row of rule 4, with a place where such a line may be meant, and where it leaves the forms there."""

    row: Row
    place: str
    tokens: Tuple[Token, ...]
    fault: Fault


def form_for(placed: Placed, version: int) -> str:
    """The forms that begin as a line does, in its place or else in another one; where none does, all forms of its place."""
    for place in (placed.place, *(other for other in PLACES[:-1] if other != placed.place)):
        begun = begun_forms(placed, place, version)
        if begun:
            return describe_forms(begun, place)
    begun = begun_forms(placed, placed.place, 2)
    if begun:
        return describe_forms(begun, placed.place) + "; this form is of version 2, whose header is `cosim 2`"
    return describe_forms(forms_at(placed.place, version), placed.place)


def begun_forms(placed: Placed, place: str, version: int) -> List[Form]:
    """The forms of a place that begin with the first word of a line, or with a name where that word may be one.

    In another place than its own it may be one only before the sign of the form.
    """
    first, second = (placed.tokens + ["", ""])[:2]
    forms = forms_at(place, version)
    begun = [form for form in forms if form.parts[0] == first and len(first) > 1]
    if len(begun) > 1:
        begun = [form for form in begun if form.parts[1] == second] or begun
    if begun or first in reserved_words() or not WORD.fullmatch(first):
        return begun
    return [form for form in forms if len(form.parts[0]) == 1 and (place == placed.place or second == form.parts[1])]


def describe_forms(forms: Sequence[Form], place: str) -> str:
    if len(forms) > MOST_EXPLAINED:
        return f"{', '.join(f'`{form.text}`' for form in forms)}, {place}"
    letters = ", ".join(f"{letter} is {what}" for letter, what in LETTERS.items() if any(letter in form.parts for form in forms))
    return f"{' or '.join(f'`{form.text}`' for form in forms)}, {place}" + (f"; {letters}" if letters else "")


def describe_fault(tokens: Sequence[Token], fault: Fault, place: str) -> str:
    """What is expected where a line leaves its form."""
    expected = " or ".join(fault.expected)
    if fault.place == len(tokens):
        return f"{expected} is missing at the end of the line"
    found = tokens[fault.place].text
    if set(fault.expected) & {LITERAL, EXPRESSION, NUMBER_OF_SECONDS} and NUMBER.fullmatch(found):
        return f"`{found}` is too large: the digits of a number, without its point, are at most {LARGEST}"
    if not fault.place:
        return f"no line begins with `{found}` {place}"
    if fault.expected == (NAME,) and found in reserved_words():
        return f"`{found}` is a reserved word, and can't be a name"
    if fault.expected == (END,):
        return f"`{found}` can't follow `{tokens[fault.place - 1].text}`"
    return f"{expected} is expected in place of `{found}`"


def describe_group(tokens: Sequence[Token]) -> str:
    """What is expected where a line `group` leaves its form."""
    if len(tokens) == 1:
        return f"{NAME} is missing at the end of the line"
    name, *others = tokens[1:]
    if name.text in reserved_words():
        return f"`{name.text}` is a reserved word, and can't be a name"
    return f"`{others[0].text}` can't follow `{name.text}`" if others and name.is_word else f"{NAME} is expected in place of `{name.text}`"


@functools.lru_cache(maxsize=None)
def examples(version: int) -> Tuple[Example, ...]:
    """The lines of the tables of rule 4, each in the places where such a line may be meant."""
    found: List[Example] = []
    for table in tables(section(RULES, "Rule 4:")):
        for row in table:
            for line in lines_of(row):
                tokens = tokens_of(line.encode())
                for place in places_of(tokens, row["right"]):
                    fault = fault_at(tokens, place, version)
                    if fault:
                        found.append(Example(row, place, tuple(tokens), fault))
    return tuple(found)


def lines_of(row: Row) -> List[str]:
    """The lines without a form that a row has. A row that describes them has none."""
    cell = row.get("line", "")
    return re.findall(r"`([^`]*)`", cell) if cell.startswith("`") else []


def row_that_says(words: str) -> Optional[Row]:
    """The row of rule 4 whose first column has such words."""
    found = (row for table in tables(section(RULES, "Rule 4:")) for row in table if words in row.get("line", ""))
    return next(found, None)


def places_of(line: Sequence[Token], right: str) -> Tuple[str, ...]:
    """The places that an example is about: those where its right lines have a form, and those where it has one in version 2.

    Where there is none of these, it is about those where it goes on furthest.
    """
    others = [tokens_of(other.encode()) for other in re.findall(r"`([^`]*)`", right)]
    places = {place for place in PLACES[:-1] for other in others if texts(other) != ["end"] and fault_at(other, place, 2) is None}
    reached = {place: (fault.place if fault else len(line) + 1) for place in PLACES[:-1] for fault in (fault_at(line, place, 2),)}
    furthest = max(reached.values())
    if furthest > len(line) or (not places and furthest > 1):
        places.update(place for place in reached if reached[place] == furthest)
    return tuple(places or PLACES[:-1])


def texts(tokens: Sequence[Token]) -> List[str]:
    return [token.text for token in tokens]


def kind_of(token: str) -> str:
    """What a token is alike to: names are, numbers are, and words and signs of the language are themselves alone."""
    if token in reserved_words() or not token:
        return token
    if token.lower() in ("true", "false"):
        return "truth value in capitals"
    if WORD.fullmatch(token):
        return "name"
    if NUMBER.fullmatch(token):
        return "number"
    if not token[0].isdigit():
        return token
    if token.endswith("trace"):
        return "number before `trace`"
    return "number of another language" if OTHER_NUMBER.fullmatch(token) else "number with a word"


def found_at(tokens: Sequence[Token], fault: Fault) -> str:
    return tokens[fault.place].text if fault.place < len(tokens) else ""


def before(tokens: Sequence[Token], fault: Fault) -> str:
    return kind_of(tokens[fault.place - 1].text) if fault.place else ""


def is_alike(tokens: Sequence[Token], fault: Fault, example: Example) -> bool:
    """Whether the tokens by which two lines leave their forms are of a kind.

    Names and numbers are, after tokens that are of a kind too; signs are, and ends of lines, in lines that begin alike.
    """
    found, other = found_at(tokens, fault), found_at(example.tokens, example.fault)
    if fault.expected == (NAME,) and {found, other} <= reserved_words():
        return True
    kind = kind_of(found)
    if kind != kind_of(other):
        return False
    if kind in ("name", *KINDS_OF_NUMBERS):
        return before(tokens, fault) == before(example.tokens, example.fault)
    return kind_of(tokens[0].text) == kind_of(example.tokens[0].text)


KINDS_OF_NUMBERS = ("number", "number before `trace`", "number of another language", "number with a word")


def is_telling_token(token: str) -> bool:
    """Whether lines that leave their forms by such a token are alike for that alone."""
    return kind_of(token) not in ("name", "number") and token not in SIGNS


def likeness(tokens: Sequence[Token], fault: Fault, example: Example) -> float:
    """How much a line is like one of the tables, from 0 for not at all.

    Both leave their forms by the same token, which says much unless forms have it too; or by tokens of a kind, after alike ones,
    where the same is expected.
    """
    found, other = found_at(tokens, fault), found_at(example.tokens, example.fault)
    is_expected = fault.expected == example.fault.expected
    is_telling = found == other and is_telling_token(found)
    if not is_telling and not (is_expected and is_alike(tokens, fault, example)):
        return 0
    nearness = nearness_of_words(tokens, fault, example)
    if nearness < LEAST_LIKENESS:
        return 0
    shape, other_shape = ([kind_of(token.text) for token in line] for line in (tokens, example.tokens))
    same_beginning = tokens[0].text == example.tokens[0].text
    likeness_of_shapes = difflib.SequenceMatcher(None, shape, other_shape).ratio()
    return 1 + is_telling + is_expected + nearness + same_beginning + likeness_of_shapes


def nearness_of_words(tokens: Sequence[Token], fault: Fault, example: Example) -> float:
    """How much the words are alike by which two lines leave their forms: the first ones where these begin no form.

    Words of the language may be misspelt, and types may be those of another language. All other names are alike.
    """
    found, first = found_at(tokens, fault), tokens[0].text
    if not fault.place and kind_of(found) == "name":
        return likeness_of_beginnings(tokens, example.tokens)
    if fault.place == 1 and kind_of(first) == "name" and (kind_of(found) == "name" or WORD.fullmatch(found)):
        return alike(first, example.tokens[0].text)
    if found == "(" and fault.place:
        return float(is_type_word(tokens[fault.place - 1].text) == is_type_word(example.tokens[example.fault.place - 1].text))
    return alike(found, found_at(example.tokens, example.fault)) if TYPE in fault.expected and kind_of(found) == "name" else 1


def is_type_word(word: str) -> bool:
    """Whether a word is a type, here or in another language, in any capitals."""
    return word.lower() in (*OTHER_TYPES, *(name.lower() for name in type_words()))


def likeness_of_beginnings(tokens: Sequence[Token], others: Sequence[Token]) -> float:
    """How much two lines that begin with a name are alike: by what looks like a call, or by the word, be it no single
    letter."""
    are_calls = all(len(line) > 1 and line[1].text == "(" for line in (tokens, others))
    if are_calls or len(tokens[0].text) == 1:
        return float(are_calls)
    return alike(tokens[0].text, others[0].text)


def alike(one: str, other: str) -> float:
    return difflib.SequenceMatcher(None, one.lower(), other.lower()).ratio()


def like(tokens: Sequence[Token], placed: Placed, version: int, fault: Fault) -> Optional[Row]:
    """The row of rule 4 whose line is most like this one.

    It is of the same place, or of another one if the token by which both lines leave their forms says enough. A line that goes
    on further in version 2 is compared in that version.
    """
    described = described_row(tokens, placed, version, fault)
    if described:
        return described
    newer = fault_at(tokens, placed.place, 2)
    if version == 1 and newer and newer.place > fault.place:
        version, fault = 2, newer
    others = PLACES[:-1] if fault.place and is_telling_token(found_at(tokens, fault)) else ()
    for places in ((placed.place,), others):
        scored = [(likeness(tokens, fault, example), example.row) for example in examples(version) if example.place in places]
        score, row = max(scored, key=lambda pair: pair[0], default=(0.0, None))
        if score:
            return row
    return None


def described_row(tokens: Sequence[Token], placed: Placed, version: int, fault: Fault) -> Optional[Row]:
    """The row that describes a line in words: one of a form of version 2, one that goes on a line, or one that is too deep."""
    if version == 1 and fault_at(tokens, placed.place, 2) is None:
        return row_that_says(IN_VERSION_1)
    if "an expression of fewer parts within each other" in fault.expected:
        return row_that_says(TOO_DEEP)
    is_continued = not fault.place and tokens[0].text in (*RANKS, "then", ")") and placed.place in (IN_STEP, IN_UNIT)
    return row_that_says(CONTINUED) if is_continued else None


def describe_row(row: Row) -> str:
    return without_links(f"{row['line']}: {row['why']}; right: {row['right']}", RULES)


def nearest(tokens: Sequence[Token], place: str, version: int) -> Optional[str]:
    """The line with a form that differs from a line in the fewest signs, if so few do.

    Nothing that says something is left out, and names and expressions aren't made up.
    """
    reached = [joined(tokens)]
    for _ in range(MOST_CHANGES):
        reached = [other for line in reached for other in changes(line, place, version)]
        for line in reached:
            if fault_at(placed_tokens(line), place, version) is None and has_literal_of_type(line):
                return space(line)
    return None


def has_literal_of_type(line: Sequence[str]) -> bool:
    """Whether the literal of a line that declares has the form of its type; true of all other lines."""
    if line[0] not in ("param", "state", "input") or "=" not in line:
        return True
    type_name, *decimals = line[line.index(":") + 1 : line.index("=")]
    literal = line[-1]
    if type_name == "Bool" or literal in ("true", "false"):
        return type_name == "Bool" and literal in ("true", "false")
    found = NUMBER.fullmatch(literal)
    return found is not None and len(found[2] or "") <= int("".join(decimals) or 0)


def joined(tokens: Sequence[Token]) -> List[str]:
    """The tokens of a line, with signs that stand together, as `=>`, as one."""
    line: List[str] = []
    for place, token in enumerate(tokens):
        follows = place and tokens[place - 1].end == token.start
        if follows and line[-1] + token.text in MISTAKEN:
            line[-1] += token.text
        else:
            line.append(token.text)
    return line


def placed_tokens(line: Sequence[str]) -> List[Token]:
    return [Token(text, place) for place, text in enumerate(line)]


def changes(line: List[str], place: str, version: int) -> Iterator[List[str]]:
    """A line with one change at the token where it leaves its form."""
    fault = fault_at(placed_tokens(line), place, version)
    if fault is None:
        return
    at, found = fault.place, line[fault.place] if fault.place < len(line) else ""
    before, rest = line[:at], line[at + 1 :]
    if at == 0:
        is_misspelt = found not in reserved_words()
        begun = [form.parts[0] for form in forms_at(place, version) if len(form.parts[0]) > 1 and is_misspelt]
        yield from ([word, *rest] for word in difflib.get_close_matches(found.lower(), begun, 1))
        if place == IN_INSTANCE:
            yield rest
        return
    if found == "<-" and line[0] == "connect":
        yield ["connect", *rest, "->", *before[1:]]
        return
    for text in stand_ins(before, found, fault):
        if found in MISTAKEN or text.lower() == found.lower():
            yield [*before, text, *rest]
        if text != ":=" and text not in ("(", "then", "else"):
            yield [*before, text, *line[at:]]
    is_operator = found == "+" and fault.expected not in ((LITERAL,), (EXPRESSION,))
    is_measure = WORD.fullmatch(found) and fault.expected == (END,) and NUMBER.fullmatch(line[at - 1])
    if (found in NEEDLESS and not is_operator) or is_measure or line[0] == "end":
        yield before + rest


def stand_ins(before: Sequence[str], found: str, fault: Fault) -> Iterator[str]:
    """What may be written where something else is expected."""
    for expected in fault.expected:
        if expected == TYPE:
            yield from [word for word in type_words() if word.lower() == found.lower()] if WORD.fullmatch(found) else ["Int64"]
        elif expected == LITERAL and not found:
            yield "false" if "Bool" in before else "0"
        elif expected.startswith("`"):
            yield expected.strip("`")
