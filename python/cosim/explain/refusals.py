"""What there is to say of a refusal: the guilty line, what is wrong with it, and the cure."""
from typing import List, NamedTuple, Optional, Tuple

from ..documents import RULES, read_titles, without_links
from ..grammar import fault_at
from ..lines import IN_GROUP, Placed, placed_lines, split_lines, texts_of, tokens_of
from ..sources import PLAIN, Source
from ..streams import escaped
from . import cases, causes, forms, misplaced, nested, positions
from .inputs import SAVED, has_groups
from .kinds import Cause

# How much of a line is shown, and of what is said of it, in characters.
LONGEST_SHOWN = 200
LONGEST_DETAIL = 1_000

# The rules of lines without a form, at the top of a text and in a group.
WITHOUT_FORM = (4, 26)

# The rules whose cases depend on the place of the line: its block or its part.
OF_PLACES = (4, 5, 7, 26)

# The cases whose cures say all that there is to say of a form.
WITHOUT_DETAILS = (cases.NO_MAIN, cases.SECOND_MAIN, cases.MAIN_IN_OTHER_FORM, cases.BEFORE_GROUPS, cases.GROUP_AFTER_MAIN)


class Advice(NamedTuple):
    """What there is to say of a refusal.

    `line` is the guilty line of the text, or None where no single line of it is, and `rule` the rule that it breaks. `title`
    says what is wrong, and `cure` what mends it. `details` has lines such as `here: ..`, each a word and what it explains.
    """

    line: Optional[int]
    rule: int
    title: str
    cure: str
    details: Tuple[str, ...] = ()


def advice(text: bytes, line: int, rule: int, source: Source = PLAIN) -> Advice:
    """Explains a refusal, by the documents and the text alone, but for rule 33, which asks the program.

    `text` is the text that was refused, as the command read it: a model, one with groups, a saved text, or a table. `line`
    and `rule` are those of the note `cosim: line L: rule R`. Of a text with groups the line may be one of the flat text, as
    `flatten` reports it. `source` says where the text comes from, and how the details name its lines.
    """
    entry = read_titles()[rule]
    title, cure = (without_links(entry[column], RULES) for column in ("what is wrong", "cure"))
    if rule in (32, 33, 36):
        return advice_on_position(text, line, rule, title, cure)
    described: List[str] = []
    found = line
    if has_groups(text) and not SAVED.match(text):
        guilty = nested.guilty(text, line, rule, source)
        if guilty:
            found, described = guilty.line, [*guilty.details]
        elif rule in nested.OF_FLAT_TEXTS:
            return Advice(None, rule, title, cure, (f"here: it is line {line} of the flat text",))
    if rule == 26:
        found = cases.misspelt_main(split_lines(text)) or found
    cause, on_form = cause_of(text, found, rule, source)
    details = (*(f"here: {words}" for words in (*described, *cause.details)), *on_form)
    shortened = tuple(at_a_glance(detail, LONGEST_DETAIL) for detail in details)
    return Advice(found, rule, title, (cause.case and cases.cure_of(rule, cause.case)) or cure, shortened)


def cause_of(text: bytes, line: int, rule: int, source: Source) -> Tuple[Cause, List[str]]:
    """The cause of a refusal, and the lines of advice on the form of a line without one."""
    lines = split_lines(text)
    placed = placed_at(text, line) if rule in OF_PLACES else None
    if placed is None:
        return causes.cause_of(without_position(text), line, rule, source), []
    if rule == 5:
        return misplaced.misplaced(lines, placed, source), []
    case = cases.case_of(lines, placed, rule)
    return Cause(case=case), details_of_form(lines, placed, rule, case)


def without_position(text: bytes) -> bytes:
    """A text with the lines of a saved position as blank lines, so that all others keep their numbers."""
    if not SAVED.match(text):
        return text
    lines = text.split(b"\n")
    count = 3
    while count < len(lines) and lines[count].startswith(b"state "):
        count += 1
    return b"\n" * count + b"\n".join(lines[count:])


def advice_on_position(text: bytes, line: int, rule: int, title: str, cure: str) -> Advice:
    """On a saved position, or on a record of a table, whose number is in the place of a line's."""
    reason = reason_on_position(text, line, rule)
    if reason is None:
        return Advice(None if rule == 36 else line, rule, title, cure)
    detail = at_a_glance(f"here: {reason.message}", LONGEST_DETAIL)
    return Advice(reason.line, rule, title, cases.cure_of(rule, reason.case) or cure, (detail,))


def reason_on_position(text: bytes, line: int, rule: int) -> Optional[positions.Reason]:
    if rule == 32:
        return positions.malformed_position(text, line)
    return positions.unfit_position(text) if rule == 33 else positions.unfit_record(text, line)


def placed_at(text: bytes, line: int) -> Optional[Placed]:
    return next((placed for placed in placed_lines(text) if placed.number == line), None)


def version_of(lines: List[bytes]) -> int:
    """The version of a text, by the first line that begins as a header, in any capitals; and where that has no such version, by
    whether the text has event ports."""
    texts = [texts_of(line) for line in lines]
    header: List[str] = next((tokens for tokens in texts if "".join(tokens[:1]).lower() == "cosim"), [])
    version = header[1].partition(".")[0].lstrip("0") if len(header) > 1 else ""
    if version in ("1", "2"):
        return int(version)
    return 2 if any(tokens[:1] == ["event"] for tokens in texts) else 1


def details_of_form(lines: List[bytes], placed: Placed, rule: int, case: Optional[str]) -> List[str]:
    """Where a line leaves its form, the form, a line of the documents that is like it, and the nearest right line."""
    tokens, version = tokens_of(lines[placed.number - 1]), version_of(lines)
    if rule == 7 or not tokens or case in WITHOUT_DETAILS:
        return []
    if rule == 26 and placed.tokens[0] == "group":
        return [f"here: {forms.describe_group(tokens)}", "form: `group G`, which begins a group"]
    fault = fault_at(tokens, placed.place, version)
    if fault is None:
        return []
    row = forms.like(tokens, placed, version, fault) if placed.place != IN_GROUP else None
    right = forms.nearest(tokens, placed.place, version)
    words = texts_of(right.encode("latin-1")) if right else [cases.MEANT[case]] if case in cases.MEANT else placed.tokens
    meant = placed._replace(tokens=words)
    details = [f"here: {forms.describe_fault(tokens, fault, placed.place)}", f"form: {forms.form_for(meant, version)}"]
    return details + ([f"like it: {forms.describe_row(row)}"] if row else []) + ([f"right: {right}"] if right else [])


def shown(line: bytes) -> str:
    """A line as it can be shown, without the carriage return that belongs to its end."""
    return at_a_glance((line[:-1] if line.endswith(b"\r") else line).decode(errors="backslashreplace"), LONGEST_SHOWN)


def at_a_glance(text: str, longest: int) -> str:
    """A text with each sign that can't be seen by its number, and not more of it than is read at a glance."""
    return escaped(text[:longest]) + (" .." if len(text) > longest else "")
