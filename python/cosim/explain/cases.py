"""The cures of single cases: of a rule whose cure depends on what the line has, as the tables of docs/RULES.md have it."""
from typing import Optional, Sequence

from ..documents import RULES, rows, section, without_links
from ..lines import Placed, is_part, texts_of
from ..repository import reserved_words

# The cases of rules 4, 7 and 26 that docs/RULES.md has a cure of its own for.
GROUP_AFTER_MAIN = "a line `group` after `main`"
HAS_EVENTS = "the text has event ports"
MAIN_IN_OTHER_FORM = "a line `main` in another form"
GROUP_IN_OTHER_FORM = "a line `group` in another form"
OUTPUT_OF_UNIT = "an output as of a unit in a group"
INPUT_OF_UNIT = "an input as of a unit in a group"
INSTANCE_BY_OTHER_WORD = "an instance by another word in a group"
NO_MAIN = "no line `main`"
SECOND_MAIN = "a second line `main`"
BEFORE_GROUPS = "a line before the first group"
RESERVED = "a reserved word as a name"
OUT_BY_ARROW = "an arrow in an `out` line"
IN_BY_EQUALS = "`=` in an `in` line"
SETTING = "a setting in a group"
WITHIN_INSTANCE = "an `in` or `out` line within an instance"
OF_MAIN = "a line that only `main` has"
NO_FORM = "another line of a group without a form"

# The first words of the forms that are meant by lines of such cases.
MEANT = {OUTPUT_OF_UNIT: "out", INPUT_OF_UNIT: "in", INSTANCE_BY_OTHER_WORD: "instance"}


def case_of(lines: Sequence[bytes], placed: Placed, rule: int) -> Optional[str]:
    """The case of a line that breaks rule 4, 7 or 26, where it is one with a cure of its own."""
    if rule == 4 and is_part(placed.tokens) and any(texts_of(line) == ["main"] for line in lines[: placed.number]):
        return GROUP_AFTER_MAIN
    if rule == 7 and any(texts_of(line)[:1] == ["event"] for line in lines):
        return HAS_EVENTS
    return case_in_groups(lines, placed) if rule == 26 else None


def misspelt_main(lines: Sequence[bytes]) -> int:
    """The line that is meant as `main` and isn't, in a text without `main`; 0 where there is none."""
    texts = [texts_of(line) for line in lines]
    if ["main"] in texts:
        return 0
    meant = (number for number, line in enumerate(texts, 1) if "".join(line).rstrip(":;{").lower() == "main")
    return next(meant, 0)


def case_in_groups(lines: Sequence[bytes], placed: Placed) -> str:
    """The case of a line that isn't allowed in its part."""
    first = placed.tokens[0] if placed.tokens else ""
    if placed.number == misspelt_main(lines):
        return MAIN_IN_OTHER_FORM
    if not any(texts_of(line) == ["main"] for line in lines):
        return NO_MAIN
    if placed.tokens == ["main"]:
        return SECOND_MAIN
    if first == "group":
        return RESERVED if set(placed.tokens[1:2]) & reserved_words() else GROUP_IN_OTHER_FORM
    if not placed.in_group:
        return BEFORE_GROUPS
    if "instance" in placed.blocks:
        return WITHIN_INSTANCE if first in ("in", "out") else SETTING
    if first == "out" and "->" in placed.tokens:
        return OUT_BY_ARROW
    if first == "in" and "=" in placed.tokens:
        return IN_BY_EQUALS
    if first in ("in", "out", "instance", "connect") and set(placed.tokens[1:]) & reserved_words():
        return RESERVED
    if set(placed.tokens[:2]) & {"input", "output"}:
        return OUTPUT_OF_UNIT if "output" in placed.tokens[:2] else INPUT_OF_UNIT
    if placed.tokens[2:3] == [":"] and first not in reserved_words():
        return INSTANCE_BY_OTHER_WORD
    return NO_FORM if first in ("in", "out", "instance", "connect", "end") else OF_MAIN


def cure_of(rule: int, case: str) -> Optional[str]:
    """The cure that docs/RULES.md has for a case of a rule."""
    for row in rows(section(RULES, f"Rule {rule}:"), "case"):
        if row["case"] == case:
            return without_links(row["cure"], RULES)
    return None
