"""What a line does that breaks a rule from 1 to 24: which byte, which name, which operand, and which other line."""
import math
from decimal import Decimal
from typing import Callable, Dict, Iterable, Iterator, List, NamedTuple, Optional, Sequence, Tuple

from ..grammar import Leaves, Node, Reader
from ..lines import NUMBER, Placed, Token, split_lines, tokens_of
from ..nests import Declared, End, Flat, Nest, Origin, TooLarge, Unit, read_nest
from ..sources import PLAIN, Source
from .foreign import not_ascii
from .kinds import BOOL, FORM_OF_LITERAL, INT, NO_BOOL, RESULT, Cause, Kinds, Wrong, kind_of_type
from .positions import range_of

# The cases that docs/RULES.md has a cure of its own for, besides those of kinds.
PLAIN_TO_EVENT = "a plain output to an event input"
EVENT_TO_PLAIN = "an event output to a plain input"
OUTPUT_READ = "an output in an expression"
LOCAL_READ = "a local outside of a step"
TIME_IN_OUTPUT = "`t` or `h` in an output"
STEP_IN_MAX = "`h` in a `max` line"
CAPITAL_TRUTH = "`True` or `False` in an expression"
CAPITALS = "a name in other capitals"
PRESENT_OF_PLAIN = "`present` of what is no event input"
STATE_SET = "a state in a setting"
PORT_SET = "a port or a local in a setting"
EXCHANGED = "exchanged ends of a connection"
UNIT_BEFORE_PORT = "the name of a unit before a port"
NO_SYSTEM = "a file without a system"
NO_LENGTH = "`longest` is 0"
TOO_LATE = "a time above 10^15 ticks"

# The most ticks of a time.
MOST_TICKS = 10**15

# What an expression may use besides the parameters, states and inputs of its unit.
USES = {"output": (), "max": ("t",), "step": ("t", "h")}


class Place(NamedTuple):
    """A line that is refused: the text as it was read, the flat system, the line with its tokens, and its unit, if it is in
    one."""

    nest: Nest
    flat: Optional[Flat]
    line: int
    tokens: Tuple[Token, ...]
    unit: Optional[Unit]
    placed: Optional[Placed]

    @property
    def texts(self) -> List[str]:
        return [token.text for token in self.tokens]

    @property
    def sort(self) -> str:
        """The sort of the line: that of a line of a unit, or its first word."""
        if self.placed and "step" in self.placed.blocks:
            return "step"
        return " ".join(self.texts[:2]) if self.texts[:1] == ["event"] else "".join(self.texts[:1])

    def name(self, line: int) -> str:
        """A line as messages name it."""
        return self.nest.source.lines(line)


def cause_of(text: bytes, line: int, rule: int, source: Source = PLAIN) -> Cause:
    """What is to be said of a line that breaks a rule, where something can be said. `source` says how lines are named."""
    lines = split_lines(text)
    if rule == 1 and 1 <= line <= len(lines):
        return not_ascii(lines[line - 1])
    explain = EXPLAINERS.get(rule)
    if not explain or not 1 <= line <= len(lines):
        return Cause()
    nest = read_nest(text, source)
    found = [(unit, placed) for unit in nest.units for placed in unit.lines if placed.number == line]
    unit, placed = found[0] if found else (None, None)
    return explain(Place(nest, flat_of(nest), line, tuple(tokens_of(lines[line - 1])), unit, placed))


def flat_of(nest: Nest) -> Optional[Flat]:
    try:
        return Flat(nest)
    except TooLarge:
        return None


def expression_of(place: Place) -> Optional[Node]:
    """The expression of a line, if it has one."""
    texts = place.texts
    if place.sort in ("output", "event output"):
        begun = texts.index("=") + 1 if "=" in texts else len(texts)
    elif texts[1:2] == [":="]:
        begun = 2
    elif texts[:1] in (["if"], ["accept"], ["max"]):
        begun = 1
    else:
        return None
    reader = Reader(place.tokens, 2)
    reader.place = begun
    try:
        return reader.expression()
    except Leaves:
        return None


def unlike(place: Place) -> Cause:
    """Rule 10: the operand, the result or the literal of another kind."""
    node, declared = expression_of(place), place.unit.declared if place.unit else {}
    if node is None:
        return unlike_literal(place)
    kinds = Kinds(place.tokens, declared)
    try:
        kind = kinds.kind(node, place.sort == "event output")
    except Wrong as wrong:
        return wrong.cause
    first, target = place.texts[0], declared.get(target_of(place))
    if first == "if" and kind != BOOL:
        return Cause((f"{kinds.quoted(node)} is `{kind}`, and the condition of an `if` is a truth value",), kinds.case_of_condition(node))
    if first in ("max", "accept") and kind != INT:
        return Cause((f"{kinds.quoted(node)} is `{kind}`, and `{first}` takes whole numbers",), RESULT)
    if target and kind not in (kind_of_type(target.type), None):
        case = NO_BOOL if target.type == BOOL else RESULT
        return Cause((f"{kinds.quoted(node)} is `{kind}`, and `{target.name}` is `{target.type}`",), case)
    return Cause()


def target_of(place: Place) -> str:
    """The name that a line assigns or declares."""
    texts = place.texts
    return texts[0] if texts[1:2] == [":="] else texts[texts.index(":") - 1] if ":" in texts else ""


def unlike_literal(place: Place) -> Cause:
    """A literal that hasn't the form of its type: of a line that declares, or of a setting."""
    literal = "".join(place.texts[place.texts.index("=") + 1 :]) if "=" in place.texts else ""
    declared = declared_at(place)
    if not declared or not literal:
        return Cause()
    return Cause((f"`{literal}` is no literal of `{declared.type}`",), FORM_OF_LITERAL)


def declared_at(place: Place) -> Optional[Declared]:
    """What a line declares or, in an instance, sets."""
    if place.unit:
        return place.unit.declared.get(target_of(place))
    for instance in place.nest.main.instances:
        if any(setting.line == place.line for setting in instance.settings):
            unit = place.nest.unit(instance.unit)
            return unit.declared.get(place.texts[0]) if unit else None
    return None


def names_in(node: Node, tokens: Sequence[Token]) -> Iterator[str]:
    """The names, and `t` and `h`, that an expression uses; the name that `present` asks about comes after its parenthesis."""
    if node.text == "present":
        yield tokens[node.first + 2].text
    elif not node.parts:
        yield node.text
    for part in node.parts:
        yield from names_in(part, tokens)


def unknown(place: Place) -> Cause:
    """Rule 9: the name that isn't there, or may not be used."""
    if place.unit:
        return unknown_in_unit(place, place.unit)
    flat_ends = [(start, end) for start, end, origin in (place.flat.connections if place.flat else ()) if origin.line == place.line]
    for start, end in flat_ends:
        for port, sort in ((start, "output"), (end, "input")):
            message = describe_end(place, port, sort)
            if message:
                return Cause((message,), case_of_ends(place, start, end))
    for (end, _), line in place.flat.samples if place.flat else ():
        message = describe_end(place, end, "output") if line == place.line else ""
        if message:
            return Cause((message,), UNIT_BEFORE_PORT if is_unit(place, end) else None)
    return unknown_unit(place)


def is_unit(place: Place, end: End) -> bool:
    """Whether an end has the name of a unit in place of an instance's."""
    instances = [name for name, _, _ in place.flat.instances] if place.flat else []
    return end[0] not in instances and place.nest.unit(end[0]) is not None


def case_of_ends(place: Place, start: End, end: End) -> Optional[str]:
    """The case of a connection with an end that isn't there."""
    if is_unit(place, start) or is_unit(place, end):
        return UNIT_BEFORE_PORT
    ports = port_of(place, start), port_of(place, end)
    sorts = [port.sort.split()[-1] if port else "" for port in ports]
    return EXCHANGED if sorts == ["input", "output"] else None


def describe_end(place: Place, end: End, sort: str) -> str:
    """What is wrong with an end of a flat connection, or nothing."""
    instances = place.flat.instances if place.flat else []
    unit_name = next((instance.unit for name, instance, _ in instances if name == end[0]), None)
    if unit_name is None:
        return f"there is no instance `{end[0]}`"
    unit = place.nest.unit(unit_name)
    if unit is None or end[1] in unit.ports(sort):
        return ""
    if end[1] in unit.declared:
        return f"`{end[1]}` of `{unit_name}` is declared by `{unit.declared[end[1]].sort}`, and not as an {sort}"
    ports = ", ".join(f"`{name}`" for name in unit.ports(sort))
    return f"`{unit_name}` has no {sort} `{end[1]}`" + (f"; its {sort}s are {ports}" if ports else "")


def unknown_unit(place: Place) -> Cause:
    for part in (*place.nest.groups, place.nest.main):
        for instance in part.instances:
            if instance.line == place.line:
                names = ", ".join(f"`{unit.name}`" for unit in place.nest.units)
                message = f"there is no unit `{instance.unit}`; there are {names}" if names else "the text has no unit"
                return Cause((message,), case_of_capitals(instance.unit, place.nest.unit_names))
            unit = place.nest.unit(instance.unit)
            for name, line, _ in instance.settings:
                if line == place.line and unit:
                    parameters = ", ".join(f"`{declared.name}`" for declared in unit.declared.values() if declared.sort == "param")
                    message = f"`{unit.name}` has no parameter `{name}`" + (f"; it has {parameters}" if parameters else "")
                    return Cause((message,), case_of_setting(unit, name))
    return Cause()


def case_of_setting(unit: Unit, name: str) -> Optional[str]:
    """The case of a setting that isn't of a parameter."""
    declared = unit.declared.get(name)
    if declared:
        return STATE_SET if declared.sort == "state" else PORT_SET
    return case_of_capitals(name, [other.name for other in unit.declared.values() if other.sort == "param"])


def case_of_capitals(name: str, others: Iterable[str]) -> Optional[str]:
    """The case of a name that is there in other capitals."""
    return CAPITALS if name.lower() in [other.lower() for other in others] else None


def unknown_in_unit(place: Place, unit: Unit) -> Cause:
    texts = place.texts
    if "needs" in texts:
        for need in texts[texts.index("needs") + 1 : texts.index("=")]:
            if need != "," and need not in unit.ports("input"):
                return Cause((f"`{need}`, which the output needs, is no input of `{unit.name}`",), case_of_capitals(need, unit.ports("input")))
    if texts[1:2] == [":="] and texts[0] not in unit.declared:
        return Cause((f"`{texts[0]}`, which is assigned, isn't declared in `{unit.name}`",), case_of_capitals(texts[0], unit.declared))
    node = expression_of(place)
    for name in names_in(node, place.tokens) if node else ():
        message = describe_use(place, unit, name)
        if message:
            return Cause((message,), case_of_use(place, unit, name))
    return Cause()


def case_of_use(place: Place, unit: Unit, name: str) -> Optional[str]:
    """The case of a name that an expression may not use."""
    if name in ("t", "h"):
        return STEP_IN_MAX if place.sort == "max" else TIME_IN_OUTPUT
    declared = unit.declared.get(name)
    if declared is None:
        return CAPITAL_TRUTH if name.lower() in ("true", "false") else case_of_capitals(name, unit.declared)
    if declared.sort.endswith("output"):
        return OUTPUT_READ
    return LOCAL_READ if declared.sort == "local" and place.sort != "step" else PRESENT_OF_PLAIN


def describe_use(place: Place, unit: Unit, name: str) -> str:
    """Why an expression may not use a name, or nothing."""
    where = place.sort.split()[-1]
    said = {"output": "an output", "max": "`max`", "step": "a step"}.get(where, where)
    if name in ("t", "h"):
        return "" if name in USES.get(where, ()) else f"`{name}` can't be used in {said}"
    if NUMBER.fullmatch(name) or name in ("true", "false", "absent"):
        return ""
    declared = unit.declared.get(name)
    if declared is None:
        return f"`{name}` isn't declared in `{unit.name}`"
    if declared.sort.endswith("output"):
        return f"`{name}` is an output, which no expression can use"
    if declared.sort == "local" and where != "step":
        return f"`{name}` is a local, which {said} can't use"
    is_asked = any(
        place.texts[at : at + 3] == ["present", "(", name] for at in range(len(place.texts))
    )
    return f"`{name}` is no event input, and `present` asks of event inputs" if is_asked and not declared.is_event else ""


def twice(place: Place) -> Cause:
    """Rule 8: the line that has the name first."""
    nest, name = place.nest, target_of(place)
    others: List[int] = []
    if place.unit and place.line != place.unit.line:
        declared = place.unit.declared.get(name)
        others = [declared.line] if declared else []
    elif place.unit:
        name = place.unit.name
        others = [unit.line for unit in nest.units if unit.name == name]
    else:
        others = [instance.line for instance in nest.main.instances if instance.name == name]
    other = next((line for line in others if line != place.line), None)
    return Cause((f"{place.name(other)} declares `{name}` too",)) if other else Cause()


def lacking(place: Place) -> Cause:
    """Rule 12: the input that an output uses and doesn't need."""
    node, texts = expression_of(place), place.texts
    needs = texts[texts.index("needs") + 1 : texts.index("=")] if "needs" in texts else []
    inputs = place.unit.ports("input") if place.unit else []
    used = [name for name in (names_in(node, place.tokens) if node else ()) if name in inputs and name not in needs]
    if not used:
        return Cause()
    wanted = ", ".join(dict.fromkeys([need for need in needs if need != ","] + used))
    return Cause((f"the output uses the input `{used[0]}`; write `needs {wanted}` before the `=`",))


def connected_before(place: Place) -> Cause:
    """Rule 13: the connection that leads to the same input."""
    ends: Dict[End, Origin] = {}
    for _, end, origin in place.flat.connections if place.flat else ():
        if end in ends and origin.line == place.line:
            return Cause((f"{place.name(ends[end].line)} leads to `{end[0]}.{end[1]}` too",))
        ends.setdefault(end, origin)
    return Cause()


def port_of(place: Place, end: End) -> Optional[Declared]:
    for name, instance, _ in place.flat.instances if place.flat else ():
        unit = place.nest.unit(instance.unit)
        if name == end[0] and unit:
            return unit.declared.get(end[1])
    return None


def describe_port(place: Place, end: End, declared: Declared) -> str:
    return f"`{end[0]}.{end[1]}` is `{declared.sort} {declared.name} : {declared.type}`, {place.name(declared.line)}"


def unequal(place: Place) -> Cause:
    """Rule 14: the types of both ends."""
    for start, end, origin in place.flat.connections if place.flat else ():
        if origin.line != place.line:
            continue
        ours, theirs = port_of(place, start), port_of(place, end)
        if ours and theirs and (ours.type != theirs.type or ours.is_event != theirs.is_event):
            ends = [describe_port(place, start, ours), describe_port(place, end, theirs)]
            case = None if ours.is_event == theirs.is_event else EVENT_TO_PLAIN if ours.is_event else PLAIN_TO_EVENT
            return Cause((", and ".join(ends),), case)
    return Cause()


def cycle(place: Place) -> Cause:
    """Rule 15: outputs that need each other, and the connections between them."""
    needs = needs_of(place)
    start = next((output for output in needs if cycle_from(output, needs)), None)
    if start is None:
        return Cause()
    ring = cycle_from(start, needs)
    needed = (f"`{output[0]}.{output[1]}` needs `{source[0]}.{source[1]}` ({place.name(line)})" for output, source, line in ring)
    return Cause((", ".join(needed),))


Step = Tuple[End, End, int]


def needs_of(place: Place) -> Dict[End, List[Step]]:
    """The outputs that each output needs, with the line of the connection."""
    sources = {end: (start, origin.line) for start, end, origin in (place.flat.connections if place.flat else ())}
    needs: Dict[End, List[Step]] = {}
    for name, instance, _ in place.flat.instances if place.flat else ():
        unit = place.nest.unit(instance.unit)
        for declared in unit.declared.values() if unit else ():
            if not declared.sort.endswith("output"):
                continue
            texts = list(declared.tokens)
            inputs = texts[texts.index("needs") + 1 : texts.index("=")] if "needs" in texts else []
            found = [sources[name, port] for port in inputs if (name, port) in sources]
            needs[name, declared.name] = [((name, declared.name), source, line) for source, line in found]
    return needs


def cycle_from(start: End, needs: Dict[End, List[Step]]) -> List[Step]:
    """The shortest way by which an output needs itself, or nothing."""
    ways: Dict[End, List[Step]] = {start: []}
    waiting = [start]
    while waiting:
        output = waiting.pop(0)
        for step in needs.get(output, ()):
            if step[1] == start:
                return [*ways[output], step]
            if step[1] not in ways:
                ways[step[1]] = [*ways[output], step]
                waiting.append(step[1])
    return []


def assigned(place: Place) -> Cause:
    """Rule 22: what is assigned."""
    declared = place.unit.declared.get(place.texts[0]) if place.unit else None
    return Cause((f"`{declared.name}` is declared by `{declared.sort}` at {place.name(declared.line)}",)) if declared else Cause()


def out_of_range(place: Place) -> Cause:
    """Rule 11: the range of the type."""
    declared = declared_at(place)
    if not declared or "=" not in place.texts:
        return Cause()
    literal = "".join(place.texts[place.texts.index("=") + 1 :])
    low, high = range_of(declared.type)
    words = f"the words of `{declared.type}` are {low} to {high}"
    return Cause((f"{words}, and `{literal}` has another one",))


def costly(place: Place) -> Cause:
    """Rule 18: the line of a step that is repeated most."""
    if place.unit is None or place.sort != "step":
        return Cause()
    counts: List[int] = []
    most, most_line = 1, 0
    for placed in place.unit.lines:
        if "step" not in placed.blocks:
            continue
        first = placed.tokens[0]
        if first in ("if", "repeat"):
            counts.append(int(placed.tokens[1]) if first == "repeat" else 1)
        elif first == "end" and counts:
            counts.pop()
        elif math.prod(counts) > most:
            most, most_line = math.prod(counts), placed.number
    return Cause((f"{place.name(most_line)} is repeated {most:,} times in a step",)) if most_line else Cause()


def without_stop(place: Place) -> Cause:
    """Rule 19: whether the text is a part of a model, which has its system in another file."""
    nest = place.nest
    has_system = nest.main.instances or nest.main.connections or nest.samples or len(nest.numbers) > 1
    return Cause() if has_system else Cause(("the text has no instance and no other line of a system",), NO_SYSTEM)


def no_ticks(place: Place) -> Cause:
    """Rule 20: the length of a tick, and the time."""
    if place.texts[:1] not in (["stop"], ["longest"]) or len(place.texts) != 2:
        return Cause()
    time, exponent = Decimal(place.texts[1]), finest_resolution(place)
    tick = f"a tick is {Decimal(1).scaleb(-exponent):f} seconds" if exponent else "a tick is a second"
    if not time:
        return Cause(("the longest step has a length above 0",), NO_LENGTH)
    if time.scaleb(exponent) > MOST_TICKS:
        return Cause((f"{tick}, and a time has at most 10^15 ticks",), TOO_LATE)
    return Cause((f"{tick}, and `{place.texts[1]}` is no whole number of ticks",))


def finest_resolution(place: Place) -> int:
    """The greatest resolution of the units that have an instance."""
    units = {unit.name: unit for _, instance, _ in (place.flat.instances if place.flat else ()) for unit in [place.nest.unit(instance.unit)] if unit}
    lines = [placed.tokens for unit in units.values() for placed in unit.lines]
    return max((int(tokens[1]) for tokens in lines if tokens[:1] == ["resolution"] and len(tokens) == 2), default=0)


EXPLAINERS: Dict[int, Callable[[Place], Cause]] = {8: twice, 9: unknown, 10: unlike, 12: lacking, 13: connected_before}
EXPLAINERS.update({11: out_of_range, 14: unequal, 15: cycle, 18: costly, 19: without_stop, 20: no_ticks, 22: assigned})
