"""Which line of a text with groups is meant by a refusal that names another one.

Rules 8 to 24 are reported at a line of the flat text, which isn't printed. Each of its lines comes of one line of the text with
groups, so this is found by making the flat text's lines again. Rules 27 to 30 are reported at the first line of a group, or at
`main`: the line inside is the first that breaks the rule as docs/RULES.md has it.
"""
import collections
from typing import Dict, Iterator, NamedTuple, Optional, Sequence, Set, Tuple

from ..nests import End, Flat, Instance, Link, Nest, Origin, Part, TooLarge, read_nest
from ..sources import PLAIN, Source

# The rules that are reported at a line of the flat text.
OF_FLAT_TEXTS = range(8, 25)

# Those that are reported at the first line of a group, or at `main`.
OF_GROUPS = range(27, 31)

# Of more lines on the way the first ones are printed.
MOST_WAYS = 8


class Guilty(NamedTuple):
    """A line of a text with groups, and what is to be said of it."""

    line: int
    details: Tuple[str, ...] = ()


def guilty(text: bytes, line: int, rule: int, source: Source = PLAIN) -> Optional[Guilty]:
    """The line of a text with groups that breaks a rule which is reported at another line; nothing where none can be named.

    `source` says where the text comes from, and how lines of it are named.
    """
    if rule not in OF_FLAT_TEXTS and rule not in OF_GROUPS:
        return None
    nest = read_nest(text, source)
    try:
        if rule in OF_FLAT_TEXTS:
            return guilty_of_flat(nest, line, rule)
        if rule == 27:
            return ill_named(nest, line)
        if rule == 28:
            return leads_back(nest, line)
        if rule == 29:
            part = next((part for part in (*nest.groups, nest.main) if part.line == line), nest.main)
            return min(missing(nest, part), default=None)
        if rule == 30:
            Flat(nest)
    except TooLarge as large:
        return Guilty(large.line, (large.why,))
    return None


def guilty_of_flat(nest: Nest, line: int, rule: int) -> Optional[Guilty]:
    flat = Flat(nest)
    origins = flat.origins()
    if not 1 <= line <= len(origins):
        return None
    origin = origins[line - 1]
    if rule == 8 and origin.flat.startswith("instance "):
        return second_of_a_name(flat, origin)
    return Guilty(origin.line, describe_origin(nest, origin))


def describe_origin(nest: Nest, origin: Origin) -> Tuple[str, ...]:
    """What the flat text has in place of a line with names of groups, and by way of which lines."""
    if not origin.ways:
        return ()
    flat = f"`{origin.flat}`" if origin.flat else "a line"
    return (f"it is {flat} of the flat text, by way of {describe_ways(nest, origin.ways)}",)


def describe_ways(nest: Nest, lines: Sequence[int]) -> str:
    return nest.source.lines(*lines[:MOST_WAYS]) + (", .." if len(lines) > MOST_WAYS else "")


def second_of_a_name(flat: Flat, origin: Origin) -> Guilty:
    """Of two components of one name the second one's line, or that of the instance of a group in which alone they differ."""
    name = origin.flat.split()[1]
    first = next(other for other_name, _, other in flat.instances if other_name == name)
    ours, theirs = (*origin.ways, origin.line), (*first.ways, first.line)
    apart = next((place for place, (our, their) in enumerate(zip(ours, theirs)) if our != their), 0)
    return Guilty(ours[apart], (f"the component `{name}` comes of {flat.nest.source.lines(theirs[apart])} too",))


def ill_named(nest: Nest, line: int) -> Optional[Guilty]:
    """Why the name of a group isn't its own."""
    group = next((group for group in nest.groups if group.line == line), None)
    if group is None:
        return None
    named = [(other.name, other.line) for other in nest.groups] + [(unit.name, unit.line) for unit in nest.units]
    same = next((other for name, other in named if name == group.name and other != line), None)
    if same:
        return Guilty(line, (f"{nest.source.lines(same)} has the name `{group.name}` too",))
    return Guilty(line, ("the group has no instance",))


def leads_back(nest: Nest, line: int) -> Optional[Guilty]:
    """The instance by which a group contains itself, and the instances on the way back."""
    start = next((group for group in nest.groups if group.line == line), None)
    if start is None:
        return None
    reached: Dict[str, Tuple[Part, Instance]] = {}
    waiting = collections.deque([start])
    while waiting and start.name not in reached:
        group = waiting.popleft()
        for instance in group.instances:
            inner = nest.group(instance.unit)
            if inner and inner.name not in reached:
                reached[inner.name] = group, instance
                waiting.append(inner)
    if start.name not in reached:
        return None
    group, instance = reached[start.name]
    ways = [instance.line]
    while group is not start:
        group, instance = reached[group.name]
        ways.append(instance.line)
    first, *others = reversed(ways)
    return Guilty(first, (f"it leads back by way of {describe_ways(nest, others)}",) if others else ())


def missing(nest: Nest, part: Part) -> Iterator[Guilty]:
    """The lines of a part that break rule 29."""
    names: Set[str] = set()
    for link in part.ins:
        if not has_port(nest, part, link.end, "input"):
            yield guilty_of_end(nest, part, link.line, link.end, "input")
    for link in part.outs:
        if not has_port(nest, part, link.start, "output"):
            yield guilty_of_end(nest, part, link.line, link.start, "output")
        if link.end[1] in names:
            yield Guilty(link.line, (f"another `out` line has the name `{link.end[1]}`",))
        names.add(link.end[1])
    for link in part.connections + (nest.samples if part is nest.main else []):
        yield from missing_ends(nest, part, link)
    for instance in part.instances:
        if nest.group(instance.unit) and instance.settings:
            yield Guilty(instance.settings[0].line, (f"`{instance.name}` is of a group, which has no parameters",))


def missing_ends(nest: Nest, part: Part, link: Link) -> Iterator[Guilty]:
    """A connection, or a sample, that ends at a port which a group hasn't."""
    for end, sort in ((link.start, "output"), (link.end, "input")):
        instance = part.instance(end[0])
        if instance and nest.group(instance.unit) and not has_port(nest, part, end, sort):
            yield guilty_of_end(nest, part, link.line, end, sort)
            return


def guilty_of_end(nest: Nest, part: Part, line: int, end: End, sort: str) -> Guilty:
    """The line that names a port which isn't there, or the instance of it where that is of no group and no unit."""
    instance = part.instance(end[0])
    if instance and not nest.group(instance.unit) and not nest.unit(instance.unit):
        uses = f"{nest.source.lines(line)} uses a port of `{instance.name}`"
        return Guilty(instance.line, (f"`{instance.unit}` is neither a group nor a unit; {uses}",))
    return Guilty(line, (describe_missing(nest, part, end, sort),))


def ports_of(nest: Nest, instance: Instance, sort: str) -> Sequence[str]:
    """The inputs or outputs of an instance, be it of a group or of a unit."""
    group, unit = nest.group(instance.unit), nest.unit(instance.unit)
    if group:
        return [link.start[1] for link in group.ins] if sort == "input" else [link.end[1] for link in group.outs]
    return unit.ports(sort) if unit else []


def has_port(nest: Nest, part: Part, end: End, sort: str) -> bool:
    instance = part.instance(end[0])
    return instance is not None and end[1] in ports_of(nest, instance, sort)


def describe_missing(nest: Nest, part: Part, end: End, sort: str) -> str:
    instance = part.instance(end[0])
    if instance is None:
        return f"there is no instance `{end[0]}` here"
    ports = ", ".join(f"`{name}`" for name in dict.fromkeys(ports_of(nest, instance, sort)))
    return f"`{instance.unit}` has no {sort} `{end[1]}`; its {sort}s are {ports}" if ports else f"`{instance.unit}` has no {sort}s"
