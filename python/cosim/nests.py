"""Reads a text whose lines have forms, with groups or without, and says of which of its lines each line of the flat text
comes."""
from typing import Dict, Iterator, List, NamedTuple, Optional, Sequence, Set, Tuple

from .lines import LONGEST_NAME, Placed, is_part, placed_lines
from .sources import PLAIN, Source

MOST_INSTANCES = 64
MOST_CONNECTIONS = 2_048

# How many ports are looked at until a text is given up, whose groups lead to the same ports by too many ways.
MOST_STEPS = 1_000_000

# The lines of a unit, and the lines of `main` after its connections, in canonical order by their first words.
ORDER_IN_UNIT = ("resolution", "param", "state", "local", "input", "event input", "output", "event output", "max", "step")
ORDER_OF_NUMBERS = ("stop", "longest", "zero", "rows")

End = Tuple[str, str]
Path = Tuple[str, ...]

# The lines by way of which something comes to where it is; and a port that is reached so.
Ways = Tuple[int, ...]
Reached = Tuple[End, Ways]


class Declared(NamedTuple):
    """A line of a unit that declares a name: its sort, the name, its type or nothing, and the tokens of the line."""

    sort: str
    name: str
    type: str
    line: int
    tokens: Tuple[str, ...]

    @property
    def is_event(self) -> bool:
        return self.sort.startswith("event ")

    @property
    def is_port(self) -> bool:
        return self.sort.endswith(("input", "output"))

    @property
    def literal(self) -> str:
        """What is written after the `=`; nothing where there is none."""
        return literal_in(self.tokens)


class Unit(NamedTuple):
    """A unit: its name, its line, all its lines in canonical order, and what it declares by names, the first of each."""

    name: str
    line: int
    lines: Tuple[Placed, ...]
    declared: Dict[str, Declared]

    def ports(self, sort: str) -> List[str]:
        return [name for name, declared in self.declared.items() if declared.sort in (sort, f"event {sort}")]


class Setting(NamedTuple):
    """A setting of an instance: the parameter, the line, and the literal."""

    name: str
    line: int
    literal: str


class Instance(NamedTuple):
    """An instance: its name, its unit or group, its line, its settings, and the lines of its end."""

    name: str
    unit: str
    line: int
    settings: List[Setting]
    last: List[int]


class Link(NamedTuple):
    """A connection, an `in` or `out` line, or a sample, whose ends are ports of instances; an outer port has no instance."""

    start: End
    end: End
    line: int


class Part(NamedTuple):
    """A group, or `main`, whose name is empty: its line, and its instances, links and connections."""

    name: str
    line: int
    instances: List[Instance]
    ins: List[Link]
    outs: List[Link]
    connections: List[Link]
    by_name: Dict[str, Instance]

    def instance(self, name: str) -> Optional[Instance]:
        """The first instance of a name."""
        return self.by_name.get(name)


class Nest(NamedTuple):
    """A text: its groups, `main` with its units and samples, the lines of its header and its numbers by their first words, and
    where it comes from."""

    groups: List[Part]
    main: Part
    units: List[Unit]
    samples: List[Link]
    numbers: Dict[str, List[Placed]]
    group_names: Dict[str, Part]
    unit_names: Dict[str, Unit]
    source: Source

    def group(self, name: str) -> Optional[Part]:
        """The first group of a name."""
        return self.group_names.get(name)

    def unit(self, name: str) -> Optional[Unit]:
        """The first unit of a name."""
        return self.unit_names.get(name)


class Origin(NamedTuple):
    """Of which line a line of the flat text comes, by way of which others, and what the flat line says where that is
    another."""

    line: int
    ways: Ways = ()
    flat: str = ""


class TooLarge(Exception):
    """The flat system is too large, as a line shows."""

    def __init__(self, why: str, line: int) -> None:
        super().__init__(why)
        self.why = why
        self.line = line


class TooManyWays(Exception):
    """The text is given up."""


def read_nest(text: bytes, source: Source = PLAIN) -> Nest:
    """The nest of a text that keeps rules 1 and 3 to 7, and of one with groups also rule 26. Of other texts it has what has a
    form."""
    placed_all = list(placed_lines(text))
    nest = Nest([], empty_part("", 1), [], [], {}, {}, {}, source)
    part = nest.main
    units: List[List[Placed]] = []
    has_parts = any(is_part(placed.tokens) for placed in placed_all)
    after_main = not has_parts
    for placed in placed_all:
        first = placed.tokens[0] if placed.tokens else ""
        if not after_main and is_part(placed.tokens):
            after_main = first == "main"
            part = empty_part("" if after_main else placed.tokens[-1], placed.number)
            if after_main:
                nest = nest._replace(main=part)
            else:
                nest.groups.append(part)
                nest.group_names.setdefault(part.name, part)
        elif first == "unit" and not placed.blocks:
            units.append([placed])
        elif "unit" in placed.blocks:
            units[-1].append(placed)
        elif first:
            read_line(nest, part, placed)
    for lines in units:
        unit = read_unit(lines)
        nest.units.append(unit)
        nest.unit_names.setdefault(unit.name, unit)
    return nest


def empty_part(name: str, line: int) -> Part:
    return Part(name, line, [], [], [], [], {})


def read_line(nest: Nest, part: Part, placed: Placed) -> None:
    """Reads a line of a group or of `main` that is of no unit."""
    tokens, line = placed.tokens + [""] * 8, placed.number
    first = tokens[0]
    if "instance" in placed.blocks:
        instance = part.instances[-1]
        if first == "end":
            instance.last.append(line)
        else:
            instance.settings.append(Setting(first, line, literal_in(placed.tokens)))
    elif first == "instance":
        part.instances.append(Instance(tokens[1], tokens[3], line, [], []))
        part.by_name.setdefault(tokens[1], part.instances[-1])
    elif first == "connect":
        part.connections.append(Link((tokens[1], tokens[3]), (tokens[5], tokens[7]), line))
    elif first == "in":
        part.ins.append(Link(("", tokens[1]), (tokens[3], tokens[5]), line))
    elif first == "out":
        part.outs.append(Link((tokens[3], tokens[5]), ("", tokens[1]), line))
    elif first == "sample":
        nest.samples.append(Link((tokens[1], tokens[3]), ("", ""), line))
    else:
        nest.numbers.setdefault(first, []).append(placed)


def literal_in(tokens: Sequence[str]) -> str:
    """The tokens after the first `=`."""
    return "".join(tokens[tokens.index("=") + 1 :]) if "=" in tokens else ""


def sort_of(placed: Placed) -> str:
    return " ".join(placed.tokens[:2]) if placed.tokens[0] == "event" else placed.tokens[0]


def read_unit(lines: List[Placed]) -> Unit:
    """A unit of its lines: the first has its name, and the last is its end."""
    first, *others = [placed for placed in lines if placed.tokens]
    last = others.pop() if others and others[-1].tokens == ["end"] else None
    by_sort: Dict[str, List[Placed]] = {sort: [] for sort in ORDER_IN_UNIT}
    declared: Dict[str, Declared] = {}
    for placed in others:
        sort = "step" if "step" in placed.blocks else sort_of(placed)
        by_sort.setdefault(sort, []).append(placed)
    for sort, of_sort in by_sort.items():
        for placed in of_sort:
            if ":" in placed.tokens and sort != "step":
                declare(declared, sort, placed)
    order = [placed for of_sort in by_sort.values() for placed in of_sort]
    return Unit(first.tokens[-1], first.number, (first, *order, *([last] if last else [])), declared)


def declare(declared: Dict[str, Declared], sort: str, placed: Placed) -> None:
    """Adds what a line declares, unless a line before it has its name."""
    colon = placed.tokens.index(":")
    name, type_tokens = placed.tokens[colon - 1], placed.tokens[colon + 1 : colon + 3]
    type_name = " ".join(type_tokens) if type_tokens[:1] == ["Fixed"] else "".join(type_tokens[:1])
    declared.setdefault(name, Declared(sort, name, type_name, placed.number, tuple(placed.tokens)))


def links_by_port(links: List[Link], is_out: bool) -> Dict[str, List[Link]]:
    """The `in` lines of a group, or its `out` lines, by the group's port, and of those that lead to one inner port the first."""
    by_port: Dict[str, Dict[End, Link]] = {}
    for link in links:
        outer_end, inner_end = (link.end, link.start) if is_out else (link.start, link.end)
        by_port.setdefault(outer_end[1], {}).setdefault(inner_end, link)
    return {port: list(by_end.values()) for port, by_end in by_port.items()}


class Flat:
    """The flat system of a nest: its instances, its connections and its samples, with their origins.

    Where the groups lead to connections by too many ways it has the first connections alone.
    """

    def __init__(self, nest: Nest) -> None:
        self.nest = nest
        self.steps = 0
        self.ins = {group.name: links_by_port(group.ins, False) for group in nest.group_names.values()}
        self.outs = {group.name: links_by_port(group.outs, True) for group in nest.group_names.values()}
        self.instances: List[Tuple[str, Instance, Origin]] = []
        self.connections: List[Tuple[End, End, Origin]] = []
        self.add_instances(nest.main, (), ())
        try:
            self.add_connections(nest.main, (), ())
            self.is_whole = True
        except TooManyWays:
            self.is_whole = False
        self.samples = [(self.source(nest.main, (), link.start, ()), link.line) for link in nest.samples]

    def step(self) -> None:
        self.steps += 1
        if self.steps > MOST_STEPS:
            raise TooManyWays

    def add_instances(self, part: Part, path: Path, ways: Ways) -> None:
        """The components of a part, depth first."""
        for instance in part.instances:
            self.step()
            name = "_".join((*path, instance.name))
            if len(name) > LONGEST_NAME and self.nest.groups:
                raise TooLarge(f"the component is named `{name}`, which has {len(name)} characters", instance.line)
            group = self.nest.group(instance.unit)
            if group:
                self.add_instances(group, (*path, instance.name), (*ways, instance.line))
                continue
            if len(self.instances) == MOST_INSTANCES and self.nest.groups:
                raise TooLarge(f"`{name}` is the component of number {MOST_INSTANCES + 1}", instance.line)
            self.instances.append((name, instance, Origin(instance.line, ways, f"instance {name} : {instance.unit}")))

    def add_connections(self, part: Part, path: Path, ways: Ways) -> None:
        """The connections of a part, and then those of each group's instance in it, depth first."""
        for link in part.connections:
            start, start_ways = self.source(part, path, link.start, ())
            for end, end_ways in self.targets(part, path, link.end, (), set()):
                if len(self.connections) == MOST_CONNECTIONS and self.nest.groups:
                    raise TooLarge(f"a connection of number {MOST_CONNECTIONS + 1} comes of it", link.line)
                flat = f"connect {start[0]}.{start[1]} -> {end[0]}.{end[1]}"
                self.connections.append((start, end, Origin(link.line, (*ways, *start_ways, *end_ways), flat)))
        for instance in part.instances:
            group = self.nest.group(instance.unit)
            if group:
                self.add_connections(group, (*path, instance.name), (*ways, instance.line))

    def source(self, part: Part, path: Path, end: End, ways: Ways) -> Reached:
        """The output of a component that an output leads from, and the `out` lines on the way."""
        while True:
            instance = part.instance(end[0])
            group = self.nest.group(instance.unit) if instance else None
            links = self.outs[group.name].get(end[1]) if group else None
            if group is None or not links:
                return ("_".join((*path, end[0])), end[1]), ways
            part, path, end, ways = group, (*path, end[0]), links[0].start, (*ways, links[0].line)

    def targets(self, part: Part, path: Path, end: End, ways: Ways, seen: Set[End]) -> Iterator[Reached]:
        """The inputs of components that an input leads to, each once, and the `in` lines on the way."""
        self.step()
        instance = part.instance(end[0])
        group = self.nest.group(instance.unit) if instance else None
        name = "_".join((*path, end[0]))
        if (name, end[1]) in seen:
            return
        seen.add((name, end[1]))
        if group is None:
            yield (name, end[1]), ways
            return
        for link in self.ins[group.name].get(end[1], ()):
            yield from self.targets(group, (*path, end[0]), link.end, (*ways, link.line), seen)

    def origins(self) -> List[Origin]:
        """The origin of each line of the flat text, in its order."""
        nest, origins = self.nest, [Origin(placed.number) for placed in self.nest.numbers.get("cosim", [])[:1]]
        origins += [Origin(placed.number) for unit in nest.units for placed in unit.lines]
        for _, instance, origin in self.instances:
            origins.append(origin)
            origins += [Origin(setting.line, origin.ways) for setting in instance.settings]
            origins += [Origin(line, origin.ways) for line in instance.last]
        origins += [origin for _, _, origin in self.connections]
        if not self.is_whole:
            return origins
        origins += [Origin(placed.number) for word in ORDER_OF_NUMBERS for placed in nest.numbers.get(word, [])]
        origins += [Origin(line, ways, f"sample {end[0]}.{end[1]}") for (end, ways), line in self.samples]
        return origins
