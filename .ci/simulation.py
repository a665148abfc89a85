"""A plain model of runs, by docs/LANGUAGE.md: it reads a canonical text, and makes all positions of its run one after the other,
with the negotiation of each step. It shares no code with the program. `.ci/steps` compares both.

Lengths and times are in ticks of the system, except where they are called local.
"""
from __future__ import annotations

import sys
from collections.abc import Iterable, Iterator
from dataclasses import dataclass, field
from typing import NamedTuple, Optional

sys.dont_write_bytecode = True
from expressions import MAX, Action, Compiler, Environment, EventValue, Faulted, Steps, kind_of, needs_in, stored, with_point, word_of_literal
from cosim import nests

# The defaults of `zero` and `rows` by the version, and the most that rows times instances may be.
ZEROS = {1: 100, 2: 1_000}
ROWS = {1: 100_000, 2: 10_000}
MOST_CELLS = 1_000_000

# What may end a run, with the status.
COMPLETED, ZERO_BUDGET, ROW_BUDGET, FAULTED, REFUSED = 0, 6, 7, 8, 9

# The signal of an output: its word, or nothing where it is an event that doesn't occur. A place is an instance with an output.
Signal = Optional[int]
Place = tuple[int, str]
Signals = dict[Place, Signal]
State = dict[str, int]


# ---- What is run


class Output(NamedTuple):
    """An output: its type, what it needs, and its value in an environment."""

    type: str
    is_event: bool
    needs: list[str]
    value: EventValue

    def given(self, env: Environment) -> Signal:
        """Its signal. Faulted where it has none."""
        signal = self.value(env)
        return None if signal is None else stored(self.type, signal)


class Unit(NamedTuple):
    """A unit: its resolution, its declared variables, its outputs, its `max` if it has one, and what its step does."""

    resolution: int
    declared: dict[str, nests.Declared]
    outputs: dict[str, Output]
    limit: Optional[EventValue]
    step: Action

    def names(self, sort: str) -> list[str]:
        return [name for name, declared in self.declared.items() if declared.sort == sort]

    def start(self, sort: str) -> State:
        """The words that variables of a sort begin with."""
        return {name: word_of_literal(self.declared[name].type, self.declared[name].literal) for name in self.names(sort)}


class Moved(NamedTuple):
    """The result of a step: the state after it, and how many local ticks were accepted."""

    state: State
    accepted: int


@dataclass
class Member:
    """An instance: its name, its unit, its parameters, how many ticks of the system its tick has, and the outputs that are
    connected to its inputs."""

    name: str
    unit: Unit
    parameters: State
    factor: int = 1
    sources: dict[str, Place] = field(default_factory=dict)

    def seen(self, signals: Signals, names: Iterable[str]) -> Environment:
        """What it reads at inputs: a plain one without a connection has its start, and an event input no event."""
        env: Environment = {}
        for name in names:
            is_event = self.unit.declared[name].is_event
            if name in self.sources:
                signal = signals[self.sources[name]]
            else:
                signal = None if is_event else word_of_literal(self.unit.declared[name].type, self.unit.declared[name].literal)
            env[name] = signal or 0
            env[f"{name}?"] = int(signal is not None)
        return env

    def inputs(self) -> list[str]:
        return self.unit.names("input") + self.unit.names("event input")

    def is_held(self, time: int, length: int) -> bool:
        return length > 0 and self.local_step(time, length) == 0

    def local_step(self, time: int, length: int) -> int:
        """How many local ticks end in a step."""
        return (time + length) // self.factor - time // self.factor

    def ticks_of(self, time: int, local: int) -> int:
        """The ticks until so many local ticks have ended; 0 for none."""
        return (time // self.factor + local) * self.factor - time if local else 0

    def limit(self, time: int, state: State, signals: Signals) -> Optional[int]:
        """The longest step that it allows, or nothing where it has no limit. Faulted where its `max` is."""
        if self.unit.limit is None:
            return None
        local = self.unit.limit({**self.parameters, **state, **self.seen(signals, self.inputs()), "t": time // self.factor})
        assert local is not None
        if local < 0:
            raise Faulted(MAX)
        return self.ticks_of(time, local)

    def move(self, time: int, length: int, state: State, signals: Signals) -> Optional[Moved]:
        """The result of its step, or nothing where it is held. Faulted where the step is."""
        if self.is_held(time, length):
            return None
        local = self.local_step(time, length)
        env = {**self.parameters, **state, **self.seen(signals, self.inputs()), **dict.fromkeys(self.unit.names("local"), 0)}
        env.update(t=time // self.factor, h=local, accept=local)
        self.unit.step(env)
        return Moved({name: env[name] for name in state}, env["accept"])

    def reply(self, time: int, length: int, moved: Optional[Moved]) -> int:
        """How long a step it accepts, by the result of its step."""
        if moved is None or moved.accepted == self.local_step(time, length):
            return length
        return self.ticks_of(time, moved.accepted)


class System(NamedTuple):
    """What is run: its members, all outputs in the order in which they are solved, the columns of the trace, and its numbers."""

    members: list[Member]
    order: list[Place]
    columns: list[Place]
    resolution: int
    stop: int
    longest: int
    zeros: int
    rows: int

    def seconds(self, ticks: int) -> str:
        """Ticks in seconds, with exactly the decimals of the resolution."""
        return with_point(ticks, self.resolution)

    def output(self, place: Place) -> Output:
        return self.members[place[0]].unit.outputs[place[1]]


def read_unit(read: nests.Unit, version: int) -> Unit:
    compiler = Compiler({name: kind_of(declared.type) for name, declared in read.declared.items()}, version)
    types = {name: declared.type for name, declared in read.declared.items()}
    outputs = {
        name: Output(declared.type, declared.is_event, needs_in(declared.tokens), compiler.event(declared.tokens[declared.tokens.index("=") + 1 :]))
        for name, declared in read.declared.items()
        if declared.sort.endswith("output")
    }
    resolution, limit, in_step = 0, None, []
    for placed in read.lines:
        first, *rest = placed.tokens
        if "step" in placed.blocks:
            in_step.append(placed.tokens)
        elif first == "resolution":
            resolution = int(rest[0])
        elif first == "max":
            limit = compiler.value(rest)
    return Unit(resolution, read.declared, outputs, limit, Steps(compiler, types, in_step).block()[0])


def read_member(read: nests.Instance, unit: Unit) -> Member:
    settings = {setting.name: word_of_literal(unit.declared[setting.name].type, setting.literal) for setting in read.settings}
    return Member(read.name, unit, {**unit.start("param"), **settings})


def read_system(canonical: bytes) -> System:
    """The system of a canonical text without groups."""
    nest = nests.read_nest(canonical)
    version = int(nest.numbers["cosim"][0].tokens[1])
    units = {unit.name: read_unit(unit, version) for unit in nest.units}
    members = [read_member(instance, units[instance.unit]) for instance in nest.main.instances]
    numbers = {name: member for member, name in enumerate(member.name for member in members)}
    resolution = max(member.unit.resolution for member in members)
    for member in members:
        member.factor = 10 ** (resolution - member.unit.resolution)
    for link in nest.main.connections:
        members[numbers[link.end[0]]].sources[link.end[1]] = (numbers[link.start[0]], link.start[1])
    places = [(member, output) for member, one in enumerate(members) for output in one.unit.outputs]
    samples = [(numbers[link.start[0]], link.start[1]) for link in nest.samples]

    def number(name: str, default: int) -> int:
        return int(nest.numbers[name][0].tokens[1]) if name in nest.numbers else default

    def ticks(name: str, default: int) -> int:
        return word_of_literal(f"Fixed {resolution}", nest.numbers[name][0].tokens[1]) if name in nest.numbers else default

    stop = ticks("stop", 0)
    rows = number("rows", min(ROWS[version], MOST_CELLS // len(members)))
    longest, zeros = ticks("longest", stop), number("zero", ZEROS[version])
    return System(members, solving_order(members, places), samples or places, resolution, stop, longest, zeros, rows)


def solving_order(members: list[Member], places: list[Place]) -> list[Place]:
    """All outputs, each after those that it needs."""
    order: dict[Place, None] = {}
    while len(order) < len(places):
        for place in places:
            member = members[place[0]]
            needed = [member.sources[name] for name in member.unit.outputs[place[1]].needs if name in member.sources]
            if place not in order and all(one in order for one in needed):
                order[place] = None
    return list(order)


# ---- How it runs


class Ending(NamedTuple):
    """How a run ends: by which status, what its note says before the point, if there is one, and the member whose fault it is, if it
    is one."""

    status: int
    what: str = ""
    faulted: Optional[str] = None


class Position(NamedTuple):
    """A point, the states of all members there, and the number of its row, from 0."""

    time: int
    index: int
    states: list[State]
    number: int


class AgreedStep(NamedTuple):
    """A step that the members agreed on: its point, the proposed step with what limits it, the agreed step with who shortens it
    and the local ticks that this one accepted, and how many are held."""

    time: int
    index: int
    proposed: int
    limited_by: str
    agreed: int
    shortened_by: str
    accepted: Optional[int]
    held: int


class Stand(NamedTuple):
    """What there is at a position: the signals of all outputs unless one has a fault, the step that is agreed on, if there is
    one, and how the run ends there, if it does."""

    at: Position
    signals: Optional[Signals]
    step: Optional[AgreedStep]
    ending: Optional[Ending]


class Ended(Exception):
    """The run ends at a position."""

    def __init__(self, status: int, what: str = "", faulted: Optional[str] = None) -> None:
        super().__init__(what)
        self.ending = Ending(status, what, faulted)


def fault_of(member: Member, number: int, place: str) -> Ended:
    """The end by a fault of a member."""
    return Ended(FAULTED, f"fault {number} of {member.name} {place}", member.name)


def solve(system: System, states: list[State]) -> Signals:
    """The signals of all outputs. Ended where an output has a fault whose needs have none: the first in the order of the text."""
    signals: Signals = {}
    faults: dict[Place, int] = {}
    for place in system.order:
        number, name = place
        member, output = system.members[number], system.output(place)
        if all(member.sources[need] in signals for need in output.needs if need in member.sources):
            try:
                signals[place] = output.given({**member.parameters, **states[number], **member.seen(signals, output.needs)})
            except Faulted as fault:
                faults[place] = fault.number
    for number, member in enumerate(system.members):
        for name in member.unit.outputs:
            if (number, name) in faults:
                raise fault_of(member, faults[number, name], f"output {name}")
    return signals


def limits(system: System, at: Position, signals: Signals) -> list[Optional[int]]:
    """The limits of all members. Ended by the first fault."""
    found = []
    for member, state in zip(system.members, at.states):
        try:
            found.append(member.limit(at.time, state, signals))
        except Faulted as fault:
            raise fault_of(member, fault.number, "max") from None
    return found


def limiter(system: System, at: Position, found: list[Optional[int]], proposed: int) -> str:
    """What limits the proposed step."""
    for member, limit in zip(system.members, found):
        if limit == proposed:
            return member.name
    return "stop" if system.stop - at.time == proposed else "longest"


def moves(system: System, at: Position, signals: Signals, length: int) -> Iterator[tuple[Member, Optional[Moved]]]:
    """The members with the results of their steps. Ended by the first fault."""
    for member, state in zip(system.members, at.states):
        try:
            yield member, member.move(at.time, length, state, signals)
        except Faulted as fault:
            raise fault_of(member, fault.number, "step") from None


def agree(system: System, at: Position, signals: Signals) -> tuple[AgreedStep, list[Optional[Moved]]]:
    """The step that is agreed on, and the results of the steps of the proposed length. Ended where a fault comes before."""
    found = limits(system, at, signals)
    proposed = min(system.stop - at.time, system.longest, *(limit for limit in found if limit is not None))
    trial = list(moves(system, at, signals, proposed))
    replies = [member.reply(at.time, proposed, moved) for member, moved in trial]
    agreed = min(replies)
    shortener, accepted = "", None
    if agreed < proposed:
        member, moved = trial[replies.index(agreed)]
        assert moved
        shortener, accepted = member.name, moved.accepted
    held = sum(member.is_held(at.time, agreed) for member in system.members)
    limited_by = limiter(system, at, found, proposed)
    step = AgreedStep(at.time, at.index, proposed, limited_by, agreed, shortener, accepted, held)
    return step, [moved for _, moved in trial]


def redo(system: System, at: Position, signals: Signals, length: int) -> list[Optional[Moved]]:
    """The results of the steps that are made again. Ended by the first member that accepts less, or has a fault."""
    results = []
    for member, moved in moves(system, at, signals, length):
        local = member.local_step(at.time, length)
        if moved and moved.accepted < local:
            raise Ended(REFUSED, f"{member.name} refused {local}, accepted {moved.accepted},")
        results.append(moved)
    return results


def after(at: Position, length: int, results: list[Optional[Moved]]) -> Position:
    states = [moved.state if moved else state for state, moved in zip(at.states, results)]
    return Position(at.time + length, 0 if length else at.index + 1, states, at.number + 1)


def run(system: System) -> Iterator[Stand]:
    """All stands of the run, the last of which has its ending."""
    at = Position(0, 0, [member.unit.start("state") for member in system.members], 0)
    while True:
        signals, step = None, None
        try:
            signals = solve(system, at.states)
            if at.time == system.stop:
                raise Ended(COMPLETED)
            if at.number + 1 == system.rows:
                raise Ended(ROW_BUDGET, "row budget")
            step, results = agree(system, at, signals)
            if step.agreed < step.proposed:
                results = redo(system, at, signals, step.agreed)
            if step.agreed == 0 and at.index == system.zeros:
                raise Ended(ZERO_BUDGET, "zero budget")
        except Ended as ended:
            yield Stand(at, signals, step, ended.ending)
            return
        yield Stand(at, signals, step, None)
        at = after(at, step.agreed, results)
