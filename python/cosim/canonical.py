"""Reads the canonical text that `print` and `flatten` write, and runs a tool over it."""
from typing import Callable, Dict, Iterable, List, NamedTuple, Optional, Sequence, Tuple

from . import nests
from .program import ask
from .repository import LONGEST_TEXT
from .statuses import Status
from .streams import note, read_input, write_output


class Variable(NamedTuple):
    """A parameter or a state: its name, its type as `Fixed 2`, and the literal that it has or starts with."""

    name: str
    type: str
    value: str


class Port(NamedTuple):
    """A port of an instance: `type` is as `Fixed 2`, and `value` is what a plain input has where nothing is connected."""

    instance: str
    name: str
    is_input: bool
    is_event: bool
    type: str
    value: Optional[str]

    def __str__(self) -> str:
        return f"{self.instance}.{self.name}"


class Unit(NamedTuple):
    """A unit: its name, its parameters and states by name, and its ports in canonical order, which name the unit.

    The unit counts time in 10^-resolution seconds.
    """

    name: str
    resolution: int
    parameters: Dict[str, Variable]
    states: Dict[str, Variable]
    ports: List[Port]


class Instance(NamedTuple):
    """An instance: its name, the name of its unit, and its settings, each a literal by the name of the parameter."""

    name: str
    unit: str
    settings: Dict[str, str]


class System(NamedTuple):
    """What a canonical text has.

    These are the units and the instances by name, all ports of instances, output and input of each connection, the outputs
    that `sample` lines name, and the numbers of the text by their words.
    """

    units: Dict[str, Unit]
    instances: Dict[str, Instance]
    ports: List[Port]
    connections: List[Tuple[Port, Port]]
    samples: List[Port]
    numbers: Dict[str, str]

    @property
    def resolution(self) -> int:
        """The decimals of a second in times of the trace: the finest resolution of a unit that has an instance."""
        return max((self.units[instance.unit].resolution for instance in self.instances.values()), default=0)

    @property
    def columns(self) -> List[Port]:
        """The outputs that the trace shows, in the order of its columns."""
        return self.samples or [port for port in self.ports if not port.is_input]

    def states_of(self, instance: str) -> Dict[str, Variable]:
        return self.units[self.instances[instance].unit].states

    def parameters_of(self, instance: str) -> Dict[str, Variable]:
        return self.units[self.instances[instance].unit].parameters


def read_system(canonical: bytes) -> System:
    """The system that a canonical text describes."""
    nest = nests.read_nest(canonical)
    units = {unit.name: unit_of(unit) for unit in nest.units}
    instances = {read.name: instance_of(read) for read in nest.main.instances}
    of_instances = {name: ports_of(instance, units[instance.unit]) for name, instance in instances.items()}
    ports = {(port.instance, port.name): port for of_instance in of_instances.values() for port in of_instance}
    connections = [(ports[link.start], ports[link.end]) for link in nest.main.connections]
    samples = [ports[link.start] for link in nest.samples]
    numbers = {word: lines[0].tokens[1] for word, lines in nest.numbers.items()}
    return System(units, instances, list(ports.values()), connections, samples, numbers)


def unit_of(read: nests.Unit) -> Unit:
    resolution = next((int(line.tokens[1]) for line in read.lines if line.tokens[0] == "resolution"), 0)
    variables = [(declared.sort, Variable(declared.name, declared.type, declared.literal)) for declared in read.declared.values()]
    parameters, states = ({variable.name: variable for sort, variable in variables if sort == wanted} for wanted in ("param", "state"))
    return Unit(read.name, resolution, parameters, states, [port_of(read.name, declared) for declared in read.declared.values() if declared.is_port])


def port_of(unit: str, declared: nests.Declared) -> Port:
    is_input = declared.sort.endswith("input")
    return Port(unit, declared.name, is_input, declared.is_event, declared.type, (declared.literal or None) if is_input else None)


def instance_of(read: nests.Instance) -> Instance:
    return Instance(read.name, read.unit, {setting.name: setting.literal for setting in read.settings})


def ports_of(instance: Instance, unit: Unit) -> List[Port]:
    return [port._replace(instance=instance.name) for port in unit.ports]


def run(document: Optional[str], words: Sequence[str], lines_of: Callable[[System], Iterable[str]]) -> int:
    """A tool without words: reads a model from standard input, and writes the lines that `lines_of` gives for it. Returns the
    status."""
    usage = (document or "").strip()
    if list(words) in (["--help"], ["-h"], ["help"]):
        write_output(usage)
        return Status.ACCEPTED
    if words:
        note(usage)
        return Status.NO_FORM
    answer = ask("print", read_input(LONGEST_TEXT))
    if answer.line is not None:
        note(f"cosim: line {answer.line}: rule {answer.rule}")
    if answer.status == Status.ACCEPTED:
        write_output("\n".join(lines_of(read_system(answer.output))))
    return answer.status
