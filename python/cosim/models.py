"""Models: their parts, their settings and their runs."""
import functools
import os
import re
from dataclasses import dataclass
from fractions import Fraction
from typing import Dict, Iterable, Iterator, List, Mapping, NamedTuple, Optional, Sequence, Tuple, Union

from .canonical import Instance, Port, System, Unit, Variable, read_system
from .errors import CosimError, UnfitValue, UnknownName
from .explain.inputs import has_groups
from .explain.positions import row_budget
from .nests import read_nest
from .outcomes import STOPPED, Outcome
from .program import Called
from .repository import LONGEST_SAVED, LONGEST_TEXT
from .running import Table, Watch, ask_program, judge, read_trace, started, trace_of, watch_of, watch_trace
from .settings import Template, literal_of_stop, nearest, paths_of, set_in_instance, set_in_unit, template_of, value_of_literal
from .sources import FileLine, Source
from .statuses import Status
from .steps import StepLog, StepSummary, read_log, read_summary
from .streams import Path, read_at_most, read_file
from .traces import Row, Trace, header_of, require_header
from .values import Given, Seconds, Value, literal_of, seconds_of, value_of_word

# The most bytes of a field of a trace with its comma: a sign, twenty digits and a point; and of what ends a line, after a
# byte-order mark perhaps.
LONGEST_FIELD = 23
LONGEST_END = 5

WHOLE = rb"(0|[1-9]\d{0,15})"
POSITION = re.compile(
    rb"saved 1\r?\nrow " + WHOLE + rb"\r?\nat " + WHOLE + rb" " + WHOLE + rb"\r?\n((?:state \w+(?: -?\d{1,20})*\r?\n)*)(?!state )"
)


@dataclass(frozen=True)
class Verdict:
    """Whether a table is the trace of a model. Where it isn't, the first record and field that differ, from 1."""

    same: bool
    record: Optional[int] = None
    field: Optional[int] = None

    def __bool__(self) -> bool:
        return self.same


@dataclass(frozen=True)
class Saved:
    """A position of a run: its row, its time in ticks and its index, and the words of the states by component.

    `text` is the saved text, as the program writes it, and `model` the model after the position.
    """

    text: bytes
    row: int
    ticks: int
    index: int
    words: Dict[str, Tuple[int, ...]]
    model: "Model"

    @classmethod
    def from_text(cls, text: Union[str, bytes], name: str = "saved text") -> "Saved":
        """The position that a saved text has. Refused where it has none or is too long, and TypeError where it is no text."""
        data = bytes_of(text)
        found = POSITION.match(data)
        if not found or len(data) > LONGEST_SAVED:
            ask_program(["resume"], data, Source(name))
            raise UnfitValue(f"{name}: it has no position")
        lines = [line.split() for line in found[4].decode().splitlines()]
        words = {line[1]: tuple(map(int, line[2:])) for line in lines}
        return cls(data, int(found[1]), int(found[2]), int(found[3]), words, Model(data[found.end() :], name))

    @classmethod
    def read(cls, path: Path) -> "Saved":
        """The position that a file has. OSError where it can't be read, and Refused where it has none."""
        return cls.from_text(read_file(path, LONGEST_SAVED), os.fsdecode(path))

    @property
    def position(self) -> bytes:
        """The lines before the model."""
        return self.text[: len(self.text) - len(self.model.text)]

    @property
    def time(self) -> Fraction:
        """The time in seconds."""
        return Fraction(self.ticks, 10**self.model.system.resolution)

    @property
    def states(self) -> Dict[str, Dict[str, Value]]:
        """The value of each state, by the name of its component and its own."""
        system = self.model.system
        return {component: values_of(words, system.states_of(component).values()) for component, words in self.words.items()}


def values_of(words: Iterable[int], variables: Iterable[Variable]) -> Dict[str, Value]:
    return {variable.name: value_of_word(word, variable.type) for word, variable in zip(words, variables)}


# The words of a run without an option.
PLAIN_RUN = ("run", "--workers", "0")


class Prepared(NamedTuple):
    """A model that is to run with many literals of some parameters: its canonical text with places for them, where that comes from,
    and the table that its runs write. It is small, so that it goes from process to process."""

    template: Template
    source: Source
    table: Table

    def run(self, literals: Sequence[str]) -> Trace:
        """The trace with these literals, one for each parameter, which have to be those of its type. Refused as by `Model.run`."""
        return read_trace(PLAIN_RUN, self.template.text_of(literals), self.source, self.table)


class Model:
    """A model. No method changes it: those that set something return another model.

    `text` is the text as it was given, with groups or without, and `name` what errors call it. A text is judged when it is
    first needed; `check` judges it at once. `source` says where the text comes from, if it isn't `name` alone.
    """

    def __init__(self, text: bytes, name: str = "model", source: Optional[Source] = None) -> None:
        self.text = text
        self.source = source or Source(name)
        self.name = self.source.name
        # Where something was set: the canonical text with it, and the components of the text that it was set in.
        self._edited: Optional[bytes] = None
        self._components: Optional[Dict[str, str]] = None

    @classmethod
    def read(cls, path: Path) -> "Model":
        """The model in a file. OSError where it can't be read. Of a file that is too long so much is read that it is refused."""
        return cls(read_file(path, LONGEST_TEXT), source=source_of(path))

    @classmethod
    def from_text(cls, text: Union[str, bytes], name: str = "model") -> "Model":
        """The model of a text. TypeError where it is none."""
        return cls(bytes_of(text), name)

    @classmethod
    def stimulus(cls, table: Union[str, bytes], name: str = "table") -> "Model":
        """The model that plays a table, as `cosim stimulus` makes it. Refused where the table has another form."""
        return cls(ask_program(["stimulus"], bytes_of(table), Source(name)), name)

    @property
    def has_groups(self) -> bool:
        return has_groups(self.text)

    @functools.cached_property
    def canonical(self) -> bytes:
        """The canonical text, made flat where the model has groups. Refused where a rule is broken."""
        if self._edited is not None:
            return self._edited
        return ask_program(["flatten" if self.has_groups else "print"], self.text, self.source)

    @property
    def runnable(self) -> bytes:
        """The text that is run. Where it may be, it is the one that was given, so that a refusal names its lines."""
        return self.canonical if self.has_groups or self._edited is not None else self.text

    @property
    def source_of_runnable(self) -> Source:
        """Where the text that is run comes from: lines of a canonical text aren't those of a file."""
        return self.source if self.runnable is self.text else self.source_of_canonical

    @property
    def source_of_canonical(self) -> Source:
        """What messages call the canonical text."""
        return Source(f"canonical text of {self.name}")

    def origin(self, line: int) -> FileLine:
        """The file and the line there that a line of `text` comes from, as the program counts lines. UnknownName where there is
        none."""
        found = self.source.origin(line) if 1 <= line <= self.text.count(b"\n") + 1 else None
        if found is None:
            raise UnknownName(f"{self.name}: line {line} comes from no file")
        return found

    @functools.cached_property
    def system(self) -> System:
        """The parts of the canonical text."""
        return read_system(self.canonical)

    def check(self) -> None:
        """Judges the model. Refused where it breaks a rule."""
        ask_program(["check"], self.runnable, self.source_of_runnable)

    @property
    def units(self) -> Dict[str, Unit]:
        """The units by name, with their parameters, states and ports."""
        return dict(self.system.units)

    @property
    def instances(self) -> Dict[str, Instance]:
        """The components by name, with their unit and their settings. Within groups a name is as `power_battery`."""
        return dict(self.system.instances)

    @property
    def ports(self) -> List[Port]:
        """The ports of all components."""
        return list(self.system.ports)

    @property
    def connections(self) -> List[Tuple[Port, Port]]:
        """The output and the input of each connection."""
        return list(self.system.connections)

    @property
    def stop(self) -> Fraction:
        """The time at which a run ends, in seconds."""
        return Fraction(self.system.numbers["stop"])

    @functools.cached_property
    def components(self) -> Dict[str, str]:
        """The name of each component by its path, as `power.battery` within groups."""
        if self._components is not None:
            return self._components
        if not self.has_groups:
            return {name: name for name in self.system.instances}
        self.canonical  # A text that is refused may have groups that contain themselves.
        nest = read_nest(self.text)
        return {".".join(path): "_".join(path) for path in paths_of(nest, nest.main, ())}

    def parameter(self, name: str) -> Value:
        """The value of a parameter, as "plate.cooling"."""
        component, variable = self.find_parameter(name)
        literal = self.system.instances[component].settings.get(variable.name, variable.value)
        return value_of_literal(literal, variable.type, name)

    def find_parameter(self, name: str) -> Tuple[str, Variable]:
        """The component and the parameter that a name such as "power.battery.size" means."""
        path, _, parameter = name.rpartition(".")
        if path not in self.components:
            raise UnknownName(f"{name}: there is no component {path!r}{nearest(path, self.components)}")
        component = self.components[path]
        parameters = self.system.parameters_of(component)
        if parameter not in parameters:
            unit = self.system.instances[component].unit
            raise UnknownName(f"{name}: the unit {unit} has no parameter {parameter!r}{nearest(parameter, parameters)}")
        return component, parameters[parameter]

    def set(self, name: str, value: Given) -> "Model":
        """This model with another value of a component's parameter: `set("plate.cooling", "0.60")`.

        Within groups the name has the path of the component: `set("power.battery.size", "60.00")`. UnknownName where there is
        no such parameter, and UnfitValue where the value is none of its type.
        """
        return self.set_all({name: value})

    def set_all(self, values: Mapping[str, Given]) -> "Model":
        """This model with other values of several parameters, as `set` sets one."""
        lines = self.canonical.splitlines()
        for name, value in values.items():
            component, variable = self.find_parameter(name)
            set_in_instance(lines, component, variable.name, literal_of(value, variable.type, name))
        return self.edited(lines)

    def prepared(self, names: Sequence[str]) -> Prepared:
        """This model with places for other literals of these parameters, whose names are as of `set`. UnknownName where there is no
        such parameter."""
        found = [self.find_parameter(name) for name in names]
        places = [(component, variable.name) for component, variable in found]
        return Prepared(template_of(self.canonical, places), self.source_of_canonical, self.table())

    def set_unit(self, unit: str, parameter: str, value: Given) -> "Model":
        """This model with another value of a unit's parameter, which all its instances have that don't set it."""
        if unit not in self.system.units:
            raise UnknownName(f"there is no unit {unit!r}{nearest(unit, self.system.units)}")
        parameters = self.system.units[unit].parameters
        if parameter not in parameters:
            raise UnknownName(f"the unit {unit} has no parameter {parameter!r}{nearest(parameter, parameters)}")
        name, type_name, _ = parameters[parameter]
        lines = self.canonical.splitlines()
        set_in_unit(lines, unit, name, type_name, literal_of(value, type_name, f"{unit}.{parameter}"))
        return self.edited(lines)

    def set_stop(self, seconds: Seconds) -> "Model":
        """This model with another stop, in seconds: from 0 to 10^15 ticks, and with at most nine decimals, or else UnfitValue.

        The run judges whether it is a whole number of ticks (rule 20).
        """
        literal = literal_of_stop(seconds, self.system.resolution)
        lines = self.canonical.splitlines()
        place = next(number for number, line in enumerate(lines) if line.startswith(b"stop "))
        lines[place] = b"stop " + literal.encode()
        return self.edited(lines)

    def edited(self, lines: Sequence[bytes]) -> "Model":
        """The model whose canonical text has these lines."""
        model = Model(self.text, source=self.source)
        model._edited = b"\n".join(lines) + b"\n"
        model._components = self.components
        return model

    def flatten(self) -> "Model":
        """The model of components that a text with groups describes, in its canonical form."""
        return Model(self.canonical, self.name)

    def upgrade(self) -> "Model":
        """The same model in version 2 of the language."""
        return Model(ask_program(["upgrade"], self.runnable, self.source_of_runnable), self.name)

    def table(self, has_header: bool = True) -> Table:
        return Table(self.system.columns, self.system.resolution, self.stop, has_header)

    def run(
        self,
        workers: int = 0,
        window: Optional[int] = None,
        guess: Optional[str] = None,
        until: Optional[Seconds] = None,
        progress: Union[bool, Watch] = False,
    ) -> Trace:
        """The trace of this model.

        `workers` (0 to 16), `window` (0 to 16) and `guess` ("hold" or "linear") are options of `cosim run`, which change no
        byte of the trace. `until` is a time in seconds: rows after it aren't read, and where there are any the outcome is
        "stopped". `progress` is True for a bar, or a function of the time of the last row and of the stop, in seconds;
        where the function returns True the run is stopped.

        A run that ends early has a trace too, up to its end: see `Trace.outcome` and `Trace.require_completed`. Refused where
        the model breaks a rule, and UnfitValue where an option has no such value.
        """
        words = run_words(workers, window, guess)
        limit = None if until is None else seconds_of(until, "until")
        with watch_of(progress, self.stop) as watch:
            if limit is None and watch is None:
                trace = read_trace(words, self.runnable, self.source_of_runnable, self.table())
            else:
                trace = watch_trace(words, self.runnable, self.source_of_runnable, self.table(), limit, watch)
        trace._model = self
        return trace

    def steps(self) -> StepLog:
        """The step log of this model, as `cosim-steps` prints it: why each step of its run is as long as it is.

        A run that ends early has a log too, up to its end: see `StepLog.outcome`. Refused where the model breaks a rule, and
        NoProgram where there is no program cosim-steps.
        """
        return read_log(self.runnable, self.source_of_runnable, self.system.resolution)

    def step_summary(self) -> StepSummary:
        """The summary of the step log, as `cosim-steps --summary` prints it: how many steps each component limits and shortens, with
        those first that are to be looked at first.

        A run that ends early has a summary too, of the steps up to its end. Exceptions are as by `steps`.
        """
        return read_summary(self.runnable, self.source_of_runnable, self.system.resolution)

    def rows(self, workers: int = 0, window: Optional[int] = None, guess: Optional[str] = None) -> Iterator[Row]:
        """The rows of the trace as they come. The run is stopped where they are read no further.

        After the last row of a run that ended early comes the exception of its end, as by `Trace.require_completed`.
        """
        words, table, text = run_words(workers, window, guess), self.table(), self.runnable
        with started(words, text) as begun:
            is_header = True
            for piece in begun.pieces():
                if not piece.endswith(b"\n"):
                    break
                trace = trace_of(Called(Status.ACCEPTED, piece, b""), table._replace(has_header=is_header), Outcome(STOPPED))
                is_header = False
                yield from trace
            called = begun.finish()
        trace_of(judge(called, words, text, self.source_of_runnable), table).require_completed()

    def save(self, row: int) -> Saved:
        """The position of the run at a row, from 0 to 99,999: UnfitValue out of that range, UnknownName where the trace has no such
        row."""
        words = ["save", "--row", str(row)]
        try:
            text = ask_program(words, self.runnable, self.source_of_runnable)
        except CosimError as error:
            if getattr(error, "rule", None) == 31:
                raise UnknownName(f"there is no row {row}: {error}", error.status, error.note) from None
            raise
        return Saved.from_text(text, self.name)

    def state_at(self, row: int) -> Dict[str, Dict[str, Value]]:
        """The value of each state at a row, from 0, by component and state: `state_at(2)["plate"]["temperature"]`.

        Components have their names of `instances`, as "power_battery" within groups; `components` has that of the path
        "power.battery". UnknownName and UnfitValue as by `save`.
        """
        return self.save(row).states

    def resume(self, saved: Union[Saved, str, bytes]) -> Trace:
        """The rows of this model from a saved position on, which has no header.

        The position may be one of another model with the same states. Refused (rule 33) where it doesn't fit this one.
        """
        position = saved if isinstance(saved, Saved) else Saved.from_text(saved)
        source = Source(f"saved text of {self.name}")
        return read_trace(["resume"], position.position + self.runnable, source, self.table(has_header=False))

    def verify(self, trace: Union[Trace, bytes, str]) -> Verdict:
        """Whether a trace, or a table, is the trace of this model; the program makes the trace again."""
        if isinstance(trace, Trace) and not trace.has_header:
            raise UnfitValue("a trace of resume isn't a whole trace, which verify requires")
        table = trace.table if isinstance(trace, Trace) else bytes_of(trace)
        answer = ask_program(["verify"], self.canonical + b"trace\n" + table, Source(self.name)).split()
        if answer[0] == b"yes":
            return Verdict(True)
        return Verdict(False, int(answer[1]), int(answer[2]))

    def replay(self, seed: int, workers: int) -> Trace:
        """The trace by events of simulated workers, which are drawn from a seed; `Trace.counts` has their counts.

        `seed` is from 0 to 10^19 - 1, and `workers` from 0 to 16: UnfitValue where one isn't. Refused where the model breaks a rule.
        """
        words = ["replay", "--seed", str(seed), "--workers", str(workers)]
        return read_trace(words, self.runnable, self.source_of_runnable, self.table())

    def nodes(self, seed: int, rounds: int) -> Trace:
        """The rows that node 0 of two commits in so many rounds; `Trace.counts` has the rows of "node 0" and "node 1".

        `seed` is from 0 to 10^19 - 1, and `rounds` from 1 to 100,000: UnfitValue where one isn't. Refused where the model breaks a
        rule. The outcome is "stopped" where node 0 hasn't come to the stop.
        """
        words = ["nodes", "--seed", str(seed), "--rounds", str(rounds)]
        trace = read_trace(words, self.runnable, self.source_of_runnable, self.table())
        if trace.outcome.completed and (not len(trace) or trace.time[-1] != self.stop):
            trace.outcome = Outcome(STOPPED, Status.ACCEPTED)
        return trace

    def read_trace(self, path: Path) -> Trace:
        """The trace of this model that a file has, as `run` wrote it. Its outcome is "unknown".

        OSError where the file can't be read, Refused where the model breaks a rule, and UnfitValue where the file has another
        header, is longer than a trace of this model may be, or has a line that no trace has: another number of fields, a value
        in another form or out of the range of its type, or a point that isn't after the one before it.
        """
        system, name = self.system, os.fsdecode(path)
        header, limit = header_of(system.columns), longest_table(system)
        with open(path, "rb") as file:
            first = file.readline(len(header) + LONGEST_END)
            require_header(first.decode("utf-8", "replace").splitlines(), header, name)
            table = first + read_at_most(file, limit)
        if len(table) > limit:
            raise UnfitValue(f"{name}: it is longer than a trace of this model, which has at most {row_budget(system)} rows")
        return Trace.of_table(table, system.columns, system.resolution, name)


def longest_table(system: System) -> int:
    """A number of bytes that no trace of a system is longer than."""
    columns = len(system.columns) + 2
    return len(header_of(system.columns)) + LONGEST_END + row_budget(system) * (columns * LONGEST_FIELD + LONGEST_END)


def bytes_of(text: Union[str, bytes]) -> bytes:
    """The bytes of a text. TypeError where it is none."""
    if isinstance(text, str):
        return text.encode()
    if isinstance(text, (bytes, bytearray)):
        return bytes(text)
    raise TypeError(f"a text is str or bytes, and not {type(text).__name__}")


def source_of(path: Path) -> Source:
    """The source of a text that a file has."""
    return Source(os.fsdecode(path), os.fsdecode(path))


def run_words(workers: int, window: Optional[int], guess: Optional[str]) -> List[str]:
    words = ["run", "--workers", str(workers)]
    words += [] if window is None else ["--window", str(window)]
    return words + ([] if guess is None else ["--guess", str(guess)])
