"""Traces: their points, their values, and what differs between two."""
import functools
from dataclasses import dataclass
from fractions import Fraction
from typing import TYPE_CHECKING, Any, Dict, Iterable, Iterator, List, Mapping, Optional, Sequence, Tuple, Union

from .canonical import Port
from .errors import UnfitValue, UnknownName
from .outcomes import EXCEPTIONS, UNKNOWN, Outcome
from .streams import Path
from .values import Given, Value, form_of, fraction_of, is_in_range, ticks_of, values_of_fields

if TYPE_CHECKING:
    import pandas
    from .models import Model
    from .steps import StepLog

TIME = "time"
INDEX = "index"

# The byte-order mark, which some editors write at the begin of a file.
MARK = "\ufeff"

# How many columns are read by themselves. After that the fields of all columns are made, which takes less time for many.
LONE_COLUMNS = 3

Point = Tuple[int, int]


@dataclass(frozen=True)
class Column:
    """A column of a trace: its name as `plate.degrees`, its type as `Fixed 2`, and whether it has events."""

    name: str
    type: str
    is_event: bool


@functools.lru_cache(maxsize=1024)
def column_of(port: Port) -> Column:
    """The column of an output. Many traces have the same ones."""
    return Column(str(port), port.type, port.is_event)


@dataclass(frozen=True)
class Row:
    """A row: its time in seconds, its index, and the value of each column by its name."""

    time: Fraction
    index: int
    values: Dict[str, Optional[Value]]


@dataclass(frozen=True)
class Difference:
    """What differs between two traces at a point.

    `column` is the name of the column, and `mine` and `other` are the two values. Where only one trace has the point,
    `column` is "time", and the trace without it has None.
    """

    time: Fraction
    index: int
    column: str
    mine: Union[Value, Fraction, None]
    other: Union[Value, Fraction, None]


class Trace:
    """The rows of a run, as the program wrote them, with their outcome.

    `trace["plate.degrees"]` is a list of all values of a column: bool of `Bool`, int of whole numbers, and
    `decimal.Decimal` with exactly N decimals of `Fixed N`; None where an event is absent. All are exact.

    `counts` has the counts of `replay`, and of `nodes` the rows of each node.

    Values are read from the rows when they are first asked for, and those of other columns aren't.
    """

    def __init__(
        self,
        table: bytes,
        ports: Sequence[Port],
        resolution: int,
        outcome: Outcome,
        has_header: bool = True,
        counts: Optional[Mapping[str, int]] = None,
    ) -> None:
        self.table = table
        self.columns = [column_of(port) for port in ports]
        self.resolution = resolution
        self.outcome = outcome
        self.has_header = has_header
        self.counts = dict(counts or {})
        self._model: Optional["Model"] = None
        self._lines: Optional[List[str]] = None
        self._records: Optional[List[List[str]]] = None
        self._values: Dict[str, List[Optional[Value]]] = {}

    @classmethod
    def of_table(cls, table: bytes, ports: Sequence[Port], resolution: int, name: str) -> "Trace":
        """The trace that a table has, as `run` writes it.

        UnfitValue, with the number of the line, where its header is another one, a row has no form, a value is out of the range
        of its type, or the points don't rise.
        """
        lines = table.decode("utf-8", "replace").splitlines()
        require_header(lines[:1], header_of(ports), name)
        count = len(ports) + 2
        for number, line in enumerate(lines[1:], 2):
            if line.count(",") + 1 != count:
                raise UnfitValue(f"{name}:{number}: it has {line.count(',') + 1} fields, and the header {count}")
        trace = cls(table, ports, resolution, Outcome(UNKNOWN))
        require_forms(trace, name)
        require_rising(trace, name)
        return trace

    @classmethod
    def without_rows(cls, ports: Sequence[Port], resolution: int) -> "Trace":
        """A trace that has columns alone. What is asked of their names is judged as of any other trace."""
        return cls(header_of(ports).encode(), ports, resolution, Outcome(UNKNOWN))

    def lines(self) -> List[str]:
        """The line of each row, as the program wrote it. Lines are kept until their fields are."""
        lines = self._lines  # Another thread may make fields of them meanwhile.
        if lines is None:
            lines = self._lines = self.table.decode("ascii", "replace").splitlines()[self.has_header :]
        return lines

    @property
    def records(self) -> List[List[str]]:
        """The fields of each row, as the program wrote them."""
        if self._records is None:
            self._records = [line.split(",") for line in self.lines()]
            self._lines = None
        return self._records

    def fields_of(self, place: int) -> List[str]:
        """The field of each row at a place, from 0 for the time."""
        if self._records is None and len(self._values) < LONE_COLUMNS:
            return [line.split(",", place + 1)[place] for line in self.lines()]
        return [record[place] for record in self.records]

    @property
    def names(self) -> List[str]:
        """The names of the columns after `time` and `index`."""
        return [column.name for column in self.columns]

    @property
    def ticks(self) -> List[int]:
        """The time of each row in 10^-resolution seconds."""
        return [ticks_of(field, self.resolution) for field in self.fields_of(0)]

    @property
    def time(self) -> List[Fraction]:
        """The time of each row in seconds."""
        scale = 10**self.resolution
        return [Fraction(ticks, scale) for ticks in self.ticks]

    @property
    def index(self) -> List[int]:
        """The index of each row, which tells the points of one time apart."""
        return [int(field) for field in self.fields_of(1)]

    @property
    def points(self) -> List[Point]:
        """The ticks and the index of each row."""
        return list(zip(self.ticks, self.index))

    def __len__(self) -> int:
        return len(self.lines()) if self._records is None else len(self._records)

    def column(self, name: str) -> Column:
        """The column of a name. UnknownName where there is none."""
        return self.columns[self.place_of(name)]

    def place_of(self, name: str) -> int:
        """The place of a column, from 0 after `time` and `index`. UnknownName where there is none."""
        names = self.names
        if name not in names:
            raise UnknownName(f"there is no column {name}; there are {', '.join(names)}")
        return names.index(name)

    def __getitem__(self, name: str) -> List[Optional[Value]]:
        """The values of a column, one for each row. UnknownName where there is no such column."""
        place = self.place_of(name)
        if name not in self._values:
            self._values[name] = values_of_fields(self.fields_of(place + 2), self.columns[place].type)
        return self._values[name]

    def __iter__(self) -> Iterator[Row]:
        columns = [self[name] for name in self.names]
        for place, (time, index) in enumerate(zip(self.time, self.index)):
            yield Row(time, index, {name: values[place] for name, values in zip(self.names, columns)})

    def row(self, number: int) -> Row:
        """The row of a number, from 0. UnknownName where there is none."""
        if not 0 <= number < len(self):
            raise UnknownName(f"there is no row {number}; the trace has {len(self)} rows, from 0")
        time = Fraction(ticks_of(self.records[number][0], self.resolution), 10**self.resolution)
        return Row(time, int(self.records[number][1]), {name: self[name][number] for name in self.names})

    def require_completed(self) -> "Trace":
        """This trace, where the run came to its stop; and else the exception of its end."""
        if self.outcome.kind in EXCEPTIONS:
            raise EXCEPTIONS[self.outcome.kind](self.outcome)
        return self

    def to_csv(self, path: Optional[Path] = None) -> bytes:
        """The bytes that the program wrote, which are written to a file too where one is named. OSError where it can't be written."""
        if path is not None:
            with open(path, "wb") as file:
                file.write(self.table)
        return self.table

    def frame(self, floats: Union[bool, Iterable[str]] = False) -> "pandas.DataFrame":
        """The trace as a frame of pandas, with the times in seconds as its index; `cosim.frames` has the types of columns."""
        from .frames import frame_of

        return frame_of(self, floats)

    def steps(self) -> "StepLog":
        """The step log of the model that this trace is a run of, as by `Model.steps`. UnfitValue where the trace comes from elsewhere."""
        if self._model is None:
            raise UnfitValue("steps: the trace is that of no run of a model; Model.steps returns the step log of a model")
        return self._model.steps()

    def plot(self, names: Optional[Sequence[str]] = None, figure: Any = None, steps: Union[bool, "StepLog"] = False) -> Any:
        """A figure of matplotlib with a plot for each of the columns, or for all: see `cosim.plots.plot`."""
        from .plots import plot

        return plot(self, names, figure, steps)

    def diff(self, other: "Trace", tolerance: Union[Given, Mapping[str, Given]] = 0) -> List[Difference]:
        """What differs between this trace and another one, in the order of their points.

        A number differs where the two values are further apart than the tolerance: one for all columns, or one by the name of
        each column, 0 for others. UnknownName where the traces don't have the same columns, or a tolerance names no column.
        """
        if sorted(self.names) != sorted(other.names):
            only = sorted(set(self.names) ^ set(other.names))
            raise UnknownName(f"only one of the traces has the columns {', '.join(only)}")
        return list(differences(self, other, tolerances(self, tolerance)))


def header_of(ports: Sequence[Port]) -> str:
    """The first line of a trace with these columns."""
    return ",".join([TIME, INDEX, *map(str, ports)])


def require_header(lines: Sequence[str], header: str, name: str) -> None:
    """UnfitValue where the first of the lines is another one."""
    if list(lines[:1]) == [header]:
        return
    if lines and lines[0].startswith(MARK):
        raise UnfitValue(f"{name}: it begins with a byte-order mark, which no trace has; save it as UTF-8 without that mark")
    raise UnfitValue(f"{name}: the first line isn't {header}")


def require_forms(trace: Trace, name: str) -> None:
    """UnfitValue where a field isn't written as a trace has it, or is out of the range of its type."""
    of_points = [form_of(f"Fixed {trace.resolution}", is_signed=False), form_of("Int64", is_signed=False)]
    forms = [*of_points, *(form_of(column.type, column.is_event) for column in trace.columns)]
    for number, record in enumerate(trace.records, 2):
        if not all(form.fullmatch(field) for form, field in zip(forms, record)):
            raise UnfitValue(f"{name}:{number}: a value isn't written as a trace has it")
        for column, field in zip(trace.columns, record[2:]):
            if not is_in_range(field, column.type):
                raise UnfitValue(f"{name}:{number}: {column.name}: {field} is out of the range of {column.type}")


def require_rising(trace: Trace, name: str) -> None:
    """UnfitValue where a point isn't after the one before it: by its time, or by its index where they have one time."""
    points = trace.points
    for number, (before, point) in enumerate(zip(points, points[1:]), 3):
        if point <= before:
            places = [",".join(trace.records[at][:2]) for at in (number - 2, number - 3)]
            raise UnfitValue(f"{name}:{number}: the point {places[0]} isn't after the one before it, {places[1]}")


def tolerances(trace: Trace, given: Union[Given, Mapping[str, Given]]) -> Dict[str, Fraction]:
    """The tolerance of each column."""
    if not isinstance(given, Mapping):
        return dict.fromkeys(trace.names, tolerance_of(given, "tolerance"))
    for name in given:
        trace.place_of(name)
    return {name: tolerance_of(given.get(name, 0), f"tolerance of {name}") for name in trace.names}


def tolerance_of(given: Given, what: str) -> Fraction:
    tolerance = fraction_of(given, what)
    if tolerance < 0:
        raise UnfitValue(f"{what}: {given} is below 0")
    return tolerance


def differences(mine: Trace, other: Trace, allowed: Mapping[str, Fraction]) -> Iterator[Difference]:
    """The differences at each point of either trace."""
    resolution = max(mine.resolution, other.resolution)
    rows, others = places_of(mine, resolution), places_of(other, resolution)
    columns = [(name, mine[name], other[name], tolerance) for name, tolerance in allowed.items()]
    for ticks, index in sorted(rows.keys() | others.keys()):
        row, other_row = rows.get((ticks, index)), others.get((ticks, index))
        time = Fraction(ticks, 10**resolution)
        if row is None or other_row is None:
            yield Difference(time, index, TIME, None if row is None else time, None if other_row is None else time)
            continue
        for name, values, other_values, tolerance in columns:
            value, other_value = values[row], other_values[other_row]
            if is_apart(value, other_value, tolerance):
                yield Difference(time, index, name, value, other_value)


def places_of(trace: Trace, resolution: int) -> Dict[Point, int]:
    """The number of the row of each point, whose time is in 10^-resolution seconds."""
    scale = 10 ** (resolution - trace.resolution)
    return {(ticks * scale, index): number for number, (ticks, index) in enumerate(trace.points)}


def is_apart(value: Optional[Value], other: Optional[Value], tolerance: Fraction) -> bool:
    if value is None or other is None or isinstance(value, bool) or isinstance(other, bool):
        return value is not other
    return value != other and abs(Fraction(value) - Fraction(other)) > tolerance
