"""What the script of a page draws and lists: the fields of traces, as the program wrote them, and the differences of two."""
from fractions import Fraction
from typing import Any, Dict, List, Mapping, Optional, Sequence, Tuple, Union

from ..traces import TIME, Difference, Trace
from ..values import Given, Value, exact, literal_of_value

# The most fields of one trace that a page has. Later rows are left out, which the page says.
MOST_FIELDS = 4_000_000

# The most differences that a page lists.
MOST_DIFFERENCES = 20_000

# The most columns that are drawn where none is named.
MOST_PLOTS = 64

Data = Dict[str, Any]


def rows_of(trace: Trace) -> int:
    """How many rows of a trace a page has."""
    return min(len(trace), MOST_FIELDS // (len(trace.columns) + 2))


def data_of_trace(trace: Trace, names: Sequence[str], label: str) -> Data:
    """The fields of each column, in the order of the names, with a comma between two."""
    places = [0, 1, *(trace.place_of(name) + 2 for name in names)]
    records = trace.records[: rows_of(trace)]
    columns = [",".join([record[place] for record in records]) for place in places]
    return {"label": label, "rows": len(records), "all": len(trace), "columns": columns}


def drawn_columns(trace: Trace, names: Optional[Sequence[str]]) -> List[int]:
    """The places of the columns that are drawn at first. UnknownName where there is no such column."""
    if names is None:
        return list(range(min(len(trace.columns), MOST_PLOTS)))
    return [trace.place_of(name) for name in dict.fromkeys(names)]


def seconds(time: Fraction, resolution: int) -> str:
    """A time as a trace of this resolution writes it."""
    return f"{exact(int(time * 10**resolution), resolution):f}"


def field_of(value: Union[Value, Fraction, None], resolution: int) -> Optional[str]:
    """A value of a difference as a trace writes it; None where there is none."""
    if value is None:
        return None
    return seconds(value, resolution) if isinstance(value, Fraction) else literal_of_value(value)


def data_of_difference(found: Difference, resolution: int, places: Mapping[str, int]) -> List[Any]:
    """The point, the place of the column or -1 for the time, and both values."""
    place = -1 if found.column == TIME else places[found.column]
    values = [field_of(value, resolution) for value in (found.mine, found.other)]
    return [seconds(found.time, resolution), found.index, place, *values]


def data_of_page(
    trace: Trace, other: Optional[Trace], found: Sequence[Difference], names: Optional[Sequence[str]], labels: Tuple[str, str]
) -> Data:
    """All data of a page: `differing` is the number of differences, of which the first are listed."""
    traces = [trace] if other is None else [trace, other]
    resolution = max(each.resolution for each in traces)
    places = {name: place for place, name in enumerate(trace.names)}
    return {
        "columns": [{"name": column.name, "type": column.type, "event": column.is_event} for column in trace.columns],
        "drawn": drawn_columns(trace, names),
        "traces": [data_of_trace(each, trace.names, label) for each, label in zip(traces, labels)],
        "differing": len(found),
        "differences": [data_of_difference(each, resolution, places) for each in found[:MOST_DIFFERENCES]],
    }


def is_given(tolerance: Union[Given, Mapping[str, Given]]) -> bool:
    return bool(tolerance) if isinstance(tolerance, Mapping) else str(tolerance) != "0"


def tolerance_words(tolerance: Union[Given, Mapping[str, Given]]) -> str:
    """A tolerance as a reader reads it."""
    if not is_given(tolerance):
        return "none"
    if not isinstance(tolerance, Mapping):
        return f"{tolerance} for each column"
    return ", ".join(f"{given} for {name}" for name, given in tolerance.items()) + ", none for other columns"
