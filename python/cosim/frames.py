"""A trace as a frame of pandas.

The index is the time in seconds. The first column is `index`, and then each column of the trace comes, all with exact values:

| column | dtype | where an event is absent |
|---|---|---|
| whole numbers | int64; of events Int64 | pandas.NA |
| `Bool` | bool; of events boolean | pandas.NA |
| `Fixed N` | object, with values of `decimal.Decimal` | None |
| `index` | int64 | |
| time, with whole seconds | int64 | |
| time, with decimals | object, with values of `decimal.Decimal` | |

No column becomes floats unless that is asked for, by `floats=True` or the names of columns. Then these are float64, with NaN
where an event is absent: the columns of `Fixed N` and, by True or by "time", a time with decimals. Whole numbers become floats
by their names alone.

A float is the nearest one to the value. Whole numbers up to 2^53 are exact as floats; a value of `Fixed N` comes back when it
is rounded to N decimals, which is sure for words up to 2^52. Each value is compared, and one that doesn't come back is the
error InexactFloat. `frame.attrs["floats"]` has the names of the columns that became floats.

A frame of a step log has its columns in the same types: times are as the index, names are texts, `accepted` is Int64, `redone` is
bool, and `held` is int64. Where nobody accepted less, `shortened_by` is None and `accepted` is pandas.NA.

A frame of a summary has the names of its lines as its index. Its counts are int64. `least_limit` is as the times of a trace, with None,
or pandas.NA of Int64 where seconds are whole, or NaN of floats, where nothing is limited.
"""
from decimal import Decimal
from fractions import Fraction
from typing import Iterable, List, Optional, Sequence, Union

import pandas

from .errors import InexactFloat, UnfitValue
from .steps import LEAST_LIMIT, OF_SECONDS, StepLog, StepSummary
from .traces import INDEX, TIME, Trace
from .values import Value, decimals_of, exact


def frame_of(trace: Trace, floats: Union[bool, Iterable[str]]) -> pandas.DataFrame:
    """The frame of a trace. UnknownName where `floats` names no column, UnfitValue where one can't become floats."""
    names = floats_of(trace, floats)
    data = {INDEX: pandas.array(trace.index, dtype="int64")}
    for column in trace.columns:
        data[column.name] = array_of(trace[column.name], column.type, column.is_event, column.name in names, column.name)
    frame = pandas.DataFrame(data, index=index_of(trace, TIME in names))
    frame.attrs["floats"] = names
    return frame


def floats_of(trace: Trace, floats: Union[bool, Iterable[str]]) -> List[str]:
    """The names of the columns that become floats."""
    if isinstance(floats, str):
        raise UnfitValue(f"floats: {floats!r} is one name; write [{floats!r}]")
    if isinstance(floats, bool):
        fixed = [column.name for column in trace.columns if decimals_of(column.type) is not None]
        return ([TIME] if trace.resolution else []) + fixed if floats else []
    names = list(floats)
    for name in names:
        if name != TIME and trace.column(name).type == "Bool":
            raise UnfitValue(f"floats: the column {name} has truth values")
    return names


def index_of(trace: Trace, as_floats: bool) -> pandas.Index:
    """The times in seconds, as a value of `Fixed N` with the decimals of the trace."""
    times: List[Optional[Value]] = [exact(ticks, trace.resolution) if trace.resolution else ticks for ticks in trace.ticks]
    type_name = f"Fixed {trace.resolution}" if trace.resolution else "Int64"
    return pandas.Index(array_of(times, type_name, False, as_floats, TIME), name=TIME)


def frame_of_steps(log: StepLog, floats: bool) -> pandas.DataFrame:
    """The frame of a step log. Its times, with those of `proposed` and `agreed`, are as the times of a trace."""
    as_floats = floats and bool(log.resolution)

    def seconds(times: Sequence[Fraction], name: str) -> pandas.Series:
        ticks = [int(time * 10**log.resolution) for time in times]
        values: List[Optional[Value]] = [exact(each, log.resolution) if log.resolution else each for each in ticks]
        return array_of(values, f"Fixed {log.resolution}" if log.resolution else "Int64", False, as_floats, name)

    data = {
        INDEX: pandas.array([step.index for step in log], dtype="int64"),
        "proposed": seconds([step.proposed for step in log], "proposed"),
        "limited_by": pandas.array([step.limited_by for step in log], dtype="object"),
        "agreed": seconds([step.agreed for step in log], "agreed"),
        "shortened_by": pandas.array([step.shortened_by for step in log], dtype="object"),
        "accepted": pandas.array([step.accepted for step in log], dtype="Int64"),
        "redone": pandas.array([step.redone for step in log], dtype="bool"),
        "held": pandas.array([step.held for step in log], dtype="int64"),
    }
    frame = pandas.DataFrame(data, index=pandas.Index(seconds([step.time for step in log], TIME), name=TIME))
    frame.attrs["floats"] = [TIME, *OF_SECONDS] if as_floats else []
    return frame


def frame_of_summary(summary: StepSummary, floats: bool) -> pandas.DataFrame:
    """The frame of a summary. Its least limits are as the times of a trace."""
    as_floats, decimals = floats and bool(summary.resolution), summary.resolution
    ticks = [None if each.least_limit is None else int(each.least_limit * 10**decimals) for each in summary]
    limits: List[Optional[Value]] = [each if each is None or not decimals else exact(each, decimals) for each in ticks]
    data = {
        "limited": pandas.array([each.limited for each in summary], dtype="int64"),
        "shortened": pandas.array([each.shortened for each in summary], dtype="int64"),
        LEAST_LIMIT: array_of(limits, f"Fixed {decimals}" if decimals else "Int64", True, as_floats, LEAST_LIMIT),
        "faults": pandas.array([each.faults for each in summary], dtype="int64"),
    }
    frame = pandas.DataFrame(data, index=pandas.Index([each.name for each in summary], name="name", dtype="object"))
    frame.attrs["floats"] = [LEAST_LIMIT] if as_floats else []
    return frame


def array_of(values: List[Optional[Value]], type_name: str, is_event: bool, as_floats: bool, name: str) -> pandas.Series:
    """The values of a column with its dtype."""
    if as_floats:
        return pandas.array([float_of(value, name) for value in values], dtype="float64")
    if type_name == "Bool":
        return pandas.array(values, dtype="boolean" if is_event else "bool")
    if decimals_of(type_name) is None:
        return pandas.array(values, dtype="Int64" if is_event else "int64")
    return pandas.array(values, dtype="object")


def float_of(value: Optional[Value], name: str) -> float:
    """The float that is nearest to a value, if the value comes back from it."""
    if value is None:
        return float("nan")
    nearest = float(value)
    written = f"{value:f}" if isinstance(value, Decimal) else str(value)
    decimals = len(written.partition(".")[2])
    if f"{nearest:.{decimals}f}" != written:
        raise InexactFloat(f"{name}: the float that is nearest to {value} is another number")
    return nearest
