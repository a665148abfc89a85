"""Frames of pandas."""
import math
from decimal import Decimal

import pytest

import cosim
from texts import COOLER, EVENTS, HALVES

pandas = pytest.importorskip("pandas")


def test_types() -> None:
    frame = cosim.Model.from_text(COOLER).run().frame()
    assert dict(frame.dtypes.astype(str)) == {"index": "int64", "cooler.degrees_now": "object", "cooler.cold": "bool"}
    assert frame.index.name == "time" and str(frame.index.dtype) == "int64"
    assert list(frame.index) == [0, 10, 20, 30]
    assert list(frame["cooler.degrees_now"]) == [Decimal(text) for text in ("1.00", "0.75", "0.50", "0.25")]
    assert frame.attrs["floats"] == []


def test_types_of_events() -> None:
    frame = cosim.Model.from_text(EVENTS).run().frame()
    assert dict(frame.dtypes.astype(str)) == {
        "index": "int64",
        "source.even": "bool",
        "source.square": "Int64",
        "source.odd": "boolean",
    }
    assert frame["source.square"][0] is pandas.NA and frame["source.square"][3] == 9


def test_times_with_decimals() -> None:
    trace = cosim.Model.from_text(HALVES).run()
    assert list(trace.frame().index) == [Decimal("0.0"), Decimal("0.5"), Decimal("1.0"), Decimal("1.5")]
    frame = trace.frame(floats=True)
    assert list(frame.index) == [0.0, 0.5, 1.0, 1.5] and str(frame.index.dtype) == "float64"
    assert str(frame["half.y"].dtype) == "int64"
    assert frame.attrs["floats"] == ["time"]


def test_floats() -> None:
    trace = cosim.Model.from_text(COOLER).run()
    frame = trace.frame(floats=True)
    assert list(frame["cooler.degrees_now"]) == [1.0, 0.75, 0.5, 0.25]
    assert str(frame["cooler.degrees_now"].dtype) == "float64"
    assert str(frame["cooler.cold"].dtype) == "bool"
    assert frame.attrs["floats"] == ["cooler.degrees_now"]
    assert trace.frame(floats=(name for name in ["cooler.degrees_now"])).attrs["floats"] == ["cooler.degrees_now"]
    assert str(trace.frame(floats=iter(["cooler.degrees_now"]))["cooler.degrees_now"].dtype) == "float64"
    events = cosim.Model.from_text(EVENTS).run().frame(floats=["source.square"])
    assert math.isnan(events["source.square"][0]) and events["source.square"][3] == 9.0


def test_floats_that_are_other_numbers() -> None:
    model = cosim.Model.from_text(COOLER.replace("Fixed 2", "Int64").replace("1.00", "9007199254740991").replace("0.25", "-1").replace("0.60", "0"))
    trace = model.run()
    assert trace["cooler.degrees_now"] == [2**53 - 1, 2**53, 2**53 + 1, 2**53 + 2]
    with pytest.raises(cosim.InexactFloat, match="cooler.degrees_now: the float that is nearest to 9007199254740993 is another"):
        trace.frame(floats=["cooler.degrees_now"])
    assert list(trace.frame()["cooler.degrees_now"]) == [2**53 - 1, 2**53, 2**53 + 1, 2**53 + 2]
    whole = model.run(until=10).frame(floats=["cooler.degrees_now"])["cooler.degrees_now"]
    assert [int(value) for value in whole] == [2**53 - 1, 2**53]


def test_floats_of_no_column() -> None:
    trace = cosim.Model.from_text(COOLER).run()
    with pytest.raises(cosim.UnknownName, match="there is no column cooler.hot"):
        trace.frame(floats=["cooler.hot"])
    with pytest.raises(cosim.UnfitValue, match="the column cooler.cold has truth values"):
        trace.frame(floats=["cooler.cold"])
    with pytest.raises(cosim.UnfitValue, match="is one name"):
        trace.frame(floats="cooler.cold")
