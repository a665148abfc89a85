"""Traces: values, outcomes and differences."""
import decimal
import itertools
import os
import pathlib
import pickle
from decimal import Decimal
from fractions import Fraction
from typing import Any, List, Optional

import pytest

import cosim
from cosim.traces import LONE_COLUMNS
from cosim.values import literal_of_value
from texts import COOLER, DIVIDES, EVENTS, HALVES, REFUSES, STUCK


def run(text: str) -> cosim.Trace:
    return cosim.Model.from_text(text).run()


def test_values_by_type() -> None:
    trace = run(COOLER)
    assert trace.names == ["cooler.degrees_now", "cooler.cold"]
    assert [str(value) for value in trace["cooler.degrees_now"]] == ["1.00", "0.75", "0.50", "0.25"]
    assert all(type(value) is Decimal for value in trace["cooler.degrees_now"])
    assert trace["cooler.cold"] == [False, False, True, True]
    assert (trace.time, trace.ticks, trace.index, len(trace)) == ([0, 10, 20, 30], [0, 10, 20, 30], [0, 0, 0, 0], 4)
    assert all(type(time) is Fraction for time in trace.time)
    assert trace.column("cooler.cold") == cosim.Column("cooler.cold", "Bool", False)


def test_events() -> None:
    trace = run(EVENTS)
    assert trace.names == ["source.even", "source.square", "source.odd"]
    assert trace["source.square"] == [None, 1, None, 9]
    assert trace["source.odd"] == [None, None, None, True]
    assert trace["source.even"] == [True, False, True, False]


def test_times_with_decimals() -> None:
    trace = run(HALVES)
    assert trace.resolution == 1
    assert trace.ticks == [0, 5, 10, 15]
    assert trace.time == [0, Fraction(1, 2), 1, Fraction(3, 2)]


@pytest.mark.parametrize("text", [COOLER, EVENTS, HALVES, STUCK])
def test_columns_that_are_read_by_themselves(text: str) -> None:
    whole = run(text)
    fields = list(zip(*whole.records))
    columns = dict(zip(whole.names, fields[2:]))
    for names in itertools.permutations([*whole.names, *whole.names[:1]]):
        alone = run(text)
        assert len(alone) == len(whole) == len(fields[0])
        for name in names:
            assert alone[name] == whole[name]
            assert [type(value) for value in alone[name]] == [type(value) for value in whole[name]]
            assert [literal_of_value(value) if value is not None else "" for value in alone[name]] == list(columns[name])
        assert (alone.points, alone.time, len(alone)) == (whole.points, whole.time, len(whole))
        assert alone.records == whole.records
        assert list(alone) == list(whole)


def test_more_columns_than_are_read_by_themselves(groups: cosim.Model) -> None:
    whole, alone = groups.run(), groups.run()
    assert len(alone.names) > 2 * LONE_COLUMNS
    records = whole.records
    for place, name in reversed(list(enumerate(whole.names, 2))):
        assert alone[name] == whole[name]
        assert alone.fields_of(place) == [record[place] for record in records]
    assert len(alone) == len(whole) and alone.to_csv() == whole.to_csv()


class Forgetful(cosim.Trace):
    """A trace whose lines are gone after each look at them, as where another thread makes their fields."""

    kept: Optional[List[str]] = None

    @property
    def _lines(self) -> Optional[List[str]]:
        lines, self.kept = self.kept, None
        return lines

    @_lines.setter
    def _lines(self, lines: Optional[List[str]]) -> None:
        self.kept = lines


def test_threads_that_share_a_trace() -> None:
    model = cosim.Model.from_text(COOLER)
    whole = model.run()
    shared = Forgetful(whole.table, model.system.columns, whole.resolution, whole.outcome)
    for _ in range(3):
        assert (shared.lines(), len(shared), shared.ticks) == (whole.lines(), len(whole), whole.ticks)


def test_points_of_one_time() -> None:
    assert run(STUCK).points == [(0, 0), (3, 0), (3, 1), (3, 2)]


def test_values_are_exact_in_any_context() -> None:
    with decimal.localcontext() as context:
        context.prec = 2
        model = cosim.Model.from_text(COOLER).set("cooler.rate", "12345.67")
        assert str(model.parameter("cooler.rate")) == "12345.67"
        assert str(model.run()["cooler.degrees_now"][1]) == "-12344.67"
        assert str(model.state_at(1)["cooler"]["degrees"]) == "-12344.67"


def test_rows() -> None:
    trace = run(COOLER)
    wanted = cosim.Row(Fraction(20), 0, {"cooler.degrees_now": Decimal("0.50"), "cooler.cold": True})
    assert trace.row(2) == wanted == list(trace)[2]
    for number in (-1, 4):
        with pytest.raises(cosim.UnknownName, match=f"there is no row {number}; the trace has 4 rows"):
            trace.row(number)
    with pytest.raises(cosim.UnknownName, match="there is no column cooler.hot; there are cooler.degrees_now, cooler.cold"):
        trace["cooler.hot"]


def test_a_fault() -> None:
    trace = run(DIVIDES)
    assert trace["a.y"] == [5, 10]
    outcome = trace.outcome
    assert (outcome.kind, outcome.status, outcome.note) == ("fault", 8, "cosim: fault 3 of a output y at 2,0")
    assert (outcome.component, outcome.place, outcome.fault, outcome.time, outcome.index) == ("a", "output y", 3, 2, 0)
    assert str(outcome) == "cosim: fault 3 of a output y at 2,0 (zero divisor)"
    with pytest.raises(cosim.Fault) as caught:
        trace.require_completed()
    error = pickle.loads(pickle.dumps(caught.value))
    assert (error.outcome, error.status, error.note) == (outcome, 8, outcome.note)


def test_a_fault_of_a_step() -> None:
    outcome = run(HALVES.replace("n + 1", "n + 100")).outcome
    assert (outcome.component, outcome.place, outcome.fault, outcome.time) == ("half", "step", 2, Fraction(1, 2))


def test_a_refused_step() -> None:
    trace = run(REFUSES)
    outcome = trace.outcome
    assert trace["a.y"] == [7]
    assert (outcome.kind, outcome.status, outcome.component) == ("step refused", 9, "a")
    assert (outcome.asked, outcome.accepted, outcome.time, outcome.index) == (5, 1, 0, 0)
    with pytest.raises(cosim.StepRefused):
        trace.require_completed()


def test_budgets() -> None:
    trace = run(STUCK)
    assert (trace["timer.seconds"], trace.outcome.kind, trace.outcome.status) == ([3, 0, 0, 0], "zero budget", 6)
    assert (trace.outcome.time, trace.outcome.index) == (3, 2)
    with pytest.raises(cosim.ZeroBudgetSpent):
        trace.require_completed()
    trace = run(COOLER + "rows 3\n")
    assert (len(trace), trace.outcome.kind, trace.outcome.status, trace.outcome.time) == (3, "row budget", 7, 20)
    with pytest.raises(cosim.RowBudgetSpent):
        trace.require_completed()
    assert run(COOLER).require_completed().outcome.kind == "completed"


def test_to_csv(counter: cosim.Model, examples: pathlib.Path, tmp_path: pathlib.Path) -> None:
    path = tmp_path / "trace.csv"
    assert counter.run().to_csv(str(path)) == path.read_bytes() == (examples / "counter.csv").read_bytes()
    trace = counter.read_trace(path)
    assert (trace["a.y"], trace.outcome.kind) == ([0, 1, 2, 3], "unknown")
    assert trace.diff(counter.run()) == []


@pytest.mark.parametrize(
    "table, message",
    [
        ("", "the first line isn't time,index,a.y"),
        ("time,index,b.y\n0,0,0\n", "the first line isn't time,index,a.y"),
        ("time,index,a.y\n0,0\n", "trace.csv:2: it has 2 fields, and the header 3"),
        ("time,index,a.y\n0,0,x\n", "trace.csv:2: a value isn't written as a trace has it"),
        ("time,index,a.y\n0,0,1\nx,0,1\n", "trace.csv:3: a value isn't written as a trace has it"),
        ("time,index,a.y\n0,x,1\n", "trace.csv:2: a value isn't written as a trace has it"),
        ("time,index,a.y\n0,0,1_0\n", "trace.csv:2: a value isn't written as a trace has it"),
        ("time,index,a.y\n0,0,\n", "trace.csv:2: a value isn't written as a trace has it"),
        ("time,index,a.y\n0,0,01\n", "trace.csv:2: a value isn't written as a trace has it"),
        ("time,index,a.y\n0,0,-0\n", "trace.csv:2: a value isn't written as a trace has it"),
        ("time,index,a.y\n-1,0,0\n", "trace.csv:2: a value isn't written as a trace has it"),
        ("time,index,a.y\n0,0," + 41 * "9" + "\n", "trace.csv:2: a value isn't written as a trace has it"),
        ("time,index,a.y\n0,0,9223372036854775808\n", "trace.csv:2: a.y: 9223372036854775808 is out of the range of Int64"),
        ("\ufefftime,index,a.y\n0,0,0\n", "trace.csv: it begins with a byte-order mark, which no trace has"),
        ("time,index,a.y\n0,0,99\n0,0,0\n1,0,1\n", "trace.csv:3: the point 0,0 isn't after the one before it, 0,0"),
        ("time,index,a.y\n0,0,0\n0,2,0\n0,1,0\n", "trace.csv:4: the point 0,1 isn't after the one before it, 0,2"),
        ("time,index,a.y\n1,0,1\n0,0,0\n", "trace.csv:3: the point 0,0 isn't after the one before it, 1,0"),
    ],
)
def test_tables_that_are_no_trace(counter: cosim.Model, tmp_path: pathlib.Path, table: str, message: str) -> None:
    path = tmp_path / "trace.csv"
    path.write_text(table, encoding="utf-8")
    with pytest.raises(cosim.UnfitValue, match=message):
        counter.read_trace(path)


def test_rows_in_reverse_are_no_trace(heater: cosim.Model, examples: pathlib.Path, tmp_path: pathlib.Path) -> None:
    header, *rows = (examples / "heater.csv").read_bytes().splitlines(True)
    path = tmp_path / "trace.csv"
    path.write_bytes(header + b"".join(reversed(rows)))
    with pytest.raises(cosim.UnfitValue, match="trace.csv:3: the point 1740,0 isn't after the one before it, 1800,0"):
        heater.read_trace(path)


def test_values_at_the_ends_of_their_ranges(tmp_path: pathlib.Path) -> None:
    model = cosim.Model.from_text(COOLER)
    path = tmp_path / "trace.csv"
    for least, greatest in (("-92233720368547758.08", "92233720368547758.07"), ("-0.01", "0.00")):
        path.write_text(f"time,index,cooler.degrees_now,cooler.cold\n0,0,{least},true\n0,1,{greatest},false\n")
        assert model.read_trace(path)["cooler.degrees_now"] == [Decimal(least), Decimal(greatest)]
    path.write_text("time,index,cooler.degrees_now,cooler.cold\n0,0,92233720368547758.08,true\n")
    with pytest.raises(cosim.UnfitValue, match="out of the range of Fixed 2"):
        model.read_trace(path)
    path.write_text("time,index,cooler.degrees_now,cooler.cold\n0,0,-0.00,true\n")
    with pytest.raises(cosim.UnfitValue, match="isn't written as a trace has it"):
        model.read_trace(path)


def test_files_without_an_end(counter: cosim.Model, tmp_path: pathlib.Path) -> None:
    with pytest.raises(cosim.UnfitValue, match="the first line isn't time,index,a.y"):
        counter.read_trace("/dev/zero")
    model = cosim.Model.from_text(COOLER + "rows 4\n")
    path = tmp_path / "trace.csv"
    model.run().to_csv(path)
    assert len(model.read_trace(path)) == 4
    with open(path, "ab") as file:
        file.write(1000 * b"40,0,0.00,true\n")
    with pytest.raises(cosim.UnfitValue, match="it is longer than a trace of this model, which has at most 4 rows"):
        model.read_trace(path)


def test_paths_of_all_kinds(counter: cosim.Model, examples: pathlib.Path, tmp_path: pathlib.Path) -> None:
    path = tmp_path / "trace.csv"
    counter.run().to_csv(os.fsencode(path))
    names: List[Any] = [path, str(path), os.fsencode(path)]
    for name in names:
        assert counter.read_trace(name)["a.y"] == [0, 1, 2, 3]
    assert cosim.Model.read(os.fsencode(examples / "counter.cosim")).name == str(examples / "counter.cosim")


def test_diff() -> None:
    model = cosim.Model.from_text(COOLER)
    trace, other = model.run(), model.set("cooler.rate", "0.30").run()
    name = "cooler.degrees_now"
    assert [(difference.time, difference.column, difference.mine, difference.other) for difference in trace.diff(other)] == [
        (10, name, Decimal("0.75"), Decimal("0.70")),
        (20, name, Decimal("0.50"), Decimal("0.40")),
        (30, name, Decimal("0.25"), Decimal("0.10")),
    ]
    assert [difference.time for difference in trace.diff(other, tolerance="0.10")] == [30]
    assert trace.diff(other, tolerance={name: Decimal("0.15")}) == []
    assert len(trace.diff(other, tolerance={name: "0.05"})) == 2
    assert trace.diff(trace) == []


def test_diff_of_truth_values_and_events() -> None:
    model = cosim.Model.from_text(EVENTS)
    changed = cosim.Model.from_text(EVENTS.replace("n mod 2 == 0", "true").replace("n == 3", "n == 2"))
    found = [(each.time, each.column, each.mine, each.other) for each in model.run().diff(changed.run(), tolerance=100)]
    assert found == [
        (1, "source.even", False, True),
        (2, "source.odd", None, True),
        (3, "source.even", False, True),
        (3, "source.odd", True, None),
    ]


def test_diff_of_points() -> None:
    trace = run(COOLER)
    shorter = cosim.Model.from_text(COOLER.replace("longest 10", "longest 15")).run()
    found = trace.diff(shorter, tolerance=9)
    assert [(each.time, each.column, each.mine, each.other) for each in found] == [
        (10, "time", 10, None),
        (15, "time", None, 15),
        (20, "time", 20, None),
    ]


def test_diff_of_other_columns(counter: cosim.Model) -> None:
    with pytest.raises(cosim.UnknownName, match="only one of the traces has the columns a.y, cooler.cold, cooler.degrees_now"):
        counter.run().diff(run(COOLER))
    with pytest.raises(cosim.UnknownName, match="there is no column a.z"):
        counter.run().diff(counter.run(), tolerance={"a.z": 1})
    with pytest.raises(cosim.UnfitValue, match="tolerance: 0.1 is a float"):
        counter.run().diff(counter.run(), tolerance=0.1)  # type: ignore[arg-type]
    with pytest.raises(cosim.UnfitValue, match="tolerance: -1 is below 0"):
        counter.run().diff(counter.run(), tolerance=-1)
