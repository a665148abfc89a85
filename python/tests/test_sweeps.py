"""Sweeps, by executors of one machine and by a cluster. After three steps of `rate` the cooler is at 1.00 - 3 * rate."""
import concurrent.futures
import functools
import itertools
import json
import os
import pathlib
import signal
import sys
from concurrent.futures.process import BrokenProcessPool
from decimal import Decimal
from fractions import Fraction
from typing import Any, Callable, Dict, List, Set

import pytest

import cosim
import measures
from texts import COOLER, DIVIDES, NESTED

RATES = [f"0.{hundredths:02d}" for hundredths in range(60)]
LAST = [Decimal("1.00") - 3 * Decimal(rate) for rate in RATES]


@pytest.fixture
def cooler() -> cosim.Model:
    return cosim.Model.from_text(COOLER)


def last_of(sweep: cosim.Sweep) -> List[Any]:
    return [row.measures["measure"] for row in sweep]


def test_by_processes_of_this_machine(cooler: cosim.Model) -> None:
    sweep = cosim.sweep(cooler, {"cooler.rate": RATES}, measures.last)
    assert last_of(sweep) == LAST
    assert [row.parameters for row in sweep] == [{"cooler.rate": Decimal(rate)} for rate in RATES]
    assert {row.outcome for row in sweep} == {"completed"}


def test_all_combinations(cooler: cosim.Model) -> None:
    model = cosim.Model.from_text(COOLER.replace("  state", "  param less : Int64 = 0\n  state").replace("- rate", "- rate - fix 2(less)"))
    with concurrent.futures.ThreadPoolExecutor(3) as threads:
        sweep = cosim.sweep(model, {"cooler.rate": ["0.25", 0], "cooler.less": [0, 1, 2]}, measures.several, threads)
    assert [tuple(row.parameters.values()) for row in sweep] == [
        (Decimal(rate), less) for rate in ("0.25", "0.00") for less in (0, 1, 2)
    ]
    assert [row.measures["cold"] for row in sweep] == [True, True, True, False, True, True]
    assert sweep.rows[0].measures == {"rows": 4, "cold": True, "third": Fraction(1, 3), "none": None}
    assert sweep.names == ["cooler.rate", "cooler.less", "outcome", "note", "rows", "cold", "third", "none"]
    assert sweep.to_csv().splitlines()[:2] == [
        b"cooler.rate,cooler.less,outcome,note,rows,cold,third,none",
        b"0.25,0,completed,,4,true,1/3,",
    ]


def test_runs_that_fail_are_rows() -> None:
    # The state n falls from 2 to -7, so n - less is 0 at the time 2 - less where that is from 0 to 9.
    text = DIVIDES.replace("  state", "  param less : Int64 = 1\n  state").replace("10 div n", "10 div (n - less)")
    with concurrent.futures.ThreadPoolExecutor(2) as threads:
        sweep = cosim.sweep(cosim.Model.from_text(text), {"a.less": [5, 1, -7, -8]}, len, threads)
    assert [(row.outcome, row.measures["measure"], row.note) for row in sweep] == [
        ("completed", 10, ""),
        ("fault", 1, "cosim: fault 3 of a output y at 1,0"),
        ("fault", 9, "cosim: fault 3 of a output y at 9,0"),
        ("completed", 10, ""),
    ]


def test_measures_that_fail_are_rows(cooler: cosim.Model) -> None:
    with concurrent.futures.ThreadPoolExecutor(2) as threads:
        sweep = cosim.sweep(cooler, {"cooler.rate": ["0.25", "0.50"]}, measures.divides, threads)
    assert [(row.outcome, row.note) for row in sweep] == [
        ("measure failed", "ZeroDivisionError: integer division or modulo by zero"),
        ("completed", ""),
    ]
    assert sweep.rows[1].measures == {"measure": 1}


def test_measures_with_the_name_of_another_column(cooler: cosim.Model) -> None:
    names: List[Any] = ["outcome", "note", "cooler.rate", 7]
    for name in names:
        with concurrent.futures.ThreadPoolExecutor(1) as threads:
            sweep = cosim.sweep(cooler, {"cooler.rate": ["0.25"]}, functools.partial(measures.named, name), threads)
        assert (sweep.rows[0].outcome, sweep.rows[0].note) == ("measure failed", f"UnfitValue: a measure can't be named {name!r}")


def test_no_program(cooler: cosim.Model, monkeypatch: pytest.MonkeyPatch) -> None:
    cooler.check()
    assert cooler.canonical
    monkeypatch.setenv("COSIM", "/nowhere/cosim")
    with concurrent.futures.ThreadPoolExecutor(2) as threads:
        sweep = cosim.sweep(cooler, {"cooler.rate": ["0.25"]}, executor=threads)
    assert sweep.rows[0].outcome == "program failed"
    assert "/nowhere/cosim" in sweep.rows[0].note


@pytest.mark.parametrize("is_given", [True, False])
def test_rows_are_those_of_single_runs(heater: cosim.Model, is_given: bool) -> None:
    """A parameter that its component sets, one that it doesn't, and two of one component, in an order that no text has."""
    values: Dict[str, List[Any]] = {
        "thermostat.high": [Decimal("19.50"), 20],
        "heater.watts": ["0", "12.00"],
        "thermostat.low": [Fraction(37, 2), "17.5"],
        "plate.cooling": ["-0.50", "0.5"],
    }
    with concurrent.futures.ThreadPoolExecutor(2) as threads:
        sweep = cosim.sweep(heater, values, measures.table, threads if is_given else None)
    cases = [dict(zip(values, case)) for case in itertools.product(*values.values())]
    single = [heater.set_all(case) for case in cases]
    assert [row.measures["measure"] for row in sweep] == [measures.table(model.run()) for model in single]
    assert [row.parameters for row in sweep] == [{name: model.parameter(name) for name in values} for model in single]
    assert len({row.measures["measure"] for row in sweep}) > 4
    prepared = heater.prepared(list(values))
    texts = [prepared.template.text_of([f"{model.parameter(name)}" for name in values]) for model in single]
    assert texts == [model.canonical for model in single]


def test_parameters_within_groups() -> None:
    model = cosim.Model.from_text(NESTED)
    values = {"pair.right.by": [-2, 7], "pair.left.by": [5, 1, -128]}
    with concurrent.futures.ThreadPoolExecutor(2) as threads:
        sweep = cosim.sweep(model, values, measures.table, threads)
    single = [model.set_all(dict(zip(values, case))).run() for case in itertools.product(*values.values())]
    assert [row.measures["measure"] for row in sweep] == [measures.table(trace) for trace in single]
    assert sweep.rows[2].measures["measure"] == "time,index,pair_left.y,pair_right.y\n0,0,0,0\n1,0,-128,-2\n2,0,-256,-4\n"


def test_no_parameters(cooler: cosim.Model) -> None:
    with concurrent.futures.ThreadPoolExecutor(1) as threads:
        sweep = cosim.sweep(cooler, {}, measures.last, threads)
    assert [(row.parameters, row.measures) for row in sweep] == [({}, {"measure": Decimal("0.25")})]


def test_a_refusal_is_that_of_a_single_run(cooler: cosim.Model) -> None:
    """A text that is refused as it is run, which no literal of a type makes of a model."""
    prepared = cooler.prepared(["cooler.rate"])
    wrong = cooler.edited(cooler.canonical.replace(b"longest 10", b"longest x").splitlines())
    template = prepared.template._replace(parts=[wrong.canonical], places=[])
    messages = []
    calls: List[Callable[[], object]] = [wrong.run, lambda: prepared._replace(template=template).run([])]
    for call in calls:
        with pytest.raises(cosim.Refused) as caught:
            call()
        messages.append((str(caught.value), caught.value.line, caught.value.rule, caught.value.note))
    assert messages[0] == messages[1]
    assert messages[0][0].startswith("canonical text of model")


class NoExecutor(concurrent.futures.Executor):
    """An executor that must get no task."""

    def submit(self, *_: Any, **__: Any) -> Any:
        raise AssertionError("a task was submitted")


@pytest.mark.parametrize("wrong", [0.5, "0.125", "1e1", "", None, True, Decimal("NaN"), 10**17, "-92233720368547758.09", [0]])
@pytest.mark.parametrize("place", [0, 30, 60])
def test_one_unfit_value_among_many(cooler: cosim.Model, tmp_path: pathlib.Path, wrong: Any, place: int) -> None:
    keep = tmp_path / "kept"
    values: List[Any] = [*RATES[:place], wrong, *RATES[place:]]
    with pytest.raises(cosim.UnfitValue) as of_set:
        cooler.set("cooler.rate", wrong)
    with pytest.raises(cosim.UnfitValue) as of_sweep:
        cosim.sweep(cooler, {"cooler.rate": values}, executor=NoExecutor(), keep=keep)
    assert str(of_sweep.value) == str(of_set.value)
    assert not keep.exists()


def test_unfit_parameters(cooler: cosim.Model) -> None:
    with pytest.raises(cosim.UnknownName, match="no parameter 'rat'"):
        cosim.sweep(cooler, {"cooler.rat": ["0.25"]})
    with pytest.raises(cosim.UnfitValue, match="cooler.rate: 0.5 is a float"):
        cosim.sweep(cooler, {"cooler.rate": [0.5]})  # type: ignore[list-item]
    for given in ("0.25", b"0.25", bytearray(b"0.25"), 1):
        with pytest.raises(cosim.UnfitValue, match=r"0.25'\)? is one value; write a list|1 is one value"):
            cosim.sweep(cooler, {"cooler.rate": given})  # type: ignore[dict-item]
    assert len(cosim.sweep(cooler, {"cooler.rate": []})) == 0


def test_a_sweep_that_was_broken_off_goes_on(cooler: cosim.Model, tmp_path: pathlib.Path) -> None:
    keep = tmp_path / "sweep.jsonl"

    def break_off(done: int, total: int) -> None:
        assert total == 60
        if done == 20:
            raise KeyboardInterrupt

    with concurrent.futures.ThreadPoolExecutor(2) as threads:
        with pytest.raises(KeyboardInterrupt):
            cosim.sweep(cooler, {"cooler.rate": RATES}, measures.last, threads, str(keep), break_off)
        assert len(keep.read_bytes().splitlines()) == 21
        # A line that was broken off is made again.
        keep.write_bytes(keep.read_bytes()[:-5])
        seen: List[int] = []
        sweep = cosim.sweep(cooler, {"cooler.rate": RATES}, measures.last, threads, str(keep), lambda done, _: seen.append(done))
        assert seen == list(range(19, 61))
        assert last_of(sweep) == LAST
        lines = [json.loads(line) for line in keep.read_bytes().splitlines()]
        assert sorted(line["literals"][0] for line in lines[1:]) == RATES
        # With more values only those are run.
        seen.clear()
        more = cosim.sweep(cooler, {"cooler.rate": ["0.90", *RATES]}, measures.last, threads, str(keep), lambda done, _: seen.append(done))
        assert seen == [60, 61]
        assert last_of(more) == [Decimal("-1.70"), *LAST]


def test_a_file_of_another_sweep(cooler: cosim.Model, tmp_path: pathlib.Path) -> None:
    keep = tmp_path / "kept"
    with concurrent.futures.ThreadPoolExecutor(1) as threads:
        cosim.sweep(cooler, {"cooler.rate": ["0.25"]}, executor=threads, keep=str(keep))
        other = cooler.set_stop(40)
        with pytest.raises(cosim.UnfitValue, match="it is of another sweep: it has another model; name another file, or remove it"):
            cosim.sweep(other, {"cooler.rate": ["0.25"]}, executor=threads, keep=str(keep))
        with pytest.raises(cosim.UnfitValue, match=r"it has the parameters \['cooler.rate'\], and this sweep has \[\]"):
            cosim.sweep(cooler, {}, executor=threads, keep=str(keep))
        for content in (b"time,index\n", b"no line feed", b"[]\n", b"[" * 100_000, b"7\n"):
            keep.write_bytes(content)
            with pytest.raises(cosim.UnfitValue, match="it isn't a file of a sweep"):
                cosim.sweep(cooler, {"cooler.rate": ["0.25"]}, executor=threads, keep=keep)
            assert keep.read_bytes() == content


def test_a_file_of_another_measure(cooler: cosim.Model, tmp_path: pathlib.Path) -> None:
    keep = tmp_path / "kept"
    rows, others = functools.partial(measures.named, "rows"), functools.partial(measures.named, name="rows")
    with concurrent.futures.ThreadPoolExecutor(1) as threads:

        def run(measure: Any) -> cosim.Sweep:
            return cosim.sweep(cooler, {"cooler.rate": ["0.25"]}, measure, threads, keep)

        assert last_of(run(measures.last)) == [Decimal("0.25")]
        wrong: List[Any] = [None, len, measures.several, rows]
        for measure in wrong:
            with pytest.raises(cosim.UnfitValue, match="it has the measure 'measures.last', and this sweep has "):
                run(measure)
        assert last_of(run(measures.last)) == [Decimal("0.25")]
        keep.unlink()
        assert run(rows).rows[0].measures == {"rows": 4}
        assert run(functools.partial(measures.named, "rows")).rows[0].measures == {"rows": 4}
        for measure in (functools.partial(measures.named, "cold"), others):
            with pytest.raises(cosim.UnfitValue, match=r"it has the measure \"measures.named\('rows'\)\""):
                run(measure)


@pytest.mark.parametrize(
    "line",
    [
        b"7\n",
        b"{}\n",
        b"no JSON\n",
        b'{"literals": ["0.25"]}\n',
        b'{"literals": ["0.25", "1"], "outcome": "completed", "note": "", "measures": {}}\n',
        b'{"literals": [0.25], "outcome": "completed", "note": "", "measures": {}}\n',
        b'{"literals": ["0.25"], "outcome": 7, "note": "", "measures": {}}\n',
        b'{"literals": ["0.25"], "outcome": "completed", "note": "", "measures": []}\n',
        b'{"literals": ["0.25"], "outcome": "completed", "note": "", "measures": {"measure": {"Decimals": "1"}}}\n',
        b'{"literals": ["0.25"], "outcome": "completed", "note": "", "measures": {"measure": {"Decimal": "x"}}}\n',
        b'{"literals": ["0.25"], "outcome": "completed", "note": "", "measures": {"measure": {"Fraction": "1/0"}}}\n',
        b'{"literals": ["0.25"], "outcome": "completed", "note": "", "measures": {"measure": [1]}}\n',
    ],
)
def test_lines_of_a_file_that_are_no_run(cooler: cosim.Model, tmp_path: pathlib.Path, line: bytes) -> None:
    keep = tmp_path / "kept"
    with concurrent.futures.ThreadPoolExecutor(1) as threads:
        cosim.sweep(cooler, {"cooler.rate": ["0.30"]}, measures.last, threads, keep)
        content = keep.read_bytes() + line
        keep.write_bytes(content)
        with pytest.raises(cosim.UnfitValue, match="kept:3: this line isn't that of a run"):
            cosim.sweep(cooler, {"cooler.rate": ["0.25"]}, measures.last, threads, keep)
    assert keep.read_bytes() == content


def test_what_is_no_file_keeps_nothing(cooler: cosim.Model, tmp_path: pathlib.Path) -> None:
    pipe = tmp_path / "pipe"
    os.mkfifo(pipe)
    paths: List[Any] = ["/dev/full", "/dev/zero", tmp_path, pipe]
    for path in paths:
        with pytest.raises(cosim.UnfitValue, match="it isn't a file"):
            cosim.sweep(cooler, {"cooler.rate": ["0.25"]}, keep=path)


def test_a_long_file_of_another_sort(cooler: cosim.Model, tmp_path: pathlib.Path) -> None:
    """A file of many gigabytes that takes no room on the disk: no more than a line of it is read."""
    keep = tmp_path / "kept"
    with open(keep, "wb") as file:
        file.truncate(1 << 34)
    with pytest.raises(cosim.UnfitValue, match="it isn't a file of a sweep"):
        cosim.sweep(cooler, {"cooler.rate": ["0.25"]}, keep=keep)


def test_measures_of_numpy(cooler: cosim.Model, tmp_path: pathlib.Path) -> None:
    pytest.importorskip("numpy")
    wanted = {"whole": 4, "byte": 200, "truth": True, "exact": 0.1, "half": 0.5, "empty": 7, "text": "x"}
    keep = tmp_path / "kept"
    for _ in range(2):
        with concurrent.futures.ThreadPoolExecutor(1) as threads:
            sweep = cosim.sweep(cooler, {"cooler.rate": ["0.25"]}, measures.of_numpy, threads, keep)
        assert sweep.rows[0].measures == wanted
        assert [type(value) for value in sweep.rows[0].measures.values()] == [type(value) for value in wanted.values()]
    with concurrent.futures.ThreadPoolExecutor(1) as threads:
        failed = cosim.sweep(cooler, {"cooler.rate": ["0.25"]}, measures.array, threads)
    assert (failed.rows[0].outcome, failed.rows[0].note[:28]) == ("measure failed", "UnfitValue: a measure is a n")


@pytest.mark.parametrize("is_given", [True, False])
def test_a_process_that_is_killed_is_a_row(cooler: cosim.Model, tmp_path: pathlib.Path, is_given: bool) -> None:
    keep = tmp_path / "kept"
    rates = [*RATES[20:30], "0.70"]
    pool = concurrent.futures.ProcessPoolExecutor(2) if is_given else None
    sweep = cosim.sweep(cooler, {"cooler.rate": rates}, measures.kills, pool, keep)
    assert [row.parameters["cooler.rate"] for row in sweep] == [Decimal(rate) for rate in rates]
    lost = [row for row in sweep if row.outcome == "worker lost"]
    assert [row.parameters["cooler.rate"] for row in lost] == [Decimal("0.25")]
    assert lost[0].measures == {} and "terminated" in lost[0].note
    assert [row.measures["measure"] for row in sweep if row not in lost] == [1 - 3 * Decimal(rate) for rate in rates if rate != "0.25"]
    # The next call makes the run that was lost.
    assert sorted(json.loads(line)["literals"][0] for line in keep.read_bytes().splitlines()[1:]) == sorted({*rates} - {"0.25"})
    if pool:
        pool.shutdown()


def test_runs_of_a_killed_process_are_made_again(cooler: cosim.Model, tmp_path: pathlib.Path) -> None:
    begun = tmp_path / "begun"
    begun.touch()
    sweep = cosim.sweep(cooler, {"cooler.rate": RATES}, functools.partial(measures.kills_once, str(begun)))
    assert not begun.exists()
    assert last_of(sweep) == LAST


def test_a_pool_that_was_broken_before(cooler: cosim.Model) -> None:
    with concurrent.futures.ProcessPoolExecutor(1) as pool:
        with pytest.raises(BrokenProcessPool):
            pool.submit(os.kill, os.getpid(), 0).result()
            pool.submit(os._exit, 1).result()
        assert last_of(cosim.sweep(cooler, {"cooler.rate": RATES[:3]}, measures.last, pool)) == LAST[:3]


def test_progress_without_tqdm_is_a_few_lines(
    cooler: cosim.Model, monkeypatch: pytest.MonkeyPatch, capsys: pytest.CaptureFixture[str]
) -> None:
    modules: Dict[str, Any] = sys.modules
    monkeypatch.setitem(modules, "tqdm", None)
    rates = [f"{hundredths / 100:.2f}" for hundredths in range(200)]
    with concurrent.futures.ThreadPoolExecutor(4) as threads:
        cosim.sweep(cooler, {"cooler.rate": rates}, executor=threads, progress=True)
        lines = capsys.readouterr().err.splitlines()
        assert (lines[0], lines[1], lines[-1]) == ("cosim: 0 of 200 runs", "cosim: 10 of 200 runs", "cosim: 200 of 200 runs")
        assert len(lines) == 21
        cosim.sweep(cooler, {"cooler.rate": []}, executor=threads, progress=True)
        assert capsys.readouterr().err == "cosim: 0 of 0 runs\n"


def test_frame_has_exact_values(cooler: cosim.Model) -> None:
    pytest.importorskip("pandas")
    with concurrent.futures.ThreadPoolExecutor(1) as threads:
        frame = cosim.sweep(cooler, {"cooler.rate": ["0.25", "0.30"]}, measures.last, threads).frame()
    assert list(frame["measure"]) == [Decimal("0.25"), Decimal("0.10")]
    assert list(frame.columns) == ["cooler.rate", "outcome", "note", "measure"]


def test_a_worker_of_a_cluster_is_killed(cooler: cosim.Model, tmp_path: pathlib.Path) -> None:
    distributed = pytest.importorskip("distributed")
    keep = tmp_path / "kept"
    killed: Set[int] = set()
    with distributed.LocalCluster(n_workers=2, threads_per_worker=1, processes=True, dashboard_address=None) as cluster:
        with distributed.Client(cluster) as client:

            def kill(done: int, _: int) -> None:
                if done >= 5 and not killed:
                    worker = sorted(client.run(os.getpid).values())[0]
                    killed.add(worker)
                    os.kill(worker, signal.SIGKILL)

            sweep = cosim.sweep(cooler, {"cooler.rate": RATES}, measures.last, client, str(keep), kill)
    assert len(killed) == 1 and os.getpid() not in killed
    assert last_of(sweep) == LAST
    lines = [json.loads(line) for line in keep.read_bytes().splitlines()]
    assert sorted(line["literals"][0] for line in lines[1:]) == RATES, "nothing is lost or doubled"
