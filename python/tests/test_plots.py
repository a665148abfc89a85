"""Plots: what is drawn, by the numbers that matplotlib got."""
import os
import pathlib
from typing import Any, List

import pytest

import cosim
from cosim.plots import bands
from commands import call, refuse_runs
from texts import COOLER, DIVIDES, EVENTS, STUCK

pytest.importorskip("matplotlib")


def lines_of(axes: Any) -> List[Any]:
    return [line for line in axes.get_lines() if len(line.get_xdata()) and line.get_linestyle() != ":"]


def test_values_are_steps_and_truth_values_bands() -> None:
    figure = cosim.Model.from_text(COOLER).run().plot()
    numbers, truth = figure.axes
    line = lines_of(numbers)[0]
    assert line.get_drawstyle() == "steps-post"
    assert (list(line.get_xdata()), list(line.get_ydata())) == ([0, 10, 20, 30], [1.0, 0.75, 0.5, 0.25])
    assert [numbers.get_title("left"), truth.get_title("left")] == ["cooler.degrees_now", "cooler.cold"]
    band = truth.collections[0].get_paths()[0].vertices
    assert (band[:, 0].min(), band[:, 0].max()) == (20, 30)
    assert [label.get_text() for label in truth.get_yticklabels()] == ["false", "true"]
    assert truth.get_xlabel() == "seconds"


def test_events_are_marks() -> None:
    axes = cosim.Model.from_text(EVENTS).run().plot(["source.square"]).axes
    assert len(axes) == 1
    line = lines_of(axes[0])[0]
    assert (list(line.get_xdata()), list(line.get_ydata())) == ([1, 3], [1, 9])
    assert (line.get_linestyle(), line.get_marker()) == ("None", "o")


def test_several_points_at_one_time_have_a_vertical_line() -> None:
    axes = cosim.Model.from_text(STUCK).run().plot().axes[0]
    assert [list(line.get_xdata()) for line in axes.get_lines() if line.get_linestyle() == ":"] == [[3, 3]]


def test_bands() -> None:
    assert bands([0, 1, 2, 3, 4], [True, True, False, True, False]) == [(0, 2), (3, 4)]
    assert bands([0, 5], [False, False]) == []
    assert bands([7], [True]) == [(7, 7)]


def test_unfit_names() -> None:
    trace = cosim.Model.from_text(COOLER).run()
    with pytest.raises(cosim.UnknownName, match="there is no column cooler.hot"):
        trace.plot(["cooler.hot"])
    with pytest.raises(cosim.UnfitValue, match="is one name"):
        trace.plot("cooler.cold")
    with pytest.raises(cosim.UnfitValue, match="0 columns can't be drawn"):
        trace.plot([])


@pytest.mark.parametrize("end, begins", [("svg", b"<?xml"), ("png", b"\x89PNG"), ("pdf", b"%PDF")])
def test_the_command_writes_a_picture(examples: pathlib.Path, tmp_path: pathlib.Path, end: str, begins: bytes) -> None:
    picture = tmp_path / f"plot.{end}"
    called = call("plot", str(examples / "heater.cosim"), "-o", str(picture), "--columns", "plate.degrees", "thermostat.on")
    assert (called.returncode, called.stderr, called.stdout) == (0, "", "")
    assert picture.read_bytes().startswith(begins)
    assert os.listdir(tmp_path) == [picture.name]


def test_the_command_says_how_a_run_ended(tmp_path: pathlib.Path) -> None:
    model, picture = tmp_path / "model.cosim", tmp_path / "plot.svg"
    model.write_text(DIVIDES)
    called = call("plot", str(model), "-o", str(picture))
    assert (called.returncode, called.stderr) == (8, "cosim: fault 3 of a output y at 2,0\n")
    assert picture.exists()


def test_the_command_with_mistakes(
    examples: pathlib.Path, tmp_path: pathlib.Path, tmp_path_factory: pytest.TempPathFactory, monkeypatch: pytest.MonkeyPatch
) -> None:
    heater, picture = str(examples / "heater.cosim"), str(tmp_path / "plot.svg")
    mistake = str(examples / "mistakes" / "two-stops.cosim")
    cases = [
        (("plot", "/nowhere.cosim", "-o", picture), 1, "/nowhere.cosim: No such file or directory\n"),
        (("plot", mistake, "-o", picture), 3, f"{mistake}:8: rule 5: a line isn't allowed there\n"),
        (("plot", heater, "-o", picture, "--columns", "a.b"), 2, "cosim: there is no column a.b"),
        (("plot", heater, "-o", picture, "--until", "-1"), 2, ""),
        (("plot", heater, "-o", picture, "--until", "x"), 2, "cosim: until: 'x' is no number\n"),
        (("plot", heater, "-o", str(tmp_path / "plot.gif")), 2, ""),
        (("plot", heater, "-o", "/nowhere/plot.svg", "--columns", "a.b"), 2, "cosim: there is no column a.b"),
        (("plot", heater, "-o", str(tmp_path), "--columns", "a.b"), 2, ""),
        (("plot", heater, "-o", "/nowhere/plot.svg"), 5, "/nowhere/plot.svg: No such file or directory\n"),
        (("plot", heater, "-o", "/dev/full.svg/x.svg"), 5, "/dev/full.svg/x.svg: No such file or directory\n"),
        (("plot", heater), 2, ""),
        ((), 2, ""),
    ]
    # The mistakes are found before a run, which would take its time.
    monkeypatch.setenv("COSIM", refuse_runs(tmp_path_factory.mktemp("program"), os.environ["COSIM"]))
    for words, status, begins in cases:
        called = call(*words)
        assert (called.returncode, called.stdout) == (status, ""), (words, called)
        assert called.stderr.startswith(begins) and called.stderr and "Traceback" not in called.stderr, (words, called)
        assert os.listdir(tmp_path) == []


def test_without_matplotlib(examples: pathlib.Path, tmp_path: pathlib.Path, monkeypatch: pytest.MonkeyPatch) -> None:
    """What is missing is named before the run."""
    modules, output = tmp_path / "modules", tmp_path / "plot.svg"
    modules.mkdir()
    (modules / "matplotlib.py").write_text("raise ModuleNotFoundError(\"No module named 'matplotlib'\", name='matplotlib')\n")
    monkeypatch.setenv("PYTHONPATH", str(modules))
    monkeypatch.setenv("COSIM", refuse_runs(tmp_path, os.environ["COSIM"]))
    called = call("plot", str(examples / "heater.cosim"), "-o", str(output))
    assert (called.returncode, called.stderr) == (69, "a plot requires the Python package matplotlib, which isn't there\n")
    assert not output.exists()


@pytest.mark.parametrize("words", [["--help"], ["plot", "--help"], ["report", "-h"]])
def test_help_that_cannot_be_written(words: List[str]) -> None:
    assert call(*words).stdout.startswith("usage: python -m cosim")
    with open("/dev/full", "w", encoding="utf-8") as full:
        called = call(*words, output=full)
    assert (called.returncode, called.stderr) == (5, "the output can't be written: No space left on device\n")
