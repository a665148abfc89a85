"""Step logs and their summaries. What they have is tried on some that a program of these tests writes, and the program cosim-steps
itself where it is there: the variable COSIM_STEPS names it. A program without the option for a summary fails these tests."""
import importlib.util
import os
import pathlib
import pickle
from fractions import Fraction
from typing import List

import pytest

import cosim
from cosim import program
from commands import call
from texts import COOLER

# Two runners, of which the first accepts 4 tenths of a second, and the second is at its limit of 7 tenths.
MODEL = """cosim 1
unit Runner
  resolution 1
  param reach : Int64 = 4
  state way : Int64 = 0
  output metres : Int64 = way
  max 7
  step
    way := way + h
    accept min(h, reach)
  end
end
instance a : Runner
end
instance b : Runner
  reach = 9
end
stop 1
"""
LOG = """time,index,proposed,limited_by,agreed,shortened_by,accepted,redone,held
0.0,0,0.7,a,0.4,a,4,true,0
0.4,0,0.6,stop,0.4,a,4,true,0
0.8,0,0.2,stop,0.2,,,false,0
"""

SUMMARY = """name,limited,shortened,least_limit,faults
step,3,2,,0
stop,2,0,,0
longest,0,0,,0
a,1,2,0.7,0
b,0,0,,0
"""

# Where the program cosim-steps isn't there, these tests say so.
needs_steps = pytest.mark.skipif(not os.access(os.environ.get("COSIM_STEPS", ""), os.X_OK), reason="COSIM_STEPS names no program cosim-steps")


@pytest.fixture
def writes(tmp_path: pathlib.Path, monkeypatch: pytest.MonkeyPatch) -> "Writes":
    return Writes(tmp_path, monkeypatch)


class Writes:
    """Makes a program in place of cosim-steps, which writes a log or a summary and a note, and ends with a status."""

    def __init__(self, folder: pathlib.Path, monkeypatch: pytest.MonkeyPatch) -> None:
        self.folder = folder
        self.monkeypatch = monkeypatch

    def __call__(self, output: str = LOG, note: str = "", status: int = 0, summary: str = SUMMARY) -> None:
        for name, text in (("output", output), ("output--summary", summary), ("note", note)):
            (self.folder / name).write_text(text)
        path = self.folder / "steps"
        lines = ("#!/bin/sh", f'cd "{self.folder}"', "cat > given", 'printf %s "$*" > words', 'cat "output$*"', "cat note >&2", f"exit {status}")
        path.write_text("".join(f"{line}\n" for line in lines))
        path.chmod(0o755)
        self.monkeypatch.setenv("COSIM_STEPS", str(path))

    @property
    def given(self) -> str:
        """The text that the program got."""
        return (self.folder / "given").read_text()

    @property
    def words(self) -> str:
        """The words of its call."""
        return (self.folder / "words").read_text()


def test_a_log(writes: Writes) -> None:
    writes()
    log = cosim.Model.from_text(MODEL).steps()
    assert (writes.given, writes.words) == (MODEL, "")
    assert len(log) == 3 and list(log) == log.rows and log.to_csv() == LOG.encode()
    tenth = Fraction(1, 10)
    assert log[0] == cosim.Step(Fraction(0), 0, 7 * tenth, "a", 4 * tenth, "a", 4, True, 0)
    assert log[2] == cosim.Step(8 * tenth, 0, 2 * tenth, "stop", 2 * tenth, None, None, False, 0)
    assert [step.end for step in log] == [4 * tenth, 8 * tenth, Fraction(1)]
    assert [step.cause for step in log] == ["a, accept", "a, accept", "stop"]
    assert log[2].__class__(Fraction(0), 0, tenth, "b", tenth, None, None, False, 0).cause == "b, max"
    assert [(each.cause, each.steps, each.seconds) for each in log.causes] == [("a, accept", 2, 8 * tenth), ("stop", 1, 2 * tenth)]
    assert log.require_completed() is log
    assert pickle.loads(pickle.dumps(log)).rows == log.rows


def test_a_log_in_a_file(writes: Writes, tmp_path: pathlib.Path) -> None:
    writes()
    cosim.Model.from_text(MODEL).steps().to_csv(tmp_path / "log.csv")
    assert (tmp_path / "log.csv").read_text() == LOG


def test_a_run_that_ends_early(writes: Writes) -> None:
    writes(note="cosim: a refused 4, accepted 3, at 0.8,0\n", status=9)
    log = cosim.Model.from_text(MODEL).steps()
    assert (log.outcome.kind, log.outcome.component, log.outcome.time) == ("step refused", "a", Fraction(4, 5))
    with pytest.raises(cosim.StepRefused):
        log.require_completed()


def test_a_text_that_is_refused(writes: Writes) -> None:
    writes("", "cosim: line 2: rule 4\n", 3)
    with pytest.raises(cosim.Refused) as caught:
        cosim.Model.from_text(MODEL).steps()
    assert (caught.value.line, caught.value.rule) == (2, 4)


def test_programs_that_give_no_log(writes: Writes, monkeypatch: pytest.MonkeyPatch) -> None:
    model = cosim.Model.from_text(MODEL)
    cases = (("", "cosim: usage\n", 2, "isn't cosim-steps"), ("hello\n", "", 0, "isn't cosim-steps"), ("", "", 7, "isn't cosim-steps"))
    for output, note, status, message in cases:
        writes(output, note, status)
        with pytest.raises(cosim.NoProgram, match=message):
            model.steps()
    writes("", "cosim: no memory\n", 1)
    with pytest.raises(cosim.NoMemory):
        model.steps()
    writes("", "cosim: the program isn't built yet\n", 69)
    with pytest.raises(cosim.NoProgram, match="isn't built yet"):
        model.steps()
    monkeypatch.setenv("COSIM_STEPS", "/nowhere/cosim-steps")
    with pytest.raises(cosim.NoProgram, match="The variable COSIM_STEPS names another"):
        model.steps()


def test_a_summary(writes: Writes, tmp_path: pathlib.Path) -> None:
    writes()
    summary = cosim.Model.from_text(MODEL).step_summary()
    assert (writes.given, writes.words) == (MODEL, "--summary")
    assert len(summary) == 5 and list(summary) == summary.rows and summary.to_csv() == SUMMARY.encode()
    assert summary["step"] == cosim.StepCounts("step", 3, 2, None, 0)
    assert summary["a"] == cosim.StepCounts("a", 1, 2, Fraction(7, 10), 0)
    assert summary.components == [summary["a"], summary["b"]]
    assert [each.name for each in summary] == ["step", "stop", "longest", "a", "b"]
    assert summary.records[3] == ["a", "1", "2", "0.7", "0"]
    with pytest.raises(cosim.UnknownName, match="no line 'stopp'; there are stop"):
        summary["stopp"]
    assert summary.require_completed() is summary and summary.outcome.completed
    assert pickle.loads(pickle.dumps(summary)).rows == summary.rows
    summary.to_csv(tmp_path / "summary.csv")
    assert (tmp_path / "summary.csv").read_text() == SUMMARY


def test_a_summary_of_a_run_that_ends_early(writes: Writes) -> None:
    writes(note="cosim: fault 3 of a step at 0.8,0\n", status=8, summary=SUMMARY.replace(",,0\nstop", ",,1\nstop").replace("0.7,0", "0.7,1"))
    summary = cosim.Model.from_text(MODEL).step_summary()
    assert (summary["step"].faults, summary["a"].faults, summary["b"].faults) == (1, 1, 0)
    assert (summary.outcome.kind, summary.outcome.component, summary.outcome.fault) == ("fault", "a", 3)
    with pytest.raises(cosim.Fault):
        summary.require_completed()


def test_programs_that_give_no_summary(writes: Writes) -> None:
    model = cosim.Model.from_text(MODEL)
    cases = (("", "cosim: usage\n", 2), (LOG, "", 0), ("", "", 7), (SUMMARY[:-1].replace("name", "names"), "", 0))
    for summary, note, status in cases:
        writes(note=note, status=status, summary=summary)
        with pytest.raises(cosim.NoProgram, match="isn't cosim-steps, or it has no option --summary"):
            model.step_summary()
    writes(note="cosim: line 2: rule 4\n", status=3, summary="")
    with pytest.raises(cosim.Refused):
        model.step_summary()
    writes(note="cosim: no memory\n", status=1, summary="")
    with pytest.raises(cosim.NoMemory):
        model.step_summary()


def test_a_frame_of_a_summary(writes: Writes) -> None:
    pandas = pytest.importorskip("pandas")
    writes()
    summary = cosim.Model.from_text(MODEL).step_summary()
    frame = summary.frame()
    assert list(frame.index) == ["step", "stop", "longest", "a", "b"] and frame.index.name == "name"
    assert frame.loc["a", "shortened"] == 2 and str(frame.loc["a", "least_limit"]) == "0.7" and frame.loc["b", "least_limit"] is None
    assert [str(frame[name].dtype) for name in frame.columns] == ["int64", "int64", "object", "int64"]
    assert frame.attrs["floats"] == []
    frame = summary.frame(floats=True)
    assert frame.loc["a", "least_limit"] == 0.7 and pandas.isna(frame.loc["b", "least_limit"])
    assert frame.attrs["floats"] == ["least_limit"]
    writes(summary=SUMMARY.replace("0.7", "7"))
    frame = cosim.Model.from_text(MODEL.replace("  resolution 1\n", "")).step_summary().frame(floats=True)
    assert str(frame["least_limit"].dtype) == "Int64" and frame.loc["a", "least_limit"] == 7
    assert frame.loc["b", "least_limit"] is pandas.NA and frame.attrs["floats"] == []


def test_the_program_that_is_asked(monkeypatch: pytest.MonkeyPatch) -> None:
    monkeypatch.delenv("COSIM_STEPS", raising=False)
    monkeypatch.setattr(program, "REPOSITORY", "/repository")
    assert program.program(program.STEPS) == "/repository/cosim-steps"
    monkeypatch.setattr(program, "REPOSITORY", "")
    monkeypatch.setenv("PATH", "/nowhere")
    assert program.program(program.STEPS) == "cosim-steps"


def test_the_log_of_a_trace(writes: Writes) -> None:
    writes()
    model = cosim.Model.from_text(MODEL)
    assert model.run().steps().to_csv() == LOG.encode()
    with pytest.raises(cosim.UnfitValue, match="no run of a model"):
        cosim.Trace.of_table(model.run().to_csv(), model.system.columns, 1, "rows").steps()


def test_a_frame(writes: Writes) -> None:
    pandas = pytest.importorskip("pandas")
    writes()
    frame = cosim.Model.from_text(MODEL).steps().frame()
    assert [str(time) for time in frame.index] == ["0.0", "0.4", "0.8"]
    assert [str(length) for length in frame["agreed"]] == ["0.4", "0.4", "0.2"]
    assert list(frame["limited_by"]) == ["a", "stop", "stop"] and frame["shortened_by"][frame.index[2]] is None
    assert frame["accepted"].iloc[0] == 4 and frame["accepted"].iloc[2] is pandas.NA
    types = [str(frame[name].dtype) for name in ("index", "proposed", "accepted", "redone", "held")]
    assert types == ["int64", "object", "Int64", "bool", "int64"]
    frame = cosim.Model.from_text(MODEL).steps().frame(floats=True)
    assert list(frame["proposed"]) == [0.7, 0.6, 0.2] and str(frame.index.dtype) == "float64"
    assert frame.attrs["floats"] == ["time", "proposed", "agreed"]


def test_a_plot(writes: Writes) -> None:
    pytest.importorskip("matplotlib")
    writes()
    model = cosim.Model.from_text(MODEL)
    trace = model.run()
    figure = trace.plot(["a.metres"], steps=True)
    assert len(figure.axes) == 2
    axes = figure.axes[1]
    assert [label.get_text() for label in axes.get_legend().get_texts()] == ["a, accept", "stop"]
    assert [[list(segment[:, 0]) for segment in lines.get_segments()] for lines in axes.collections] == [[[0.0, 0.4], [0.4, 0.8]], [[0.8, 1.0]]]
    assert [list(segment[:, 1]) for segment in axes.collections[0].get_segments()] == [[0.4, 0.4], [0.4, 0.4]]
    assert axes.get_xlabel() == "seconds" and figure.axes[0].get_xlabel() == ""
    assert len(trace.plot(["a.metres"], steps=model.steps()).axes) == 2
    early = model.run(until="0.5")
    assert sum(len(lines.get_segments()) for lines in early.plot(steps=True).axes[-1].collections) == 1


def test_a_page(writes: Writes) -> None:
    pytest.importorskip("plotly")
    writes()
    model = cosim.Model.from_text(MODEL)
    page = cosim.report(model, steps=True).decode()
    assert '<th scope="row">a, accept</th><td>2</td><td>0.8</td><td>0.4</td><td>0.4</td>' in page
    assert "The step log: 3 lines" in page and '<a href="#steps">' in page
    counts = '<th scope="row">a</th><td>1</td><td>2</td><td>0.7</td><td>0</td>'
    assert page.index('id="steps"') < page.index(counts) < page.index('<th scope="row">a, accept</th>')
    assert counts not in cosim.report(model).decode()
    assert '<a href="#steps">' not in cosim.report(model).decode()
    assert cosim.report(model, steps=model.steps()).decode() == page


@pytest.mark.skipif(importlib.util.find_spec("matplotlib") is None, reason="there is no matplotlib")
def test_the_command(writes: Writes, tmp_path: pathlib.Path) -> None:
    writes()
    model, picture = tmp_path / "model.cosim", tmp_path / "picture.svg"
    model.write_text(MODEL)
    assert call("plot", str(model), "-o", str(picture), "--steps").returncode == 0
    assert "length of steps" in picture.read_text()
    writes("", "cosim: usage\n", 2)
    called = call("plot", str(model), "-o", str(picture), "--steps")
    assert called.returncode == 69 and "isn't cosim-steps" in called.stderr


@pytest.mark.skipif(importlib.util.find_spec("plotly") is None, reason="there is no plotly")
def test_the_command_writes_a_page(writes: Writes, tmp_path: pathlib.Path) -> None:
    writes()
    model, page = tmp_path / "model.cosim", tmp_path / "page.html"
    model.write_text(MODEL)
    assert call("report", str(model), "-o", str(page), "--steps").returncode == 0
    assert "The step log: 3 lines" in page.read_text() and "<td>1</td><td>2</td><td>0.7</td><td>0</td>" in page.read_text()
    writes("", "cosim: usage\n", 2)
    called = call("report", str(model), "-o", str(page), "--steps")
    assert called.returncode == 69 and "isn't cosim-steps" in called.stderr


@needs_steps
def test_the_program_itself(examples: pathlib.Path) -> None:
    assert cosim.Model.from_text(MODEL).steps().to_csv() == LOG.encode()
    for name in ("counter", "heater", "power", "rates", "commands"):
        model = cosim.Model.read(examples / f"{name}.cosim")
        log, trace = model.steps(), model.run()
        assert [(step.time, step.index) for step in log] == list(zip(trace.time, trace.index))[:-1]
        assert log.outcome == trace.outcome


@needs_steps
def test_groups(groups: cosim.Model) -> None:
    lengths: List[Fraction] = [step.agreed for step in groups.steps()]
    assert sum(lengths) == groups.stop


@needs_steps
def test_a_model_that_was_changed() -> None:
    log = cosim.Model.from_text(COOLER).set_stop(20).steps()
    assert [step.limited_by for step in log] == ["longest", "stop"]


@needs_steps
def test_the_program_summarizes_its_log(examples: pathlib.Path) -> None:
    assert cosim.Model.from_text(MODEL).step_summary().to_csv() == SUMMARY.encode()
    for name in ("counter", "heater", "power", "rates", "commands"):
        model = cosim.Model.read(examples / f"{name}.cosim")
        summary, log = model.step_summary(), model.steps()
        assert summary.outcome == log.outcome
        assert (summary["step"].limited, summary["step"].shortened) == (len(log), sum(step.redone for step in log))
        assert summary["step"].faults == 0 and len(summary.components) == min(16, len(model.instances))
        for each in summary.rows[1:]:
            limits = [step.proposed for step in log if step.limited_by == each.name]
            least = None if each.name in ("stop", "longest") else min(limits, default=None)
            assert (each.limited, each.least_limit) == (len(limits), least)
            assert each.shortened == sum(step.shortened_by == each.name for step in log)


@needs_steps
def test_summaries_of_other_texts(groups: cosim.Model) -> None:
    summary = groups.step_summary()
    assert summary["step"].limited == len(groups.steps()) and {each.name for each in summary.components} <= set(groups.instances)
    assert cosim.Model.from_text(COOLER).set_stop(20).step_summary()["longest"].limited == 1
    with pytest.raises(cosim.Refused):
        cosim.Model.from_text("cosim 1\nunit\n").step_summary()
