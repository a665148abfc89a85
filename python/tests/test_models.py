"""Models: parts, settings, refusals and runs."""
import os
import pathlib
import pickle
import resource
import select
import shutil
import signal
import subprocess
import sys
from decimal import Decimal
from fractions import Fraction
from typing import Any, Callable, List, Optional, Tuple

import pytest

import cosim
from cosim import program
from texts import COOLER, DIVIDES, HALVES, NESTED


def test_run_has_the_bytes_of_the_program(examples: pathlib.Path) -> None:
    for name in ("counter", "heater", "commands", "safe-mode", "power", "rates"):
        trace = cosim.Model.read(examples / f"{name}.cosim").run()
        assert trace.to_csv() == (examples / f"{name}.csv").read_bytes()
        assert trace.outcome.completed


def test_workers_change_nothing(heater: cosim.Model) -> None:
    assert heater.run(workers=2, window=3, guess="linear").to_csv() == heater.run().to_csv()


def test_parts() -> None:
    model = cosim.Model.from_text(COOLER)
    unit = model.units["Cooler"]
    assert unit.resolution == 0
    assert unit.parameters["rate"] == ("rate", "Fixed 2", "0.25")
    assert unit.states["degrees"] == ("degrees", "Fixed 2", "1.00")
    assert model.instances == {"cooler": ("cooler", "Cooler", {})}
    assert [(str(port), port.type, port.is_input) for port in model.ports] == [
        ("cooler.degrees_now", "Fixed 2", False),
        ("cooler.cold", "Bool", False),
    ]
    assert model.connections == []
    assert model.stop == 30


def test_connections(heater: cosim.Model) -> None:
    assert [f"{start}->{end}" for start, end in heater.connections] == [
        "plate.degrees->thermostat.degrees",
        "thermostat.on->heater.on",
        "heater.power->plate.power",
        "heater.power->battery.load",
    ]
    assert heater.instances["thermostat"].settings == {"low": "18.50"}


def test_set_returns_another_model() -> None:
    model = cosim.Model.from_text(COOLER)
    faster = model.set("cooler.rate", "0.5")
    assert model.run()["cooler.degrees_now"] == [Decimal(text) for text in ("1.00", "0.75", "0.50", "0.25")]
    assert faster.run()["cooler.degrees_now"] == [Decimal(text) for text in ("1.00", "0.50", "0.00", "-0.50")]
    assert faster.parameter("cooler.rate") == Decimal("0.50")
    assert model.parameter("cooler.rate") == Decimal("0.25")
    assert b"instance cooler:Cooler\nrate=0.50\nend\n" in faster.canonical
    assert b"rate=-0.25\n" in faster.set("cooler.rate", Decimal("-0.25")).canonical
    assert faster.set("cooler.rate", Fraction(1, 4)).run().to_csv() == model.run().to_csv()


def test_a_setting_is_replaced(heater: cosim.Model) -> None:
    colder = heater.set_all({"thermostat.low": 17, "thermostat.high": "19.5"})
    assert b"instance thermostat:Thermostat\nlow=17.00\nhigh=19.50\nend\n" in colder.canonical
    colder.check()


def test_set_unit(heater: cosim.Model) -> None:
    changed = heater.set_unit("Thermostat", "low", "17.00")
    assert changed.units["Thermostat"].parameters["low"].value == "17.00"
    assert changed.parameter("thermostat.low") == Decimal("18.50"), "the instance sets it"
    assert heater.set_unit("Plate", "cooling", "0.60").parameter("plate.cooling") == Decimal("0.60")


def test_set_within_groups() -> None:
    model = cosim.Model.from_text(NESTED)
    assert model.components == {"pair.left": "pair_left", "pair.right": "pair_right"}
    changed = model.set("pair.left.by", 5).set("pair.right.by", -2)
    assert changed.run()["pair_left.y"] == [0, 5, 10]
    assert changed.run()["pair_right.y"] == [0, -2, -4]
    assert changed.parameter("pair.right.by") == -2
    assert model.run()["pair_left.y"] == [0, 1, 2]
    with pytest.raises(cosim.UnknownName, match="no component 'pair'"):
        model.set("pair.by", 1)


def test_flatten(groups: cosim.Model, examples: pathlib.Path) -> None:
    assert groups.flatten().text == (examples / "groups" / "bus.flat.cosim").read_bytes()
    assert groups.run().to_csv() == (examples / "groups" / "bus.csv").read_bytes()
    assert groups.has_groups and not groups.flatten().has_groups


UNFIT: List[Tuple[str, Any, str]] = [
    ("cooler.rate", "0.125", "cooler.rate: '0.125' is no Fixed 2, which is a number with at most 2 decimals"),
    ("cooler.rate", 0.5, "cooler.rate: 0.5 is a float, which may be another number than was written; write '0.5'"),
    ("cooler.rate", "+1", "cooler.rate: '+1' is no number"),
    ("cooler.rate", "1e1", "cooler.rate: '1e1' is no number"),
    ("cooler.rate", "", "cooler.rate: '' is no number"),
    ("cooler.rate", None, "cooler.rate: None is no number"),
    ("cooler.rate", True, "cooler.rate: True is no number"),
    ("cooler.rate", Decimal("NaN"), "cooler.rate: Decimal('NaN') is no number"),
    (
        "cooler.rate",
        10**17,
        "cooler.rate: 100000000000000000 is out of the range of Fixed 2, which is from -92233720368547758.08 to 92233720368547758.07",
    ),
]


@pytest.mark.parametrize("name, value, message", UNFIT)
def test_unfit_values(name: str, value: Any, message: str) -> None:
    with pytest.raises(cosim.UnfitValue) as caught:
        cosim.Model.from_text(COOLER).set(name, value)
    assert str(caught.value) == message


@pytest.mark.parametrize("value", [128, -129, "1.0", "true"])
def test_unfit_whole_numbers(value: Any) -> None:
    with pytest.raises(cosim.UnfitValue, match="pair.left.by: "):
        cosim.Model.from_text(NESTED).set("pair.left.by", value)


@pytest.mark.parametrize(
    "name, message",
    [
        ("coler.rate", "coler.rate: there is no component 'coler'; there are cooler"),
        ("cooler.rat", "cooler.rat: the unit Cooler has no parameter 'rat'; there are rate"),
        ("cooler.degrees", "cooler.degrees: the unit Cooler has no parameter 'degrees'; there are rate"),
        ("rate", "rate: there is no component ''; there are cooler"),
    ],
)
def test_unknown_names(name: str, message: str) -> None:
    with pytest.raises(cosim.UnknownName) as caught:
        cosim.Model.from_text(COOLER).set(name, 1)
    assert str(caught.value) == message


def test_unknown_unit() -> None:
    model = cosim.Model.from_text(COOLER)
    with pytest.raises(cosim.UnknownName, match="there is no unit 'Coler'; there are Cooler"):
        model.set_unit("Coler", "rate", 1)
    with pytest.raises(cosim.UnknownName, match="the unit Cooler has no parameter 'rat'"):
        model.set_unit("Cooler", "rat", 1)


def test_refused(examples: pathlib.Path) -> None:
    path = examples / "mistakes" / "whole-number-beside-decimals.cosim"
    judges: List[Callable[[cosim.Model], object]] = [cosim.Model.check, cosim.Model.run, lambda model: model.units]
    for judge in judges:
        with pytest.raises(cosim.Refused) as caught:
            judge(cosim.Model.read(path))
        error = pickle.loads(pickle.dumps(caught.value))
        assert (error.line, error.rule, error.status, error.note) == (6, 10, 3, "cosim: line 6: rule 10")
        assert error.title == "a kind is wrong"
        assert error.cure == "give numbers the decimals of the other operand, or convert by `int(x)` and `fix N (x)`"
        assert error.details == ("here: `degrees` is `Fixed 2`, and `1` is `Int`",)
        assert str(error).startswith(f"{path}:6: rule 10: a kind is wrong\n")


def test_refused_within_groups(groups: cosim.Model) -> None:
    text = groups.text.replace(b"load.total -> power.load", b"power.low -> power.load")
    with pytest.raises(cosim.Refused) as caught:
        cosim.Model(text).run()
    assert (caught.value.line, caught.value.rule) == (145, 14)


def test_set_stop() -> None:
    model = cosim.Model.from_text(HALVES)
    assert model.set_stop("0.5").run().time == [0, Fraction(1, 2)]
    assert b"stop 100\n" in model.set_stop(100).canonical
    with pytest.raises(cosim.Refused) as caught:
        model.set_stop("0.25").run()
    assert caught.value.rule == 20
    with pytest.raises(cosim.UnfitValue, match="stop: -1 is below 0"):
        model.set_stop(-1)
    with pytest.raises(cosim.UnfitValue, match="has more than 9 decimals"):
        model.set_stop(Fraction(1, 3))
    model.set_stop(10**14).check()
    for seconds in (10**20, 10**14 + 1):
        with pytest.raises(cosim.UnfitValue, match=f"stop: {seconds} is above 100000000000000.0 seconds, which are 10\\^15 ticks"):
            model.set_stop(seconds)


def test_until(counter: cosim.Model) -> None:
    trace = counter.run(until="1.5")
    assert (trace["a.y"], trace.outcome.kind) == ([0, 1], "stopped")
    assert counter.run(until=3).outcome.kind == "completed"
    assert counter.run(until=9).outcome.kind == "completed"
    assert cosim.Model.from_text(DIVIDES).run(until=1).outcome.kind in ("stopped", "fault")


def test_progress(counter: cosim.Model) -> None:
    seen: List[Tuple[Fraction, Fraction]] = []
    counter.run(progress=lambda time, stop: seen.append((time, stop)))
    assert seen[-1] == (3, 3) and sorted(seen) == seen
    long = cosim.Model.from_text(COOLER).set_stop(10**6)
    stopped = long.run(progress=lambda time, stop: True)
    assert stopped.outcome.kind == "stopped" and 0 < len(stopped) < 100_001


def test_progress_is_shown(counter: cosim.Model, capsys: pytest.CaptureFixture[str]) -> None:
    assert counter.run(progress=True).outcome.completed
    assert "3" in capsys.readouterr().err


def test_an_exception_of_the_watch_ends_the_run() -> None:
    def watch(time: Fraction, stop: Fraction) -> bool:
        raise KeyboardInterrupt

    with pytest.raises(KeyboardInterrupt):
        cosim.Model.from_text(COOLER).set_stop(10**6).run(progress=watch)


def test_rows_as_they_come(counter: cosim.Model) -> None:
    assert [(row.time, row.index, row.values["a.y"]) for row in counter.rows()] == [(n, 0, n) for n in range(4)]
    rows = cosim.Model.from_text(COOLER).set_stop(10**6).rows()
    assert next(rows).values["cooler.degrees_now"] == 1
    rows.close()  # type: ignore[attr-defined]
    rows = cosim.Model.from_text(DIVIDES).rows()
    assert [next(rows).values["a.y"], next(rows).values["a.y"]] == [5, 10]
    with pytest.raises(cosim.Fault):
        next(rows)


@pytest.mark.parametrize("options", [{"workers": 17}, {"workers": -1}, {"window": 17}, {"guess": "square"}])
def test_unfit_options(counter: cosim.Model, options: Any) -> None:
    with pytest.raises(cosim.UnfitValue, match=r"has no form; the options are: \[--workers 0..16\]"):
        counter.run(**options)


def test_upgrade(counter: cosim.Model) -> None:
    upgraded = counter.upgrade()
    assert upgraded.text.startswith(b"cosim 2\n")
    assert upgraded.run().to_csv() == counter.run().to_csv()


def test_stimulus() -> None:
    model = cosim.Model.stimulus("time,v\n0,5\n2,-1\n7,4\n")
    assert (model.run().time, model.run()["table.v"]) == ([0, 2, 7], [5, -1, 4])
    with pytest.raises(cosim.Refused) as caught:
        cosim.Model.stimulus("time,v\n0,5\n0,6\n", "speeds.csv")
    assert caught.value.rule == 36
    assert "the time 0 isn't later than 0" in str(caught.value)


def test_verify(counter: cosim.Model) -> None:
    assert counter.verify(counter.run())
    assert counter.verify(b"time,index,a.y\n0,0,0\n1,0,1\n") == cosim.Verdict(False, 4, 1)
    assert counter.verify("time,index,a.y\n0,0,0\n1,0,1\n2,0,9\n3,0,3\n") == cosim.Verdict(False, 4, 3)
    with pytest.raises(cosim.UnfitValue, match="isn't a whole trace"):
        counter.verify(counter.resume(counter.save(2)))


def test_replay_and_nodes(counter: cosim.Model) -> None:
    replayed = counter.replay(seed=0, workers=1)
    assert replayed.to_csv() == counter.run().to_csv()
    assert replayed.counts["found"] + replayed.counts["own"] == 3, "a step to each row after the first"
    few, all_rows = counter.nodes(seed=0, rounds=2), counter.nodes(seed=0, rounds=7)
    assert (few["a.y"], few.outcome.kind) == ([0, 1], "stopped")
    assert (all_rows["a.y"], all_rows.outcome.kind, all_rows.counts) == ([0, 1, 2, 3], "completed", {"node 0": 3, "node 1": 3})
    with pytest.raises(cosim.UnfitValue, match="--rounds 1..100000"):
        counter.nodes(seed=0, rounds=0)
    assert counter.replay(seed=10**19 - 1, workers=1).to_csv() == counter.run().to_csv()
    for seed in (-1, 10**19):
        with pytest.raises(cosim.UnfitValue, match="--seed N"):
            counter.replay(seed=seed, workers=1)


def test_no_program(counter: cosim.Model, monkeypatch: pytest.MonkeyPatch, tmp_path: pathlib.Path) -> None:
    monkeypatch.setenv("COSIM", "/nowhere/cosim")
    calls: List[Callable[[], object]] = [counter.run, counter.check, lambda: list(counter.rows())]
    for ask in calls:
        with pytest.raises(cosim.NoProgram) as caught:
            ask()
        assert "/nowhere/cosim can't be started: No such file or directory" in str(caught.value)
        assert caught.value.status == 69
    script = tmp_path / "program"
    for commands, kind, message in (
        ("echo 'cosim: no memory' >&2; exit 1", cosim.NoMemory, "no memory"),
        ("kill -9 $$", cosim.ProgramFailed, "signal 9 ended the program"),
        ("echo 'cosim: read fault' >&2; exit 4", cosim.ProgramFailed, "a stream failed: cosim: read fault"),
        ("echo 'cosim: no kit' >&2; exit 69", cosim.NoProgram, "no kit"),
    ):
        script.write_text(f"#!/bin/sh\n{commands}\n")
        script.chmod(0o755)
        monkeypatch.setenv("COSIM", str(script))
        with pytest.raises(kind, match=message):
            counter.check()


def test_a_program_that_is_ended_within_a_row(counter: cosim.Model, monkeypatch: pytest.MonkeyPatch, tmp_path: pathlib.Path) -> None:
    assert counter.canonical and counter.system
    script = tmp_path / "program"
    script.write_text("#!/bin/sh\nprintf 'time,index,a.y\\n0,0,0\\n1'; kill -9 $$\n")
    script.chmod(0o755)
    monkeypatch.setenv("COSIM", str(script))
    calls: List[Callable[[], object]] = [
        counter.run,
        lambda: counter.run(until=5),
        lambda: counter.run(progress=lambda time, stop: False),
        lambda: list(counter.rows()),
    ]
    for ask in calls:
        with pytest.raises(cosim.ProgramFailed, match="signal 9 ended the program"):
            ask()


def program_of(commands: str, folder: pathlib.Path, monkeypatch: pytest.MonkeyPatch) -> None:
    """Lets these commands of a shell be the program."""
    script = folder / "program"
    script.write_text(f"#!/bin/sh\n{commands}\n")
    script.chmod(0o755)
    monkeypatch.setenv("COSIM", str(script))


def test_a_wait_that_is_broken_off_ends_the_program(monkeypatch: pytest.MonkeyPatch, tmp_path: pathlib.Path) -> None:
    """A program that writes no more and doesn't end."""
    program_of("exec sleep 600 >&-", tmp_path, monkeypatch)
    wait = subprocess.Popen.wait
    waiting: List["subprocess.Popen[bytes]"] = []

    def break_off(process: "subprocess.Popen[bytes]", timeout: Optional[float] = None) -> int:
        waiting.append(process)
        if len(waiting) == 1:
            raise KeyboardInterrupt
        return wait(process, timeout)

    monkeypatch.setattr(subprocess.Popen, "wait", break_off)
    with pytest.raises(KeyboardInterrupt):
        program.call(["run"], b"")
    assert [process.returncode for process in waiting] == [-signal.SIGTERM] * 2


def test_a_read_that_is_broken_off_ends_the_program(monkeypatch: pytest.MonkeyPatch, tmp_path: pathlib.Path) -> None:
    program_of("exec sleep 600", tmp_path, monkeypatch)
    reading: List[program.Call] = []

    def break_off(begun: program.Call, _: int = 0) -> bytes:
        reading.append(begun)
        raise KeyboardInterrupt

    monkeypatch.setattr(program.Call, "pieces", break_off)
    with pytest.raises(KeyboardInterrupt):
        program.call(["run"], b"")
    assert [begun.process.returncode for begun in reading] == [-signal.SIGTERM]


def test_a_program_ends_where_its_caller_is_killed(monkeypatch: pytest.MonkeyPatch, tmp_path: pathlib.Path) -> None:
    """Nobody reads its output any more. The pipe `open` is open for writing as long as it runs."""
    is_open = tmp_path / "open"
    os.mkfifo(is_open)
    program_of(f"exec 3> '{is_open}'; echo begun >&3; while echo 0,0; do sleep 0.1; done", tmp_path, monkeypatch)
    number = os.open(is_open, os.O_RDONLY | os.O_NONBLOCK)
    wait = select.poll()
    wait.register(number, select.POLLIN)
    with subprocess.Popen([sys.executable, "-c", "from cosim import program; program.call(['run'], b'')"]) as caller:
        assert wait.poll(60_000) and os.read(number, 6) == b"begun\n"
        caller.kill()
    wait.modify(number, 0)
    assert wait.poll(60_000) == [(number, select.POLLHUP)]
    os.close(number)


def test_an_output_ends_after_its_program(monkeypatch: pytest.MonkeyPatch, tmp_path: pathlib.Path) -> None:
    """As of a script that writes by another process, such as one for a log, and doesn't wait for it."""
    program_of("(sleep 0.5; echo 1,0,7) & echo 0,0,7", tmp_path, monkeypatch)
    assert program.call(["run"], b"") == program.Called(0, b"0,0,7\n1,0,7\n", b"")


def test_outputs_have_no_limit_of_files(counter: cosim.Model, monkeypatch: pytest.MonkeyPatch, tmp_path: pathlib.Path) -> None:
    long = counter.set_stop(5000)
    table = long.run().table
    limit = 4096
    assert len(table) > 2 * limit > 2 * len(long.canonical)
    before = resource.getrlimit(resource.RLIMIT_FSIZE)
    try:
        resource.setrlimit(resource.RLIMIT_FSIZE, (limit, before[1]))
        assert long.run().table == table
    finally:
        resource.setrlimit(resource.RLIMIT_FSIZE, before)
    program_of(f"ulimit -f 4; exec '{program.program()}' \"$@\"", tmp_path, monkeypatch)
    assert long.run().table == table


def test_a_system_without_files_in_memory(heater: cosim.Model, monkeypatch: pytest.MonkeyPatch) -> None:
    table, until = heater.run().table, heater.run(until=600).table

    def refuse(name: str) -> int:
        raise PermissionError(f"no {name}")

    changes: List[Callable[[], object]] = [
        lambda: monkeypatch.setattr(os, "memfd_create", refuse),
        lambda: monkeypatch.delattr(os, "memfd_create"),
    ]
    for change in changes:
        change()
        assert (heater.run().table, heater.run(until=600).table) == (table, until)
        with pytest.raises(cosim.Refused, match="rule 4"):
            cosim.Model.from_text("cosim 1\nno form\n").run()


def test_numbers_of_numpy() -> None:
    numpy = pytest.importorskip("numpy")
    model = cosim.Model.from_text(COOLER)
    assert model.set("cooler.rate", numpy.int64(2)).parameter("cooler.rate") == 2
    with pytest.raises(cosim.UnfitValue, match="is a float"):
        model.set("cooler.rate", numpy.float64(0.5))


def test_no_file() -> None:
    with pytest.raises(FileNotFoundError):
        cosim.Model.read("/nowhere/model.cosim")


def test_a_file_without_an_end() -> None:
    model = cosim.Model.read("/dev/zero")
    with pytest.raises(cosim.Refused) as caught:
        model.check()
    assert (caught.value.line, caught.value.rule) == (1, 2)


def test_what_is_no_text(counter: cosim.Model) -> None:
    for given in (None, 7, ["cosim 1"]):
        takers: List[Callable[[Any], object]] = [cosim.Model.from_text, cosim.Model.stimulus, cosim.Saved.from_text, counter.verify]
        for take in takers:
            with pytest.raises(TypeError, match=f"a text is str or bytes, and not {type(given).__name__}"):
                take(given)


@pytest.mark.parametrize("other", ["true", "false", "echo", "cat"])
def test_another_program(other: str, monkeypatch: pytest.MonkeyPatch) -> None:
    path = shutil.which(other)
    assert path
    monkeypatch.setenv("COSIM", path)
    model = cosim.Model.from_text(COOLER)
    asks: List[Callable[[], object]] = [model.check, model.run, lambda: model.set("cooler.rate", 1), lambda: cosim.Model.stimulus("time,v\n0,5\n")]
    for ask in asks:
        with pytest.raises(cosim.NoProgram) as caught:
            ask()
        assert str(caught.value) == f"the program {path} isn't cosim. The variable COSIM names another"
        assert caught.value.status == 69


@pytest.mark.parametrize("other", ["true", "false", "echo", "cat"])
def test_another_program_of_the_tools(other: str, monkeypatch: pytest.MonkeyPatch, capfd: pytest.CaptureFixture[str]) -> None:
    path = shutil.which(other)
    assert path
    monkeypatch.setenv("COSIM", path)
    for ask, command in ((program.ask, "check"), (program.ask, "print"), (program.ask_first_byte, "resume")):
        assert ask(command, COOLER.encode()) == (69, b"", None, None)
        assert capfd.readouterr() == ("", f"{path}: it isn't cosim\n")
