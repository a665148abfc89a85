"""Reports without a browser: what the call takes, the layout of the picture, and the command."""
import html.parser
import importlib.util
import json
import os
import pathlib
import re
import subprocess
import sys
from typing import Any, Dict, List, Tuple

import pytest

import cosim
from cosim.__main__ import labels_of
from cosim.canonical import read_system
from cosim.reports.layers import forward_edges, layer_numbers, layout_of
from cosim.reports.markup import data_of, hash_of, script_of, text
from cosim.reports.picture import picture
from cosim.reports.sections import source
from commands import call, refuse_runs
from texts import COOLER, DIVIDES, EVENTS, HALVES, REFUSES

needs_plotly = pytest.mark.skipif(importlib.util.find_spec("plotly") is None, reason="there is no plotly")


def data_in(page: bytes) -> Dict[str, Any]:
    """The data for the script of a page."""
    found = re.search(rb'<script id="data" type="application/json">(.*?)</script>', page)
    assert found
    return dict(json.loads(found[1]))


class Reader(html.parser.HTMLParser):
    """Checks that each element ends where it should."""

    def __init__(self) -> None:
        super().__init__()
        self.open: List[str] = []

    def handle_starttag(self, tag: str, attrs: object) -> None:
        if tag not in ("meta", "br"):
            self.open.append(tag)

    def handle_endtag(self, tag: str) -> None:
        assert self.open.pop() == tag


@needs_plotly
def test_the_page_has_the_fields_of_the_trace() -> None:
    model = cosim.Model.from_text(HALVES)
    page = cosim.report(model)
    data = data_in(page)
    assert data["columns"] == [{"name": "half.y", "type": "Int8", "event": False}]
    assert data["traces"] == [{"label": "mine", "rows": 4, "all": 4, "columns": ["0.0,0.5,1.0,1.5", "0,0,0,0", "0,1,2,3"]}]
    assert (data["drawn"], data["differences"]) == ([0], [])
    assert page == cosim.report(model, model.run())


@needs_plotly
def test_the_elements_of_a_page(groups: cosim.Model) -> None:
    reader = Reader()
    page = cosim.report(groups).decode()
    reader.feed(page)
    assert reader.open == []
    assert '<th scope="row">power_battery</th><td>power.battery</td><td>Battery</td>' in page


@needs_plotly
def test_differences_of_times_and_events(tmp_path: pathlib.Path) -> None:
    trace = cosim.Model.from_text(HALVES).run()
    other = cosim.Model.from_text(HALVES.replace("resolution 1", "resolution 2").replace("longest 0.5", "longest 0.75")).run()
    assert data_in(cosim.report(cosim.Model.from_text(HALVES), trace, other))["differences"] == [
        ["0.50", 0, -1, "0.50", None],
        ["0.75", 0, -1, None, "0.75"],
        ["1.00", 0, -1, "1.00", None],
        ["1.50", 0, 0, "3", "2"],
    ]
    model = cosim.Model.from_text(EVENTS)
    changed = cosim.Model.from_text(EVENTS.replace("n == 3", "n == 2")).run()
    assert data_in(cosim.report(model, other=changed))["differences"] == [["2", 0, 2, None, "true"], ["3", 0, 2, "true", None]]


@needs_plotly
def test_columns_that_come_in_another_order() -> None:
    model = cosim.Model.from_text(COOLER + "sample cooler.cold\nsample cooler.degrees_now\n")
    page = cosim.report(model, other=cosim.Model.from_text(COOLER).run())
    mine, other = data_in(page)["traces"]
    assert mine["columns"] == other["columns"] and data_in(page)["differences"] == []


@needs_plotly
def test_unfit_arguments() -> None:
    model = cosim.Model.from_text(COOLER)
    with pytest.raises(cosim.UnknownName, match="there is no column cooler.hot"):
        cosim.report(model, names=["cooler.hot"])
    with pytest.raises(cosim.UnfitValue, match="is one name"):
        cosim.report(model, names="cooler.cold")
    with pytest.raises(cosim.UnknownName, match="only one of the traces has the columns"):
        cosim.report(model, other=cosim.Model.from_text(DIVIDES).run())
    with pytest.raises(cosim.UnfitValue, match="tolerance: 0.1 is a float"):
        cosim.report(model, other=model.run(), tolerance=0.1)  # type: ignore[arg-type]


@needs_plotly
def test_rows_that_are_left_out(monkeypatch: pytest.MonkeyPatch) -> None:
    monkeypatch.setattr("cosim.reports.tables.MOST_FIELDS", 12)
    assert data_in(cosim.report(cosim.Model.from_text(COOLER)))["traces"][0] == {
        "label": "mine",
        "rows": 3,
        "all": 4,
        "columns": ["0,10,20", "0,0,0", "1.00,0.75,0.50", "false,false,true"],
    }


def test_lines_of_a_text_keep_their_numbers() -> None:
    """A browser drops the first line feed of the element."""
    assert source(b"\ncosim 1\r\n") == '<pre tabindex="0">\n\ncosim 1\n</pre>'


def test_texts_and_scripts() -> None:
    assert text("<a href='x'>&\x1b\n") == "&lt;a href=&#x27;x&#x27;&gt;&amp;\\x1b\\n"
    assert data_of(["</script>", "\u2028&"]) == '["\\u003c/script\\u003e","\\u2028\\u0026"]'
    assert script_of("'</script>'\r\n'<!--'\r") == "'<\\/script>'\n'<\\!--'\n"
    assert hash_of("") == "'sha256-47DEQpj8HBSa+/TImW+5JCeuQeRkm5NMpJWZG3hSuFU='"


def test_cycles_close_backwards() -> None:
    names = ["a", "b", "c", "d"]
    forward = forward_edges(names, [("a", "b"), ("b", "c"), ("c", "a"), ("c", "d"), ("a", "d")])
    assert forward == [("a", "b"), ("b", "c"), ("c", "d"), ("a", "d")]
    assert layer_numbers(names, forward) == {"a": 0, "b": 1, "c": 2, "d": 3}
    assert forward_edges(names, []) == [] and layer_numbers(names, []) == dict.fromkeys(names, 0)


def models_of(examples: pathlib.Path) -> List[cosim.Model]:
    return [cosim.Model.read(path) for path in (*sorted(examples.glob("*.cosim")), examples / "groups" / "bus.cosim")]


def test_no_box_is_over_another(examples: pathlib.Path) -> None:
    for model in [*models_of(examples), cosim.Model.from_text(ring(64))]:
        system = model.system
        drawn = picture(system)
        assert drawn.count('class="box"') == len(system.instances) and drawn.count('class="connection"') == len(system.connections)
        assert "nan" not in drawn and "inf" not in drawn
        for layer in layout_of(system).layers:
            for box, below in zip(layer, layer[1:]):
                assert below.y >= box.y + box.height, model.name


def ring(count: int) -> str:
    """Components in a ring, each of which leads also to one that is further on, and to itself."""
    unit = "unit A\ninput u : Bool = false\ninput v : Bool = false\ninput w : Bool = false\noutput y : Bool = false\nend\n"
    inputs = {"u": (1, 1), "v": (7, 5), "w": (1, 0)}
    ends = "".join(
        f"connect i{number}.y -> i{(number * times + more) % count}.{name}\n"
        for number in range(count)
        for name, (times, more) in inputs.items()
    )
    return "cosim 1\n" + unit + "".join(f"instance i{number} : A\nend\n" for number in range(count)) + ends + "stop 0\n"


def test_a_picture_of_as_many_connections_as_may_be() -> None:
    unit = "unit A\n" + "".join(f"input u{number} : Bool = false\noutput y{number} : Bool = false\n" for number in range(32)) + "end\n"
    ends = "".join(f"connect i{number}.y{port} -> i{(number + 1 + port) % 64}.u{port}\n" for number in range(64) for port in range(32))
    instances = "".join(f"instance i{number} : A\nend\n" for number in range(64))
    system = read_system(cosim.Model.from_text("cosim 1\n" + unit + instances + ends + "stop 0\n").canonical)
    assert len(system.connections) == 2048
    assert picture(system).count('class="connection"') == 2048


def test_a_picture_of_no_component() -> None:
    assert "0 components and 0 connections" in picture(read_system(b"cosim 1\nstop 0\n"))


@needs_plotly
def test_the_command_writes_a_page(examples: pathlib.Path, tmp_path: pathlib.Path) -> None:
    page, heater = tmp_path / "report.html", examples / "heater.cosim"
    called = call("report", str(heater), "-o", str(page), "--columns", "plate.degrees", "--until", "600")
    assert (called.returncode, called.stderr, called.stdout) == (0, "", "")
    data = data_in(page.read_bytes())
    assert (data["drawn"], data["traces"][0]["rows"]) == ([0], 11)
    assert os.listdir(tmp_path) == [page.name]
    assert page.stat().st_mode & 0o777 == 0o666 & ~mask()


@needs_plotly
@pytest.mark.parametrize("mode", [0o600, 0o444])
def test_the_command_keeps_modes(examples: pathlib.Path, tmp_path: pathlib.Path, mode: int) -> None:
    page = tmp_path / "report.html"
    page.write_text("old")
    page.chmod(mode)
    called = call("report", str(examples / "heater.cosim"), "-o", str(page))
    is_refused = mode == 0o444 and os.geteuid() != 0
    assert (called.returncode, page.read_text(encoding="utf-8") == "old") == ((5, True) if is_refused else (0, False))
    assert page.stat().st_mode & 0o7777 == mode


def mask() -> int:
    old = os.umask(0)
    os.umask(old)
    return old


@needs_plotly
def test_the_command_compares(examples: pathlib.Path, tmp_path: pathlib.Path) -> None:
    page, heater, rows = tmp_path / "report.html", examples / "heater.cosim", examples / "heater.csv"
    windy = tmp_path / "windy.cosim"
    windy.write_bytes(cosim.Model.read(heater).set("plate.cooling", "0.60").canonical)
    wanted = len(cosim.Model.read(heater).run().diff(cosim.Model.read(windy).run(), {"plate.degrees": "1.50", "battery.energy": "1.00"}))
    cases = [
        ((str(rows),), 0, 31),
        ((str(windy), "--tolerance", "plate.degrees=1.50", "battery.energy=1.00"), wanted, 31),
        ((str(windy), "--tolerance", "100", "--until", "300"), 0, 6),
        ((str(rows), "--trace", str(rows), "--until", "300"), 0, 6),
    ]
    for words, count, number_of_rows in cases:
        called = call("report", str(heater), "-o", str(page), "--against", *words)
        assert (called.returncode, called.stderr) == (0, ""), called
        data = data_in(page.read_bytes())
        assert len(data["differences"]) == count and [each["rows"] for each in data["traces"]] == [number_of_rows] * 2
        assert data["traces"][1]["label"] == os.path.basename(words[0]) or "--trace" in words


def test_names_of_traces() -> None:
    assert labels_of("a/x.cosim", "b/y.csv") == ("x.cosim", "y.csv")
    assert labels_of("a/x.csv", "b/x.csv") == ("a/x.csv", "b/x.csv")


@needs_plotly
def test_the_command_says_how_runs_ended(tmp_path: pathlib.Path) -> None:
    divides, completes, page = tmp_path / "divides.cosim", tmp_path / "completes.cosim", tmp_path / "page.html"
    divides.write_text(DIVIDES)
    completes.write_text(DIVIDES.replace("stop 9", "stop 1"))
    for words in ([str(divides)], [str(completes), "--against", str(divides)]):
        called = call("report", *words, "-o", str(page))
        assert (called.returncode, called.stderr) == (8, "cosim: fault 3 of a output y at 2,0\n")
        assert b"zero divisor" in page.read_bytes()
    refuses = tmp_path / "refuses.cosim"
    refuses.write_text(REFUSES)
    assert call("report", str(refuses), "-o", str(page)).returncode == 9
    assert b"asked for 5, accepted 1" in page.read_bytes()


CASES: List[Tuple[Tuple[str, ...], int, str]] = [
    (("/nowhere.cosim",), 1, "/nowhere.cosim: No such file or directory\n"),
    (("{heater}", "--trace", "/nowhere.csv"), 1, "/nowhere.csv: No such file or directory\n"),
    (("{heater}", "--against", "/nowhere.csv"), 1, "/nowhere.csv: No such file or directory\n"),
    (("{heater}", "--against", "{folder}"), 1, "{folder}: Is a directory\n"),
    (("{mistake}",), 3, "{mistake}:8: rule 5: a line isn't allowed there\n"),
    (("{heater}", "--against", "{mistake}"), 3, "{mistake}:8: rule 5: a line isn't allowed there\n"),
    (("{heater}", "--columns", "a.b"), 2, "cosim: there is no column a.b"),
    (("{heater}", "--until", "x"), 2, "cosim: until: 'x' is no number\n"),
    (("{heater}", "--trace", "{csv}", "--until", "-1"), 2, ""),
    (("{heater}", "--trace", "{other}"), 2, "cosim: {other}: the first line isn't time,index,plate.degrees"),
    (("{heater}", "--against", "{counter}"), 2, "cosim: only one of the traces has the columns a.y"),
    (("{heater}", "--tolerance", "1"), 2, ""),
    (("{heater}", "--against", "{csv}", "--tolerance", "x"), 2, "cosim: tolerance: 'x' is no number\n"),
    (("{heater}", "--against", "{csv}", "--tolerance", "1", "2"), 2, "cosim: tolerance: 1 2: write one number"),
    (("{heater}", "--against", "{csv}", "--tolerance", "a.b=1"), 2, "cosim: there is no column a.b"),
    (("{heater}", "--against", "{csv}", "--tolerance", "plate.degrees=1", "plate.degrees=2"), 2, "cosim: tolerance: plate"),
    (("{heater}", "-o", "{folder}/page.pdf"), 2, ""),
    (("{heater}", "-o", "/nowhere/page.html"), 5, "/nowhere/page.html: No such file or directory\n"),
    (("{heater}", "-o", "/dev/null/page.html"), 5, "/dev/null/page.html: Not a directory\n"),
]


@needs_plotly
@pytest.mark.parametrize("words, status, begins", CASES)
def test_the_command_with_mistakes(
    examples: pathlib.Path,
    tmp_path: pathlib.Path,
    tmp_path_factory: pytest.TempPathFactory,
    monkeypatch: pytest.MonkeyPatch,
    words: Tuple[str, ...],
    status: int,
    begins: str,
) -> None:
    """All are found before a run, which would take its time."""
    monkeypatch.setenv("COSIM", refuse_runs(tmp_path_factory.mktemp("program"), os.environ["COSIM"]))
    names = {
        "heater": examples / "heater.cosim",
        "mistake": examples / "mistakes" / "two-stops.cosim",
        "csv": examples / "heater.csv",
        "other": examples / "counter.csv",
        "counter": examples / "counter.cosim",
        "folder": tmp_path,
    }
    given = [word.format(**names) for word in words]
    output = [] if "-o" in given else ["-o", str(tmp_path / "page.html")]
    called = call("report", *given, *output)
    assert (called.returncode, called.stdout) == (status, ""), called
    assert called.stderr.startswith(begins.format(**names)) and called.stderr and "Traceback" not in called.stderr, called
    assert os.listdir(tmp_path) == []


@needs_plotly
def test_a_locale_without_letters(examples: pathlib.Path, tmp_path: pathlib.Path) -> None:
    """plotly.js has letters that ASCII hasn't."""
    page = tmp_path / "page.html"
    path = os.pathsep.join([os.path.dirname(os.path.dirname(cosim.__file__)), os.environ.get("PYTHONPATH", "")])
    locale = {"LC_ALL": "POSIX", "PYTHONCOERCECLOCALE": "0", "PYTHONUTF8": "0", "PYTHONPATH": path}
    words = [sys.executable, "-m", "cosim", "report", str(examples / "heater.cosim"), "-o", str(page)]
    called = subprocess.run(words, env={"COSIM": os.environ["COSIM"], **locale}, capture_output=True, text=True, check=False)
    assert (called.returncode, called.stderr) == (0, "")
    assert page.read_bytes() == cosim.report(cosim.Model.read(examples / "heater.cosim"), labels=("heater.cosim", ""))


def test_without_plotly(examples: pathlib.Path, tmp_path: pathlib.Path, monkeypatch: pytest.MonkeyPatch) -> None:
    monkeypatch.setenv("COSIM", refuse_runs(tmp_path, os.environ["COSIM"]))
    (tmp_path / "plotly.py").write_text("raise ModuleNotFoundError(\"No module named 'plotly'\", name='plotly')\n")
    path = os.pathsep.join([str(tmp_path), os.path.dirname(os.path.dirname(cosim.__file__))])
    words = [sys.executable, "-m", "cosim", "report", str(examples / "heater.cosim"), "-o", str(tmp_path / "page.html")]
    called = subprocess.run(words, env={**os.environ, "PYTHONPATH": path}, capture_output=True, text=True, check=False)
    assert (called.returncode, called.stderr) == (69, "a report requires the Python package plotly, which isn't there\n")
    assert not (tmp_path / "page.html").exists()
