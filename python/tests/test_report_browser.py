"""Reports as a browser shows them."""
import pathlib
from typing import List

import pytest

import cosim
from browser import Browser
from cosim.canonical import Port
from test_report import ring
from texts import COOLER, DIVIDES, EVENTS, HALVES, STUCK

pytest.importorskip("plotly")

# Sets `window.hacked` in as many ways as a text can begin a script.
ATTACKS = (
    "<script>window.hacked=1</script>",
    "</script><script>window.hacked=1</script>",
    "<!--<script>",
    "<img src=x onerror=window.hacked=1>",
    "</pre></details></title></style></textarea><svg onload=window.hacked=1>",
    "\" onmouseover=window.hacked=1 autofocus onfocus=window.hacked=1 x=\"",
    '<a href="javascript:window.hacked=1">a</a><b>b</b>',
    "'-window.hacked-'\\u2028\u2028window.hacked=1",
)
HACKED = "return window.hacked !== undefined || document.querySelectorAll('img, iframe, object, [onerror], [onload]').length"

# How many links there are in plots, but for plotly's own buttons.
LINKS = "return document.querySelectorAll('figcaption a, .drawing svg a, #rows a, #differences a').length"

WIDE = "cosim 1\nunit A\nstate n : Int64 = 0\nparam big : Int64 = 9007199254740993\n{}step\nn := n + 1\nend\nend\n{}stop 249\nlongest 1\n".format(
    "".join(f"output y{number} : Int64 = big + n * {number}\n" for number in range(25)), "instance a : A\nend\ninstance b : A\nend\n"
)

# Counts the seconds.
COUNTS = "cosim 1\nunit A\nstate n : Int64 = 0\noutput y : Int64 = n\nstep\nn := n + 1\nend\nend\ninstance a : A\nend\nstop 20\nlongest 1\n"

# 100,000 rows, of which one has another value.
SPIKE = (
    "cosim 1\nunit A\nstate n : Int64 = 0\noutput y : Int64 = if n == 54321 then 0 else 7\nstep\nn := n + 1\nend\nend\n"
    "instance a : A\nend\nstop 99999\nlongest 1\n"
)


def write(page: pathlib.Path, model: cosim.Model) -> pathlib.Path:
    cosim.report(model, path=str(page))
    return page


@pytest.mark.parametrize("example", ["heater", "safe-mode"])
def test_the_plots_of_examples(browser: Browser, examples: pathlib.Path, tmp_path: pathlib.Path, example: str) -> None:
    model = cosim.Model.read(examples / f"{example}.cosim")
    page = write(tmp_path / "page.html", model)
    browser.open(page)
    trace = model.run()
    assert browser.driver.title == f"Report of {model.name}"
    assert browser.texts("figcaption") == [f"{each.name} {'event ' if each.is_event else ''}{each.type}" for each in trace.columns]
    for column in trace.columns:
        area = browser.plot(column.name)
        assert browser.run("return arguments[0].querySelectorAll('.scatterlayer .trace').length", area) == 1
        points = [float(value) for value in trace[column.name] if value is not None]
        assert browser.run("return arguments[0].data[0].y", area) == points
        marks = browser.run("return arguments[0].querySelectorAll('.scatterlayer .points path').length", area)
        assert marks == (len(points) if column.is_event else 0)
    assert browser.table("#rows") == trace.records
    boxes, lines = browser.texts("svg .box .name"), browser.texts("svg .connection title")
    assert boxes == list(model.instances)
    assert lines == [f"{start} -> {end}{', events' if start.is_event else ''}" for start, end in model.connections]
    browser.require_quiet(page)


def test_a_zoom_changes_the_axis_of_all_plots(browser: Browser, heater: cosim.Model, tmp_path: pathlib.Path) -> None:
    page = write(tmp_path / "page.html", heater)
    browser.open(page)
    area, other = browser.plot("plate.degrees"), browser.plot("heater.power")
    labels = browser.run("return [...arguments[0].querySelectorAll('.xtick')].map(each => each.textContent)", area)
    assert browser.span(area) == (0, 1800)
    browser.plot("plate.degrees")
    browser.move_to(area, 600).click_and_hold().move_by_offset(200, 0).release().perform()
    browser.wait(lambda: browser.span(area) != (0, 1800) and browser.span(other) == browser.span(area))
    first, last = browser.span(area)
    assert first == pytest.approx(600, abs=5) and 800 < last < 1200
    assert browser.run("return [...arguments[0].querySelectorAll('.xtick')].map(each => each.textContent)", area) != labels
    fields = browser.all("#plots input")
    assert [float(field.get_property("value")) for field in fields] == [first, last]
    browser.press("Show all", "#plots")
    browser.wait(lambda: browser.span(area) == browser.span(other) == (0, 1800))
    for field, text in zip(fields, ("60", "120")):
        field.clear()
        field.send_keys(text)
    fields[1].send_keys("\n")
    browser.wait(lambda: browser.span(area) == browser.span(other) == (60, 120))
    browser.move_to(browser.plot("plate.degrees"), 100).double_click().perform()
    browser.wait(lambda: browser.span(area) == browser.span(other) == (0, 1800))
    fields[1].send_keys("x\n")
    browser.wait(lambda: "Write two numbers" in "".join(browser.texts("#plots [role=status]")))
    browser.require_quiet(page)


def test_values_under_the_cursor_are_exact(browser: Browser, tmp_path: pathlib.Path) -> None:
    text = COOLER.replace("Fixed 2", "Int64").replace("1.00", "9007199254740991").replace("0.25", "-1").replace("0.60", "0")
    browser.open(write(tmp_path / "page.html", cosim.Model.from_text(text)))
    area = browser.plot("cooler.degrees_now")
    browser.require_hover(area, 20, ["time 20, index 0: 9007199254740993"])
    browser.require_hover(area, 9, ["time 10, index 0: 9007199254740992"])
    browser.require_hover(browser.plot("cooler.cold"), 20, ["time 20, index 0: false"])


def test_points_of_one_time_are_kept_apart(browser: Browser, tmp_path: pathlib.Path) -> None:
    page = write(tmp_path / "page.html", cosim.Model.from_text(STUCK))
    browser.open(page)
    area = browser.plot("timer.seconds")
    browser.require_hover(area, 3, ["time 3index 0: 0index 1: 0index 2: 0"])
    assert len(browser.all(".shapelayer path")) == 1
    assert "cosim: zero budget at 3,2" in browser.texts("#outcome dd")
    browser.require_quiet(page)


def test_events_are_marks(browser: Browser, tmp_path: pathlib.Path) -> None:
    browser.open(write(tmp_path / "page.html", cosim.Model.from_text(EVENTS)))
    area = browser.plot("source.square")
    assert browser.run("return [arguments[0].data[0].x, arguments[0].data[0].y, arguments[0].data[0].mode]", area) == [[1, 3], [1, 9], "markers"]
    browser.require_hover(area, 3, ["time 3, index 0: 9"])
    assert browser.table("#rows")[0] == ["0", "0", "true", "", ""]


def test_pages_of_rows_and_columns(browser: Browser, tmp_path: pathlib.Path) -> None:
    model = cosim.Model.from_text(WIDE)
    trace = model.run()
    page = tmp_path / "page.html"
    cosim.report(model, trace, names=["b.y24"], path=str(page))
    browser.open(page)
    assert browser.texts("figcaption") == ["b.y24 Int64"]
    found: List[List[str]] = []
    for says in ("rows 1 to 100 of 250", "rows 101 to 200 of 250", "rows 201 to 250 of 250"):
        assert says in browser.texts("#rows [role=status]")
        found += browser.table("#rows")
        browser.press("Next", "#rows .bar:first-child") if len(found) < len(trace) else None
    assert found == [record[:42] for record in trace.records]
    browser.press("Next", "#rows .bar:last-child")
    assert "columns 41 to 50 of 50" in browser.texts("#rows [role=status]")
    assert browser.texts("#rows thead th") == ["time", "index", *trace.names[40:]]
    assert browser.table("#rows") == [[*record[:2], *record[42:]] for record in trace.records[200:]]
    field = browser.all("#rows input")[0]
    field.send_keys("150\n")
    browser.wait(lambda: browser.table("#rows")[0][0] == "100")
    field = browser.all("#plots input")[2]
    field.send_keys("a.y1\n")
    browser.require_hover(browser.plot("a.y1"), 249, ["time 249, index 0: 9007199254741242"])
    browser.require_quiet(page)


def test_many_rows_are_drawn_in_parts(browser: Browser, tmp_path: pathlib.Path) -> None:
    page = write(tmp_path / "page.html", cosim.Model.from_text(SPIKE))
    browser.open(page)
    area = browser.plot("a.y")
    x, y = browser.run("return [arguments[0].data[0].x, arguments[0].data[0].y]", area)
    assert len(x) <= 4000 and (x[0], x[-1]) == (0, 99999) and (min(y), max(y)) == (0, 7)
    assert "rows 1 to 100 of 100,000" in browser.texts("#rows [role=status]")
    browser.move_to(area, 54000).click_and_hold().move_by_offset(20, 0).release().perform()
    browser.wait(lambda: browser.span(area) != (0, 99999))
    first, last = browser.span(area)
    browser.wait(lambda: browser.run("return arguments[0].data[0].x", area) == list(range(int(first), int(last) + 2)))
    browser.press("Last", "#rows")
    assert browser.table("#rows")[-1][0] == "99999"
    browser.require_quiet(page)


def test_differences_are_listed(browser: Browser, heater: cosim.Model, tmp_path: pathlib.Path) -> None:
    trace, other = heater.run(), heater.set("plate.cooling", "0.60").run()
    page = tmp_path / "page.html"
    cosim.report(heater, trace, other, {"plate.degrees": "1.50"}, path=str(page), labels=("calm", "windy"))
    browser.open(page)
    found = trace.diff(other, {"plate.degrees": "1.50"})
    shown = browser.table("#differences")
    assert [row[:3] for row in shown] == [[str(each.time), str(each.index), each.column] for each in found]
    assert shown[0][3:] == ["false", "true"] and shown[-1][3:] == [str(found[-1].mine), str(found[-1].other)]
    assert browser.texts("#differences thead th")[3:] == ["calm", "windy"]
    assert f"calm and windy have {len(found)} differences" in browser.texts("#differences p")[0]
    area = browser.plot("battery.energy")
    calm, windy = "calm, time 1800, index 0: 47.0000, differs from 46.6000", "windy, time 1800, index 0: 46.6000, differs from 47.0000"
    browser.require_hover(area, 1800, [calm, windy])
    assert browser.texts("#rows h3") == ["calm", "windy"]
    browser.require_quiet(page)


def test_a_difference_is_shown_at_its_own_point_alone(browser: Browser, tmp_path: pathlib.Path) -> None:
    """The traces differ at 2 alone; a mark that is far from the cursor must not be shown."""
    model = cosim.Model.from_text(COUNTS)
    trace = model.run()
    other = cosim.Trace(trace.table.replace(b"\n2,0,2\n", b"\n2,0,9\n"), model.system.columns, 0, trace.outcome)
    page = tmp_path / "page.html"
    cosim.report(model, trace, other, path=str(page))
    browser.open(page)
    area = browser.plot("a.y")
    browser.require_hover(area, 2, ["mine, time 2, index 0: 2, differs from 9", "other, time 2, index 0: 9, differs from 2"])
    for time in (9, 13, 17):
        browser.require_hover(area, time, [f"{label}, time {time}, index 0: {time}" for label in ("mine", "other")])
    assert browser.run("return arguments[0].data[2].x", area) == [2]
    assert "differences are marked" not in "".join(browser.texts("#plots p"))
    browser.require_quiet(page)


def test_differences_of_events_and_of_times_with_other_decimals(browser: Browser, tmp_path: pathlib.Path) -> None:
    model = cosim.Model.from_text(EVENTS)
    page = tmp_path / "page.html"
    cosim.report(model, other=cosim.Model.from_text(EVENTS.replace("n == 3", "n == 2")).run(), path=str(page))
    browser.open(page)
    browser.require_hover(browser.plot("source.odd"), 3, [
        "mine, time 3, index 0: true, differs from absent",
        "other, time 2, index 0: true, differs from absent",
    ])
    finer = cosim.Model.from_text(HALVES.replace("resolution 1", "resolution 2").replace("longest 0.5", "longest 0.75")).run()
    cosim.report(cosim.Model.from_text(HALVES), other=finer, path=str(page))
    browser.open(page)
    browser.require_hover(browser.plot("half.y"), 1.5, [
        "mine, time 1.5, index 0: 3, differs from 2",
        "other, time 1.50, index 0: 2, differs from 3",
    ])


def test_the_page_says_where_marks_are_cut(browser: Browser, tmp_path: pathlib.Path, monkeypatch: pytest.MonkeyPatch) -> None:
    monkeypatch.setattr("cosim.reports.tables.MOST_DIFFERENCES", 5000)
    model = cosim.Model.from_text(SPIKE).set_stop(9999)
    other = cosim.Model.from_text(SPIKE.replace("else 7", "else 8")).set_stop(9999).run()
    page = tmp_path / "page.html"
    cosim.report(model, other=other, path=str(page))
    browser.open(page)
    says = browser.texts("#plots p")
    assert "The first 5,000 of 10,000 differences are marked, and said under the cursor." in says
    assert "Of more than 4,000 marks in view a plot shows a part. Zoom in to see each mark." in says


def test_the_picture_opens_at_a_component(browser: Browser, tmp_path: pathlib.Path) -> None:
    """A ring of many components leaves the corners of its picture empty. The first box has no connection, and is below."""
    page = write(tmp_path / "page.html", cosim.Model.from_text(ring(61).replace("instance i0 :", "instance b : A\nend\ninstance i0 :")))
    browser.open(page)
    first = browser.run(
        "const area = document.querySelector('.picture').getBoundingClientRect();"
        "const name = [...document.querySelectorAll('.box .name')].find(each => each.textContent === 'i0').getBoundingClientRect();"
        "return [name.left - area.left, area.right - name.right, name.top - area.top, area.bottom - name.bottom]"
    )
    assert min(first) > 0
    assert max(first[2:]) < 2 * min(first[2:]), "it is near to the middle"


def test_lines_of_the_text_keep_their_numbers(browser: Browser, tmp_path: pathlib.Path) -> None:
    page = write(tmp_path / "page.html", cosim.Model.from_text("\n\n" + COOLER))
    browser.open(page)
    assert browser.texts("#text pre")[0].split("\n")[2] == "cosim 1"


def test_points_of_one_trace_alone_and_names_of_traces(browser: Browser, tmp_path: pathlib.Path) -> None:
    model = cosim.Model.from_text(COOLER)
    page = tmp_path / "page.html"
    other = cosim.Model.from_text(COOLER.replace("longest 10", "longest 15")).run()
    cosim.report(model, other=other, tolerance=9, path=str(page), labels=(ATTACKS[3], ATTACKS[6]))
    browser.open(page)
    assert browser.table("#differences") == [
        ["10", "0", "time", "10", "no row"],
        ["15", "0", "time", "no row", "15"],
        ["20", "0", "time", "20", "no row"],
    ]
    at_20 = f"{ATTACKS[3]}, time 20, index 0: true, no such point in {ATTACKS[6]}"
    at_15 = f"{ATTACKS[6]}, time 15, index 0: false, no such point in {ATTACKS[3]}"
    browser.require_hover(browser.plot("cooler.cold"), 20, [at_20, at_15])
    assert browser.texts("#outcome h3") == [ATTACKS[3], ATTACKS[6]]
    assert {ATTACKS[3], ATTACKS[6]} <= set(browser.texts(".legendtext"))
    assert not browser.run(HACKED) and browser.run(LINKS) == 0
    browser.require_quiet(page)


def test_comments_and_names_of_files_do_nothing(browser: Browser, tmp_path: pathlib.Path) -> None:
    folder = tmp_path / "<"
    folder.mkdir()
    file = folder / "script><img src=x onerror=window.hacked=1><script>window.hacked=1.cosim"
    comments = "".join(f"# {attack}\n" for attack in ATTACKS)
    file.write_text(COOLER.replace("cosim 1\n", "cosim 1\n" + comments), encoding="utf-8")
    page = write(tmp_path / "page.html", cosim.Model.read(file))
    browser.open(page)
    browser.run("document.querySelectorAll('details').forEach(each => { each.open = true })")
    assert str(file) in browser.driver.title
    assert comments.rstrip("\n").replace("\u2028", "\\u2028") in "".join(browser.texts("#text pre"))
    assert not browser.run(HACKED)
    assert len(browser.all("script")) == 3
    browser.require_quiet(page)


def test_names_and_values_of_a_trace_do_nothing(browser: Browser, tmp_path: pathlib.Path) -> None:
    """A trace that a program made by itself, and a model whose parts were changed."""
    plain = [attack.replace(",", ";") for attack in ATTACKS]
    ports = [Port(attack, attack, False, number % 2 == 1, "Int64", None) for number, attack in enumerate(ATTACKS)]
    rows = "".join(f"{time},0," + ",".join(plain[:4] + ["7"] * len(plain[4:])) + "\n" for time in (0, 1, 1))
    trace = cosim.Trace(("time,index\n" + rows).encode(), ports, 0, cosim.Outcome(ATTACKS[0], 8, ATTACKS[1], component=ATTACKS[3]))
    model = cosim.Model.from_text(COOLER, ATTACKS[1])
    cooler = model.instances["cooler"]
    model.system.instances["cooler"] = cooler._replace(settings={"rate": ATTACKS[3]})
    model.system.instances[ATTACKS[3]] = cooler._replace(name=ATTACKS[3])
    page = tmp_path / "page.html"
    cosim.report(model, trace, path=str(page))
    browser.open(page)
    for area in browser.all(".drawing"):
        browser.run("arguments[0].scrollIntoView()", area)
        browser.wait(lambda: browser.run("return !!arguments[0].querySelector('.main-svg')", area))
        browser.move_to(area, 1).perform()
    assert ATTACKS[3] in browser.texts("#outcome dd") and f"rate = {ATTACKS[3]}" in browser.texts("#components b")
    assert plain[:4] == browser.table("#rows")[0][2:6]
    assert trace.names == browser.texts("#rows thead th")[2:] and f"{trace.names[0]} Int64" in browser.texts("figcaption")
    assert not browser.run(HACKED) and browser.run(LINKS) == 0
    assert len(browser.all("script")) == 3
    browser.require_quiet(page)


def test_a_sheet_of_paper_has_all_plots(browser: Browser, tmp_path: pathlib.Path) -> None:
    model = cosim.Model.from_text(WIDE)
    page = tmp_path / "page.html"
    cosim.report(model, names=model.run().names[:12], path=str(page))
    browser.open(page)
    widths = "return [...document.querySelectorAll('.drawing')].map(each => each.layout && each.layout.width)"
    assert None in browser.run(widths)
    browser.run("window.dispatchEvent(new Event('beforeprint'))")
    browser.wait(lambda: browser.run(widths) == [680] * 12)
    browser.run("window.dispatchEvent(new Event('afterprint'))")
    browser.wait(lambda: 680 not in browser.run(widths))
    browser.require_quiet(page)


def test_a_run_that_ended_early(browser: Browser, tmp_path: pathlib.Path) -> None:
    page = write(tmp_path / "page.html", cosim.Model.from_text(DIVIDES))
    browser.open(page)
    facts = dict(zip(browser.texts("#outcome dt"), browser.texts("#outcome dd")))
    assert facts == {
        "kind": "fault",
        "rows": "2",
        "last row": "time 1 seconds, index 0",
        "note": "cosim: fault 3 of a output y at 2,0",
        "component": "a",
        "place": "output y",
        "fault": "3, zero divisor",
        "ended at": "time 2 seconds, index 0",
        "status": "8",
    }
    assert browser.table("#rows") == [["0", "0", "5"], ["1", "0", "10"]]
    browser.require_quiet(page)


def test_a_model_without_columns(browser: Browser, tmp_path: pathlib.Path) -> None:
    page = write(tmp_path / "page.html", cosim.Model.from_text("cosim 1\nunit A\nend\ninstance a : A\nend\nstop 1\n"))
    browser.open(page)
    assert "There is nothing to draw." in browser.texts("#plots p")
    assert browser.table("#rows") == [["0", "0"], ["1", "0"]]
    browser.require_quiet(page)
