"""Models of several files: what is joined, and at which file and line it is refused."""
import os
import pathlib
import pickle
import random
import re
from typing import Any, Callable, Dict, List, Tuple

import pytest

import cosim
from cosim.lines import Placed, placed_lines
from texts import COOLER, EVENTS

BATTERY = """# by the power team
cosim 1  # of units

unit Battery
  param size : Int64 = 40
  state charge : Int64 = 40
  input load : Int64 = 0
  output energy : Int64 = charge
  output spare : Int64 needs load = size - load
  step
    charge := charge - load
  end
end"""
HEATER = """cosim 1
unit Heater
  state on : Bool = false
  input charge : Int64 = 0
  output load : Int64 = if on then 2 else 1
  output asked : Int64 needs charge = charge
  step
    on := charge > 30
  end
end
"""
SYSTEM = """# the whole
cosim 1
instance battery : Battery
end
instance heater : Heater
end
connect heater.load -> battery.load
connect battery.energy -> heater.charge
stop 3
longest 1
"""
PARTS = {"battery.cosim": BATTERY, "heater.cosim": HEATER, "system.cosim": SYSTEM}

TANKS = """# by the fluid team
group Tank
  instance pump : Pump
  end
  instance water : Water
  end
  in open -> pump.open
  connect pump.flow -> water.flow
  out liters = water.liters
main  # its units
cosim 1
unit Pump
  input open : Bool = false
  output flow : Int64 needs open = if open then 3 else 0
end
unit Water
  input flow : Int64 = 0
  state held : Int64 = 10
  output liters : Int64 = held
  step
    held := held + flow * h
  end
end
"""
PLANT = """cosim 1
unit Valve
  state opened : Bool = true
  output open : Bool = opened
  step
    opened := not opened
  end
end
instance valve : Valve
end
instance left : Tank
end
instance right : Tank
end
connect valve.open -> left.open
stop 3
longest 1
"""


def written(folder: pathlib.Path, parts: Dict[str, str]) -> List[pathlib.Path]:
    """The paths of files with these texts, in their order."""
    for name, text in parts.items():
        (folder / name).write_bytes(text.encode(errors="surrogateescape"))
    return [folder / name for name in parts]


def refusal(paths: List[pathlib.Path]) -> cosim.Refused:
    with pytest.raises(cosim.Refused) as caught:
        cosim.join(paths)
    return caught.value


def test_joined_text(tmp_path: pathlib.Path) -> None:
    model = cosim.join(written(tmp_path, PARTS))
    front, header, *rest = SYSTEM.splitlines(True)
    units = BATTERY.replace("cosim 1  # of units", "# of units") + "\n" + HEATER.replace("cosim 1\n", "")
    assert model.text.decode() == front + header + units + "".join(rest)
    assert list(model.units) == ["Battery", "Heater"]
    assert model.run()["battery.energy"] == [40, 39, 37, 35]
    assert model.set("battery.size", 50).run()["battery.spare"][0] == 49


def test_the_system_may_be_named_first_and_have_units(tmp_path: pathlib.Path) -> None:
    system = SYSTEM.replace("# the whole\ncosim 1\n", HEATER)
    paths = written(tmp_path, {"system.cosim": system, "battery.cosim": BATTERY})
    assert list(cosim.join(paths).units) == ["Battery", "Heater"]
    assert cosim.join(paths).text.endswith(b"longest 1\n")


def test_one_file(examples: pathlib.Path) -> None:
    path = examples / "heater.cosim"
    assert cosim.join([path]).text == path.read_bytes()


def test_origins(tmp_path: pathlib.Path) -> None:
    paths = written(tmp_path, PARTS)
    model = cosim.join(paths)
    lines = {str(path): path.read_bytes().splitlines() for path in paths}
    seen = set()
    for number, line in enumerate(model.text.splitlines(), 1):
        file, there = model.origin(number)
        seen.add((file, there))
        assert lines[file][there - 1].endswith(line)
    left_out = {(str(paths[1]), 1)}
    assert seen == {(file, number) for file in lines for number in range(1, len(lines[file]) + 1)} - left_out
    for number in (0, model.text.count(b"\n") + 1):
        with pytest.raises(cosim.UnknownName):
            model.origin(number)
    assert cosim.Model.read(paths[0]).origin(3) == (str(paths[0]), 3)
    with pytest.raises(cosim.UnknownName):
        cosim.Model.from_text(SYSTEM).origin(1)


# Changes of a file, with the place and the rule of the refusal, and what it says, also of other lines.
BROKEN: List[Tuple[str, str, str, str, int, str]] = [
    ("heater.cosim", "state on", "state \u00f6n", "heater.cosim:3", 1, "byte 9 of the line"),
    ("battery.cosim", "# by the power team", "#" * 1001, "battery.cosim:1", 3, ""),
    ("battery.cosim", "param size :", "param size", "battery.cosim:5", 4, "`:` is expected"),
    ("heater.cosim", "  step\n", "  step\n    stop 3\n", "heater.cosim:8", 5, "in the block of `step`, line 7"),
    ("battery.cosim", "  end\nend", "  end", "battery.cosim:12", 6, ""),
    ("heater.cosim", "cosim 1\n", "", "heater.cosim:1", 7, ""),
    ("heater.cosim", "cosim 1\n", "cosim 3\n", "heater.cosim:1", 4, ""),
    ("battery.cosim", "input load : Int64 = 0", "input size : Int64 = 0", "battery.cosim:7", 8, "{}/battery.cosim:5 declares `size` too"),
    ("heater.cosim", "unit Heater", "unit Battery", "heater.cosim:2", 8, "{}/battery.cosim:4 declares `Battery` too"),
    ("system.cosim", "battery : Battery", "battery : Bettery", "system.cosim:3", 9, "there is no unit `Bettery`"),
    ("heater.cosim", "charge > 30", "charge > 30.0", "heater.cosim:8", 10, "`charge` is `Int`"),
    ("heater.cosim", "input charge : Int64 = 0", "input charge : Int8 = 300", "heater.cosim:4", 11, "the words of `Int8`"),
    ("heater.cosim", "needs charge = ", "= ", "heater.cosim:6", 12, "write `needs charge`"),
    ("system.cosim", "stop 3", "connect battery.spare -> heater.charge\nstop 3", "system.cosim:9", 13, "{}/system.cosim:8 leads to"),
    ("heater.cosim", "input charge : Int64", "input charge : Int32", "system.cosim:8", 14, "`input charge : Int32`, {}/heater.cosim:4"),
    ("system.cosim", "stop 3\n", "", "system.cosim:2", 19, ""),
    ("system.cosim", "stop 3", "stop 3.5", "system.cosim:9", 20, "no whole number of ticks"),
    ("battery.cosim", "charge := charge", "load := charge", "battery.cosim:11", 22, "declared by `input` at {}/battery.cosim:7"),
    ("system.cosim", "stop 3", "stop 3\nstop 4", "system.cosim:10", 5, "line 9 is a `stop` line too"),
    ("system.cosim", "end\ninstance heater", "  size = 1\n  size = 2\nend\ninstance heater", "system.cosim:5", 24, ""),
]


@pytest.mark.parametrize("file, old, new, place, rule, words", BROKEN)
def test_refused_at_its_file(tmp_path: pathlib.Path, file: str, old: str, new: str, place: str, rule: int, words: str) -> None:
    assert PARTS[file].count(old) == 1
    error = refusal(written(tmp_path, {**PARTS, file: PARTS[file].replace(old, new)}))
    assert (f"{error.file}:{error.line}", error.rule) == (f"{tmp_path}/{place}", rule)
    assert str(error).startswith(f"{tmp_path}/{place}: rule {rule}: ")
    assert words.format(tmp_path) in str(error)


def test_a_cycle_through_two_files(tmp_path: pathlib.Path) -> None:
    system = SYSTEM.replace("heater.load", "heater.asked").replace("battery.energy", "battery.spare")
    error = refusal(written(tmp_path, {**PARTS, "system.cosim": system}))
    assert (error.file, error.line, error.rule) == (str(tmp_path / "battery.cosim"), 9, 15)
    assert f"`battery.spare` needs `heater.asked` ({tmp_path}/system.cosim:7)" in str(error)
    assert f"`heater.asked` needs `battery.spare` ({tmp_path}/system.cosim:8)" in str(error)


def test_costs_name_their_line(tmp_path: pathlib.Path) -> None:
    loops = "    repeat 1000\n      repeat 500\n        on := charge > 30\n      end\n    end\n"
    error = refusal(written(tmp_path, {**PARTS, "heater.cosim": HEATER.replace("    on := charge > 30\n", loops)}))
    assert (error.file, error.line, error.rule) == (str(tmp_path / "heater.cosim"), 7, 18)
    assert f"{tmp_path}/heater.cosim:10 is repeated 500,000 times" in str(error)


def test_a_text_that_is_too_long_is_of_no_file(tmp_path: pathlib.Path) -> None:
    long = "cosim 1\n" + ("#" * 99 + "\n") * 6000
    error = refusal(written(tmp_path, {**PARTS, "long.cosim": long, "longer.cosim": long}))
    assert (error.file, error.line, error.rule) == (None, None, 2)
    assert str(error).startswith(f"{tmp_path}/system.cosim, joined with 4 files: rule 2: ")
    error = refusal(written(tmp_path, {**PARTS, "long.cosim": long * 2}))
    assert (error.file, error.line, error.rule) == (str(tmp_path / "long.cosim"), 1, 2)


def test_after_a_setting_no_file_has_the_line(tmp_path: pathlib.Path) -> None:
    with pytest.raises(cosim.Refused) as caught:
        cosim.join(written(tmp_path, PARTS)).set_stop("3.5").run()
    assert (caught.value.file, caught.value.rule) == (None, 20)
    assert str(caught.value).startswith("canonical text of ")


def test_a_fault_of_a_run(tmp_path: pathlib.Path) -> None:
    outcome = cosim.join(written(tmp_path, {**PARTS, "battery.cosim": BATTERY.replace("- load\n  step", "div 0\n  step")})).run().outcome
    assert (outcome.kind, outcome.component, outcome.fault) == ("fault", "battery", 3)


def test_files_that_do_not_fit(tmp_path: pathlib.Path) -> None:
    paths = written(tmp_path, {**PARTS, "bench.cosim": SYSTEM, "new.cosim": "cosim 2\n", "empty.cosim": "# none\ncosim 1\n"})
    battery, heater, system, bench, new, empty = map(str, paths)
    cases: List[Tuple[List[str], str, List[Tuple[str, int]]]] = [
        ([], "no file has the system, which has instances and `stop`: no file", []),
        ([battery, empty], f"no file has the system, which has instances and `stop`: {battery}, {empty}", [(battery, 2), (empty, 2)]),
        ([battery, heater, system, bench], f"{bench}:3: this line belongs to a system, and so does {system}:3; one file", [(system, 3), (bench, 3)]),
        ([battery, heater, system, new], f"{new}:1: this file has version 2, and {battery}:2 has version 1", [(battery, 2), (new, 1)]),
        ([battery, system, battery], f"{battery} is given twice", []),
    ]
    for given, words, places in cases:
        with pytest.raises(cosim.Unjoinable) as caught:
            cosim.join(given)
        assert str(caught.value).startswith(words)
        assert list(caught.value.places) == places
        copy = pickle.loads(pickle.dumps(caught.value))
        assert (str(copy), copy.places) == (str(caught.value), caught.value.places)
    assert cosim.join([battery, heater, empty, system]).run().outcome.completed
    for wrong in (battery, tmp_path):
        with pytest.raises(TypeError):
            cosim.join(wrong)  # type: ignore[arg-type]
    with pytest.raises(FileNotFoundError):
        cosim.join([battery, tmp_path / "nowhere"])
    with pytest.raises(IsADirectoryError):
        cosim.join([tmp_path, system])


def test_a_file_with_two_names(tmp_path: pathlib.Path, monkeypatch: pytest.MonkeyPatch) -> None:
    written(tmp_path, PARTS)
    (tmp_path / "link.cosim").symlink_to("battery.cosim")
    os.link(tmp_path / "battery.cosim", tmp_path / "hard.cosim")
    monkeypatch.chdir(tmp_path)
    for first, second in (("./battery.cosim", "battery.cosim"), ("battery.cosim", "link.cosim"), ("hard.cosim", "battery.cosim")):
        with pytest.raises(cosim.Unjoinable) as caught:
            cosim.join([first, "heater.cosim", "system.cosim", second])
        assert str(caught.value) == f"{second} is given twice, once as {first}"


def test_paths_of_all_kinds(tmp_path: pathlib.Path) -> None:
    paths = written(tmp_path, PARTS)
    wanted = cosim.join(paths)
    assert wanted.run().outcome.completed
    kinds: List[Callable[[pathlib.Path], Any]] = [str, os.fsencode]
    for kind in kinds:
        model = cosim.join([kind(path) for path in paths])
        assert (model.text, model.name) == (wanted.text, wanted.name)


def test_refused_goes_from_process_to_process(tmp_path: pathlib.Path) -> None:
    error = refusal(written(tmp_path, {**PARTS, "heater.cosim": HEATER.replace("> 30", "> 30.0")}))
    copy = pickle.loads(pickle.dumps(error))
    assert (copy.file, copy.line, str(copy)) == (error.file, error.line, str(error))


def test_file_of_a_single_model(tmp_path: pathlib.Path) -> None:
    path, = written(tmp_path, {"cooler.cosim": COOLER.replace("rate : Fixed 2", "rate : Int64")})
    with pytest.raises(cosim.Refused) as caught:
        cosim.Model.read(path).check()
    assert (caught.value.file, caught.value.line) == (str(path), 3)
    with pytest.raises(cosim.Refused) as caught:
        cosim.Model.from_text(path.read_text()).check()
    assert (caught.value.file, caught.value.line) == (None, 3)


def test_line_ends_and_bytes_of_comments(tmp_path: pathlib.Path) -> None:
    strange = "# \udcff\udc80 \x0b \x0c \x00 \u2028 \x85 18 \u00b0C\r"
    battery = BATTERY.replace("\n", "\r\n").replace("# by the power team", strange[:-1])
    paths = written(tmp_path, {**PARTS, "battery.cosim": battery + " " + strange, "heater.cosim": HEATER + strange})
    model = cosim.join(paths)
    text = model.text
    assert text.count(strange[:-1].encode(errors="surrogateescape")) == 3
    assert text.count(b"\n") == sum(path.read_bytes().count(b"\n") for path in paths) + 2 - 1
    assert model.canonical == cosim.join(written(tmp_path, PARTS)).canonical
    error = refusal(written(tmp_path, {**PARTS, "heater.cosim": "\ufeff" + HEATER}))
    assert (error.file, error.line, error.rule) == (str(tmp_path / "heater.cosim"), 1, 1)
    assert "byte-order mark" in error.cure


def test_events(tmp_path: pathlib.Path) -> None:
    units, system = EVENTS.split("instance", 1)
    paths = written(tmp_path, {"units.cosim": units, "system.cosim": "cosim 2\ninstance" + system})
    assert cosim.join(paths).canonical == cosim.Model.from_text(EVENTS).canonical


def test_groups(tmp_path: pathlib.Path) -> None:
    paths = written(tmp_path, {"tanks.cosim": TANKS, "plant.cosim": PLANT})
    model = cosim.join(paths)
    groups, main = TANKS.split("main", 1)
    assert model.text.decode() == groups + "main  # its units\ncosim 1\n" + main.split("\ncosim 1\n")[1] + PLANT.replace("cosim 1\n", "")
    assert model.run()["left_water.liters"] == [10, 13, 13, 16]
    assert model.components["right.pump"] == "right_pump"
    assert cosim.join(written(tmp_path, {"plant.cosim": "# all\nmain # here\n" + PLANT, "tanks.cosim": TANKS})).canonical == model.canonical


@pytest.mark.parametrize(
    "file, old, new, place, rule, words",
    [
        ("tanks.cosim", "  in open", "  stop 3\n  in open", "tanks.cosim:7", 26, ""),
        ("tanks.cosim", "main  # its units\n", "", "tanks.cosim:1", 26, ""),
        ("tanks.cosim", "  in open", "  end\n  in open", "tanks.cosim:7", 5, ""),
        ("plant.cosim", "unit Valve", "unit Tank", "tanks.cosim:2", 27, "{0}/plant.cosim:2 has the name `Tank` too"),
        ("tanks.cosim", "  instance pump : Pump\n  end\n", "  instance pump : Tank\n  end\n", "tanks.cosim:3", 28, ""),
        ("plant.cosim", "left.open", "left.opened", "plant.cosim:15", 29, "`Tank` has no input `opened`"),
        ("plant.cosim", "output open : Bool = opened", "output open : Int64 = 1", "plant.cosim:15", 14, "by way of {0}/tanks.cosim:7"),
        ("tanks.cosim", "held + flow * h", "held + flow * 1.0", "tanks.cosim:21", 10, ""),
    ],
)
def test_groups_are_refused_at_their_file(tmp_path: pathlib.Path, file: str, old: str, new: str, place: str, rule: int, words: str) -> None:
    parts = {"tanks.cosim": TANKS, "plant.cosim": PLANT}
    assert parts[file].count(old) == 1
    error = refusal(written(tmp_path, {**parts, file: parts[file].replace(old, new)}))
    assert (f"{error.file}:{error.line}", error.rule) == (f"{tmp_path}/{place}", rule), str(error)
    assert words.format(tmp_path) in str(error)


def test_a_group_in_two_files(tmp_path: pathlib.Path) -> None:
    again = TANKS[: TANKS.index("unit Pump")]
    error = refusal(written(tmp_path, {"tanks.cosim": TANKS, "again.cosim": again, "plant.cosim": PLANT}))
    assert (error.file, error.line, error.rule) == (str(tmp_path / "tanks.cosim"), 2, 27)
    assert f"{tmp_path}/again.cosim:2 has the name `Tank` too" in str(error)


EXAMPLES = ["heater", "power", "thermal", "wheel", "modes", "rates", "burn", "commands", "safe-mode", "groups/bus"]


def parts_of(lines: List[bytes], placed: List[Placed]) -> Tuple[List[List[bytes]], List[List[bytes]], List[bytes]]:
    """The groups of a text, each with its comments, its units, and all other lines without the header and `main`."""
    groups: List[List[bytes]] = []
    units: List[List[bytes]] = []
    others: List[bytes] = []
    in_unit = False
    for line, at in zip(lines, placed):
        first = at.tokens[0] if at.tokens else ""
        if at.in_group:
            if first == "group":
                groups.append([])
            groups[-1].append(line)
        elif first == "unit" and not at.blocks:
            units.append([line])
            in_unit = True
        elif in_unit:
            units[-1].append(line)
            in_unit = first != "end" or len(at.blocks) > 1
        elif first not in ("cosim", "main"):
            others.append(line)
    return groups, units, others


@pytest.mark.parametrize("example", EXAMPLES)
def test_random_splits_join_to_the_same_model(example: str, examples: pathlib.Path, tmp_path: pathlib.Path) -> None:
    """For random splits of a text into files the canonical text has the same lines, and where units keep their order it is the
    same."""
    whole = cosim.Model.read(examples / f"{example}.cosim")
    header = re.search(rb"^cosim [12]", whole.text, re.M)
    assert header
    groups, units, others = parts_of(whole.text.splitlines(True), list(placed_lines(whole.text)))
    for seed in range(8):
        drawn = random.Random(seed)
        count = drawn.randint(1, 4)
        places = sorted(drawn.randrange(count) for _ in units)
        groups_of: List[List[List[bytes]]] = [[] for _ in range(count + 1)]
        for group in groups:
            groups_of[drawn.randint(0, count)].append(group)
        paths = []
        for file in range(count + 1):
            front = b"".join(line for group in groups_of[file] for line in group)
            front += b"main\n" if front or (groups and drawn.randrange(2)) else b""
            own = [line for unit, place in zip(units, places) if place == file for line in unit]
            rest = [line for line in own] if file < count else others
            end = b"" if drawn.randrange(2) and rest else b"\n"
            text = front + header[0] + b"\n" + b"".join(rest).rstrip(b"\n") + end
            path = tmp_path / f"{seed}-{file}.cosim"
            path.write_bytes(text.replace(b"\n", b"\r\n") if drawn.randrange(2) else text)
            paths.append(path)
        system = paths.pop()
        paths.insert(drawn.randint(0, len(paths)), system)
        assert cosim.join(paths).canonical == whole.canonical
        drawn.shuffle(paths)
        assert sorted(cosim.join(paths).canonical.splitlines()) == sorted(whole.canonical.splitlines())
