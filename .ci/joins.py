"""Tries tools/join, and ./explain on several files, for .ci/tools.

They are called on the files of examples/satellite, with changes that are refused, and on files and streams of all kinds.
"""
import os
import shutil

from common import read

FOLDER = "examples/satellite"
UNITS = [f"{FOLDER}/units/{name}.cosim" for name in ("battery", "heater", "thermostat")]
SYSTEM = f"{FOLDER}/system.cosim"
FILES = [*UNITS, SYSTEM]

JOINED = f"{SYSTEM}, joined with 3 files: accepted; run it by tools/join FILE .. | ./cosim run\n".encode()

# Changes of the files of FOLDER: the file, what is replaced, by what, and how the explanation begins, with `{}` for FOLDER.
CHANGES = [
    (UNITS[1], b"unit Heater", "unit Wärmer".encode(), "{}/units/heater.cosim:15: rule 1: "),
    (UNITS[0], b"output low : Bool", b"output low Bool", "{}/units/battery.cosim:9: rule 4: "),
    (UNITS[2], b"    less :=", b"    unit less\n    less :=", "{}/units/thermostat.cosim:14: rule 5: "),
    (UNITS[0], b"  end\nend\n", b"  end\n", "{}/units/battery.cosim:12: rule 6: "),
    (UNITS[2], b"cosim 1\n", b"", "{}/units/thermostat.cosim:3: rule 7: "),
    (UNITS[2], b"unit Thermostat", b"unit Heater", "{}/units/thermostat.cosim:4: rule 8: "),
    (UNITS[2], b"degrees < low", b"degree < low", "{}/units/thermostat.cosim:15: rule 9: "),
    (SYSTEM, b"  low = 18.5000", b"  low = 18.50000", "{}/system.cosim:7: rule 10: "),
    (UNITS[1], b" needs on ", b" ", "{}/units/heater.cosim:18: rule 12: "),
    (SYSTEM, b"stop", b"connect heater.power -> battery.load\nstop", "{}/system.cosim:20: rule 13: "),
    (UNITS[2], b"input degrees : Fixed 4", b"input degrees : Fixed 2", "{}/units/thermostat.cosim:9: rule 10: "),
    (UNITS[0], b"input load : Fixed 2", b"input load : Fixed 1", "{}/units/battery.cosim:7: rule 10: "),
    (SYSTEM, b"stop 3600\n", b"", "{}/system.cosim:2: rule 19: "),
    (SYSTEM, b"longest 60", b"longest 0.5", "{}/system.cosim:21: rule 20: "),
    (UNITS[1], b"    temperature := ", b"    power := power # ", "{}/units/heater.cosim:11: rule 22: "),
    (UNITS[2], b"cosim 1", b"cosim 2", "{0}/units/thermostat.cosim:2: this file has version 2, and {0}/units/battery.cosim:2 has"),
    (UNITS[0], b"cosim 1\n", b"cosim 1\nstop 5\n", "{0}/system.cosim:4: this line belongs to a system, and so does {0}/units/battery.cosim:3; "),
]

# Of these changes the places in other files that the explanation names.
OTHER_PLACES = {
    b"unit Heater": b"here: %s/units/heater.cosim:15 declares `Heater` too\n",
    b"connect heater.power -> battery.load\nstop": b"here: %s/system.cosim:18 leads to `battery.load` too\n",
    b"    power := power # ": b"here: `power` is declared by `input` at %s/units/heater.cosim:8\n",
}


def joined(trial):
    """The example of several files: the text that tools/join writes of it gives its trace, in any order of the units."""
    status, notes, text = trial.ask(["tools/join", *FILES])
    trial.tally.compare("join", (status, notes), (0, b""))
    trial.tally.compare("join, run", trial.call([trial.program, "run"], text), (0, b"", read(f"{FOLDER}/system.csv")))
    trial.tally.compare("explain, joined", trial.ask(["./explain", *FILES]), (0, b"", JOINED))
    printed = trial.call([trial.program, "print"], text)
    trial.tally.compare("join, the system first", trial.ask(["tools/join", SYSTEM, *UNITS]), (0, b"", text))
    other = trial.ask(["tools/join", *reversed(FILES)])[2]
    lines = [sorted(trial.call([trial.program, "print"], each)[2].splitlines()) for each in (text, other)]
    trial.try_that("join, reversed, has the same lines", printed[0] == 0 and lines[0] == lines[1])
    trial.tally.compare("join, one file", trial.ask(["tools/join", "examples/heater.cosim"]), (0, b"", read("examples/heater.cosim")))


def refused_files(trial):
    """Changes of a file are refused at the file and its line by ./explain and by tools/join, which writes nothing."""
    for path, old, new, begin in CHANGES:
        kept, changed = read(path), os.path.join(trial.clone, path)
        trial.try_that(f"{path} has {old}", old in kept)
        with open(changed, "wb") as file:
            file.write(kept.replace(old, new, 1))
        begin = begin.format(FOLDER).encode()
        status, notes, output = trial.ask(["./explain", *FILES])
        trial.tally.compare(f"explain, {begin}", (status, notes), (3, b""))
        wanted = (begin, shown_line(trial, begin), OTHER_PLACES.get(new, b"%s") % FOLDER.encode())
        trial.try_that(f"explain, {wanted}: {output.decode()}", output.startswith(begin) and all(part in output for part in wanted))
        status, notes, output = trial.ask(["tools/join", *FILES])
        trial.tally.compare(f"join, {begin}", (status, output), (3, b""))
        trial.try_that(f"join, {begin}: {notes.decode()}", notes.startswith(begin))
        shutil.copy(path, changed)


def shown_line(trial, begin):
    """The line of a file as ./explain shows it, by how its explanation begins; nothing where that is of no rule."""
    path, number, what = begin.split(b":", 2)
    if not what.startswith(b" rule "):
        return b""
    return b"%6d | %s\n" % (int(number), read(os.path.join(trial.clone, path.decode())).splitlines()[int(number) - 1])


def join_calls(trial):
    """Words without a form, files that can't be read or joined, outputs that can't be written, and environments."""
    form = trial.ask(["tools/join", "--help"])[2]
    trial.try_that("join --help", form.startswith(b"Joins files"))
    for words in ([], ["-x"], ["-x", *FILES]):
        trial.tally.compare(f"join {words}", trial.ask(["tools/join", *words]), (2, form, b""))
    for path, why in (("nowhere.cosim", "No such file or directory"), ("docs", "Is a directory"), ("", "No such file or directory")):
        note = f"{path}: {why}\n".encode()
        trial.tally.compare(f"join {path!r}", trial.ask(["tools/join", *FILES, path]), (4, note, b""))
        trial.tally.compare(f"explain .. {path!r}", trial.ask(["./explain", *FILES, path]), (1, note, b""))
    for other in (UNITS[0], f"./{UNITS[0]}", f"{FOLDER}/units/../units/battery.cosim"):
        note = f"{UNITS[0]} is given twice{'' if other == UNITS[0] else f', once as {other}'}\n".encode()
        trial.tally.compare(f"join, twice, {other}", trial.ask(["tools/join", other, *FILES]), (3, note, b""))
        trial.tally.compare(f"explain, twice, {other}", trial.ask(["./explain", other, *FILES]), (3, b"", note))
    note = f"no file has the system, which has instances and `stop`: {', '.join(UNITS)}\n".encode()
    trial.tally.compare("join, no system", trial.ask(["tools/join", *UNITS]), (3, note, b""))
    status, notes, output = trial.ask(["./explain", *FILES, "/dev/zero"])
    trial.try_that(f"explain, an endless file: {output[:99]}", (status, notes) == (3, b"") and output.startswith(b"/dev/zero:1: rule 2: "))
    note = b"the program /nowhere can't be started: No such file or directory. The variable COSIM names another\n"
    for tool in ("tools/join", "./explain"):
        trial.tally.compare(f"{tool}, no program", trial.call([tool, *FILES], COSIM="/nowhere"), (69, note, b""))
    name = "\x1b[2J\n:1: rule 99: "
    with open(os.path.join(trial.clone, name), "w", encoding="utf-8") as file:
        file.write("cosim 1\nunit\n")
    shown = b"\\x1b[2J\\n:1: rule 99: :2: rule 4: "
    trial.try_that("explain, a name that could forge a line", trial.ask(["./explain", name, SYSTEM])[2].startswith(shown))
    trial.try_that("join, a name that could forge a line", trial.ask(["tools/join", name, SYSTEM])[1].startswith(shown))
    os.remove(os.path.join(trial.clone, name))
    wanted = trial.ask(["tools/join", *FILES])
    trial.tally.compare("join --", trial.ask(["tools/join", "--", *FILES]), wanted)
    trial.tally.compare("explain --", trial.ask(["./explain", "--", *FILES]), (0, b"", JOINED))
    trial.tally.compare("join -- -x", trial.ask(["tools/join", "--", "-x"]), (4, b"-x: No such file or directory\n", b""))
    ascii_alone = {"COSIM": trial.program, "LC_ALL": "C", "PYTHONCOERCECLOCALE": "0", "PYTHONUTF8": "0"}
    trial.tally.compare("join, LC_ALL=C", trial.call(["tools/join", *FILES], **ascii_alone), wanted)
    trial.tally.compare("join, python3 -S", trial.ask(["python3", "-S", "tools/join", *FILES]), wanted)
    for closed in ("<&-", "2>&-", "<&- 2>&-"):
        words = ["bash", "-c", f'tools/join "$@" {closed}', "bash", *FILES]
        trial.tally.compare(f"join {closed}", trial.ask(words), wanted)
    link = os.path.join(trial.work, "links", "join")
    os.symlink(os.path.join(trial.clone, "tools", "join"), link)
    trial.tally.compare("join by a link", trial.ask([link, *FILES]), wanted)


CHECKS = (joined, refused_files, join_calls)
