"""Tries ./explain, for .ci/tools.

It is called on the texts of examples/mistakes, tests/forms.txt, guilty.txt and cures.txt, on files of all kinds, on notes and
numbers, and with closed streams. Each call asks the program that is tried.
"""
import glob
import os
import re
import shutil

from common import cured, read, read_mistakes

# The lines before a line without a form, by its place, and those after it.
BEFORE = {
    "outside": ["cosim 1"],
    "unit": ["cosim 1", "unit A"],
    "step": ["cosim 1", "unit A", "step"],
    "instance": ["cosim 1", "instance a : A"],
    "step of version 2": ["cosim 2", "unit A", "step"],
    "header of events": [],
}
AFTER = {"header of events": "unit A\nevent input u : Int64\nend\n"}

# The commands that judge the texts of tests/cures.txt.
JUDGES = {"units": "check", "ports": "check", "groups": "flatten", "saved texts": "resume", "tables": "stimulus"}

MODEL = b"cosim 1\nunit A\n  state n : Int64 = 0\n  output y : Int64 = n\nend\ninstance a : A\nend\nstop 3\n"
NESTED = b"group G\n  instance a : A\n  end\n  out y = a.y\nmain\n" + MODEL.replace(b"instance a : A", b"instance g : G")
SAVED = b"saved 1\nrow 0\nat 0 0\nstate a 0\n" + MODEL

NO_TRACE = b"no model: append it to a model and a line `trace`, and ask ./cosim verify\n"

PARTED = b"verify reads a text without groups, so append that line and the table to what ./cosim flatten prints\n"

# Files that are accepted, or that no command judges: with the status, what is noted, and what is printed; `{}` is the name.
ACCEPTED = {
    "model": (MODEL, 0, b"", b"{}: accepted\n"),
    "parted": (MODEL + b"trace\ntime,index\n", 0, b"", b"{}: accepted, up to the line 'trace'\n"),
    "nested": (NESTED, 0, b"", b"{}: accepted by flatten; run it by ./cosim flatten < {} | ./cosim run\n"),
    "saved": (SAVED, 0, b"", b"{}: accepted by resume; run it by ./cosim resume < {}\n"),
    "saved by DOS": (SAVED.replace(b"\n", b"\r\n"), 0, b"", b"{}: accepted by resume; run it by ./cosim resume < '{}'\n"),
    "table": (b"time,v\n0,5\n2,-1\n", 0, b"", b"{}: accepted by stimulus; make a model of it by ./cosim stimulus < {}\n"),
    "marked table": (b"\xef\xbb\xbf\r\n\ntime,v\n0,5\n", 0, b"", b"{}: accepted by stimulus; make a model of it by ./cosim stimulus < '{}'\n"),
    "indices": (b"time,index,v\n0,5,6\n", 0, b"", b"{}: accepted by stimulus; make a model of it by ./cosim stimulus < {}\n"),
    "parted nested": (NESTED + b"trace\ntime,index\n", 0, b"", b"{}: accepted by flatten, up to the line 'trace'; " + PARTED),
    "marked": (b'\xef\xbb\xbf"time","index","a.y"\n0,0,0\n', 2, b"{}: the table of a trace, which is " + NO_TRACE, b""),
    "trace": (b"time,index,a.y\n0,0,0\n", 2, b"{}: the table of a trace, which is " + NO_TRACE, b""),
}

SUM = b"= n" + b"+n" * 450

# Files that are refused, with the line, the rule, and how the line is shown.
REFUSED = {
    "front": (b"cosim 1\nunit\n trace # of\n", 2, 4, b"unit\n"),
    "saved behind": (SAVED.replace(b"= n", b"= m"), 8, 9, b"  output y : Int64 = m\n"),
    "saved before": (SAVED.replace(b"at 0 0", b"at 0"), 3, 32, b"at 0\n"),
    "lines of a table": (b"\ntime,v\n", 2, 36, b"time,v\n"),
    "semicolons": (b"time;v\n0;5\n", 1, 36, b"time;v\n"),
    "capitals of a table": (b"Time,v\n0,5\n", 1, 36, b"Time,v\n"),
    "spaces of a table": (b"time ,v\n0,5\n", 1, 36, b"time ,v\n"),
    "saved of version 2": (SAVED.replace(b"saved 1", b"saved 2"), 1, 32, b"saved 2\n"),
    "saved with a space": (SAVED.replace(b"saved 1", b"saved 1 "), 1, 32, b"saved 1\n"),
    "records": (b'time,v\n\n0,"5"\n\n0,6\n', 5, 36, b"0,6\n"),
    "empty": (b"", 1, 7, b""),
    "long": (b"#" * (1 << 20), 1, 2, b"#" * 200 + b" ..\n"),
    "signs": (b"cosim 1\nunit \x1b\xc2\xa0\xff\r\n", 2, 1, b"unit \\x1b\\xa0\\xff\n"),
    "returns": (b"cosim 1\r\nunit A\r\r\n", 2, 1, b"unit A\\r\n"),
    "kinds of a sum": (MODEL.replace(b"= n", SUM + b"+1.0"), 4, 10, b"  output y : Int64 = n+n"),
    "names of a sum": (MODEL.replace(b"= n", SUM + b"+m"), 4, 9, b"  output y : Int64 = n+n"),
}

# Texts that are refused, with what is said of the cause.
STEP = b"  step\n    repeat 1000\n      repeat 500\n        n := n + 1\n      end\n    end\n  end\nend\ninstance"
LETTER = "the character is U+00E9, latin small letter e with acute"
DIGITS = f"the digits of a number, without its point, are at most {2**63 - 1}"
REASONS = (
    (MODEL.replace(b"state n", "state é".encode()), "byte 9 of the line is C3 in hexadecimal; " + LETTER),
    (MODEL.replace(b"state n", b"state \xf1"), "byte 9 of the line is F1 in hexadecimal"),
    (b"\xef\xbb\xbf" + MODEL, "the line begins with the byte-order mark of UTF-8, which is EF BB BF"),
    (MODEL.decode().encode("utf-16"), "the line begins with the byte-order mark of UTF-16, which is FF FE"),
    (MODEL.decode().encode("utf-16-le"), "byte 2 of the line is 00 in hexadecimal, as in a text in UTF-16"),
    (MODEL.replace(b"Int64 = 0", b"Int8 = 300"), "the words of `Int8` are -128 to 127, and `300` has another one"),
    (MODEL.replace(b"end\ninstance", STEP), "line 8 is repeated 500,000 times in a step"),
    (MODEL.replace(b"stop 3", b"stop 0.5"), "a tick is a second, and `0.5` is no whole number of ticks"),
    (MODEL + b"longest 0\n", "the longest step has a length above 0"),
    (MODEL + b"stop 4\n", "line 8 is a `stop` line too"),
    (MODEL.replace(b"= n", b"= 99999999999999999999"), "`99999999999999999999` is too large: " + DIGITS),
    (SAVED.replace(b"row 0", b"row 00"), "`00` is no whole number from 0 to 10^15, or isn't written in the shortest way"),
    (SAVED.replace(b"at 0 0", b"at 0"), "the form is `at T I`, and here are 2 words"),
    (SAVED.replace(b"saved 1", b"saved 2"), "the line is `saved 1`, and not `saved 2`"),
)

# Notes, with the kind and the number of the page that is printed.
NOTES = {
    "rule 4": ("rule", 4),
    "line 9: rule 4": ("rule", 4),
    "cosim: line 4: rule 10": ("rule", 10),
    "cosim: fault 3 of a output y at 60,0": ("fault", 3),
    "status 6": ("status", 6),
    "cosim: no memory": ("status", 1),
    "cosim: usage": ("status", 2),
    "cosim: read fault": ("status", 4),
    "cosim: write fault": ("status", 5),
    "cosim: zero budget at 3.25,2": ("status", 6),
    "zero budget at 3,2": ("status", 6),
    "cosim: row budget at 9,0": ("status", 7),
    "cosim: wheel refused 4, accepted 2, at 60.5,0": ("status", 9),
}

# The parts of docs/COMMANDS.md with the columns of a step log and of its summary.
STEP_TABLES = ("cosim-steps", "The summary")

# Notes of counts, with a heading of docs/COMMANDS.md.
COUNTS = {
    "cosim: rows 4 found 0 own 3 tickets 0 posted 0 back 0 lapsed 0": b"### With workers\n",
    "cosim: events 16 refused 4 found 2 own 1 tickets 1 posted 1 back 0 lapsed 0 appended 2": b"## replay\n",
    "cosim: node 0 row 3, node 1 row 3": b"## nodes\n",
}


def put(trial, name, text):
    with open(os.path.join(trial.clone, name), "wb") as file:
        file.write(text)


def explain(trial, text, name="tried"):
    """The status, the notes and the output of ./explain on a text."""
    put(trial, name, text)
    return trial.ask(["./explain", name])


def rows_behind(path):
    """The sections of a file of tests: of each its name, its text and its rows, whose cells are between bars."""
    for part in re.split(r"^=== ", read(path).decode(), flags=re.M)[1:]:
        name, _, rest = part.partition("\n")
        text, _, rows = rest.partition("---\n")
        yield name, text.encode(), [row.split(" | ") for row in rows.strip().splitlines()]


def cases_of_rules():
    """The cases of docs/RULES.md with their cures, without links."""
    tables = re.findall(r"^\| case \| cure \|\n\|---\|---\|\n((?:\|.*\n)+)", read("docs/RULES.md").decode(), re.M)
    rows = [row.strip("| ").split(" | ") for table in tables for row in table.splitlines()]
    return {case: re.sub(r"\[([^]]*)\]\([^)]*\)", r"\1", cure) for case, cure in rows}


def columns_of(title):
    """The columns that a table of docs/COMMANDS.md explains, in the part of this heading."""
    part = re.split(rf"^##+ {re.escape(title)}\n", read("docs/COMMANDS.md").decode(), flags=re.M)[1]
    table = re.search(r"^\| column \| has \|\n\|---\|---\|\n((?:\|.*\n)+)", part, re.M)[1]
    return [name for row in table.splitlines() for name in re.findall(r"`(\w+)`", row.split("|")[1])]


def mistakes(trial):
    """The mistakes of examples/mistakes: the line, the rule and its title."""
    titles = dict(re.findall(r"^\| \[(\d+)\]\([^)]*\) \| (.*?) \|", read("docs/RULES.md").decode(), re.M))
    for name, answer, _ in read_mistakes():
        path = f"examples/mistakes/{name}.cosim"
        got = trial.ask(["./explain", path])
        if answer == "accepted":
            trial.tally.compare(f"explain {path}", got, (0, b"", f"{path}: accepted\n".encode()))
            continue
        status, notes, told = got[0], got[1], got[2].decode().splitlines()
        line, rule = re.findall(r"\d+", answer)
        text = read(path).splitlines()[int(line) - 1].decode()
        wanted = [f"{path}:{line}: rule {rule}: {titles[rule]}", f"{line:>6} | {text}"]
        trial.tally.compare(f"explain {path}", (status, notes), (3, b""))
        trial.try_that(f"explain {path} names the line: {told[:2]}", told[:2] == wanted)
        parts = [line.partition(":")[0] for line in told[2:]]
        trial.try_that(f"explain {path} has a cure: {parts}", parts[-2:] == ["cure", "more"])
        if rule == "4":
            trial.try_that(f"explain {path} has a form and a like line: {parts}", parts[:3] == ["here", "form", "like it"])


def lines_without_form(trial):
    """Each line of tests/forms.txt, with the line that is like it and the nearest one, which has a form."""
    for row in read("tests/forms.txt").decode().partition("\n\n")[2].splitlines():
        place, line, like, right = row.split(" | ")
        text = "".join(f"{before}\n" for before in BEFORE[place])
        told = explain(trial, f"{text}{line}\n{AFTER.get(place, '')}".encode())[2].decode()
        number = text.count("\n") + 1
        trial.try_that(f"explain {line!r} names its line: {told[:99]}", told.startswith(f"tried:{number}: rule 4: "))
        got = [(re.search(f"^{what}", told, re.M) or ["-", "-"])[1] for what in ("like it: `([^`]*)`", "right: (.*)$")]
        trial.try_that(f"explain {line!r}: {got}", got == [like, right])
        note = trial.call([trial.program, "check"], f"{text}{right}\n".encode())[1]
        trial.try_that(f"{right!r} has a form", right == "-" or note != f"cosim: line {number}: rule 4\n".encode())


def guilty_lines(trial):
    """Each mistake of tests/guilty.txt, with what `flatten` notes and the line that is named."""
    for _, base, rows in rows_behind("tests/guilty.txt"):
        trial.tally.compare("the text of tests/guilty.txt", trial.call([trial.program, "flatten"], base)[:2], (0, b""))
        for change, answer, line in rows:
            text = cured(base, change)
            noted = trial.call([trial.program, "flatten"], text)
            trial.tally.compare(f"flatten, {change[:99]}", noted, (3, f"cosim: {answer}\n".encode(), b""))
            status, notes, told = explain(trial, text)
            trial.tally.compare(f"explain, {change[:99]}", (status, notes), (3, b""))
            shown = f"{line:>6} | {text.decode().splitlines()[int(line) - 1]}"[:200].rstrip()
            begin = f"tried:{line}: {answer.partition(': ')[2]}: "
            is_named = told.decode().startswith(begin) and told.decode().splitlines()[1].startswith(shown)
            trial.try_that(f"explain, {change[:99]}: {told[:99]}", is_named)


def cures_of_cases(trial):
    """Each mistake of tests/cures.txt, with the cure of its case. All cases of docs/RULES.md are there."""
    cures, seen = cases_of_rules(), set()
    for name, base, rows in rows_behind("tests/cures.txt"):
        trial.tally.compare(f"tests/cures.txt, {name}", trial.call([trial.program, JUDGES[name]], base)[:2], (0, b""))
        for change, answer, case in rows:
            seen.add(case)
            text = cured(base, change)
            noted = trial.call([trial.program, JUDGES[name]], text)
            trial.tally.compare(f"{JUDGES[name]}, {change[:99]}", noted, (3, f"cosim: {answer}\n".encode(), b""))
            status, notes, told = explain(trial, text)
            trial.tally.compare(f"explain, {change[:99]}", (status, notes), (3, b""))
            cure = (re.search("^cure: (.*)$", told.decode(), re.M) or ["", ""])[1]
            cure = re.sub(r" \((docs|examples)/[^)]*\)", "", cure)
            trial.try_that(f"explain, {change[:99]}, {case}: {cure}", cure == cures.get(case))
    trial.try_that(f"tests/cures.txt lacks cases: {set(cures) - seen}", set(cures) == seen)


def reasons(trial):
    """What is said of the cause, of texts that break rules by one word or one byte."""
    for text, wanted in REASONS:
        told = explain(trial, text)[2].decode()
        trial.try_that(f"explain says {wanted!r}: {told}", f"\nhere: {wanted}\n" in told)


def explained_files(trial):
    """Files of all kinds, and names that could forge a line or do something to a terminal."""
    for name, (text, *wanted) in ACCEPTED.items():
        status, *written = (part if isinstance(part, int) else part.replace(b"{}", name.encode()) for part in wanted)
        trial.tally.compare(f"explain, {name}", explain(trial, text, name), (status, *written))
    for name, (text, line, rule, shown) in REFUSED.items():
        status, notes, output = explain(trial, text, name)
        trial.tally.compare(f"explain, {name}", (status, notes), (3, b""))
        begin = rf"{name}:{line}: rule {rule}: [^\n]*\n{line:6} \|".encode() + re.escape(b" " + shown if shown else b"\n")
        trial.try_that(f"explain, {name}: {output[:200]}", re.match(begin, output))
    for name, shown in (("a\nb:3: rule 4: ", "a\\nb:3: rule 4: "), ("\x1b[2J", "\\x1b[2J"), ("\udcff", "\\udcff"), ("é", "é")):
        wanted = f"{shown}:1: rule 7: there is no header\n".encode()
        got = explain(trial, b"stop 3\n", name)
        trial.try_that(f"explain, a file named {name!r}: {got}", got[:2] == (3, b"") and got[2].startswith(wanted))
    for path, rule in (("/dev/null", 7), ("/dev/zero", 2)):
        got = trial.ask(["./explain", path])
        begin = f"{path}:1: rule {rule}: ".encode()
        trial.try_that(f"explain {path}: {got[2][:99]}", got[:2] == (3, b"") and got[2].startswith(begin))


def pages(trial):
    """Rules, statuses and faults, as the documents have them."""
    for number in (*range(1, 25), *range(26, 38)):
        status, notes, output = trial.ask(["./explain", str(number)])
        trial.tally.compare(f"explain rule {number}", trial.ask(["./explain", "rule", str(number)]), (0, b"", output))
        whole = re.match(rf"#+ Rule {number}: .*\n\*\*Cure\.\*\* ", output.decode(), re.S)
        trial.try_that(f"explain {number}", (status, notes) == (0, b"") and whole)
    output = trial.ask(["./explain", "4"])[2]
    trial.try_that("explain 4 has the table of forms", b"\n| in an instance | `p = L`, `end` |\n" in output)
    told = {
        "status": {0: "stop", 1: "no memory", 2: "usage", 3: "line L: rule R", 4: "read fault", 5: "write fault"}
        | {6: "zero budget", 7: "row budget", 8: "fault F of A", 9: "A refused D", 69: "script"}
        | dict.fromkeys((128, 130, 139, 153), "a signal ended the command"),
        "fault": {1: "overflow", 2: "range", 3: "zero divisor", 4: "accept", 5: "max"},
    }
    for kind, numbers in told.items():
        for number, words in numbers.items():
            status, notes, output = trial.ask(["./explain", kind, str(number)])
            trial.tally.compare(f"explain {kind} {number}", (status, notes), (0, b""))
            whole = re.match(rf"{kind} {number}\n.*{re.escape(words)}.*\nmore: ", output.decode(), re.S)
            trial.try_that(f"explain {kind} {number}: {output.decode()}", whole)
            trial.try_that(f"explain {kind} {number}, numbered items", not re.search(rb"^\d+\. ", output, re.M))


def notes_of_program(trial):
    """Notes of the program and lines of counts."""
    for note, (kind, number) in NOTES.items():
        wanted = trial.ask(["./explain", kind, str(number)])
        trial.tally.compare(f"explain {note!r}", trial.ask(["./explain", note]), (0, b"", wanted[2]))
        trial.tally.compare(f"explain {note}", trial.ask(["./explain", *note.split()]), wanted)
    for note, heading in COUNTS.items():
        got = trial.ask(["./explain", note])
        trial.try_that(f"explain {note}: {got[2][:99]}", got[:2] == (0, b"") and got[2].startswith(heading))
    for kind, place in (("rule", "RULES"), ("status", "COMMANDS"), ("fault", "LANGUAGE")):
        note = f"there is no {kind} 99 in docs/{place}.md\n".encode()
        trial.tally.compare(f"explain {kind} 99", trial.ask(["./explain", kind, "99"]), (2, note, b""))


def columns(trial):
    """The columns of step logs and of their summaries, as docs/COMMANDS.md has them. A file of such a name is one after `--`."""
    for title in STEP_TABLES:
        names = columns_of(title)
        for name in names:
            got = trial.ask(["./explain", name])
            trial.tally.compare(f"explain column {name}", trial.ask(["./explain", "column", name]), got)
            whole = re.match(rf'column {name}\nhas: [^\n]+\n(.*\n)?more: "{title}" of docs/COMMANDS\.md\n$', got[2].decode(), re.S)
            trial.try_that(f"explain {name}: {got}", got[:2] == (0, b"") and whole)
            trial.try_that(f"explain {name}, a line of a table: {got}", b"\n|" not in got[2] and b"](" not in got[2])
        trial.try_that(f"explain, the columns of {title}: {names}", len(names) == len(set(names)) > 4)
    trial.try_that("explain accepted has when it is empty", b"are empty where" in trial.ask(["./explain", "accepted"])[2])
    note = b"there is no column x in docs/COMMANDS.md\n"
    trial.tally.compare("explain column x", trial.ask(["./explain", "column", "x"]), (2, note, b""))
    put(trial, "held", MODEL)
    trial.tally.compare("explain -- held", trial.ask(["./explain", "--", "held"]), (0, b"", b"held: accepted\n"))
    trial.tally.compare("explain ./held", trial.ask(["./explain", "./held"]), (0, b"", b"./held: accepted\n"))


def words_without_form(trial):
    """Words without a form, files that can't be read, and a program that isn't there."""
    form = trial.ask(["./explain", "--help"])[2]
    for words in ([], ["rule"], ["rule", "x"], ["column"], ["column", "a", "b"], ["--rule"], ["--rule", "x"], ["--"], ["cosim:", "line", "x"]):
        trial.tally.compare(f"explain {words}", trial.ask(["./explain", *words]), (2, form, b""))
    missing = "No such file or directory"
    for path, why in (("nowhere.cosim", missing), ("docs", "Is a directory"), ("", missing)):
        trial.tally.compare(f"explain {path!r}", trial.ask(["./explain", path]), (1, f"{path}: {why}\n".encode(), b""))
    for words in (["nix1", "nix2"], ["nix1", "examples/heater.cosim"], ["examples/heater.cosim", "nix1"], ["--", "nix1"]):
        trial.tally.compare(f"explain {words}", trial.ask(["./explain", *words]), (1, f"nix1: {missing}\n".encode(), b""))
    for name in ("true", "false", "echo", "cat"):
        path = shutil.which(name)
        got = trial.call(["./explain", "examples/heater.cosim"], COSIM=path)
        trial.tally.compare(f"explain, COSIM={path}", got, (69, f"{path}: it isn't cosim\n".encode(), b""))
    got = trial.call(["./explain", "examples/heater.cosim"], COSIM="/nowhere")
    trial.tally.compare("explain, no program", got, (69, b"/nowhere: No such file or directory\n", b""))


def explained_environments(trial):
    """A link to the script, closed streams, and a locale of ASCII alone."""
    link = os.path.join(trial.work, "links", "explain")
    os.symlink(os.path.join(trial.clone, "explain"), link)
    accepted = (0, b"", b"examples/heater.cosim: accepted\n")
    trial.tally.compare("explain by a link, with ./cosim", trial.call([link, "examples/heater.cosim"]), accepted)
    for closed in ("<&-", "2>&-", "<&- 2>&-"):
        words = ["bash", "-c", f"./explain examples/heater.cosim {closed}"]
        trial.tally.compare(f"explain {closed}", trial.ask(words), accepted)
    put(trial, "comment", MODEL + "# °C\nstop ° 3\n".encode())
    for locale in ("C", "POSIX"):
        got = trial.call(["./explain", "comment"], COSIM=trial.program, LC_ALL=locale, PYTHONCOERCECLOCALE="0", PYTHONUTF8="0")
        trial.try_that(f"explain, {locale}: {got}", got[0] == 3 and got[1] == b"" and got[2].startswith(b"comment:10: rule 1: "))
    for tool in ("tools/graph", "tools/advice"):
        got = trial.ask(["bash", "-c", f"{tool} <&-"])
        trial.tally.compare(f"{tool} <&-", got, (4, b"the input can't be read: Bad file descriptor\n", b""))
        got = trial.ask(["bash", "-c", f"{tool} </dev/zero"])
        trial.tally.compare(f"{tool} </dev/zero", got, (3, b"cosim: line 1: rule 2\n", b""))
    left = glob.glob(os.path.join(trial.clone, "**", "__pycache__"), recursive=True)
    trial.try_that(f"calls leave {left}", not [path for path in left if os.sep + ".ci" not in path])


CHECKS = (mistakes, lines_without_form, guilty_lines, cures_of_cases, reasons, explained_files, pages, notes_of_program, columns)
CHECKS += (words_without_form, explained_environments)
