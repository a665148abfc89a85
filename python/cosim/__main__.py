"""Draws models and reports on them from the command line.

    python -m cosim plot MODEL -o FILE [--columns NAME ..] [--until SECONDS] [--steps]
        runs a model, and draws its trace. The end of FILE says the format: .svg, .png or .pdf

    python -m cosim report MODEL -o FILE [--columns NAME ..] [--until SECONDS] [--steps] [--trace TRACE] [--against OTHER]
                           [--tolerance TOLERANCE ..]
        writes a page about a model and its trace into FILE, whose name ends in .html. With --trace the rows are those of a
        file, and else the model is run. OTHER is a trace in a file, or another model, which is run; the page lists where the
        two differ. A TOLERANCE is a number for all columns, or NAME=NUMBER for one

MODEL is a text of a model, with groups or without. With --steps the lengths of its steps are there too, with what limits
them, and a page has their summary; that requires the program cosim-steps. The status is that of `cosim run`: 0 where the run
came to its stop, and 6 to 9 where it ended early, with the program's note; then the rows up to there are drawn. It is 1 where a
file can't be read, 2 where the words have no form, 5 where FILE can't be written, and 69 where the program or a package is
missing. Of two runs it is the status of the first that ended early. A difference changes no status.
"""
import argparse
import importlib
import os
import sys
from typing import Any, Callable, Dict, List, NamedTuple, Optional, Sequence, Tuple, Union

from .errors import CosimError, UnfitValue, UnknownName
from .files import require_writable, write_at_once
from .models import Model
from .outcomes import Outcome
from .plots import columns_of
from .reports import report
from .reports.tables import drawn_columns
from .running import up_to
from .statuses import Status
from .streams import clean_name, note, start, write_output
from .traces import TIME, Trace
from .values import seconds_of

# The ends of names that a picture and a page may have.
FORMATS = (".svg", ".png", ".pdf")
PAGES = (".html",)

# Leaves the time of the making out of a picture.
METADATA: Dict[str, Dict[str, Any]] = {".svg": {"Date": None}, ".png": {}, ".pdf": {"CreationDate": None}}


class Parser(argparse.ArgumentParser):
    """A parser whose help ends the process by the status of a write fault where it can't be written."""

    def print_help(self, file: Any = None) -> None:
        write_output(self.format_help().rstrip("\n"))


class Unwritable(Exception):
    """The output can't be written."""


class Made(NamedTuple):
    """What a command made: a function that writes it into a file, and how the runs ended."""

    write: Callable[[Any], object]
    outcomes: List[Outcome]


def read_words(words: Sequence[str]) -> argparse.Namespace:
    """The words of the call. Ends the process by status 2 where they have no form."""
    parser = Parser(prog="python -m cosim", description="Draws models of cosim.", allow_abbrev=False)
    commands = parser.add_subparsers(dest="command", required=True, metavar="COMMAND")
    plot = commands.add_parser("plot", help="draws the trace of a model", allow_abbrev=False)
    plot.set_defaults(make=make_plot, what="picture", ends=FORMATS)
    page = commands.add_parser("report", help="writes a page about a model and its trace", allow_abbrev=False)
    page.set_defaults(make=make_report, what="page", ends=PAGES)
    for command in (plot, page):
        what, ends = command.get_default("what"), command.get_default("ends")
        command.add_argument("model", metavar="MODEL", help="the file of the model")
        command.add_argument("-o", dest="output", metavar="FILE", required=True, help=f"the {what}, whose name ends in {', '.join(ends)}")
        command.add_argument("--columns", nargs="+", metavar="NAME", help="the columns that are drawn, as plate.degrees; else all")
        command.add_argument("--until", metavar="SECONDS", help="takes no rows after this time")
        command.add_argument("--steps", action="store_true", help="shows how long the steps are, and why")
    page.add_argument("--trace", metavar="TRACE", help="a file with rows of the model, which then isn't run")
    page.add_argument("--against", metavar="OTHER", help="a file with other rows, or another model, which is compared")
    page.add_argument("--tolerance", nargs="+", metavar="TOLERANCE", help="how far numbers may be apart: 0.5, or plate.degrees=0.5 for one column")
    given = parser.parse_args(list(words))
    command = plot if given.command == "plot" else page
    if os.path.splitext(given.output)[1] not in given.ends:
        command.error(f"the name of the {given.what} ends in {', '.join(given.ends)}, and not as {clean_name(given.output)}")
    if given.command == "report" and given.tolerance and not given.against:
        command.error("--tolerance requires --against")
    return given


def make_plot(given: argparse.Namespace) -> Made:
    """The picture of a model's trace. What can be judged before the run is."""
    importlib.import_module("matplotlib.figure")
    model = Model.read(given.model)
    columns_of(without_rows(model), given.columns)
    require_output(given.output)
    steps = given.steps and model.steps()
    trace = model.run(until=given.until)
    figure, end = trace.plot(given.columns, steps=steps), os.path.splitext(given.output)[1]
    return Made(lambda file: figure.savefig(file, format=end[1:], metadata=METADATA[end]), [trace.outcome])


def make_report(given: argparse.Namespace) -> Made:
    """The page about a model's trace. What can be judged before the runs is."""
    importlib.import_module("plotly")
    model, tolerance = Model.read(given.model), tolerance_of(given.tolerance or [])
    against = None if given.against is None or is_table(given.against) else Model.read(given.against)
    columns = without_rows(model)
    drawn_columns(columns, given.columns)
    columns.diff(columns if against is None else without_rows(against), tolerance)
    require_output(given.output)
    other = read_rows(model, given.against, given.until) if given.against is not None and against is None else None
    steps = given.steps and model.steps()
    trace = model.run(until=given.until) if given.trace is None else read_rows(model, given.trace, given.until)
    other = other if against is None else against.run(until=given.until)
    labels = labels_of(given.trace or given.model, given.against or "")
    page = report(model, trace, other, tolerance, given.columns, labels=labels, steps=steps)
    return Made(lambda file: file.write(page), [each.outcome for each in (trace, other) if each is not None])


def without_rows(model: Model) -> Trace:
    """A trace of a model before it is run."""
    return Trace.without_rows(model.system.columns, model.system.resolution)


def require_output(path: str) -> None:
    """Unwritable where the output couldn't be written."""
    try:
        require_writable(path)
    except OSError as error:
        raise Unwritable(error.strerror) from None


def labels_of(mine: str, other: str) -> Tuple[str, str]:
    """What a page calls two traces: the names of their files, with the folders where the names are the same."""
    names = os.path.basename(mine), os.path.basename(other)
    return names if names[0] != names[1] else (mine, other)


def read_rows(model: Model, path: str, until: Optional[str]) -> Trace:
    """The trace of a model that a file has, up to a time."""
    trace = model.read_trace(path)
    if until is None:
        return trace
    table = up_to(trace.table, seconds_of(until, "until"), model.table(), True)
    return Trace(table, model.system.columns, trace.resolution, trace.outcome)


def is_table(path: str) -> bool:
    """Whether a file has rows: a table begins by the word `time`, and every other file is a model."""
    with open(path, "rb") as file:
        return file.read(len(TIME) + 1) == f"{TIME},".encode()


def tolerance_of(words: Sequence[str]) -> Union[str, Dict[str, str]]:
    """The tolerance for all columns, or those by the name of a column."""
    named = dict(word.split("=", 1) for word in words if "=" in word)
    if named and len(named) == len(words):
        return named
    if len(words) > 1:
        raise UnfitValue(f"tolerance: {' '.join(words)}: write one number, or NAME=NUMBER for each column once")
    return words[0] if words else "0"


def main(words: Sequence[str]) -> int:
    """Makes what the words ask for. Returns the status."""
    given = read_words(words)
    try:
        made: Made = given.make(given)
    except Unwritable as error:
        note(f"{clean_name(given.output)}: {error}")
        return Status.WRITE_FAULT
    except OSError as error:
        note(f"{clean_name(error.filename or given.model)}: {error.strerror}")
        return Status.NO_FILE
    except ImportError as error:
        note(f"a {given.command} requires the Python package {error.name}, which isn't there")
        return Status.NO_PROGRAM
    except (UnknownName, UnfitValue) as error:
        note(f"cosim: {error}")
        return Status.NO_FORM
    except CosimError as error:
        note(str(error))
        return error.status if error.status is not None else Status.NO_PROGRAM
    try:
        write_at_once(given.output, made.write)
    except OSError as error:
        note(f"{clean_name(given.output)}: {error.strerror}")
        return Status.WRITE_FAULT
    early = [outcome for outcome in made.outcomes if outcome.note]
    for outcome in early:
        note(outcome.note)
    return next((outcome.status for outcome in early if outcome.status), Status.ACCEPTED)


if __name__ == "__main__":
    start(lambda: main(sys.argv[1:]))
