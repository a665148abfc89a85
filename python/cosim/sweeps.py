"""Sweeps: one model with many values of its parameters."""
import concurrent.futures
import csv
import functools
import hashlib
import importlib
import io
import itertools
import json
import numbers
import os
import stat
from concurrent.futures.process import BrokenProcessPool
from contextlib import contextmanager
from decimal import Decimal
from fractions import Fraction
from typing import Any, BinaryIO, Callable, Dict, Generator, Iterator, List, Mapping, NamedTuple, Optional, Sequence, Tuple, Union

from .errors import CosimError, UnfitValue
from .models import Model, Prepared
from .progress import bar
from .settings import value_of_literal
from .streams import Path, clean_name, read_at_most
from .traces import Trace
from .values import Given, Value, literal_of

# What a measure of a trace may be: a value, or several by their names.
Measured = Union[Value, Fraction, str, None, float]
Measure = Callable[[Trace], Union[Measured, Mapping[str, Measured]]]

# The outcomes of a run whose measure failed, of a model that is refused, of a program that gave no answer, and of a run whose
# process or machine was lost; others are kinds of `Outcome`.
MEASURE_FAILED = "measure failed"
REFUSED = "refused"
PROGRAM_FAILED = "program failed"
WORKER_LOST = "worker lost"

# The columns of a sweep that are neither parameters nor measures.
OTHER_COLUMNS = ("outcome", "note")

# The most runs that are one task of an executor. A task that is lost is made again as a whole.
MOST_IN_TASK = 32

# How many tasks an executor gets before the first ones are done.
TASKS_AHEAD = 64

# How often a task may be lost with a worker of a cluster.
MOST_LOSSES = 8

# The most bytes of the first line of a kept file, which has names alone.
LONGEST_HEADER = 1 << 20

# A run of a sweep: the literal of each parameter.
Case = Tuple[str, ...]

# A run that is done, as JSON has it: its literals, its outcome and note, and its measures.
Done = Dict[str, Any]

# What runs a task: some cases, one after the other.
Runs = Callable[[Sequence[Case]], List[Done]]


class SweepRow(NamedTuple):
    """A row of a sweep: the values of the parameters, the kind of the outcome, the note on it, and the measures."""

    parameters: Dict[str, Value]
    outcome: str
    note: str
    measures: Dict[str, Measured]


class Sweep:
    """The table of a sweep: a row for each combination of parameters, in their order."""

    def __init__(self, rows: Sequence[SweepRow]) -> None:
        self.rows = list(rows)

    def __len__(self) -> int:
        return len(self.rows)

    def __iter__(self) -> Iterator[SweepRow]:
        return iter(self.rows)

    @property
    def names(self) -> List[str]:
        """The names of the columns: the parameters, `outcome`, `note` and the measures."""
        parameters = list(self.rows[0].parameters) if self.rows else []
        measures = dict.fromkeys(name for row in self.rows for name in row.measures)
        return [*parameters, *OTHER_COLUMNS, *measures]

    def records(self) -> List[Dict[str, Any]]:
        """A dictionary for each row, with None where a run has no such measure."""
        records: List[Dict[str, Any]] = [{**row.parameters, **row.measures, "outcome": row.outcome, "note": row.note} for row in self.rows]
        return [{name: record.get(name) for name in self.names} for record in records]

    def frame(self) -> Any:
        """The table as a frame of pandas, whose values stay exact: no column becomes floats."""
        import pandas

        return pandas.DataFrame(self.records(), columns=self.names, dtype="object")

    def to_csv(self, path: Optional[Path] = None) -> bytes:
        """The table as CSV, which is written to a file too where one is named. OSError where it can't be written."""
        text = io.StringIO()
        writer = csv.writer(text, lineterminator="\n")
        writer.writerow(self.names)
        writer.writerows([field_of(value) for value in record.values()] for record in self.records())
        if path is not None:
            with open(path, "w", encoding="utf-8", newline="") as file:
                file.write(text.getvalue())
        return text.getvalue().encode()


def field_of(value: Measured) -> str:
    if value is None:
        return ""
    if isinstance(value, bool):
        return str(value).lower()
    return f"{value:f}" if isinstance(value, Decimal) else str(value)


def sweep(
    model: Model,
    parameters: Mapping[str, Sequence[Given]],
    measure: Optional[Measure] = None,
    executor: Any = None,
    keep: Optional[Path] = None,
    progress: Union[bool, Callable[[int, int], object]] = False,
) -> Sweep:
    """Runs a model with each combination of values of its parameters: `{"plate.cooling": ["0.50", "0.60"]}`.

    `measure` is a function of a trace that returns a value, or values by their names; runs that end early are measured too. A
    run that fails is a row with its outcome, and ends nothing. Numbers and truth values of numpy become those of Python.

    `executor` is any of `concurrent.futures`, or a `dask.distributed.Client`; without one, processes of this machine run on
    all its cores. Functions go to other processes by their names, so `measure` has to be one of a module. Where a process is
    ended from outside, the runs that it may have had are made again, each in a process of its own. A run that loses that too has
    the outcome "worker lost".

    `keep` names a file that gets a line for each run that is done, but for those that were lost. A sweep that was broken off goes
    on from there: it makes only the runs that the file hasn't. UnfitValue where the file is of another model, of other parameters
    or of a measure with another name, or is no file of a sweep.

    `progress` is True for a bar, or a function of the number of runs that are done and of all.

    UnknownName and UnfitValue where there is no such parameter, or a value is none of its type, before anything runs.
    """
    names = tuple(parameters)
    types = {name: model.find_parameter(name)[1].type for name in names}
    literals = literals_of(types, parameters)
    values = [{literal: value_of_literal(literal, types[name], name) for literal in literals[name]} for name in names]
    cases = list(itertools.product(*literals.values()))
    with Kept(keep, header_of(model, list(names), measure)) as kept, reporter(progress, len(cases)) as report:
        left = [case for case in dict.fromkeys(cases) if case not in kept.runs]
        report(len(cases) - len(left))
        for count, done in enumerate(run_cases(model.prepared(names), names, left, measure, executor), 1):
            kept.add(done)
            report(len(cases) - len(left) + count)
        return Sweep([row_of(kept.runs[case], case, names, values) for case in cases])


@contextmanager
def reporter(progress: Union[bool, Callable[[int, int], object]], total: int) -> Iterator[Callable[[int], object]]:
    """A function of the number of runs that are done, as a caller asks for."""
    if callable(progress):
        report = progress
        yield lambda done: report(done, total)
    elif progress:
        with bar(total, "runs") as show:
            yield show
    else:
        yield lambda done: None


def literals_of(types: Mapping[str, str], parameters: Mapping[str, Sequence[Given]]) -> Dict[str, List[str]]:
    """The literals of each parameter's values. UnfitValue where a value is none of its type, or there is no list of values."""
    for name, values in parameters.items():
        if isinstance(values, (str, bytes, bytearray)) or not hasattr(values, "__iter__"):
            raise UnfitValue(f"{name}: {values!r} is one value; write a list")
    return {name: [literal_of(value, types[name], name) for value in values] for name, values in parameters.items()}


def header_of(model: Model, names: List[str], measure: Optional[Measure]) -> Dict[str, Any]:
    """What tells a sweep from others. Each run has its literals."""
    return {"sweep": 1, "model": hashlib.sha256(model.canonical).hexdigest(), "parameters": names, "measure": name_of(measure)}


def name_of(measure: Any) -> Optional[str]:
    """What tells a measure from others in each process: its module and its name there, and what a partial one is given."""
    if measure is None:
        return None
    if isinstance(measure, functools.partial):
        given = [*map(word_of, measure.args), *(f"{name}={word_of(value)}" for name, value in sorted(measure.keywords.items()))]
        return f"{name_of(measure.func)}({', '.join(given)})"
    named = measure if hasattr(measure, "__qualname__") else type(measure)
    return f"{getattr(named, '__module__', None)}.{named.__qualname__}"


def word_of(value: Any) -> str:
    """A value that a measure is given. Of other than plain ones it is the name: what they print may have an address."""
    return repr(value) if value is None or isinstance(value, (bool, int, float, str, bytes, Decimal, Fraction)) else str(name_of(value))


def row_of(done: Mapping[str, Any], case: Case, names: Sequence[str], values: Sequence[Mapping[str, Value]]) -> SweepRow:
    """The row of a run that is done. `values` has the value of each literal, for each parameter."""
    parameters = {name: of_literals[literal] for name, of_literals, literal in zip(names, values, case)}
    measures = {name: decoded(value) for name, value in done["measures"].items()}
    return SweepRow(parameters, done["outcome"], done["note"], measures)


def run_cases(
    model: Prepared, names: Tuple[str, ...], cases: Sequence[Case], measure: Optional[Measure], executor: Any
) -> Iterator[Done]:
    """Runs cases by an executor, and yields each run as it is done."""
    if not cases:
        return
    if executor is None:
        with concurrent.futures.ProcessPoolExecutor() as processes:
            yield from run_cases(model, names, cases, measure, processes)
        return
    size = max(1, min(MOST_IN_TASK, len(cases) // TASKS_AHEAD))
    tasks = (cases[start : start + size] for start in range(0, len(cases), size))
    run = functools.partial(run_task, model, names, measure)
    run_tasks = run_by_cluster if hasattr(executor, "get_executor") else run_by_pool
    yield from run_tasks(executor, run, tasks)


def run_by_pool(pool: concurrent.futures.Executor, run: Runs, tasks: Iterator[Sequence[Case]]) -> Iterator[Done]:
    """Runs tasks by an executor of `concurrent.futures`. A pool that lost a process takes no more tasks: other pools go on."""
    lost = yield from run_until_lost(pool, run, tasks)
    while lost:
        yield from run_alone(run, iter(lost))
        with concurrent.futures.ProcessPoolExecutor() as processes:
            lost = yield from run_until_lost(processes, run, tasks)


def run_until_lost(
    pool: concurrent.futures.Executor, run: Runs, tasks: Iterator[Sequence[Case]]
) -> Generator[Done, None, List[Case]]:
    """Runs tasks until the pool loses a process. Returns the cases that were lost, which are none where all tasks are done."""
    pending: Dict["concurrent.futures.Future[List[Done]]", Sequence[Case]] = {}
    lost: List[Case] = []
    try:
        while True:
            for task in itertools.islice(tasks, 0 if lost else TASKS_AHEAD - len(pending)):
                try:
                    pending[pool.submit(run, task)] = task
                except BrokenProcessPool:
                    lost.extend(task)
                    break
            if not pending:
                return lost
            for future in concurrent.futures.wait(pending, return_when=concurrent.futures.FIRST_COMPLETED).done:
                task = pending.pop(future)
                try:
                    done = future.result()
                except BrokenProcessPool:
                    lost.extend(task)
                    continue
                yield from done
    finally:
        for future in pending:
            future.cancel()


def run_alone(run: Runs, cases: Iterator[Case]) -> Iterator[Done]:
    """Runs cases one after the other, so that one that ends its process takes no other with it."""
    is_left = True
    while is_left:
        is_left = False
        with concurrent.futures.ProcessPoolExecutor(1) as process:
            for case in cases:
                try:
                    done = process.submit(run, [case]).result()
                except BrokenProcessPool as error:
                    yield lost_run(case, str(error))
                    is_left = True
                    break
                yield from done


def lost_run(case: Case, note: str) -> Done:
    return {"literals": case, "measures": {}, "outcome": WORKER_LOST, "note": note}


def run_by_cluster(client: Any, run: Runs, tasks: Iterator[Sequence[Case]]) -> Iterator[Done]:
    """Runs tasks by a client of dask. A task whose result is lost with its worker is run again, eight times at most.

    Executors of dask aren't used: they may never end a task whose worker ended as its result was fetched.
    """
    distributed: Any = importlib.import_module("distributed")

    pending: Dict[Any, Tuple[Sequence[Case], int]] = {}

    def submit(task: Sequence[Case], losses: int = 0) -> Any:
        future = client.submit(run, task, pure=False)
        pending[future] = task, losses
        return future

    completed = distributed.as_completed([submit(task) for task in itertools.islice(tasks, TASKS_AHEAD)])
    try:
        for future in completed:
            task, losses = pending.pop(future)
            done = result_of(future)
            if done is None:
                if losses < MOST_LOSSES:
                    completed.add(submit(task, losses + 1))
                    continue
                done = [lost_run(case, f"its task was lost {MOST_LOSSES + 1} times") for case in task]
            for following in itertools.islice(tasks, 1):
                completed.add(submit(following))
            yield from done
    finally:
        client.cancel(list(pending))


def result_of(future: Any) -> Optional[List[Done]]:
    """What a task of a cluster gave, or None where it was lost."""
    try:
        done = future.result()
    except (concurrent.futures.CancelledError, TypeError):
        # Where a task is cancelled as its result is fetched, dask raises what is no exception.
        if not future.cancelled():
            raise
        return None
    return done if isinstance(done, list) else None


def run_task(model: Prepared, names: Tuple[str, ...], measure: Optional[Measure], cases: Sequence[Case]) -> List[Done]:
    """Runs some cases, one after the other."""
    return [run_case(model, names, case, measure) for case in cases]


def run_case(model: Prepared, names: Tuple[str, ...], case: Case, measure: Optional[Measure]) -> Done:
    """Runs a case, and measures its trace."""
    done: Done = {"literals": case, "measures": {}}
    try:
        trace = model.run(case)
    except CosimError as error:
        return {**done, "outcome": REFUSED if hasattr(error, "rule") else PROGRAM_FAILED, "note": error.note or str(error)}
    done["outcome"], done["note"] = trace.outcome.kind, trace.outcome.note
    if measure is None:
        return done
    try:
        measured = measure(trace)
        measures = measured if isinstance(measured, Mapping) else {"measure": measured}
        taken = [name for name in measures if not isinstance(name, str) or name in (*names, *OTHER_COLUMNS)]
        if taken:
            raise UnfitValue(f"a measure can't be named {taken[0]!r}")
        done["measures"] = {name: encoded(value) for name, value in measures.items()}
    except Exception as error:  # pylint: disable=broad-except
        return {**done, "outcome": MEASURE_FAILED, "note": f"{type(error).__name__}: {error}"}
    return done


def encoded(value: Any) -> Any:
    """A measure as JSON has it, exactly. Numbers of other packages become those of Python. UnfitValue where it is no measure."""
    if value is None or isinstance(value, bool):
        return value
    if isinstance(value, str):
        return str(value)
    if isinstance(value, (Decimal, Fraction)):
        return {"Decimal" if isinstance(value, Decimal) else "Fraction": str(value)}
    if isinstance(value, numbers.Integral):
        return int(value)
    if isinstance(value, numbers.Real) and (float(value) == value or value != value):
        return float(value)
    if getattr(value, "ndim", None) == 0 and isinstance(value.item(), (bool, int, float)):
        return value.item()
    raise UnfitValue(f"a measure is a number, a truth value or a text, and not {value!r}")


def decoded(value: Any) -> Measured:
    """A measure that JSON has. ValueError or ArithmeticError where it is none."""
    if value is None or isinstance(value, (bool, int, float, str)):
        return value
    if isinstance(value, dict) and len(value) == 1:
        (name, text), = value.items()
        if isinstance(text, str) and name in ("Decimal", "Fraction"):
            return Decimal(text) if name == "Decimal" else Fraction(text)
    raise ValueError("no measure")


class Kept:
    """The runs that are done, in memory and in a file where one is named. The first line of the file is of the sweep."""

    def __init__(self, path: Optional[Path], header: Mapping[str, Any]) -> None:
        self.path = None if path is None else os.fsdecode(path)
        self.header = header
        self.runs: Dict[Case, Done] = {}
        self.file: Optional[BinaryIO] = None

    def __enter__(self) -> "Kept":
        if self.path is not None:
            if os.path.exists(self.path) and not os.path.isfile(self.path):
                raise self.unfit("it isn't a file")
            self.file = open(self.path, "a+b")
            try:
                self.read(self.file)
            except BaseException:
                self.file.close()
                raise
        return self

    def __exit__(self, *_: object) -> None:
        if self.file:
            self.file.close()

    def unfit(self, reason: str, line: Optional[int] = None) -> UnfitValue:
        """The exception of a file that is of no use, with the number of the line that shows it."""
        return UnfitValue(f"{clean_name(self.path or '')}{'' if line is None else f':{line}'}: {reason}")

    def read(self, file: BinaryIO) -> None:
        """Reads the runs of the file. A last line that was broken off is taken out."""
        status = os.fstat(file.fileno())
        if not stat.S_ISREG(status.st_mode):
            raise self.unfit("it isn't a file")
        file.seek(0)
        first = file.readline(LONGEST_HEADER)
        header = line_of(self.header)
        if not header.startswith(first):
            self.require_header(first)
        whole = len(first) if first.endswith(b"\n") else 0
        for number, line in enumerate(read_at_most(file, max(0, status.st_size - len(first))).splitlines(True), 2):
            if line.endswith(b"\n"):
                done = self.run_of(line, number)
                self.runs[tuple(done["literals"])] = done
                whole += len(line)
        file.truncate(whole)
        if not whole:
            self.write(self.header)

    def require_header(self, first: bytes) -> None:
        """UnfitValue where the first line isn't that of this sweep. It says what is another."""
        try:
            found = json.loads(first)
        except (RecursionError, ValueError):
            found = None
        if not isinstance(found, dict) or "sweep" not in found:
            raise self.unfit("it isn't a file of a sweep; name another file")
        for what, wanted in self.header.items():
            if what not in found or found[what] != wanted:
                others = f"the {what} {found.get(what)!r}, and this sweep has {wanted!r}" if what in ("parameters", "measure") else f"another {what}"
                raise self.unfit(f"it is of another sweep: it has {others}; name another file, or remove it")

    def run_of(self, line: bytes, number: int) -> Done:
        """The run that a line has. UnfitValue, with the number of the line, where it has none."""
        try:
            done = json.loads(line)
            texts = [done["outcome"], done["note"], *done["literals"]]
            is_run = all(isinstance(text, str) for text in texts) and len(done["literals"]) == len(self.header["parameters"])
            for value in done["measures"].values():
                decoded(value)
        except (ArithmeticError, AttributeError, LookupError, RecursionError, TypeError, ValueError):
            is_run = False
        if not is_run:
            raise self.unfit("this line isn't that of a run; remove it, and the run is made again", number)
        return dict(done)

    def write(self, line: Mapping[str, Any]) -> None:
        """Writes a line to the file at once, so that it is there where the process is ended."""
        if self.file:
            self.file.write(line_of(line))
            self.file.flush()

    def add(self, done: Done) -> None:
        """Adds a run that is done, once. The file doesn't get one that was lost, so that the next call makes it."""
        case = tuple(done["literals"])
        if case not in self.runs:
            self.runs[case] = done
            if done["outcome"] != WORKER_LOST:
                self.write(done)


def line_of(content: Mapping[str, Any]) -> bytes:
    """A line of a kept file."""
    return json.dumps(content).encode() + b"\n"
