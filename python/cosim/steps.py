"""Step logs: why each step of a run is as long as it is; and their summaries. The program cosim-steps prints both."""
from dataclasses import dataclass
from fractions import Fraction
from typing import TYPE_CHECKING, Dict, Iterator, List, Optional, Sequence, Tuple, TypeVar

from .errors import NoProgram, UnknownName, failed, refused
from .outcomes import EXCEPTIONS, Outcome, outcome_of
from .program import STEPS, VARIABLES, Called, call, program, read_refusal
from .running import start_failed
from .settings import nearest
from .sources import Source
from .statuses import Status
from .streams import Path
from .values import TRUTH, ticks_of

if TYPE_CHECKING:
    import pandas

COLUMNS = ("time", "index", "proposed", "limited_by", "agreed", "shortened_by", "accepted", "redone", "held")
SUMMARY_COLUMNS = ("name", "limited", "shortened", "least_limit", "faults")

# The words for a log and for a summary.
LOG = ()
SUMMARY = ("--summary",)

# The names of the first lines of a summary, which no component has.
TOTALS = ("step", "stop", "longest")

# Statuses of a call without an answer that the program gives too.
WITHOUT_ANSWER = (Status.NO_MEMORY, Status.READ_FAULT, Status.WRITE_FAULT)

# The columns that have times.
OF_SECONDS = ("proposed", "agreed")
LEAST_LIMIT = "least_limit"

AnyTable = TypeVar("AnyTable", bound="StepTable")


@dataclass(frozen=True)
class Step:
    """A step that the components agreed on. Times and lengths are in seconds.

    `limited_by` is the instance whose `max` limits the proposed step, or "stop" or "longest". `shortened_by` is the instance that
    accepted less, with `accepted` of its own ticks; both are None where no one did. `held` is the number of components that are held.
    """

    time: Fraction
    index: int
    proposed: Fraction
    limited_by: str
    agreed: Fraction
    shortened_by: Optional[str]
    accepted: Optional[int]
    redone: bool
    held: int

    @property
    def end(self) -> Fraction:
        """The time at which it ends."""
        return self.time + self.agreed

    @property
    def cause(self) -> str:
        """Why it is no longer: "battery, accept", "battery, max", "longest" or "stop"."""
        if self.shortened_by is not None:
            return f"{self.shortened_by}, accept"
        return self.limited_by if self.limited_by in ("stop", "longest") else f"{self.limited_by}, max"


@dataclass(frozen=True)
class Cause:
    """The steps of one cause: how many there are, how much time they take, the shortest and the longest, in seconds."""

    cause: str
    steps: int
    seconds: Fraction
    shortest: Fraction
    longest: Fraction


@dataclass(frozen=True)
class StepCounts:
    """A line of a summary: how many steps a component limits and shortens.

    `least_limit` is the shortest proposed step that it limits, in seconds, and None where it limits none. `faults` is 1 where its fault
    ended the run, and else 0.
    """

    name: str
    limited: int
    shortened: int
    least_limit: Optional[Fraction]
    faults: int


class StepTable:
    """A table on the steps of a run, as the program wrote it, with how the run ended."""

    def __init__(self, table: bytes, resolution: int, outcome: Outcome) -> None:
        self.table = table
        self.resolution = resolution
        self.outcome = outcome

    @property
    def records(self) -> List[List[str]]:
        """The fields of each line, as the program wrote them."""
        return [line.split(",") for line in self.table.decode("ascii", "replace").splitlines()[1:]]

    def seconds_of(self, field: str) -> Fraction:
        """A field with seconds."""
        return Fraction(ticks_of(field, self.resolution), 10**self.resolution)

    def require_completed(self: AnyTable) -> AnyTable:
        """This table, where the run came to its stop; and else the exception of its end."""
        if self.outcome.kind in EXCEPTIONS:
            raise EXCEPTIONS[self.outcome.kind](self.outcome)
        return self

    def to_csv(self, path: Optional[Path] = None) -> bytes:
        """The bytes that the program wrote, which are written to a file too where one is named. OSError where it can't be written."""
        if path is not None:
            with open(path, "wb") as file:
                file.write(self.table)
        return self.table


class StepLog(StepTable):
    """The step log of a run.

    It has a line for each step that the components agreed on. The last one may be refused, or not be allowed by the zero budget:
    `outcome` says so, as that of the trace does.
    """

    def __init__(self, table: bytes, resolution: int, outcome: Outcome) -> None:
        super().__init__(table, resolution, outcome)
        self._rows: Optional[List[Step]] = None

    @property
    def rows(self) -> List[Step]:
        """The steps."""
        if self._rows is None:
            self._rows = [self.step_of(record) for record in self.records]
        return self._rows

    def step_of(self, record: List[str]) -> Step:
        time, index, proposed, limited_by, agreed, shortened_by, accepted, redone, held = record
        at, longest, length = (self.seconds_of(field) for field in (time, proposed, agreed))
        local = int(accepted) if accepted else None
        return Step(at, int(index), longest, limited_by, length, shortened_by or None, local, TRUTH[redone], int(held))

    def __len__(self) -> int:
        return len(self.rows)

    def __iter__(self) -> Iterator[Step]:
        return iter(self.rows)

    def __getitem__(self, number: int) -> Step:
        return self.rows[number]

    @property
    def causes(self) -> List[Cause]:
        """The steps by their causes, those first that have the most steps."""
        by_cause: Dict[str, List[Fraction]] = {}
        for step in self.rows:
            by_cause.setdefault(step.cause, []).append(step.agreed)
        found = [Cause(cause, len(lengths), sum(lengths, Fraction(0)), min(lengths), max(lengths)) for cause, lengths in by_cause.items()]
        return sorted(found, key=lambda each: -each.steps)

    def frame(self, floats: bool = False) -> "pandas.DataFrame":
        """The log as a frame of pandas, with the times in seconds as its index; `cosim.frames` has the types of columns."""
        from .frames import frame_of_steps

        return frame_of_steps(self, floats)


class StepSummary(StepTable):
    """The summary of a step log.

    Its first lines are those of all steps ("step"), of the stop ("stop") and of the longest step ("longest"). Then come the components,
    at most sixteen of them, with those first that are to be looked at first.
    """

    @property
    def rows(self) -> List[StepCounts]:
        """The lines."""
        return [self.counts_of(record) for record in self.records]

    @property
    def components(self) -> List[StepCounts]:
        """The lines of the components."""
        return self.rows[len(TOTALS) :]

    def counts_of(self, record: List[str]) -> StepCounts:
        name, limited, shortened, least_limit, faults = record
        return StepCounts(name, int(limited), int(shortened), self.seconds_of(least_limit) if least_limit else None, int(faults))

    def __len__(self) -> int:
        return len(self.rows)

    def __iter__(self) -> Iterator[StepCounts]:
        return iter(self.rows)

    def __getitem__(self, name: str) -> StepCounts:
        """The line of a name. UnknownName where the summary has no such line."""
        rows = {each.name: each for each in self.rows}
        if name not in rows:
            raise UnknownName(f"the summary has no line {name!r}{nearest(name, rows)}")
        return rows[name]

    def frame(self, floats: bool = False) -> "pandas.DataFrame":
        """The summary as a frame of pandas, with the names as its index; `cosim.frames` has the types of columns."""
        from .frames import frame_of_summary

        return frame_of_summary(self, floats)


def read_log(text: bytes, source: Source, resolution: int) -> StepLog:
    """The step log of a text that is run. Refused where it breaks a rule, and NoProgram where there is no program cosim-steps."""
    table, outcome = ask_steps(LOG, COLUMNS, text, source)
    return StepLog(table, resolution, outcome)


def read_summary(text: bytes, source: Source, resolution: int) -> StepSummary:
    """The summary of the step log of a text, as `read_log`. NoProgram where the program has no option for it."""
    table, outcome = ask_steps(SUMMARY, SUMMARY_COLUMNS, text, source)
    return StepSummary(table, resolution, outcome)


def ask_steps(words: Sequence[str], columns: Sequence[str], text: bytes, source: Source) -> Tuple[bytes, Outcome]:
    """The table with these columns that cosim-steps writes, and how the run ended."""
    try:
        called = call(words, text, STEPS)
    except OSError as error:
        raise start_failed(error, STEPS) from None
    return called.output, outcome_of_call(called, words, columns, text, source)


def outcome_of_call(called: Called, words: Sequence[str], columns: Sequence[str], text: bytes, source: Source) -> Outcome:
    """How the run of a call ended that wrote a table with these columns; and else the exception of the call."""
    refusal = read_refusal(called.notes)
    if refusal:
        raise refused(text, int(refusal[1]), int(refusal[2]), called.note, source)
    outcome = outcome_of(called)
    if outcome is not None and called.output.startswith(f"{','.join(columns)}\n".encode()):
        return outcome
    if called.status == Status.NO_PROGRAM:
        raise NoProgram(called.note, called.status, called.note)
    if called.status > 128 or (called.status in WITHOUT_ANSWER and called.notes.startswith(b"cosim: ")):
        raise failed(called, STEPS)
    without = f", or it has no option {' '.join(words)}" if words else ""
    message = f"the program {program(STEPS)} isn't cosim-steps{without}. The variable {VARIABLES[STEPS]} names another"
    raise NoProgram(message, Status.NO_PROGRAM, called.note)
