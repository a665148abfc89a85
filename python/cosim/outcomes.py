"""How a run ended."""
import re
from dataclasses import dataclass
from fractions import Fraction
from typing import Dict, Optional, Tuple

from .errors import CosimError, title_of_fault
from .program import Called
from .statuses import Status

COMPLETED = "completed"
ROW_BUDGET = "row budget"
ZERO_BUDGET = "zero budget"
FAULT = "fault"
STEP_REFUSED = "step refused"
STOPPED = "stopped"
UNKNOWN = "unknown"

POINT = r"(?P<time>[\d.]+),(?P<index>\d+)"

# Of each status of a run that ends early, what it is called and the form of its note.
ENDS: Dict[int, Tuple[str, "re.Pattern[str]"]] = {
    Status.ZERO_BUDGET: (ZERO_BUDGET, re.compile(rf"cosim: zero budget at {POINT}")),
    Status.ROW_BUDGET: (ROW_BUDGET, re.compile(rf"cosim: row budget at {POINT}")),
    Status.FAULT: (FAULT, re.compile(rf"cosim: fault (?P<fault>\d+) of (?P<component>\w+) (?P<place>output \w+|max|step) at {POINT}")),
    Status.STEP_REFUSED: (STEP_REFUSED, re.compile(rf"cosim: (?P<component>\w+) refused (?P<asked>\d+), accepted (?P<accepted>\d+), at {POINT}")),
}

# Counts in a note, as `events 16 refused 4` and `node 0 row 3, node 1 row 3`.
COUNTS = re.compile(r"cosim: (?:\w+ \d+ )+\w+ \d+")
COUNT = re.compile(r"(\w+) (\d+)")
NODES = re.compile(r"cosim: node 0 row (\d+), node 1 row (\d+)")


@dataclass(frozen=True)
class Outcome:
    """How a run ended.

    `kind` is "completed", "row budget", "zero budget", "fault", "step refused", "stopped" where rows were read no further,
    or "unknown" of a table that was read from a file. `status` and `note` are the program's.

    Of a run that ended early `time` (in seconds) and `index` are its last point. Of a fault and of a refused step `component`
    is the instance. Of a fault `place` is "output y", "max" or "step", and `fault` its number. Of a refused step `asked` and
    `accepted` are lengths in ticks of the component.
    """

    kind: str
    status: Optional[int] = None
    note: str = ""
    time: Optional[Fraction] = None
    index: Optional[int] = None
    component: Optional[str] = None
    place: Optional[str] = None
    fault: Optional[int] = None
    asked: Optional[int] = None
    accepted: Optional[int] = None

    @property
    def completed(self) -> bool:
        return self.kind == COMPLETED

    def __str__(self) -> str:
        if self.kind == FAULT and self.fault is not None:
            return f"{self.note} ({title_of_fault(self.fault)})"
        return self.note or self.kind


class RunEnded(CosimError):
    """A run ended before its stop; `outcome` says how."""

    def __init__(self, outcome: Outcome) -> None:
        super().__init__(str(outcome), outcome.status, outcome.note)
        self.args = (outcome,)
        self.outcome = outcome


class RowBudgetSpent(RunEnded):
    """A run has as many rows as its row budget."""


class ZeroBudgetSpent(RunEnded):
    """A run made as many steps of length zero, one after the other, as its zero budget."""


class Fault(RunEnded):
    """A component faulted, as by a division by zero."""


class StepRefused(RunEnded):
    """A component accepts less of the agreed step than of a longer one."""


EXCEPTIONS = {ROW_BUDGET: RowBudgetSpent, ZERO_BUDGET: ZeroBudgetSpent, FAULT: Fault, STEP_REFUSED: StepRefused}


# The outcome of each run that comes to its stop.
AT_STOP = Outcome(COMPLETED, Status.ACCEPTED)


def outcome_of(called: Called) -> Optional[Outcome]:
    """The outcome that the status and the first note of a call say, if it is that of a run."""
    if called.status == Status.ACCEPTED:
        return AT_STOP
    if called.status not in ENDS:
        return None
    note = called.note.split("\n")[0]
    kind, form = ENDS[called.status]
    found = form.fullmatch(note)
    if not found:
        return None
    fields = found.groupdict()
    whole = {name: int(fields[name]) for name in ("index", "fault", "asked", "accepted") if fields.get(name)}
    words = {name: fields[name] for name in ("component", "place") if fields.get(name)}
    return Outcome(kind, called.status, note, Fraction(fields["time"]), **whole, **words)  # type: ignore[arg-type]


def counts_of(called: Called) -> Dict[str, int]:
    """The counts of the last note, as of `replay`; of `nodes` the rows of each node."""
    if not called.notes:
        return {}
    note = called.note.split("\n")[-1]
    nodes = NODES.fullmatch(note)
    if nodes:
        return {f"node {number}": int(row) for number, row in enumerate(nodes.groups())}
    return {name: int(count) for name, count in COUNT.findall(note)} if COUNTS.fullmatch(note) else {}
