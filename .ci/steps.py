"""The step log, its summary and the trace of a model of runs (.ci/simulation.py), as `cosim-steps` and `cosim run` write them."""
from __future__ import annotations

import sys
from typing import NamedTuple, Optional

sys.dont_write_bytecode = True
from expressions import text_of
from simulation import AgreedStep, Ending, Place, Position, Signals, Stand, System, read_system, run

HEADER = "time,index,proposed,limited_by,agreed,shortened_by,accepted,redone,held"
SUMMARY_HEADER = "name,limited,shortened,least_limit,faults"

# The most members that a summary lists.
MOST_LISTED = 16


class Answer(NamedTuple):
    """What a call answers: its status, its notes and its output."""

    status: int
    notes: bytes
    output: bytes


class Answers(NamedTuple):
    """What is answered for a text: by `cosim run`, by `cosim-steps`, and by `cosim-steps --summary`."""

    trace: Answer
    log: Answer
    summary: Answer


class Counts(NamedTuple):
    """A line of a summary: a name, how many steps it limits and shortens, its least limit in ticks, if it has one, and its faults."""

    name: str
    limited: int
    shortened: int = 0
    least: Optional[int] = None
    faults: int = 0


def line_of(system: System, step: AgreedStep) -> str:
    """The line of a step."""
    fields = (
        system.seconds(step.time),
        str(step.index),
        system.seconds(step.proposed),
        step.limited_by,
        system.seconds(step.agreed),
        step.shortened_by,
        "" if step.accepted is None else str(step.accepted),
        "true" if step.agreed < step.proposed else "false",
        str(step.held),
    )
    return ",".join(fields)


def counts_of(name: str, steps: list[AgreedStep], ending: Ending) -> Counts:
    """What is counted of a member, or of `stop` or `longest`, which shorten no step."""
    limits = [step.proposed for step in steps if step.limited_by == name]
    shortened = [step for step in steps if step.shortened_by == name]
    return Counts(name, len(limits), len(shortened), min(limits, default=None), int(ending.faulted == name))


def summary_of(system: System, steps: list[AgreedStep], ending: Ending) -> list[str]:
    """The lines of the summary of a run that ended so. Sorting keeps the order of the text where all else is equal."""
    redone = [step for step in steps if step.agreed < step.proposed]
    totals = [Counts("step", len(steps), len(redone), None, int(ending.faulted is not None))]
    totals += [counts_of(name, steps, ending)._replace(least=None) for name in ("stop", "longest")]
    members = [counts_of(member.name, steps, ending) for member in system.members]
    members.sort(key=lambda counts: (-counts.faults, -counts.shortened, -counts.limited))

    def line(counts: Counts) -> str:
        least = "" if counts.least is None else system.seconds(counts.least)
        return f"{counts.name},{counts.limited},{counts.shortened},{least},{counts.faults}"

    return [SUMMARY_HEADER, *map(line, totals + members[:MOST_LISTED])]


def row_of(system: System, stand: Stand, signals: Signals) -> str:
    """The row of a stand: an event that doesn't occur is an empty field."""

    def field(place: Place) -> str:
        signal = signals[place]
        return "" if signal is None else text_of(system.output(place).type, signal)

    return ",".join([system.seconds(stand.at.time), str(stand.at.index), *map(field, system.columns)])


def note_of(system: System, at: Position, ending: Ending) -> str:
    return f"cosim: {ending.what} at {system.seconds(at.time)},{at.index}\n" if ending.what else ""


def columns_of(system: System) -> str:
    return ",".join(["time", "index", *(f"{system.members[member].name}.{output}" for member, output in system.columns)])


def encoded(lines: list[str]) -> bytes:
    return "".join(f"{line}\n" for line in lines).encode()


def simulate(canonical: bytes) -> Answers:
    """The answers for a canonical text."""
    system = read_system(canonical)
    stands = list(run(system))
    ending = stands[-1].ending
    assert ending
    notes = note_of(system, stands[-1].at, ending).encode()
    rows = [row_of(system, stand, stand.signals) for stand in stands if stand.signals is not None]
    steps = [stand.step for stand in stands if stand.step]
    tables = (
        [columns_of(system), *rows],
        [HEADER, *(line_of(system, step) for step in steps)],
        summary_of(system, steps, ending),
    )
    trace, log, summary = (Answer(ending.status, notes, encoded(lines)) for lines in tables)
    return Answers(trace, log, summary)
