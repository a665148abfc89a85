"""Models, traces, reports and sweeps of cosim, over the program that is proved; and what the tools around the program share.

    model = cosim.Model.read("heater.cosim").set("plate.cooling", "0.60")
    trace = model.run().require_completed()
    trace["plate.degrees"]

docs/PYTHON.md of the repository is a tutorial and the reference.
"""
from .errors import CosimError, InexactFloat, NoMemory, NoProgram, ProgramFailed, Refused, UnfitValue, Unjoinable, UnknownName
from .joining import join
from .models import Model, Saved, Verdict
from .outcomes import Fault, Outcome, RowBudgetSpent, RunEnded, StepRefused, ZeroBudgetSpent
from .reports import report
from .steps import Step, StepCounts, StepLog, StepSummary
from .sweeps import Sweep, SweepRow, sweep
from .traces import Column, Difference, Row, Trace

__all__ = [
    "Column",
    "CosimError",
    "Difference",
    "Fault",
    "InexactFloat",
    "Model",
    "NoMemory",
    "NoProgram",
    "Outcome",
    "ProgramFailed",
    "Refused",
    "Row",
    "RowBudgetSpent",
    "RunEnded",
    "Saved",
    "Step",
    "StepCounts",
    "StepLog",
    "StepRefused",
    "StepSummary",
    "Sweep",
    "SweepRow",
    "Trace",
    "UnfitValue",
    "Unjoinable",
    "UnknownName",
    "Verdict",
    "ZeroBudgetSpent",
    "join",
    "report",
    "sweep",
]
