"""Reports: a model and its trace as one page that needs no network."""
from typing import Mapping, Optional, Sequence, Tuple, Union

from ..errors import UnfitValue
from ..files import write_at_once
from ..models import Model
from ..steps import StepLog
from ..streams import Path
from ..traces import Trace
from ..values import Given

LABELS = ("mine", "other")


def report(
    model: Model,
    trace: Optional[Trace] = None,
    other: Optional[Trace] = None,
    tolerance: Union[Given, Mapping[str, Given]] = 0,
    names: Optional[Sequence[str]] = None,
    path: Optional[Path] = None,
    labels: Tuple[str, str] = LABELS,
    steps: Union[bool, StepLog] = False,
) -> bytes:
    """The page of a model and its trace, as bytes of HTML, which are written to a file too, whole or not at all, where one is
    named.

    Without `trace` the model is run. `names` are the columns that the page draws at first: without them all, up to 64. Where
    `other` is given the page lists what `trace.diff(other, tolerance)` lists, and calls the two traces by `labels`.

    With `steps` the page has the step log of the model and its summary. The program cosim-steps is asked for both by True, and for the
    summary alone where `steps` is a log.

    The page has plotly.js in itself, and requires a browser with JavaScript. ImportError where the package plotly isn't there,
    UnknownName where there is no such column or the two traces have other columns, UnfitValue where a tolerance is none, and OSError
    where the file can't be written. A file that is there keeps its mode.
    """
    from .page import page_of

    if isinstance(names, str):
        raise UnfitValue(f"names: {names!r} is one name; write [{names!r}]")
    log = model.steps() if steps is True else steps or None
    summary = None if log is None else model.step_summary()
    page = page_of(model, model.run() if trace is None else trace, other, tolerance, names, labels, log, summary)
    if path is not None:
        write_at_once(path, lambda file: file.write(page))
    return page
