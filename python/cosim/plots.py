"""Plots of a trace by matplotlib: one for each column, above each other over one axis of time.

A value holds up to the next row, so numbers are steps, and truth values bands where they are true. Events are marks, with their
values where these are numbers. A vertical line is at each time that has several points.

Under the columns may be the lengths of steps, one colour for each cause: who shortened the step, or else what limited it.

A picture is made of floats, which are the nearest ones to the values; they go nowhere else.
"""
from typing import TYPE_CHECKING, Any, Dict, List, Optional, Sequence, Tuple, Union

from .errors import UnfitValue
from .traces import Column, Trace

if TYPE_CHECKING:
    from .steps import Step, StepLog

# The size of a figure in inches: its width, and the height of each plot and of what is around them.
WIDTH = 9.0
HEIGHT = 1.6
AROUND = 0.8

# The most columns of one figure, whose height is limited.
MOST_COLUMNS = 64

LINE = "#9aa0a6"

# The title of the plot of steps, how many colours matplotlib has in a row, and how many causes a line of the legend has.
STEPS_TITLE = "length of steps, in seconds"
COLOURS = 10
MOST_IN_A_LINE = 5


def plot(trace: Trace, names: Optional[Sequence[str]] = None, figure: Any = None, steps: Union[bool, "StepLog"] = False) -> Any:
    """A figure with a plot for each of the columns, or for all.

    `figure` is a figure of matplotlib to draw in; without one a new figure is made, which belongs to no window. With `steps` the
    last plot has the lengths of steps: True for those of the model that the trace is a run of, or a step log. UnknownName where
    there is no such column, and UnfitValue where there is none to draw or too many, or the trace has no model.
    """
    from matplotlib.figure import Figure

    columns = columns_of(trace, names)
    log = trace.steps() if steps is True else steps or None
    count = len(columns) + (log is not None)
    figure = figure or Figure(figsize=(WIDTH, AROUND + HEIGHT * count), layout="constrained")
    all_axes = figure.subplots(count, 1, sharex=True, squeeze=False)[:, 0]
    times = [float(time) for time in trace.time]
    for axes, column in zip(all_axes, columns):
        axes.set_title(column.name, loc="left", fontsize="medium")
        draw(axes, trace, column, times)
        for time in times_of_several_points(times):
            axes.axvline(time, color=LINE, linewidth=0.8, linestyle=":")
    if log is not None:
        draw_steps(all_axes[-1], [step for step in log if not times or step.time < trace.time[-1]])
    all_axes[-1].set_xlabel("seconds")
    return figure


def draw_steps(axes: Any, steps: Sequence["Step"]) -> None:
    """Draws the length of each step from its begin to its end, in the colour of its cause. Steps of length zero are marks."""
    axes.set_title(STEPS_TITLE, loc="left", fontsize="medium")
    by_cause: Dict[str, List["Step"]] = {}
    for step in steps:
        by_cause.setdefault(step.cause, []).append(step)
    for place, (cause, found) in enumerate(by_cause.items()):
        colour = f"C{place % COLOURS}"
        lengths, starts, ends = ([float(value) for value in values] for values in zip(*((step.agreed, step.time, step.end) for step in found)))
        axes.hlines(lengths, starts, ends, colors=colour, linewidth=2, label=cause)
        zeros = [float(step.time) for step in found if step.agreed == 0]
        axes.plot(zeros, [0.0] * len(zeros), linestyle="none", marker="|", color=colour)
    axes.set_ylim(bottom=0)
    if by_cause:
        axes.legend(fontsize="small", loc="lower right", bbox_to_anchor=(1, 1), ncol=MOST_IN_A_LINE, frameon=False, borderaxespad=0.2)


def columns_of(trace: Trace, names: Optional[Sequence[str]]) -> List[Column]:
    """The columns that are drawn. UnknownName where there is no such one, and UnfitValue where there is none or too many."""
    if isinstance(names, str):
        raise UnfitValue(f"names: {names!r} is one name; write [{names!r}]")
    columns = [trace.column(name) for name in (trace.names if names is None else names)]
    if not 1 <= len(columns) <= MOST_COLUMNS:
        raise UnfitValue(f"{len(columns)} columns can't be drawn; name 1 to {MOST_COLUMNS}")
    return columns


def draw(axes: Any, trace: Trace, column: Column, times: List[float]) -> None:
    """Draws a column by what it has: events, truth values or numbers."""
    values = trace[column.name]
    if column.is_event:
        points = [(time, float(value)) for time, value in zip(times, values) if value is not None]
        axes.plot([time for time, _ in points], [value for _, value in points], linestyle="none", marker="o", markersize=5)
        if column.type == "Bool":
            label_truth(axes)
    elif column.type == "Bool":
        for begin, end in bands(times, [bool(value) for value in values]):
            axes.fill_between([begin, end], 0, 1, alpha=0.6, linewidth=0.8, edgecolor="C0")
        label_truth(axes)
    else:
        axes.step(times, [float(value) for value in values if value is not None], where="post")
    if times:
        axes.set_xlim(times[0], times[-1] if times[-1] > times[0] else times[0] + 1)


def label_truth(axes: Any) -> None:
    axes.set_ylim(-0.15, 1.15)
    axes.set_yticks([0, 1], ["false", "true"])


def bands(times: Sequence[float], values: Sequence[bool]) -> List[Tuple[float, float]]:
    """From when to when a value is true. It holds from each row up to the next one."""
    found: List[Tuple[float, float]] = []
    for place, is_true in enumerate(values):
        begin, end = times[place], times[min(place + 1, len(times) - 1)]
        if not is_true:
            continue
        if found and place and values[place - 1]:
            found[-1] = (found[-1][0], end)
        else:
            found.append((begin, end))
    return found


def times_of_several_points(times: Sequence[float]) -> List[float]:
    """The times that more than one row has."""
    return sorted({time for time, later in zip(times, times[1:]) if time == later})
