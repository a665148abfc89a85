"""The sections of a page that a script doesn't write: how the run ended, what the model is, and its text."""
from typing import Iterable, Iterator, List, Optional, Sequence, Tuple

from ..canonical import Instance, Port, System, Unit
from ..errors import title_of_fault
from ..models import Model
from ..outcomes import STOPPED, UNKNOWN, Outcome
from ..steps import COLUMNS, SUMMARY_COLUMNS, StepLog, StepSummary
from ..traces import Trace
from .markup import Part, details, element, facts, lines, section, table, text
from .picture import picture
from .tables import seconds

# Of each line with a number what it is, and what holds where the text hasn't the line.
NUMBERS = (
    ("cosim", "version of the language", ""),
    ("stop", "stop, in seconds", ""),
    ("longest", "longest step, in seconds", "not given: the same as the stop"),
    ("zero", "zero budget, in steps", "not given"),
    ("rows", "row budget, in rows", "not given"),
)

# What is said beside an outcome that isn't that of a whole run.
REASONS = {STOPPED: ": the rows were read no further", UNKNOWN: ": the rows are those of a file"}

NO_COMPONENT = "The model has no component."

# The most lines of a step log that a page lists.
MOST_STEPS = 2_000


def outcome_facts(outcome: Outcome, trace: Trace) -> List[Tuple[str, str]]:
    """How a run ended, and where."""
    pairs = [("kind", outcome.kind + REASONS.get(outcome.kind, "")), ("rows", f"{len(trace):,}")]
    if trace.records:
        pairs.append(("last row", f"time {trace.records[-1][0]} seconds, index {trace.records[-1][1]}"))
    if outcome.note:
        pairs.append(("note", outcome.note))
    if outcome.component is not None:
        pairs.append(("component", outcome.component))
    if outcome.place is not None:
        pairs.append(("place", outcome.place))
    if outcome.fault is not None:
        pairs.append(("fault", f"{outcome.fault}, {title_of_fault(outcome.fault)}"))
    if outcome.asked is not None and outcome.accepted is not None:
        pairs.append(("step in ticks of the component", f"asked for {outcome.asked}, accepted {outcome.accepted}"))
    if outcome.time is not None:
        pairs.append(("ended at", f"time {seconds(outcome.time, trace.resolution)} seconds, index {outcome.index}"))
    if outcome.status is not None:
        pairs.append(("status", str(outcome.status)))
    return pairs


def outcome_section(traces: Sequence[Tuple[str, Trace]]) -> Part:
    """How each run ended."""
    parts: List[Part] = []
    for label, trace in traces:
        if len(traces) > 1:
            parts.append(element("h3", text(label)))
        parts.append(facts(outcome_facts(trace.outcome, trace)))
    return section("outcome", "Outcome", *parts)


def connections_section(system: System) -> Part:
    """The picture, and the same as a table."""
    if not system.instances:
        return section("connections", "Connections", element("p", text(NO_COMPONENT)))
    rows = [
        (text(start), text(end), text(("event " if start.is_event else "") + start.type)) for start, end in system.connections
    ]
    shown = element("div", picture(system), {"class": "picture", "tabindex": "0", "role": "group", "aria-label": "picture of the connections"})
    if not rows:
        return section("connections", "Connections", shown, element("p", "There is no connection."))
    listed = details("The same as a table", table(("output", "input", "type"), rows))
    return section("connections", "Connections", shown, listed)


def summary_part(summary: StepSummary) -> Part:
    """The lines of a summary."""
    hint = element("p", "The first three lines are about all steps, the stop and the longest step. Look at the components in this order.")
    return hint + table(SUMMARY_COLUMNS, [[text(field) for field in record] for record in summary.records])


def steps_section(log: StepLog, summary: Optional[StepSummary]) -> Part:
    """The summary, if there is one, the steps by their causes, and the lines of the log."""
    rows = [
        [text(each.cause), text(f"{each.steps:,}"), *(text(seconds(time, log.resolution)) for time in (each.seconds, each.shortest, each.longest))]
        for each in log.causes
    ]
    causes = table(("what limits the step", "steps", "seconds in all", "shortest", "longest"), rows)
    listed = [[text(field) for field in record] for record in log.records[:MOST_STEPS]]
    title = f"The step log: {len(log):,} lines" + (f", of which the first {MOST_STEPS:,} are listed" if len(log) > MOST_STEPS else "")
    parts = [] if summary is None else [summary_part(summary)]
    return section("steps", "Steps", *parts, causes, details(title, table(COLUMNS, listed)))


def components_section(model: Model, system: System) -> Part:
    """Each component with its unit and the values of its parameters."""
    paths = {name: path for path, name in model.components.items()}
    has_paths = any(name != path for name, path in paths.items())
    headings = ("component", *(["path"] if has_paths else []), "unit", "parameters")
    rows = []
    for instance in system.instances.values():
        path = [text(paths.get(instance.name, instance.name))] if has_paths else []
        rows.append((text(instance.name), *path, text(instance.unit), values_of(instance, system)))
    hint = element("p", "A value in bold is set in the component. Others are those of the unit.")
    return section("components", "Components", hint, table(headings, rows))


def values_of(instance: Instance, system: System) -> Part:
    """The values of an instance's parameters; those that it sets are in bold."""
    values: List[Part] = []
    for variable in system.parameters_of(instance.name).values():
        literal = instance.settings.get(variable.name)
        shown = text(f"{variable.name} = {variable.value if literal is None else literal}")
        values.append(shown if literal is None else element("b", shown))
    return "<br>".join(values)


def rows_of_unit(unit: Unit) -> Iterator[Tuple[Part, ...]]:
    for sort, variables in (("param", unit.parameters), ("state", unit.states)):
        for variable in variables.values():
            yield text(variable.name), text(sort), text(variable.type), text(variable.value)
    for port in unit.ports:
        yield text(port.name), text(sort_of(port)), text(port.type), text(port.value or "")


def sort_of(port: Port) -> str:
    return ("event " if port.is_event else "") + ("input" if port.is_input else "output")


def units_section(system: System) -> Part:
    """Each unit with its parameters, states and ports."""
    parts: List[Part] = []
    for unit in system.units.values():
        users = [instance.name for instance in system.instances.values() if instance.unit == unit.name]
        parts.append(element("h3", text(unit.name)))
        tick = "a second" if unit.resolution == 0 else f"10^-{unit.resolution} seconds"
        parts.append(element("p", text(f"Its tick is {tick}. Components: {', '.join(users) or 'none'}.")))
        rows = list(rows_of_unit(unit))
        if rows:
            parts.append(table(("name", "sort", "type", "value or start"), rows))
    return section("units", "Units", *parts)


def run_section(system: System) -> Part:
    """The numbers of a run."""
    pairs = [(what, system.numbers.get(word, missing)) for word, what, missing in NUMBERS]
    tick = "a second" if system.resolution == 0 else f"10^-{system.resolution} seconds"
    parts = ((len(system.units), "unit"), (len(system.instances), "component"), (len(system.connections), "connection"))
    counts = ", ".join(f"{count} {word}{'' if count == 1 else 's'}" for count, word in parts)
    return section("model", "Model", facts([("parts", counts), ("tick of the system", tick), *pairs]))


def text_section(model: Model) -> Part:
    """The text as it was given, and, where it was changed or has groups, the canonical text that is run."""
    parts = [details("The text as it was given", source(model.text))]
    if model.runnable != model.text:
        parts.append(details("The canonical text that was run", source(model.runnable)))
    return section("text", "Text", *parts)


def source(written: bytes) -> Part:
    """A text with all its lines. A browser drops the first line feed of the element, so that comes before them."""
    return element("pre", "\n" + lines(written.decode("utf-8", "replace").replace("\r\n", "\n")), {"tabindex": "0"})


def contents(headings: Iterable[Tuple[str, str]]) -> Part:
    """The table of contents."""
    links = "\n".join(element("li", element("a", text(heading), {"href": f"#{anchor}"})) for anchor, heading in headings)
    return element("nav", f"<ul>\n{links}\n</ul>", {"aria-label": "contents"}) + "\n"
