"""A model as a graph for Graphviz."""
from typing import Iterator

from .canonical import Port, System


def arrow(start: Port, end: Port) -> str:
    label = start.name if start.name == end.name else f"{start.name} -> {end.name}"
    dashed = ", style=dashed" if start.is_event else ""
    return f'  "{start.instance}" -> "{end.instance}" [label="{label}"{dashed}];'


def graph(system: System) -> Iterator[str]:
    yield "digraph model {"
    yield "  rankdir=LR;"
    yield "  node [shape=box];"
    for instance in system.instances.values():
        yield f'  "{instance.name}" [label="{instance.name}\\n{instance.unit}"];'
    for start, end in system.connections:
        yield arrow(start, end)
    yield "}"
