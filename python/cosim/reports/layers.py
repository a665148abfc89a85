"""Where each component of a picture is: in layers from left to right, along the connections.

A connection that closes a cycle goes back, and counts for no layer. One that passes a layer has a place there, so that it goes
between the boxes.
"""
from dataclasses import dataclass, field
from typing import Dict, Iterable, List, Optional, Sequence, Set, Tuple

from ..canonical import Port, System

# Sizes in pixels: a character of a name, a row of ports, the lines with the names, and what is around them.
CHARACTER = 6.7
ROW = 16.0
HEAD = 38.0
PADDING = 8.0

# The distances between boxes above each other, and of what passes between them.
GAP = 24.0
LANE = 8.0

# How often the order and the heights are computed anew from those of the neighbours.
SWEEPS = 8

# The most places that connections have in layers that they pass. Where there were more, connections go straight.
MOST_PASSED = 3_000

# How many components without a connection are beside each other.
BESIDE = 6

Edge = Tuple[str, str]


@dataclass
class Box:
    """A component of the picture, or the place where a connection passes a layer, which has no ports."""

    name: str
    unit: str = ""
    inputs: List[Port] = field(default_factory=list)
    outputs: List[Port] = field(default_factory=list)
    x: float = 0.0
    y: float = 0.0
    width: float = 0.0
    height: float = LANE
    layer: int = 0

    @property
    def middle(self) -> float:
        return self.y + self.height / 2

    @property
    def gap(self) -> float:
        """The distance to the next one below."""
        return GAP if self.unit else LANE

    def height_of(self, port: Port) -> float:
        """The y of a port."""
        ports = self.inputs if port.is_input else self.outputs
        return self.y + HEAD + ROW * (ports.index(port) + 0.5)


# Of each box, by its identity, those that it is joined with in the layer before and in the one after it.
Neighbours = Dict[int, Tuple[List[Box], List[Box]]]


def boxes_of(system: System) -> Dict[str, Box]:
    """A box for each component, with the ports that have a connection."""
    connected = {port for pair in system.connections for port in pair}
    boxes = {name: Box(name, instance.unit) for name, instance in system.instances.items()}
    for port in system.ports:
        if port in connected:
            box = boxes[port.instance]
            (box.inputs if port.is_input else box.outputs).append(port)
    for box in boxes.values():
        most = max([len(box.name), len(box.unit), longest(box.inputs) + longest(box.outputs) + 3])
        box.width = most * CHARACTER + 2 * PADDING
        box.height = HEAD + ROW * max(len(box.inputs), len(box.outputs)) + (PADDING if box.inputs or box.outputs else 0)
    return boxes


def longest(ports: Sequence[Port]) -> int:
    return max((len(port.name) for port in ports), default=0)


def edges_of(system: System) -> List[Edge]:
    """Which component is connected to which, each pair once, and none with itself."""
    pairs = ((start.instance, end.instance) for start, end in system.connections)
    return [(start, end) for start, end in dict.fromkeys(pairs) if start != end]


def forward_edges(names: Iterable[str], edges: Sequence[Edge]) -> List[Edge]:
    """The edges without those that close a cycle, as they are met from the components on that nothing leads to."""
    after: Dict[str, List[str]] = {name: [] for name in names}
    for start, end in edges:
        after[start].append(end)
    entered = {end for _, end in edges}
    found: List[Edge] = []
    left: Set[str] = set()
    on_way: Set[str] = set()
    for first in sorted(after, key=lambda name: name in entered):
        way = [] if first in left or first in on_way else [(first, iter(after[first]))]
        on_way.update(name for name, _ in way)
        while way:
            start, ends = way[-1]
            end = next(ends, "")
            if not end:
                left.add(start)
                on_way.remove(start)
                way.pop()
            elif end not in on_way:
                found.append((start, end))
                if end not in left:
                    on_way.add(end)
                    way.append((end, iter(after[end])))
    return found


def layer_numbers(names: Iterable[str], forward: Sequence[Edge]) -> Dict[str, int]:
    """The layer of each component: the length of the longest way to it."""
    before: Dict[str, List[str]] = {name: [] for name in names}
    for start, end in forward:
        before[end].append(start)
    layers: Dict[str, int] = {}
    while len(layers) < len(before):
        for name, starts in before.items():
            if name not in layers and all(start in layers for start in starts):
                layers[name] = max((layers[start] + 1 for start in starts), default=0)
    return layers


@dataclass
class Layout:
    """Boxes by the name of their component, their layers, and the boxes that each output passes on its way, by layer."""

    boxes: Dict[str, Box]
    layers: List[List[Box]]
    passed: Dict[Port, Dict[int, Box]]


def layout_of(system: System) -> Layout:
    """Where the boxes are. Components without a connection are below all others."""
    boxes = boxes_of(system)
    joined = [name for name, box in boxes.items() if box.inputs or box.outputs]
    forward = forward_edges(joined, edges_of(system))
    numbers = layer_numbers(joined, forward)
    layers: List[List[Box]] = [[] for _ in range(max(numbers.values(), default=-1) + 1)]
    for name, number in numbers.items():
        boxes[name].layer = number
        layers[number].append(boxes[name])
    passed = passed_by(system, numbers, layers)
    neighbours = neighbours_of(system, boxes, passed)
    for sweep in range(2 * SWEEPS + 1):
        order_layers(layers, neighbours, sweep % 2)
    set_heights(layers, neighbours)
    return Layout(boxes, layers, passed)


def passed_by(system: System, numbers: Dict[str, int], layers: List[List[Box]]) -> Dict[Port, Dict[int, Box]]:
    """Boxes for the layers that each output passes on its way to its inputs, which are added to the layers."""
    furthest: Dict[Port, int] = {}
    for start, end in system.connections:
        furthest[start] = max(furthest.get(start, 0), numbers[end.instance])
    spans = {port: range(numbers[port.instance] + 1, last) for port, last in furthest.items()}
    if sum(map(len, spans.values())) > MOST_PASSED:
        return {}
    passed = {port: {number: Box(str(port), layer=number) for number in span} for port, span in spans.items()}
    for places in passed.values():
        for number, box in places.items():
            layers[number].append(box)
    return passed


def way_of(start: Port, end: Port, layout: Layout) -> List[Box]:
    """The boxes that a connection passes, between its two ends."""
    places = layout.passed.get(start, {})
    first, last = (layout.boxes[port.instance].layer for port in (start, end))
    return [places[number] for number in range(first + 1, last) if number in places]


def neighbours_of(system: System, boxes: Dict[str, Box], passed: Dict[Port, Dict[int, Box]]) -> Neighbours:
    """The neighbours of each box."""
    found: Neighbours = {}
    for start, end in system.connections:
        way = [boxes[start.instance], *way_of(start, end, Layout(boxes, [], passed)), boxes[end.instance]]
        for box, next_box in zip(way, way[1:]):
            if box.layer < next_box.layer:
                found.setdefault(id(box), ([], []))[1].append(next_box)
                found.setdefault(id(next_box), ([], []))[0].append(box)
    return found


def order_layers(layers: List[List[Box]], neighbours: Neighbours, side: int) -> None:
    """Sorts each layer by the places of its boxes' neighbours: those before them (side 0), or those after them."""
    places = {id(box): place / len(layer) for layer in layers for place, box in enumerate(layer)}
    for layer in layers if side == 0 else layers[::-1]:
        wished: Dict[int, float] = {}
        for box in layer:
            middle = mean([places[id(other)] for other in neighbours.get(id(box), ([], []))[side]])
            wished[id(box)] = places[id(box)] if middle is None else middle
        layer.sort(key=lambda box: wished[id(box)])
        places.update({id(box): place / len(layer) for place, box in enumerate(layer)})


def mean(numbers: Sequence[float]) -> Optional[float]:
    return sum(numbers) / len(numbers) if numbers else None


def set_heights(layers: List[List[Box]], neighbours: Neighbours) -> None:
    """Sets the y of each box: near to the middle of its neighbours, with the order of its layer, and none over another."""
    for layer in layers:
        stack(layer, [0.0] * len(layer))
    for sweep in range(SWEEPS):
        side = sweep % 2
        for layer in layers if side == 0 else layers[::-1]:
            means = [mean([other.middle for other in neighbours.get(id(box), ([], []))[side]]) for box in layer]
            stack(layer, [box.y if middle is None else middle - box.height / 2 for box, middle in zip(layer, means)])
    highest = min((box.y for layer in layers for box in layer), default=0.0)
    for layer in layers:
        for box in layer:
            box.y -= highest


def stack(layer: Sequence[Box], wished: Sequence[float]) -> None:
    """Places boxes below each other, each near to where it is wished."""
    below = float("-inf")
    for box, y in zip(layer, wished):
        box.y = max(y, below)
        below = box.y + box.height + box.gap
    moved = sum(box.y - y for box, y in zip(layer, wished)) / max(len(layer), 1)
    for box in layer:
        box.y -= moved
