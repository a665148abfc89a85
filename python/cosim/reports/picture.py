"""The connections of a model as a picture: an SVG element that needs no other program.

Each component is a box with its unit and with the ports that have a connection, inputs on the left. A connection is a line from
an output to an input; one of events is dashed. Where it closes a cycle it goes back below the boxes.
"""
from typing import Dict, List, Sequence, Tuple

from ..canonical import Port, System
from .layers import BESIDE, GAP, HEAD, PADDING, ROW, Box, Layout, layout_of, way_of
from .markup import Part, element, text

# The distance between two layers, and what each connection that turns there adds.
BETWEEN = 64.0
TURN = 6.0

# What is around the picture, and between two connections that go back.
MARGIN = 12.0
BACK = 9.0

COLORS = ("#1f5fa8", "#b3501e", "#3b7d3b", "#7a4a9c", "#9c2f45", "#2f7f86", "#7a6a1f", "#555b66")

Pair = Tuple[Port, Port]


def picture(system: System) -> Part:
    """The picture of a system. It has no width where there is no component."""
    layout = layout_of(system)
    back = backward(system.connections, layout)
    width = set_columns(layout, back)
    bottom = max((box.y + box.height for layer in layout.layers for box in layer), default=-GAP)
    lanes = {port: bottom + GAP + BACK * place for place, port in enumerate(back)}
    bottom = max([bottom, *lanes.values()])
    width, bottom = place_others(layout, width, bottom)
    colors = {name: COLORS[place % len(COLORS)] for place, name in enumerate(system.instances)}
    lines = "\n".join(connection(pair, layout, back, lanes, colors[pair[0].instance]) for pair in system.connections)
    boxes = "\n".join(box_element(box) for box in layout.boxes.values())
    size = (width + 2 * MARGIN, bottom + 2 * MARGIN)
    attributes = {
        "xmlns": "http://www.w3.org/2000/svg",
        "viewBox": " ".join(number(value) for value in (-MARGIN, -MARGIN, *size)),
        "width": number(size[0]),
        "height": number(size[1]),
        "role": "img",
        "aria-label": f"{len(system.instances)} components and {len(system.connections)} connections",
    }
    return element("svg", f"\n{lines}\n{boxes}\n", attributes)


def number(value: float) -> str:
    return f"{value:.1f}"


def backward(connections: Sequence[Pair], layout: Layout) -> Dict[Port, List[Port]]:
    """The outputs with connections that go back, or stay in their layer, and the inputs of these. Shorter ways come first."""
    found: Dict[Port, List[Port]] = {}
    for start, end in connections:
        if layout.boxes[end.instance].layer <= layout.boxes[start.instance].layer:
            found.setdefault(start, []).append(end)

    def length(start: Port) -> int:
        return layout.boxes[start.instance].layer - min(layout.boxes[end.instance].layer for end in found[start])

    return {start: found[start] for start in sorted(found, key=length)}


def set_columns(layout: Layout, back: Dict[Port, List[Port]]) -> float:
    """Sets the x of each box. Returns the width of all layers."""
    turns = [0] * (len(layout.layers) + 1)
    for start, ends in back.items():
        turns[layout.boxes[start.instance].layer + 1] += 1
        for number_of_layer in {layout.boxes[end.instance].layer for end in ends}:
            turns[number_of_layer] += 1
    x = TURN * turns[0] + (2 * PADDING if turns[0] else 0)
    for place, layer in enumerate(layout.layers):
        width = max(box.width for box in layer)
        for box in layer:
            box.x = x
            box.width = box.width if box.unit else width
        x += width + TURN * turns[place + 1] + (BETWEEN if place + 1 < len(layout.layers) else PADDING)
    return x


def place_others(layout: Layout, width: float, bottom: float) -> Tuple[float, float]:
    """Places the components without a connection below all others. Returns the size of the picture."""
    others = [box for box in layout.boxes.values() if not (box.inputs or box.outputs)]
    for first in range(0, len(others), BESIDE):
        x, y = 0.0, bottom + GAP
        for box in others[first : first + BESIDE]:
            box.x, box.y = x, y
            x += box.width + GAP
        width, bottom = max(width, x - GAP), y + HEAD
    return width, bottom


def right_of(layout: Layout, layer: int) -> float:
    return max(box.x + box.width for box in layout.layers[layer])


def connection(pair: Pair, layout: Layout, back: Dict[Port, List[Port]], lanes: Dict[Port, float], color: str) -> Part:
    """A connection as a line, with an arrow at its input."""
    start, end = pair
    source, target = layout.boxes[start.instance], layout.boxes[end.instance]
    from_x, from_y = source.x + source.width, source.height_of(start)
    to_x, to_y = target.x, target.height_of(end)
    if target.layer <= source.layer:
        place = list(back).index(start)
        out = right_of(layout, source.layer) + PADDING + TURN * rank(place, back, layout, source.layer)
        way = back_way((from_x, from_y), out, lanes[start], to_x - PADDING - 4 - TURN * rank(place, back, layout, target.layer - 1), (to_x, to_y))
    else:
        way = f"M{number(from_x)} {number(from_y)}"
        for box in way_of(start, end, layout):
            way += curve((from_x, from_y), (box.x, box.middle)) + f"H{number(box.x + box.width)}"
            from_x, from_y = box.x + box.width, box.middle
        way += curve((from_x, from_y), (to_x - 6, to_y))
    title = element("title", text(f"{start} -> {end}" + (", events" if start.is_event else "")))
    dashed = {"stroke-dasharray": "5 4"} if start.is_event else {}
    line = element("path", "", {"d": way, "fill": "none", "stroke": color, **dashed})
    tip = f"M{number(to_x)} {number(to_y)}l-7 -4v8z"
    return element("g", title + line + element("path", "", {"d": tip, "fill": color}), {"class": "connection"})


def rank(place: int, back: Dict[Port, List[Port]], layout: Layout, layer: int) -> int:
    """How many connections before this one turn right of a layer."""
    found = 0
    for start, ends in list(back.items())[:place]:
        turns = {layout.boxes[start.instance].layer} | {layout.boxes[end.instance].layer - 1 for end in ends}
        found += layer in turns
    return found


def curve(start: Tuple[float, float], end: Tuple[float, float]) -> str:
    half = (end[0] - start[0]) / 2
    points = (start[0] + half, start[1], end[0] - half, end[1], end[0], end[1])
    return "C" + " ".join(number(value) for value in points)


def back_way(start: Tuple[float, float], right: float, lane: float, left: float, end: Tuple[float, float]) -> str:
    """The line from an output to the right, down to a lane, back to the left, and up to an input, with round corners."""
    r = 5.0
    return (
        f"M{number(start[0])} {number(start[1])}H{number(right - r)}q{r} 0 {r} {r}"
        f"V{number(lane - r)}q0 {r} -{r} {r}H{number(left + r)}q-{r} 0 -{r} -{r}"
        f"V{number(end[1] + r)}q0 -{r} {r} -{r}H{number(end[0] - 6)}"
    )


def box_element(box: Box) -> Part:
    frame = {"x": number(box.x), "y": number(box.y), "width": number(box.width), "height": number(box.height), "rx": "4"}
    middle = number(box.x + box.width / 2)
    parts = [
        element("rect", "", frame),
        element("text", text(box.name), {"x": middle, "y": number(box.y + 16), "class": "name"}),
        element("text", text(box.unit), {"x": middle, "y": number(box.y + 30), "class": "unit"}),
    ]
    for ports, x, side in ((box.inputs, box.x + PADDING, "in"), (box.outputs, box.x + box.width - PADDING, "out")):
        for place, port in enumerate(ports):
            y = number(box.y + HEAD + ROW * (place + 0.5) + 4)
            parts.append(element("text", text(port.name), {"x": number(x), "y": y, "class": side}))
    return element("g", "".join(parts), {"class": "box"})
