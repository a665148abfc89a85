"""What is perhaps forgotten in a model: inputs that nothing feeds, and outputs that nobody reads or shows."""
from typing import Iterator, List

from .canonical import System


def leftovers(system: System) -> Iterator[str]:
    fed = {end for _, end in system.connections}
    used = {start for start, _ in system.connections} | set(system.samples or system.ports)
    for port in system.ports:
        if port.is_input and port not in fed:
            stays = "no event occurs there" if port.is_event else f"it stays at {port.value}"
            yield f"{port}: nothing feeds this input, and {stays}"
        if not port.is_input and port not in used:
            yield f"{port}: nobody reads this output, and no sample shows it"


def advice(system: System) -> List[str]:
    return list(leftovers(system)) or ["nothing is left open"]
