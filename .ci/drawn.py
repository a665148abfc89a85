"""Small systems that are drawn at random from a seed, for .ci/steps: with limits, accepted lengths, resolutions and events, so that
their runs end in all ways."""
from __future__ import annotations

from random import Random

# The forms of `max` and `accept`, each with what makes it end a run at times: a limit below zero, a divisor of zero, a length above
# the step, and a length that is shorter for a shorter step.
LIMITS = ("", "", "p", "p", "p - t mod (p + 1)", "u mod 5 + 1", "if n mod 3 == 0 then 0 else p", "9 - n", "p + 6 div (n - 7)")
ACCEPTS = ("", "", "min(h, p)", "min(h, p)", "min(h, n mod 3 + 1)", "if n mod 4 == 0 then 0 else h", "h - h div 5", "min(p, 8)")
STATES = ("n := (n * 3 + u + h) mod 11", "n := (n + 1) mod 9", "n := (n + u * 2) mod 13", "n := n + h")
OUTPUTS = ("output y : Int64 = n", "output y : Int64 needs u = n + u mod 7", "output y : Int8 = n * 4")


def unit_of(draw: Random, name: str, version: int) -> list[str]:
    """The lines of a unit."""
    limit, accept = draw.choice(LIMITS), draw.choice(ACCEPTS)
    lines = [f"unit {name}", f"resolution {draw.choice((0, 0, 1, 2))}", "param p : Int64 = 3", f"state n : Int64 = {draw.randrange(4)}"]
    lines += ["input u : Int64 = 1", draw.choice(OUTPUTS)]
    if version == 2:
        lines += ["event input e : Int64", "event output f : Int64 = if n mod 2 == 0 then n else absent"]
    lines += [f"max {limit}"] if limit else []
    lines += ["step", draw.choice(STATES)]
    if version == 2:
        lines += ["if present(e)", "n := (n + e + 1) mod 11", "end"]
    lines += [f"accept {accept}"] if accept else []
    return [*lines, "end", "end"]


def connections_of(draw: Random, units: list[list[str]], kinds: list[int], version: int) -> list[str]:
    """Connections from instances to later ones, so that outputs form no cycle."""
    lines = []
    for end in range(1, len(kinds)):
        start = draw.randrange(end)
        if draw.random() < 0.7 and not any(line.startswith("output y : Int8") for line in units[kinds[start]]):
            lines.append(f"connect i{start}.y -> i{end}.u")
        if version == 2 and draw.random() < 0.7:
            lines.append(f"connect i{draw.randrange(len(kinds))}.f -> i{end}.e")
    return lines


def text_of_seed(seed: int, instances: tuple[int, int] = (1, 5)) -> bytes:
    """The text of a seed, with a number of instances in this range."""
    draw = Random(seed)
    version = draw.choice((1, 2))
    units = [unit_of(draw, f"U{number}", version) for number in range(draw.randint(1, 3))]
    kinds = [draw.randrange(len(units)) for _ in range(draw.randint(*instances))]
    lines = [f"cosim {version}", *(line for unit in units for line in unit)]
    for number, kind in enumerate(kinds):
        lines += [f"instance i{number} : U{kind}", f"p = {draw.randint(1, 9)}", "end"]
    lines += connections_of(draw, units, kinds, version)
    lines += [f"stop {draw.randint(1, 12)}", *draw.choice(([], ["longest 1"], ["longest 4"]))]
    lines += [f"zero {draw.choice((0, 1, 3, 20))}", f"rows {draw.choice((5, 40, 200))}"]
    return "".join(f"{line}\n" for line in lines).encode()
