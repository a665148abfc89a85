"""Shows how far something is: by a bar of tqdm, or without tqdm by lines on standard error."""
import sys
from contextlib import contextmanager
from typing import Callable, Iterator

# The most lines that show progress without tqdm, after that for the begin.
MOST_LINES = 20


@contextmanager
def bar(total: float, unit: str) -> Iterator[Callable[[float], None]]:
    """A function that shows how much of a total is done."""
    try:
        from tqdm import tqdm
    except ImportError:
        yield lines(total, unit)
        return
    with tqdm(total=total, unit=f" {unit}") as shown:

        def show(done: float) -> None:
            shown.update(done - shown.n)

        yield show


def lines(total: float, unit: str) -> Callable[[float], None]:
    """A function that writes a line where another part of a total is done, and always where all of it is."""
    shown = -1

    def show(done: float) -> None:
        nonlocal shown
        part = MOST_LINES if done >= total else int(done * MOST_LINES / total)
        if part > shown:
            shown = part
            print(f"cosim: {done:.10g} of {total:.10g} {unit}", file=sys.stderr)

    return show
