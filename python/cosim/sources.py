"""Where a text comes from, and how messages name its lines."""
from dataclasses import dataclass
from typing import NamedTuple, Optional, Tuple

from .streams import clean_name


class FileLine(NamedTuple):
    """A line of a file, counted from 1."""

    file: str
    line: int

    def __str__(self) -> str:
        return f"{clean_name(self.file)}:{self.line}"


class Span(NamedTuple):
    """Lines of a joined text that follow each other in one file: the number of the first one there, and how many they are."""

    file: str
    first: int
    size: int


@dataclass(frozen=True)
class Source:
    """Where a text comes from.

    `name` is what messages call the text, and `file` the path of the file that has the whole text, or None. A text that was joined
    of several files has `spans`, which cover its lines in their order.
    """

    name: str
    file: Optional[str] = None
    spans: Tuple[Span, ...] = ()

    @property
    def is_joined(self) -> bool:
        return bool(self.spans)

    def origin(self, line: int) -> Optional[FileLine]:
        """The line of a file that a line of the text is; None where no file has it."""
        if not self.spans:
            return None if self.file is None else FileLine(self.file, line)
        if line < 1:
            return None
        left = line
        for span in self.spans:
            if left <= span.size:
                return FileLine(span.file, span.first + left - 1)
            left -= span.size
        return None

    def place(self, line: Optional[int]) -> str:
        """How a message begins: the file and the line, or the name of the text where no line is meant."""
        if line is None:
            return clean_name(self.name)
        origin = self.origin(line) if self.is_joined else FileLine(self.name, line)
        return str(origin) if origin else clean_name(self.name)

    def lines(self, *numbers: int) -> str:
        """Lines of the text as a message names them: `line 3`, `lines 3, 8`, or `a.cosim:3, b.cosim:8` of a joined text."""
        if self.is_joined:
            return ", ".join(str(self.origin(number) or f"line {number}") for number in numbers)
        return f"line{'s' if len(numbers) > 1 else ''} {', '.join(map(str, numbers))}"


# The source of a text that messages needn't name.
PLAIN = Source("model")
