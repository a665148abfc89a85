"""Lines of a text and their tokens, as docs/RULES.md has them, and which blocks are open."""
import re
from typing import Iterator, List, NamedTuple, Tuple

LARGEST = 2**63 - 1
LONGEST_NAME = 32

COMMENT = re.compile(rb"[^#]*")
TOKEN = re.compile(r"[A-Za-z_][A-Za-z0-9_]*|[0-9]+(?:\.[0-9]{1,9})?[A-Za-z0-9_]*|:=|->|==|!=|<=|>=|[^ \t]")
WORD = re.compile(r"[A-Za-z_][A-Za-z0-9_]*")
NUMBER = re.compile(r"([0-9]+)(?:\.([0-9]{1,9}))?")

# The places of lines, as the table of forms in docs/RULES.md calls them.
OUTSIDE = "outside a block"
IN_UNIT = "in a unit"
IN_STEP = "in a step"
IN_INSTANCE = "in an instance"
IN_GROUP = "in a group"
PLACES = (OUTSIDE, IN_UNIT, IN_STEP, IN_INSTANCE, IN_GROUP)


class Token(NamedTuple):
    """A token and the place in its line, from 0. What is no token of the language is one too."""

    text: str
    start: int

    @property
    def end(self) -> int:
        return self.start + len(self.text)

    @property
    def is_word(self) -> bool:
        return bool(WORD.fullmatch(self.text)) and len(self.text) <= LONGEST_NAME

    @property
    def is_number(self) -> bool:
        number = NUMBER.fullmatch(self.text)
        return bool(number) and int(self.text.replace(".", "")) <= LARGEST


def split_lines(text: bytes) -> List[bytes]:
    """The lines of a text without their ends. The last line feed ends a line and begins none."""
    lines = text.split(b"\n")
    if not lines[-1]:
        lines.pop()
    return [line[:-1] if line.endswith(b"\r") else line for line in lines]


def split_comment(line: bytes) -> Tuple[bytes, bytes]:
    """The code of a line, which is before its comment, and the comment, which may be empty."""
    found = COMMENT.match(line)
    assert found
    return line[: found.end()], line[found.end() :]


def code_of(line: bytes) -> str:
    """What is before the comment of a line."""
    return split_comment(line)[0].decode("latin-1")


def tokens_of(line: bytes) -> List[Token]:
    """The tokens before the comment of a line."""
    return [Token(found[0], found.start()) for found in TOKEN.finditer(code_of(line))]


def texts_of(line: bytes) -> List[str]:
    """The texts of the tokens before the comment of a line."""
    return TOKEN.findall(code_of(line))


def is_part(tokens: List[str]) -> bool:
    """Whether a line begins a group, or the text after the groups."""
    return tokens == ["main"] or (len(tokens) == 2 and tokens[0] == "group" and bool(WORD.fullmatch(tokens[1])))


class Placed(NamedTuple):
    """A line with its number, from 1, its tokens, and the blocks that are open before it, the outermost first."""

    number: int
    tokens: List[str]
    blocks: Tuple[str, ...]
    in_group: bool

    @property
    def place(self) -> str:
        if not self.blocks:
            return IN_GROUP if self.in_group else OUTSIDE
        return {"unit": IN_UNIT, "instance": IN_INSTANCE}.get(self.blocks[-1], IN_STEP)


def placed_lines(text: bytes) -> Iterator[Placed]:
    """The lines of a text, with groups or without. After a line that breaks a rule the blocks may be others than were
    meant."""
    blocks: List[str] = []
    lines = [texts_of(line) for line in split_lines(text)]
    in_group = after_main = False
    has_parts = any(is_part(tokens) for tokens in lines)
    for number, tokens in enumerate(lines, 1):
        first = tokens[0] if tokens else ""
        if has_parts and not after_main and is_part(tokens):
            after_main = first == "main"
            in_group, blocks = not after_main, []
            yield Placed(number, tokens, (), in_group)
            continue
        closing = first == "end" and bool(blocks)
        yield Placed(number, tokens, tuple(blocks), in_group)
        if closing:
            blocks.pop()
        elif opens(first, blocks):
            blocks.append(first)


def opens(first: str, blocks: List[str]) -> bool:
    """Whether a line that begins with such a word opens a block inside of these blocks: `if` and `repeat` do in a step
    alone."""
    in_step = bool(blocks) and blocks[-1] in ("step", "if", "repeat")
    if first in ("if", "repeat"):
        return in_step
    if first == "step":
        return bool(blocks) and blocks[-1] == "unit"
    return first in ("unit", "instance") and not blocks
