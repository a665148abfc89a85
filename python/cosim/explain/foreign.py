"""Rule 1: which byte of a line isn't allowed, and the character that it belongs to."""
import re
import unicodedata
from typing import Optional

from ..lines import split_comment
from .kinds import Cause

# The cases that docs/RULES.md has a cure of its own for.
BYTE_ORDER_MARK = "a byte-order mark"
LOOKALIKE = "a sign that has another one in ASCII"

FOREIGN = re.compile(rb"[^\t -~]")
CHARACTER = re.compile(rb"[\xc2-\xf4][\x80-\xbf]{1,3}")

MARKS = {b"\xef\xbb\xbf": "of UTF-8", b"\xff\xfe": "of UTF-16", b"\xfe\xff": "of UTF-16"}

# Characters of pasted texts that have a sign or a space of ASCII in their place.
LOOKALIKES = "\u2212\u2010\u2011\u2012\u2013\u2014\u2192\u21d2\u00a0\u2002\u2003\u2007\u2009\u200a\u202f\u3000"


def not_ascii(line: bytes) -> Cause:
    """The first byte before the comment that isn't allowed."""
    for mark, encoding in MARKS.items():
        if line.startswith(mark):
            return Cause((f"the line begins with the byte-order mark {encoding}, which is {mark.hex(' ').upper()}",), BYTE_ORDER_MARK)
    code = split_comment(line)[0]
    found = FOREIGN.search(code)
    if found is None:
        return Cause()
    place, character = found.start(), character_at(code, found.start())
    details = f"byte {place + 1} of the line is {code[place]:02X} in hexadecimal"
    if character is None:
        return Cause((details + describe_control(code[place]),))
    name = unicodedata.name(character, "a character without a name").lower()
    return Cause((f"{details}; the character is U+{ord(character):04X}, {name}",), LOOKALIKE if character in LOOKALIKES else None)


def describe_control(byte: int) -> str:
    """What a byte is that belongs to no character of UTF-8."""
    return {0: ", as in a text in UTF-16", 13: ", a carriage return"}.get(byte, "")


def character_at(code: bytes, place: int) -> Optional[str]:
    """The character of UTF-8 that begins at a byte outside of ASCII, if one does."""
    found = CHARACTER.match(code, place)
    try:
        return found[0].decode()[:1] if found else None
    except UnicodeDecodeError:
        return None
