"""The cases of the files of tests/, whose heads state their forms."""
import re

from common import read

# Files of whole texts, and of tables of cases. The head of each states its form.
TEXTS = ("outcomes", "runs", "events", "upgrades", "replays", "reports", "saved", "stimuli", "nested", "nodes")
WHOLE_TEXTS = tuple(f"tests/{name}.txt" for name in TEXTS)
TABLES = tuple(f"tests/{name}.txt" for name in ("budgets", "lines", "printing", "rules", "steps", "tables", "values"))

# What the field of a case has in place of bytes that a line can't show.
BYTES = ((b";", b"\n"), (rb"\r", b"\r"), (rb"\t", b"\t"), (rb"\x01", b"\x01"), (rb"\mark", b"\xef\xbb\xbf"))


def sections(path):
    """The parts of each section of a file, which are separated by lines of three dashes."""
    for section in read(path).split(b"\n=== ")[1:]:
        yield re.split(rb"^---\n", section.rstrip(b"\n") + b"\n", flags=re.M)


def repeated(text, end=b""):
    """A text in which `[3 of x]` is x three times, each with a line end after it, and with its number, from 0, for `#` in it."""

    def pieces(found):
        return b"".join(found[2].replace(b"#", b"%d" % number) + end for number in range(int(found[1])))

    return re.sub(rb"\[(\d+) of ([^\]]*)\]" + end, pieces, text)


def field_bytes(field):
    """The bytes that a field of a case means."""
    for shown, meant in BYTES:
        field = field.replace(shown, meant)
    return repeated(field)


def filled(template, fields):
    """A template with the fields of a case for {1}, {2} and so on."""
    return re.sub(rb"\{(\d)\}", lambda hole: fields[int(hole[1]) - 1], template)
