"""Texts as parts of a page: nothing that a model, a trace or a file's name has becomes an element or a script."""
import base64
import hashlib
import html
import json
from typing import Iterable, Mapping, Sequence

from ..streams import escaped

# A part of a page, which is written as it is; every other text goes through `text`.
Part = str


def text(given: object) -> Part:
    """A text as characters alone. A sign that can't be seen is shown by its number."""
    return html.escape(escaped(str(given)), quote=True)


def lines(given: str) -> Part:
    """A text whose lines stay lines."""
    return "\n".join(text(line) for line in given.split("\n"))


def element(name: str, content: Part = "", attributes: Mapping[str, str] = {}) -> Part:
    """An element; `content` is a part of a page, and the values of attributes are texts."""
    return f"{opened(name, attributes)}{content}</{name}>"


def opened(name: str, attributes: Mapping[str, str]) -> Part:
    return "<" + name + "".join(f' {key}="{text(value)}"' for key, value in attributes.items()) + ">"


def section(anchor: str, heading: str, *parts: Part) -> Part:
    """A section with a heading, which the table of contents links by its anchor."""
    return element("section", "\n".join([element("h2", text(heading)), *parts]), {"id": anchor}) + "\n"


def table(headings: Sequence[str], rows: Iterable[Sequence[Part]], caption: str = "") -> Part:
    """A table. The first cell of each row is its heading."""
    head = "".join(element("th", text(heading), {"scope": "col"}) for heading in headings)
    body = "\n".join(element("tr", "".join(row_cells(row))) for row in rows)
    shown = element("caption", text(caption)) if caption else ""
    return element("div", f"<table>{shown}<thead><tr>{head}</tr></thead>\n<tbody>\n{body}\n</tbody></table>", {"class": "wide"})


def row_cells(row: Sequence[Part]) -> Iterable[Part]:
    for place, cell in enumerate(row):
        yield element("td", cell) if place else element("th", cell, {"scope": "row"})


def facts(pairs: Iterable[Sequence[str]]) -> Part:
    """Names with their values, which are texts."""
    return element("dl", "\n".join(element("dt", text(name)) + element("dd", text(value)) for name, value in pairs))


def details(summary: str, content: Part) -> Part:
    """A part that is closed until the reader opens it."""
    return element("details", element("summary", text(summary)) + content)


def data_of(given: object) -> Part:
    """Data for a script, as JSON that has no sign with a meaning in a page."""
    written = json.dumps(given, ensure_ascii=True, allow_nan=False, separators=(",", ":"))
    return written.replace("<", "\\u003c").replace(">", "\\u003e").replace("&", "\\u0026")


def script_of(given: str) -> str:
    """A script as a page may have it: with the line ends that a browser reads, and nothing that ends the element."""
    plain = given.replace("\r\n", "\n").replace("\r", "\n")
    return plain.replace("</script", "<\\/script").replace("<!--", "<\\!--")


def hash_of(script: str) -> str:
    """What a Content-Security-Policy has for a script that may run."""
    return "'sha256-" + base64.b64encode(hashlib.sha256(script.encode()).digest()).decode() + "'"
