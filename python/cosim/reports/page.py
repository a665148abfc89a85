"""The page of a report, made of its sections, its data, and the scripts that draw these."""
import os
from typing import List, Mapping, Optional, Sequence, Tuple, Union

import plotly
from plotly.offline import get_plotlyjs_version

from ..models import Model
from ..steps import StepLog, StepSummary
from ..streams import clean_name
from ..traces import Difference, Trace
from ..values import Given
from .markup import Part, data_of, element, hash_of, opened, script_of, section, text
from .sections import (
    components_section, connections_section, contents, outcome_section, run_section, steps_section, text_section, units_section,
)
from .tables import MOST_DIFFERENCES, data_of_page, tolerance_words

HERE = os.path.dirname(os.path.abspath(__file__))

# Where the package plotly has plotly.js: its own place, and that of Debian.
PLACES = (os.path.join(os.path.dirname(plotly.__file__), "package_data", "plotly.min.js"), "/usr/share/python3-plotly/plotly.js")

NO_SCRIPT = "The plots and the tables of rows require JavaScript, which this browser doesn't run."

HEADINGS = (
    ("outcome", "Outcome"),
    ("model", "Model"),
    ("connections", "Connections"),
    ("plots", "Plots"),
    ("differences", "Differences"),
    ("rows", "Rows"),
    ("steps", "Steps"),
    ("components", "Components"),
    ("units", "Units"),
    ("text", "Text"),
)


def page_of(
    model: Model,
    trace: Trace,
    other: Optional[Trace],
    tolerance: Union[Given, Mapping[str, Given]],
    names: Optional[Sequence[str]],
    labels: Tuple[str, str],
    log: Optional[StepLog] = None,
    summary: Optional[StepSummary] = None,
) -> bytes:
    """The page as bytes. The same model and traces make the same page."""
    system = model.system
    found = [] if other is None else trace.diff(other, tolerance)
    traces = [(labels[0], trace), *([] if other is None else [(labels[1], other)])]
    left_out = [anchor for anchor, given in (("differences", other), ("steps", log)) if given is None]
    headings = [(anchor, heading) for anchor, heading in HEADINGS if anchor not in left_out]
    title = f"Report of {clean_name(model.name)}"
    body = [
        element("header", element("h1", text(title))),
        contents(headings),
        "<main>\n",
        outcome_section(traces),
        run_section(system),
        connections_section(system),
        section("plots", "Plots", element("noscript", element("p", text(NO_SCRIPT)))),
        "" if other is None else differences_section(found, tolerance, labels),
        section("rows", "Rows"),
        "" if log is None else steps_section(log, summary),
        components_section(model, system),
        units_section(system),
        text_section(model),
        "</main>\n",
        element("footer", text(f"The plots are drawn by plotly.js {get_plotlyjs_version()}, which is in this page.")),
        element("script", data_of(data_of_page(trace, other, found, names, labels)), {"id": "data", "type": "application/json"}),
    ]
    return document(title, body)


def differences_section(found: Sequence[Difference], tolerance: Union[Given, Mapping[str, Given]], labels: Tuple[str, str]) -> Part:
    points = len({(each.time, each.index) for each in found})
    says = f"{labels[0]} and {labels[1]} have {len(found):,} differences at {points:,} points. Tolerance: {tolerance_words(tolerance)}."
    if len(found) > MOST_DIFFERENCES:
        says += f" The first {MOST_DIFFERENCES:,} are listed."
    return section("differences", "Differences", element("p", text(says)))


def read_part(path: str) -> str:
    with open(os.path.join(HERE, path), encoding="utf-8") as file:
        return file.read()


def read_plotly() -> str:
    """The text of plotly.js. plotly's own function for it reads it by the encoding of the locale, where Debian packed it."""
    found = [place for place in PLACES if os.path.exists(place)]
    if not found:
        raise ImportError("the package plotly has no plotly.js", name="plotly.js")
    return read_part(found[0])


def document(title: str, body: List[Part]) -> bytes:
    """The whole document. Its policy lets run the two scripts by their hashes alone, and nothing comes from elsewhere."""
    scripts = [script_of(written) for written in (read_plotly(), read_part("page.js"))]
    policy = "; ".join(
        [
            "default-src 'none'",
            "script-src " + " ".join(hash_of(script) for script in scripts),
            "style-src 'unsafe-inline'",
            "img-src data: blob:",
            "base-uri 'none'",
            "form-action 'none'",
        ]
    )
    head = [
        '<meta charset="utf-8">',
        opened("meta", {"http-equiv": "Content-Security-Policy", "content": policy}),
        '<meta name="viewport" content="width=device-width, initial-scale=1">',
        element("title", text(title)),
        element("style", read_part("page.css")),
    ]
    parts = ["<!DOCTYPE html>\n<html lang=\"en\">\n<head>", *head, "</head>\n<body>", *body, *(f"<script>{script}</script>" for script in scripts)]
    return ("\n".join([*parts, "</body>\n</html>"]) + "\n").encode("utf-8")
