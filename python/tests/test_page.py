"""Runs the examples of the pages, one after the other, and compares what they print with what the page shows."""
import contextlib
import importlib.util
import io
import os
import pathlib
import re
from typing import Any, Dict, Iterator, Optional, Tuple

import pytest

from conftest import REPOSITORY

BLOCK = re.compile(r"^```python(?: if ([\w ]+))?\n(.*?)^```\n(?:\n```\n(.*?)^```\n)?", re.M | re.S)


def blocks(document: str) -> Iterator[Tuple[Optional[str], str, str]]:
    """Of each example the modules that it requires, its lines, and what it prints."""
    page = (REPOSITORY / document).read_text(encoding="utf-8")
    for found in BLOCK.finditer(page):
        yield found[1], found[2], found[3] or ""


@pytest.mark.parametrize("document", ["README.md", "docs/PYTHON.md"])
def test_examples(document: str, monkeypatch: pytest.MonkeyPatch, tmp_path: pathlib.Path) -> None:
    os.symlink(REPOSITORY / "examples", tmp_path / "examples")
    (tmp_path / "work").mkdir()
    monkeypatch.chdir(tmp_path)
    names: Dict[str, Any] = {"__name__": "page"}
    count = 0
    for modules, lines, wanted in blocks(document):
        if any(importlib.util.find_spec(module) is None for module in (modules or "").split()):
            continue
        printed = io.StringIO()
        with contextlib.redirect_stdout(printed):
            exec(compile(lines, document, "exec"), names)
        assert printed.getvalue() == wanted, lines
        count += 1
    assert count
