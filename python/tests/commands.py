"""Calls of the command of the package."""
import os
import pathlib
import shlex
import subprocess
import sys
from typing import Any

import cosim


def refuse_runs(folder: pathlib.Path, program: str) -> str:
    """A program that answers as the other one does, but for `run`, which fails."""
    path = folder / "without-runs"
    path.write_text(f'#!/bin/sh\n[ "$1" != run ] || exit 5\nexec {shlex.quote(program)} "$@"\n')
    path.chmod(0o755)
    return str(path)


def call(*words: str, output: Any = subprocess.PIPE) -> "subprocess.CompletedProcess[str]":
    """Calls the command of the package that is tested."""
    path = os.pathsep.join([os.path.dirname(os.path.dirname(cosim.__file__)), os.environ.get("PYTHONPATH", "")])
    environment = {**os.environ, "PYTHONPATH": path}
    return subprocess.run([sys.executable, "-m", "cosim", *words], env=environment, stdout=output, stderr=subprocess.PIPE, text=True, check=False)
