"""Measures of traces. Processes find them by this module."""
import os
import signal
from decimal import Decimal
from fractions import Fraction
from typing import Any, Dict, Optional, Union

import cosim

Value = Optional[Union[bool, int, Decimal]]


def last(trace: cosim.Trace) -> Value:
    return trace["cooler.degrees_now"][-1]


def several(trace: cosim.Trace) -> Dict[str, Union[bool, int, Decimal, Fraction, str, None]]:
    return {"rows": len(trace), "cold": trace["cooler.cold"][-1], "third": Fraction(1, 3), "none": None}


def divides(trace: cosim.Trace) -> int:
    """Fails where the last value is 0.25."""
    return 1 // int(trace["cooler.degrees_now"][-1] != Decimal("0.25"))


def of_numpy(trace: cosim.Trace) -> Dict[str, Any]:
    """Numbers and truth values as numpy and pandas have them."""
    import numpy

    return {
        "whole": numpy.int64(len(trace)),
        "byte": numpy.uint8(200),
        "truth": numpy.bool_(True),
        "exact": numpy.float64(0.1),
        "half": numpy.float32(0.5),
        "empty": numpy.array(7),
        "text": numpy.str_("x"),
    }


def array(_: cosim.Trace) -> Any:
    import numpy

    return numpy.array([1, 2])


def kills(trace: cosim.Trace) -> Value:
    """Ends its process where the last value is 0.25."""
    if trace["cooler.degrees_now"][-1] == Decimal("0.25"):
        os.kill(os.getpid(), signal.SIGKILL)
    return last(trace)


def kills_once(path: str, trace: cosim.Trace) -> Value:
    """Ends its process where there is a file, which it removes."""
    if os.path.exists(path):
        os.remove(path)
        os.kill(os.getpid(), signal.SIGKILL)
    return last(trace)


def table(trace: cosim.Trace) -> str:
    """All bytes of a trace."""
    return trace.to_csv().decode()


def named(name: str, trace: cosim.Trace) -> Dict[str, Union[bool, int, Decimal, Fraction, str, None]]:
    """A measure of a name."""
    return {name: len(trace)}
