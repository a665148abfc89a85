"""What the trials of hostile use share: their options, calls of the program, and what an answer's status, notes and output have to
be for it to have a cause."""
import os
import random
import re
import subprocess
import sys
from typing import NamedTuple

sys.dont_write_bytecode = True
HERE = os.path.dirname(os.path.abspath(__file__))
sys.path.insert(0, os.path.join(HERE, "..", "..", ".ci"))
import common
from common import find_program

READ_FAULT, WRITE_FAULT = common.READ_FAULT.encode(), common.WRITE_FAULT.encode()
NO_MEMORY, USAGE = common.NO_MEMORY.encode(), common.USAGE.encode()

# Behind so many seconds there is no answer.
SECONDS = 60

# The note of each status that a text can lead to, where memory and streams serve. Instances and outputs have names, and a step
# may be refused or fault at any point.
POINT = rb"(?P<time>[\d.]+),(?P<index>\d+)"
NOTES = {
    0: rb"",
    3: rb"cosim: line (?P<line>[1-9]\d*): rule (?P<rule>[1-9]\d*)\n",
    6: rb"cosim: zero budget at " + POINT + rb"\n",
    7: rb"cosim: row budget at " + POINT + rb"\n",
    8: rb"cosim: fault [1-5] of \w+ (?:output \w+|max|step) at " + POINT + rb"\n",
    9: rb"cosim: \w+ refused \d+, accepted \d+, at " + POINT + rb"\n",
}

# The line of counts of a run or a replay, which workers make another one at each run.
COUNTS = rb"cosim: (?:rows|events) \d+ (?:refused \d+ )?found \d+ own \d+ tickets \d+ posted \d+ back \d+ lapsed \d+(?: appended \d+)?\n"

LAST_RULE = 37


class Answer(NamedTuple):
    """The status, None where there was no answer in time; the output; and the notes."""

    status: object
    output: bytes
    notes: bytes

    def without_counts(self):
        return self._replace(notes=re.sub(COUNTS, b"", self.notes))


def options_of(words, document, **defaults):
    """The options `--NAME N` among the words, by their names, over their defaults; and the program, which the other word names."""
    options, others = dict(defaults), []
    words = iter(words)
    for word in words:
        name = word.removeprefix("--")
        if word.startswith("--") and name in options:
            options[name] = int(next(words, "0"))
        else:
            others.append(word)
    return options, find_program(others, document)


def seeded(options):
    """Random numbers by the seed of the options, or by one that is drawn and printed."""
    seed = options["seed"] if options["seed"] is not None else random.randrange(10**9)
    print(f"seed {seed}", flush=True)
    return random.Random(seed)


def ask(program, words, text=b"", seconds=SECONDS, **how):
    """The answer to a call."""
    try:
        ran = subprocess.run([program, *words], input=text, capture_output=True, timeout=seconds, **how)
    except subprocess.TimeoutExpired as late:
        return Answer(None, late.stdout or b"", late.stderr or b"")
    return Answer(ran.returncode, ran.stdout, ran.stderr)


def complaint(word, text, answer):
    """What is wrong with the answer of a command to a text, where memory and streams served; None where nothing is."""
    status, output, notes = answer.without_counts()
    if status is None:
        return "no answer in time"
    if status not in ({0, 3, 6, 7, 8, 9} if word in ("run", "replay") else {0, 3}):
        return f"status {status}, notes {notes!r}"
    told = re.fullmatch(NOTES[status], notes)
    if not told:
        return f"status {status} with the notes {notes!r}"
    if status == 3:
        return refusal_complaint(text, output, int(told["line"]), int(told["rule"]))
    if word == "check":
        return None if output == b"accepted\n" else f"accepted by {output!r}"
    if word in ("print", "upgrade"):
        return None if re.fullmatch(rb"cosim [12]\n(?:[^\n]+\n)+", output) else "printed with a blank line, or an open one"
    return trace_complaint(output, status, told)


def refusal_complaint(text, output, line, rule):
    if output:
        return f"{output[:60]!r} is printed with a refusal"
    if line > text.count(b"\n") + 1 or rule > LAST_RULE:
        return f"there is no line {line}, or no rule {rule}"
    return None


def trace_complaint(output, status, told):
    """What is wrong with a trace whose end a note reports. It has a header, rows of as many fields, and ends at the note's point. Where
    an output faults its point has no row."""
    header, *rows = output.split(b"\n")[:-1]
    if not output.endswith(b"\n") or not header.startswith(b"time,index"):
        return "the trace has no header, or an open row"
    if any(row.count(b",") != header.count(b",") for row in rows):
        return "a row has more fields than the header, or fewer"
    last = rows[-1] if rows else header
    if status in (6, 7, 9) and last.split(b",")[:2] != [told["time"], told["index"]]:
        return f"the note names {told[0]!r}, and the last row is {last[:60]!r}"
    return None
