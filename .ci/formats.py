"""Tries tools/format, for .ci/tools: on worked texts, on the examples, on random texts, and on files and streams of all
kinds."""
import glob
import importlib.machinery
import importlib.util
import os
import random
import re
import shutil
import sys

from common import ROOT, read

# The texts of examples that aren't formatted: of mistakes, a part of a text, what `flatten` writes, what is joined of other
# files, and a system whose units are in other files.
OTHERS = ("examples/mistakes/", "examples/orbit/", "examples/groups/bus.flat.cosim", "examples/satellite/system.cosim")

# How many random texts are tried, by which seed.
RANDOM_TEXTS = 300
SEED = 67

PLAIN = b"cosim 1\nunit A\nstate n:Int64=0 # counts\noutput y:Int64=n\nend\ninstance a:A\nend\nstop 3\n"
FORMATTED = (
    b"cosim 1\nunit A\n  state n : Int64 = 0  # counts\n  output y : Int64 = n\nend\ninstance a : A\nend\nstop 3\n"
)

# Files of units and groups without a system, with what is written for them.
UNITS, FORMATTED_UNITS = (text[: text.index(b"instance")] for text in (PLAIN, FORMATTED))
GROUP = b"group G\n  instance a : A\n  end\nmain\n"
NOT_JUDGED = b"standard input: it is refused at line %d by rule %d, and isn't formatted\n"
PARTS = (
    ("units alone", UNITS, (0, b"", FORMATTED_UNITS)),
    ("units alone, the last line without its end", UNITS[:-1], (0, b"", FORMATTED_UNITS)),
    ("groups and units alone", GROUP.replace(b"  ", b"") + UNITS, (0, b"", GROUP + FORMATTED_UNITS)),
    ("units alone, refused", UNITS.replace(b"=n", b"=m"), (3, NOT_JUDGED % (4, 9), b"")),
    ("no unit", b"cosim 1\n", (3, NOT_JUDGED % (1, 19), b"")),
    ("no stop", PLAIN.replace(b"stop 3\n", b""), (3, NOT_JUDGED % (1, 19), b"")),
)

# A line that is longer than a line may be once it has its spaces.
WIDE = PLAIN.replace(b"=n\n", b"=n" + b"+n" * 31 + b"#" + b"." * 900 + b"\n")


def load_fuzz():
    """The module of tests/hostile/fuzz, which makes random texts."""
    folder = os.path.join(ROOT, "tests", "hostile")
    sys.path.insert(0, folder)
    loader = importlib.machinery.SourceFileLoader("fuzz", os.path.join(folder, "fuzz"))
    module = importlib.util.module_from_spec(importlib.util.spec_from_loader("fuzz", loader))
    loader.exec_module(module)
    return module


def load_formatting():
    """The modules of python/cosim that format, and that split lines."""
    sys.path.insert(0, os.path.join(ROOT, "python"))
    from cosim import formatting, lines

    return formatting.format_text, lines


def worked(trial):
    """Each model of tests/formatted.txt, formatted; and what is formatted stays so."""
    format_text, _ = load_formatting()
    for part in re.split(r"^=== ", read("tests/formatted.txt").decode(), flags=re.M)[1:]:
        name, _, rest = part.partition("\n")
        text, _, wanted = rest.partition("---\n")
        wanted = wanted.rstrip("\n").encode() + b"\n"
        trial.tally.compare(f"formatted, {name}", (0, b"", format_text(text.encode())), (0, b"", wanted))
        trial.tally.compare(f"formatted twice, {name}", (0, b"", format_text(wanted)), (0, b"", wanted))
        by_dos = wanted.replace(b"\n", b"\r\n")
        got = format_text(text.encode().replace(b"\n", b"\r\n"))
        trial.tally.compare(f"formatted, {name}, by DOS", (0, b"", got), (0, b"", by_dos))


def examples(trial):
    """The examples are formatted."""
    paths = [path for path in sorted(glob.glob("examples/**/*.cosim", recursive=True)) if not path.startswith(OTHERS)]
    trial.tally.compare("examples are formatted", trial.ask(["tools/format", "--check", *paths]), (0, b"", b""))


def random_texts(trial):
    """Random texts, which may be refused: each keeps its canonical text, its comments and its blank lines, and is formatted
    once."""
    format_text, lines = load_formatting()
    fuzz = load_fuzz()
    # The examples alone are changed, so that a case more in tests/ doesn't change which texts are tried here.
    texts = fuzz.Texts(trial.program, random.Random(SEED), fuzz.texts_of_examples())
    makers, accepted = (texts.noise, texts.changed, texts.made, texts.generated), 0

    def comments(text):
        return [lines.split_comment(line)[1].rstrip(b" \t") for line in lines.split_lines(text)]

    def blanks(text):
        return [not line.strip() for line in lines.split_lines(text)]

    for number in range(RANDOM_TEXTS):
        text = makers[number % len(makers)]()
        formatted = format_text(text)
        trial.try_that(f"random text {number}, twice: {text!r}", format_text(formatted) == formatted)
        same = comments(formatted) == comments(text) and blanks(formatted) == blanks(text)
        trial.try_that(f"random text {number}, comments: {text!r}", same)
        before, after = (trial.call([trial.program, "print"], each) for each in (text, formatted))
        accepted += before[0] == 0
        trial.try_that(f"random text {number}, another model: {text!r}", before[0] != 0 or before == after)
    trial.try_that(f"{accepted} random texts are accepted", accepted > RANDOM_TEXTS // 5)


def formatted_files(trial):
    """Files are formatted in place, or stay as they are, with a line that says why."""
    form = trial.ask(["tools/format", "--help"])[2]
    trial.tally.compare("format -x", trial.ask(["tools/format", "-x"]), (2, form, b""))
    trial.tally.compare("format, a stream", trial.ask(["tools/format"], PLAIN), (0, b"", FORMATTED))
    trial.tally.compare("format --check, a stream", trial.ask(["tools/format", "--check"], PLAIN), (1, b"", b""))
    trial.tally.compare("format --check, formatted", trial.ask(["tools/format", "--check"], FORMATTED), (0, b"", b""))
    for name, text, wanted in PARTS:
        trial.tally.compare(f"format, {name}", trial.ask(["tools/format"], text), wanted)
    wanted = (4, b"nowhere: No such file or directory\n", b"")
    trial.tally.compare("format, nowhere", trial.ask(["tools/format", "nowhere"]), wanted)
    path = os.path.join(trial.clone, "format.cosim")
    link = os.path.join(trial.clone, "link.cosim")
    os.symlink("format.cosim", link)
    for name in ("format.cosim", "link.cosim"):
        write(path, PLAIN, 0o640)
        wanted = (1, b"", f"{name}: would be formatted\n".encode())
        trial.tally.compare(f"format --check {name}", trial.ask(["tools/format", "--check", name]), wanted)
        trial.try_that(f"format --check {name} changes nothing", read(path) == PLAIN)
        trial.tally.compare(f"format {name}", trial.ask(["tools/format", name]), (0, b"", b""))
        kept = (read(path), os.stat(path).st_mode & 0o777, os.path.islink(link))
        trial.try_that(f"format {name}: {kept}", kept == (FORMATTED, 0o640, True))
    write(path, PLAIN, 0o640)
    wanted = (1, b"", b"format.cosim: would be formatted\n")
    trial.tally.compare("format --check --", trial.ask(["tools/format", "--check", "--", "format.cosim"]), wanted)
    for words, name in ((["--", "-x"], "-x"), (["--", "--check"], "--check")):
        wanted = (4, f"{name}: No such file or directory\n".encode(), b"")
        trial.tally.compare(f"format {words}", trial.ask(["tools/format", *words]), wanted)
    refusals = [
        ("a refused model", PLAIN.replace(b"=n", b"=m"), b"it is refused at line 4 by rule 9, and isn't formatted"),
        ("a wide line", WIDE, b"formatted it would break rule 3 at line 4, so it stays as it is"),
        ("groups", b"group G\nmain\n" + PLAIN, b"it is refused at line 1 by rule 27, and isn't formatted"),
    ]
    for name, text, told in refusals:
        write(path, text, 0o600)
        wanted = (3, b"format.cosim: " + told + b"\n", b"")
        trial.tally.compare(f"format, {name}", trial.ask(["tools/format", "format.cosim"]), wanted)
        trial.try_that(f"format, {name}, changes nothing", read(path) == text)
    read_only(trial, path)
    write(path, PLAIN, 0o644)
    other = os.path.join(trial.clone, "other.cosim")
    os.link(path, other)
    trial.tally.compare("format, a hard link", trial.ask(["tools/format", "format.cosim"]), (0, b"", b""))
    trial.try_that("format keeps a hard link", os.path.samefile(path, other) and read(other) == FORMATTED)
    os.remove(other)
    left = glob.glob(os.path.join(trial.clone, ".cosim-*"))
    trial.try_that(f"format leaves {left}", not left)


def read_only(trial, path):
    """A file that may not be written stays as it is. The root user gives up the right to write any file."""
    write(path, PLAIN, 0o444)
    bounded = ["setpriv", "--bounding-set=-dac_override"] if os.geteuid() == 0 else []
    if bounded and not shutil.which(bounded[0]):
        print(f"skipped: what requires {bounded[0]}, which isn't there")
        return
    got = trial.ask([*bounded, "tools/format", "format.cosim"])
    trial.tally.compare("format, a read-only file", got, (5, b"format.cosim: Permission denied; it stays as it is\n", b""))
    trial.try_that("format, a read-only file, changes nothing", read(path) == PLAIN)
    os.remove(path)


def write(path, text, mode):
    with open(path, "wb") as file:
        file.write(text)
    os.chmod(path, mode)


CHECKS = (worked, examples, random_texts, formatted_files)
