"""What the checks of the gate share: the program that they try, how they report failures, and what they read."""
import os
import re
import signal
import sys

ROOT = os.path.join(os.path.dirname(os.path.abspath(__file__)), "..")
BUILT = "crates/cosim_app/out/cosim_app"
BUILT_STEPS = "crates/steps_app/out/steps_app"

# The notes on words that have no form, on streams that fail, and on lack of memory.
USAGE = "cosim: usage\n"
READ_FAULT = "cosim: read fault\n"
WRITE_FAULT = "cosim: write fault\n"
NO_MEMORY = "cosim: no memory\n"

# The row of the table of commands for words without a form.
OTHER_WORDS = "any other words"

# How much of a line is reported, in characters.
LONGEST_TOLD = 200


class Tally:
    """Counts what passed and what failed, and reports each failure."""

    def __init__(self):
        self.passed = self.failed = 0

    def compare(self, name, got, wanted):
        """Compares status, output and notes; the output is passed over where one is None."""
        differences = [
            f"{what}: {tell(g, w)}"
            for what, g, w in zip(("status", "notes", "output"), got, wanted)
            if g is not None and w is not None and g != w
        ]
        if differences:
            self.failed += 1
            print(f"FAILED {name}: {'; '.join(differences)}")
        else:
            self.passed += 1

    def finish(self):
        """Tells how many passed and failed, and ends the process: by status 1 where one failed."""
        print(f"{self.passed} passed, {self.failed} failed")
        sys.exit(1 if self.failed else 0)


def print_page(page: str) -> None:
    """Prints a page. A reader that leaves ends the process, as it ends other tools."""
    signal.signal(signal.SIGPIPE, signal.SIG_DFL)
    print(page, flush=True)


def find_programs(words, document):
    """The programs cosim and cosim-steps: those that are named by the words, or the ones that were built. Goes to the folder of the
    repository. Ends the process where there are more words, or there is no program cosim."""
    if len(words) > 2:
        print_page(document)
        sys.exit(2)
    built = [os.path.join(ROOT, path) for path in (BUILT, BUILT_STEPS)]
    program, steps = map(os.path.abspath, [*words, *built[len(words) :]])
    require_program(program)
    os.chdir(ROOT)
    return program, steps


def require_program(program):
    """Ends the process where there is no such program."""
    if not os.path.isfile(program) or not os.access(program, os.X_OK):
        print(f"there is no program {program}")
        sys.exit(1)


def find_program(words, document):
    """The program cosim, as `find_programs` finds it."""
    return find_programs(words, document)[0]


def choose_checks(words: list[str], document: str, checks: tuple) -> tuple[tuple[str, str], list]:
    """The programs that are tried, as `find_programs` finds them, and those of the checks that the words name, or all. Where the
    word is `--list`, prints the checks, and ends the process."""
    names = {check.__name__: check for check in checks}
    assert len(names) == len(checks), "two checks have one name"
    if "--list" in words:
        print_page("\n".join(f"{name}: {' '.join(check.__doc__.split())}" for name, check in names.items()))
        sys.exit(0)
    others = [word for word in words if word not in names]
    unknown = [word for word in others if not os.path.exists(word)]
    if unknown:
        print(f"{unknown[0]!r} is neither a program nor the name of a check, which --list prints")
        sys.exit(2)
    return find_programs(others, document), [check for name, check in names.items() if name in words] or list(checks)


def tell(got, wanted):
    """What came in place of what; of bytes the first line that differs."""
    if isinstance(wanted, int):
        return f"{got} in place of {wanted}"
    ours, theirs = got.splitlines(True) + [b"nothing"], wanted.splitlines(True) + [b"nothing"]
    for number, (g, w) in enumerate(zip(ours, theirs), 1):
        if g != w:
            g, w = (line.decode(errors="replace")[:LONGEST_TOLD] for line in (g, w))
            return f"line {number} is {g!r} in place of {w!r}"
    return "more lines or fewer"


def read(path):
    with open(path, "rb") as file:
        return file.read()


def read_mistakes():
    """The table of examples/mistakes: of each text its name, what `check` answers, and its cure."""
    table = read("examples/mistakes/README.md").decode()
    return re.findall(r"^\| \[([\w-]+)\]\(\1\.cosim\) \|.*\| ([^|]+) \| ?([^|]*?) ?\|$", table, re.M)


def cured(text, cure):
    """A text with its cure: each part names a line and what it becomes, what comes after it, or that it is removed."""
    lines = text.decode().splitlines(True)
    for part in reversed(cure.split("; ")):
        place, number = re.match(r"(line|after line|without line) (\d+)", part).groups()
        new = [line + "\n" for line in re.findall(r"`([^`]*)`", part)]
        number = int(number)
        first = number if place == "after line" else number - 1
        lines[first:number] = new
    return "".join(lines).encode()


def read_commands():
    """The table of commands in docs/COMMANDS.md: of each row the command, its options as they are written, and its statuses. The last row
    is that of other words."""
    table = re.search(r"^\| words \|.*?\n\n", read("docs/COMMANDS.md").decode(), re.M | re.S)[0]
    for row in table.rstrip().splitlines()[2:]:
        words, *_, statuses = re.split(r" (?<!\\)\| ", row.strip("| "))
        command, _, options = words.strip("`").partition(" ") if words != OTHER_WORDS else (words, "", "")
        yield command, options.replace("\\|", "|"), [int(status) for status in statuses.split(", ")]
