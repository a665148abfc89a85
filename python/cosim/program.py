"""Asks the program about a text."""
import errno
import functools
import os
import re
import select
import shutil
import signal
import subprocess
import tempfile
from typing import BinaryIO, Iterable, Iterator, NamedTuple, Optional, Sequence

from .repository import REPOSITORY
from .statuses import Status
from .streams import note, write_all

REFUSAL = re.compile(rb"cosim: line (\d+): rule (\d+)\n")

# How the whole output of a command begins that ends with status 0. Others may begin by anything.
OUTPUTS = {
    **dict.fromkeys(("print", "flatten", "upgrade", "stimulus"), re.compile(rb"cosim ")),
    "check": re.compile(rb"accepted\n"),
    "save": re.compile(rb"saved "),
    "verify": re.compile(rb"yes|no"),
    "resume": re.compile(rb"\d"),
}

# The programs, each with the variable of the environment that names it.
COSIM = "cosim"
STEPS = "cosim-steps"
VARIABLES = {COSIM: "COSIM", STEPS: "COSIM_STEPS"}

# How many bytes of an output are read at once.
PIECE = 1 << 16

# How long the program may write before its output is read, in milliseconds, where nobody waits for single rows; and where it writes
# so fast that it would fill the pipe, and wait.
PAUSE = 5
SHORT_PAUSE = 1


def program(name: str = COSIM) -> str:
    """The program of a name that is asked: the one that its variable of the environment names, or its script in the repository,
    which builds it where it isn't there. Outside of a repository it is the program of this name of the PATH."""
    named = os.environ.get(VARIABLES[name])
    if named:
        return named
    return os.path.join(REPOSITORY, name) if REPOSITORY else shutil.which(name) or name


def is_script(named: str) -> bool:
    """Whether a program is a script of a repository, ./cosim or ./cosim-steps, which may build a program."""
    folder = os.path.dirname(os.path.realpath(named))
    return os.path.basename(named) in VARIABLES and os.path.exists(os.path.join(folder, "tools", "sources.bash"))


@functools.lru_cache(maxsize=None)
def started_by(script: str) -> str:
    """The program that a script of a repository starts; of another program itself.

    The script computes checksums at each start, which takes longer than a short run. It also builds a program that isn't
    there, which takes an hour: a call from here is an error instead, OSError with the reason.
    """
    if not is_script(script):
        return script
    folder, name = os.path.split(os.path.realpath(script))
    find = 'here=$1; source "$here/tools/sources.bash"; find_program "$2"'
    words = ["bash", "-pc", find, "bash", folder, name]
    found = subprocess.run(words, stdin=subprocess.DEVNULL, stdout=subprocess.PIPE, stderr=subprocess.DEVNULL, check=False)
    printed = os.fsdecode(found.stdout).rstrip("\n")
    if found.returncode:
        raise OSError(errno.ENOENT, f"{printed}; the script builds it")
    return printed


class Called(NamedTuple):
    """What a call of the program wrote, and its status; where a signal ended it that of a shell."""

    status: int
    output: bytes
    notes: bytes

    @property
    def note(self) -> str:
        """All notes, without the last line feed."""
        return self.notes.decode(errors="backslashreplace").rstrip("\n")


def nameless_file(content: bytes = b"") -> BinaryIO:
    """A new file without a name, open at its begin, that has a content. It is in memory where the system has such files, since one
    on a disk takes longer. OSError where there can be none."""
    try:
        file: BinaryIO = open(os.memfd_create("cosim"), "w+b", buffering=0)
    except (AttributeError, OSError):
        file = tempfile.TemporaryFile()  # type: ignore[assignment]
    if content:
        try:
            write_all(file.fileno(), content)
            file.seek(0)
        except BaseException:
            file.close()
            raise
    return file


class Call:
    """A call of the program whose output is read as it comes. OSError where the program can't be started."""

    def __init__(self, words: Sequence[str], text: bytes, name: str = COSIM) -> None:
        self.notes = nameless_file()
        with nameless_file(text) as given:
            call = [started_by(program(name)), *words]
            self.process = subprocess.Popen(call, stdin=given, stdout=subprocess.PIPE, stderr=self.notes)

    def pieces(self, pause: int = 0) -> Iterator[bytes]:
        """The output in pieces that end by a line feed, but for the last one where the output is cut off.

        The program writes each row by itself. So a reader with a pause, in milliseconds, lets it write on before a read: until the
        output ends, or else for that time. Pauses are short once the output comes so fast that it would fill the pipe in a long one.
        """
        assert self.process.stdout
        output = self.process.stdout.fileno()
        end = select.poll()
        end.register(output, 0)  # The end of the output alone, and no row.
        left = b""
        while True:
            if pause:
                end.poll(pause)
            piece = os.read(output, PIECE)
            if len(piece) > PIECE // 2:
                pause = min(pause, SHORT_PAUSE)
            if not piece:
                break
            lines, feed, rest = piece.rpartition(b"\n")
            if feed:
                yield left + lines + feed
                left = rest
            else:
                left += piece
        if left:
            yield left

    def stop(self) -> None:
        """Ends the program at once, if it runs."""
        if self.process.poll() is None:
            self.process.send_signal(signal.SIGTERM)

    def finish(self, output: bytes = b"") -> Called:
        """Waits for the program to end; what was read is its output."""
        if self.process.stdout:
            self.process.stdout.close()
        self.process.wait()
        self.notes.seek(0)
        notes = self.notes.read()
        self.notes.close()
        return Called(status_of(self.process.returncode), output, notes)


def call(words: Sequence[str], text: bytes, name: str = COSIM) -> Called:
    """Calls the program of a name with these words and a text as its input. OSError where it can't be started."""
    begun = Call(words, text, name)
    try:
        return begun.finish(b"".join(begun.pieces(PAUSE)))
    except BaseException:
        begun.stop()
        begun.finish()
        raise


def is_foreign(command: str, called: Called) -> bool:
    """Whether the program that gave an answer isn't cosim. It is asked about an empty text where the answer isn't one of cosim."""
    if called.status == Status.ACCEPTED:
        is_usual = command not in OUTPUTS or bool(OUTPUTS[command].match(called.output))
    else:
        is_usual = called.notes.startswith(b"cosim: ") or called.status == Status.NO_PROGRAM or called.status > 128
    if is_usual:
        return False
    asked = call(["check"], b"")
    return asked.status != Status.REFUSED or read_refusal(asked.notes) is None


class Answer(NamedTuple):
    """What the program answered; of a text that is refused the line and the rule, else None for both."""

    status: int
    output: bytes
    line: Optional[int] = None
    rule: Optional[int] = None


def ask(command: str, text: bytes) -> Answer:
    """Calls the program with a text as its input. Its notes go to standard error, but for a refusal's, which is part of the
    answer."""
    try:
        if is_script(program()):
            return ask_script(command, text)
        called = call([command], text)
        if is_foreign(command, called):
            return not_cosim()
    except OSError as error:
        return no_program(error)
    return answered(called.status, called.output, read_notes(called.notes.splitlines(True)))


def ask_script(command: str, text: bytes) -> Answer:
    """As `ask`, of a script: notes go to standard error as they come, since a build has many. OSError where it can't start."""
    with tempfile.TemporaryFile() as given, tempfile.TemporaryFile() as output:
        given.write(text)
        given.seek(0)
        with subprocess.Popen([program(), command], stdin=given, stdout=output, stderr=subprocess.PIPE) as asked:
            assert asked.stderr
            refusal = read_notes(asked.stderr)
        output.seek(0)
        return answered(asked.returncode, output.read(), refusal)


def ask_first_byte(command: str, text: bytes) -> Answer:
    """As `ask`, with the first byte of the output alone.

    The program ends by a write fault where there is more. That is no fault of the text, so the status is that of an accepted one.
    """
    try:
        with tempfile.TemporaryFile() as given, tempfile.TemporaryFile() as notes:
            given.write(text)
            given.seek(0)
            with subprocess.Popen([program(), command], stdin=given, stdout=subprocess.PIPE, stderr=notes) as asked:
                assert asked.stdout
                first = asked.stdout.read(1)
                asked.stdout.close()
            notes.seek(0)
            status = Status.ACCEPTED if first else status_of(asked.returncode)
            called = Called(status, first, b"" if first else notes.read())
        if is_foreign(command, called):
            return not_cosim()
        return answered(called.status, first, read_notes(called.notes.splitlines(True)))
    except OSError as error:
        return no_program(error)


def no_program(error: OSError) -> Answer:
    note(f"{program()}: {error.strerror}")
    return Answer(Status.NO_PROGRAM, b"")


def not_cosim() -> Answer:
    note(f"{program()}: it isn't cosim")
    return Answer(Status.NO_PROGRAM, b"")


def read_refusal(notes: bytes) -> Optional["re.Match[bytes]"]:
    """The line and the rule of notes that are a refusal, if they are one."""
    return REFUSAL.fullmatch(notes)


def read_notes(notes: Iterable[bytes]) -> Optional["re.Match[bytes]"]:
    """The refusal among the notes, if there is one. All others go to standard error as they come."""
    refusal = None
    for line in notes:
        found = read_refusal(line)
        refusal = found or refusal
        if not found:
            note(line.decode(errors="backslashreplace").rstrip("\n"))
    return refusal


def status_of(code: int) -> int:
    """The status of a process; where a signal ended it that of a shell."""
    return code if code >= 0 else 128 - code


def answered(status: int, output: bytes, refusal: Optional["re.Match[bytes]"]) -> Answer:
    """An answer, with the line and the rule of a refusal."""
    if not refusal:
        return Answer(status_of(status), output)
    return Answer(status_of(status), output, int(refusal[1]), int(refusal[2]))
