"""The command tools/join."""
from typing import Sequence

from .errors import CosimError, ProgramFailed
from .joining import join
from .statuses import Status
from .streams import clean_name, files_of, note, write_output


def main(document: str, words: Sequence[str]) -> int:
    """Writes the joined text of files, if the program accepts it. Returns the status."""
    if list(words) in (["help"], ["--help"], ["-h"]):
        write_output(document.strip())
        return Status.ACCEPTED
    paths = files_of(words)
    if not paths:
        note(document.strip())
        return Status.NO_FORM
    try:
        text = join(paths).text
    except OSError as error:
        note(f"{clean_name(error.filename)}: {error.strerror}")
        return Status.READ_FAULT
    except CosimError as error:
        note(error.message)
        return status_of(error)
    write_output(text)
    return Status.ACCEPTED


def status_of(error: CosimError) -> int:
    """The status of a tool that an error ends: that of the program, if it gave one."""
    if error.status is not None:
        return error.status
    return Status.NO_PROGRAM if isinstance(error, ProgramFailed) else Status.REFUSED
