"""Files that are written whole or not at all."""
import errno
import io
import os
import secrets
from typing import Any, BinaryIO, Callable

from .streams import Path


def require_writable(path: Path) -> None:
    """OSError where `write_at_once` couldn't write this file. It changes nothing."""
    real = os.path.realpath(os.fsdecode(path))
    if is_there(real) and is_written_in_place(real):
        return
    new = open_beside(real)
    new.close()
    os.remove(new.name)


def write_at_once(path: Path, write: Callable[[Any], object]) -> None:
    """Writes a file by a function that gets it open for bytes, so that no reader sees a part of it.

    A file that is there keeps its mode, and a symbolic link stays one. A file with several names, or of another owner, is
    written in place, so that it keeps both; a reader may see a part of that one. OSError where the file can't be written, or may
    not be: it stays as it is.
    """
    real = os.path.realpath(os.fsdecode(path))
    is_old = is_there(real)
    if is_old and is_written_in_place(real):
        made = io.BytesIO()
        write(made)
        with open(real, "wb") as file:
            file.write(made.getbuffer())
        return
    new = open_beside(real)
    try:
        with new:
            write(new)
        if is_old:
            os.chmod(new.name, os.stat(real).st_mode & 0o7777)
        os.replace(new.name, real)
    except BaseException:
        os.remove(new.name)
        raise


def is_there(real: str) -> bool:
    """Whether there is a file that may be written. OSError where it may not be, or is no file."""
    if not os.path.exists(real):
        return False
    if not os.path.isfile(real):
        raise OSError(errno.EINVAL, "it isn't a file")
    if not os.access(real, os.W_OK):
        raise PermissionError(errno.EACCES, os.strerror(errno.EACCES))
    return True


def is_written_in_place(real: str) -> bool:
    """Whether a new file in its place would be without another name of the file, or without its owner."""
    status = os.stat(real)
    return status.st_nlink > 1 or (status.st_uid, status.st_gid) != (os.geteuid(), os.getegid())


def open_beside(real: str) -> BinaryIO:
    """A new file in the folder of another one, open for bytes. The system gives it the mode that new files have."""
    name = os.path.join(os.path.dirname(real), f".cosim-{secrets.token_hex(8)}")
    return open(name, "x+b")
