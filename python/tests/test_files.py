"""Files that are written whole or not at all."""
import os
import pathlib
from typing import Any, List

import pytest

from cosim import format_command
from cosim.files import require_writable, write_at_once

UNFORMATTED = "cosim 1\nunit A\noutput y : Int64 = 1\nend\ninstance a : A\nend\nstop 1\n"


def fail(file: Any) -> None:
    file.write(b"a part")
    raise KeyboardInterrupt


def mode_of(path: pathlib.Path) -> int:
    return path.stat().st_mode & 0o7777


def test_a_new_file_has_the_mode_of_new_files(tmp_path: pathlib.Path) -> None:
    path, other = tmp_path / "page.html", tmp_path / "other"
    other.touch()
    write_at_once(path, lambda file: file.write(b"new"))
    assert (path.read_bytes(), mode_of(path)) == (b"new", mode_of(other))


@pytest.mark.parametrize("mode", [0o600, 0o640, 0o644, 0o755])
def test_a_file_keeps_its_mode(tmp_path: pathlib.Path, mode: int) -> None:
    path = tmp_path / "page.html"
    path.write_bytes(b"old")
    path.chmod(mode)
    write_at_once(path, lambda file: file.write(b"new"))
    assert (path.read_bytes(), mode_of(path)) == (b"new", mode)
    assert os.listdir(tmp_path) == ["page.html"]


def test_a_file_that_may_not_be_written_stays(tmp_path: pathlib.Path, monkeypatch: pytest.MonkeyPatch) -> None:
    """The root user may write any file, so the system's answer is given in its place."""
    path = tmp_path / "page.html"
    path.write_bytes(b"old")
    path.chmod(0o444)
    monkeypatch.setattr(os, "access", lambda *_: False)
    calls: List[Any] = [lambda: write_at_once(path, lambda file: file.write(b"new")), lambda: require_writable(path)]
    for call in calls:
        with pytest.raises(PermissionError):
            call()
    assert format_command.replace(str(path), b"new") == 5
    assert (path.read_bytes(), mode_of(path), os.listdir(tmp_path)) == (b"old", 0o444, ["page.html"])


def test_names_of_a_file_stay(tmp_path: pathlib.Path) -> None:
    path, hard, link = tmp_path / "page.html", tmp_path / "hard", tmp_path / "link"
    path.write_bytes(b"old")
    path.chmod(0o600)
    os.link(path, hard)
    link.symlink_to("page.html")
    for name in (path, link, hard):
        write_at_once(name, lambda file: file.write(os.fsencode(name)))
        assert path.read_bytes() == hard.read_bytes() == os.fsencode(name)
    assert path.samefile(hard) and link.is_symlink() and mode_of(path) == 0o600


def test_a_link_to_no_file_stays(tmp_path: pathlib.Path) -> None:
    link = tmp_path / "link"
    link.symlink_to("page.html")
    write_at_once(link, lambda file: file.write(b"new"))
    assert link.is_symlink() and (tmp_path / "page.html").read_bytes() == b"new"


@pytest.mark.parametrize("names", [1, 2])
def test_a_file_stays_where_the_writer_fails(tmp_path: pathlib.Path, names: int) -> None:
    path = tmp_path / "page.html"
    path.write_bytes(b"old")
    if names == 2:
        os.link(path, tmp_path / "hard")
    with pytest.raises(KeyboardInterrupt):
        write_at_once(path, fail)
    assert path.read_bytes() == b"old" and len(os.listdir(tmp_path)) == names


def test_what_is_no_file(tmp_path: pathlib.Path) -> None:
    others: List[Any] = [tmp_path, "/dev/null", "/dev/full"]
    for path in others:
        with pytest.raises(OSError, match="it isn't a file"):
            require_writable(path)
        with pytest.raises(OSError, match="it isn't a file"):
            write_at_once(path, lambda file: file.write(b"new"))
    unwritable: List[Any] = [tmp_path / "nowhere" / "page.html", "/dev/null/page.html"]
    for path in unwritable:
        with pytest.raises(OSError):
            require_writable(path)
    require_writable(tmp_path / "page.html")
    assert os.listdir(tmp_path) == []


def test_the_formatter_keeps_modes(tmp_path: pathlib.Path) -> None:
    path = tmp_path / "model.cosim"
    path.write_text(UNFORMATTED)
    path.chmod(0o600)
    assert format_command.format_file(str(path), False) == 0
    assert path.read_text() != UNFORMATTED and mode_of(path) == 0o600
