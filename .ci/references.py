"""What the pages refer to, for .ci/prose.py: links, names of files and of the code, and commands.

- The file of each relative link exists, and its anchor is a heading by GitHub's rule. No link leads to a line's number.
- A name of a file in a code span exists. Where the section names crates, a file of code is in one of them.
- Pages about the code name what is there: a word of a code span with `_` or with capitals inside is a word of a file of a crate.
- Each command of a block `sh` begins with a script or a tool that is there.
"""
from __future__ import annotations

import functools
import glob
import os
import re
import shlex
import shutil
from collections.abc import Iterator
from typing import NamedTuple

# The folders whose files a page names by their paths.
FOLDERS = ("crates", "docs", "tools", "tests", "python", "bench", "bin", "editors", "examples", ".ci")

# Pages whose code spans name functions, types and definitions of the crates.
PAGES_OF_CODE = ("docs/ARCHITECTURE.md", "docs/PROOF-NOTES.md", "docs/TESTING.md", "docs/THEOREMS.md")

# Words of these spans that no crate has, and why.
NOT_OF_CRATES = {
    "Comparable": "a rule of Rattle, which no crate may implement",
    "Lts": "a part of what the prover writes of a module",
    "NAME_in": "a form of names: NAME is that of an option",
    "Proof": "a part of what the prover writes of a module",
    "RT_JOBS": "a variable of the environment, which rt reads",
    "Sync": "a trait of Rust, which no crate names",
    "also_owns": "a rule of Rattle's prover",
}

# Files that a page names and that the repository doesn't have, and why.
NOT_KEPT = {
    "crates/cosim_app/out": "a build makes it",
    "crates/cosim_app/out/cosim_app": "a build makes it",
    "crates/steps_app/out": "a build makes it",
    "crates/steps_app/out/steps_app": "a build makes it",
    "bin/steps-sources.sha256": "tools/renew makes it",
}

# Tools that commands begin with and that a machine may lack, and why that is right.
NOT_EVERYWHERE = {
    "rt": "the kit's command, which proves and builds; the program is tested without it",
}

# What a line of a shell's script may begin with, other than a script or a tool.
SHELL_WORDS = set("for do done if then else fi while case esac cd export set read echo printf source test [ { } ( ) : !".split())


class Line(NamedTuple):
    """A line of a page. The block is the text of the fence around it, such as "sh if sed", "-" for a fence without a word, or nothing."""

    number: int
    text: str
    block: str


class Fault(NamedTuple):
    """What is wrong at a line of a page, and what to write instead."""

    page: str
    number: int
    wrong: str


def read_lines(page: str) -> list[Line]:
    """The lines of a page. Its fences belong to their blocks."""
    lines, block = [], ""
    with open(page, encoding="utf-8") as file:
        for number, text in enumerate(file.read().split("\n"), 1):
            is_fence = text.lstrip().startswith("```")
            if is_fence and not block:
                block, is_fence = text.strip().lstrip("`") or "-", False
            lines.append(Line(number, text, block))
            if is_fence:
                block = ""
    return lines


def anchor(heading: str) -> str:
    """The anchor that GitHub makes of a heading: its letters, digits, `_` and `-` in small letters, with a `-` for each space."""
    text = re.sub(r"\[([^\]]*)\]\([^)]*\)", r"\1", heading).lower()
    return re.sub(r"[^\w\- ]", "", text).strip().replace(" ", "-")


@functools.lru_cache(maxsize=None)
def anchors(page: str) -> frozenset[str]:
    """The anchors of a page. A heading that repeats gets `-1`, `-2` and so on."""
    counts: dict[str, int] = {}
    found = set()
    for line in read_lines(page):
        heading = re.match(r"#{1,6} +(.*)", line.text)
        if heading and not line.block:
            name = anchor(heading[1])
            counts[name] = counts.get(name, -1) + 1
            found.add(f"{name}-{counts[name]}" if counts[name] else name)
    return frozenset(found)


def find_links(page: str, lines: list[Line]) -> Iterator[Fault]:
    """Links to files, anchors and lines that aren't there."""
    for line in lines:
        if line.block:
            continue
        for target in re.findall(r"\]\(([^)\s]+)\)", re.sub(r"(`+).+?\1", "code", line.text)):
            if re.match(r"[a-z]+:", target):
                continue
            path, _, place = target.partition("#")
            file = os.path.normpath(os.path.join(os.path.dirname(page), path)) if path else page
            if not os.path.exists(file):
                yield Fault(page, line.number, f"the link {target} leads to no file: name one that exists")
            elif re.fullmatch(r"L\d+(-L?\d+)?", place):
                yield Fault(page, line.number, f"the link {target} leads to a line's number, which changes: link to a heading or to the file")
            elif place and place not in anchors(file):
                yield Fault(page, line.number, f"{file} has no heading with the anchor #{place}: link to one that it has")


@functools.lru_cache(maxsize=None)
def files_of_crates() -> dict[str, frozenset[str]]:
    """The paths of the files of each crate, in its folder."""
    found = {}
    for crate in os.listdir("crates") if os.path.isdir("crates") else ():
        folder = os.path.join("crates", crate)
        paths = glob.glob(f"{folder}/**", recursive=True)
        found[crate] = frozenset(os.path.relpath(path, folder) for path in paths)
    return found


@functools.lru_cache(maxsize=None)
def words_of_crates() -> frozenset[str]:
    """All words of the files of code, and the names of these files and of the crates."""
    words = set(files_of_crates())
    for crate, paths in files_of_crates().items():
        for path in paths:
            name, end = os.path.splitext(path)
            words.add(os.path.basename(name))
            if end in (".rt", ".antt"):
                with open(os.path.join("crates", crate, path), encoding="utf-8") as file:
                    words.update(re.findall(r"[^\W\d]\w*", file.read()))
    return frozenset(words)


def as_pattern(path: str) -> str:
    """The pattern of paths that a name means: a part in capitals, such as CRATE, may be any name."""
    return re.sub(r"(?<![\w*])[A-Z]{2,}(?![\w*]|\.md\b)", "*", path)


def is_there(path: str) -> bool:
    """Whether a path of the repository exists, or one by its pattern."""
    return path in NOT_KEPT or any(glob.glob(one) for one in expand(as_pattern(path)))


def expand(path: str) -> list[str]:
    """The paths that a name with braces means, such as `src/{a,b}.rt`."""
    braces = re.search(r"\{([^{}]*)\}", path)
    if not braces:
        return [path]
    return [one for choice in braces[1].split(",") for one in expand(path[: braces.start()] + choice + path[braces.end() :])]


def is_in_crate(path: str, crate: str) -> bool:
    """Whether a crate has a file of this name or path, in whichever of its folders."""
    pattern = re.compile("(.*/)?" + re.escape(as_pattern(path)).replace(r"\*", "[^/]*"))
    return any(pattern.fullmatch(name) for name in files_of_crates().get(crate, ()))


def spans(text: str) -> list[str]:
    """The code spans of a line."""
    return [span for _, span in re.findall(r"(`+)(.+?)\1", text)]


def find_names(page: str, lines: list[Line]) -> Iterator[Fault]:
    """Names of files, and words of the code, that aren't there."""
    crates: set[str] = set()
    for line in lines:
        if line.block:
            continue
        if line.text.startswith("#"):
            crates = set()
        crates.update(word for word in re.findall(r"\w+", line.text) if word in files_of_crates())
        for span in spans(line.text):
            for token in span.split():
                yield from (Fault(page, line.number, wrong) for wrong in wrong_path(token.rstrip(",;"), crates))
            if page in PAGES_OF_CODE:
                yield from (Fault(page, line.number, wrong) for wrong in wrong_words(span))
        outside = re.sub(r"(`+).+?\1|\]\([^)]*\)", " ", line.text)
        for name in re.findall(r"[\w/-]+\.(?:rt|antt)\b", outside):
            yield from (Fault(page, line.number, wrong) for wrong in wrong_path(name, crates))
        for name in re.findall(r"(?<![\w./-])[\w-]+\.md\b", outside):
            if not any(os.path.exists(os.path.join(folder, name)) for folder in (".", "docs", os.path.dirname(page))):
                yield Fault(page, line.number, f"there is no page {name}: name one that exists")


def wrong_path(token: str, crates: set[str]) -> Iterator[str]:
    """What is wrong with a word that has the form of a path, in a section that names these crates."""
    if not re.fullmatch(r"[\w./*{},-]+", token):
        return
    first, _, rest = token.partition("/")
    if first in FOLDERS and rest:
        if not is_there(token):
            yield f"there is no file {token}: name one that exists"
    elif first in files_of_crates() and rest:
        if not is_there(os.path.join("crates", token)):
            yield f"there is no file crates/{token}: name one that exists"
    elif re.fullmatch(r"(specs|src|proofs)/[\w./*-]+|[\w/*-]+\.(rt|antt)", token):
        of = sorted(crates) or sorted(files_of_crates())
        if token not in NOT_KEPT and not any(is_in_crate(token, crate) for crate in of):
            where = ", ".join(of) if crates else "crates"
            yield f"there is no file {token} in {where}: name one that exists, and its crate"


def wrong_words(span: str) -> Iterator[str]:
    """The words of a code span that have the form of a name in the code, and that no crate has."""
    for token in span.split():
        if re.search(r"[/.-]\w", re.sub(r"\(.*", "", token)) and not re.fullmatch(r"\w+(\.\w+)+\(.*", token):
            continue
        for word in re.findall(r"[^\W\d]\w*", token):
            has_form = re.fullmatch(r"[A-Za-z0-9]+(_[A-Za-z0-9]+)+", word) or re.match(r"[A-Z]\w*[a-z]\w*$", word)
            if has_form and word not in NOT_OF_CRATES and word not in words_of_crates():
                yield f"no file of a crate has the word {word}: name what the code has"


def commands(lines: list[Line]) -> Iterator[tuple[int, str, str]]:
    """The commands of the blocks `sh`, one or several lines each: the first line's number, the text, and the fence's tool or nothing."""
    ends, number, text = "", 0, ""
    for line in lines:
        if not re.match(r"sh\b", line.block) or line.text.startswith("```"):
            ends, text = "", ""
        elif ends:
            ends = "" if line.text.strip() == ends else ends
        else:
            number, text = (number, f"{text}\n{line.text}") if text else (line.number, line.text)
            if is_whole(text):
                yield number, text, line.block.partition(" if ")[2]
                here = re.search(r"<<-?\s*['\"]?(\w+)", text)
                ends, text = here[1] if here else "", ""


def is_whole(command: str) -> bool:
    """Whether a command ends with this text: its quotes are closed, and it isn't continued on the next line."""
    try:
        shlex.split(command, comments=True)
    except ValueError:
        return False
    return not re.search(r"(\\|\||&&)\s*$", command)


def first_word(command: str) -> str:
    """The word that a command begins with, or nothing. Of a variable that gets the output of a command it is that one's."""
    inner = re.sub(r"^\w+=\"?\$\(+", "", command.strip())
    found = re.match(r"(?:\w+=(?:'[^']*'|\"[^\"]*\"|\S*)\s*)*([^\s;]*)", inner)
    return found[1] if found and not found[1].startswith("#") else ""


def find_commands(page: str, lines: list[Line]) -> Iterator[Fault]:
    """Commands that begin with no script and no tool."""
    functions: set[str] = set()
    for number, command, tool in commands(lines):
        first = first_word(command)
        if first.endswith("()"):
            functions.add(first[:-2])
        elif "/" in first:
            if not os.access(first, os.X_OK):
                yield Fault(page, number, f"{first} is no script of the repository: begin with one that exists")
        elif first and first not in SHELL_WORDS | functions | {tool, *NOT_EVERYWHERE} and not shutil.which(first):
            yield Fault(page, number, f"there is no tool {first}: begin with a script or a tool, or name the tool in the fence: sh if {first}")
