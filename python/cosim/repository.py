"""The files of the repository that the tools read: documents, and the words of the language."""
import functools
import os
from typing import Dict, FrozenSet, List, Tuple

PACKAGE = os.path.dirname(os.path.realpath(__file__))

# The documents that an installed package has beside its modules; in the repository there is no such folder.
INSTALLED = os.path.join(PACKAGE, "data")

# The folder of the repository, or nothing where the package is installed elsewhere.
REPOSITORY = "" if os.path.isdir(INSTALLED) else os.path.dirname(os.path.dirname(PACKAGE))

# The folder that has the documents.
ROOT = REPOSITORY or INSTALLED

# The groups of editors/keywords.txt whose words may be names of a model.
GROUPS_OF_NAMES = ("type", "nest")

# The most bytes that the program reads: of a text, of a saved text, and of an input of `verify`.
LONGEST_TEXT = 1_048_576
LONGEST_SAVED = 2 * LONGEST_TEXT
LONGEST_VERIFIED = 64 * LONGEST_TEXT


@functools.lru_cache(maxsize=None)
def read_document(path: str) -> str:
    with open(os.path.join(ROOT, path), encoding="utf-8") as file:
        return file.read()


@functools.lru_cache(maxsize=None)
def words_by_group() -> Dict[str, Tuple[str, ...]]:
    """The words of the language, by the groups of editors/keywords.txt."""
    lines: List[List[str]] = [line.split() for line in read_document("editors/keywords.txt").splitlines() if line[:1] != "#"]
    groups: Dict[str, Tuple[str, ...]] = {}
    for name, _, _, *words in lines:
        groups[name] = groups.get(name, ()) + tuple(words)
    return groups


@functools.lru_cache(maxsize=None)
def reserved_words() -> FrozenSet[str]:
    return frozenset(word for name, words in words_by_group().items() if name not in GROUPS_OF_NAMES for word in words)


@functools.lru_cache(maxsize=None)
def type_words() -> FrozenSet[str]:
    return frozenset(words_by_group()["type"])
