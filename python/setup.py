"""Builds the package with the documents that it reads: what an error says of a rule comes from them.

They lie in the repository around this folder, and are copied into the folder `data` of the package. What else there is to say
is in pyproject.toml.
"""
import os
import shutil

from setuptools import setup
from setuptools.command.build_py import build_py
from setuptools.command.sdist import sdist

HERE = os.path.dirname(os.path.abspath(__file__))
REPOSITORY = os.path.dirname(HERE)

DOCUMENTS = ("docs/RULES.md", "docs/COMMANDS.md", "docs/LANGUAGE.md", "editors/keywords.txt", "tools/commands.bash")


def copy_documents(folder: str) -> None:
    """Copies the documents to the package in a folder. An archive of sources has them there already."""
    if not os.path.exists(os.path.join(REPOSITORY, DOCUMENTS[0])):
        return
    for document in DOCUMENTS:
        copy = os.path.join(folder, "cosim", "data", document)
        os.makedirs(os.path.dirname(copy), exist_ok=True)
        shutil.copy(os.path.join(REPOSITORY, document), copy)


class BuildWithDocuments(build_py):
    def run(self) -> None:
        super().run()
        if not getattr(self, "editable_mode", False):
            copy_documents(self.build_lib)


class SourcesWithDocuments(sdist):
    def make_release_tree(self, base_dir: str, files: "list[str]") -> None:
        super().make_release_tree(base_dir, files)
        copy_documents(base_dir)


setup(cmdclass={"build_py": BuildWithDocuments, "sdist": SourcesWithDocuments})
