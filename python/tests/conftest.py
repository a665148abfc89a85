"""What the tests of the package share. They ask the program that the variable COSIM of the environment names."""
import os
import pathlib
from typing import Iterator

import pytest

import cosim

pytest.register_assert_rewrite("browser")
from browser import Browser

REPOSITORY = pathlib.Path(__file__).resolve().parents[2]


def pytest_configure() -> None:
    """Fails at once where no program is named: tests must not build one."""
    if not os.access(os.environ.get("COSIM", ""), os.X_OK):
        pytest.exit("COSIM has to name the program", 2)


@pytest.fixture
def examples() -> pathlib.Path:
    return REPOSITORY / "examples"


@pytest.fixture
def counter(examples: pathlib.Path) -> cosim.Model:
    """A component `a` that counts from 0 by one a second, up to the stop at 3."""
    return cosim.Model.read(examples / "counter.cosim")


@pytest.fixture
def heater(examples: pathlib.Path) -> cosim.Model:
    return cosim.Model.read(examples / "heater.cosim")


@pytest.fixture
def groups(examples: pathlib.Path) -> cosim.Model:
    return cosim.Model.read(examples / "groups" / "bus.cosim")


@pytest.fixture(scope="session")
def browser(tmp_path_factory: pytest.TempPathFactory) -> Iterator[Browser]:
    """One browser for all tests. They are skipped where there is none."""
    begun = Browser(tmp_path_factory.mktemp("browser"))
    yield begun
    begun.driver.quit()
