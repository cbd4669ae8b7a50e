"""Browsers for the tests of the page, one for each user who is asked for, and the houses.

service/tests/browser/__init__.py says how to write such a test.
"""
from collections.abc import Callable
from collections.abc import Iterator
from pathlib import Path

import pytest
from browser.chromium import Browser
from house import House

Visit = Callable[..., Browser]


class Chromiums:
    """Each user's browser, made when it is asked for first, and kept for the tests after it."""

    def __init__(self, folder: Path, pictures: Path | None) -> None:
        self.folder, self.pictures = folder, pictures
        self.kept: dict[str, Browser] = {}

    def of(self, user: str) -> Browser:
        if user not in self.kept:
            folder = self.folder / user
            folder.mkdir()
            self.kept[user] = Browser(user, folder, self.pictures)
        return self.kept[user]


@pytest.fixture(scope='session')
def pictures(request: pytest.FixtureRequest) -> Path | None:
    """The folder for pictures, where there shall be some."""
    name = request.config.getoption('--pictures')
    return Path(name) if name else None


@pytest.fixture(scope='session')
def chromiums(tmp_path_factory: pytest.TempPathFactory,
              pictures: Path | None) -> Iterator[Chromiums]:
    made = Chromiums(tmp_path_factory.mktemp('chromiums'), pictures)
    yield made
    for browser in made.kept.values():
        browser.quit()


@pytest.fixture(scope='module')
def house() -> Iterator[House]:
    """One house for the tests of a file."""
    with House() as standing:
        yield standing


@pytest.fixture
def visit(chromiums: Chromiums) -> Iterator[Visit]:
    """`visit(house, user, page, wait)`: a signed-in browser; with '' for a user nobody is."""
    visiting: list[Browser] = []

    def begin(house: House, user: str, page: str = '', wait: str = 'h1') -> Browser:
        browser = chromiums.of(user or 'nobody')
        browser.visit(house)
        visiting.append(browser)
        if user:
            browser.sign_in(page, wait)
        return browser
    yield begin
    found = [error for browser in visiting for error in browser.errors()]
    for browser in visiting:
        browser.leave()         # before a part of the house is stopped, which would be an error
    assert found == [], found
