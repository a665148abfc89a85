"""A real Chromium without a window, which opens pages from files."""
import json
import pathlib
import shutil
import time
from typing import Any, Callable, List, Tuple

import pytest

# How long a page may take to do what it is asked, in seconds.
PATIENCE = 20

OPTIONS = (
    "--headless=new",
    "--no-sandbox",
    "--disable-gpu",
    "--disable-dev-shm-usage",
    "--disable-background-networking",
    "--disable-component-update",
    "--no-first-run",
    "--window-size=1250,1000",
)


class Browser:
    """A browser with one page. `logged` has what the console of the page got, and `asked` the addresses that it asked for."""

    def __init__(self, folder: pathlib.Path) -> None:
        webdriver = pytest.importorskip("selenium.webdriver")
        service = pytest.importorskip("selenium.webdriver.chrome.service")
        chromium, driver = shutil.which("chromium"), shutil.which("chromedriver")
        if not chromium or not driver:
            pytest.skip("there is no chromium with its chromedriver")
        options = webdriver.ChromeOptions()
        for option in (*OPTIONS, f"--user-data-dir={folder}"):
            options.add_argument(option)
        options.binary_location = chromium
        options.set_capability("goog:loggingPrefs", {"browser": "ALL", "performance": "ALL"})
        self.driver: Any = webdriver.Chrome(service=service.Service(driver), options=options)
        self.logged: List[str] = []
        self.asked: List[str] = []

    def open(self, page: pathlib.Path) -> None:
        """Opens a page, and waits until its first plot is drawn, where it has one."""
        self.driver.get("about:blank")
        self.driver.get_log("browser")
        self.driver.get_log("performance")
        self.driver.get(page.as_uri())
        self.logged, self.asked = [], []
        self.run("document.getElementById('plots').scrollIntoView()")
        self.wait(lambda: self.run("return !document.querySelector('.drawing') || !!document.querySelector('.drawing .main-svg')"))

    def run(self, script: str, *given: Any) -> Any:
        """What a script in the page returns."""
        return self.driver.execute_script(script, *given)

    def all(self, selector: str) -> List[Any]:
        """All elements of a selector of CSS."""
        return list(self.driver.find_elements("css selector", selector))

    def texts(self, selector: str) -> List[str]:
        """The texts of all elements of a selector, seen or not."""
        return list(self.run("return [...document.querySelectorAll(arguments[0])].map(each => each.textContent)", selector))

    def wait(self, is_done: Callable[[], Any]) -> None:
        """Waits until something is true."""
        end = time.monotonic() + PATIENCE
        while not is_done():
            assert time.monotonic() < end, "the page didn't do it in time"
            time.sleep(0.02)

    def read_logs(self) -> None:
        """Adds what came since the page was opened."""
        self.logged += [entry["message"] for entry in self.driver.get_log("browser")]
        messages = [json.loads(entry["message"])["message"] for entry in self.driver.get_log("performance")]
        sent = [message["params"]["request"]["url"] for message in messages if message["method"] == "Network.requestWillBeSent"]
        self.asked += [address for address in sent if not address.startswith("data:")]

    def require_quiet(self, page: pathlib.Path) -> None:
        """Fails where the console has an entry, or where anything but the page itself was asked for."""
        self.read_logs()
        assert self.logged == []
        assert self.asked == [page.as_uri()]

    def mouse(self) -> Any:
        from selenium.webdriver import ActionChains

        actions: Any = ActionChains
        return actions(self.driver, duration=50)

    def plot(self, name: str) -> Any:
        """The area of the plot of a column, drawn and in view."""
        area = self.run(
            "return [...document.querySelectorAll('figure')].find(each => each.textContent.startsWith(arguments[0] + ' '))"
            ".querySelector('.drawing')",
            name,
        )
        self.run("arguments[0].scrollIntoView({block: 'center'})", area)
        self.wait(lambda: self.run("return !!arguments[0].querySelector('.nsewdrag')", area))
        return area

    def span(self, area: Any) -> Tuple[float, float]:
        """The span of time that a plot shows."""
        first, last = self.run("return arguments[0].layout.xaxis.range.map(Number)", area)
        return first, last

    def move_to(self, area: Any, seconds: float) -> Any:
        """Mouse actions that begin in the middle of a plot's height, at a time."""
        drag = area.find_element("css selector", ".nsewdrag")
        left = self.run("return arguments[0]._fullLayout.xaxis.l2p(arguments[1])", area, seconds)
        width = self.run("return arguments[0].getBoundingClientRect().width", drag)
        return self.mouse().move_to_element_with_offset(drag, round(left - width / 2), 0)

    def require_hover(self, area: Any, seconds: float, wanted: List[str]) -> None:
        """Fails where other texts are shown when the mouse is over a plot at a time."""
        lines = "return [...arguments[0].querySelectorAll('.hovertext text.nums')].map(each => each.textContent).sort()"
        end = time.monotonic() + PATIENCE
        shown: List[str] = []
        while shown != sorted(wanted) and time.monotonic() < end:
            self.move_to(area, seconds).perform()
            time.sleep(0.1)
            shown = self.run(lines, area)
        assert shown == sorted(wanted)

    def table(self, selector: str) -> List[List[str]]:
        """The cells of a table's body as it is shown."""
        script = "return [...document.querySelectorAll(arguments[0] + ' tbody tr')].map(row => [...row.cells].map(cell => cell.textContent))"
        return list(self.run(script, selector))

    def press(self, text: str, within: str) -> None:
        """Presses the button with a text."""
        button = next(each for each in self.all(f"{within} button") if each.text == text)
        button.click()
