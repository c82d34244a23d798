"""Pages in a browser without a window: what they show, how they print, and what they do where a reader chooses something."""

import base64
import json
import re
import subprocess
from types import TracebackType
from typing import Any

from support import BROWSER, DRIVER

_BOXES = re.compile('<page width="([0-9.]+)"|<word xMin="[^"]*" yMin="[^"]*" xMax="([0-9.-]+)" yMax="[^"]*">(.*?)</word>')
# A little less than the margin of the style's sheets, in points.
_MARGIN = 38.0
_OPTIONS = ("--headless", "--no-sandbox", "--disable-gpu", "--disable-dev-shm-usage")


def browsed(path: str, *options: str) -> str:
    """Returns the page as the browser has it when its scripts have run."""
    assert BROWSER
    words = [BROWSER, *_OPTIONS, "--virtual-time-budget=20000", *options, "--dump-dom", f"file://{path}"]
    done = subprocess.run(words, stdout=subprocess.PIPE, stderr=subprocess.DEVNULL, timeout=60, check=True)
    return done.stdout.decode("utf-8", "replace")


class Browser:
    """A browser that a test drives by its mouse and its keys, as wide as it says, and dark or light."""

    def __init__(self, width: int, height: int = 900, scheme: str = "light") -> None:
        self.size = width, height
        self.scheme = scheme

    def __enter__(self) -> "Browser":
        from selenium import webdriver
        from selenium.webdriver.chrome.service import Service

        options = webdriver.ChromeOptions()
        for word in _OPTIONS:
            options.add_argument(word)
        options.binary_location = BROWSER or ""
        options.set_capability("goog:loggingPrefs", {"performance": "ALL"})
        self.driver = webdriver.Chrome(service=Service(DRIVER or ""), options=options)
        width, height = self.size
        self.tell("Emulation.setDeviceMetricsOverride", width=width, height=height, deviceScaleFactor=1, mobile=False)
        features = [{"name": "prefers-color-scheme", "value": self.scheme}]
        self.tell("Emulation.setEmulatedMedia", features=features)
        return self

    def __exit__(self, kind: type | None, error: BaseException | None, trace: TracebackType | None) -> None:
        self.driver.quit()

    def tell(self, command: str, **values: Any) -> Any:
        """Sends a command of the browser's protocol."""
        return self.driver.execute_cdp_cmd(command, values)

    def open(self, path: str) -> None:
        """Opens a page, and waits for its scripts."""
        self.driver.get(f"file://{path}")

    def run(self, script: str, *words: Any) -> Any:
        """Returns what a script returns."""
        return self.driver.execute_script(script, *words)

    def press(self, *keys: str) -> None:
        """Presses keys one after the other, by their names, where the focus is."""
        from selenium.webdriver.common.action_chains import ActionChains
        from selenium.webdriver.common.keys import Keys

        named = {"Enter": Keys.ENTER, "ArrowUp": Keys.ARROW_UP, "ArrowDown": Keys.ARROW_DOWN}
        for key in keys:
            ActionChains(self.driver).send_keys(named[key]).perform()

    def wait(self, script: str) -> None:
        """Waits until a script returns what is true."""
        from selenium.webdriver.support.wait import WebDriverWait

        WebDriverWait(self.driver, 10).until(lambda _: self.run(script))

    def element(self, selector: str) -> Any:
        """Returns the first element that fits."""
        return self.driver.find_element("css selector", selector)

    def text(self, selector: str) -> str:
        """Returns the text of the first element that fits, as far as it is shown."""
        return str(self.element(selector).text)

    def is_in_view(self, selector: str) -> bool:
        """Returns whether the top of an element stands in the window, and is not hidden behind another one."""
        return bool(
            self.run(
                """
                const element = document.querySelector(arguments[0]);
                const box = element.getBoundingClientRect();
                const [x, y] = [box.left + box.width / 2, box.top + Math.min(12, box.height / 2)];
                const there = document.elementFromPoint(x, y);
                return box.top >= 0 && y <= innerHeight && there !== null && (element === there || element.contains(there));
                """,
                selector,
            )
        )

    def requested(self) -> list[str]:
        """Returns the addresses that the page has asked for."""
        messages = [json.loads(entry["message"])["message"] for entry in self.driver.get_log("performance")]
        sent = [message["params"] for message in messages if message["method"] == "Network.requestWillBeSent"]
        return [params["request"]["url"] for params in sent]

    def printed(self, pdf: str) -> list[str]:
        """Prints the page, and returns the text of each sheet."""
        data = self.tell("Page.printToPDF", preferCSSPageSize=True)["data"]
        with open(pdf, "wb") as file:
            file.write(base64.b64decode(data))
        done = subprocess.run(["pdftotext", "-layout", pdf, "-"], stdout=subprocess.PIPE, check=True)
        return done.stdout.decode().split("\f")[:-1]


def clipped(pdf: str) -> list[str]:
    """Returns the words of a PDF that reach into the right margin, where the browser cuts them off."""
    text = subprocess.run(["pdftotext", "-bbox", pdf, "-"], stdout=subprocess.PIPE, check=True).stdout.decode()
    found: list[str] = []
    width = 0.0
    for sheet, right, word in _BOXES.findall(text):
        width = float(sheet) if sheet else width
        if word and float(right) > width - _MARGIN:
            found.append(word)
    return found
