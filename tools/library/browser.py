"""A headless Chromium that visits the page of `elephant-browse` as a user does, and the program that it visits."""

import contextlib
import os
import shutil
import subprocess
import sys
import time
from collections.abc import Callable, Iterator
from pathlib import Path
from typing import Any
from urllib.parse import urlencode

from selenium import webdriver
from selenium.webdriver.chrome.options import Options
from selenium.webdriver.chrome.service import Service

from gate.building import ROOT

CLIENT = ROOT / "clients" / "python"
# How long anything may take to show on a busy machine, in seconds.
PATIENCE = 30.0
WIDTH, HEIGHT = 1200, 860


class Wrong(Exception):
    """The page isn't as it should be."""


def expect(is_true: bool, what: str) -> None:
    if not is_true:
        raise Wrong(what)


def environment() -> dict[str, str]:
    """Returns the environment in which the programs of the package run."""
    return {**os.environ, "PYTHONPATH": os.pathsep.join(filter(None, [os.environ.get("PYTHONPATH"), str(CLIENT / "src")]))}


class Program:
    """A run of `elephant-browse`."""

    def __init__(self, *words: str, zone: str = "UTC") -> None:
        command = [sys.executable, "-m", "elephant.browse", *words, "--no-open"]
        self._ran = subprocess.Popen(command, env={**environment(), "TZ": zone}, stdout=subprocess.PIPE, text=True)
        assert self._ran.stdout
        self.entrance = self._ran.stdout.readline().strip()
        if not self.entrance.startswith("http://127.0.0.1:"):
            self.close()
            raise Wrong(f"elephant-browse {' '.join(words)} prints {self.entrance!r}")
        self.origin = self.entrance.partition("/?")[0]

    def another_entrance(self) -> str:
        """Returns the address that the program printed after the last one was used."""
        assert self._ran.stdout
        return self._ran.stdout.readline().split()[-1]

    def processor_seconds(self) -> float:
        """Returns how much time of a processor it has taken."""
        words = Path(f"/proc/{self._ran.pid}/stat").read_text(encoding="ascii").rpartition(")")[2].split()
        return (int(words[11]) + int(words[12])) / os.sysconf("SC_CLK_TCK")

    def close(self) -> None:
        self._ran.terminate()
        self._ran.wait(PATIENCE)
        if self._ran.stdout:
            self._ran.stdout.close()


class Browser:
    """A user's browser."""

    def __init__(self, room: str, zone: str = "UTC") -> None:
        options = Options()
        # Root runs Chromium only without its sandbox; the pages that it visits are ours alone.
        for word in ("--headless=new", "--no-sandbox", "--disable-gpu", "--disable-dev-shm-usage", "--force-device-scale-factor=1",
                     "--hide-scrollbars", "--host-resolver-rules=MAP evil.example 127.0.0.1", f"--user-data-dir={room}"):
            options.add_argument(word)
        options.set_capability("goog:loggingPrefs", {"browser": "ALL"})
        service = Service("/usr/bin/chromedriver", env={**os.environ, "TZ": zone, "LANG": "en_GB.UTF-8"})
        self.driver = webdriver.Chrome(service=service, options=options)
        self.driver.set_page_load_timeout(PATIENCE)
        self.driver.execute_cdp_cmd("Emulation.setLocaleOverride", {"locale": "en-GB"})
        self.resize(WIDTH, HEIGHT)
        self.origin = ""

    def close(self) -> None:
        self.driver.quit()

    def resize(self, width: int, height: int) -> None:
        self.driver.execute_cdp_cmd(
            "Emulation.setDeviceMetricsOverride", {"width": width, "height": height, "deviceScaleFactor": 1, "mobile": False}
        )

    def prefer(self, scheme: str) -> None:
        """Makes the user prefer a `dark` or a `light` page."""
        self.driver.execute_cdp_cmd("Emulation.setEmulatedMedia", {"features": [{"name": "prefers-color-scheme", "value": scheme}]})

    # Going somewhere.

    def enter(self, program: Program, entrance: str = "") -> None:
        """Opens the address that the program printed."""
        self.origin = program.origin
        self.driver.get(entrance or program.entrance)
        self.until(lambda: self.driver.current_url == f"{self.origin}/", "the entrance leads to the page")

    def visit(self, address: str = "/", **words: object) -> None:
        self.driver.get(self.origin + address + (f"?{urlencode(words)}" if words else ""))

    def until(self, is_so: Callable[[], object], what: str) -> None:
        """Waits until something is so."""
        end = time.monotonic() + PATIENCE
        while True:
            with contextlib.suppress(Exception):
                if is_so():
                    return
            if time.monotonic() > end:
                raise Wrong(f"{what}: {self.driver.current_url}: {self.text()[-600:]!r}")
            time.sleep(0.05)

    # What is shown, and what is pressed.

    def text(self, selector: str = "body") -> str:
        """Returns the text that a user sees in an element, in one line."""
        found = self.driver.find_elements("css selector", selector)
        return " ".join(" ".join(it.text for it in found).split())

    def all(self, selector: str) -> list[Any]:
        return self.driver.find_elements("css selector", selector)

    def one(self, selector: str) -> Any:
        found = self.all(selector)
        expect(len(found) == 1, f"{len(found)} elements are {selector} of {self.driver.current_url}")
        return found[0]

    def script(self, text: str, *words: Any) -> Any:
        return self.driver.execute_script(text, *words)

    def press(self, selector: str) -> None:
        """Presses a link or a button, and waits for the page that follows."""
        before = self.script("window.here = true; return location.href")
        self.one(selector).click()
        self.until(lambda: not self.script("return window.here") or self.script("return location.href") != before, f"{selector} leads on")
        self.until(lambda: self.script("return document.readyState") == "complete", f"{selector} leads to a whole page")

    def follow(self, words: str, within: str = "main") -> None:
        """Follows the link or presses the button that has these words, as a user or a screen reader finds it."""
        listed = self.all(f"{within} a, {within} button")
        found = [it for it in listed if self.script("return arguments[0].textContent", it).strip() == words]
        expect(len(found) == 1, f"{len(found)} links of {within} are named {words!r}: {self.driver.current_url}")
        self.script("window.here = true")
        found[0].click()
        self.until(lambda: not self.script("return window.here"), f"{words} leads on")

    def say_yes(self) -> str:
        """Says yes to a question, and returns what is said then."""
        self.press("#yes")
        return self.text(".notice")

    def shot(self, path: Path) -> None:
        self.driver.save_screenshot(str(path))

    def faults(self) -> list[str]:
        """Returns what the browser has complained of since the last time."""
        return [str(it["message"]) for it in self.driver.get_log("browser")]


@contextlib.contextmanager
def visiting(room: Path, *words: str, zone: str = "UTC") -> Iterator[tuple[Browser, Program]]:
    """Runs the program with these words and a browser that has come in."""
    program = Program(*words)
    try:
        profile = room / f"profile-{time.monotonic_ns()}"
        browser = Browser(str(profile), zone)
        try:
            browser.enter(program)
            yield browser, program
        finally:
            browser.close()
            shutil.rmtree(profile, ignore_errors=True)
    finally:
        program.close()
