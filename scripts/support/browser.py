"""A headless Chromium, driven by WebDriver's calls over HTTP (Debian's chromium and
chromium-driver)."""
import base64
import contextlib
import http.client
import json
import os
import pathlib
import shutil
import subprocess
import tempfile
from collections.abc import Iterator

from support.checks import comes
from support.ports import HOST, is_open

DRIVERS = ("chromedriver", "/usr/lib/chromium/chromedriver")
BROWSERS = ("chromium", "chromium-browser", "google-chrome")
LONGEST = 150  # seconds for a call
LONGEST_END = 5  # seconds until the driver is killed
ELEMENT = "element-6066-11e4-a52e-4f735466cecf"  # the key of an element, by WebDriver
ARGUMENTS = (
    "--headless=new",
    "--no-sandbox",
    "--disable-gpu",
    "--disable-dev-shm-usage",
    "--no-first-run",
    "--hide-scrollbars",
    "--disable-background-networking",
    "--disable-component-update",
    "--force-color-profile=srgb",
)


class NoBrowserError(Exception):
    """No browser can be had here. The text says why."""


class WebDriverError(Exception):
    """A call of WebDriver failed."""


def first_of(names: tuple[str, ...]) -> str:
    """The path of the first of these programs that is there."""
    for name in names:
        if (path := shutil.which(name)) is not None:
            return path
    raise NoBrowserError(f"none of {', '.join(names)} is installed")


class Browser:
    """A window of a browser."""

    def __init__(self, port: int, folder: str, extra: tuple[str, ...] = ()) -> None:
        """Starts the driver at a port, and through it the browser, which keeps its files in a
        folder."""
        browser = first_of(BROWSERS)
        self.port = port
        self.session = ""
        self.driver = subprocess.Popen(
            [first_of(DRIVERS), f"--port={port}"],
            stdout=subprocess.DEVNULL,
            stderr=subprocess.DEVNULL,
            env={**os.environ, "HOME": folder, "TMPDIR": folder},
        )
        try:
            if not comes(lambda: is_open(port)):
                raise NoBrowserError("the driver does not listen")
            arguments = [*ARGUMENTS, *extra, f"--user-data-dir={folder}/profile"]
            expected = {
                "goog:chromeOptions": {"binary": browser, "args": arguments},
                "goog:loggingPrefs": {"browser": "ALL"},
            }
            told = self.call("POST", "/session", {"capabilities": {"alwaysMatch": expected}})
        except (WebDriverError, OSError) as error:
            self.close()
            raise NoBrowserError(f"the browser does not start: {error}") from None
        assert isinstance(told, dict)
        self.session = f"/session/{told['sessionId']}"

    def close(self) -> None:
        with contextlib.suppress(WebDriverError, OSError, http.client.HTTPException):
            if self.session:
                self.call("DELETE", "", None)
        self.driver.terminate()
        try:
            self.driver.wait(LONGEST_END)
        except subprocess.TimeoutExpired:
            self.driver.kill()
            self.driver.wait(LONGEST)

    def call(self, method: str, path: str, told: object) -> object:
        """The value that a call of WebDriver gives."""
        connection = http.client.HTTPConnection(HOST, self.port, timeout=LONGEST)
        try:
            body = None if told is None else json.dumps(told)
            connection.request(
                method, self.session + path, body, {"Content-Type": "application/json"}
            )
            value = json.loads(connection.getresponse().read())["value"]
        finally:
            connection.close()
        if isinstance(value, dict) and "error" in value:
            raise WebDriverError(
                f"{path}: {value['error']}: {str(value.get('message')).splitlines()[0]}"
            )
        return value

    def open(self, address: str) -> None:
        self.call("POST", "/url", {"url": address})

    def size(self, width: int, height: int) -> None:
        """Gives the page this size, whatever stands round it."""
        self.command(
            "Emulation.setDeviceMetricsOverride",
            {"width": width, "height": height, "deviceScaleFactor": 1, "mobile": False},
        )

    def scheme(self, name: str) -> None:
        """Prefers the `dark` or the `light` scheme."""
        self.command(
            "Emulation.setEmulatedMedia",
            {"features": [{"name": "prefers-color-scheme", "value": name}]},
        )

    def command(self, name: str, told: dict[str, object]) -> object:
        """A command of Chromium itself."""
        return self.call("POST", "/goog/cdp/execute", {"cmd": name, "params": told})

    def run(self, script: str, *arguments: object) -> object:
        """What a script gives that the page runs."""
        return self.call("POST", "/execute/sync", {"script": script, "args": list(arguments)})

    def run_later(self, script: str) -> object:
        """What a script hands to its callback, its last argument."""
        return self.call("POST", "/execute/async", {"script": script, "args": []})

    def text(self, selector: str) -> str:
        """The text of all elements of a selector as it is seen, a line each."""
        found = "[...document.querySelectorAll(arguments[0])]"
        return str(
            self.run(
                f"return {found}.map((each) => each.innerText ?? each.textContent).join('\\n')",
                selector,
            )
        )

    def is_true(self, script: str, *arguments: object) -> bool:
        return self.run(script, *arguments) is True

    def shows(self, selector: str, *words: str) -> bool:
        """Whether the elements of a selector show these words at a time that comes soon."""
        return comes(lambda: all(word in self.text(selector) for word in words))

    def click(self, selector: str) -> None:
        """Clicks as a user does: on what can be seen and is in front."""
        told = self.call("POST", "/element", {"using": "css selector", "value": selector})
        assert isinstance(told, dict)
        self.call("POST", f"/element/{told[ELEMENT]}/click", {})

    def press(self, *keys: str) -> None:
        """Presses keys, one after the other."""
        actions = [{"type": kind, "value": key} for key in keys for kind in ("keyDown", "keyUp")]
        self.call(
            "POST", "/actions", {"actions": [{"type": "key", "id": "keys", "actions": actions}]}
        )

    def complaints(self) -> list[str]:
        """What the browser has told of the page: scripts that failed, and what a policy has
        refused."""
        told = self.call("POST", "/se/log", {"type": "browser"})
        assert isinstance(told, list)
        return [
            f"{each['level']}: {each['message']}"
            for each in told
            if each["level"] in ("SEVERE", "WARNING")
        ]

    def screenshot(self, path: pathlib.Path) -> None:
        """Writes a picture of the whole page."""
        told = self.command(
            "Page.captureScreenshot", {"format": "png", "captureBeyondViewport": True}
        )
        assert isinstance(told, dict)
        path.write_bytes(base64.b64decode(told["data"]))

    def fit(self, width: int) -> None:
        """Makes the page as high as what it shows."""
        self.size(width, 600)
        height = self.run("return Math.ceil(document.documentElement.scrollHeight)")
        assert isinstance(height, int)
        self.size(width, height)


@contextlib.contextmanager
def browsing(port: int, extra: tuple[str, ...] = ()) -> Iterator[Browser]:
    """A browser, which is ended whatever happens. `NoBrowserError` if none can be had."""
    with tempfile.TemporaryDirectory(ignore_cleanup_errors=True) as folder:
        browser = Browser(port, folder, extra)
        try:
            yield browser
        finally:
            browser.close()
