"""Chromium and Firefox without a window, each driven as its makers do it: over pipes, and over Marionette; by no library."""

import base64
import contextlib
import itertools
import json
import os
import pathlib
import select
import shutil
import socket
import subprocess
import tempfile
import time
from collections.abc import Sequence
from typing import Any

MOST_SECONDS = 300  # only what never answers is given up
# A Firefox now and then answers nothing from its start on. It is given up sooner, since another one answers then.
MOST_TO_START, MOST_STARTS = 100, 3
POLITE = ("nice", "-n", "10")
CHROMIUM = (
    "chromium", "--headless=new", "--no-sandbox", "--disable-gpu", "--remote-debugging-pipe", "--no-first-run",
    "--disable-background-networking", "--disable-component-update", "--hide-scrollbars",
)  # fmt: skip
FIREFOX = ("firefox-esr", "--headless", "--no-remote", "--marionette", "--remote-allow-system-access")
# By these Chromium knows what a key does where nothing else is said.
CODES = {
    "Tab": 9, "Enter": 13, "Escape": 27, " ": 32, "End": 35, "Home": 36,
    "ArrowLeft": 37, "ArrowUp": 38, "ArrowRight": 39, "ArrowDown": 40,
}  # fmt: skip
SHIFT, CONTROL = "\ue008", "\ue009"  # as WebDriver writes these keys
NARROWEST = 500  # as narrow as Firefox makes a window
PREFERENCES = {
    "marionette.port": 0,
    "datareporting.policy.dataSubmissionEnabled": False,
    "app.normandy.enabled": False,
    "app.update.disabledForTesting": True,
    "browser.safebrowsing.malware.enabled": False,
    "extensions.update.enabled": False,
    "network.captive-portal-service.enabled": False,
    "network.connectivity-service.enabled": False,
    "services.settings.server": "data:,",
    "browser.download.folderList": 2,
    "browser.download.always_ask_before_handling_new_types": False,
    "browser.helperApps.neverAsk.saveToDisk": "image/svg+xml",
    "browser.download.alwaysOpenPanel": False,
}


class Fault(Exception):
    """What a browser says against a command."""


class Browser:
    """What both can do. A script is one expression; `await` may stand in it."""

    name = ""

    def __init__(self) -> None:
        self.home = tempfile.mkdtemp(prefix="page-")
        self.saved = pathlib.Path(self.home) / "saved"  # where it puts what a page saves
        self.process: subprocess.Popen[bytes]

    def js(self, text: str) -> Any:
        raise NotImplementedError

    def go(self, url: str) -> None:
        raise NotImplementedError

    def open(self, page: pathlib.Path | str) -> None:
        self.go(str(page) if "://" in str(page) else pathlib.Path(page).resolve().as_uri())
        end = time.time() + MOST_SECONDS
        while self.js("document.readyState") != "complete":
            if time.time() > end:
                raise TimeoutError(page)
            time.sleep(0.02)
        self.js("new Promise((done) => setTimeout(done, 60))")

    def close(self) -> None:
        try:
            self.quit()
            self.process.wait(10)
        except (OSError, Fault, EOFError, TimeoutError, subprocess.TimeoutExpired):
            self.process.kill()
            self.process.wait()
        shutil.rmtree(self.home, ignore_errors=True)

    def quit(self) -> None:
        raise NotImplementedError


def started(kind: type[Browser]) -> Browser:
    """A browser that answers, by a few tries."""
    for _ in range(MOST_STARTS - 1):
        try:
            return kind()
        except (TimeoutError, EOFError):
            continue
    return kind()


class Chromium(Browser):
    name = "chromium"

    def __init__(self, *more: str) -> None:
        super().__init__()
        out_read, self.write_end = os.pipe()
        self.read_end, in_write = os.pipe()

        def ends() -> None:
            os.dup2(out_read, 13)
            os.dup2(in_write, 14)
            os.dup2(13, 3)
            os.dup2(14, 4)

        words = [*POLITE, *CHROMIUM, f"--user-data-dir={self.home}", *more, "about:blank"]
        quiet = subprocess.DEVNULL
        self.process = subprocess.Popen(words, preexec_fn=ends, close_fds=False, stdout=quiet, stderr=quiet)
        os.close(out_read)
        os.close(in_write)
        self.rest, self.count = b"", itertools.count(1)
        self.events: list[dict[str, Any]] = []
        self.session = ""
        target = self.call("Target.createTarget", url="about:blank")["targetId"]
        self.session = self.call("Target.attachToTarget", targetId=target, flatten=True)["sessionId"]
        for domain in ("Page", "Runtime", "Log", "Network"):
            self.call(f"{domain}.enable")
        self.call("Browser.setDownloadBehavior", behavior="allow", downloadPath=str(self.saved))
        self.call("Browser.grantPermissions", permissions=["clipboardReadWrite", "clipboardSanitizedWrite"])
        self.size(1280, 860)
        self.look()

    def size(self, width: int, height: int, scale: int = 1) -> None:
        self.call("Emulation.setDeviceMetricsOverride", width=width, height=height, deviceScaleFactor=scale, mobile=False)

    def look(self, is_dark: bool = False, is_grey: bool = False, media: str = "", is_forced: bool = False) -> None:
        scheme = {"name": "prefers-color-scheme", "value": "dark" if is_dark else "light"}
        forced = {"name": "forced-colors", "value": "active" if is_forced else "none"}
        self.call("Emulation.setEmulatedMedia", features=[scheme, forced], media=media)
        self.call("Emulation.setEmulatedVisionDeficiency", type="achromatopsia" if is_grey else "none")

    def message(self) -> dict[str, Any]:
        while b"\0" not in self.rest:
            if not select.select([self.read_end], [], [], MOST_SECONDS)[0]:
                raise TimeoutError("chromium says nothing")
            got = os.read(self.read_end, 1 << 20)
            if not got:
                raise EOFError("chromium has gone")
            self.rest += got
        one, _, self.rest = self.rest.partition(b"\0")
        found: dict[str, Any] = json.loads(one)
        return found

    def call(self, method: str, **params: Any) -> Any:
        number = next(self.count)
        session = {"sessionId": self.session} if self.session else {}
        text = {"id": number, "method": method, "params": params, **session}
        os.write(self.write_end, json.dumps(text).encode() + b"\0")
        while True:
            got = self.message()
            if got.get("id") == number:
                if "error" in got:
                    raise Fault(f"{method}: {got['error']}")
                return got["result"]
            self.events.append(got)

    def go(self, url: str) -> None:
        self.events.clear()
        self.call("Page.navigate", url="about:blank")
        self.call("Page.navigate", url=url)

    def js(self, text: str) -> Any:
        how = {"returnByValue": True, "awaitPromise": True, "allowUnsafeEvalBlockedByCSP": False}
        got = self.call("Runtime.evaluate", expression=text, **how)
        if "exceptionDetails" in got:
            raise Fault(got["exceptionDetails"].get("exception", {}).get("description") or str(got["exceptionDetails"]))
        return got["result"].get("value")

    def key(self, key: str) -> None:
        text = {"text": key} if len(key) == 1 else {"text": "\r"} if key == "Enter" else {}
        own = {"key": key, "code": "Space" if key == " " else key, "windowsVirtualKeyCode": CODES.get(key, 0)}
        self.call("Input.dispatchKeyEvent", type="keyDown", **own, **text)
        self.call("Input.dispatchKeyEvent", type="keyUp", **own)

    def back(self) -> None:
        """Shift and Tab."""
        key = {"key": "Tab", "code": "Tab", "windowsVirtualKeyCode": CODES["Tab"], "modifiers": 8}
        for kind in ("rawKeyDown", "keyUp"):
            self.call("Input.dispatchKeyEvent", type=kind, **key)

    def paste(self) -> None:
        key = {"key": "v", "code": "KeyV", "windowsVirtualKeyCode": ord("V"), "modifiers": 2}
        self.call("Input.dispatchKeyEvent", type="rawKeyDown", commands=["paste"], **key)
        self.call("Input.dispatchKeyEvent", type="keyUp", **key)

    def type(self, text: str) -> None:
        self.call("Input.insertText", text=text)

    def point(self, x: float, y: float) -> None:
        self.call("Input.dispatchMouseEvent", type="mouseMoved", x=x, y=y)

    def click(self, x: float, y: float) -> None:
        self.point(x, y)
        for kind in ("mousePressed", "mouseReleased"):
            self.call("Input.dispatchMouseEvent", type=kind, x=x, y=y, button="left", clickCount=1)

    def shot(self, path: pathlib.Path, is_whole: bool = False) -> None:
        more: dict[str, Any] = {}
        if is_whole:
            size = self.call("Page.getLayoutMetrics")["cssContentSize"]
            clip = {"x": 0, "y": 0, "width": size["width"], "height": min(size["height"], 4000), "scale": 1}
            more = {"captureBeyondViewport": True, "clip": clip}
        path.write_bytes(base64.b64decode(self.call("Page.captureScreenshot", format="png", **more)["data"]))

    def pdf(self, path: pathlib.Path) -> None:
        path.write_bytes(base64.b64decode(self.call("Page.printToPDF", preferCSSPageSize=True)["data"]))

    def faults(self) -> list[str]:
        """What the page threw, what its policy kept from it, and what else the console has against it."""
        self.js("1")
        found = []
        for each in self.events:
            if each.get("method") == "Runtime.exceptionThrown":
                found.append(each["params"]["exceptionDetails"].get("exception", {}).get("description", "?"))
            if each.get("method") == "Log.entryAdded":
                found.append(each["params"]["entry"]["text"])
        return found

    def asked_for(self) -> list[str]:
        """The addresses that were asked for since a page was opened."""
        self.js("1")
        return [
            each["params"]["request"]["url"] for each in self.events if each.get("method") == "Network.requestWillBeSent"
        ]

    def quit(self) -> None:
        self.session = ""
        self.call("Browser.close")


class Firefox(Browser):
    name = "firefox-esr"
    keys = {
        "ArrowUp": "\ue013", "ArrowDown": "\ue015", "Tab": "\ue004",
        "ArrowLeft": "\ue012", "ArrowRight": "\ue014", "Home": "\ue011", "End": "\ue010", "Enter": "\ue007", "Escape": "\ue00c",
    }  # fmt: skip

    def __init__(self) -> None:
        super().__init__()
        preferences = {**PREFERENCES, "browser.download.dir": str(self.saved)}
        lines = [f"user_pref({json.dumps(name)}, {json.dumps(value)});" for name, value in preferences.items()]
        (pathlib.Path(self.home) / "user.js").write_text("\n".join(lines), "utf-8")
        quiet = subprocess.DEVNULL
        environment = {**os.environ, "HOME": self.home, "MOZ_HEADLESS": "1"}
        words = [*POLITE, *FIREFOX, "--profile", self.home]
        self.process = subprocess.Popen(words, stdout=quiet, stderr=quiet, env=environment)
        self.rest, self.count = b"", itertools.count(1)
        self.narrow: tuple[int, int] | None = None
        try:
            self.start()
        except (OSError, Fault, TimeoutError, EOFError):
            self.process.kill()
            self.process.wait()
            if hasattr(self, "socket"):
                self.socket.close()
            shutil.rmtree(self.home, ignore_errors=True)
            raise

    def start(self) -> None:
        self.socket = socket.create_connection(("127.0.0.1", self.port()), MOST_TO_START)
        self.message()
        self.call("WebDriver:NewSession", capabilities={"alwaysMatch": {}})
        self.call("WebDriver:SetTimeouts", script=1000 * MOST_SECONDS, pageLoad=1000 * MOST_SECONDS)
        self.size(1280, 860)
        self.look()
        self.socket.settimeout(MOST_SECONDS)

    def port(self) -> int:
        """The port that it has chosen, and written into its profile."""
        path, end = pathlib.Path(self.home) / "MarionetteActivePort", time.time() + MOST_TO_START
        while not path.exists() or not path.read_text("ascii").strip():
            if time.time() > end or self.process.poll() is not None:
                raise TimeoutError("firefox does not start")
            time.sleep(0.1)
        return int(path.read_text("ascii"))

    def message(self) -> Any:
        while b":" not in self.rest:
            self.take()
        length, _, self.rest = self.rest.partition(b":")
        while len(self.rest) < int(length):
            self.take()
        text, self.rest = self.rest[: int(length)], self.rest[int(length) :]
        return json.loads(text)

    def take(self) -> None:
        got = self.socket.recv(1 << 16)
        if not got:
            raise EOFError("firefox has gone")
        self.rest += got

    def call(self, name: str, **params: Any) -> Any:
        text = json.dumps([0, next(self.count), name, params]).encode()
        self.socket.sendall(f"{len(text)}:".encode() + text)
        _, _, error, result = self.message()
        if error:
            raise Fault(f"{name}: {error['message']}")
        return result.get("value", result) if isinstance(result, dict) else result

    def size(self, width: int, height: int) -> None:
        """Of what is seen of a page, without what the window has around it. A narrow one is a wide one whose pixels are doubled."""
        zoom = 2 if width < NARROWEST else 1
        self.call("Marionette:SetContext", value="chrome")
        self.call("WebDriver:ExecuteScript", script="window.gBrowser.selectedBrowser.fullZoom = arguments[0];", args=[zoom])
        self.call("Marionette:SetContext", value="content")
        script = f"return [outerWidth * {zoom} - innerWidth * {zoom}, outerHeight * {zoom} - innerHeight * {zoom}];"
        around = self.call("WebDriver:ExecuteScript", script=script, args=[])
        self.call("WebDriver:SetWindowRect", x=0, y=0, width=zoom * width + around[0], height=zoom * height + around[1])
        self.narrow = (width, height) if zoom > 1 else None
        self.js("new Promise((done) => setTimeout(done, 100))")

    def open(self, page: pathlib.Path | str) -> None:
        super().open(page)
        if self.narrow:  # a page of another kind comes without the zoom of the one before
            self.size(*self.narrow)

    def go(self, url: str) -> None:
        self.call("WebDriver:Navigate", url="about:blank")
        self.call("WebDriver:Navigate", url=url)
        # What a page throws is kept by a listener that stands in it; what it threw before is seen by what it lacks then.
        self.js("(window.thrown = [], addEventListener('error', (event) => window.thrown.push(event.message)), 1)")

    def js(self, text: str) -> Any:
        answer = "(value) => done({ value }), (fault) => done({ fault: `${fault}` })"
        script = f"const [done] = arguments; (async () => (\n{text}\n))().then({answer});"
        found = self.call("WebDriver:ExecuteAsyncScript", script=script, args=[])
        if "fault" in found:
            raise Fault(found["fault"])
        return found.get("value")

    def key(self, key: str) -> None:
        actions = [{"type": kind, "value": self.keys.get(key, key)} for kind in ("keyDown", "keyUp")]
        self.act([{"type": "key", "id": "keys", "actions": actions}])

    def back(self) -> None:
        """Shift and Tab."""
        self.chord(SHIFT, self.keys["Tab"])

    def paste(self) -> None:
        self.chord(CONTROL, "v")

    def chord(self, held: str, key: str) -> None:
        pressed = [("keyDown", held), ("keyDown", key), ("keyUp", key), ("keyUp", held)]
        self.act([{"type": "key", "id": "keys", "actions": [{"type": kind, "value": value} for kind, value in pressed]}])

    def look(self, is_dark: bool = False) -> None:
        """A page that is opened then is seen in the dark, or in the light."""
        script = "Services.prefs.setIntPref('layout.css.prefers-color-scheme.content-override', arguments[0]);"
        self.call("Marionette:SetContext", value="chrome")
        self.call("WebDriver:ExecuteScript", script=script, args=[0 if is_dark else 1])
        self.call("Marionette:SetContext", value="content")

    def type(self, text: str) -> None:
        for each in text:
            self.key(each)

    def point(self, x: float, y: float) -> None:
        self.pointer([])(x, y)

    def click(self, x: float, y: float) -> None:
        self.pointer([{"type": "pointerDown", "button": 0}, {"type": "pointerUp", "button": 0}])(x, y)

    def pointer(self, rest: Sequence[dict[str, Any]]) -> Any:
        def at(x: float, y: float) -> None:
            move = {"type": "pointerMove", "x": int(x), "y": int(y), "duration": 0}
            mouse = {"type": "pointer", "id": "mouse", "parameters": {"pointerType": "mouse"}, "actions": [move, *rest]}
            self.act([mouse])

        return at

    def act(self, actions: list[dict[str, Any]]) -> None:
        self.call("WebDriver:PerformActions", actions=actions)

    def shot(self, path: pathlib.Path) -> None:
        path.write_bytes(base64.b64decode(self.call("WebDriver:TakeScreenshot", full=False)))

    def faults(self) -> list[str]:
        found: list[str] = self.js("window.thrown ?? []")
        return found

    def quit(self) -> None:
        with contextlib.closing(self.socket):
            self.call("Marionette:Quit", flags=["eForceQuit"])
