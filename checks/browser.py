"""Chromium without a window, driven by two pipes.

It opens pages, runs scripts in them and takes pictures.
"""
from __future__ import annotations

import base64
import json
import os
import select
import shutil
import signal
import subprocess
import tempfile
from pathlib import Path
from types import TracebackType
from typing import Any

NAMES = ("chromium", "chromium-browser", "google-chrome")
PROGRAM = next(filter(None, map(shutil.which, NAMES)), None)
OPTIONS = (
    "--headless=new", "--no-sandbox", "--disable-gpu", "--disable-dev-shm-usage", "--no-first-run",
    "--hide-scrollbars",
)

# Seconds without a word after which the browser is given up: it begins slowly beside other work.
LIMIT = 300

# Keys by the names that DevTools has for them, with their codes.
KEYS = {"ArrowLeft": 37, "ArrowRight": 39, "Home": 36, "End": 35, "Tab": 9, "Enter": 13, " ": 32, "+": 187, "-": 189}


def is_loaded(event: dict[str, Any], loader: str) -> bool:
    """Whether this event tells that what this loader loads is there. A page before may tell so of itself, and late."""
    told = event.get("params", {})
    return event.get("method") == "Page.lifecycleEvent" and (told["loaderId"], told["name"]) == (loader, "load")


class Browser:
    """A browser with one tab, to be used in a `with` statement.

    It is asked by methods of the DevTools protocol.
    """

    def __enter__(self) -> Browser:
        assert PROGRAM, "the caller has seen that there is a browser"
        self.folder = tempfile.TemporaryDirectory(ignore_cleanup_errors=True)
        heard, self.told = os.pipe()
        self.heard, told = os.pipe()
        words = [
            PROGRAM, *OPTIONS, f"--user-data-dir={self.folder.name}",
            "--remote-debugging-pipe", "about:blank",
        ]
        # The browser reads descriptor 3 and writes to descriptor 4.
        self.process = subprocess.Popen(
            ["sh", "-c", f'exec "$@" 3<&{heard} 4>&{told}', "sh", *words],
            pass_fds=(heard, told),
            stdin=subprocess.DEVNULL,
            stdout=subprocess.DEVNULL,
            stderr=subprocess.DEVNULL,
            start_new_session=True,
        )
        os.close(heard)
        os.close(told)
        self.rest, self.number, self.session = b"", 0, ""
        self.events: list[dict[str, Any]] = []
        try:
            self.begin()
        except BaseException:
            self.end()
            raise
        return self

    def begin(self) -> None:
        target = self.ask("Target.createTarget", url="about:blank")["targetId"]
        attached = self.ask("Target.attachToTarget", targetId=target, flatten=True)
        self.session = attached["sessionId"]
        for domain in "Page", "Runtime", "Network", "Log":
            self.ask(f"{domain}.enable")
        self.ask("Page.setLifecycleEventsEnabled", enabled=True)

    def __exit__(
        self,
        kind: type[BaseException] | None,
        value: BaseException | None,
        at: TracebackType | None,
    ) -> None:
        self.end()

    def end(self) -> None:
        os.close(self.told)
        os.close(self.heard)
        os.killpg(self.process.pid, signal.SIGKILL)
        self.process.wait()
        self.folder.cleanup()

    def ask(self, method: str, **words: Any) -> dict[str, Any]:
        """Calls a method and gives its answer; what is told meanwhile is kept in `events`."""
        self.number += 1
        call = {"id": self.number, "method": method, "params": words}
        if self.session:
            call["sessionId"] = self.session
        os.write(self.told, json.dumps(call).encode() + b"\0")
        while True:
            said = self.next_message()
            if said.get("id") != self.number:
                self.events.append(said)
            elif "error" in said:
                raise RuntimeError(f"{method}: {said['error']}")
            else:
                return said["result"]

    def next_message(self) -> dict[str, Any]:
        while b"\0" not in self.rest:
            if not select.select([self.heard], [], [], LIMIT)[0]:
                raise RuntimeError(f"the browser says nothing for {LIMIT} seconds")
            read = os.read(self.heard, 1 << 16)
            if not read:
                raise RuntimeError("the browser has ended")
            self.rest += read
        message, _, self.rest = self.rest.partition(b"\0")
        return json.loads(message)

    def open(self, page: Path, width: int, *, is_dark: bool = False, height: int = 900) -> None:
        """Opens a page from the disk in a window of this size, and waits until it is loaded."""
        scheme = "dark" if is_dark else "light"
        self.ask(
            "Emulation.setEmulatedMedia",
            features=[{"name": "prefers-color-scheme", "value": scheme}],
        )
        self.ask(
            "Emulation.setDeviceMetricsOverride",
            width=width,
            height=height,
            deviceScaleFactor=1,
            mobile=width < 600,
        )
        self.events = []
        loader = self.ask("Page.navigate", url=page.resolve().as_uri())["loaderId"]
        while not any(is_loaded(event, loader) for event in self.events):
            self.events.append(self.next_message())

    def run(self, script: str) -> Any:
        """The value of an expression in the page."""
        answer = self.ask(
            "Runtime.evaluate", expression=script, returnByValue=True, awaitPromise=True
        )
        if "exceptionDetails" in answer:
            raise RuntimeError(answer["exceptionDetails"]["exception"]["description"])
        return answer["result"].get("value")

    def press(self, key: str) -> None:
        """Presses a key and lets it go."""
        for kind in "rawKeyDown", "keyUp":
            self.ask(
                "Input.dispatchKeyEvent",
                type=kind,
                key=key,
                code=key,
                windowsVirtualKeyCode=KEYS[key],
            )

    def faults(self) -> list[str]:
        """What went wrong in the page since it was opened: errors, and what the console says."""
        thrown = [
            event["params"]
            for event in self.events
            if event.get("method") == "Runtime.exceptionThrown"
        ]
        logged = [
            event["params"]["entry"]
            for event in self.events
            if event.get("method") == "Log.entryAdded"
        ]
        errors = [said["exceptionDetails"]["text"] for said in thrown]
        return errors + [entry["text"] for entry in logged]

    def requests(self) -> list[str]:
        """The addresses that the page asked for since it was opened."""
        asked = (
            event for event in self.events if event.get("method") == "Network.requestWillBeSent"
        )
        return [event["params"]["request"]["url"] for event in asked]

    def picture(self, file: Path) -> None:
        """Writes a picture of the whole page as PNG."""
        shot = self.ask("Page.captureScreenshot", captureBeyondViewport=True)
        file.write_bytes(base64.b64decode(shot["data"]))
