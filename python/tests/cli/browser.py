"""A browser that is driven through a pipe, by Python's standard library alone (Chrome DevTools Protocol)."""
from __future__ import annotations

import base64
import json
import os
import select
import shutil
import subprocess
import time
import unittest
from typing import Any

from .support import environment, path

Message = dict[str, Any]  # of the protocol, as JSON has it
WAIT = 30  # seconds for an answer
TOLD = ("Runtime.consoleAPICalled", "Runtime.exceptionThrown", "Log.entryAdded", "Page.javascriptDialogOpening")


def found() -> str | None:
    return shutil.which("chromium") or shutil.which("chromium-browser") or shutil.which("google-chrome")


def needed() -> None:
    if not found():
        raise unittest.SkipTest("no Chromium here: nothing is looked at in a browser")


class Browser:
    """One page of a browser without a window; `asked` has the addresses that it asked for, `told` what its console and
    its log said.
    """

    def __enter__(self) -> Browser:
        (to_read, self.out), (self.into, to_write) = os.pipe(), os.pipe()

        def place() -> None:
            # (the browser reads 3 and writes 4: what stands there is moved out of the way first)
            read, write = os.dup(to_read), os.dup(to_write)
            os.dup2(read, 3)
            os.dup2(write, 4)

        words = ["--headless", "--no-sandbox", "--disable-gpu", "--remote-debugging-pipe", "--no-first-run"]
        words += [f"--user-data-dir={path('browser')}", "--disable-background-networking", "about:blank"]
        program = found()
        assert program is not None  # (where there is none, none is begun)
        self.process = subprocess.Popen([program, *words], stdin=subprocess.DEVNULL, stdout=subprocess.DEVNULL,
                                        stderr=subprocess.DEVNULL, close_fds=False, preexec_fn=place, env=environment())
        os.close(to_read)
        os.close(to_write)
        self.asked: list[str]
        self.told: list[Message]
        self.session: str | None
        self.rest, self.number, self.asked, self.told, self.session = b"", 0, [], [], None
        target = self.call("Target.createTarget", url="about:blank")["targetId"]
        self.session = self.call("Target.attachToTarget", targetId=target, flatten=True)["sessionId"]
        for domain in ("Page", "Runtime", "Network", "Log"):
            self.call(f"{domain}.enable")
        return self

    def __exit__(self, *_: object) -> None:
        self.process.kill()
        self.process.wait()
        os.close(self.into)
        os.close(self.out)

    def read(self) -> Message:
        """The next message; what is told besides answers is noted."""
        while b"\0" not in self.rest:
            if not select.select([self.into], [], [], WAIT)[0]:
                raise TimeoutError("the browser")
            got = os.read(self.into, 1 << 20)
            if not got:
                raise EOFError("the browser ended")
            self.rest += got
        one, _, self.rest = self.rest.partition(b"\0")
        message: Message = json.loads(one)
        given = message.get("params", {})
        if message.get("method") == "Network.requestWillBeSent":
            self.asked.append(given["request"]["url"])
        elif message.get("method") in TOLD:
            self.told.append(given)
        return message

    def call(self, method: str, **given: Any) -> Any:
        self.number += 1
        message: Message = {"id": self.number, "method": method, "params": given}
        if self.session:
            message["sessionId"] = self.session
        os.write(self.out, json.dumps(message).encode() + b"\0")
        while True:
            answer = self.read()
            if answer.get("id") == self.number:
                if "error" in answer:
                    raise RuntimeError(answer["error"])
                return answer["result"]

    def open(self, url: str) -> None:
        self.call("Page.navigate", url=url)
        if not self.until(f"document.readyState === 'complete' && location.href === {json.dumps(url)}"):
            raise TimeoutError(url)

    def run(self, script: str) -> Any:
        """The value of an expression in the page."""
        result = self.call("Runtime.evaluate", expression=script, returnByValue=True)
        if "exceptionDetails" in result:
            raise RuntimeError(result["exceptionDetails"])
        return result["result"].get("value")

    def until(self, script: str) -> Any:
        """Waits until an expression is true, also over the loading of another page; answers its value."""
        ends = time.monotonic() + WAIT
        while time.monotonic() < ends:
            try:
                value = self.run(script)
            except RuntimeError:
                value = None
            if value:
                return value
            time.sleep(0.05)
        return None

    def key(self, key: str, code: str | None = None, text: str | None = None) -> None:
        given = {"key": key, "code": code or key,
                 "windowsVirtualKeyCode": {"Tab": 9, "Enter": 13, "Escape": 27}.get(key, 0)}
        self.call("Input.dispatchKeyEvent", type="keyDown", **given, **({"text": text} if text else {}))
        self.call("Input.dispatchKeyEvent", type="keyUp", **given)

    def type(self, text: str) -> None:
        self.call("Input.insertText", text=text)

    def wheel(self, of: str, turns: int) -> None:
        """Turns the wheel over the middle of an element, with Ctrl held."""
        script = f"(({{left, top, right, bottom}}) => [left + right, top + bottom])({of}.getBoundingClientRect())"
        x, y = self.run(f"{of}.scrollIntoView(), {script}")
        given = {"x": x / 2, "y": min(y / 2, 600), "deltaX": 0, "deltaY": turns, "modifiers": 2}
        self.call("Input.dispatchMouseEvent", type="mouseWheel", **given)

    def scheme(self, is_dark: bool) -> None:
        media = [{"name": "prefers-color-scheme", "value": "dark" if is_dark else "light"}]
        self.call("Emulation.setEmulatedMedia", features=media)

    def keep(self, name: str) -> None:
        """Keeps what the page looks like in light and in dark, as PNG, in the folder that TRY_PICTURES names."""
        folder = os.environ.get("TRY_PICTURES")
        if not folder:
            return
        os.makedirs(folder, exist_ok=True)
        for is_dark in (False, True):
            self.scheme(is_dark)
            given = self.call("Page.captureScreenshot", format="png", captureBeyondViewport=False)["data"]
            at = os.path.join(folder, f"{name.replace('/', '-')}-{'dark' if is_dark else 'light'}.png")
            with open(at, "wb") as file:
                file.write(base64.b64decode(given))
