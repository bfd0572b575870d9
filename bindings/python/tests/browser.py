"""A browser, which is asked by its own protocol, over two pipes."""

from __future__ import annotations

import fcntl
import json
import os
import shutil
import subprocess
import time

BROWSER = shutil.which("chromium") or shutil.which("chromium-browser")
FLAGS = "--headless --no-sandbox --disable-gpu --remote-debugging-pipe"


class Browser:
    """A browser with one page, which keeps what it has to keep in a folder, and runs so many seconds at most; it is asked, and tells what
    happens."""

    def __init__(self, folder=".", seconds=120):
        first, self.asks = os.pipe()
        self.answers, second = os.pipe()
        inside, outside = (fcntl.fcntl(fd, fcntl.F_DUPFD, 10) for fd in (first, second))
        line = f"exec timeout {seconds} {BROWSER} {FLAGS} --user-data-dir=profile 3<&{inside} 4>&{outside} > browser.out 2>&1"
        self.process = subprocess.Popen(["bash", "-c", line], cwd=folder, pass_fds=(inside, outside))
        for fd in (first, second, inside, outside):
            os.close(fd)
        self.told, self.heard, self.number, self.session = self.messages(), [], 0, {}
        target = self.ask("Target.createTarget", url="about:blank")["targetId"]
        self.session = {"sessionId": self.ask("Target.attachToTarget", targetId=target, flatten=True)["sessionId"]}
        for domain in ("Page", "Log"):
            self.ask(f"{domain}.enable")

    def messages(self):
        left = b""
        while part := os.read(self.answers, 1 << 16):
            *whole, left = (left + part).split(b"\0")
            yield from map(json.loads, whole)

    def until(self, is_meant):
        """The first message that is meant."""
        while not any(map(is_meant, self.heard)):
            self.heard.append(next(self.told))
        return self.heard.pop([is_meant(message) for message in self.heard].index(True))

    def until_event(self, name, **values):
        return self.until(lambda message: message.get("method") == name and values.items() <= message["params"].items())

    def ask(self, method, **words):
        self.number += 1
        number = self.number
        os.write(self.asks, json.dumps({"id": number, "method": method, "params": words, **self.session}).encode() + b"\0")
        return self.until(lambda message: message.get("id") == number)["result"]

    def value(self, expression):
        """The value of an expression; of a promise what it comes to."""
        return self.ask("Runtime.evaluate", expression=expression, returnByValue=True, awaitPromise=True)["result"].get("value")

    def wait(self, expression, value):
        """The value of an expression, once it is this one, or half a minute has passed."""
        end = time.monotonic() + 30
        while (found := self.value(expression)) != value and time.monotonic() < end:
            time.sleep(0.05)
        return found

    def click(self, thing):
        self.value(f"{thing}.scrollIntoView({{block: 'center'}})")
        x, y = self.value(f"(box => [box.x + box.width / 2, box.y + box.height / 2])({thing}.getBoundingClientRect())")
        for kind in ("mousePressed", "mouseReleased"):
            self.ask("Input.dispatchMouseEvent", type=kind, x=x, y=y, button="left", clickCount=1)

    def names(self):
        """The names of the images that the index shows."""
        return self.value("[...document.querySelectorAll('#images tbody tr:not([hidden])')].map(row => row.cells[0].innerText)")

    def open(self, address):
        self.ask("Page.navigate", url=address)
        self.until_event("Page.loadEventFired")

    def close(self):
        self.session = {}
        self.ask("Browser.close")
        self.process.wait(60)
