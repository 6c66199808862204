"""Chromium without a window: it opens addresses, clicks, types, and tells what is in a page. CHROMIUM="COMMAND" names another browser."""
import base64
import json
import os
import shlex
import shutil
import subprocess
import time
from collections.abc import Mapping
from pathlib import Path
from typing import Any

BROWSERS = ("chromium", "chromium-browser", "google-chrome")


def installed() -> list[str]:
    """The command that starts a browser. LookupError: there is none."""
    if named := os.environ.get("CHROMIUM"):
        return shlex.split(named)
    found = [name for name in BROWSERS if shutil.which(name)]
    if not found:
        raise LookupError("there is no chromium: apt-get install chromium")
    return found[:1]


class Browser:
    """Chromium, which is led over a pair of pipes.

    What it fetches by an address that ends with a name in `replaced` gets that text in place of what it was answered.
    """

    def __init__(self, folder: Path, replaced: Mapping[str, str]):
        self.replaced = replaced
        to_read, to_write = os.pipe()
        from_read, from_write = os.pipe()

        def hand_over() -> None:
            # Chromium takes commands from 3 and answers to 4; neither end may be one of these before.
            ours = [os.dup2(to_read, 20), os.dup2(from_write, 21)]
            for fd, number in zip(ours, (3, 4)):
                os.dup2(fd, number)

        words = ["--headless=new", "--no-sandbox", "--disable-gpu", "--hide-scrollbars", "--no-first-run", "--remote-debugging-pipe"]
        self.process = subprocess.Popen(
            [*installed(), *words, f"--user-data-dir={folder}", "about:blank"], close_fds=False, preexec_fn=hand_over,
            stdout=subprocess.DEVNULL, stderr=subprocess.DEVNULL,
        )
        os.close(to_read)
        os.close(from_write)
        self.out, self.inside = to_write, os.fdopen(from_read, "rb", buffering=0)
        self.held, self.number, self.session = b"", 0, ""
        self.told: list[dict[str, Any]] = []
        page = next(it for it in self.ask("Target.getTargets")["targetInfos"] if it["type"] == "page")
        self.session = self.ask("Target.attachToTarget", targetId=page["targetId"], flatten=True)["sessionId"]
        for domain in ("Page", "Runtime", "Log", "DOM"):
            self.ask(f"{domain}.enable")
        if replaced:
            self.ask("Fetch.enable", patterns=[{"urlPattern": f"*/{name}", "requestStage": "Response"} for name in replaced])

    def replace(self, paused: dict[str, Any]) -> None:
        """Gives the browser a text in place of what it was answered."""
        text = self.replaced[paused["request"]["url"].rpartition("/")[2]]
        self.send(
            "Fetch.fulfillRequest", requestId=paused["requestId"], responseCode=200, body=base64.b64encode(text.encode()).decode(),
            responseHeaders=[it for it in paused["responseHeaders"] if it["name"].lower() != "content-length"],
        )

    def read(self) -> dict[str, Any]:
        """The next message of the browser's."""
        while b"\0" not in self.held:
            more = self.inside.read(65536)
            assert more, "the browser ended"
            self.held += more
        message, _, self.held = self.held.partition(b"\0")
        said: dict[str, Any] = json.loads(message)
        return said

    def send(self, method: str, **params: Any) -> int:
        """Asks the browser to do something: under which number."""
        self.number += 1
        message = {"id": self.number, "method": method, "params": params, **({"sessionId": self.session} if self.session else {})}
        text = json.dumps(message).encode() + b"\0"
        while text:
            text = text[os.write(self.out, text):]
        return self.number

    def ask(self, method: str, **params: Any) -> Any:
        """Asks the browser to do something: what it answers."""
        number = self.send(method, **params)
        while True:
            said = self.read()
            if said.get("id") == number:
                assert "error" not in said, f"{method}: {said['error']}"
                return said["result"]
            if said.get("method") == "Fetch.requestPaused":
                self.replace(said["params"])
            self.told.append(said)

    def value(self, expression: str) -> Any:
        """What an expression is in the page."""
        said = self.ask("Runtime.evaluate", expression=expression, awaitPromise=True, returnByValue=True)
        assert "exceptionDetails" not in said, f"{expression}: {said['exceptionDetails']}"
        return said["result"].get("value")

    def until(self, expression: str, within: float = 5.0, told: str = "") -> None:
        """Waits until an expression holds in the page, for so many s; `told` is one whose value is shown where it doesn't."""
        over = time.monotonic() + within
        while not self.value(expression):
            assert time.monotonic() < over, f"{expression} within {within:g} s" + (f": {self.value(told)}" if told else "")
            time.sleep(0.005)

    def open(self, address: str) -> None:
        """Opens an address."""
        self.ask("Page.navigate", url=address)

    def open_file(self, path: Path, chooser: str = "file") -> None:
        """Chooses a file in the page's field with this id."""
        root = self.ask("DOM.getDocument")["root"]["nodeId"]
        node = self.ask("DOM.querySelector", nodeId=root, selector=f"#{chooser}")["nodeId"]
        self.ask("DOM.setFileInputFiles", nodeId=node, files=[str(path)])

    def choose(self, field: str, value: str | bool, kind: str = "change") -> None:
        """A field of the page gets another value, by a reader's hand."""
        what = "checked" if isinstance(value, bool) else "value"
        self.value(
            f"(() => {{ const field = document.getElementById({json.dumps(field)}); field.{what} = {json.dumps(value)};"
            f" field.dispatchEvent(new Event({json.dumps(kind)})); }})()"
        )

    def press(self, key: str) -> None:
        """Presses a key."""
        self.ask("Input.dispatchKeyEvent", type="keyDown", key=key, text=key if len(key) == 1 else "")
        self.ask("Input.dispatchKeyEvent", type="keyUp", key=key)

    def click(self, expression: str) -> None:
        """Clicks with the pointer in the middle of an element."""
        box = self.value(
            f"(async () => {{ const at = {expression}; at.scrollIntoView({{block: 'nearest'}});"
            " for (let frame = 0; frame < 3; frame += 1) { await new Promise(requestAnimationFrame); }"
            " const box = at.getBoundingClientRect(); return [box.x + box.width / 2, box.y + box.height / 2]; })()"
        )
        for kind in ("mousePressed", "mouseReleased"):
            self.ask("Input.dispatchMouseEvent", type=kind, x=box[0], y=box[1], button="left", clickCount=1)

    def size(self, width: int, height: int) -> None:
        """The window's size, in pixels."""
        self.ask("Emulation.setDeviceMetricsOverride", width=width, height=height, deviceScaleFactor=1, mobile=False)

    def shoot(self, folder: str, name: str) -> None:
        """Screenshots in both widths and both colours."""
        for width in (1280, 400):
            self.size(width, 900)
            for colour in ("light", "dark"):
                self.ask("Emulation.setEmulatedMedia", features=[{"name": "prefers-color-scheme", "value": colour}])
                picture = self.ask("Page.captureScreenshot", format="png")["data"]
                Path(folder, f"{name}_{width}_{colour}.png").write_bytes(base64.b64decode(picture))

    def faults(self) -> list[dict[str, Any]]:
        """What the page has complained about since this was asked last."""
        self.value("0")
        told, self.told = self.told, []
        return [it["params"] for it in told if it.get("method") in ("Runtime.exceptionThrown", "Log.entryAdded")]

    def end(self) -> None:
        """Ends the browser."""
        self.process.terminate()
        self.process.wait(20)
        self.inside.close()
        os.close(self.out)
