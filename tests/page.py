"""A gateway's page in a browser, and the gateway's call agent."""
import http.client
import json
import re
import threading
from importlib.machinery import SourceFileLoader
from importlib.util import module_from_spec, spec_from_loader
from pathlib import Path
from typing import Any

from browser import Browser
from running import FREE, TOP, Address, Bench, client, command, until


def tool(name: str) -> Any:
    """The module that a script of tools/ is."""
    loader = SourceFileLoader(name, f"{TOP}/tools/{name}")
    spec = spec_from_loader(name, loader)
    assert spec
    made = module_from_spec(spec)
    loader.exec_module(made)
    return made


def as_it_stands() -> dict[str, str]:
    """The files of page/ by the ends of their addresses."""
    files = tool("page_files")
    script = [f"{name}.js" for name in files.SCRIPT]
    return {end: files.text_of(names) for end, names in (("", ["index.html"]), ("page.css", ["page.css"]), ("page.js", script))}


class Agent(threading.Thread):
    """A call agent: it answers what the gateway sends, unless it is silent, and sends what it is told to."""

    def __init__(self) -> None:
        super().__init__(daemon=True)
        self.socket = client()
        self.heard: list[str] = []
        self.is_silent = False

    def run(self) -> None:
        self.socket.settimeout(None)
        while True:
            data, sender = self.socket.recvfrom(65536)
            text = data.decode().replace("\r\n", "\n")
            self.heard.append(text)
            for number in [] if self.is_silent else re.findall(r"^(?:NTFY|RSIP) (\d+) ", text, re.M):
                self.socket.sendto(f"200 {number} OK\r\n".encode(), sender)

    def hears(self, pattern: str) -> str:
        """The first message that has this."""
        def found() -> list[str]:
            return [it for it in list(self.heard) if re.search(pattern, it)]

        assert until(found), f"{pattern}: {self.heard[-3:]}"
        return found()[0]


class Page:
    """The page of a gateway with so many lines, and its agent."""

    def __init__(self, bench: Bench, browser: Browser, lines: int, is_silent: bool = False):
        self.browser, self.lines, self.agent, self.trace = browser, lines, Agent(), bench.folder / "trace"
        self.agent.is_silent = is_silent
        self.agent.start()
        config = Path(bench.config(self.agent.socket.getsockname()[1], lines=lines))
        config.write_text(re.sub("(?m)^restart_wait = .*", "restart_wait = 200", config.read_text()))
        with open(self.trace, "wb") as out:
            words = [*command("rgwd"), str(config), *FREE, "--http", "127.0.0.1:0", "--first", "0", "--trace"]
            self.gateway = bench.start(words, out=out)
        self.site: Address = self.gateway.addresses[2]
        browser.size(1280, 900)
        browser.open("http://%s:%d/" % self.site)
        browser.until(f"document.querySelectorAll('.phone').length === {lines}")

    def says(self, text: str) -> None:
        """The agent sends this."""
        self.agent.socket.sendto(text.replace("\n", "\r\n").encode(), self.gateway.address)

    def act(self, line: int, what: str) -> None:
        """A telephone is lifted or hung up, or a key of it is pressed, by the page's own function."""
        self.browser.value(f"act({line}, {json.dumps(what)})")

    def ask(self, method: str, path: str, body: bytes | None = None, **fields: str) -> tuple[int, str]:
        """The status and the body of an answer over HTTP."""
        return asked(self.site, method, path, body, **fields)

    def state(self) -> dict[str, Any]:
        """What the gateway tells of itself."""
        told: dict[str, Any] = json.loads(self.ask("GET", "/state")[1])
        return told


def asked(site: Address, method: str, path: str, body: bytes | None = None, **fields: str) -> tuple[int, str]:
    """The status and the body of an answer of a page; the field `Host` is its address by default."""
    connection = http.client.HTTPConnection(*site, timeout=5)
    connection.putrequest(method, path, skip_host=True)
    for name, value in {"Host": "%s:%d" % site, **fields}.items():
        connection.putheader(name.replace("_", "-"), value)
    if body is not None:
        connection.putheader("Content-Length", str(len(body)))
    connection.endheaders(body)
    answer = connection.getresponse()
    text = answer.read().decode()
    connection.close()
    return answer.status, text


# Expressions

def rows(text: str) -> str:
    """Whether a row of the ladder has this text."""
    return f"[...document.querySelectorAll('#ladder .row')].some((row) => row.textContent.includes({json.dumps(text)}))"


def card(line: int) -> str:
    """The telephone of a line."""
    return f"document.querySelector('.phone[data-line=\"{line}\"]')"


def text_of(field: str) -> str:
    """The text of the element with this id."""
    return f"document.getElementById('{field}')?.textContent"


def shown(selector: str) -> str:
    """Whether an element stands in the window, whole."""
    return (
        f"(() => {{ const box = document.querySelector({json.dumps(selector)}).getBoundingClientRect(); return box.height > 0"
        " && box.top >= 0 && box.left >= 0 && box.bottom <= innerHeight + 1 && box.right <= innerWidth + 1; })()"
    )


CONNECTED = f"{text_of('standing')} === 'page connected'"
# The texts of the rows that are shown; and their moments, peers, lines and texts.
SHOWN_ROWS = "[...document.querySelectorAll('#ladder li:not([hidden]) .label')].map((it) => it.textContent)"
SHOWN_TEXTS = "ladder.pane.wanted.map((row) => [row.at, row.kind, row.peer, row.line, row.text.trim()])"
# Whether a file is drawn.
FILE_DRAWN = f"/: \\d+ events?(,|$)/.test({text_of('standing')})"
# Whether the last row stands in the ladder, whole.
LAST_ROW = (
    "(() => { const list = document.getElementById('ladder'); const rows = list.querySelectorAll('li:not([hidden])');"
    " return rows[rows.length - 1].getBoundingClientRect().bottom <= list.getBoundingClientRect().bottom + 1; })()"
)
# What reaches out of the window or of what it stands in, of the page, the ladder and its rows, and names of lines that are cut.
CUT = """(() => {
  const list = document.getElementById('ladder');
  const cut = [document.documentElement, list].filter((it) => it.scrollWidth > it.clientWidth).map((it) => it.id || it.tagName);
  for (const row of list.querySelectorAll('.row, .said, .arrow, .at')) {
    const box = row.getBoundingClientRect();
    if (box.right > innerWidth || box.left < 0) { cut.push(row.textContent); }
  }
  for (const name of list.querySelectorAll('.command .name, .command .word')) {
    const [box, said] = [name.getBoundingClientRect(), name.closest('.said').getBoundingClientRect()];
    if (name.scrollWidth > name.clientWidth + 1 || box.right > said.right + 1 || box.left < said.left - 1) { cut.push(name.textContent); }
  }
  return cut;
})()"""
# From now on: the longest task, in ms.
HOLD = """
window.held = 0;
new PerformanceObserver((list) => list.getEntries().forEach((it) => { held = Math.max(held, it.duration); })).observe({ type: "longtask" });
"""
# In place of what plays: it keeps what it was given.
STUB = """
window.played = [];
window.contexts = 0;
window.AudioContext = class {
  constructor() { window.contexts += 1; this.sampleRate = 8000; this.destination = {}; }
  resume() {}
  suspend() {}
  createBuffer(channels, length, rate) {
    const samples = new Float32Array(length);
    return { length, rate, getChannelData: () => samples };
  }
  createBufferSource() {
    const source = { isOn: false, connect() {}, start() { source.isOn = true; }, stop() { source.isOn = false; } };
    window.played.push(source);
    return source;
  }
};
"""
