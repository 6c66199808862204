"""A right gateway with a proxy in front of it, and somebody who works its telephones and starts it anew."""
from __future__ import annotations

import re
import select
import socket
import subprocess
import threading
from pathlib import Path
from types import TracebackType

from gateways import DOMAIN, SOON, begun, rgwd

from .proxy import Address, Proxy, bound, free_port, number

HOST, LINES = "127.0.0.1", ("aaln/1", "aaln/2")
# Waits of the gateway's configuration, in ms.
RESTART_WAIT, DISCONNECTED_WAIT = 200, 1000


class Site:
    """`rgwd`, the proxy and the hook, from `with` to its end. Agents know the gateway at `gateway`, and it knows them at `own`.

    `hook` takes `act LINE ACT` and `restart` as datagrams, and answers `done`, or `! ` and why not.
    """

    def __init__(self, folder: Path, lines: int = len(LINES), is_everywhere: bool = True) -> None:
        self.folder, self.lines = folder, lines
        self.own: Address = (HOST, free_port(HOST))
        self.place: Address = (HOST, free_port(HOST))
        self.phones: Address = (HOST, free_port(HOST))
        self.proxy = Proxy(self.place, self.own, HOST, is_everywhere)
        self.gateway: Address = self.proxy.front.getsockname()
        self.asked = bound((HOST, 0))
        self.hook: Address = self.asked.getsockname()
        self.running: subprocess.Popen[bytes] | None = None
        self.is_open = True
        self.thread = threading.Thread(target=self.serve_hook, daemon=True)

    def __enter__(self) -> Site:
        self.configuration().write_text(
            f'domain = "{DOMAIN}"\nlines = {self.lines}\nagent = "ca@[{HOST}]:{self.proxy.home.getsockname()[1]}"\n'
            f"restart_wait = {RESTART_WAIT}\ndisconnected_wait = {DISCONNECTED_WAIT}\n"
            f'media_address = "{HOST}"\nmedia_base = 3000\n[names]\n'
        )
        self.start()
        self.proxy.start()
        self.thread.start()
        return self

    def __exit__(self, kind: type[BaseException] | None, value: BaseException | None, trace: TracebackType | None) -> None:
        self.is_open = False
        self.thread.join()
        self.proxy.close()
        self.asked.close()
        self.stop()

    def configuration(self) -> Path:
        """The file of the gateway's configuration."""
        return self.folder / "gateway.toml"

    def start(self) -> None:
        """Starts the gateway; RuntimeError where it doesn't say within `SOON` where it listens."""
        places = [f"{host}:{port}" for host, port in (self.place, self.phones)]
        words = [*rgwd(), str(self.configuration()), "--listen", places[0], "--phones", places[1]]
        self.running = begun(words, self.folder / "rgwd.log")

    def answer_announcement(self) -> None:
        """Answers the gateway's announcement in the call agent's place, so that it serves; TimeoutError where none comes within `SOON`."""
        with bound(self.own) as agent:
            agent.settimeout(SOON)
            datagram, source = agent.recvfrom(65536)
            agent.sendto(f"200 {number(datagram.decode('latin-1'))} OK\r\n".encode(), source)

    def stop(self) -> None:
        """Ends the gateway at once, as a loss of power does."""
        if self.running is not None:
            self.running.kill()
            self.running.wait()
            self.running = None

    def serve_hook(self) -> None:
        """Does what datagrams at `hook` ask for."""
        while self.is_open:
            if select.select([self.asked], [], [], 0.1)[0]:
                line, source = self.asked.recvfrom(4096)
                self.asked.sendto(self.done(line.decode("latin-1").strip()).encode("latin-1"), source)

    def done(self, line: str) -> str:
        """Does what a line asks for: what is answered."""
        if line == "restart":
            self.stop()
            self.start()
            return "done\n"
        with socket.socket(socket.AF_INET, socket.SOCK_DGRAM) as made:
            made.settimeout(2)
            made.connect(self.phones)
            made.send(re.sub("^act", "phone", line).encode("latin-1"))
            try:
                return made.recv(4096).decode("latin-1")
            except OSError as fault:
                return f"! {fault}\n"
