"""Telephones of many gateways and their exchange in one thread: what rgwd and a call agent would tell, and nothing else."""
from __future__ import annotations

import os
import selectors
import socket
import threading
import time

CONNECTION = "connection A sendrecv 127.0.0.1:20000 to 127.0.0.2:20002 PCMU 20"


def host(number: int) -> str:
    """A loopback address of this process alone, so that several may test side by side."""
    return f"127.{100 + number}.{os.getpid() // 250 % 250 + 1}.{os.getpid() % 250 + 1}"


class StubGateway:
    """The telephones of a gateway: lines 1 to `lines`, each with a number, at a socket of this host."""

    def __init__(self, name: str, host: str, port: int, numbers: list[str]):
        self.name, self.numbers, self.next = name, numbers, 1
        self.socket = socket.socket(socket.AF_INET, socket.SOCK_DGRAM)
        self.socket.setsockopt(socket.SOL_SOCKET, socket.SO_RCVBUF, 1 << 20)
        self.socket.bind((host, port))
        self.socket.setblocking(False)
        self.place = self.socket.getsockname()
        self.watchers: list[tuple[str, int]] = []
        self.clear()

    @property
    def lines(self) -> int:
        return len(self.numbers)

    def clear(self) -> None:
        many = self.lines + 1
        self.keys = [""] * many
        self.peers: list[tuple[StubGateway, int] | None] = [None] * many
        self.states = ["idle"] * many
        self.hooks = ["on"] * many


class StubExchange(threading.Thread):
    """Serves telephones: off hook gives dial tone, a number of a line rings it, `9..` gives reorder tone, a lifted line is busy. What a
    test wants otherwise it changes: `mute` lines tell nothing, `deaf` ones ring nobody, `skip` numbers are left out of what is told."""

    def __init__(self, gateways: int, lines: int, host: str, first_port: int):
        super().__init__(daemon=True)
        self.began = time.monotonic()
        self.gateways = [
            StubGateway(f"gw{g}", host, first_port + g, [f"{g:03}{line:02}" for line in range(1, lines + 1)])
            for g in range(1, gateways + 1)
        ]
        self.by_number = {number: (it, line) for it in self.gateways for line, number in enumerate(it.numbers, 1)}
        self.selector = selectors.DefaultSelector()
        for it in self.gateways:
            self.selector.register(it.socket, selectors.EVENT_READ, it)
        self.is_open = True
        self.dial_tone_after = 0.0
        self.deaf = self.mute = self.cuts_off = False
        self.skip = 0
        self.refuses: set[str] = set()
        self.counts = "notifications 7 repeated 2\n"
        self.watch_refusal = ""
        self.calls: list[str] = []
        self.start()

    def __enter__(self) -> StubExchange:
        return self

    def __exit__(self, *_: object) -> None:
        self.is_open = False
        self.join()
        for it in self.gateways:
            it.socket.close()

    def places(self) -> dict[str, tuple[str, int]]:
        return {it.name: it.place for it in self.gateways}

    def config(self, own: str = "127.0.0.1:24999") -> str:
        """The configuration of its call agent, as rgca takes it."""
        rows = [f'own = "{own}"\ndigit_map = "xxxxx"\n']
        for it in self.gateways:
            numbers = ", ".join(f'"{number}"' for number in it.numbers)
            rows.append(f'[gateways."{it.name}.example.net"]\naddress = "{it.place[0]}:9"\nphones = "{it.place[0]}:{it.place[1]}"\n')
            rows.append(f"numbers = [{numbers}]\n")
        return "".join(rows)

    # What is told

    def now(self) -> int:
        return int((time.monotonic() - self.began) * 1000)

    def tell(self, it: StubGateway, line: int, *whats: str) -> None:
        it.next += self.skip
        self.skip = 0
        rows = [f"change {it.next + at} at {self.now()} line {line} {what}" for at, what in enumerate(whats)]
        it.next += len(rows)
        if not self.mute:
            for who in it.watchers:
                it.socket.sendto(("\n".join(rows) + "\n").encode(), who)

    def restart(self, it: StubGateway) -> None:
        """A new life of a gateway: nothing is known, and its clock begins anew (that of all)."""
        it.clear()
        it.next, it.watchers = 1, []
        self.began = time.monotonic()

    # What happens

    def act(self, it: StubGateway, line: int, what: str) -> None:
        self.calls.append(f"{it.name}:{line} {what}")
        if what in ("on", "off"):
            it.hooks[line] = what
        if what == "off":
            self.off(it, line)
        elif what == "on":
            self.on(it, line)
        elif what != "flash":
            self.key(it, line, what)

    def off(self, it: StubGateway, line: int) -> None:
        peer = it.peers[line]
        if it.states[line] == "rings" and peer:
            it.states[line] = "talks"
            self.tell(it, line, "off", "ends L/rg", CONNECTION)
            other, at = peer
            other.states[at] = "talks"
            self.tell(other, at, "ends G/rt", CONNECTION)
            if self.cuts_off:
                threading.Timer(0.1, self.cut_off, (other, at)).start()
        else:
            it.states[line], it.keys[line] = "dials", ""
            self.tell(it, line, "off")
            time.sleep(self.dial_tone_after)
            self.tell(it, line, "begins L/dl until 9")

    def cut_off(self, it: StubGateway, line: int) -> None:
        it.states[line] = "reorder"
        self.tell(it, line, "connection A over", "begins L/ro until 9")

    def on(self, it: StubGateway, line: int) -> None:
        was, peer = it.states[line], it.peers[line]
        it.states[line], it.peers[line] = "idle", None
        ends = {"talks": "connection A over", "reorder": "ends L/ro", "busy": "ends L/bz", "calls": "ends G/rt"}
        dials = ["ends L/dl"] if was == "dials" and not it.keys[line] else []
        self.tell(it, line, "on", *([ends[was]] if was in ends else dials))
        if was in ("talks", "calls") and peer:
            other, at = peer
            other.peers[at] = None
            if was == "calls":
                other.states[at] = "idle"
                self.tell(other, at, "ends L/rg")
            else:
                other.states[at] = "reorder"
                self.tell(other, at, "connection A over", "begins L/ro until 9")

    def key(self, it: StubGateway, line: int, key: str) -> None:
        if it.states[line] != "dials":
            return
        if not it.keys[line]:
            self.tell(it, line, "ends L/dl")
        it.keys[line] += key
        if len(it.keys[line]) < 5 or self.deaf:
            return
        found = self.by_number.get(it.keys[line])
        if found is None:
            it.states[line] = "reorder"
            return self.tell(it, line, "begins L/ro until 9")
        other, at = found
        if other.states[at] != "idle":
            it.states[line] = "busy"
            return self.tell(it, line, "begins L/bz until 9")
        it.peers[line], other.peers[at] = found, (it, line)
        it.states[line], other.states[at] = "calls", "rings"
        self.tell(other, at, "begins L/rg until -")
        self.tell(it, line, "begins G/rt until 9")

    # The sockets

    def run(self) -> None:
        while self.is_open:
            for key, _ in self.selector.select(0.05):
                self.serve(key.data)

    def serve(self, it: StubGateway) -> None:
        while True:
            try:
                data, who = it.socket.recvfrom(4096)
            except OSError:
                return
            words = data.decode().split()
            answer = self.answered(it, words, who)
            if answer:
                it.socket.sendto(answer.encode(), who)
            if words[:1] == ["phone"] and answer == "done\n":
                self.act(it, int(words[1]), words[2])

    def answered(self, it: StubGateway, words: list[str], who: tuple[str, int]) -> str:
        if words[:1] == ["watch"]:
            if self.watch_refusal:
                return self.watch_refusal
            if who not in it.watchers:
                it.watchers.append(who)
            return f"watching from {it.next} at {self.now()}\n"
        if words[:1] == ["show"]:
            return "".join(f"line {n} {it.hooks[n]} {self.shown(it, n)} lost 0\n" for n in range(1, it.lines + 1))
        if words[:1] == ["phone"]:
            line, what = int(words[1]), words[2]
            is_refused = what in self.refuses or (what in ("on", "off") and it.hooks[line] == what)
            return "! 5 PhoneState\n" if is_refused else "done\n"
        if words[:1] == ["counts"]:
            return self.counts
        return ""

    @staticmethod
    def shown(it: StubGateway, line: int) -> str:
        signals = {"dials": "L/dl:9", "rings": "L/rg:-", "calls": "G/rt:9", "reorder": "L/ro:9", "busy": "L/bz:9"}.get(it.states[line], "-")
        return f"signals {signals} connections {'A:sendrecv' if it.states[line] == 'talks' else '-'}"
