"""Several processes check one gateway side by side (`-n 4`): one socket at the agent's address, and turns for checks that want to be alone.

A gateway knows one address of its call agent. So one process, that of pytest's controller, holds it: a `Hub` passes what the workers send
to the gateway, and gives each of them what is its own. What the gateway says by itself and no worker's check waits for it answers with
200, also while a worker rests.
"""

import fcntl
import os
import secrets
import struct
import threading
import time
from collections.abc import Callable, Generator
from contextlib import contextmanager
from dataclasses import dataclass
from pathlib import Path

from . import mgcp
from .gateway import EARLIER_IDS, MOST_KEPT, OWN_IDS, Dead, OutOfTime
from .mgcp import Message
from .wire import Address, Arrival, Wire

# What stands before a datagram between hub and worker: a token, what it is, who it is from or to, when it came, and when the hub
# answered it.
_HEAD = struct.Struct("!16sB4sHdd")
# A datagram; what a worker's check waits for, and that the hub knows; one of the gateway's that the hub has answered.
_PASSED, _CLAIMED, _ANSWERED = range(3)
# What a worker's check waits for: the number before its ids, whether it hears what is notified, and what is announced.
_CLAIM = struct.Struct("!I??")
# So often a worker tells the hub, a second each, before it takes it for gone.
_MOST_CLAIMS = 10
# The hub looks so often whether it is to end, in seconds, and a worker whether it is its turn.
_LOOK = 0.2
_TURN = 0.01


def _packed(place: Address) -> tuple[bytes, int]:
    return bytes(map(int, place[0].split("."))), place[1]


def _unpacked(host: bytes, port: int) -> Address:
    return ".".join(map(str, host)), port


@dataclass
class Worker:
    """What a worker's check waits for."""

    base: int = 0
    hears: bool = False
    announces: bool = False

    def wants(self, message: Message) -> bool:
        """Whether its steps answer this command."""
        if message.verb == "RSIP":
            return self.announces
        x = message["X"] or ""
        is_own = x.isascii() and x.isdigit() and len(x) <= 9 and self.base < int(x) <= self.base + OWN_IDS
        return self.hears and message.verb == "NTFY" and (is_own or message["X"] is None)


class Hub(threading.Thread):
    """Holds the agent's address, for all workers."""

    def __init__(self, wire: Wire, gateway: Address) -> None:
        """`wire` has the agent's socket as `here`."""
        super().__init__(daemon=True, name="hub")
        self.wire, self.gateway = wire, gateway
        self.link, self.token = Wire({"link": ("127.0.0.1", 0)}), secrets.token_bytes(16)
        self.workers: dict[Address, Worker] = {}
        # What the gateway announced and was answered: each worker gets it, also one that comes later.
        self.announced: list[Arrival] = []
        self._is_open = True

    @property
    def key(self) -> str:
        """What a worker needs to find it."""
        return f"{self.link.address('link')[1]} {self.token.hex()}"

    def run(self) -> None:
        """Passes datagrams until it is closed."""
        to_gateway = threading.Thread(target=self._serve, args=(self.link, self._from_worker), daemon=True)
        to_gateway.start()
        self._serve(self.wire, self._from_gateway)
        to_gateway.join()

    def _serve(self, wire: Wire, take: Callable[[Arrival], None]) -> None:
        while self._is_open:
            for came in wire.wait(time.monotonic() + _LOOK):
                take(came)

    def _from_worker(self, came: Arrival) -> None:
        if len(came.data) < _HEAD.size or came.source[0] != "127.0.0.1":
            return
        token, kind, host, port, *_ = _HEAD.unpack(came.data[: _HEAD.size])
        data = came.data[_HEAD.size :]
        if not secrets.compare_digest(token, self.token):
            return
        if kind == _PASSED:
            self.wire.send("here", data, _unpacked(host, port))
        elif len(data) == _CLAIM.size:
            for early in self.announced if came.source not in self.workers else []:
                self._pass(early, came.source, _ANSWERED)
            self.workers[came.source] = Worker(*_CLAIM.unpack(data))
            self.link.send("link", came.data, came.source)

    def _pass(self, came: Arrival, to: Address, kind: int) -> None:
        self.link.send("link", _HEAD.pack(self.token, kind, *_packed(came.source), came.moment, came.answered) + came.data, to)

    def _from_gateway(self, came: Arrival) -> None:
        if came.source[0] != self.gateway[0]:
            return
        answers, takers, has_announcement = [], set[Address](), False
        for message in mgcp.messages(came.data):
            if isinstance(message, Message) and not message.is_response:
                wanted = [place for place, worker in self.workers.items() if worker.wants(message)]
                takers.update(wanted)
                answers += [] if wanted else [mgcp.response(200, message.id)]
                has_announcement = has_announcement or (message.verb == "RSIP" and not wanted)
            else:
                takers.update(self._takers(message))
        if answers:
            self.wire.send("here", mgcp.joined(answers), came.source)
        came = came._replace(answered=time.monotonic())
        if has_announcement and len(self.announced) < MOST_KEPT:
            self.announced.append(came)
        for place in list(self.workers) if has_announcement else takers:
            self._pass(came, place, _PASSED if place in takers else _ANSWERED)

    def _takers(self, message: Message | mgcp.NoMessage) -> list[Address]:
        """Who takes a response: whose check has its id; nobody where an earlier check had it; else all, and of what is no message, too."""
        bases = [worker.base for worker in self.workers.values()]
        if not isinstance(message, Message) or not bases:
            return list(self.workers)
        own = [place for place, worker in self.workers.items() if worker.base < message.id <= worker.base + OWN_IDS]
        is_earlier = min(bases) - EARLIER_IDS <= message.id <= max(bases) + OWN_IDS
        return own or ([] if is_earlier else list(self.workers))

    def close(self) -> None:
        """Ends it, and closes its sockets."""
        self._is_open = False
        if self.is_alive():
            self.join()
        self.link.close()
        self.wire.close()


class SharedWire:
    """The sockets of a worker: `here` is the agent's, by the hub; `there` is its own."""

    def __init__(self, own: Address, key: str) -> None:
        """Raises OSError where there is no socket."""
        port, token = key.split()
        self.own, self.hub, self.token = own, ("127.0.0.1", int(port)), bytes.fromhex(token)
        self.wire = Wire({"link": ("127.0.0.1", 0), "there": (own[0], 0)})
        self._early: list[Arrival] = []
        self._is_claimed = False

    def address(self, port: str) -> Address:
        """The address of this socket, as the gateway knows it."""
        return self.own if port == "here" else self.wire.address(port)

    def send(self, port: str, data: bytes, to: Address) -> float | None:
        """Sends a datagram: when it went out."""
        if port != "here":
            return self.wire.send(port, data, to)
        return self.wire.send("link", self._head(_PASSED, to) + data, self.hub)

    def _head(self, kind: int, to: Address) -> bytes:
        return _HEAD.pack(self.token, kind, *_packed(to), 0.0, 0.0)

    def claim(self, base: int, hears: bool, announces: bool) -> None:
        """Tells what the check waits for that begins, and waits until the hub knows. Raises Dead where there is none."""
        self._is_claimed = False
        for _ in range(_MOST_CLAIMS):
            self.wire.send("link", self._head(_CLAIMED, ("0.0.0.0", 0)) + _CLAIM.pack(base, hears, announces), self.hub)
            end = time.monotonic() + 1
            while not self._is_claimed and time.monotonic() < end:
                self._early += [it for came in self.wire.wait(end) for it in self._taken(came)]
            if self._is_claimed:
                return
        raise Dead("the process that holds the agent's address doesn't answer")

    def wait(self, until: float) -> list[Arrival]:
        """What has come by this moment, or comes first until then."""
        early, self._early = self._early, []
        return early or [it for came in self.wire.wait(until) for it in self._taken(came)]

    def _taken(self, came: Arrival) -> list[Arrival]:
        if came.port != "link":
            return [came]
        if came.source != self.hub or len(came.data) < _HEAD.size:
            return []
        _, kind, host, port, moment, answered = _HEAD.unpack(came.data[: _HEAD.size])
        if kind == _CLAIMED:
            self._is_claimed = True
            return []
        return [Arrival("here", came.data[_HEAD.size :], _unpacked(host, port), moment, answered if kind == _ANSWERED else 0.0, True)]

    def close(self) -> None:
        """Closes the sockets."""
        self.wire.close()


class Turns:
    """Who plays when: several at a time, or one alone. A folder that all processes have keeps it, by locks that end with a process."""

    def __init__(self, folder: Path, limit: float | None = None) -> None:
        """`limit`: the moment of `time.monotonic` after which nobody waits."""
        self.folder, self.limit = folder, limit

    @contextmanager
    def turn(self, is_alone: bool) -> Generator[None, None, None]:
        """Waits for a turn, and has it within. Who wants to be alone is waited for by those that come later. Raises OutOfTime."""
        with self._locked("door", fcntl.LOCK_EX) as door:
            played = os.open(self.folder / "played", os.O_RDWR | os.O_CREAT, 0o600)
            try:
                self._take(played, fcntl.LOCK_EX if is_alone else fcntl.LOCK_SH)
                fcntl.flock(door, fcntl.LOCK_UN)
                yield
            finally:
                os.close(played)

    @contextmanager
    def _locked(self, name: str, how: int) -> Generator[int, None, None]:
        made = os.open(self.folder / name, os.O_RDWR | os.O_CREAT, 0o600)
        try:
            self._take(made, how)
            yield made
        finally:
            os.close(made)

    def _take(self, file: int, how: int) -> None:
        while True:
            try:
                return fcntl.flock(file, how | fcntl.LOCK_NB)
            except BlockingIOError:
                if self.limit is not None and time.monotonic() >= self.limit:
                    raise OutOfTime from None
                time.sleep(_TURN)
