"""A proxy in front of a right gateway, which makes it faulty in one way.

Call agents take the front for the gateway. The gateway takes `home` for its call agent, and for each notified entity that it is told
of by N it gets a socket of the proxy's. What either sends goes through, changed as a `Fault` says.
"""
from __future__ import annotations

import heapq
import itertools
import re
import selectors
import socket
import threading
import time
from collections.abc import Callable, Iterable
from dataclasses import dataclass
from enum import Enum

Address = tuple[str, int]
# Commands that are remembered for the sake of their answers; the oldest is forgotten first.
MOST_REMEMBERED = 4096
# A notified entity at an address, as `ca@[127.0.0.1]:2727`: what stands before the address, the address, the port.
ENTITY = re.compile(r"(?mi)^(N:[ \t]*(?:[^@\r\n]*@)?)\[([0-9.]+)\]:([0-9]+)")


class To(Enum):
    """Where a message goes: to whoever it was for, to the agent that the gateway is configured for, or to the gateway."""

    MEANT, AGENT, GATEWAY = range(3)


def always() -> bool:
    """It is wanted."""
    return True


@dataclass(frozen=True)
class Out:
    """A message that goes out: where to, how much later, in s, whether from another port than the front, and whether it still does."""

    text: str
    to: To = To.MEANT
    later: float = 0.0
    is_elsewhere: bool = False
    is_wanted: Callable[[], bool] = always


def unchanged(message: str) -> str | None:
    """What the gateway hears of an agent's message: all of it."""
    return message


def as_it_came(message: str) -> Iterable[Out]:
    """What goes out in place of a message: that message alone."""
    return (Out(message),)


@dataclass
class Fault:
    """What is wrong with a gateway.

    `reads` gives what the gateway takes of the messages of a datagram, and `hears` what it hears of each, or nothing.
    `answers(command, response)` gives what goes out in place of a response, `says` what goes out in place of a command of the gateway's
    own. `then` gives what goes out besides, once the agent has sent a response.
    """

    reads: Callable[[list[str]], list[str]] = lambda them: them
    hears: Callable[[str], str | None] = unchanged
    answers: Callable[[str, str], Iterable[Out]] = lambda _, response: as_it_came(response)
    says: Callable[[str], Iterable[Out]] = as_it_came
    then: Callable[[str], Iterable[Out]] = lambda _: ()


def words(message: str) -> list[str]:
    """The words of a message's header; none where there is no header."""
    lines = message.strip().splitlines()
    return lines[0].split() if lines else []


def is_response(message: str) -> bool:
    """Whether a message begins as a response does."""
    return re.match(r"\s*[0-9]{3}[ \t]", message) is not None


def number(message: str) -> str:
    """A message's transaction id without leading zeros, or an empty text."""
    found = words(message)
    return found[1].lstrip("0") if len(found) > 1 else ""


def bound(address: Address) -> socket.socket:
    """A UDP socket at this address; port 0 is any free one."""
    made = socket.socket(socket.AF_INET, socket.SOCK_DGRAM)
    made.bind(address)
    return made


def free_port(host: str) -> int:
    """A UDP port that is free now."""
    with bound((host, 0)) as made:
        port: int = made.getsockname()[1]
        return port


class Proxy(threading.Thread):
    """Serves in a thread of its own until `close`; `fault` may be replaced at any time. Without `is_everywhere` what the gateway is told by
    N to send elsewhere goes there by itself."""

    def __init__(self, gateway: Address, agent: Address, host: str = "127.0.0.1", is_everywhere: bool = True) -> None:
        super().__init__(daemon=True)
        self.gateway, self.agent, self.fault, self.is_everywhere = gateway, agent, Fault(), is_everywhere
        self.selector = selectors.DefaultSelector()
        self.backs: dict[Address, socket.socket] = {}
        self.homes: dict[Address, socket.socket] = {}
        self.commands: dict[str, str] = {}
        self.due: list[tuple[float, int, socket.socket, Out, Address]] = []
        self.order = itertools.count()
        self.is_open = True
        self.front, self.home = self.opened(host, None), self.opened(host, agent)
        self.homes[agent] = self.home
        self.other = bound((host, 0))

    def opened(self, host: str, client: Address | None) -> socket.socket:
        """A socket that is listened at: by it `client` reaches the gateway, or, where there is none, agents reach the proxy."""
        made = bound((host, 0))
        self.selector.register(made, selectors.EVENT_READ, client)
        return made

    def back(self, client: Address) -> socket.socket:
        """The socket at which the gateway hears this client."""
        if client not in self.backs:
            self.backs[client] = self.opened(self.home.getsockname()[0], client)
        return self.backs[client]

    def named_here(self, message: str) -> str:
        """The message of an agent with the proxy's address in place of the notified entity's."""

        def here(found: re.Match[str]) -> str:
            client = (found[2], int(found[3]))
            if client not in self.homes:
                self.homes[client] = self.opened(self.home.getsockname()[0], client)
            host, port = self.homes[client].getsockname()
            return f"{found[1]}[{host}]:{port}"

        return ENTITY.sub(here, message) if self.is_everywhere else message

    def named_there(self, message: str) -> str:
        """The message of the gateway with the notified entity's address in place of the proxy's."""

        def there(found: re.Match[str]) -> str:
            place = (found[2], int(found[3]))
            host, port = next((it for it, made in self.homes.items() if made.getsockname() == place), place)
            return f"{found[1]}[{host}]:{port}"

        return ENTITY.sub(there, message)

    def take(self, datagram: bytes, client: Address) -> None:
        """An agent's datagram, on its way to the gateway."""
        heard = []
        for message in self.fault.reads(messages(datagram)):
            if is_response(message):
                self.send_all(self.fault.then(message), client)
            else:
                self.remember(message)
            changed = self.fault.hears(message)
            if changed is not None:
                heard.append(self.named_here(changed))
        if heard:
            self.back(client).sendto(joined(heard), self.gateway)

    def remember(self, command: str) -> None:
        """Keeps a command until its answer comes."""
        while len(self.commands) >= MOST_REMEMBERED:
            del self.commands[next(iter(self.commands))]
        self.commands[number(command)] = command

    def give(self, datagram: bytes, client: Address) -> None:
        """The gateway's datagram, on its way to an agent. What goes out at once stays one datagram."""
        outs: list[Out] = []
        for message in map(self.named_there, messages(datagram)):
            if is_response(message):
                outs += self.fault.answers(self.commands.get(number(message), ""), message)
            else:
                outs += self.fault.says(message)
        plain = [it for it in outs if it == Out(it.text)]
        if plain:
            self.front.sendto(joined([it.text for it in plain]), client)
        self.send_all((it for it in outs if it not in plain), client)

    def send_all(self, outs: Iterable[Out], client: Address) -> None:
        """Each goes out at its time."""
        for out in outs:
            by = self.home if out.to is To.GATEWAY else self.other if out.is_elsewhere else self.front
            to = {To.MEANT: client, To.AGENT: self.agent, To.GATEWAY: self.gateway}[out.to]
            heapq.heappush(self.due, (time.monotonic() + out.later, next(self.order), by, out, to))

    def run(self) -> None:
        while self.is_open:
            wait = min(0.1, max(0.0, self.due[0][0] - time.monotonic())) if self.due else 0.1
            for key, _ in self.selector.select(wait):
                ready = key.fileobj
                assert isinstance(ready, socket.socket)
                try:
                    datagram, source = ready.recvfrom(65536)
                except ConnectionError:
                    continue
                if key.data is None:
                    self.take(datagram, source)
                else:
                    self.give(datagram, key.data)
            while self.due and self.due[0][0] <= time.monotonic():
                _, _, by, out, to = heapq.heappop(self.due)
                if out.is_wanted():
                    by.sendto(out.text.encode("latin-1"), to)

    def close(self) -> None:
        """Ends the thread and closes its sockets."""
        self.is_open = False
        self.join()
        for made in (self.front, self.other, *self.homes.values(), *self.backs.values()):
            made.close()


def messages(datagram: bytes) -> list[str]:
    """The messages of a datagram, which lines of a single dot part (RFC 3435, 3.5.5)."""
    return re.split(r"(?m)^[ \t]*\.[ \t]*\r?\n", datagram.decode("latin-1"))


def joined(texts: list[str]) -> bytes:
    """Several messages as one datagram."""
    ended = [it if it.endswith("\n") else it + "\r\n" for it in texts[:-1]]
    return ".\r\n".join(ended + texts[-1:]).encode("latin-1")
