"""UDP sockets whose datagrams bring the moment at which they came, by the kernel's clock (SO_TIMESTAMPNS).

A moment is in seconds, as `time.monotonic` has it. So a program that reads late, on a slow machine, still judges what came when.

    >>> wire = Wire({"here": ("127.0.0.1", 0)})
    >>> wire.send("here", b"hello", wire.address("here")) is not None
    True
    >>> [it.data for it in wire.wait(time.monotonic() + 1)]
    [b'hello']
    >>> wire.close()
"""

import selectors
import socket
import struct
import time
from collections.abc import Mapping
from typing import NamedTuple

Address = tuple[str, int]

# Linux's numbers, which Python's socket hasn't.
SO_TIMESTAMPNS = 35
# A socket has room for so many bytes; by default it holds 277 small datagrams.
ROOM = 1 << 21
# At most so many datagrams are read from a socket at a time, so that a flood doesn't keep who reads from its own end.
MOST_AT_ONCE = 512
LONGEST_DATAGRAM = 65_536
_STAMP = struct.Struct("qq")


class Arrival(NamedTuple):
    """A datagram: the name of the socket to which it came, its bytes, who sent it, and when it came, in seconds of `time.monotonic`.

    `answered`: when another process has answered its commands; 0.0 where none has. `is_shared`: another process answers what of its
    commands nobody waits for."""

    port: str
    data: bytes
    source: Address
    moment: float
    answered: float = 0.0
    is_shared: bool = False


def address(text: str) -> Address:
    """The address that a text like `127.0.0.1:2427` or `localhost:2427` says.

    Raises ValueError for another text.
    """
    host, _, port = text.rpartition(":")
    try:
        given = socket.inet_ntoa(socket.inet_pton(socket.AF_INET, "127.0.0.1" if host == "localhost" else host))
    except OSError:
        given = ""
    if not given or not (port.isascii() and port.isdigit() and len(port) <= 5 and int(port) <= 65_535):
        raise ValueError(f"not an address, as a.b.c.d:port or localhost:port: {text!r}")
    return given, int(port)


def written(place: Address) -> str:
    """An address as text."""
    return f"{place[0]}:{place[1]}"


def open_socket(place: Address, room: int = ROOM) -> socket.socket:
    """A UDP socket at this address that doesn't block, and whose datagrams are stamped; port 0 is any free one.

    Raises OSError where the address can't be had.
    """
    made = socket.socket(socket.AF_INET, socket.SOCK_DGRAM)
    try:
        made.setsockopt(socket.SOL_SOCKET, SO_TIMESTAMPNS, 1)
        made.setsockopt(socket.SOL_SOCKET, socket.SO_RCVBUF, room)
        made.bind(place)
        made.setblocking(False)
    except BaseException:
        made.close()
        raise
    return made


def receive(by: socket.socket) -> tuple[bytes, Address, float] | None:
    """The next datagram of such a socket: its bytes, who sent it, and the moment at which it came; None where none waits."""
    while True:
        try:
            data, ancillary, _, source = by.recvmsg(LONGEST_DATAGRAM, 64)
        except BlockingIOError:
            return None
        except OSError:
            # (that something sent before wasn't delivered, as where nobody listens there)
            continue
        now, age = time.monotonic(), 0.0
        for level, kind, value in ancillary:
            if (level, kind) == (socket.SOL_SOCKET, SO_TIMESTAMPNS):
                seconds, nanoseconds = _STAMP.unpack(value[: _STAMP.size])
                age = time.time() - (seconds + nanoseconds / 1e9)
        return data, source, now - max(age, 0.0)


class Wire:
    """Sockets with names, and what comes to them."""

    def __init__(self, places: Mapping[str, Address]) -> None:
        """Opens a socket at each of these addresses, by its name. Raises OSError where one can't be had."""
        self.sockets: dict[str, socket.socket] = {}
        self._selector = selectors.DefaultSelector()
        # When each was empty last: what is read from it later can't have come before.
        self._empty: dict[str, float] = {}
        try:
            for name, place in places.items():
                made = self.sockets[name] = open_socket(place)
                self._selector.register(made, selectors.EVENT_READ, name)
                self._empty[name] = time.monotonic()
        except BaseException:
            self.close()
            raise

    def __repr__(self) -> str:
        return f"Wire({', '.join(f'{name}={written(self.address(name))}' for name in self.sockets)})"

    def address(self, port: str) -> Address:
        """The address of this socket."""
        host, number = self.sockets[port].getsockname()
        return host, number

    def send(self, port: str, data: bytes, to: Address) -> float | None:
        """Sends a datagram: when it went out, in seconds of `time.monotonic`; None where there was no room, or it was refused."""
        try:
            self.sockets[port].sendto(data, to)
        except OSError:
            return None
        return time.monotonic()

    def read(self) -> list[Arrival]:
        """What has come, of each socket at most `MOST_AT_ONCE` datagrams."""
        return [it for name in self.sockets for it in self._read(name)]

    def _read(self, name: str) -> list[Arrival]:
        came: list[Arrival] = []
        since, now = self._empty[name], time.monotonic()
        while len(came) < MOST_AT_ONCE:
            got = receive(self.sockets[name])
            if got is None:
                self._empty[name] = now
                break
            data, source, moment = got
            came.append(Arrival(name, data, source, max(moment, since)))
        return came

    def wait(self, until: float) -> list[Arrival]:
        """What has come by this moment, in seconds of `time.monotonic`, or comes first until then."""
        came = self.read()
        while not came:
            left = until - time.monotonic()
            if left <= 0:
                # (what came just before that moment)
                return self.read()
            self._selector.select(left)
            came = self.read()
        return came

    def claim(self, base: int, hears: bool, announces: bool) -> None:
        """A check begins: nothing is to be told to others, as `shared.SharedWire` has it."""

    def close(self) -> None:
        """Closes the sockets."""
        self._selector.close()
        for made in self.sockets.values():
            made.close()
