"""Follows what the telephones' socket of a gateway tells who watches: what each line is now, and since when.

A gateway numbers its changes. Where a number is missing, and at the start, all lines are asked for anew (`show *`). Where media of a
connection go isn't told by that, but by the gateway's page; where none is known it isn't either, until the connection changes.
"""
from __future__ import annotations

import re
import socket
import sys
import time
from collections.abc import Callable
from dataclasses import dataclass, field, replace
from typing import Any

# It is watched for so many seconds, and asked for that again after so many.
WATCHED, ASKED_AGAIN = 10, 2.0
MILLISECOND = 1_000_000
# What a clock shows that goes back by more, in nanoseconds, or came later by more and began since it was heard of, is another life's.
NEW_LIFE = 1_000 * MILLISECOND
WATCHING = re.compile(r"watching from (\d+) at (\d+)")
CHANGE = re.compile(r"change (\d+) at (\d+) line (\d+) (.+)")
BEGINS = re.compile(r"begins (\S+) until \S+")
ENDS = re.compile(r"ends (\S+)")
OVER = re.compile(r"connection (\S+) over")
STANDS = re.compile(r"connection (\S+) (\w+) (\S+) to (\S+) (\w+) (\d+)")
SHOWN = re.compile(r"line (\d+) (on|off) signals (\S+) connections (\S+) lost \d+")

Address = tuple[str, int]


def say(text: str) -> None:
    """Tells something on standard error."""
    print(f"voice: {text}", file=sys.stderr, flush=True)


def address_of(text: str) -> Address | None:
    """The address that a text is, as a.b.c.d:port."""
    host, _, port = text.rpartition(":")
    return (host, int(port)) if host and port.isdigit() else None


def text_of(address: Address | None) -> str:
    return "%s:%d" % address if address else "-"


@dataclass(frozen=True)
class Connection:
    """A connection as it was told last (RFC 3435, 2.3.5). Without `local` nobody told where its media go."""

    name: str
    mode: str
    local: Address | None = None
    remote: Address | None = None
    codec: str = "PCMU"
    packet_time: int = 20

    @property
    def sends(self) -> bool:
        return self.mode in ("sendonly", "sendrecv", "confrnce") and self.remote is not None

    @property
    def receives(self) -> bool:
        return self.mode in ("recvonly", "sendrecv", "confrnce")

    def __str__(self) -> str:
        return f"{self.mode} {text_of(self.local)} to {text_of(self.remote)} {self.codec} {self.packet_time}"


class Clock:
    """The clock of a gateway in one of its lives, in ms from its start, beside the machine's, in nanoseconds."""

    def __init__(self) -> None:
        # The machine's moment at which it was 0. Of what is told, the least late says that best.
        self.zero: int | None = None
        # What it showed at the latest, and the machine's moment at which it was heard of last.
        self.latest = self.heard = 0

    def set(self, at: int, now: int) -> None:
        zero = now - at * MILLISECOND
        self.zero = zero if self.zero is None else min(self.zero, zero)
        self.latest, self.heard = max(self.latest, at), now

    def is_over(self, at: int, now: int) -> bool:
        """Whether it is another life's clock that shows this now. One that was paused is only behind for a while."""
        if self.zero is None:
            return False
        zero = now - at * MILLISECOND
        return (self.latest - at) * MILLISECOND > NEW_LIFE or (zero - self.zero > NEW_LIFE and zero > self.heard)

    def time_of(self, at: int) -> int:
        """The machine's moment of one of its own."""
        return (self.zero or 0) + at * MILLISECOND

    def moment_of(self, time_then: int) -> int:
        """Its own moment of one of the machine's."""
        return (time_then - (self.zero or 0)) // MILLISECOND


@dataclass
class Line:
    """A line: its handset, its signals with the times at which they began, and its connections."""

    # When something changed here last: by the gateway's clock, and by the machine's.
    at: int = 0
    time: int = 0
    is_lifted: bool = False
    signals: dict[str, int] = field(default_factory=dict)
    connections: dict[str, Connection] = field(default_factory=dict)

    def change(self, at: int, time_then: int, what: str) -> None:
        """Something changed here, as a line of `watch` says."""
        self.at, self.time = at, time_then
        if what in ("on", "off"):
            self.is_lifted = what == "off"
        elif begins := BEGINS.fullmatch(what):
            self.signals[begins[1]] = time_then
        elif ends := ENDS.fullmatch(what):
            self.signals.pop(ends[1], None)
        elif over := OVER.fullmatch(what):
            self.connections.pop(over[1], None)
        elif stands := STANDS.fullmatch(what):
            name, mode, local, remote, codec, packet_time = stands.groups()
            self.connections[name] = Connection(name, mode, address_of(local), address_of(remote), codec, int(packet_time))

    def show(self, at: int, time_then: int, hook: str, signals: str, connections: str) -> None:
        """It is as an answer to `show` says, which doesn't say where media go: that is as it was, or isn't known."""
        names = [] if signals == "-" else [signal.rpartition(":")[0] for signal in signals.split(",")]
        modes = dict(held.split(":") for held in connections.split(",")) if connections != "-" else {}
        self.at, self.time, self.is_lifted = at, time_then, hook == "off"
        self.signals = {name: self.signals.get(name, time_then) for name in names}
        known = self.connections
        self.connections = {name: replace(known.get(name, Connection(name, mode)), mode=mode) for name, mode in modes.items()}

    def take_state(self, at: int, time_then: int, state: dict[str, Any]) -> None:
        """It is as the page says, which knows all."""
        self.at, self.time, self.is_lifted = at, time_then, state["hook"] == "off"
        self.signals = {signal["name"]: self.signals.get(signal["name"], time_then) for signal in state["signals"]}
        held = [
            Connection(f"{it['number']:X}", it["mode"], address_of(it["local"]), address_of(it["remote"]), it["codec"], it["ptime"])
            for it in state["connections"]
        ]
        self.connections = {connection.name: connection for connection in held}


# Takes a line of a gateway, by its number, that may be another since this time.
Settle = Callable[["Gateway", int, int], None]
# Takes a gateway that is heard of, or whose next life is.
Begin = Callable[["Gateway"], None]
# What the page of a gateway says that each line is, by the gateway's name, if one is known and answers.
AskPage = Callable[[str], "list[dict[str, Any]] | None"]


class Gateway:
    """A gateway that is watched."""

    def __init__(self, name: str, phones: Address, begin: Begin, settle: Settle, ask_page: AskPage):
        self.name, self.phones = name, phones
        self.begin, self.settle, self.ask_page = begin, settle, ask_page
        self.lines: dict[int, Line] = {}
        # The latest change's number.
        self.number: int | None = None
        self.clock = Clock()
        self.asked = 0.0
        self.said = ""
        # Whether a connection is known whose ends aren't.
        self.lacks_ends = False
        self.socket = socket.socket(socket.AF_INET, socket.SOCK_DGRAM)
        self.socket.setsockopt(socket.SOL_SOCKET, socket.SO_RCVBUF, 4_000_000)
        self.socket.connect(phones)
        self.socket.setblocking(False)

    def fileno(self) -> int:
        return self.socket.fileno()

    def send(self, text: str) -> None:
        try:
            self.socket.send(text.encode())
        except OSError as error:
            self.is_away(error)

    def ask_in_time(self, now: float) -> None:
        """Asks to watch on, where that is due."""
        if now - self.asked >= ASKED_AGAIN:
            self.asked = now
            self.send(f"watch {WATCHED}\n")

    def tell_once(self, text: str) -> None:
        if text != self.said:
            self.said = text
            if text:
                say(f"{self.name}: {text}")

    def is_away(self, error: OSError) -> None:
        """Nobody is there: its lines have nothing."""
        self.tell_once(f"no gateway answers at {text_of(self.phones)}: {error.strerror}")
        self.begin_anew(time.monotonic_ns())

    def begin_anew(self, now: int) -> None:
        """Its life is over: its lines have nothing, and the clock of another one isn't known."""
        self.lines = {number: Line(self.clock.moment_of(now), now) for number in self.lines}
        self.number, self.clock = None, Clock()

    def receive(self) -> None:
        """Takes what came, one datagram after the other: so what is over soon is seen, too."""
        while True:
            now = time.monotonic_ns()
            try:
                told = self.socket.recv(65536).decode("utf-8", "replace")
            except BlockingIOError:
                break
            except OSError as error:
                self.is_away(error)
                self.hand_on(set(self.lines), now)
                break
            self.hand_on({number for line in told.splitlines() for number in self.hear(line, now)}, now)
        if self.lacks_ends:
            self.hand_on(self.find_ends(now), now)

    def hand_on(self, changed: set[int], now: int) -> None:
        for number in sorted(changed):
            self.settle(self, number, now)

    def hear(self, text: str, now: int) -> set[int]:
        """Takes a line. The lines of the gateway that may be others now."""
        if change := CHANGE.fullmatch(text):
            return self.hear_change(int(change[1]), int(change[2]), int(change[3]), change[4], now)
        if watching := WATCHING.fullmatch(text):
            return self.hear_watching(int(watching[1]), int(watching[2]), now)
        if shown := SHOWN.fullmatch(text):
            return self.hear_shown(int(shown[1]), shown.groups()[1:], now)
        if text.startswith("!"):
            self.tell_once(f"refuses: {text}")
        return set()

    def hear_watching(self, next_number: int, at: int, now: int) -> set[int]:
        self.tell_once("")
        if self.clock.is_over(at, now):
            self.begin_anew(now)
        self.clock.set(at, now)
        if self.number is None:
            self.begin(self)
        if self.number is None or self.number + 1 != next_number:
            self.miss(self.number, next_number)
            self.number = next_number - 1
            self.send("show *\n")
        return set(self.lines)

    def hear_change(self, number: int, at: int, line: int, what: str, now: int) -> set[int]:
        if self.number is None or number <= self.number:
            return set()
        self.clock.set(at, now)
        if number > self.number + 1:
            self.miss(self.number, number)
            self.send("show *\n")
        self.number = number
        self.lines.setdefault(line, Line()).change(at, self.clock.time_of(at), what)
        return {line}

    def miss(self, number: int | None, heard: int) -> None:
        if number is not None:
            say(f"{self.name}: changes were lost behind {number}, {heard} is the next: all lines are asked for")

    def hear_shown(self, number: int, told: tuple[str, ...], now: int) -> set[int]:
        line = self.lines.setdefault(number, Line())
        line.show(self.clock.moment_of(now), now, *told)
        self.lacks_ends |= any(connection.local is None for connection in line.connections.values())
        return {number}

    def find_ends(self, now: int) -> set[int]:
        """Where media go wasn't told: the page knows it, if there is one. The lines that may be others now."""
        self.lacks_ends = False
        for number, state in enumerate(self.ask_page(self.name) or [], 1):
            self.lines.setdefault(number, Line()).take_state(self.clock.moment_of(now), now, state)
        for number, line in self.lines.items():
            unknown = [name for name, connection in line.connections.items() if connection.local is None]
            if unknown:
                say(f"{self.name}:{number}: where media of {', '.join(unknown)} go isn't known until that changes; --page would know")
        return set(self.lines)
