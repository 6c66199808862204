"""The telephones' socket of a gateway, followed: what it tells of its lines, and when that was by this machine's clock.

A gateway numbers its changes, so a missing number is a loss; then, at the start, and in a gateway's next life, all lines are asked
for anew (`show *`). Moments are in seconds of `time.monotonic`. Whatever a gateway sends is taken: what can't be read is counted.
"""
from __future__ import annotations

import math
import re
import socket
import threading
import time
from collections import deque
from collections.abc import Callable, Iterable, Mapping
from typing import Protocol

from .wire import Address, address, written

# It is watched for so long, in s: rgwd(8) has 60 at most.
WATCH = 60
# A line's number is no greater: rgwd(8) has 96.
MOST_LINES = 1000
# A gateway that doesn't answer is asked again after so long, and one whose clock is behind, in s.
ASK_AGAIN, BEHIND = 1.0, 0.01
# What no line of text has.
CONTROL = re.compile(r"[^\t\n\r -~]")


class Lost(Exception):
    """A gateway's telephones don't answer, refuse an act, or didn't tell all that changed: so nothing can be judged there."""


def place_of(given: str | Address) -> Address:
    """The address that `a.b.c.d:port` or `localhost:port` says, or that is given as a pair. ValueError: it is none that one can send to."""
    place = address(given if isinstance(given, str) else f"{given[0]}:{given[1]}")
    if not place[1]:
        raise ValueError(f"{written(place)}: wanted a port, 1 to 65535")
    return place


def text_of(data: bytes) -> str:
    """What a datagram says, in printable ASCII, tabs and line ends; `\\x1b` for another byte."""
    return CONTROL.sub(lambda found: f"\\x{ord(found[0]):02x}", data.decode("ascii", "backslashreplace"))


class Line(Protocol):
    """What is told of a line goes there; moments are in s."""

    def change(self, at: float, words: list[str]) -> None:
        """One thing changed, as these words of `watch` say."""

    def show(self, at: float, hook: str, signals: frozenset[str], modes: Mapping[str, str]) -> None:
        """The line is so."""


class Telephones:
    """The telephones of one gateway: its lines, the number of its next change, its clock, and what was lost of it."""

    def __init__(self, name: str, place: Address, send: Callable[[bytes, Address], object], made: Callable[[Telephones, int], Line]):
        self.name, self.place, self.send, self.made = name, place, send, made
        self.lines: dict[int, Line] = {}
        self.next: int | None = None
        # This machine's moment at which the gateway's clock was 0, and how far that may be off, in s.
        self.zero, self.clock_error = 0.0, math.inf
        # Up to when all that changed there is known.
        self.known_until = -math.inf
        self.heard = -math.inf
        self.changes_lost = self.refused = self.unread = self.answers = 0
        self.refusal = ""
        self.is_shown = False
        self.asked: deque[float] = deque(maxlen=64)
        self.changed = threading.Condition()
        self.idle: list[socket.socket] = []

    # What is asked

    def watch(self) -> None:
        """Asks to be told what changes for the next 60 s."""
        self.asked.append(time.monotonic())
        self.send(b"watch %d" % WATCH, self.place)

    def ask(self, text: str, timeout: float = 2.0) -> str:
        """The answer to a line, in a datagram of its own. Lost: none came within `timeout` s."""
        made = self.idle.pop() if self.idle else self.connected()
        try:
            made.settimeout(timeout)
            made.send(text.encode())
            answer = text_of(made.recv(65536)).strip()
        except (TimeoutError, ConnectionError):
            # (so what comes late answers nothing else)
            made.close()
            raise Lost(f"{self.name}: {text}: no answer from {written(self.place)} within {timeout:g} s") from None
        self.idle.append(made)
        return answer

    def connected(self) -> socket.socket:
        made = socket.socket(socket.AF_INET, socket.SOCK_DGRAM)
        made.connect(self.place)
        return made

    def know(self, until: float, within: float = 5.0) -> bool:
        """Waits until all is known that changed there up to the moment `until`: however late this program reads, that is exact. False: the
        gateway didn't answer, or its clock wasn't so far, within so many s after that moment."""
        end = max(time.monotonic(), until) + within
        time.sleep(max(0.0, until - time.monotonic()))
        with self.changed:
            while self.known_until < until and time.monotonic() < end:
                before = self.answers
                self.watch()
                if self.changed.wait_for(lambda: self.answers > before, ASK_AGAIN) and self.known_until < until:
                    # (its clock is behind)
                    self.changed.wait(BEHIND)
            return self.known_until >= until

    def close(self) -> None:
        """Ends the watch."""
        self.send(b"watch 0", self.place)
        self.forget()

    def forget(self) -> None:
        """Closes sockets that wait for the next line."""
        for made in self.idle:
            made.close()
        self.idle = []

    # What is told

    def hear(self, data: bytes, moment: float) -> None:
        """Takes a datagram that came at this moment."""
        for row in text_of(data).splitlines():
            words = row.split()
            try:
                self.take(words, moment)
            except (ValueError, IndexError):
                self.unread += 1
        # (a datagram has all lines that were asked for)
        if self.lines and not self.is_shown:
            with self.changed:
                self.is_shown = True
                self.changed.notify_all()

    def take(self, words: list[str], moment: float) -> None:
        """Takes a line. ValueError, IndexError: it is none that rgwd(8) has."""
        if words[0] == "change":
            self.take_change(int(words[1]), int(words[3]), int(words[5]), words[6:])
        elif words[0] == "line":
            self.take_shown(words, moment)
        elif words[0] == "watching":
            self.take_watching(int(words[2]), int(words[4]) / 1000, moment)
        elif words[0] == "!":
            self.refuse(" ".join(words))
        elif words != ["done"]:
            raise ValueError(words[0])

    def refuse(self, text: str) -> None:
        with self.changed:
            if "watch" in text or "loopback" in text:
                self.refusal = text
            elif text.startswith("! 1 "):
                # (it tells nothing more until it is asked again)
                self.watch()
            else:
                self.refused += 1
            self.changed.notify_all()

    def take_watching(self, number: int, clock: float, moment: float) -> None:
        asked = self.asked.popleft() if self.asked else moment
        way = moment - asked
        zero, error = asked + way / 2 - clock, way / 2 + 0.001
        with self.changed:
            is_new_life = self.next is not None and (number < self.next or zero - error > self.heard)
            if is_new_life or error < self.clock_error:
                self.zero, self.clock_error = zero, error
            if is_new_life or number != self.next:
                self.miss(number, is_new_life)
            self.known_until = self.zero + clock
            self.heard = moment
            self.answers += 1
            self.changed.notify_all()

    def miss(self, number: int, is_new_life: bool = False) -> None:
        """The next change has this number, and another was due: how lines are has to be asked anew."""
        if self.next is not None and not is_new_life:
            self.changes_lost += max(1, number - self.next)
        self.next = number
        self.send(b"show *", self.place)

    def take_change(self, number: int, clock: int, line: int, words: list[str]) -> None:
        if self.next is None:
            return
        if number != self.next:
            self.miss(number)
        self.next = number + 1
        its = self.lines.get(line)
        if its is not None:
            its.change(self.zero + clock / 1000, words)

    def take_shown(self, words: list[str], moment: float) -> None:
        number, hook = int(words[1]), words[2]
        if not 1 <= number <= MOST_LINES or hook not in ("on", "off") or words[3] != "signals" or words[5] != "connections":
            raise ValueError(words[1])
        signals = frozenset(it.rpartition(":")[0] or it for it in parts(words[4]))
        modes = dict((it.partition(":")[::2]) for it in parts(words[6]))
        with self.changed:
            its = self.lines.setdefault(number, self.made(self, number))
            self.changed.notify_all()
        its.show(moment, hook, signals, modes)


def parts(text: str) -> Iterable[str]:
    return [] if text == "-" else text.split(",")
