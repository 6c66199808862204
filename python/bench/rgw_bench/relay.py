"""A bad network for MGCP, or any UDP: a relay between an agent and gateways, with a fate for each datagram, by direction.

    relay = Relay({("127.0.0.1", 3427): ("127.0.0.1", 2427)}, home=("127.0.0.1", 2727), agent=("127.0.0.1", 3727),
                  inward=spoilt("lose 20%, seed 1"), outward=spoilt("late 0-2000"))
    relay.start()
    ...
    relay.close()

The agent takes the gateway for one at 127.0.0.1:3427, a front; the gateway is configured for an agent at 127.0.0.1:2727, the home. What
comes to a front goes inward, what comes from a gateway outward. A fate is any function of a datagram and its moment (in s of
`time.monotonic`) that gives the delays, in s, of the copies that arrive: none where it is lost. What an N in a command sends elsewhere
bypasses the relay. Media go directly.
"""
from __future__ import annotations

import contextlib
import functools
import heapq
import itertools
import random
import re
import selectors
import socket
import threading
import time
from collections.abc import Callable, Mapping, Sequence
from dataclasses import dataclass
from typing import Any

from .answers import Answers, heads
from .mgcp import joined, response, shown, split
from .wire import ROOM, Address, written

Fate = Callable[[bytes, float], Sequence[float]]

# So many bytes and datagrams are on their way at most; what would come on top is dropped, and counted.
MOST_BYTES, MOST_DATAGRAMS = 1 << 26, 1 << 16
# So many others than the agent may speak to gateways through it; then the one that is silent longest is forgotten.
MOST_CLIENTS = 64
# So many datagrams are read from a socket at a time.
MOST_AT_ONCE = 64
MOST_LATE = 10_000
PART = re.compile(r"(lose|copy) ([0-9]{1,3})%|(late) ([0-9]{1,5})-([0-9]{1,5})|(seed) ([0-9]{1,18})")


def clean(data: bytes, moment: float) -> Sequence[float]:
    """The fate of a good network: one copy, at once."""
    return (0.0,)


def parts_of(text: str) -> dict[str, tuple[int, int]]:
    """What `lose 20%, copy 10%, late 0-2000, seed 7` says, by its parts. ValueError: a part is none, or stands there twice."""
    wanted = {"lose": "0% to 100%", "copy": "0% to 100%", "late": f"FROM-TO in ms, {MOST_LATE} at most", "seed": "a number"}
    said: dict[str, tuple[int, int]] = {}
    for part in filter(None, (it.strip() for it in text.split(","))):
        found = PART.fullmatch(part)
        name = part.split()[0]
        if not found or name in said:
            raise ValueError(f"{part}: wanted {f'{name} {wanted[name]}, once' if name in wanted else 'lose, copy, late or seed'}")
        numbers = [int(it) for it in found.groups() if it and it.isdigit()]
        said[name] = (numbers[0], numbers[-1])
    for name, (least, most) in said.items():
        if not least <= most <= {"lose": 100, "copy": 100, "late": MOST_LATE}.get(name, most):
            raise ValueError(f"{text}: wanted {name} {wanted[name]}")
    return said


def spoilt(text: str, direction: str = "") -> Fate:
    """The fate by a text of one direction: `lose 20%, copy 10%, late 0-2000, seed 7`. Parts may be left out; times are in ms, and the seed
    is 1 by default. Each datagram takes four draws, so a change of one number leaves what the others draw. With the name of a direction
    another sequence is drawn from the same seed.

    ValueError: a part is none, or stands there twice.
    """
    said = parts_of(text)
    lose, copy = said.get("lose", (0, 0))[0], said.get("copy", (0, 0))[0]
    least, most = said.get("late", (0, 0))
    seed = said.get("seed", (1, 1))[0]
    draws = random.Random(f"{seed} {direction}" if direction else seed)

    def fate(data: bytes, moment: float) -> Sequence[float]:
        lost, copied, *places = (draws.random() for _ in range(4))
        late = [(least + (most - least) * place) / 1000 for place in places]
        return () if lost * 100 < lose else late if copied * 100 < copy else late[:1]

    return fate


def by_direction(text: str) -> tuple[Fate, Fate]:
    """The fates inward and outward by a text as rgwd's --network has: `in lose 20%, out late 0-2000, seed 7`. A part is for both
    directions, or for one after `in` or `out`. Each direction draws from a sequence of its own.

    ValueError: a part is none, or stands there twice for a direction.
    """
    said: dict[str, list[str]] = {"in": [], "out": []}
    for part in filter(None, (it.strip() for it in text.split(","))):
        word, _, rest = part.partition(" ")
        if part in said:
            raise ValueError(f"{part}: wanted lose, copy, late or seed after it")
        for direction in (word,) if word in said else said:
            said[direction].append(rest.strip() if word in said else part)
    inward, outward = (spoilt(", ".join(parts), direction) for direction, parts in said.items())
    return inward, outward


@dataclass
class Way:
    """What became of the datagrams of one direction."""

    fate: Fate
    answers: Answers
    datagrams: int = 0
    lost: int = 0
    copied: int = 0
    late: int = 0

    def told(self) -> dict[str, int]:
        return {name: getattr(self, name) for name in ("datagrams", "lost", "copied", "late")}


@dataclass
class Due:
    """A datagram on its way: by which socket it goes on, to whom, and between whom it is."""

    data: bytes
    by: socket.socket
    to: Address | None
    who: tuple[Address, Address | None]
    is_inward: bool


class Relay(threading.Thread):
    """Relays in a thread of its own from `start` until `close`, or in the caller's by `run`. What it counts stands in `told()`."""

    def __init__(
        self, ways: Mapping[Address, Address], home: Address, agent: Address | None = None, inward: Fate = clean, outward: Fate = clean,
        answers_rsip: bool = False, note: Callable[[str], object] | None = None,
    ):
        """A relay whose fronts and gateways are `ways`. Without an agent that is who speaks first to a front. With `answers_rsip` it
        answers each RSIP by 200 in the agent's place, who doesn't hear of it. `note` takes a line of text for each datagram.

        ValueError: there is no way, or two are to one gateway. OSError: a socket can't be opened at an address.
        """
        super().__init__(daemon=True)
        if not ways or len(set(ways.values())) < len(ways):
            raise ValueError("wanted a front for each gateway, and each gateway once")
        self.agent, self.answers_rsip, self.note = agent, answers_rsip, note
        self.inward, self.outward = Way(inward, Answers()), Way(outward, Answers())
        self.ways, self.front_of = dict(ways), {gateway: front for front, gateway in ways.items()}
        self.selector = selectors.DefaultSelector()
        self.due: list[tuple[float, int, Due]] = []
        self.order, self.bytes_due = itertools.count(), 0
        self.strangers = self.dropped = self.refused = self.rsip_answered = 0
        self.begun, self.is_open = time.monotonic(), True
        # Who reads what it counted does so between two turns.
        self.lock = threading.Lock()
        self.clients: dict[tuple[Address, Address], socket.socket] = {}
        self.fronts: dict[Address, socket.socket] = {}
        try:
            for front in ways:
                self.fronts[front] = self.opened(front, functools.partial(self.inward_came, front))
            self.home = self.opened(home, self.outward_came)
        except OSError:
            self.close()
            raise

    # Sockets

    def opened(self, place: Address, take: Callable[[bytes, Address], None]) -> socket.socket:
        made = socket.socket(socket.AF_INET, socket.SOCK_DGRAM)
        try:
            made.setsockopt(socket.SOL_SOCKET, socket.SO_RCVBUF, ROOM)
            made.setblocking(False)
            made.bind(place)
        except OSError as fault:
            made.close()
            raise OSError(fault.errno, f"no socket at {written(place)}: {fault.strerror}") from None
        self.selector.register(made, selectors.EVENT_READ, take)
        return made

    def back(self, front: Address, client: Address) -> socket.socket:
        """The socket by which the gateway behind this front hears a client: the agent's is the home."""
        if self.agent is None:
            self.agent = client
        if client == self.agent:
            return self.home
        made = self.clients.pop((front, client), None)
        if made is None:
            made = self.opened((self.home.getsockname()[0], 0), functools.partial(self.answer_came, front, client))
            while len(self.clients) >= MOST_CLIENTS:
                oldest = self.clients.pop(next(iter(self.clients)))
                self.selector.unregister(oldest)
                oldest.close()
        self.clients[front, client] = made
        return made

    # What comes

    def inward_came(self, front: Address, data: bytes, source: Address) -> None:
        """An agent, or another client, sent this to a gateway's front."""
        by = self.back(front, source)
        self.offer(Due(data, by, self.ways[front], (front, source), True))

    def outward_came(self, data: bytes, source: Address) -> None:
        """A gateway sent this to the home: it goes to the agent, by the gateway's front."""
        front = self.front_of.get(source) or (next(iter(self.ways)) if len(self.ways) == 1 else None)
        if front is None:
            self.strangers += 1
            return
        self.offer(Due(data, self.fronts[front], self.agent, (front, self.agent), False))

    def answer_came(self, front: Address, client: Address, data: bytes, source: Address) -> None:
        """A gateway sent this to a client that isn't the agent."""
        self.offer(Due(data, self.fronts[front], client, (front, client), False))

    def offer(self, due: Due) -> None:
        """Draws the fate of a datagram."""
        moment = time.monotonic()
        way, other = (self.inward, self.outward) if due.is_inward else (self.outward, self.inward)
        way.answers.came(due.who, due.data, moment)
        other.answers.answered(due.who, due.data, moment)
        delays = tuple(way.fate(due.data, moment))
        way.datagrams += 1
        way.lost += not delays
        way.copied += len(delays) > 1
        way.late += any(delays)
        if self.note:
            self.note(f"{'in ' if due.is_inward else 'out'} {written(due.who[0])} {fate_text(delays)}{shown(due.data)}")
        for delay in delays:
            self.put(moment + max(0.0, delay), due)

    def put(self, moment: float, due: Due) -> None:
        if len(self.due) >= MOST_DATAGRAMS or self.bytes_due + len(due.data) > MOST_BYTES:
            self.dropped += 1
            return
        self.bytes_due += len(due.data)
        heapq.heappush(self.due, (moment, next(self.order), due))

    # What goes on

    def hand_on(self, due: Due) -> None:
        way = self.inward if due.is_inward else self.outward
        way.answers.passed(due.who, due.data, time.monotonic())
        data = due.data
        if self.answers_rsip and not due.is_inward:
            data = self.without_rsip(due)
        if due.to is None:
            # (there is no agent yet)
            self.strangers += bool(data)
            return
        with contextlib.suppress(OSError):
            if data or not due.data:
                due.by.sendto(data, due.to)
            return
        self.refused += 1

    def without_rsip(self, due: Due) -> bytes:
        """What is left of a datagram for the agent, once each RSIP in it is answered."""
        asked = [number for word, number in heads(due.data) if word == "RSIP"]
        for number in asked:
            self.rsip_answered += 1
            front = due.who[0]
            self.offer(Due(response(200, number), self.home, self.ways[front], due.who, True))
        if not asked:
            return due.data
        return joined(part for part in split(due.data) if not any(word == "RSIP" for word, _ in heads(part)))

    def turn(self, longest: float = 0.2) -> None:
        """Takes what comes within `longest` s, and hands on what is due."""
        wait = min(longest, max(0.0, self.due[0][0] - time.monotonic())) if self.due else longest
        ready = self.selector.select(wait)
        with self.lock:
            for key, _ in ready:
                self.read(key.fileobj, key.data)  # type: ignore[arg-type]
            while self.due and self.due[0][0] <= time.monotonic():
                due = heapq.heappop(self.due)[2]
                self.bytes_due -= len(due.data)
                self.hand_on(due)

    def read(self, its: socket.socket, take: Callable[[bytes, Address], None]) -> None:
        for _ in range(MOST_AT_ONCE):
            try:
                data, source = its.recvfrom(65536)
            except BlockingIOError:
                return
            except OSError:
                # (nobody was there for what was sent before, or it is closed)
                continue
            take(data, source)

    def run(self) -> None:
        """Relays until it is closed."""
        while self.is_open:
            self.turn()

    def close(self) -> None:
        """Ends it, and closes its sockets; what is on its way is dropped."""
        self.is_open = False
        if self.is_alive():
            self.join()
        for key in list(self.selector.get_map().values()) if self.selector.get_map() else []:
            key.fileobj.close()  # type: ignore[union-attr]
        self.selector.close()

    def told(self) -> dict[str, Any]:
        """What it counted: by direction, datagrams, and how many were lost, copied and late; by verb, how fast commands were answered, from
        when the first copy was handed on, and by whom sent again (`again`) or given up; datagrams of `strangers`, those `dropped` for want
        of room, and `refused` by the system; and RSIP that were answered here."""
        moment = time.monotonic()
        with self.lock:
            verbs = {**self.inward.answers.told(moment), **self.outward.answers.told(moment)}
            counts = {name: getattr(self, name) for name in ("strangers", "dropped", "refused", "rsip_answered")}
            ways = {"in": self.inward.told(), "out": self.outward.told()}
            return {"seconds": round(moment - self.begun, 3), **ways, **counts, "verbs": verbs}


def fate_text(delays: Sequence[float]) -> str:
    """What became of a datagram, as a log has it; nothing where it goes on at once."""
    if not delays:
        return "lost: "
    if len(delays) == 1 and not delays[0]:
        return ""
    late = " and ".join(f"{delay * 1000:.0f}" for delay in delays)
    return f"copied, late by {late} ms: " if len(delays) > 1 else f"late by {late} ms: "
