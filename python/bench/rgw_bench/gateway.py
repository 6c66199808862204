"""A call agent's end of a check: what it sends to a gateway, what comes, and whether that is what was due.

All is done in one thread. What comes is read whenever something is waited for, with the moment that the kernel gave it: so a late
reader judges nothing wrongly. What no check has to answer is answered at once by 200. All times are in seconds.
"""

import re
import time
from collections.abc import Callable, Collection
from dataclasses import dataclass, field
from typing import Protocol

from . import mgcp
from .mgcp import Message
from .wire import Address, Arrival, written

# So long an answer is waited for, and so long anew after a provisional response (RFC 3435, 3.5.6); no longer than a gateway keeps a
# command (3.5.1).
ANSWER, LONGEST_ANSWER = 2.0, 30.0
# So much longer it is seen whether an answer comes late, so that a failure can tell.
LATE = 1.5
# So long what a gateway says by itself is waited for, and each time that it comes again.
UNASKED = 4.0
# So long after an answer what it answers may still come again: the two cross, the later the slower the machine.
CROSSING = 1.0
# More than this no check asks for; what a flood brings beyond is dropped.
MOST_KEPT, MOST_LOGGED = 256, 1024
# A check has so many transaction ids and request identifiers of its own; answers of the thousand before are those of checks before.
OWN_IDS, EARLIER_IDS = 9, 1000
_FIRST_ID = re.compile(rb"(?m)^[ \t]*[A-Za-z0-9]+[ \t]+([0-9]{1,9})\b")


class NotMet(AssertionError):
    """What was due didn't come: what it was, and what came in its place, a line each; `nothing` where nothing did."""

    def __init__(self, due: str, *came: str) -> None:
        super().__init__("; ".join([f"due: {due}", *(f"came: {it}" for it in came)]))
        self.due, self.came = due, came

    def lines(self) -> list[str]:
        """What a report says of it, a line each."""
        return [f"! due: {self.due}", *(f"! came: {it}" for it in self.came)]


class NotSupported(Exception):
    """The gateway refuses what it may leave out; its text says with which code."""


class Dead(Exception):
    """The gateway can't be checked; its text says why."""


class OutOfTime(Exception):
    """The time for the whole run is over."""


class Ends(Protocol):
    """The sockets, as `wire.Wire` has them."""

    def address(self, port: str) -> Address: ...

    def send(self, port: str, data: bytes, to: Address) -> float | None: ...

    def wait(self, until: float) -> list[Arrival]: ...

    def claim(self, base: int, hears: bool, announces: bool) -> None: ...

    def close(self) -> None: ...


class Telephones(Protocol):
    """Who works telephones, and starts the gateway anew."""

    def act(self, local: str, what: str, gateway: "Gateway") -> str | None:
        """Does this at this line's telephone, or `restart`: None once it is done, else why it isn't."""


@dataclass
class Came:
    """A message that came: to which socket, when, who sent it, and whether a step has asked for it."""

    port: str
    moment: float
    message: Message
    source: Address
    is_asked: bool = False

    def is_same(self, other: "Came") -> bool:
        """Whether it is the same again: under the same id the same bytes (3.5.1)."""
        return self.message.id == other.message.id and self.message.raw == other.message.raw


@dataclass
class Entry:
    """A line of what was said: when, a mark (`>`, `<`, `>>`, `<<` for the second socket, `@` for what was done), and a text."""

    moment: float
    mark: str
    text: str
    data: bytes = field(default=b"", repr=False)


@dataclass
class Places:
    """Where a check is played: the gateway's address, the domain of its endpoints, and the local names of a line and another one; and
    those of all lines that are checked, by others too."""

    gateway: Address
    domain: str
    local: str
    other_local: str = ""
    locals: tuple[str, ...] = ()


class Gateway:
    """A gateway, spoken to as its call agent from the sockets `here` and `there` of `ends`."""

    def __init__(self, places: Places, ends: Ends, telephones: Telephones | None = None, limit: float | None = None) -> None:
        """`limit` is the moment of `time.monotonic` at which the time for the whole run is over."""
        self.places, self.ends, self.telephones, self.limit = places, ends, telephones, limit
        # What the gateway announced that no step had to answer, each time that it came, and when it was answered first, by its id.
        self.announcements: list[Came] = []
        self.announcements_answered: dict[int, float] = {}
        self.began = time.monotonic()
        self.begin(0)

    def __repr__(self) -> str:
        return f"Gateway({written(self.places.gateway)}, {self.line})"

    # What a check has of its own

    def begin(self, base: int, hears: bool = False, announces: bool = False) -> None:
        """A new check, whose ids are the nine behind `base`: what is still under way is answered first.

        `hears` and `announces`: its steps answer what the gateway notifies, and announces."""
        self.base, self.hears, self.announces = base, False, False
        self._forget()
        if base:
            self.ends.claim(base, hears, announces)
            self.pump(time.monotonic())
        self.hears, self.announces = hears, announces
        self._forget()

    def _forget(self) -> None:
        self.began = time.monotonic()
        self.answers: list[Came] = []
        self.taken: list[Came] = []
        self.unasked: list[Came] = []
        self.log: list[Entry] = []
        # What counts as no message of the gateway's, for people: no MGCP, or from elsewhere.
        self.odd: list[str] = []
        self.dropped = 0
        # The id of what was sent last, when it was, by id; and the responses among it.
        self.sent: dict[int, float] = {}
        self.responded: dict[int, float] = {}
        self.last_sent, self.last_port, self.last_moment = b"", "here", self.began
        self.last: Message | None = None
        self.current: Came | None = None

    @property
    def line(self) -> str:
        """The endpoint name of the line."""
        return f"{self.places.local}@{self.places.domain}"

    @property
    def other(self) -> str:
        """That of the other line."""
        return f"{self.places.other_local}@{self.places.domain}"

    @property
    def lines(self) -> list[str]:
        """Those of all lines that are checked."""
        return [f"{it}@{self.places.domain}" for it in self.places.locals or (self.places.local,)]

    @property
    def call(self) -> str:
        """A call that no other check has."""
        return str(self.base)

    def entity(self, port: str) -> str:
        """The notified entity that this socket is (2.1.4)."""
        host, number = self.ends.address(port)
        return f"ca@[{host}]:{number}"

    # The wire

    def note(self, mark: str, text: str, data: bytes = b"", moment: float | None = None) -> None:
        """Writes a line of what is said."""
        if len(self.log) < MOST_LOGGED:
            self.log.append(Entry(time.monotonic() if moment is None else moment, mark, text, data))
        else:
            self.dropped += 1

    def told(self) -> list[str]:
        """What was said, a line each, in printable ASCII: the moment since the check began, the mark, and the text."""
        rows = [f"{it.moment - self.began:7.3f} {it.mark:2} {it.text}".rstrip() for it in self.log]
        return rows + ([f"... and {self.dropped} more"] if self.dropped else [])

    def pump(self, until: float, done: Callable[[], object] = lambda: False) -> bool:
        """Takes what comes until this moment, or until `done`: whether it is.

        Raises OutOfTime at the end of the whole run."""
        while True:
            now = time.monotonic()
            if self.limit is not None and now >= self.limit:
                raise OutOfTime
            for came in self.ends.wait(now):
                self.hear(came)
            if done():
                return True
            if now >= until:
                return False
            for came in self.ends.wait(until if self.limit is None else min(until, self.limit)):
                self.hear(came)

    def hear(self, came: Arrival) -> None:
        """Takes a datagram."""
        if came.source[0] != self.places.gateway[0]:
            return
        if came.answered:
            return self._announced(came)
        is_elsewhere = came.source != self.places.gateway
        mark = "<" if came.port == "here" else "<<"
        shown = mgcp.shown(came.data)
        self.note(mark, f"from {written(came.source)}: {shown}" if is_elsewhere else shown, came.data, came.moment)
        answers = [self._take(came, message, is_elsewhere) for message in mgcp.messages(came.data)]
        if any(answers):
            self.ends.send(came.port, mgcp.joined(filter(None, answers)), came.source)

    def _take(self, came: Arrival, message: Message | mgcp.NoMessage, is_elsewhere: bool) -> bytes:
        """Takes a message, which is from elsewhere if it is from another port of the gateway's host: what is answered at once."""
        if isinstance(message, mgcp.NoMessage):
            self._odd(f"{mgcp.shown(came.data, 200)} ({message})")
        elif message.is_response and is_elsewhere:
            self._odd(f"{mgcp.shown(message.raw, 200)} from {written(came.source)}")
        elif message.is_response and self._is_own(message.id):
            self._keep(self.answers, Came(came.port, came.moment, message, came.source))
        elif not message.is_response and self._is_for_check(message):
            self._keep(self.unasked, Came(came.port, came.moment, message, came.source))
        elif not message.is_response and not came.is_shared:
            self._keep_announcement(came, message)
            return mgcp.response(200, message.id)
        return b""

    def _announced(self, came: Arrival) -> None:
        """Keeps what was announced and answered, by another process."""
        for message in mgcp.messages(came.data):
            if isinstance(message, Message):
                self._keep_announcement(came, message)

    def _keep_announcement(self, came: Arrival, message: Message) -> None:
        if message.verb == "RSIP":
            self._keep(self.announcements, Came(came.port, came.moment, message, came.source))
            self.announcements_answered.setdefault(message.id, came.answered or time.monotonic())

    def _keep(self, kept: list[Came], came: Came) -> None:
        if len(kept) < MOST_KEPT:
            kept.append(came)

    def _odd(self, text: str) -> None:
        if len(self.odd) < MOST_KEPT:
            self.odd.append(text)

    def _is_own(self, id: int) -> bool:
        return id >= self.base or id < self.base - EARLIER_IDS

    def _is_for_check(self, message: Message) -> bool:
        if message.verb == "NTFY":
            x = message["X"]
            is_own = x is None or (re.fullmatch("[0-9]{1,9}", x) is not None and self.base < int(x) <= self.base + OWN_IDS)
            return self.hears and is_own
        return self.announces and message.verb == "RSIP"

    # What a check does, and what is due

    def send(self, data: bytes, port: str = "here") -> None:
        """Sends a datagram."""
        self.last_sent, self.last_port = data, port
        self.note(">" if port == "here" else ">>", mgcp.shown(data), data)
        moment = self.ends.send(port, data, self._destination(data))
        self.last_moment = time.monotonic() if moment is None else moment
        for found in _FIRST_ID.finditer(data):
            self.sent[int(found[1])] = self.last_moment
        for message in mgcp.messages(data):
            if isinstance(message, Message) and message.is_response:
                self.responded[message.id] = self.last_moment

    def _destination(self, data: bytes) -> Address:
        """Where a datagram goes: a response to whoever sent the command (3.5), all else to the gateway."""
        responded = {it.id for it in mgcp.messages(data) if isinstance(it, Message) and it.is_response}
        return next((it.source for it in self.unasked if it.message.id in responded), self.places.gateway)

    def send_again(self, port: str = "here") -> None:
        """Sends the same bytes again as last."""
        self.send(self.last_sent, port)

    def due(self, what: str, is_met: object, *came: str) -> None:
        """Raises NotMet, with what was due and what came in its place, where it isn't met."""
        if not is_met:
            raise NotMet(what, *came)

    def _answers_for(self, id: int) -> list[Came]:
        return [it for it in self.answers if it.port == self.last_port and it.message.id == id]

    def find_answer(self, id: int, due: str = "an answer") -> Came:
        """The final answer to what was sent last under this id, at the socket from which that went out.

        It is in time within `ANSWER` of that moment, or of the last provisional response. Raises NotMet, with what came, if none is."""
        begun = self.sent.get(id, self.last_moment)

        def in_time() -> float:
            provisional = [it.moment for it in self._answers_for(id) if it.message.is_provisional]
            return min(max([begun, *provisional]) + ANSWER, begun + LONGEST_ANSWER)

        def final() -> Came | None:
            return next((it for it in self._answers_for(id) if not it.message.is_provisional), None)

        while not final() and time.monotonic() < in_time():
            self.pump(in_time(), final)
        found = final()
        if not found:
            self.pump(time.monotonic() + LATE, final)
            found = final()
        if not found or found.moment > in_time():
            raise NotMet(due, *self._instead(id, begun, found))
        self.answers.remove(found)
        return found

    def _instead(self, id: int, begun: float, late: Came | None) -> list[str]:
        """What came in place of an answer with this id."""
        if late:
            return [f"{mgcp.shown(late.message.raw, 200)} {late.moment - begun:.3f} s later"]
        rows = []
        for it in self.answers:
            shown = mgcp.shown(it.message.raw, 200)
            if it.message.id != id:
                rows.append(f"{shown} (another id)")
            elif it.port != self.last_port:
                rows.append(f"{shown} at {written(self.ends.address(it.port))} (another port than it was asked from)")
            else:
                rows.append(f"{shown} (provisional)")
        return [*rows, *self.odd] or ["nothing"]

    def answer(self, codes: int | Collection[int], id: int, is_optional: bool = False) -> Message:
        """The answer with this id, which has one of these codes.

        Raises NotSupported where it is optional and refused by 500 to 599, else NotMet."""
        wanted = (codes,) if isinstance(codes, int) else tuple(codes)
        due = f"<{'?' if is_optional else ''} {'|'.join(f'{it:03}' for it in wanted)} {id}"
        came = self.find_answer(id, due)
        self.taken.append(came)
        self.last = message = came.message
        code = message.code or 0
        if code not in wanted and is_optional and 500 <= code < 600:
            raise NotSupported(f"{due}: refused with {code}")
        self.due(due, code in wanted, mgcp.shown(message.raw, 200))
        return message

    def same(self, id: int) -> None:
        """The answer with this id comes again, byte for byte as it first came. Raises NotMet if it doesn't."""
        came = self.find_answer(id, f"same {id}")
        first = next((it for it in self.taken if it.message.id == id), None)
        if first is None:
            raise NotMet(f"same {id}", "nothing before")
        self.due(f"same {id}", came.is_same(first), mgcp.shown(came.message.raw, 200), f"{mgcp.shown(first.message.raw, 200)} (before)")

    def silence(self, ms: int) -> None:
        """No answer comes for so long, in ms. Raises NotMet if one does."""
        self.pump(time.monotonic() + ms / 1000, lambda: self.answers or self.odd)
        came = [mgcp.shown(it.message.raw, 200) for it in self.answers] + self.odd
        self.due(f"silence {ms}", not came, *came)
        self.note("", "(nothing comes)")

    def pause(self, ms: int) -> None:
        """Nothing is asked for so long, in ms; what comes meanwhile is taken."""
        self.pump(time.monotonic() + ms / 1000)

    def _is_copy(self, came: Came) -> bool:
        return any(it.is_asked and it is not came and it.is_same(came) for it in self.unasked)

    def _crosses(self, came: Came, begun: float) -> bool:
        """Whether it is a copy of what a step asked for that was perhaps sent before the response to that arrived."""
        return self._is_copy(came) and came.moment <= self.responded.get(came.message.id, begun) + CROSSING

    def find_unasked(
        self, due: str, is_meant: Callable[[Message], bool], is_right: Callable[[Message], bool], port: str, within: float = UNASKED
    ) -> Message:
        """What the gateway says by itself that is meant: it comes within so many seconds, and is right. Raises NotMet where not so."""

        def found() -> Came | None:
            news = (it for it in self.unasked if not it.is_asked and it.port == port and is_meant(it.message))
            return next((it for it in news if not self._is_copy(it)), None)

        self.pump(time.monotonic() + within, found)
        came = found()
        if came is None:
            others = [mgcp.shown(it.message.raw, 200) for it in self.unasked if not it.is_asked and not self._is_copy(it)]
            raise NotMet(due, *([*others, *self.odd] or ["nothing"]))
        came.is_asked, self.current = True, came
        self.due(due, is_right(came.message), mgcp.shown(came.message.raw, 200))
        return came.message

    def notified(self, endpoint: str = "*", x: str = "*", events: str = "*", port: str = "here") -> Message:
        """A notification of this endpoint, with this X and these events; `*` is anything, and `|` separates two that are right."""
        due = f"notified {endpoint} {x} {events}"
        return self.find_unasked(
            due, lambda it: it.verb == "NTFY" and fits(endpoint, it.endpoint), lambda it: fits(x, it["X"]) and fits(events, it["O"]), port
        )

    def announced(self, method: str, port: str = "here", endpoint: str = "*", within: float = UNASKED) -> Message:
        """An announcement with this restart method, for this endpoint, comes within so many seconds; `*` is anything."""
        due = f"announced {method} {endpoint}"
        return self.find_unasked(
            due, lambda it: it.verb == "RSIP", lambda it: fits(method, it["RM"]) and fits(endpoint, it.endpoint), port, within
        )

    def repeats(self, number: int, within: float = UNASKED, grows: bool = False) -> None:
        """What was asked for last comes so often again, each time within so many seconds; in growing gaps the last is at least half as
        long again as the first. Raises NotMet if it doesn't."""
        due = f"{'slower' if grows else 'again'} {number}"
        if self.current is None:
            raise NotMet(due, "nothing before")
        first = self.current

        def moments() -> list[float]:
            return [first.moment] + [it.moment for it in self.unasked if it is not first and it.is_same(first)]

        while len(moments()) <= number and time.monotonic() < moments()[-1] + within:
            before = len(moments())
            self.pump(moments()[-1] + within, lambda: len(moments()) > before)
        gaps = [later - sooner for sooner, later in zip(moments(), moments()[1:])]
        came = f"{len(gaps)} times again{', in gaps of ' if gaps else ''}{', '.join(f'{gap:.3f} s' for gap in gaps)}"
        self.note("", f"({came})")
        self.due(due, len(gaps) >= number and (not grows or gaps[-1] >= 1.5 * gaps[0]), came)

    def quiet(self, ms: int) -> None:
        """The gateway says nothing by itself for so long, in ms; a copy of what was asked for may cross its answer."""
        begun = time.monotonic()

        def loud() -> list[Came]:
            return [it for it in self.unasked if not it.is_asked and not self._crosses(it, begun)]

        self.pump(begun + ms / 1000, loud)
        self.due(f"quiet {ms}", not loud(), *(mgcp.shown(it.message.raw, 200) for it in loud()))
        self.note("", "(nothing comes)")

    def act(self, what: str) -> None:
        """This is done at the line's telephone, or `restart`. Raises NotMet where it can't be."""
        self.note("@", what)
        why = self.telephones.act(self.places.local, what, self) if self.telephones else "nobody is at the telephone"
        self.due("restart" if what == "restart" else f"act {what}", why is None, why or "")

    def settle(self) -> None:
        """Answers all that the gateway said by itself and no step has answered, so that it isn't repeated after the check."""
        self.hears = self.announces = False
        self.ends.claim(self.base, False, False)
        for came in reversed(self.unasked):
            if came.message.id not in self.responded:
                self.responded[came.message.id] = time.monotonic()
                self.ends.send(came.port, mgcp.response(200, came.message.id), came.source)

    def close(self) -> None:
        """Closes the sockets."""
        self.ends.close()


def fits(wanted: str, given: str | None) -> bool:
    """Whether a value is what is wanted: `*` stands for anything, `|` between two that are right; case doesn't count."""
    return wanted == "*" or (given is not None and given.lower() in wanted.lower().split("|", 1))
