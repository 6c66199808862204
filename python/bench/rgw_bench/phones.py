"""Telephones of rgwd gateways, worked and watched by their socket (rgwd --phones), for tests of a call agent.

    with Phones({"gw1": "127.0.0.1:2428", "gw2": "127.0.0.2:2428"}) as phones:
        a, b = phones["gw1:1"], phones["gw2:1"]
        a.off().expect("L/dl", within=2).dial("203")
        b.expect("L/rg", within=3).off()
        side_by_side(lambda: a.expect("sendrecv", within=5), lambda: b.expect("sendrecv", within=5))

All times are in seconds. What happens at a telephone has the moment of its gateway's clock, so that a slow reader judges nothing
wrongly. A telephone is worked by one thread at a time; it runs under gevent too. The pytest fixture `phones` has those of `--phones`.
"""
from __future__ import annotations

import contextlib
import math
import socket
import threading
import time
from collections import deque
from collections.abc import Callable, Iterable, Iterator, Mapping
from dataclasses import dataclass
from datetime import datetime, timezone
from typing import Any, NamedTuple

from .phone_wire import Lost, Telephones, place_of
from .wire import Address, written

__all__ = ["Connection", "Lost", "Phone", "Phones", "State", "Unexpected", "side_by_side"]

MODES = frozenset("sendonly recvonly sendrecv confrnce inactive loopback conttest netwloop netwtest".split())
KEYS = frozenset("0123456789ABCD*#")
# The signals of rgwd's lines, by package and name.
SIGNALS = frozenset({"L/dl", "L/bz", "L/ro", "L/rg", "L/rs", "L/vmwi", "G/rt", "G/cg", "G/cf"})
# So many states of a telephone, and changes of all, are kept; a failure tells so many of these.
KEPT_STATES, KEPT_CHANGES, TOLD = 256, 4000, 60
# Gateways are asked to go on telling so many times a second, together; one each second at most.
ASKED = 50
# A gateway that isn't known yet is asked again after so long, in s, at the start.
FIRST_AGAIN = 0.5
# The socket's room for what is told, in bytes: by default 277 small datagrams.
ROOM = 1 << 22


class Unexpected(AssertionError):
    """Something else was heard at a telephone than a test expects. Its text tells what was due, what was there, and what each telephone
    of the test did and heard."""

    def __init__(self, due: str, history: str):
        super().__init__(f"{due}\n{history}")
        self.due, self.history = due, history


class Connection(NamedTuple):
    """A connection of a line: its mode, and where its media come in and go, as `127.0.0.1:20000`; `-` where that isn't known."""

    mode: str
    local: str = "-"
    remote: str = "-"


@dataclass(frozen=True)
class State:
    """A telephone since the moment `at`, in s: its handset, `on` or `off`, the signals that are active, as `L/dl`, and its connections,
    each with its name."""

    at: float
    hook: str = "on"
    signals: frozenset[str] = frozenset()
    held: tuple[tuple[str, Connection], ...] = ()

    @property
    def modes(self) -> list[str]:
        """The modes of its connections."""
        return [it.mode for _, it in self.held]

    @property
    def is_silent(self) -> bool:
        """No signal is active, and there is no connection."""
        return not self.signals and not self.held

    @property
    def is_at_rest(self) -> bool:
        """It is silent, and the handset is on hook."""
        return self.hook == "on" and self.is_silent

    def changed(self, at: float, words: list[str]) -> State:
        """The state after one change, in the words of rgwd's `watch`. ValueError, IndexError: there is no such change."""
        signals, held, hook = self.signals, dict(self.held), self.hook
        what = words[0]
        if what == "begins":
            signals = signals | {words[1]}
        elif what == "ends":
            signals = signals - {words[1]}
        elif what == "connection" and words[2] == "over":
            held.pop(words[1], None)
        elif what == "connection":
            held[words[1]] = Connection(words[2], words[3], words[5])
        elif what in ("on", "off"):
            hook = what
        else:
            raise ValueError(what)
        return State(at, hook, signals, tuple(held.items()))

    def __str__(self) -> str:
        signals, modes = ", ".join(sorted(self.signals)), ", ".join(self.modes)
        return f"{self.hook}, {signals or 'no signal'}, {modes or 'no connection'}"


Test = Callable[[State], bool]


def meaning_of_word(word: str) -> Test:
    if word in ("on", "off"):
        return lambda state: state.hook == word
    if word == "silent":
        return lambda state: state.is_silent
    if word in MODES:
        return lambda state: word in state.modes
    if word in SIGNALS:
        return lambda state: word in state.signals
    raise ValueError(f"{word!r}: wanted a signal of {', '.join(sorted(SIGNALS))}, a mode as sendrecv, silent, on or off")


def meaning_of(what: str) -> Test:
    """Whether a state is as this text says: one thing, or several with `|` between.

    ValueError: a word is no signal, mode, `silent`, `on` or `off`.
    """
    tests = [meaning_of_word(word.strip()) for word in what.split("|")]
    return lambda state: any(test(state) for test in tests)


def seconds(name: str, given: float) -> float:
    """A time that is asked for. ValueError: it isn't finite, or less than 0."""
    if not (isinstance(given, (int, float)) and math.isfinite(given) and given >= 0):
        raise ValueError(f"{name}={given!r}: wanted seconds, 0 or more")
    return float(given)


class Phone:
    """One telephone. Acts and expectations return it, so that they can be chained; `met_at` is when the last expectation came true."""

    def __init__(self, phones: Phones, gateway: Telephones, number: int):
        self.phones, self.gateway, self.number, self.name = phones, gateway, number, f"{gateway.name}:{number}"
        now = time.monotonic()
        self.states: deque[State] = deque([State(now)], maxlen=KEPT_STATES)
        self.met_at = now
        # Told of each change. Telephones that one waits for together may have one for all.
        self.changed = threading.Condition()

    def __repr__(self) -> str:
        return f"<Phone {self.name}: {self.state}>"

    @property
    def state(self) -> State:
        """What it is now, as far as that is known."""
        return self.states[-1]

    @property
    def hook(self) -> str:
        """`on` or `off`."""
        return self.state.hook

    @property
    def signals(self) -> frozenset[str]:
        """The signals that are active."""
        return self.state.signals

    @property
    def connections(self) -> dict[str, Connection]:
        """Its connections, by their names."""
        return dict(self.state.held)

    def meets(self, other: Phone) -> bool:
        """Whether each of the two has one connection, which receives where the other's sends."""
        its, others = list(self.connections.values()), list(other.connections.values())
        return len(its) == len(others) == 1 and (its[0].local, its[0].remote) == (others[0].remote, others[0].local) and "-" not in its[0]

    def forget(self) -> None:
        """Forgets all states but the one that it is in: what was heard before doesn't count."""
        with self.changed:
            while len(self.states) > 1:
                self.states.popleft()

    # What is told of it

    def change(self, at: float, words: list[str]) -> None:
        """One thing changed, as rgwd's `watch` tells."""
        changed = self.changed
        with changed:
            self.states.append(self.state.changed(at, words))
            self.phones.note(at, self, " ".join(words))
            changed.notify_all()

    def show(self, at: float, hook: str, signals: frozenset[str], modes: Mapping[str, str]) -> None:
        """It is so, as rgwd's `show` tells."""
        known = self.connections
        held = {name: known.get(name, Connection(mode))._replace(mode=mode) for name, mode in modes.items()}
        shown = State(at, hook, signals, tuple(held.items()))
        changed = self.changed
        with changed:
            if str(shown) != str(self.state):
                self.states.append(shown)
                self.phones.note(at, self, f"is shown: {shown}")
                changed.notify_all()

    # Acts

    def act(self, what: str) -> Phone:
        """Does `off`, `on`, `flash`, or presses a key. Lost: the gateway doesn't answer, or refuses it, as `! 5 PhoneState`."""
        if what not in ("off", "on", "flash") and what not in KEYS:
            raise ValueError(f"{what!r}: wanted off, on, flash or a key of {''.join(sorted(KEYS))}")
        self.phones.note(time.monotonic(), self, f"@ {what}")
        answer = self.gateway.ask(f"phone {self.number} {what}")
        if answer != "done":
            raise Lost(f"{self.name} {what}: answered {answer}; it was {self.state}")
        return self

    def off(self) -> Phone:
        """Lifts the handset."""
        return self.act("off")

    def on(self) -> Phone:
        """Puts the handset back."""
        return self.act("on")

    def flash(self) -> Phone:
        """A short press of the hook."""
        return self.act("flash")

    def key(self, key: str) -> Phone:
        """Presses one key, 0 to 9, A to D, `*` or `#`."""
        return self.act(key)

    def dial(self, keys: str, gap: float = 0.1) -> Phone:
        """Presses these keys, one each `gap` s. ValueError: none, or one that there isn't; then none is pressed."""
        if not keys or not set(keys) <= KEYS:
            raise ValueError(f"{keys!r}: wanted keys of {''.join(sorted(KEYS))}")
        pause = seconds("gap", gap)
        for place, key in enumerate(keys):
            if place:
                time.sleep(pause)
            self.act(key)
        return self

    def send(self, what: str) -> None:
        """Does this without waiting for an answer: a refusal counts in the gateway's `refused`."""
        self.gateway.send(f"phone {self.number} {what}".encode(), self.gateway.place)

    # What is expected

    def expect(self, what: str, within: float = 0.0) -> Phone:
        """Waits until this is so: a signal as `L/dl`, the mode of a connection as `sendrecv`, `silent` (neither), `on` or `off`; or one of
        several, `L/bz | L/ro`. It is met where it is so at any moment from now on for `within` s, by the gateway's clock.

        Unexpected: it wasn't. Lost: that can't be judged. ValueError: there is no such thing, or no such time.
        """
        __tracebackhide__ = True
        test, length, begun = meaning_of(what), seconds("within", within), time.monotonic()
        met = self.wait(test, begun, begun + length)
        if met is None:
            raise Unexpected(f"expected {self.name} {what} within {length:g} s; {self.since()}", self.phones.history())
        self.met_at = met.at
        return self

    def expect_none(self, *what: str, during: float) -> Phone:
        """Sees that none of these is so from now on for `during` s by the gateway's clock: things as `expect` has them; where none is
        named, no signal and no connection.

        Unexpected: one was. Lost: that can't be judged. ValueError: there is no such thing, or no such time.
        """
        __tracebackhide__ = True
        tests = meaning_of("|".join(what)) if what else lambda state: not state.is_silent
        length, begun = seconds("during", during), time.monotonic()
        met = self.wait(tests, begun, begun + length)
        if met is not None:
            due = f"expected none of {', '.join(what) or 'all signals and connections'} at {self.name} for {length:g} s"
            raise Unexpected(f"{due}; {max(0.0, met.at - begun):.3f} s later it was {met}", self.phones.history())
        return self

    def wait(self, test: Test, begun: float, end: float) -> State | None:
        """The first state that is so at a moment from `begun` to `end`, or none, once it is known that there was none. Lost: that can't be
        known."""
        __tracebackhide__ = True
        lost = self.gateway.changes_lost
        while True:
            with self.changed:
                self.changed.wait_for(lambda: self.found(test, begun, end), max(0.0, end - time.monotonic()))
                met = self.found(test, begun, end)
            # (what began before may be over by now, and not be heard of yet)
            if met is not None and (met.at >= begun or self.gateway.known_until >= begun):
                return met
            is_over = met is None
            if not self.gateway.know(end if is_over else begun):
                refusal = self.gateway.refusal or f"{written(self.gateway.place)} doesn't tell what changes"
                raise Lost(f"{self.gateway.name}: {refusal}\n{self.phones.history()}")
            if is_over:
                break
        with self.changed:
            met = self.found(test, begun, end)
        if met is None and self.phones.is_strict and self.gateway.changes_lost > lost:
            raise Lost(f"{self.gateway.name}: {self.gateway.changes_lost - lost} changes were lost on their way\n{self.phones.history()}")
        return met

    def found(self, test: Test, begun: float, end: float) -> State | None:
        """The first state that is known to be so at a moment from `begun` to `end`."""
        until = math.inf
        met = None
        for state in reversed(self.states):
            if until < begun:
                break
            if state.at <= end and test(state):
                met = state
            until = state.at
        return met

    def since(self) -> str:
        """What it is, and since when."""
        return f"since {self.phones.moment(self.state.at)} it is {self.state}"


class Phones:
    """The telephones of gateways, by their names: `phones["gw1:2"]`, and `phones["2"]` of the first gateway. Iterating gives them all."""

    def __init__(self, places: Mapping[str, str | Address], is_strict: bool = True, within: float = 3.0):
        """Watches the telephones at these addresses, by the name of each gateway. Where changes are lost on their way, an expectation is
        Lost, or, with is_strict=False, only the gateway's `changes_lost` counts them.

        Lost: the telephones of one don't answer `within` s, or don't tell what changes. ValueError: no gateways, or an address is none.
        """
        if not places:
            raise ValueError("wanted the telephones of one gateway at least")
        self.is_strict = is_strict
        self.phones: dict[str, Phone] = {}
        self.log: deque[tuple[float, str, str]] = deque(maxlen=KEPT_CHANGES)
        self.begun, self.begun_at = time.monotonic(), datetime.now(timezone.utc)
        self.is_open = True
        self.socket = socket.socket(socket.AF_INET, socket.SOCK_DGRAM)
        self.socket.setsockopt(socket.SOL_SOCKET, socket.SO_RCVBUF, ROOM)
        self.socket.bind(("0.0.0.0", 0))
        self.gateways = {name: Telephones(name, place_of(place), self.socket.sendto, self.made) for name, place in places.items()}
        self.by_place = {it.place: it for it in self.gateways.values()}
        self.gap = max(1.0, len(self.gateways) / ASKED)
        self.reader = threading.Thread(target=self.read, daemon=True)
        self.reader.start()
        try:
            self.open(time.monotonic() + within)
        except BaseException:
            self.close()
            raise

    def __enter__(self) -> Phones:
        return self

    def __exit__(self, *_: object) -> None:
        self.close()

    def __getitem__(self, name: str | int) -> Phone:
        """The telephone of this name. KeyError: there is none; the text says which there are."""
        text = str(name)
        full = text if ":" in text else f"{next(iter(self.gateways))}:{text}"
        try:
            return self.phones[full]
        except KeyError:
            raise KeyError(f"{full}: there are {', '.join(list(self.phones)[:20])}") from None

    def __iter__(self) -> Iterator[Phone]:
        return iter(list(self.phones.values()))

    def __len__(self) -> int:
        return len(self.phones)

    def __repr__(self) -> str:
        return f"<Phones {', '.join(f'{it.name}={written(it.place)}' for it in self.gateways.values())}: {len(self)} lines>"

    def made(self, gateway: Telephones, number: int) -> Phone:
        """The telephone of a line, a new one where it wasn't known."""
        return self.phones.setdefault(f"{gateway.name}:{number}", Phone(self, gateway, number))

    def open(self, end: float) -> None:
        """Waits until all gateways tell what their lines are. Lost: one doesn't by this moment."""
        for gateway in self.gateways.values():
            with gateway.changed:
                while not gateway.is_shown and not gateway.refusal and time.monotonic() < end:
                    gateway.watch()
                    gateway.changed.wait_for(lambda: gateway.is_shown or gateway.refusal, min(FIRST_AGAIN, end - time.monotonic()))
            if not gateway.is_shown:
                why = f"doesn't tell what changes at its telephones: {gateway.refusal}" if gateway.refusal else "no answer"
                raise Lost(f"{written(gateway.place)}: {why}")

    def close(self) -> None:
        """Ends the watch. Handsets stay as they are; see `put_back`."""
        if self.is_open:
            self.is_open = False
            with contextlib.suppress(OSError):
                for gateway in self.gateways.values():
                    gateway.close()
                # (the reader wakes by it)
                self.socket.sendto(b"", ("127.0.0.1", self.socket.getsockname()[1]))
            self.reader.join()
            self.socket.close()

    def read(self) -> None:
        """The thread that takes what is told, and asks gateways to go on telling."""
        due = time.monotonic() + self.gap
        self.socket.settimeout(0.5)
        while self.is_open:
            if time.monotonic() >= due:
                due = time.monotonic() + self.gap
                for gateway in self.gateways.values():
                    gateway.watch()
            try:
                data, source = self.socket.recvfrom(65536)
            except (TimeoutError, ConnectionError):
                continue
            gateway_there = self.by_place.get(source)
            if gateway_there is not None:
                gateway_there.hear(data, time.monotonic())

    # A test's beginning and end

    def begin(self) -> None:
        """A test begins: what is told of a failure begins here."""
        self.log.clear()
        self.begun, self.begun_at = time.monotonic(), datetime.now(timezone.utc)

    def put_back(self, within: float = 10.0, names: Iterable[str] | None = None) -> list[str]:
        """Puts every lifted handset back, of these telephones or of all, and waits until they are at rest, together `within` s: a line for
        each that isn't."""
        faults: list[str] = []
        phones = [self.phones[name] for name in names] if names is not None else list(self)
        for gateway in {it.gateway.name: it.gateway for it in phones}.values():
            if not gateway.know(time.monotonic()):
                faults.append(f"{gateway.name}: no answer from {written(gateway.place)}")
        for phone in phones:
            if phone.hook == "off":
                try:
                    phone.on()
                except Lost as fault:
                    faults.append(str(fault))
        end = time.monotonic() + within
        for phone in phones:
            with phone.changed:
                if not phone.changed.wait_for(lambda: phone.state.is_at_rest, max(0.0, end - time.monotonic())):
                    faults.append(f"{phone.name} doesn't come to rest: {phone.since()}")
        return faults

    # What a failure tells

    def note(self, at: float, phone: Phone, what: str) -> None:
        self.log.append((at, phone.name, what))

    def moment(self, at: float) -> str:
        """A moment, in s since the test began; or that it was before."""
        return f"{at - self.begun:.3f} s" if at >= self.begun else "before the test"

    def history(self) -> str:
        """What each telephone of the test did (`@`) and heard, in its order, and what each is now."""
        kept = sorted(list(self.log))
        involved = {name for _, name, _ in kept}
        rows = [f"  {len(kept) - TOLD} earlier lines are left out"] if len(kept) > TOLD else []
        rows += [f"  {at - self.begun:8.3f}  {name} {what}" for at, name, what in kept[-TOLD:]]
        rows += [f"  {phone.name} now: {phone.state}" for phone in self if phone.name in involved]
        begun = f"the test began at {self.begun_at:%H:%M:%S}.{self.begun_at.microsecond // 1000:03}Z"
        if not rows:
            return f"no telephone did or heard anything; {begun}"
        head = [f"{begun}; `until` is in ms of the gateway's clock", "s of the test, telephone, what it did (@) and heard:"]
        return "\n".join([*head, *rows])


def side_by_side(*acts: Callable[[], Any]) -> None:
    """Begins all at once, each in a thread, and is over when all are.

    One that fails raises its fault; of several that fail each is told, in an Unexpected.
    """
    __tracebackhide__ = True
    faults: dict[int, BaseException] = {}

    def run(place: int, act: Callable[[], Any]) -> None:
        try:
            act()
        except BaseException as fault:
            faults[place] = fault

    threads = [threading.Thread(target=run, args=its, daemon=True) for its in enumerate(acts)]
    for thread in threads:
        thread.start()
    for thread in threads:
        thread.join()
    if len(faults) > 1:
        raise all_of(faults, len(acts))
    for fault in faults.values():
        raise fault


def all_of(faults: dict[int, BaseException], many: int) -> Unexpected:
    """The faults of some acts of so many, by their places: as one, with one history."""
    rows, history = [f"{len(faults)} of {many} side by side failed:"], ""
    for place, fault in sorted(faults.items()):
        rows.append(f"{place + 1}: {fault.due if isinstance(fault, Unexpected) else repr(fault)}")
        history = fault.history if isinstance(fault, Unexpected) else history
    return Unexpected("\n".join(rows), history)
