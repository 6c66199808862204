"""Calls between telephones at a rate: what becomes of each, from the lifted handset to rest, judged by what telephones tell alone.

It doesn't depend on who counts: each phase is told to a function, as the name of the step, how long it took in ms by the gateways' clocks,
and why it failed, if it did.
"""
from __future__ import annotations

import random
import threading
import time
from collections import deque
from collections.abc import Callable
from dataclasses import dataclass, field

from .load_words import Exchange, Load
from .phones import Lost, Phone, Phones, State

# A step may take so long, in s; a handset that isn't as it was asked to be is asked again after so long.
LONGEST, HOOK_AGAIN = 10.0, 1.0
# Keys are pressed so far apart, in s.
KEY_GAP = 0.1
# An attempt that begins later than its moment by more is late: the tester is slow then, not the agent. In s.
LATE = 0.1
# So long it is waited for the last calls after their hold, in s.
LONGEST_END = 60.0
# The steps whose times are told, in their order, and the whole call.
STEPS = ("lifted to dial tone", "dialled to ringing", "lifted to connected", "hung up to rest")
CALL, LATE_START, NO_LINE = "call", "late start", "no line free"
TONES = {"L/bz": "busy tone", "L/ro": "reorder tone", "G/cg": "reorder tone"}
# A signal that isn't heard.
SILENT = frozenset({"L/vmwi"})

Tell = Callable[[str, float, "Failed | None"], object]


class Failed(Exception):
    """A call comes to nothing; its text says why: no answer (a handset didn't do as it was asked), no dial tone, busy tone, reorder tone,
    no ringing, no connection, cut off (one end ceased to hear the other), or no rest."""


def talks(state: State) -> bool:
    """It hears the other end, and no signal."""
    return not state.signals - SILENT and "sendrecv" in state.modes


def is_at_rest(state: State) -> bool:
    """The handset is on hook, and nothing is left of a call."""
    return state.hook == "on" and not state.signals - SILENT and not state.held


def see_no_refusal(*phones: Phone) -> None:
    """Failed: one hears that the call comes to nothing."""
    for phone in phones:
        for signal in phone.signals:
            if signal in TONES:
                raise Failed(TONES[signal])


@dataclass
class Tally:
    """How many calls were attempted, how many of these began late or are to stay unanswered, how many weren't attempted since fewer than
    two lines were idle, how far they came, and why others failed."""

    attempts: int = 0
    late_starts: int = 0
    no_line_free: int = 0
    rung: int = 0
    unanswered: int = 0
    connected: int = 0
    at_rest: int = 0
    failed: dict[str, int] = field(default_factory=dict)

    @property
    def success(self) -> float | None:
        """How many of a hundred attempts came to rest, rounded down to hundredths; none where there was no attempt."""
        return self.at_rest * 10_000 // self.attempts / 100 if self.attempts else None


class Call:
    """One call from `a` to `b`, which both are at rest."""

    def __init__(self, lines: Lines, a: Phone, b: Phone, is_answered: bool):
        self.lines, self.a, self.b, self.is_answered = lines, a, b, is_answered
        self.wanted = {a: "on", b: "on"}
        self.asked = {a: 0.0, b: 0.0}
        # Both tell what changes there to one condition.
        self.changed = a.changed = b.changed = threading.Condition()

    def play(self) -> None:
        """Plays it until both lines are at rest. Failed: it came to nothing, or an end doesn't come to rest."""
        try:
            self.ring()
            if self.is_answered:
                self.talk()
        except Failed:
            self.hook(self.a, "on")
            self.hook(self.b, "on")
            raise
        self.hang_up()

    # Steps

    def ring(self) -> None:
        """The caller lifts the handset, dials, and the other one rings."""
        a, b, load = self.a, self.b, self.lines.load
        self.hook(a, "off")
        self.wait(lambda: "L/dl" in a.signals, lambda: "no dial tone" if a.hook == "off" else "no answer", a)
        since = a.state.at
        self.tell("lifted to dial tone", since - self.moment_of_hook(a, "off"))
        for place, key in enumerate(self.lines.numbers[b.name]):
            self.stay(since + place * KEY_GAP, lambda: True, a)
            a.send(key)
        dialled = time.monotonic()
        self.wait(lambda: "L/rg" in b.signals, lambda: "no ringing", a)
        self.lines.tally.rung += 1
        self.tell("dialled to ringing", b.state.at - dialled)
        self.stay(b.state.at + load.ring, lambda: "L/rg" in b.signals, a)

    def talk(self) -> None:
        """The called one answers, both talk, for as long as is asked."""
        a, b = self.a, self.b
        self.hook(b, "off")
        self.wait(lambda: b.hook == "off", lambda: "no answer", a)
        lifted = self.moment_of_hook(b, "off")
        self.wait(lambda: talks(a.state) and talks(b.state), lambda: "no connection", a, b)
        since = max(a.state.at, b.state.at)
        self.lines.tally.connected += 1
        self.tell("lifted to connected", since - lifted)
        self.stay(since + self.lines.load.hold, lambda: talks(a.state) and talks(b.state))

    def hang_up(self) -> None:
        """Both hang up, and come to rest."""
        a, b = self.a, self.b
        lifted = [it for it in (a, b) if it.hook == "off"]
        self.hook(a, "on")
        self.hook(b, "on")
        self.wait(lambda: is_at_rest(a.state) and is_at_rest(b.state), lambda: "no rest")
        first = min(self.moment_of_hook(it, "on") for it in lifted)
        self.tell("hung up to rest", max(a.state.at, b.state.at) - first)

    def clear(self, end: float) -> bool:
        """Waits until both are at rest after a call that failed, at most until this moment: whether they are."""
        while not (is_at_rest(self.a.state) and is_at_rest(self.b.state)):
            if time.monotonic() >= end or not self.lines.is_open:
                return False
            with self.changed:
                self.changed.wait(HOOK_AGAIN)
            self.work()
        return True

    # What they wait for

    def hook(self, phone: Phone, wanted: str) -> None:
        """Lifts a handset or puts it back, where it isn't so."""
        self.wanted[phone] = wanted
        self.work()

    def work(self) -> None:
        """Handsets that aren't as is wanted are asked for it, each once a second."""
        now = time.monotonic()
        for phone, wanted in self.wanted.items():
            if phone.hook == wanted:
                self.asked[phone] = 0.0
            elif now >= self.asked[phone] + HOOK_AGAIN:
                self.asked[phone] = now
                phone.send(wanted)

    def wait(self, met: Callable[[], bool], why: Callable[[], str], *hearing: Phone) -> None:
        """Waits until something is so. Failed: it isn't within 10 s, or one who hears it hears a tone instead."""
        end = time.monotonic() + LONGEST

        def is_met() -> bool:
            if met():
                return True
            see_no_refusal(*hearing)
            return False

        while True:
            now = time.monotonic()
            with self.changed:
                if self.changed.wait_for(is_met, min(HOOK_AGAIN, max(0.0, end - now))):
                    return
            if now >= end:
                raise Failed(why())
            self.work()

    def stay(self, until: float, holds: Callable[[], bool], *hearing: Phone) -> None:
        """Waits until a moment. Failed: what holds ceases to, or one of these hears a tone."""

        def is_over() -> bool:
            see_no_refusal(*hearing)
            return not holds()

        with self.changed:
            if self.changed.wait_for(is_over, max(0.0, until - time.monotonic())):
                raise Failed("cut off")

    @staticmethod
    def moment_of_hook(phone: Phone, hook: str) -> float:
        """When the handset came to be so that is so now."""
        moment = phone.state.at
        for state in reversed(phone.states):
            if state.hook != hook:
                break
            moment = state.at
        return moment

    def tell(self, step: str, seconds: float) -> None:
        self.lines.tell(step, max(0.0, seconds) * 1000, None)


class Lines:
    """The lines of an exchange, or of one tester's part of it, which call one another: which are idle, and what is counted.

    Lost: telephones don't answer, don't tell what changes, or fewer than two lines are at rest.
    """

    def __init__(self, exchange: Exchange, load: Load, tell: Tell, part: int = 0, parts: int = 1):
        its = exchange.part(part, parts)
        self.load, self.tell, self.tally = load, tell, Tally()
        self.phones = Phones({it.domain: it.phones for it in its.gateways}, is_strict=False)
        # (nobody asks what each telephone did)
        self.phones.log = deque(maxlen=0)
        self.numbers = exchange.lines(part, parts)
        self.draw = random.Random(f"{load.seed} {part}")
        self.idle = [it for it in self.phones if it.name in self.numbers and is_at_rest(it.state)]
        self.under_way, self.is_open = 0, True
        if len(self.idle) < 2:
            self.phones.close()
            raise Lost("fewer than two lines are at rest")

    def take_pair(self) -> tuple[Phone, Phone] | None:
        """Two idle lines that are drawn, which aren't idle then; none where there are fewer."""
        if len(self.idle) < 2:
            return None
        return self.draw_one(), self.draw_one()

    def draw_one(self) -> Phone:
        place = self.draw.randrange(len(self.idle))
        self.idle[place], self.idle[-1] = self.idle[-1], self.idle[place]
        return self.idle.pop()

    def attempt(self, late: float, spawn: Callable[[Callable[[], None]], object]) -> None:
        """Attempts a call, so many s after its moment, in a thread that `spawn` begins."""
        pair = self.take_pair()
        if pair is None:
            self.tally.no_line_free += 1
            self.tell(NO_LINE, 0.0, Failed(NO_LINE))
            return
        self.tally.attempts += 1
        if late > LATE:
            self.tally.late_starts += 1
            self.tell(LATE_START, late * 1000, None)
        is_answered = self.draw.random() * 100 >= self.load.unanswered
        self.tally.unanswered += not is_answered
        self.under_way += 1
        call = Call(self, pair[0], pair[1], is_answered)
        spawn(lambda: self.call(call))

    def call(self, call: Call) -> None:
        """Plays a call, and makes its lines idle again."""
        began = time.monotonic()
        try:
            call.play()
            self.tally.at_rest += 1
            self.tell(CALL, (time.monotonic() - began) * 1000, None)
        except Failed as fault:
            why = str(fault)
            self.tally.failed[why] = self.tally.failed.get(why, 0) + 1
            self.tell(CALL, (time.monotonic() - began) * 1000, fault)
        self.under_way -= 1
        if call.clear(time.monotonic() + LONGEST_END):
            self.idle += [call.a, call.b]

    def settle(self) -> None:
        """Waits for calls under way, for their hold and 60 s at most, and closes it."""
        end = time.monotonic() + self.load.hold + self.load.ring + LONGEST_END
        while self.under_way and time.monotonic() < end:
            time.sleep(0.05)
        self.close()

    def close(self) -> None:
        """Puts back what is lifted of its own lines: those of another tester may talk."""
        if self.is_open:
            self.is_open = False
            self.phones.put_back(1.0, [name for name in self.numbers if name in self.phones.phones])
            self.phones.close()

    @property
    def clock_error(self) -> float:
        """How far clocks of gateways may be off, in s."""
        return max(it.clock_error for it in self.phones.gateways.values())

    @property
    def changes_lost(self) -> int:
        """Changes that gateways told and that weren't heard."""
        return sum(it.changes_lost for it in self.phones.gateways.values())

    @property
    def refused(self) -> int:
        """Acts that telephones refused."""
        return sum(it.refused for it in self.phones.gateways.values())
