"""Calls between the telephones of two gateways, which one call agent serves, judged by the telephones alone.

Calls between lines that are drawn, at times that are drawn: answered, to a line in use, to a wrong number, abandoned while it rings, and
two lines that dial each other at once. Of an answered call each connection must receive where the other sends. Over a bad network a call
may end with reorder tone, but of each kind so many must end as they should. At the end each line is at rest.

AGENT="COMMAND" starts another call agent, with {own} for its own address and {config} for a file as rgca takes it; it ends by SIGTERM.
"""
import collections
import concurrent.futures
import math
import random
import threading
import time
from collections.abc import Iterator, Sequence

import pytest
from exchange import BAD_NETWORK, LONGEST, Exchange, Relays
from rgw_bench.phones import Lost, Phone, Unexpected, side_by_side
from rgw_bench.relay import clean, spoilt
from running import Bench

Counts = collections.Counter[tuple[str, str]]
KINDS = {"answered": 50, "busy": 14, "wrong": 12, "abandoned": 16, "at once": 8}
# How a call of each kind should end, and how many of a hundred of the kind have to.
ENDS = {
    "answered": ("connected", 80), "busy": ("busy tone", 70), "wrong": ("reorder tone", 100), "abandoned": ("rings no more", 70),
    "at once": ("busy tone", 50),
}
# So many have to where all calls are answered ones.
ALL_ANSWERED = 95
# How it may end besides: with reorder tone where a command was given up on the way, and where of two that lift at once one waits for
# longer than the other's dial tone lasts; with busy tone where who rings was called anew.
BESIDES = {"answered": {"reorder tone"}, "busy": {"reorder tone"}, "abandoned": {"reorder tone", "busy tone"}, "at once": {"reorder tone"}}
TONES = {"L/bz": "busy tone", "L/ro": "reorder tone"}


def lifts(phone: Phone) -> None:
    phone.off().expect("L/dl", within=LONGEST)


def hears(one: Phone, other: Phone, what: str) -> None:
    side_by_side(lambda: one.expect(what, within=LONGEST), lambda: other.expect(what, within=LONGEST))


class Kinds:
    """A call of each kind between two telephones, up to its end; `numbers` has the number of each telephone. Who rings or talks does so for
    up to `longest` s."""

    def __init__(self, one: Phone, other: Phone, numbers: dict[str, str], draw: random.Random, longest: float):
        self.one, self.other, self.numbers, self.draw, self.longest = one, other, numbers, draw, longest
        self.gap = draw.randrange(400) / 1000

    def pause(self) -> None:
        time.sleep(self.draw.random() * self.longest)

    def dials(self, one: Phone, other: Phone) -> None:
        one.dial(self.numbers[other.name], self.gap)

    def rings(self) -> None:
        lifts(self.one)
        self.dials(self.one, self.other)
        self.other.expect("L/rg", within=LONGEST)
        self.pause()

    def answered(self) -> None:
        self.rings()
        self.other.off()
        hears(self.one, self.other, "sendrecv")
        self.pause()

    def busy(self) -> None:
        lifts(self.other)
        lifts(self.one)
        self.dials(self.one, self.other)
        self.one.expect("L/bz", within=LONGEST)

    def wrong(self) -> None:
        lifts(self.one)
        self.one.dial(str(self.draw.randrange(900, 1000)), self.gap).expect("L/ro", within=LONGEST)

    def abandoned(self) -> None:
        self.rings()
        self.one.on()
        self.other.expect("silent", within=LONGEST)

    def at_once(self) -> None:
        one, other = self.one, self.other
        side_by_side(lambda: lifts(one), lambda: lifts(other))
        side_by_side(lambda: self.dials(one, other), lambda: self.dials(other, one))
        hears(one, other, "L/bz")


def tone_of(*phones: Phone) -> str:
    """The tone that one of these telephones heard last, though it may be over by now; nothing where another signal came after it."""
    for phone in phones:
        heard = [signal for state in phone.states for signal in sorted(state.signals)]
        if heard and heard[-1] in TONES:
            return TONES[heard[-1]]
    return ""


def played(kind: str, one: Phone, other: Phone, numbers: dict[str, str], draw: random.Random, longest: float) -> tuple[str, str]:
    """Plays a call, and until both lines are at rest: its kind, and how it ended."""
    for phone in (one, other):
        phone.forget()
    told = ENDS[kind][0]
    try:
        getattr(Kinds(one, other, numbers, draw, longest), kind.replace(" ", "_"))()
        if told == "connected" and not one.meets(other):
            told = "an end receives where the other doesn't send"
    except (Unexpected, Lost) as fault:
        told = tone_of(one, other) or str(fault)
    names = [one.name, other.name]
    draw.shuffle(names)
    faults = one.phones.put_back(LONGEST, names)
    return kind, f"no rest: {'; '.join(faults)}" if faults else told


def drawn(count: int, draw: random.Random, shares: dict[str, int]) -> list[str]:
    """So many kinds, each in its share, in an order that is drawn."""
    kinds = [kind for kind, share in shares.items() for _ in range(share)]
    chosen = [kinds[place * len(kinds) // count % len(kinds)] for place in range(count)]
    draw.shuffle(chosen)
    return chosen


def play(exchange: Exchange, kinds: Sequence[str], at_once: int, draw: random.Random, longest: float) -> Counts:
    """Plays calls of these kinds, so many at once: how often which ended how."""
    numbers, guard = exchange.numbers(), threading.Condition()
    with exchange.phones() as phones, concurrent.futures.ThreadPoolExecutor(at_once) as pool:
        idle, calls = list(phones), []

        def one_call(kind: str, pair: list[Phone], seed: float) -> tuple[str, str]:
            try:
                return played(kind, pair[0], pair[1], numbers, random.Random(seed), longest)
            finally:
                with guard:
                    idle.extend(pair)
                    guard.notify()

        for kind in kinds:
            with guard:
                guard.wait_for(lambda: len(idle) >= 2)
                pair = [idle.pop(draw.randrange(len(idle))) for _ in range(2)]
            calls.append(pool.submit(one_call, kind, pair, draw.random()))
        return collections.Counter(call.result() for call in calls)


def faults_of(counts: Counts, is_all_answered: bool) -> Iterator[str]:
    """What is wrong with calls that ended so: one that ended as it may not, and of which kind fewer ended as they should than have to."""
    for (kind, told), number in sorted(counts.items()):
        if told != ENDS[kind][0] and told not in BESIDES.get(kind, ()):
            yield f"{kind}: {told}, {number} times"
    for kind, (end, of_100) in ENDS.items():
        count = sum(number for (its, _), number in counts.items() if its == kind)
        least = math.ceil(count * (ALL_ANSWERED if is_all_answered else of_100) / 100)
        if counts[kind, end] < least:
            yield f"{kind}: of {count} calls {counts[kind, end]} ended with {end}, and {least} have to"


def assert_calls(exchange: Exchange, count: int, at_once: int, is_all_answered: bool = False, longest: float = 3.0) -> None:
    """Plays so many calls, which end as they have to."""
    draw = random.Random(1)
    counts = play(exchange, drawn(count, draw, {"answered": 100} if is_all_answered else KINDS), at_once, draw, longest)
    assert not list(faults_of(counts, is_all_answered)), counts
    assert exchange.not_at_rest() == []
    exchange.end()


def test_calls(bench: Bench) -> None:
    """Some of each kind, over a good network."""
    assert_calls(Exchange(bench, 4), 14, 3, longest=0.3)


def test_calls_by_a_relay(bench: Bench, relay: Relays) -> None:
    """Answered calls, over a network that is no worse than a good one."""
    assert_calls(Exchange(bench, 2, through=(relay, spoilt("copy 20%, late 0-20, seed 1"), spoilt("late 0-20, seed 2"))), 4, 2, True, 0.3)


@pytest.mark.live
def test_calls_over_a_bad_network(bench: Bench) -> None:
    """A hundred of all kinds, seven at a time; each program loses, copies and delays what it sends."""
    assert_calls(Exchange(bench, 16, BAD_NETWORK), 100, 7)


@pytest.mark.live
def test_answered_calls_over_a_bad_network(bench: Bench, relay: Relays) -> None:
    """Forty, by a relay that does so between gateways and agent."""
    assert_calls(Exchange(bench, 16, through=(relay, spoilt(f"{BAD_NETWORK}, seed 1"), spoilt(f"{BAD_NETWORK}, seed 2"))), 40, 7, True)


@pytest.mark.live
def test_exchange_that_connects_nothing_is_found(bench: Bench, relay: Relays) -> None:
    """No CRCX of the agent arrives, and calls end with reorder tone, which a bad network may do to some."""

    def fate(data: bytes, moment: float) -> Sequence[float]:
        return () if b"CRCX " in data else clean(data, moment)

    counts = play(Exchange(bench, 4, through=(relay, fate, clean)), ["answered"] * 4, 4, random.Random(1), 0.1)
    assert counts == {("answered", "reorder tone"): 4}
    assert list(faults_of(counts, False)) == ["answered: of 4 calls 0 ended with connected, and 4 have to"]


@pytest.mark.parametrize("counts, is_all_answered, faults", [
    ({("answered", "connected"): 40, ("answered", "reorder tone"): 10}, False, []),
    ({("answered", "connected"): 39, ("answered", "reorder tone"): 11}, False,
     ["answered: of 50 calls 39 ended with connected, and 40 have to"]),
    ({("answered", "connected"): 95, ("answered", "reorder tone"): 5}, True, []),
    ({("answered", "connected"): 94, ("answered", "reorder tone"): 6}, True,
     ["answered: of 100 calls 94 ended with connected, and 95 have to"]),
    ({("answered", "reorder tone"): 1}, False, ["answered: of 1 calls 0 ended with connected, and 1 have to"]),
    ({("busy", "busy tone"): 6, ("busy", "reorder tone"): 3}, False, ["busy: of 9 calls 6 ended with busy tone, and 7 have to"]),
    ({("at once", "busy tone"): 4, ("at once", "reorder tone"): 4}, False, []),
    ({("abandoned", "rings no more"): 7, ("abandoned", "reorder tone"): 2, ("abandoned", "busy tone"): 1}, False, []),
    ({("wrong", "reorder tone"): 9, ("wrong", "busy tone"): 1}, False,
     ["wrong: busy tone, 1 times", "wrong: of 10 calls 9 ended with reorder tone, and 10 have to"]),
    ({("answered", "connected"): 9, ("answered", "no rest: gw1:1"): 1}, False, ["answered: no rest: gw1:1, 1 times"]),
], ids=range(10))
def test_what_is_wrong_with_calls(counts: dict[tuple[str, str], int], is_all_answered: bool, faults: list[str]) -> None:
    """The least of each kind in either mode, and ends that no network excuses."""
    assert list(faults_of(collections.Counter(counts), is_all_answered)) == faults


def test_kinds_are_drawn_by_their_shares() -> None:
    for count in (100, 14):
        chosen = collections.Counter(drawn(count, random.Random(2), KINDS))
        assert all(abs(chosen[kind] * 100 - share * count) < 100 for kind, share in KINDS.items())
