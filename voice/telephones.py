"""The telephones of gateways: what each says and hears, over which connections, and what is reported of that."""
from __future__ import annotations

import time
from collections.abc import Callable
from dataclasses import dataclass, field
from typing import Any

import numpy as np

from following import MILLISECOND, Clock, Connection, Gateway, Line, say, text_of
from recording import Recording
from sounds import KEY_SOUNDS, SAMPLE, SIGNAL_SOUNDS, Samples, Sound
from streams import AHEAD, PortTaken, Stream

# A packet is heard that has a sample so loud; and what is heard goes on where it is silent for so long, in ms.
AUDIBLE, PAUSE = 200, 300
# A port that another program has is tried again after so long, in nanoseconds.
TRIED_AGAIN = 1_000 * MILLISECOND
# A frequency is a line's if it is that within so many Hz.
LIKE = 4
# What takes a line of the log.
Note = Callable[[str], None]


def time_of_day(clock: Clock) -> int:
    """The time of day, in ms, at which a gateway's clock was 0."""
    return (clock.time_of(0) + time.time_ns() - time.monotonic_ns()) // MILLISECOND


@dataclass
class Span:
    """From when to when something was so, in ms of the gateway's clock."""

    begun: int
    end: int

    def told(self, **more: Any) -> dict[str, Any]:
        return {**more, "from": self.begun, "to": self.end}


class Held:
    """A connection of a line, and its media."""

    def __init__(self, gateway: Gateway, line: int, connection: Connection, at: int, note: Note):
        self.note = note
        self.gateway, self.line, self.connection = gateway, line, connection
        self.clock = gateway.clock
        self.begun: int = at
        self.ended: int | None = None
        # How it stood from when on, and from when to when something was heard.
        self.stood: list[tuple[int, Connection]] = [(at, connection)]
        self.heard: list[Span] = []
        self.stream: Stream | None = None
        self.counts = None
        self.fault = ""
        self.tried = 0
        # How long a change took at most, in ms, from when it was told.
        self.slowest = 0.0
        self.begin()

    @property
    def name(self) -> str:
        return f"{self.gateway.name}:{self.line} connection {self.connection.name}"

    def begin(self) -> None:
        """Its socket is made, if its port is known and free."""
        self.tried = time.monotonic_ns()
        if self.connection.local is None:
            return
        try:
            self.stream = Stream(self.connection)
            self.fault = ""
        except PortTaken as taken:
            if not self.fault:
                say(f"{self.name}: {taken}; it is tried again each second")
            self.fault = str(taken)

    def change(self, connection: Connection, at: int) -> None:
        """It is another from this moment on."""
        if connection == self.connection:
            return
        before, self.connection = self.connection, connection
        self.stood.append((at, connection))
        if self.stream is None or connection.local != before.local:
            self.end_stream()
            self.begin()
        else:
            self.stream.change(connection)

    def done(self, told: int) -> None:
        """A change has taken place that was told at this time."""
        took = (time.monotonic_ns() - told) / MILLISECOND
        self.slowest = max(self.slowest, took)
        self.note(f"{self.name} {self.connection}, within {took:.1f} ms")

    def hear(self, moment: int, samples: Samples) -> None:
        """Notes that something was heard."""
        if np.abs(samples).max() <= AUDIBLE:
            return
        begun, end = self.clock.moment_of(moment), self.clock.moment_of(moment + len(samples) * SAMPLE)
        if self.heard and begun - self.heard[-1].end <= PAUSE:
            self.heard[-1].end = end
        else:
            self.heard.append(Span(begun, end))

    def check(self, now: int) -> None:
        """Once in a while: what went wrong is told, and a port that was taken is tried again."""
        if self.stream is None:
            if self.fault and now - self.tried >= TRIED_AGAIN:
                self.begin()
            return
        for text in self.stream.faults():
            if not self.fault:
                say(f"{self.name}: {text}")
            self.fault = text
        self.stream.count()

    def end_stream(self) -> None:
        if self.stream is not None:
            self.stream.end()
            self.counts, self.stream = self.stream.counts, None

    def end(self, at: int) -> None:
        self.ended = at
        self.end_stream()
        self.note(f"{self.name} over, {self.counts}")

    def report(self) -> dict[str, Any]:
        counts = self.stream.counts if self.stream else self.counts
        told = {} if counts is None else {**vars(counts), "jitter": round(counts.jitter, 3)}
        stood = [
            {"at": at, "mode": it.mode, "remote": text_of(it.remote), "codec": it.codec, "packet_time": it.packet_time}
            for at, it in self.stood
        ]
        return {
            "gateway": self.gateway.name, "line": self.line, "connection": self.connection.name, "zero": time_of_day(self.clock),
            "local": text_of(self.connection.local), "begun": self.begun, "ended": self.ended, "stood": stood, **told,
            "slowest_change": round(self.slowest, 3),
            "first_heard": self.heard[0].begun if self.heard else None, "last_heard": self.heard[-1].end if self.heard else None,
            "heard": [it.told() for it in self.heard], "fault": self.fault or None,
        }


@dataclass
class Signal:
    """A signal that a lifted handset hears."""

    sound: Sound
    begun: int
    # Until when it was heard so far, both in nanoseconds.
    next: int


@dataclass
class Call:
    """From when a handset is lifted to when it is put back, in ms of the gateway's clock."""

    clock: Clock
    begun: int
    recording: Recording
    signals: list[tuple[str, Span]] = field(default_factory=list)
    end: int | None = None


class Telephone:
    """A line's handset, and the media of its connections."""

    def __init__(self, gateway: Gateway, number: int, source: Sound, folder: str | None, note: Note):
        self.gateway, self.number, self.source, self.folder, self.note = gateway, number, source, folder, note
        self.held: dict[str, Held] = {}
        self.over: list[Held] = []
        self.calls: list[Call] = []
        self.call: Call | None = None
        # Since when it is lifted, and keys with the moments at which they sound.
        self.lifted = 0
        self.keys: list[tuple[int, Sound]] = []
        self.signals: dict[str, Signal] = {}

    @property
    def name(self) -> str:
        return f"{self.gateway.name}:{self.number}"

    # What it is told

    def settle(self, line: Line, now: int) -> None:
        """Its line is so now, as was told at this moment: what differs is changed."""
        self.settle_hook(line)
        self.settle_signals(line)
        for name in [name for name in self.held if name not in line.connections]:
            held = self.held.pop(name)
            self.hear(held)
            held.end(line.at)
            self.over.append(held)
        for name, connection in line.connections.items():
            held = self.held.get(name)
            if held is None:
                held = self.held[name] = Held(self.gateway, self.number, connection, line.at, self.note)
            elif held.connection != connection:
                self.hear(held)
                held.change(connection, line.at)
            else:
                continue
            held.done(now)

    def settle_hook(self, line: Line) -> None:
        if line.is_lifted and self.call is None:
            self.lifted = line.time
            path = None
            if self.folder is not None:
                path = f"{self.folder}/{self.gateway.name}_{self.number}_{len(self.calls) + 1}.wav"
            self.call = Call(self.gateway.clock, line.at, Recording(path, self.lifted))
            self.calls.append(self.call)
        elif not line.is_lifted and self.call is not None:
            self.put_back(line.at, line.time)

    def put_back(self, at: int, end: int) -> None:
        """The handset is put back at this moment: what it heard is whole."""
        for held in self.held.values():
            self.hear(held)
        for name in list(self.signals):
            self.end_signal(name, end)
        self.call.recording.end(end)
        self.call.end, self.call = at, None
        self.keys = []

    def settle_signals(self, line: Line) -> None:
        for name, signal in list(self.signals.items()):
            if line.signals.get(name) != signal.begun:
                self.end_signal(name, line.time)
        if self.call is None:
            return
        for name, begun in line.signals.items():
            if name in SIGNAL_SOUNDS and name not in self.signals:
                heard = max(begun, self.lifted)
                self.signals[name] = Signal(SIGNAL_SOUNDS[name], begun, heard)
                at = self.call.clock.moment_of(heard)
                self.call.signals.append((name, Span(at, at)))

    def end_signal(self, name: str, end: int) -> None:
        signal = self.signals.pop(name)
        self.play(name, signal, end)

    def press(self, key: str, now: int) -> None:
        """A key sounds from where nothing was said ahead yet."""
        if self.call is not None:
            self.keys.append((now + AHEAD, KEY_SOUNDS[key]))

    # What it hears and says

    def turn(self, now: int) -> None:
        """What came is heard, and what is due is said."""
        for held in self.held.values():
            self.hear(held)
        for name, signal in self.signals.items():
            self.play(name, signal, now)
        if self.call is not None:
            self.call.recording.settle(now)
        for held in self.held.values():
            if held.stream is not None:
                self.speak(held.stream, now)

    def hear(self, held: Held) -> None:
        """What came over a connection is mixed into what the handset hears, and handed on where connections are in conference."""
        if held.stream is None:
            return
        is_conference = held.connection.mode == "confrnce"
        for moment, samples in held.stream.heard():
            held.hear(moment, samples)
            if self.call is not None:
                self.call.recording.add(moment, samples)
            if is_conference:
                self.hand_on(held, moment, samples)

    def hand_on(self, held: Held, moment: int, samples: Samples) -> None:
        for other in self.held.values():
            if other is not held and other.stream is not None and other.connection.mode == "confrnce":
                other.stream.guests.put(moment, samples)

    def play(self, name: str, signal: Signal, until: int) -> None:
        """A signal is heard until this moment."""
        count = (until - signal.next) // SAMPLE
        if count <= 0 or self.call is None:
            return
        self.call.recording.add(signal.next, signal.sound.piece((signal.next - signal.begun) // SAMPLE, count))
        signal.next += count * SAMPLE
        for known, span in reversed(self.call.signals):
            if known == name:
                span.end = self.call.clock.moment_of(signal.next)
                break

    def speak(self, stream: Stream, now: int) -> None:
        is_conference = stream.connection.mode == "confrnce"
        for moment, count in stream.due(now):
            samples = self.said(moment, count)
            if is_conference:
                samples = np.clip(samples + stream.guests.take(moment, count), -32768, 32767)
            stream.sender.push(moment, samples)

    def said(self, moment: int, count: int) -> Samples:
        """What is said into the handset from this moment on: nothing while it is on hook, a key's tone, or else what its source says."""
        if self.call is None:
            return np.zeros(count, np.float32)
        for begun, sound in self.keys:
            place = (moment - begun) // SAMPLE
            if 0 <= place < sound.length:
                return sound.piece(place, count)
        return self.source.piece(max(0, moment - self.lifted) // SAMPLE, count)

    def check(self, now: int) -> None:
        for held in self.held.values():
            held.check(now)
        self.keys = [(begun, sound) for begun, sound in self.keys if now - begun < 1_000 * MILLISECOND]

    # What is reported

    def end(self, now: int) -> None:
        """The program ends: files are whole."""
        if self.call is not None:
            self.put_back(self.call.clock.moment_of(now), now)
        for held in self.held.values():
            self.hear(held)
            held.end_stream()

    def report_calls(self, hertz: dict[str, int]) -> list[dict[str, Any]]:
        """Its calls, with the tones that were heard, and whose they are."""
        return [self.report_call(call, hertz) for call in self.calls]

    def report_call(self, call: Call, hertz: dict[str, int]) -> dict[str, Any]:
        tones = []
        for heard, level, begun, end in call.recording.tones():
            near = [name for name, its in hertz.items() if abs(its - heard) <= LIKE]
            span = Span(call.begun + begun, call.begun + end)
            tones.append(span.told(hertz=heard, level=level, line=near[0] if len(near) == 1 else None))
        return {
            "gateway": self.gateway.name, "line": self.number, "zero": time_of_day(call.clock), "begun": call.begun, "ended": call.end,
            "file": call.recording.path, "tones": tones, "signals": [span.told(name=name) for name, span in call.signals],
        }

    def report_connections(self) -> list[dict[str, Any]]:
        return [held.report() for held in [*self.over, *self.held.values()]]
