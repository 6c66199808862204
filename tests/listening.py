"""What was heard at telephones: the recordings and the report of voice/voice, and what is wrong with them.

Moments are times of day, in ms.
"""
import importlib
import sys
import time
import wave
from collections.abc import Iterable
from typing import Any

import pytest
from rgw_bench.phones import Phone
from running import TOP

np: Any = pytest.importorskip("numpy", reason="there is no python3-numpy")
sys.path.append(f"{TOP}/voice")
sounds: Any = importlib.import_module("sounds")

Samples = Any
Report = dict[str, Any]
RATE = 8000
# Samples of a window, and from how loud on, of 1, a tone is heard in one, or in a whole call.
WINDOW, HEARD, TRACE = 400, 0.02, 0.005
# A window's length, in ms.
LENGTH = WINDOW * 1000 / RATE
# A tone that is said is at least so loud, of 1.
LOUD = 0.05
# So many ms a tone may begin before both ends let it pass, by how exactly moments are known; and end after its handset is on hook.
EARLY, LATE = 60, 200
# What began belongs to a call by so many ms at most before it, and as many before its end: a line's next call may begin at once.
NEAR = 50
# From both ends on, and before the end, so many ms aren't asked for the tone.
SETTLES = 250
# A tone is another one that differs by more, in Hz.
APART = 15
# Busy tone: its frequencies in Hz, and how long it sounds and is silent, in ms.
BUSY, BUSY_TIME = (480, 620), 500
# How exactly it is known when a signal begins, in samples.
EXACT = RATE // 50


def now() -> float:
    """The time of day."""
    return 1000 * time.time()


class Call:
    """A call that was played: its telephones, when it began and ended, when the caller hung up, and whether it was connected."""

    def __init__(self, one: Phone, other: Phone):
        self.one, self.other = one, other
        self.begun = self.hung_up = self.ended = now()
        self.is_connected = False


class Heard:
    """A recording of a call, and what its line was told meanwhile."""

    def __init__(self, report: Report, phone: Phone, call: Call):
        def is_its(entry: Report) -> bool:
            is_then = call.begun - NEAR <= entry["zero"] + entry["begun"] <= call.ended - NEAR
            return (entry["gateway"], entry["line"]) == (phone.gateway.name, phone.number) and is_then

        calls = [entry for entry in report["calls"] if is_its(entry)]
        self.is_one = len(calls) == 1
        self.connections = [entry for entry in report["connections"] if is_its(entry)]
        self.entry: Report = calls[-1] if calls else {"zero": 0, "begun": 0, "signals": []}
        self.begun = self.entry["zero"] + self.entry["begun"]
        self.samples = samples_of(self.entry["file"]) if calls else np.zeros(0)

    def first(self, modes: set[str]) -> float:
        """Since when one of its connections has one of these modes; 0 where none has."""
        found = [it["zero"] + stood["at"] for it in self.connections for stood in it["stood"] if stood["mode"] in modes]
        return min(found, default=0.0)

    def between(self, begun: float, end: float) -> Samples:
        """What was heard between two moments."""
        first, last = (max(0, int((it - self.begun) * RATE / 1000)) for it in (begun, end))
        return self.samples[first:last]

    def times(self, hertz: float) -> Samples:
        """The moments of all windows in which a frequency is heard."""
        return self.begun + np.flatnonzero(loudness(self.samples, hertz) > HEARD) * LENGTH

    def signals(self, name: str) -> list[tuple[float, float]]:
        """From when to when it was told that a signal is active."""
        return [(self.entry["zero"] + it["from"], self.entry["zero"] + it["to"]) for it in self.entry["signals"] if it["name"] == name]


def samples_of(path: str) -> Samples:
    """The samples of a WAV file, each of -1 to 1."""
    with wave.open(path) as file:
        return np.frombuffer(file.readframes(file.getnframes()), "<i2") / 32767


def loudness(samples: Samples, hertz: float) -> Samples:
    """How loud a frequency is, of 1, in each window."""
    count = len(samples) // WINDOW
    shape = np.hanning(WINDOW)
    wave_of = shape * np.exp(-2j * np.pi * hertz * np.arange(WINDOW) / RATE)
    return np.abs(samples[:count * WINDOW].reshape(count, WINDOW) @ wave_of) * 2 / shape.sum()


def strongest_besides(samples: Samples, known: Iterable[float]) -> tuple[float, float]:
    """The loudest frequency that isn't one of these, and how loud it is, of 1."""
    shape = np.hanning(len(samples))
    strength = np.abs(np.fft.rfft(samples * shape)) * 2 / shape.sum()
    hertz = np.fft.rfftfreq(len(samples), 1 / RATE)
    for its in [0, *known]:
        strength[np.abs(hertz - its) <= APART] = 0
    place = int(strength.argmax())
    return float(hertz[place]), float(strength[place])


def hears_other(what: str, mine: Heard, his: Heard, tone: float, hung_up: float) -> list[str]:
    """What is wrong with what one end heard of the other, which hung up at this moment, if it did."""
    both = max(mine.first({"sendrecv"}), his.first({"sendrecv"}))
    passes = max(mine.first({"sendrecv", "recvonly", "confrnce"}), his.first({"sendrecv", "sendonly", "confrnce"}))
    if not both or not passes:
        return [f"{what}: it isn't told that both ends are connected"]
    said = mine.between(both + SETTLES, hung_up - SETTLES)
    wrong = []
    silent = int((loudness(said, tone) < LOUD).sum())
    if silent or len(said) < RATE // 2:
        wrong.append(f"{what}: the other's tone is missing for {silent * LENGTH:.0f} of {len(said) * 1000 // RATE} ms")
    hertz, loud = strongest_besides(said, [tone]) if len(said) >= RATE // 2 else (0.0, 0.0)
    if loud > TRACE:
        wrong.append(f"{what}: a third tone of {hertz:.0f} Hz, {loud:.3f} loud")
    heard = mine.times(tone)
    if (heard < passes - EARLY).any():
        wrong.append(f"{what}: the other is heard {passes - heard.min():.0f} ms before both ends let it pass")
    if (heard > hung_up + LATE).any():
        wrong.append(f"{what}: the other is heard {heard.max() - hung_up:.0f} ms after it hung up")
    return wrong


def faults_of(report: Report, call: Call) -> list[str]:
    """What is wrong with a call that was connected: each end must hear the other while both are connected, and nothing besides."""
    one, other = Heard(report, call.one, call), Heard(report, call.other, call)
    if not (one.is_one and other.is_one):
        return [f"{call.one.name} to {call.other.name}: not one recording of each end"]
    tones = report["tones"]
    # Who is called hears the caller until that hangs up; the caller hears it as long as it listens itself.
    return [
        *hears_other(f"{call.one.name} called {call.other.name}", one, other, tones[call.other.name], call.hung_up),
        *hears_other(f"{call.other.name} called by {call.one.name}", other, one, tones[call.one.name], call.hung_up),
    ]


def busy_faults(report: Report, call: Call) -> list[str]:
    """What is wrong with what a line hears that calls one in use: busy tone by its cadence, and no other line."""
    heard = Heard(report, call.one, call)
    spans = heard.signals("L/bz")
    if not spans:
        return [f"{call.one.name}: no busy tone is told"]
    samples = heard.between(*spans[0])
    is_on = np.all([loudness(samples, hertz) > HEARD for hertz in BUSY], axis=0)
    # Where it changes, without what is cut off at both ends.
    runs = np.diff(np.flatnonzero(is_on[1:] != is_on[:-1])) * LENGTH
    wrong = [f"{call.one.name}: it hears {name}" for name, hertz in report["tones"].items() if len(heard.times(hertz))]
    if len(is_on) < 20 or len(runs) < 2 or np.abs(runs - BUSY_TIME).max() > 1.5 * LENGTH:
        wrong.append(f"{call.one.name}: no busy tone by its cadence: {[int(run) for run in runs]} ms")
    return wrong


def is_signal(samples: Samples, name: str) -> bool:
    """Whether that is what is heard of a signal from its beginning on, by how exactly moments are known, with one silence at least."""
    cadence = sounds.SIGNALS[name]
    if len(samples) < RATE * (cadence.sound + cadence.silence) + 2 * EXACT:
        return False
    wanted = sounds.SIGNAL_SOUNDS[name].piece(EXACT, len(samples) - 2 * EXACT) / sounds.LOUDEST
    for shift in range(0, 2 * EXACT, EXACT // 8):
        said = samples[shift:shift + len(wanted)]
        if all(np.abs(loudness(said, hertz) - loudness(wanted, hertz)).max() <= HEARD for hertz in cadence.hertz):
            return True
    return False


def hears_all(report: Report, phone: Phone, call: Call, begun: float, hertz: float, besides: float = TRACE) -> bool:
    """Whether a line hears a frequency from this moment on until its call ends, and nothing besides that is louder than this."""
    said = Heard(report, phone, call).between(begun, call.ended)
    is_long = len(said) >= RATE // 2
    return is_long and not (loudness(said, hertz) < LOUD).any() and strongest_besides(said, [hertz])[1] <= besides


def both_hear(report: Report, call: Call, begun: float, end: float) -> bool:
    """Whether each end of a call hears the other between these moments, and nothing besides."""
    for mine, his in ((call.one, call.other), (call.other, call.one)):
        said, tone = Heard(report, mine, call).between(begun, end), report["tones"][his.name]
        if len(said) < RATE // 4 or (loudness(said, tone) < LOUD).any() or strongest_besides(said, [tone])[1] > TRACE:
            return False
    return True
