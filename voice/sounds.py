"""Sounds: tones of lines, keys and signals, what is read from a file, and which tones are heard in samples."""
from __future__ import annotations

from collections.abc import Iterable
from dataclasses import dataclass

import numpy as np

# Samples a second: of all codecs that there are here (RFC 3551, 4.5.14).
RATE = 8000
# How long a sample lasts, in nanoseconds.
SAMPLE = 1_000_000_000 // RATE
# How loud each frequency of a tone is, and the loudest sample.
LOUD, LOUDEST = 0.1, 32767.0
# A sound begins and ends within so many seconds, so that it doesn't click.
EDGE = 0.004
# How long a key sounds, in seconds.
PRESSED = 0.1
# The tones of lines lie between these frequencies in Hz, above all others.
LOWEST, HIGHEST = 1700, 3300
# The fraction by which one tone after the other goes on, round and round: so those of neighbours are far apart, and all differ.
GOLDEN = 0.6180339887

Samples = np.ndarray


@dataclass(frozen=True)
class Cadence:
    """A tone's frequencies in Hz, its seconds of sound and of silence, and how often it comes, where it ends by itself."""

    hertz: tuple[float, ...]
    sound: float
    silence: float = 0.0
    times: int | None = None


# What a lifted handset hears of its signals: the tones of the United States (ITU-T E.180, Supplement 2; that of confirmation by
# RFC 3660, 2.1), as the page of a gateway plays them.
SIGNALS = {
    "L/dl": Cadence((350, 440), 1),
    "L/bz": Cadence((480, 620), 0.5, 0.5),
    "L/ro": Cadence((480, 620), 0.25, 0.25),
    "G/cg": Cadence((480, 620), 0.25, 0.25),
    "G/rt": Cadence((440, 480), 2, 4),
    "G/cf": Cadence((350, 440), 0.1, 0.1, 3),
}
# The rows and columns of a keypad (ITU-T Q.23).
ROWS, COLUMNS = (697, 770, 852, 941), (1209, 1336, 1477, 1633)
KEYS = {key: (ROWS[place // 4], COLUMNS[place % 4]) for place, key in enumerate("123A456B789C*0#D")}


class Sound:
    """Samples that are played from a moment on: once, so often, or again and again."""

    def __init__(self, samples: Samples, times: int | None = None):
        self.samples, self.times = samples.astype(np.float32), times

    def piece(self, start: int, count: int) -> Samples:
        """So many samples from this one on."""
        first = start % len(self.samples)
        if self.times is None and first + count <= len(self.samples):
            return self.samples[first:first + count]
        places = np.arange(start, start + count)
        heard = self.samples[places % len(self.samples)]
        if self.times is not None:
            heard = np.where(places < self.times * len(self.samples), heard, np.float32(0))
        return heard

    @property
    def length(self) -> int | None:
        """How many samples it has, if it ends."""
        return None if self.times is None else self.times * len(self.samples)


def tone(hertz: Iterable[float], count: int) -> Samples:
    moments = np.arange(count) / RATE
    return LOUD * LOUDEST * sum(np.sin(2 * np.pi * it * moments) for it in hertz)


def edged(samples: Samples) -> Samples:
    """The same sound, which begins and ends softly."""
    places = np.arange(len(samples))
    return samples * np.clip(np.minimum(places, len(samples) - places) / (EDGE * RATE), 0, 1)


def sound_of_cadence(cadence: Cadence) -> Sound:
    heard = tone(cadence.hertz, round(cadence.sound * RATE))
    silence = np.zeros(round(cadence.silence * RATE))
    return Sound(np.concatenate([edged(heard) if len(silence) else heard, silence]), cadence.times)


def sound_of_key(key: str) -> Sound:
    return Sound(edged(tone(KEYS[key], round(PRESSED * RATE))), 1)


def sound_of_line(hertz: int) -> Sound:
    """A tone without an end: whole numbers of Hz come round within a second."""
    return Sound(tone([hertz], RATE))


def hertz_of_line(place: int) -> int:
    """The frequency of the line at this place among all."""
    return LOWEST + round((HIGHEST - LOWEST) * (place * GOLDEN % 1))


SIGNAL_SOUNDS = {name: sound_of_cadence(cadence) for name, cadence in SIGNALS.items()}
KEY_SOUNDS = {key: sound_of_key(key) for key in KEYS}


# What is heard

# Tones are told by so many samples.
WINDOW = RATE // 20
SHAPE = np.hanning(WINDOW)
# A frequency is heard that is so loud, of 1, and has this share of the loudest one beside it.
HEARD, SHARE = 0.01, 0.3
# A frequency that goes on is the same within so many Hz, and it is told if it lasted for so many windows.
SAME, SHORTEST = 12, 2


@dataclass
class Tone:
    """A frequency that is heard from one window to another; the last is behind it."""

    hertz: float
    first: int
    end: int
    loud: float


def peaks(window: Samples) -> list[tuple[float, float]]:
    """The frequencies in Hz that are heard in a window, each with how loud it is, of 1."""
    size = 2 * WINDOW
    strength = np.abs(np.fft.rfft(window * SHAPE, size)) / (SHAPE.sum() / 2) / LOUDEST
    low, here, high = strength[:-2], strength[1:-1], strength[2:]
    enough = max(HEARD, SHARE * float(here.max()))
    found = []
    for place in np.flatnonzero((here >= enough) & (low < here) & (here >= high)):
        # The top of a parabola through the three logarithms.
        one, two, three = np.log(np.maximum(strength[place:place + 3], 1e-9))
        shift = 0.5 * (one - three) / (one - 2 * two + three)
        found.append(((place + 1 + shift) * RATE / size, float(here[place])))
    return found


class Hearing:
    """Which tones are heard in samples that come one piece after the other, and in which windows."""

    def __init__(self) -> None:
        self.tones: list[Tone] = []
        self.rest = np.zeros(0, np.float32)
        self.window = 0

    def hear(self, samples: Samples) -> None:
        self.rest = np.concatenate([self.rest, samples])
        while len(self.rest) >= WINDOW:
            if np.abs(self.rest[:WINDOW]).max() > HEARD * LOUDEST:
                for hertz, loud in peaks(self.rest[:WINDOW]):
                    self.note(hertz, loud)
            self.rest = self.rest[WINDOW:]
            self.window += 1

    def note(self, hertz: float, loud: float) -> None:
        for tone_heard in reversed(self.tones[-8:]):
            if tone_heard.end >= self.window and abs(tone_heard.hertz - hertz) <= SAME:
                tone_heard.end = self.window + 1
                if loud > tone_heard.loud:
                    tone_heard.hertz, tone_heard.loud = hertz, loud
                return
        self.tones.append(Tone(hertz, self.window, self.window + 1, loud))

    def heard(self) -> list[Tone]:
        return [it for it in self.tones if it.end - it.first >= SHORTEST]
