"""What a lifted handset hears, as a file, and which tones are heard when.

What is heard comes in pieces, each with its moment, and pieces of one moment are mixed. What lies behind long enough is written.
"""
from __future__ import annotations

import math
import wave

import numpy as np

from sounds import RATE, SAMPLE, WINDOW, Hearing, Samples

# Pieces come so much later than their moment at most, in samples; a later one isn't heard. So many are written at once.
LATEST, AT_ONCE = RATE // 2, RATE // 2


class Recording:
    """A handset's call, from when it is lifted to when it is put back. A file is written where a path is given."""

    def __init__(self, path: str | None, begun: int):
        self.path, self.begun = path, begun
        self.file = None
        if path is not None:
            self.file = wave.open(path, "wb")
            self.file.setnchannels(1)
            self.file.setsampwidth(2)
            self.file.setframerate(RATE)
        # What isn't written yet, and how many samples are.
        self.waiting = np.zeros(0, np.float32)
        self.written = 0
        self.hearing = Hearing()

    def place_of(self, moment: int) -> int:
        """Which sample is heard at this moment of the machine, in nanoseconds."""
        return round((moment - self.begun) / SAMPLE)

    def add(self, moment: int, samples: Samples) -> None:
        """Samples are heard from this moment on, besides what else is."""
        start = self.place_of(moment) - self.written
        if start < 0:
            samples, start = samples[-start:], 0
        missing = start + len(samples) - len(self.waiting)
        if missing > 0:
            self.waiting = np.concatenate([self.waiting, np.zeros(missing, np.float32)])
        self.waiting[start:start + len(samples)] += samples

    def settle(self, moment: int) -> None:
        """Writes what was heard before this moment and can't change any more."""
        count = self.place_of(moment) - LATEST - self.written
        if count >= AT_ONCE:
            self.write(count)

    def write(self, count: int) -> None:
        if count <= 0:
            return
        if len(self.waiting) < count:
            self.waiting = np.concatenate([self.waiting, np.zeros(count - len(self.waiting), np.float32)])
        heard, self.waiting = self.waiting[:count], self.waiting[count:]
        self.hearing.hear(heard)
        if self.file is not None:
            self.file.writeframes(np.clip(heard, -32768, 32767).astype("<i2").tobytes())
        self.written += count

    def end(self, moment: int) -> None:
        """The handset is put back at this moment: the file is whole."""
        self.write(self.place_of(moment) - self.written)
        if self.file is not None:
            self.file.close()

    def tones(self) -> list[tuple[float, float, int, int]]:
        """Each frequency that was heard, its greatest level in dB of the loudest sound, and from when to when, in ms from the beginning."""
        window = 1_000 * WINDOW // RATE
        return [
            (round(it.hertz, 1), round(20 * math.log10(it.loud), 1), it.first * window, it.end * window) for it in self.hearing.heard()
        ]
