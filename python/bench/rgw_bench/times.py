"""Times in buckets, and their percentiles: what is kept doesn't grow with how many there are."""
from __future__ import annotations

import math


def bucket_of(ms: float) -> int:
    """The bucket of a time in ms: whole ms below 100, and two significant digits above, so that it is told at most a twentieth off."""
    whole = max(0, round(ms))
    step = int("1" + "0" * max(0, len(str(whole)) - 2))
    return (whole + step // 2) // step * step


class Times:
    """Times in ms: how many, percentiles, and the greatest."""

    def __init__(self) -> None:
        self.buckets: dict[int, int] = {}
        self.count, self.most = 0, 0.0

    def add(self, ms: float) -> None:
        """One more."""
        bucket = bucket_of(ms)
        self.buckets[bucket] = self.buckets.get(bucket, 0) + 1
        self.count += 1
        self.most = max(self.most, ms)

    def percentile(self, percent: float) -> int | None:
        """The least time in ms that so many of a hundred don't exceed; none before the first."""
        missing = math.ceil(percent * self.count / 100)
        for ms, count in sorted(self.buckets.items()):
            missing -= count
            if missing <= 0:
                return ms
        return None

    def told(self) -> dict[str, float | int | None]:
        """As a report has them: `count`, `p50`, `p95`, `p99` and `most`."""
        percentiles = {f"p{it}": self.percentile(it) for it in (50, 95, 99)}
        return {"count": self.count, **percentiles, "most": round(self.most) if self.count else None}
