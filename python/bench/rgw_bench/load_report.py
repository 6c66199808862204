"""What a load is told as: a line a second while it goes on, and a report at its end."""
from __future__ import annotations

import re
from typing import Any

from .load_calls import STEPS, Lines
from .load_words import Exchange, Load
from .phones import Lost
from .processors import Limit, Share
from .wire import written

# What gateways count that tells of the agent, by a name of ours: rgwd(8) has them behind `counts`.
COUNTED = {
    "notifications": r"^notifications (\d+)", "notifications_again": r"^notifications \d+ repeated (\d+)",
    "commands_again": r"^answers .*?repeated (\d+)", "given_up": r"given up (\d+)", "lost_commands": r"lost commands (\d+)",
}


def counted(lines: Lines) -> dict[str, int]:
    """What all gateways counted so far: notifications, how many of them were sent again, commands that came again, commands that gateways
    gave up, and that they lost for want of room; one that doesn't answer counts as none."""
    sums = dict.fromkeys(COUNTED, 0)
    for gateway in lines.phones.gateways.values():
        try:
            text = gateway.ask("counts")
        except Lost:
            continue
        for name, pattern in COUNTED.items():
            sums[name] += sum(map(int, re.findall(pattern, text, re.MULTILINE)))
        gateway.forget()
    return sums


def progress(lines: Lines, stats: Any, seconds: float) -> str:
    """How far a load is after so many seconds, in a line; `stats` are Locust's."""
    tally = lines.tally
    times = [times_of(stats, step)["p95"] for step in STEPS[1:]]
    p95 = ["-" if it is None else it for it in times]
    return (
        f"{seconds:.0f} s  {tally.attempts} attempts  {tally.rung} rung  {tally.connected} connected  {tally.at_rest} at rest  "
        f"{sum(tally.failed.values())} failed  p95 ringing {p95[0]} ms, connected {p95[1]} ms, at rest {p95[2]} ms"
    )


def times_of(stats: Any, step: str) -> dict[str, int | None]:
    """How long a step took in ms, by Locust's statistics."""
    its = stats.get(step, "call")
    if not its.num_requests:
        return {"count": 0, "p50": None, "p95": None, "p99": None, "most": None}
    percentiles = {f"p{it}": int(its.get_response_time_percentile(it / 100)) for it in (50, 95, 99)}
    return {"count": its.num_requests, **percentiles, "most": round(its.max_response_time)}


def report(
    load: Load, exchange: Exchange, lines: Lines, stats: Any, sums: dict[str, int], verbs: dict[str, Any], shares: dict[str, Share],
    machine: float, limit: Limit | None,
) -> dict[str, Any]:
    """The report of a load, as JSON has it; rgw-load(1) has its keys."""
    tally, steps = lines.tally, load.ramp.steps
    rate = steps[0][1] if len(steps) == 1 else ",".join([f"{steps[0][1]:g}", *(f"{rate:g}@{begun:g}" for begun, rate in steps[1:])])
    counts = ("attempts", "late_starts", "no_line_free", "rung", "unanswered", "connected", "at_rest")
    return {
        "config": load.config, "agent": written(exchange.own), "rate": rate, "seconds": load.seconds, "hold_ms": round(load.hold * 1000),
        "seed": load.seed, "lines": len(lines.numbers), "gateways": len(lines.phones.gateways),
        **{name: getattr(tally, name) for name in counts},
        "changes_lost": lines.changes_lost, "refused": lines.refused, "clock_error_ms": round(lines.clock_error * 1000 + 0.5),
        "success": tally.success, "failed": tally.failed, "times": {step: times_of(stats, step) for step in STEPS},
        "gateways_counted": sums, "verbs": verbs,
        "processors": {**{name: share.told() for name, share in shares.items()}, "machine": round(machine, 3)},
        "limit": {"end": limit.end, "why": limit.why} if limit else None,
    }
