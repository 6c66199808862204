"""A load by Locust as a library, headless: a source of calls at the moments that are asked, until all have come to rest."""
from __future__ import annotations

import contextlib
import logging
import sys
import time
from collections.abc import Iterator
from dataclasses import dataclass
from typing import Any

import gevent  # type: ignore[import]
from locust import User, task
from locust.env import Environment
from locust.html import get_html_report
from locust.stats import PERCENTILES_TO_REPORT, StatsCSVFileWriter, stats_history

from .load_calls import Failed, Lines
from .load_report import counted, progress, report
from .load_words import Exchange, Load
from .processors import Processors, limit_of, processes_at
from .wire import Address

# Each so many seconds it is looked which thread is busiest.
SAMPLE = 5


class Source(User):
    """The source of all calls of a load."""

    load: Load
    lines: Lines
    begun: float
    is_over = False

    def wait(self) -> None:
        """Moments are those of the load."""

    @task
    def attempt_all(self) -> None:
        """Attempts each call at its moment."""
        its = type(self)
        for moment in its.load.moments():
            due = its.begun + moment
            gevent.sleep(max(0.0, due - time.monotonic()))
            its.lines.attempt(time.monotonic() - due, gevent.spawn)
        gevent.sleep(max(0.0, its.begun + its.load.seconds - time.monotonic()))
        its.is_over = True
        gevent.sleep(1e9)


@dataclass
class Ended:
    """A load that is over: its report, and whether enough calls came to rest."""

    report: dict[str, Any]
    is_enough: bool


@contextlib.contextmanager
def files_of(load: Load, environment: Environment) -> Iterator[None]:
    """Locust's files, as far as they are asked for: CSV while it goes on, the page at its end. OSError: one can't be written."""
    greenlets = [gevent.spawn(stats_history, environment.runner)]
    if load.html:
        # (so that it is known at once whether it can be written)
        with open(load.html, "w", encoding="utf-8"):
            pass
    if load.csv:
        writer = StatsCSVFileWriter(environment, PERCENTILES_TO_REPORT, load.csv, True)
        greenlets.append(gevent.spawn(writer.stats_writer))
    yield
    # (the last second's counts are written)
    gevent.sleep(1.1 if load.csv else 0)
    gevent.killall(greenlets)
    if load.csv:
        files: Any = writer
        files.close_files()
    if load.html:
        page: Any = get_html_report
        with open(load.html, "w", encoding="utf-8") as file:
            file.write(page(environment, show_download_link=False))


def play(load: Load, environment: Environment, lines: Lines, processors: Processors) -> None:
    """Lets calls be attempted for as long as is asked, and come to rest; each second a line says how far it is. The processors' time is
    that while calls are attempted."""
    Source.load, Source.lines, Source.begun, Source.is_over = load, lines, time.monotonic(), False
    runner: Any = environment.runner
    runner.start(1, spawn_rate=1)
    told = 0
    try:
        while not Source.is_over:
            gevent.sleep(0.05)
            if time.monotonic() - Source.begun >= told + 1:
                told = int(time.monotonic() - Source.begun)
                print(progress(lines, environment.stats, told), file=sys.stderr, flush=True)
                if told % SAMPLE == 0:
                    processors.sample()
        processors.end()
        lines.settle()
    finally:
        runner.quit()


def run(load: Load, exchange: Exchange, agent: Address) -> Ended:
    """Makes a load, whose agent's socket is at `agent` if it is on this machine. Lost: telephones don't answer, don't tell what changes, or
    fewer than two lines are at rest. OSError: a file can't be written."""
    logging.getLogger().setLevel(logging.ERROR)
    environment = Environment(user_classes=[Source])
    fire: Any = environment.events.request.fire

    def tell(name: str, ms: float, fault: Failed | None) -> None:
        fire(request_type="call", name=name, response_time=ms, response_length=0, exception=fault, context={})

    environment.create_local_runner()
    lines = Lines(exchange, load, tell)
    try:
        before = counted(lines)
        phones = [it.place for it in lines.phones.gateways.values()]
        processors = Processors({"agent": processes_at([agent]), "gateways": processes_at(phones)})
        with files_of(load, environment):
            play(load, environment, lines, processors)
            sums = {name: count - before[name] for name, count in counted(lines).items()}
    finally:
        lines.close()
    tally = lines.tally
    is_enough = tally.success is not None and tally.success >= load.success
    many = max(1, tally.attempts + tally.no_line_free)
    shares, machine = processors.shares, processors.machine
    limit = limit_of(shares, machine, tally.late_starts / many, tally.no_line_free / many, sums["lost_commands"], is_enough)
    return Ended(report(load, exchange, lines, environment.stats, sums, {}, shares, machine, limit), is_enough)
