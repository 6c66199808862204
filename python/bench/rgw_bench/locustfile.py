"""Calls at a rate between the telephones of gateways, for Locust: with its page, or headless, and with master and workers.

    locust -f locustfile.py --exchange agent.toml -u 20 -r 20 -t 60s --headless --csv calls --html calls.html

A user is a source of calls: one a second (--calls), at moments of a Poisson process, however long they last; so `-u` is the rate, master
and workers share it, and a LoadTestShape of your own, in a file that says `from rgw_bench.locustfile import *`, ramps it. Each of several
workers has a part of the lines: tell all of them how many there are by --parts. rgw-load makes a load of it by words.
"""
from __future__ import annotations

import sys
import time
from typing import Any

import gevent  # type: ignore[import]
import locust.runners
from locust import User, events, task

from rgw_bench.load_calls import CALL, LONGEST_END, Failed, Lines
from rgw_bench.load_words import BadWords, Load, ramp_of, read_exchange
from rgw_bench.phones import Lost

__all__ = ["Calls"]

# Debian's 2.12.1 has no version text, and a master refuses workers that name none.
setattr(locust.runners, "__version__", getattr(locust.runners, "__version__") or "2.12.1")
# The lines of this process, while it makes a load.
LINES: Lines | None = None
# The workers whose calls have come to rest.
SETTLED: set[str] = set()


def tell(name: str, ms: float, fault: Failed | None) -> None:
    """Counts something in Locust's statistics: a step, or a call that failed."""
    fire: Any = events.request.fire
    fire(request_type="call", name=name, response_time=ms, response_length=0, exception=fault, context={})


@events.init_command_line_parser.add_listener  # type: ignore[misc]
def options(parser: Any) -> None:
    """The words of the load behind `locust -f`."""
    group = parser.add_argument_group("Calls between telephones")
    group.add_argument("--exchange", metavar="CONFIG", default="", help="gateways, their telephones and numbers, as rgca takes them")
    group.add_argument("--hold", type=int, default=3000, metavar="MS", help="how long both ends of a call talk")
    group.add_argument("--ring", type=int, default=0, metavar="MS", help="how long it rings before it is answered or given up")
    group.add_argument("--unanswered", type=float, default=0.0, metavar="PERCENT", help="so many of all calls are given up")
    group.add_argument("--calls", type=float, default=1.0, help="calls a second and user")
    group.add_argument("--success", type=float, default=99.0, metavar="PERCENT", help="so many are to come to rest; else the status is 1")
    group.add_argument("--seed", type=int, default=1)
    group.add_argument("--parts", type=int, default=1, help="so many workers share the lines")


def load_of(asked: Any) -> Load:
    """The load that Locust's words ask for."""
    hold, ring = asked.hold / 1000, asked.ring / 1000
    return Load(asked.exchange, ramp_of("1"), 86400.0, hold, asked.seed, asked.success, unanswered=asked.unanswered, ring=ring)


class Calls(User):
    """A source of calls, at moments of a Poisson process."""

    def on_start(self) -> None:
        """From now on it attempts calls."""
        self.next, self.rate = time.monotonic(), float(self.environment.parsed_options.calls)

    def wait(self) -> None:
        """It waits for its next moment in the task itself."""

    @task
    def attempt(self) -> None:
        """Attempts its next call when that is due."""
        lines = LINES
        if lines is None:
            gevent.sleep(0.1)
            return
        self.next += lines.draw.expovariate(self.rate)
        gevent.sleep(max(0.0, self.next - time.monotonic()))
        lines.attempt(time.monotonic() - self.next, gevent.spawn)


@events.test_start.add_listener  # type: ignore[misc]
def begin(environment: Any, **_: object) -> None:
    """Once in each process that has users: in their own `on_start` each of several would open all telephones again."""
    global LINES
    if isinstance(environment.runner, locust.runners.MasterRunner) or not environment.parsed_options.exchange:
        return
    asked = environment.parsed_options
    part = environment.runner.worker_index if isinstance(environment.runner, locust.runners.WorkerRunner) else 0
    try:
        LINES = Lines(read_exchange(asked.exchange), load_of(asked), tell, part, asked.parts)
    except (Lost, BadWords, OSError) as fault:
        print(f"locustfile: {fault}", file=sys.stderr)
        environment.process_exit_code = 3
        environment.runner.quit()


@events.init.add_listener  # type: ignore[misc]
def listen(environment: Any, runner: Any, **_: object) -> None:
    """A master tells its workers to let calls come to rest, and waits for that: what they count then comes to it too."""
    if isinstance(runner, locust.runners.WorkerRunner):
        runner.register_message("settle", lambda environment, msg, **_: gevent.spawn(settle_here, runner))
    elif isinstance(runner, locust.runners.MasterRunner):
        runner.register_message("settled", lambda environment, msg, **_: SETTLED.add(msg.node_id))


def settle_here(runner: Any) -> None:
    """Calls of this process come to rest, and no more are attempted."""
    global LINES
    lines, LINES = LINES, None
    if lines is not None:
        lines.settle()
    if isinstance(runner, locust.runners.WorkerRunner):
        runner.send_message("settled")


@events.test_stop.add_listener  # type: ignore[misc]
def settle(environment: Any, **_: object) -> None:
    """Calls under way come to rest, else handsets stay lifted."""
    runner, asked = environment.runner, environment.parsed_options
    if not isinstance(runner, locust.runners.MasterRunner):
        settle_here(runner)
        return
    SETTLED.clear()
    workers = {it.id for it in runner.clients.all}
    runner.send_message("settle")
    end = time.monotonic() + (asked.hold + asked.ring) / 1000 + LONGEST_END
    while workers - SETTLED and time.monotonic() < end:
        gevent.sleep(0.1)


@events.quitting.add_listener  # type: ignore[misc]
def judge(environment: Any, **_: object) -> None:
    """The status is 1 where too few calls came to rest."""
    if environment.process_exit_code is None and not isinstance(environment.runner, locust.runners.WorkerRunner):
        calls = environment.stats.get(CALL, "call")
        enough = calls.num_requests and (1 - calls.fail_ratio) * 100 >= environment.parsed_options.success
        environment.process_exit_code = 0 if enough else 1
