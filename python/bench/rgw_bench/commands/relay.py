"""rgw-relay: a bad network between a call agent and its gateways, or between anything and anything by UDP.

usage: rgw-relay FRONT=GATEWAY .. --home ADDRESS [--agent ADDRESS] [--network TEXT | [--in TEXT] [--out TEXT]]
                 [--answer-rsip] [--report FILE] [--log] [--stop-after SECONDS]

What the agent sends to FRONT goes to the gateway at GATEWAY; what a gateway sends to the home, for which it is configured, goes to the
agent, from its front. Each is a.b.c.d:port or localhost:port.

  --home ADDRESS       the agent's address, as gateways know it
  --agent ADDRESS      where the agent is; else it is who speaks first to a front
  --network TEXT       spoils both directions, or one after in (to gateways) or out, as "in lose 20%, out late 0-2000, seed 7"
  --in TEXT            spoils what goes to gateways, as by "lose 20%, copy 10%, late 0-2000, seed 7"; times are in ms
  --out TEXT           spoils what gateways send
  --answer-rsip        each RSIP is answered by 200 here, in the place of an agent that never does, and doesn't come there
  --report FILE        each second the report is written there, as a whole
  --log                each datagram is a line on standard error, with what became of it
  --stop-after SECONDS ends it
  --help               this

It ends at SIGTERM, SIGINT, or after so many seconds, with status 0; then standard output has the report, as JSON: what was lost, copied
and late in each direction, and of each verb how many commands were sent, sent again and given up, the codes of their answers, and how
long those took in ms, from when the first copy was handed on. The status is 2 for other words, and 3 where there is no socket at an
address, or the file can't be written.
"""
from __future__ import annotations

import argparse
import json
import os
import signal
import sys
import time
from collections.abc import Callable
from typing import Any, NoReturn

from ..phone_wire import place_of
from ..relay import Relay, by_direction, spoilt
from ..wire import Address, written

USAGE = __doc__.split("\n\n")[1]


class Words(argparse.ArgumentParser):
    """Words that say how they are used where they are wrong."""

    def error(self, message: str) -> NoReturn:
        print(f"rgw-relay: {message}\n{USAGE}", file=sys.stderr)
        sys.exit(2)


def asked_by(words: list[str]) -> argparse.Namespace:
    """What these words ask for. SystemExit: 0 for help, 2 for other words."""
    if "--help" in words:
        print(__doc__.split("\n\n", 1)[1].strip())
        sys.exit(0)
    parser = Words(add_help=False, allow_abbrev=False)
    parser.add_argument("ways", nargs="+", type=typed(way_of))
    parser.add_argument("--home", required=True, type=typed(place_of))
    parser.add_argument("--agent", type=typed(place_of))
    parser.add_argument("--network", type=typed(network_of))
    parser.add_argument("--in", dest="inward", default="", type=typed(fate_of))
    parser.add_argument("--out", dest="outward", default="", type=typed(fate_of))
    parser.add_argument("--answer-rsip", action="store_true")
    parser.add_argument("--report")
    parser.add_argument("--log", action="store_true")
    parser.add_argument("--stop-after", type=float)
    asked = parser.parse_args(words)
    if asked.network is not None and (asked.inward or asked.outward):
        parser.error("--network: wanted alone, or --in and --out in its place")
    return asked


def typed(read: Callable[[str], Any]) -> Callable[[str], Any]:
    """What reads a word, whose ValueError says what is wrong with it."""

    def checked(text: str) -> Any:
        try:
            return read(text)
        except ValueError as fault:
            raise argparse.ArgumentTypeError(str(fault)) from None

    return checked


def way_of(text: str) -> tuple[Address, Address]:
    front, equals, gateway = text.partition("=")
    if not equals:
        raise ValueError(f"{text}: wanted FRONT=GATEWAY, each a.b.c.d:port")
    return place_of(front), place_of(gateway)


def fate_of(text: str) -> str:
    spoilt(text)
    return text


def network_of(text: str) -> str:
    by_direction(text)
    return text


def write(path: str, report: dict[str, Any]) -> None:
    """Writes a report, which is there as a whole or not at all."""
    beside = f"{path}.part"
    with open(beside, "w", encoding="utf-8") as file:
        json.dump(report, file)
        file.write("\n")
    os.replace(beside, path)


def serve(relay: Relay, asked: argparse.Namespace) -> None:
    """Relays until a signal, or the end."""
    end = time.monotonic() + asked.stop_after if asked.stop_after is not None else float("inf")
    due = time.monotonic()
    while relay.is_open and time.monotonic() < end:
        relay.turn(min(0.2, max(0.0, end - time.monotonic())))
        if asked.report and time.monotonic() >= due:
            due = time.monotonic() + 1
            write(asked.report, relay.told())


def log(text: str) -> None:
    print(f"{time.time():.3f} {text}", file=sys.stderr)


def main() -> None:
    asked = asked_by(sys.argv[1:])
    ways = dict(asked.ways)
    try:
        if len(ways) < len(asked.ways):
            raise ValueError("wanted each front once")
        fates = by_direction(asked.network) if asked.network is not None else (spoilt(asked.inward), spoilt(asked.outward))
        relay = Relay(ways, asked.home, asked.agent, *fates, answers_rsip=asked.answer_rsip, note=log if asked.log else None)
    except ValueError as fault:
        print(f"rgw-relay: {fault}\n{USAGE}", file=sys.stderr)
        sys.exit(2)
    except OSError as fault:
        print(f"rgw-relay: {fault.strerror}", file=sys.stderr)
        sys.exit(3)
    for number in (signal.SIGTERM, signal.SIGINT):
        signal.signal(number, lambda *_: setattr(relay, "is_open", False))
    fronts = ", ".join(f"{written(front)} to {written(gateway)}" for front, gateway in ways.items())
    print(f"relay {fronts}, home {written(asked.home)}", file=sys.stderr, flush=True)
    try:
        serve(relay, asked)
        report = relay.told()
        if asked.report:
            write(asked.report, report)
    except OSError as fault:
        print(f"rgw-relay: {asked.report}: {fault.strerror}", file=sys.stderr)
        sys.exit(3)
    relay.close()
    print(json.dumps(report, indent=1))


if __name__ == "__main__":
    main()
