"""rgw-load: lines of gateways call one another at a rate, through the call agent that serves them. It is Locust, headless.

Telephones of rgwd are worked, and what they tell is all that counts.

  CONFIG               the configuration of the call agent, in TOML; each gateway has `phones`, the address of its telephones
  --rate CALLS         so many calls are attempted a second, 0.001 to 10000; `10,20@30,40@60`: 20 from second 30 on, 40 from 60 on
  --for SECONDS        for so long
  --hold MS            so long both ends of a call talk; else 3000
  --seed N             draws who calls whom; else 1
  --success PERCENT    of all attempts are to come to rest; else 99
  --route              the exchange is here, at the configuration's own: rgca, behind a relay; else another call agent is there
  --poisson            calls are attempted at moments of a Poisson process; else evenly apart
  --unanswered PERCENT of all calls are given up while it rings, and not answered; else 0
  --ring MS            so long it rings before that, and before an answer; else 0
  --relay FILE         the report that a running rgw-relay writes there; its `verbs`, how fast commands are answered, come into this one
  --csv PREFIX         Locust's statistics, also of each second, in PREFIX_stats.csv, _stats_history.csv, _failures.csv
  --html FILE          Locust's page of it, with charts
  --locustfile         prints where the file is for `locust -f`: with its own page, or with workers on several machines
  --help               this

Each second standard error has a line with how far it is. At the end standard output has the report, as JSON, with `limit`: which end was
the limit, if one was. A call fails where a step takes ten seconds. Attempts that begin more than 100 ms late are counted: then this
program is slow, and not the call agent.
The status is 0 where enough calls came to rest, 1 where too few did, 2 for other words, 3 where no load can be made.
"""
from __future__ import annotations

import contextlib
import json
import resource
import signal
import sys
from pathlib import Path
from typing import TYPE_CHECKING, Any, NoReturn

from ..load_words import USAGE, BadWords, Exchange, Load, read_exchange, read_words

if TYPE_CHECKING:
    from ..load_run import Ended

# So many files may be open: of 1,024 gateways each is asked for its counts.
MOST_FILES = 10_000
LOCUSTFILE = Path(__file__).resolve().parent.parent / "locustfile.py"


def fail(status: int, text: str) -> NoReturn:
    """Ends with a status, and says why on standard error."""
    print(text, file=sys.stderr)
    sys.exit(status)


def help_and_more(words: list[str]) -> None:
    """What needs no load."""
    if "--help" in words:
        print(f"usage: {USAGE}\n\n{(__doc__ or '').strip()}")
        sys.exit(0)
    if words == ["--locustfile"]:
        print(LOCUSTFILE)
        sys.exit(0)


def raise_limits() -> None:
    """As many files may be open as are needed, where that is allowed."""
    soft, hard = resource.getrlimit(resource.RLIMIT_NOFILE)
    with contextlib.suppress(ValueError, OSError):
        resource.setrlimit(resource.RLIMIT_NOFILE, (max(soft, min(hard, MOST_FILES)), hard))


def end_at_signals() -> None:
    """At SIGTERM and SIGINT handsets are put back, and what was started is ended."""
    for number in (signal.SIGTERM, signal.SIGINT):
        signal.signal(number, lambda number, _: sys.exit(128 + number))


def relay_verbs(path: str) -> dict[str, Any]:
    """What a relay's report says of commands. BadWords: the file is no such report. OSError: it can't be read."""
    try:
        verbs = json.loads(Path(path).read_text())["verbs"]
        return dict(verbs)
    except (ValueError, KeyError, TypeError):
        raise BadWords(f"{path}: no report of rgw-relay") from None


def made(load: Load, exchange: Exchange) -> Ended:
    """Makes the load, with the exchange here where that is asked. Lost, OSError, BadWords: it can't be made."""
    from ..load_run import run

    if not load.is_routed:
        return run(load, exchange, exchange.own)
    from ..routed import routed

    with routed(exchange) as result:
        ended = run(load, exchange, result["agent"])
    ended.report["verbs"] = result["verbs"]
    return ended


def main() -> None:
    """The program."""
    words = sys.argv[1:]
    help_and_more(words)
    try:
        load = read_words(words)
        exchange = read_exchange(load.config)
        if load.is_routed and not exchange.digit_map:
            raise BadWords(f"{load.config}: missing: digit_map")
    except BadWords as fault:
        fail(2, str(fault))
    except OSError as fault:
        fail(3, f"{fault.filename}: {fault.strerror}")
    try:
        import locust  # noqa: F401  (it makes the threads of all that is imported later greenlets)
    except ImportError:
        fail(3, "rgw-load: it lacks python3-locust: apt-get install python3-locust")
    from ..phone_wire import Lost

    raise_limits()
    end_at_signals()
    try:
        ended = made(load, exchange)
        if load.relay:
            ended.report["verbs"] = relay_verbs(load.relay)
    except (Lost, BadWords) as fault:
        fail(3, str(fault))
    except OSError as fault:
        fail(3, f"{fault.filename or 'rgw-load'}: {fault.strerror}")
    print(json.dumps(ended.report, indent=1))
    sys.exit(0 if ended.is_enough else 1)


if __name__ == "__main__":
    main()
