"""What the controller gives to workers of pytest-xdist, and what they make of it."""
import socket
import time
from collections.abc import Generator
from dataclasses import replace
from pathlib import Path
from types import SimpleNamespace
from typing import Any

import pytest

from rgw_bench import workers
from rgw_bench.bench import Settings
from rgw_bench.gateway import Dead, OutOfTime
from rgw_bench.shared import Turns
from rgw_bench.workers import Workers

LIMIT = 7.5


def config(**more: Any) -> Any:
    """A configuration of pytest, with as many workers asked for as `-n 4` does."""
    return SimpleNamespace(option=SimpleNamespace(tx=["popen"] * 4, numprocesses=4, dist="load", gateway_timeout=None), **more)


def settings(lines: int) -> Settings:
    """So many lines, and no address of the agent's."""
    return Settings(("127.0.0.1", 9), "gw", tuple(f"aaln/{line}" for line in range(1, lines + 1)))


@pytest.fixture
def made() -> Generator[Workers, None, None]:
    """Workers for five lines."""
    made = Workers(config(), settings(5), LIMIT)
    yield made
    made.pytest_unconfigure()


def begun(made: Workers, name: str) -> Any:
    """A worker that begins: what it was given."""
    node = SimpleNamespace(gateway=SimpleNamespace(id=name), workerinput={})
    made.pytest_configure_node(node)
    return config(workerinput=node.workerinput)


@pytest.mark.parametrize("lines, count, told", [
    (1, 1, "1 of 4 workers: each has two lines, and 1 are named"), (5, 2, "2 of 4 workers: each has two lines, and 5 are named"),
    (8, 4, ""), (20, 4, ""),
])
def test_as_many_workers_as_pairs_of_lines(lines: int, count: int, told: str) -> None:
    """Where fewer play than were asked for, that is told."""
    asked = config()
    made = Workers(asked, settings(lines), None)
    made.pytest_unconfigure()
    assert (made.count, asked.option.numprocesses, len(asked.option.tx), made.told()) == (count, count, count, told)


def test_each_worker_has_a_part(made: Workers) -> None:
    """One in the place of another has its part, so that there are no more parts than were told of."""
    assert [workers.given(begun(made, name))["part"] for name in ("gw0", "gw1")] == [0, 1]
    made.pytest_testnodedown(SimpleNamespace(gateway=SimpleNamespace(id="gw0")))
    given = workers.given(begun(made, "gw2"))
    assert (given["part"], given["parts"]) == (0, 5)


def test_the_time_of_the_whole_run_is_that_of_the_controller(made: Workers) -> None:
    assert workers.limit_of(begun(made, "gw0")) == LIMIT
    asked = config()
    assert workers.limit_of(asked) is None
    asked.option.gateway_timeout, before = 5.0, time.monotonic()
    assert before + 5 <= (workers.limit_of(asked) or 0) <= time.monotonic() + 5
    assert workers.is_controller(asked) and not workers.is_worker(asked) and workers.is_worker(begun(made, "gw1"))


def test_a_check_of_a_worker_has_a_turn(made: Workers) -> None:
    """One that plays alone keeps others out; without workers there is nobody to wait for."""
    worker = begun(made, "gw0")
    with workers.turn(worker, True, None):
        with pytest.raises(OutOfTime):
            with workers.turn(worker, False, time.monotonic() + 0.1):
                pass
    with workers.turn(config(), True, None), workers.turn(config(), True, None):
        assert workers.ends_of(config(), settings(2)) is None


def test_the_folder_goes(made: Workers) -> None:
    with Turns(Path(workers.given(begun(made, "gw0"))["folder"])).turn(False):
        assert made.folder.is_dir()
    made.pytest_unconfigure()
    assert not made.folder.exists()


def test_an_address_that_is_taken_is_told() -> None:
    with socket.socket(socket.AF_INET, socket.SOCK_DGRAM) as taken:
        taken.bind(("127.0.0.1", 0))
        made = Workers(config(), replace(settings(2), own=taken.getsockname()), None)
    made.pytest_unconfigure()
    with pytest.raises(Dead, match="^127.0.0.1:[0-9]+: no socket: Address already in use$"):
        made.check()
