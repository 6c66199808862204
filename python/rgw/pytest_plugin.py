"""Fixtures for tests of a call agent.

    def test_dial_tone(gateway):
        gateway.agent = my_agent
        gateway.phone(1, "off")
        gateway.expect(line=1, signal="L/dl", within=2000)

`gateway` is a `World` of a gateway with four lines; `network(lose=.2, copy=.1, late=(0, 2000), seed=7)` spoils its network, and
`network(fate=..)` does to each datagram what a function says. A test that fails prints the conversation, and the trace that replays it.
`rgw_config` is the configuration: a test module may have its own.
"""

from collections.abc import Callable, Generator
from typing import Any

import pytest

from rgw import __version__
from rgw.gateway import Gateway
from rgw.library import PATH
from rgw.numbers import HIDDEN
from rgw.world import CONFIG, Agent, BadNetwork, Fate, World

__tracebackhide__ = HIDDEN
WORLDS = pytest.StashKey[list[World]]()


def pytest_report_header() -> str:
    """Which library is tested with: its version, which says whether it is unproved, and where it is."""
    return f"rgw {__version__}: {PATH}"


@pytest.fixture
def rgw_config() -> str:
    """The configuration of `gateway`."""
    return CONFIG


@pytest.fixture
def gateway(request: pytest.FixtureRequest, rgw_config: str) -> Generator[World, None, None]:
    """A gateway and an agent with a good network between them; the agent answers each command until a test puts another one there."""
    world = World(Gateway(rgw_config))
    request.node.stash.setdefault(WORLDS, []).append(world)
    yield world
    world.close()


@pytest.fixture
def network(gateway: World) -> Callable[..., World]:
    """Makes the network of `gateway` a bad one, and may put an agent there. With `fate` a function says what becomes of each datagram: it
    is given the direction, `in` to the gateway or `out` from it, the bytes and the moment (ms), and gives the delays (ms) of the copies
    that arrive."""

    def spoil(
        lose: float = 0.0, copy: float = 0.0, late: tuple[int, int] = (0, 0), seed: int = 1, agent: Agent | str | None = None,
        fate: Fate | None = None,
    ) -> World:
        drawn = BadNetwork(lose, copy, late, seed)
        if fate is not None and (lose or copy or tuple(late) != (0, 0)):
            raise ValueError("fate says what becomes of each datagram: lose, copy and late go without it")
        gateway.network = fate or drawn
        if agent is not None:
            gateway._use(agent)
        return gateway

    return spoil


@pytest.hookimpl(hookwrapper=True)  # type: ignore[misc]
def pytest_runtest_makereport(item: pytest.Item) -> Generator[None, Any, None]:
    """What a world of a test that failed tells stands among what pytest captured."""
    outcome = yield
    report = outcome.get_result()
    if report.when == "call" and report.failed:
        for world in item.stash.get(WORLDS, []):
            report.sections.append(("rgw", world.told()))
