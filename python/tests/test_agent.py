"""An example of a test with Hypothesis: over any order of deliveries, losses and repeats an agent takes each notification once."""

import pytest
from agents import CarefulAgent, CarelessAgent
from hypothesis import HealthCheck, given, note, settings
from hypothesis import strategies as st

from rgw import Gateway
from rgw.world import CONFIG, World

# What becomes of a datagram: the delays, in ms, of the copies that arrive.
FATES = st.lists(st.lists(st.sampled_from([0, 1, 150, 700, 2500]), max_size=2), max_size=40)


def call(agent: CarelessAgent, fates: list[list[int]]) -> None:
    """A call is dialled while the network does this to the datagrams, and nothing to those behind them."""
    rest = iter(fates)
    with World(Gateway(CONFIG), agent, lambda direction, data, moment: next(rest, [0])) as world:
        world.run(20_000)
        for act in ("off", "2", "0", "3", "on"):
            world.phone(1, act)
            world.run(300)
        world.run(60_000)
        note(world.told())
    assert len(agent.taken) == len(set(agent.taken)), f"taken twice: {agent.taken}"


@settings(max_examples=150, deadline=None, derandomize=True, suppress_health_check=[HealthCheck.too_slow])
@given(FATES)
def test_a_careful_agent_takes_each_notification_once(fates: list[list[int]]) -> None:
    call(CarefulAgent(), fates)


def test_a_careless_agent_is_found() -> None:
    @settings(max_examples=300, deadline=None, derandomize=True, suppress_health_check=[HealthCheck.too_slow])
    @given(FATES)
    def found(fates: list[list[int]]) -> None:
        call(CarelessAgent(), fates)

    with pytest.raises(AssertionError, match="taken twice"):
        found()
