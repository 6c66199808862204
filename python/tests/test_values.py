"""Values that can't be: each is refused with what may stand there, and none keeps a test for ever."""

from collections.abc import Callable, Generator
from typing import Any

import pytest

from rgw import Address, BadValue, Gateway, Number, RgwError
from rgw.gateway import address_of
from rgw.world import CONFIG, BadNetwork, Sent, UdpAgent, World, acknowledge

AGENT = "127.0.0.2:2727"


# (what stands where another kind belongs is given on purpose)
@pytest.fixture
def untyped(gateway: World) -> Any:
    return gateway


@pytest.fixture
def alone() -> Generator[Any, None, None]:
    with Gateway(CONFIG) as gateway:
        yield gateway


@pytest.mark.parametrize(
    ("make", "told"),
    [
        (lambda: BadNetwork(lose=20), "lose = 20: a share from 0 to 1, as 0.2 for 20 of 100"),
        (lambda: BadNetwork(copy=-0.1), "copy = -0.1: a share from 0 to 1"),
        (lambda: BadNetwork(lose=float("nan")), "lose = nan: a share from 0 to 1"),
        (lambda: BadNetwork(late=(0.5, 2)), r"late\[0\] = 0.5: a whole number from 0"),  # type: ignore[arg-type]
        (lambda: BadNetwork(late=(300, 200)), r"late\[1\] = 200: a whole number from 300"),
        (lambda: BadNetwork(late=5), r"late = 5: the least and the greatest delay in ms"),  # type: ignore[arg-type]
        (lambda: BadNetwork(seed="a"), "seed = 'a': a whole number"),  # type: ignore[arg-type]
        (lambda: UdpAgent("127.0.0.1"), "address '127.0.0.1': a.b.c.d:port, as 127.0.0.1:2727"),
        (lambda: UdpAgent("127.0.0.1:65536"), "port = 65536: a whole number from 0 to 65535"),
        (lambda: UdpAgent("127.0.0.1:2727", patience=0), "patience = 0: more than 0 s, and 60 s at most"),
        (lambda: UdpAgent("127.0.0.1:2727", every=0), "every = 0: a whole number from 1"),
        (lambda: UdpAgent("127.0.0.1:2727", gateway_at="here"), "address 'here': a.b.c.d:port"),
        (lambda: UdpAgent("a..b:2727"), "address 'a..b:2727': there is no host 'a..b'"),
        (lambda: address_of(("127.0.0.1", 27.27)), "port = 27.27: a whole number from 0 to 65535"),  # type: ignore[arg-type]
        (lambda: World(Gateway(CONFIG), agent=7), "agent = 7: a callable, given .moment, source, data., or a UDP address"),  # type: ignore
    ],
)
def test_what_is_made_of_a_wrong_value_is_refused(make: Callable[[], object], told: str) -> None:
    with pytest.raises(ValueError, match=told):
        make()


@pytest.mark.parametrize(
    ("call", "told"),
    [
        (lambda gateway: gateway.tick(1.5), "moment = 1.5: a whole number, from 0 to 1000"),
        (lambda gateway: gateway.wait(0.5), "by = 0.5: a whole number from 0"),
        (lambda gateway: gateway.wait(-1), "by = -1: a whole number from 0"),
        (lambda gateway: gateway.line(1.0), "line = 1.0: a whole number from 1 to 4"),
        (lambda gateway: gateway.phone(1.0, "off"), "line = 1.0: a whole number from 1 to 4"),
        (lambda gateway: gateway.datagram("127.0.0.2", b""), "address '127.0.0.2': a.b.c.d:port"),
        (lambda gateway: gateway.datagram(Address("127.0.0.2", 1 << 16), b""), "port = 65536: a whole number from 0 to 65535"),
        (lambda gateway: gateway.datagram(AGENT, "200 1 OK"), "data = '200 1 OK': bytes"),
    ],
)
def test_a_gateway_takes_whole_numbers_ports_and_bytes(alone: Any, call: Callable[[Any], object], told: str) -> None:
    with pytest.raises(ValueError, match=told):
        call(alone)
    assert alone.now == 0 and alone.outputs == []


@pytest.mark.parametrize("act", ["hook", "", "5 ", "a", "e", "offon", 5, None])
def test_an_act_is_one_of_those_that_there_are(alone: Any, act: object) -> None:
    with pytest.raises(BadValue, match=r"act .*: off, on, flash or a key, one of 0123456789\*#ABCD") as refused:
        alone.phone(1, act)
    assert refused.value.number is Number.BAD_ACT and isinstance(refused.value, (RgwError, ValueError))


@pytest.mark.parametrize("first", [-1, 9_999_999, 1.0, "7"])
def test_a_first_number_is_told(first: Any) -> None:
    with pytest.raises(ValueError, match="first = .*: a whole number from 0 to 9999998"):
        Gateway(CONFIG, first)


@pytest.mark.parametrize(
    ("call", "told"),
    [
        (lambda world: world.run(0.5), "by = 0.5: a whole number from 0"),
        (lambda world: world.run(-1), "by = -1: a whole number from 0"),
        (lambda world: world.run(float("inf")), "by = inf: a whole number from 0"),
        (lambda world: world.expect(1), "nothing is expected: signal=.., hook=.., connection=.. or silent=.."),
        (lambda world: world.expect(1, signal="dl"), "signal = 'dl': one of L/dl, L/bz, L/ro, L/rg"),
        (lambda world: world.expect(1, hook="up"), "hook = 'up': one of on, off"),
        (lambda world: world.expect(1, connection="both"), "connection = 'both': one of True, False, sendonly, recvonly"),
        (lambda world: world.expect(1, silent="yes"), "silent = 'yes': one of True, False"),
        (lambda world: world.expect(1, hook="on", within=1.5), "within = 1.5: a whole number from 0"),
        (lambda world: world.expect(1.0, hook="on"), "line = 1.0: a whole number from 1 to 4"),
        (lambda world: world.dial(1, 203), 'number = 203: the keys to press, as "203"'),
        (lambda world: world.dial(1, "20x"), "act 'x': off, on, flash or a key"),
        (lambda world: world.say("200 1 OK"), "data = '200 1 OK': bytes"),
        (lambda world: world.say(b"", ("127.0.0.1", -1)), "port = -1: a whole number from 0 to 65535"),
    ],
)
def test_a_world_takes_whole_numbers_and_known_words(untyped: Any, call: Callable[[Any], object], told: str) -> None:
    with pytest.raises(ValueError, match=told):
        call(untyped)
    assert untyped.now == 0 and untyped.line(1).hook == "on"


class Timed:
    """An agent that wants its time at these moments, one behind another, whatever the time is."""

    def __init__(self, *wanted: Any) -> None:
        self.wanted = list(wanted)

    def __call__(self, moment: int, source: Address, data: bytes) -> Sent:
        return acknowledge(moment, source, data)

    @property
    def next_due(self) -> Any:
        return self.wanted[0] if self.wanted else None

    def tick(self, moment: int) -> Sent:
        self.wanted.pop(0)
        return []


@pytest.mark.parametrize(
    ("wanted", "told"),
    [
        ([10, 5], "next_due = 5 behind its tick at 10: a later moment, or None"),
        ([10, 10], "next_due = 10 behind its tick at 10: a later moment, or None"),
        ([10.0], "next_due = 10.0: a moment, a whole number of ms, or None"),
        (["10"], "next_due = '10': a moment, a whole number of ms, or None"),
    ],
)
def test_an_agent_wants_its_time_later(gateway: World, wanted: list[Any], told: str) -> None:
    gateway.agent = Timed(*wanted)
    with pytest.raises(ValueError, match=told):
        gateway.run(20)


def test_an_agent_that_comes_later_may_want_its_time_at_once(gateway: World) -> None:
    gateway.run(5000)
    gateway.agent = Timed(0, 5001)
    gateway.run(10)
    assert gateway.now == 5010


def test_an_agent_that_wants_its_time_has_a_tick(untyped: Any) -> None:
    def agent(moment: int, source: Address, data: bytes) -> Sent:
        return []

    setattr(agent, "next_due", 5)
    untyped.agent = agent
    with pytest.raises(ValueError, match=r"the agent has a next_due, and no tick\(moment\)"):
        untyped.run(10)


@pytest.mark.parametrize("given", [None, b"200 1 OK", "200 1 OK", [None], ["200 1 OK"], [(AGENT, "200 1 OK")]])
def test_an_agent_gives_bytes(untyped: Any, given: object) -> None:
    untyped.agent = lambda moment, source, data: given
    with pytest.raises(ValueError, match="the agent gives .*: a list, of bytes or of an address with bytes"):
        untyped.run(10)


@pytest.mark.parametrize("fate", [None, 0, [0.5], [-1], ["0"], (0,)])
def test_a_network_gives_delays(untyped: Any, fate: object) -> None:
    untyped.network = lambda direction, data, moment: fate
    with pytest.raises(ValueError, match="the network gives .*: a list of the delays of the copies that arrive, whole numbers of ms"):
        untyped.run(10)
