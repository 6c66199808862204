"""The fixtures: a network whose fate a test writes itself, what may be expected, agents in other processes, and what pytest prints."""

import re
import socket
import threading
from collections.abc import Callable, Generator

import pytest
from agents import CarefulAgent

import rgw
from rgw import Gateway
from rgw.world import CONFIG, BadNetwork, UdpAgent, World

pytest_plugins = ["pytester"]


def test_a_test_writes_the_fate_of_each_datagram(network: Callable[..., World]) -> None:
    asked: list[tuple[str, bytes, int]] = []

    def fate(direction: str, data: bytes, moment: int) -> list[int]:
        asked.append((direction, data[:4], moment))
        lost = direction == "out" and data.startswith(b"NTFY") and moment < 2000
        return [] if lost else [7] if direction == "in" else [0]

    world = network(fate=fate, agent=CarefulAgent())
    world.run(1000)
    world.phone(1, "off")
    world.expect(1, signal="L/dl", within=1600)
    assert [asked[0], asked[1]] == [("out", b"RSIP", 1), ("in", b"200 ", 1)]
    assert [moment for way, verb, moment in asked if verb == b"NTFY"] == [1000, 1500, 2500]
    assert any("lost on its way" in line for line in world.conversation)


def test_a_fate_stands_alone(network: Callable[..., World]) -> None:
    with pytest.raises(ValueError, match="fate says what becomes of each datagram: lose, copy and late go without it"):
        network(fate=lambda direction, data, moment: [0], lose=0.1)


def test_what_a_line_has_is_expected(gateway: World) -> None:
    gateway.run(10)
    gateway.expect(1, hook="on", silent=True, connection=False, within=0)
    gateway.say(b"CRCX 1 aaln/1@rgw.example.net MGCP 1.0\r\nC: 1\r\nM: recvonly\r\n")
    gateway.expect(1, connection=True)
    gateway.expect(1, connection="recvonly", within=0)
    gateway.phone(1, "off")
    gateway.say(b"RQNT 2 aaln/1@rgw.example.net MGCP 1.0\r\nX: 1\r\nS: L/dl\r\n")
    gateway.expect(1, hook="off", signal="L/dl", connection="recvonly", silent=False)
    for expected, told in (
        ({"connection": "sendrecv"}, "a connection sendrecv"), ({"connection": False}, "no connection"), ({"silent": True}, "silence"),
        ({"hook": "on", "signal": "L/bz"}, "L/bz, its handset on hook"),
    ):
        has = "L/dl, its handset off hook, a connection recvonly"
        with pytest.raises(AssertionError, match=f"line 1 hasn't {told} within 0 ms; at .* {has}"):
            gateway.expect(1, within=0, **expected)  # type: ignore[arg-type]


def test_a_lamp_is_silent(gateway: World) -> None:
    gateway.run(10)
    gateway.say(b"RQNT 1 aaln/1@rgw.example.net MGCP 1.0\r\nX: 1\r\nS: L/vmwi(+)\r\n")
    gateway.expect(1, signal="L/vmwi", silent=True)


@pytest.fixture
def other() -> Generator[socket.socket, None, None]:
    with socket.socket(socket.AF_INET, socket.SOCK_DGRAM) as made:
        made.bind(("127.0.0.1", 0))
        made.settimeout(20)
        yield made


def test_an_agent_in_another_process_sends_to_the_gateways_address(gateway: World, other: socket.socket) -> None:
    with socket.socket(socket.AF_INET, socket.SOCK_DGRAM) as free:
        free.bind(("127.0.0.1", 0))
        gateway_at = "127.0.0.1:%d" % free.getsockname()[1]
    agent = UdpAgent("localhost:%d" % other.getsockname()[1], patience=3, every=60_000, gateway_at=gateway_at)
    gateway.agent = agent

    def answer() -> None:
        host, _, port = gateway_at.partition(":")
        data, source = other.recvfrom(65536)
        assert source == (host, int(port))
        other.sendto(b"200 %s OK\r\n" % data.split()[1], (host, int(port)))

    thread = threading.Thread(target=answer)
    thread.start()
    gateway.run(10)
    thread.join()
    agent.close()
    assert [line.split()[2:] for line in gateway.conversation] == [
        ["<", "RSIP", "1", "*", "RM:", "restart"], [">", "200", "1", "OK", "+0", "ms"],
    ]
    assert agent.hint == "" and repr(agent).endswith(f", patience=3, every=60000, gateway_at='{gateway_at}')")


def test_nothing_that_comes_back_is_hinted_at(gateway: World, other: socket.socket) -> None:
    agent = UdpAgent("127.0.0.1:%d" % other.getsockname()[1])
    gateway.agent = agent
    gateway.phone(1, "off")
    with pytest.raises(AssertionError) as failed:
        gateway.expect(1, signal="L/dl", within=100)
    agent.close()
    hint = (f"nothing has come back from {agent.address}: is an agent there, does it answer to where a datagram comes from, port "
            f"{agent.gateway_at.port} (UdpAgent(gateway_at=..) says which), and within 0.05 s (patience=..)?")
    assert str(failed.value).endswith(f"; {hint}") and hint in gateway.told()


def test_an_address_that_is_taken_is_told(other: socket.socket) -> None:
    with pytest.raises(OSError):
        UdpAgent("127.0.0.1:2727", gateway_at=other.getsockname())


def test_each_says_what_it_is() -> None:
    with World(Gateway(CONFIG), CarefulAgent(), BadNetwork(lose=0.2, late=(0, 9), seed=7)) as world:
        world.run(10)
        world.phone(1, "off")
        assert repr(world.gateway) == "<rgw.Gateway of 4 lines at 10 ms>"
        assert repr(world.line(1)) == "<rgw.Line 1 off signals - connections - lost 0>"
        assert repr(world.network) == "BadNetwork(lose=0.2, copy=0.0, late=(0, 9), seed=7)"
        assert re.fullmatch(r"<rgw\.World of <rgw\.Gateway .*> with <agents\.CarefulAgent .*> over BadNetwork\(.*\)>", repr(world))
        line = world.line(1)
    assert (repr(world.gateway), repr(line)) == ("<rgw.Gateway, closed>", "<rgw.Line 1 of a closed gateway>")
    assert re.fullmatch(r"\d+\.\d+\.\d+(\+unproved)?", rgw.__version__)


def test_a_failure_shows_the_test_and_no_inner_frame(pytester: pytest.Pytester) -> None:
    pytester.makepyfile(
        """
        def test_fails(gateway):
            gateway.dial(1, "203", within=100)

        def test_is_wrong(gateway):
            gateway.expect(1)

        def test_has_a_wrong_agent(gateway):
            gateway.agent = lambda moment, source, data: None
            gateway.run(10)

        def test_has_a_faulty_agent(gateway):
            def agent(moment, source, data):
                return [data.index(b"nowhere")]

            gateway.agent = agent
            gateway.run(10)
        """
    )
    result = pytester.runpytest("-p", "rgw.pytest_plugin")
    result.assert_outcomes(failed=4)
    told = result.stdout.str()
    assert re.search(r"^test_a_failure_shows\S+\.py:2: AssertionError$", told, re.M) and 'gateway.dial(1, "203", within=100)' in told
    assert len(re.findall(r"^test_a_failure_shows\S+\.py:(?:5|9): ValueError$", told, re.M)) == 2
    assert re.search(r"^test_a_failure_shows\S+\.py:13: ValueError$", told, re.M)
    assert "world.py" not in told and "gateway.py" not in told
    result.stdout.fnmatch_lines(["*line 1 hasn't L/dl within 100 ms; at 100 it has no signal, its handset off hook, no connection"])
