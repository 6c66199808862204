"""The gateway by itself."""

import gc
import threading
from collections.abc import Callable

import pytest

from rgw import Address, Closed, ConfigFault, EventRefused, Gateway, GivenUp, Number, Outcome, RgwError
from rgw.gateway import flaw_of
from rgw.world import CONFIG

AGENT = "127.0.0.2:2727"
RQNT = b"RQNT 1 aaln/1@rgw.example.net MGCP 1.0\r\nX: 1\r\nR: L/hd(N)\r\nS: L/rg\r\n"


@pytest.fixture
def alone() -> Gateway:
    gateway = Gateway(CONFIG)
    gateway.tick(1)
    gateway.datagram(AGENT, b"200 1 OK\r\n")
    return gateway


def test_it_announces_itself() -> None:
    with Gateway(CONFIG) as gateway:
        assert (gateway.now, gateway.next_due, gateway.lines, gateway.outputs) == (0, 1, 4, [])
        (output,) = gateway.tick(1)
        assert output.to == Address("127.0.0.2", 2727)
        assert output.data == b"RSIP 1 *@rgw.example.net MGCP 1.0\r\nRM: restart\r\n"
        (message,) = gateway.messages
        assert (message.id, message.line, message.what, message.verb, message.send) == (1, 0, "command", "RSIP", 1)
        assert gateway.outputs == [output]


def test_ids_begin_with_first() -> None:
    with Gateway(CONFIG, first=4711) as gateway:
        (output,) = gateway.tick(1)
        assert output.data.startswith(b"RSIP 4712 ")


def test_a_request_rings(alone: Gateway) -> None:
    (output,) = alone.datagram(AGENT, RQNT)
    assert output.data == b"200 1 OK\r\n"
    (signal,) = alone.line(1).signals
    assert signal.name == "L/rg" and signal.end == 180_001
    (message,) = alone.messages
    assert (message.line, message.what, message.code) == (1, "answer", 200)
    alone.phone(1, "off")
    assert alone.line(1).hook == "off" and alone.line(1).signals == ()


def test_a_connection_is_told(alone: Gateway) -> None:
    alone.datagram(AGENT, b"CRCX 2 aaln/2@rgw.example.net MGCP 1.0\r\nC: 1\r\nM: recvonly\r\nL: p:10\r\n")
    connection, *others = alone.line(2).connections
    assert others == [None, None, None] and connection is not None
    assert (connection.mode, connection.local, connection.remote) == ("recvonly", Address("127.0.0.1", 3008), None)
    assert (connection.number, connection.packet_time, connection.payloads) == (1, 10, (0, 8))


def test_what_came_is_told(alone: Gateway) -> None:
    assert alone.outcomes == [Outcome("response", "nothing", 0, "", 0, "")]
    faulty = RQNT.replace(b"RQNT 1", b"RQNT 2").replace(b"L/hd", b"Q/a")
    alone.datagram(AGENT, RQNT + b".\r\n" + faulty + b".\r\nhello\r\n")
    done, refused, other = alone.outcomes
    assert (done, done.note) == (Outcome("command", "answer", 1, "RQNT", 200, ""), "")
    assert refused == Outcome("command", "answer", 2, "RQNT", 518, "value of parameter R")
    assert refused.note == "refused 2: 518 unsupported or unknown package: value of parameter R"
    assert (other.came, other.got) == ("no message", "nothing")
    alone.datagram(AGENT, RQNT)
    assert alone.outcomes == [Outcome("command", "again", 1, "RQNT", 200, "")]
    alone.phone(1, "off")
    assert alone.outcomes == []
    assert Outcome("command", "no room", 7, "AUEP", 0, "").note == "lost: 4,096 commands are young"


def test_what_is_given_up_is_told(alone: Gateway) -> None:
    (sent,) = alone.phone(1, "off")
    assert sent.data.startswith(b"NTFY 10000000 ") and alone.given_up == []
    alone.wait(23_499)
    assert alone.given_up == []
    alone.wait(1)
    assert alone.given_up == [GivenUp(23_501, 10_000_000, 1, "NTFY")]


def test_refusals_change_nothing(alone: Gateway) -> None:
    before = alone.tick(2), alone.messages
    calls: list[tuple[Callable[[], object], Number]] = [
        (lambda: alone.phone(1, "5"), Number.PHONE_STATE),
        (lambda: alone.phone(5, "off"), Number.NO_SUCH_LINE),
        (lambda: alone.phone(0, "off"), Number.NO_SUCH_LINE),
        (lambda: alone.phone(1, "hook"), Number.BAD_ACT),
        (lambda: alone.tick(1003), Number.TICK_TOO_FAR),
        (lambda: alone.tick(1), Number.CLOCK_BACK),
    ]
    for call, number in calls:
        with pytest.raises(RgwError) as refused:
            call()
        assert (refused.value.number, refused.value.name) == (number, number.name)
        assert isinstance(refused.value, EventRefused) is (number < 10)
    assert (alone.outputs, alone.messages) == before and alone.now == 2
    with pytest.raises(RgwError):
        alone.line(5)


@pytest.mark.parametrize(
    ("change", "number", "key"),
    [
        (("lines = 4", "lines = 97"), Number.BAD_LINES, "lines"),
        (("lines = 4", "lines = 'four'"), Number.BAD_TOML, "lines"),
        (('"rgw.example.net"', '""'), Number.BAD_DOMAIN, "domain"),
        (("media_base = 3000", "media_base = 3001"), Number.BAD_MEDIA, "media_base"),
        (("lines = 4", ""), Number.BAD_TOML, "missing: lines"),
        (("lines = 4", "lines = 4\nports = 4"), Number.BAD_TOML, "ports"),
    ],
)
def test_a_fault_names_its_key(change: tuple[str, str], number: Number, key: str) -> None:
    with pytest.raises(ConfigFault) as fault:
        Gateway(CONFIG.replace(*change))
    assert fault.value.number is number and key in fault.value.flaw


def test_a_long_configuration_is_refused() -> None:
    with pytest.raises(ConfigFault) as fault:
        Gateway(CONFIG + "#" * 1_048_577)
    assert fault.value.number is Number.TOO_LONG


def test_media_at_any_address_is_a_flaw_and_opens() -> None:
    config = CONFIG.replace('media_address = "127.0.0.1"', 'media_address = "0.0.0.0"')
    assert flaw_of(CONFIG.encode()) == "" and "0.0.0.0" in flaw_of(config.encode())
    Gateway(config).close()


@pytest.mark.parametrize("first", [9_999_999, 1 << 32, -1])
def test_first_has_bounds(first: int) -> None:
    with pytest.raises(RgwError) as refused:
        Gateway(CONFIG, first)
    assert refused.value.number is Number.BAD_FIRST
    Gateway(CONFIG, 9_999_998).close()


def test_a_closed_gateway_raises(alone: Gateway) -> None:
    line = alone.line(1)
    alone.close()
    alone.close()
    calls: list[Callable[[], object]] = [
        lambda: alone.tick(3), lambda: alone.outputs, lambda: line.hook, lambda: line.connections, lambda: alone.next_due,
    ]
    for call in calls:
        with pytest.raises(Closed):
            call()


def test_another_thread_is_refused(alone: Gateway) -> None:
    raised: list[BaseException] = []

    def use() -> None:
        try:
            alone.tick(3)
        except Closed as closed:
            raised.append(closed)

    thread = threading.Thread(target=use)
    thread.start()
    thread.join()
    assert len(raised) == 1 and alone.now == 1


def test_the_same_calls_give_the_same_bytes() -> None:
    def run() -> list[object]:
        with Gateway(CONFIG) as gateway:
            out: list[object] = [*gateway.wait(5000), *gateway.datagram(AGENT, b"200 1 OK\r\n"), *gateway.datagram(AGENT, RQNT)]
            return [*out, *gateway.phone(1, "off"), *gateway.wait(60_000), gateway.line(1).signals]

    assert run() == run()


def test_a_thousand_gateways_are_independent() -> None:
    gateways = [Gateway(CONFIG, first) for first in range(1000)]
    assert {gateway.tick(1)[0].data.split()[1] for gateway in gateways} == {str(n + 1).encode() for n in range(1000)}
    del gateways
    gc.collect()


def test_any_bytes_are_taken(alone: Gateway) -> None:
    for data in (b"", b"\0", b"\xff" * 4000, b"\xff" * 65_535):
        assert alone.datagram(AGENT, data) == []


def test_the_longest_of_each_is_taken(alone: Gateway) -> None:
    Gateway(CONFIG + "#" * (1_048_576 - len(CONFIG))).close()
    with pytest.raises(ConfigFault) as fault:
        Gateway(CONFIG + "#" * (1_048_577 - len(CONFIG)))
    assert (fault.value.number, fault.value.flaw) == (Number.TOO_LONG, "over 1,048,576 bytes")
    head, end = b"AUEP 7 aaln/1@rgw.example.net MGCP 1.0\r\nX-pad: ", b"\r\n"
    longest = head + b"a" * (4000 - len(head + end)) + end
    assert [output.data.split()[1] for output in alone.datagram(AGENT, longest)] == [b"7"]
    assert alone.datagram(AGENT, longest.replace(b"AUEP 7", b"AUEP 18")) == []


def test_a_wait_gives_what_each_of_its_ticks_sent() -> None:
    """An announcement that nobody answers goes out again and again meanwhile."""
    waited, ticked = Gateway(CONFIG), Gateway(CONFIG)
    sent = [it for moment in range(1000, 10_001, 1000) for it in ticked.tick(moment)]
    assert waited.wait(10_000) == sent and len({it.moment for it in sent}) > 2
