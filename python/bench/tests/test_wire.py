"""Sockets: addresses, moments, and floods."""

import socket
import time
from collections.abc import Generator

import pytest

from rgw_bench import wire


@pytest.fixture
def ends() -> Generator[wire.Wire, None, None]:
    """Two sockets of 127.0.0.1."""
    made = wire.Wire({"here": ("127.0.0.1", 0), "there": ("127.0.0.1", 0)})
    yield made
    made.close()


@pytest.mark.parametrize("text, place", [
    ("127.0.0.1:2427", ("127.0.0.1", 2427)), ("localhost:0", ("127.0.0.1", 0)), ("10.0.0.7:65535", ("10.0.0.7", 65535)),
])
def test_addresses(text: str, place: wire.Address) -> None:
    """a.b.c.d:port, or localhost:port."""
    assert wire.address(text) == place


@pytest.mark.parametrize("text", [
    "", "127.0.0.1", "localhost", "127.0.0.1:", ":1", "127.0.0.1:65536", "127.0.0.1:+1", "127.0.0.1:²", "b:1", "1.2.3:1", "127.0.0.256:1",
])
def test_what_is_no_address(text: str) -> None:
    """It is named."""
    with pytest.raises(ValueError, match="not an address"):
        wire.address(text)


def sent_and_read(ends: wire.Wire, later: float) -> tuple[float, wire.Arrival, float]:
    """A datagram that is read so many seconds later: the moments around its sending, and what came."""
    before, sent = time.monotonic(), ends.send("there", b"a", ends.address("here"))
    assert sent is not None
    time.sleep(later)
    came, = ends.wait(time.monotonic())
    return before, came, sent


def test_a_late_reader_has_the_moment_at_which_a_datagram_came(ends: wire.Wire) -> None:
    """By the kernel's clock: as soon as it stamps, none is later than its sending ended."""
    # (Linux begins to stamp some time after the first socket asked for it)
    over = time.monotonic() + 10
    while (read := sent_and_read(ends, 0.02))[1].moment > read[2] + 0.01:
        assert time.monotonic() < over, "the moment is that of the reader"
    for _ in range(3):
        time.sleep(0.2)
        before, came, sent = sent_and_read(ends, 0.2)
        assert came.port == "here" and came.source == ends.address("there") and before - 0.1 < came.moment <= sent + 0.01


def test_what_came_before_the_end_is_read(ends: wire.Wire) -> None:
    """Also where the moment until which it is waited for has passed."""
    ends.send("there", b"a", ends.address("here"))
    assert [it.data for it in ends.wait(time.monotonic() - 5)] == [b"a"]
    assert ends.wait(time.monotonic() + 0.01) == []


def test_a_flood_is_read_in_pieces(ends: wire.Wire) -> None:
    """No call reads more than `MOST_AT_ONCE` of a socket, and the default room of 277 datagrams isn't the limit."""
    with socket.socket(socket.AF_INET, socket.SOCK_DGRAM) as by:
        for _ in range(wire.MOST_AT_ONCE + 100):
            by.sendto(b"a", ends.address("here"))
    first = len(ends.wait(time.monotonic()))
    assert first == wire.MOST_AT_ONCE
    assert len(ends.wait(time.monotonic())) == 100


def test_nobody_there_is_no_error(ends: wire.Wire) -> None:
    """What the kernel says of it is dropped."""
    with socket.socket(socket.AF_INET, socket.SOCK_DGRAM) as gone:
        gone.bind(("127.0.0.1", 0))
        place = gone.getsockname()
    ends.send("here", b"a", place)
    assert ends.wait(time.monotonic() + 0.05) == []


def test_an_address_that_is_taken_is_refused(ends: wire.Wire) -> None:
    """And leaves no socket open."""
    with pytest.raises(OSError):
        wire.Wire({"here": ends.address("here")})
    assert "here=127.0.0.1:" in repr(ends)
