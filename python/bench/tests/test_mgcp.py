"""Messages: what is written reads back, and whatever comes is read."""

import time

import pytest
from hypothesis import given, settings
from hypothesis import strategies as st

from rgw_bench import mgcp

quick = settings(max_examples=400, deadline=None, database=None)
# Digits that aren't ASCII's, lines of every end, headers that break off.
ODD = ["\xb2", "\xbd", "\x85", "\x1b[31m", "\0", "\t", " ", "9" * 5000, "-1", "+1", "1_0", "0", "0001", ":", ".", "@", "é"]
words = st.one_of(st.sampled_from([*ODD, "200", "NTFY", "RSIP", "aaln/1@gw", "MGCP", "1.0", "7", "999999999", "1000000000"]),
                  st.binary(max_size=12).map(lambda it: it.decode("latin-1")))
ends = st.sampled_from(["\r\n", "\n", "\r", "\n\r", " \r\n", "\r\n.\r\n", "\n . \n"])
codes = st.sampled_from(["X", "O", "RM", "K", "I", "Z", "x", " X ", "X+NOSUCH", ""])


@st.composite
def lines(draw: st.DrawFn) -> str:
    """A line as a message has them, or nearly."""
    kind = draw(st.integers(0, 3))
    if kind == 0:
        return " ".join(draw(st.lists(words, max_size=6)))
    if kind == 1:
        return f"{draw(codes)}: {draw(words)}"
    usual = ["200 1 OK", "NTFY 7 aaln/1@gw MGCP 1.0", "RSIP 8 *@gw MGCP 1.0", "RM: restart", "O: L/hd", "v=0", "", "."]
    return draw(st.sampled_from(usual))


@st.composite
def datagrams(draw: st.DrawFn) -> bytes:
    """A whole datagram: lines with their ends, and some bytes beside them."""
    text = "".join(draw(lines()) + draw(ends) for _ in range(draw(st.integers(0, 10))))
    return text.encode("latin-1") + draw(st.binary(max_size=4))


@quick
@given(st.one_of(datagrams(), st.binary(max_size=300)))
def test_whatever_comes_is_read(data: bytes) -> None:
    """Each part is a message or says why it is none, in printable ASCII."""
    for message in mgcp.messages(data):
        if isinstance(message, mgcp.NoMessage):
            assert str(message).isprintable() and str(message).isascii()
        else:
            assert 0 <= message.id <= mgcp.GREATEST_ID
            assert message.is_response or message.verb
            assert message["X"] is None or isinstance(message["X"], str)


@quick
@given(st.binary(max_size=300))
def test_what_is_shown_is_one_line_of_ascii(data: bytes) -> None:
    """No byte of a gateway's ends a line or begins a terminal's sequence."""
    assert mgcp.shown(data).isascii()
    assert mgcp.shown(data).isprintable()


name = st.sampled_from(["C", "x", "X+NEW", "ZZ/a-b", "RM"])
value = st.sampled_from(["", "1", "a:b", "L/hd(N), D/[0-9*#T](D)", "(2xx|0)", "recvonly", "~!{}"])


@quick
@given(st.integers(1, mgcp.GREATEST_ID), st.lists(st.tuples(name, value), max_size=6), st.booleans())
def test_what_is_written_reads_back(id: int, params: list[tuple[str, str]], has_sdp: bool) -> None:
    """A command and a response."""
    sdp = "v=0\nc=IN IP4 127.0.0.1" if has_sdp else ""
    for raw in (mgcp.command("RQNT", id, "aaln/1@gw", params, sdp), mgcp.response(250, id, "OK", params, sdp)):
        message = mgcp.parse(raw)
        assert (message.id, message.raw) == (id, raw)
        assert list(message.params) == [(code.upper(), it) for code, it in params]
        assert message.sdp == ((sdp,) if sdp else ())


def test_a_command_has_its_parts() -> None:
    """Verb, endpoint, version, parameters in any case."""
    message = mgcp.parse(b"\r\n crcx  17\taaln/1@gw MGCP 1.0 NCS 1.0\nc: A\nM:recvonly\n\nv=0\n")
    assert (message.verb, message.id, message.endpoint, message.version) == ("CRCX", 17, "aaln/1@gw", "MGCP 1.0 NCS 1.0")
    assert (message["C"], message["m"], message["I"], message.sdp) == ("A", "recvonly", None, ("v=0",))
    assert not message.is_response


def test_a_response_has_its_parts() -> None:
    """Code, comment, several descriptions."""
    message = mgcp.parse(b"200 17 all is well\r\nI: 1\r\nI: 2\r\n\r\nv=0\r\n\r\nv=1\r\n")
    assert (message.code, message.id, message.comment, message.values("i")) == (200, 17, "all is well", ["1", "2"])
    assert message.sdp == ("v=0", "v=1")
    assert not message.is_provisional
    assert mgcp.parse(b"100 17").is_provisional


@pytest.mark.parametrize("raw, why", [
    (b"", "nothing in it"), (b"\r\n", "nothing in it"), (b"hello", "no header: hello"),
    (b"NTFY x a MGCP 1.0", "no header: NTFY x a MGCP 1.0"),
    (b"AUEP 1 a", "no header: AUEP 1 a"), (b"200 1 OK\r\nnothing", "no parameter: nothing"), (b"20 1 OK", "no header: 20 1 OK"),
    (b"NTFY 1234567890 a MGCP 1.0", "no header: NTFY 1234567890 a MGCP 1.0"),
    ("NTFY ² a MGCP 1.0".encode("latin-1"), r"no header: NTFY \xb2 a MGCP 1.0"),
])
def test_what_is_no_message_says_why(raw: bytes, why: str) -> None:
    """The text is for people."""
    with pytest.raises(mgcp.NoMessage) as fault:
        mgcp.parse(raw)
    assert str(fault.value) == why


def test_parts_of_a_datagram() -> None:
    """A line of a single dot separates them."""
    one, two = mgcp.command("AUEP", 1, "a@b"), mgcp.response(200, 2)
    assert mgcp.split(mgcp.joined([one, two])) == [one, two]
    assert mgcp.split(b"a\n.\nb\n . \r\n.\r\nc") == [b"a\n", b"b\n", b"c"]


def test_a_character_beyond_latin_1_is_refused() -> None:
    """It has no byte."""
    with pytest.raises(UnicodeEncodeError):
        mgcp.command("AUEP", 1, "€@b")


def test_ids_begin_anew_behind_the_greatest() -> None:
    """1 to 999999999."""
    ids = mgcp.transaction_ids(mgcp.GREATEST_ID)
    assert [next(ids), next(ids)] == [mgcp.GREATEST_ID, 1]


@pytest.mark.parametrize("data", [
    b"\r\n" * 32_000, b"\n \n" * 21_000, b".\r\n" * 21_000, b"200 1 OK\r\n" + b"a:b\r\n" * 13_000, b" " * 65_000,
    b"NTFY 1 a MGCP 1.0\r\n" + b"\n\t" * 30_000, b"200 1 OK\r\n.\r\n" * 4_600,
], ids=["line ends", "blanks", "dots", "parameters", "a blank line", "descriptions", "responses"])
def test_a_great_datagram_takes_little_time(data: bytes) -> None:
    """No more than a quarter of a second."""
    began = time.process_time()
    for _ in mgcp.messages(data):
        pass
    mgcp.shown(data)
    assert time.process_time() - began < 0.25
