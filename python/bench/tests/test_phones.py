"""Telephones, at a stub of gateways: what is expected, what a failure tells, and what is left behind a test."""
from __future__ import annotations

import os
import subprocess
import sys
import threading
import time
from collections.abc import Iterator
from datetime import datetime, timedelta, timezone
from pathlib import Path

import pytest
from hypothesis import given, settings
from hypothesis import strategies as st
from stubs import StubExchange, host

from rgw_bench.phone_wire import Telephones, place_of
from rgw_bench.phones import Connection, Lost, Phone, Phones, State, Unexpected, side_by_side, meaning_of
from rgw_bench.phones_fixture import places_of

BENCH = Path(__file__).resolve().parent.parent
HOST, PORT = host(1), 24100


@pytest.fixture
def exchange() -> Iterator[StubExchange]:
    with StubExchange(2, 2, HOST, PORT) as made:
        yield made


@pytest.fixture
def phones(exchange: StubExchange) -> Iterator[Phones]:
    with Phones(exchange.places()) as made:
        yield made


def number(exchange: StubExchange, phone: Phone) -> str:
    name, _, line = phone.name.partition(":")
    return next(it.numbers[int(line) - 1] for it in exchange.gateways if it.name == name)


def test_a_call_from_rest_to_rest(exchange: StubExchange, phones: Phones) -> None:
    a, b = phones["gw1:1"], phones["gw2:1"]
    a.off().expect("L/dl", within=2).dial(number(exchange, b), gap=0.01)
    b.expect("L/rg", within=2).off()
    side_by_side(lambda: a.expect("sendrecv", within=2), lambda: b.expect("sendrecv", within=2))
    assert (a.hook, a.signals, a.connections) == ("off", frozenset(), {"A": Connection("sendrecv", "127.0.0.1:20000", "127.0.0.2:20002")})
    a.on()
    b.expect("L/ro", within=2).on()
    for phone in (a, b):
        phone.expect("silent", within=2).expect("on", within=2)
    assert a.state.is_at_rest and b.met_at >= a.met_at - 1


def test_each_receives_where_the_other_sends(exchange: StubExchange, phones: Phones) -> None:
    a, b = phones["gw1:1"], phones["gw2:1"]
    first, second = exchange.gateways
    assert not a.meets(b)
    exchange.tell(first, 1, "connection A sendrecv 127.0.0.1:1 to 127.0.0.2:2 PCMU 20")
    exchange.tell(second, 1, "connection B sendrecv 127.0.0.2:2 to - PCMU 20")
    b.expect("sendrecv", within=1)
    assert not a.expect("sendrecv", within=1).meets(b)
    exchange.tell(second, 1, "connection B inactive 127.0.0.2:2 to 127.0.0.1:1 PCMU 20")
    b.expect("inactive", within=1)
    assert a.meets(b) and b.meets(a) and not a.meets(phones["gw1:2"])


def test_names_of_telephones(phones: Phones) -> None:
    assert phones["2"] is phones[2] is phones["gw1:2"]
    assert len(phones) == 4 and [it.name for it in phones] == ["gw1:1", "gw1:2", "gw2:1", "gw2:2"]
    with pytest.raises(KeyError, match="gw1:3: there are gw1:1, gw1:2, gw2:1, gw2:2"):
        phones["3"]
    assert repr(phones) == f"<Phones gw1={HOST}:24101, gw2={HOST}:24102: 4 lines>"
    assert repr(phones["1"]) == "<Phone gw1:1: on, no signal, no connection>"


def test_a_failure_tells_what_each_telephone_heard(exchange: StubExchange, phones: Phones) -> None:
    a, b = phones["gw1:1"], phones["gw2:1"]
    time.sleep(0.1)
    before = datetime.now(timezone.utc) - timedelta(milliseconds=1)
    phones.begin()
    with pytest.raises(Unexpected, match="^expected gw1:1 off within 0 s; since before the test it is on, no signal, no connection\nno "):
        a.expect("off")
    a.off().expect("L/dl", within=1).dial(number(exchange, b), gap=0)
    b.expect("L/rg", within=1)
    with pytest.raises(Unexpected) as caught:
        a.expect("L/bz", within=0.2)
    lines = str(caught.value).splitlines()
    assert lines[0].startswith("expected gw1:1 L/bz within 0.2 s; since ") and lines[0].endswith(" it is off, G/rt, no connection")
    told = datetime.strptime(lines[1], "the test began at %H:%M:%S.%fZ; `until` is in ms of the gateway's clock")
    assert (told - before.replace(tzinfo=None)).seconds < 5 and len(lines[1].partition("Z")[0]) == len("the test began at 12:03:22.104")
    acts = [line.split(None, 1)[1] for line in lines if " @ " in line]
    assert acts == [f"gw1:1 @ {it}" for it in ["off", *number(exchange, b)]]
    assert any(line.endswith("gw2:1 begins L/rg until -") for line in lines)
    assert lines[-2:] == ["  gw1:1 now: off, G/rt, no connection", "  gw2:1 now: on, L/rg, no connection"]


def test_each_fault_of_several_side_by_side_is_told(phones: Phones) -> None:
    a, b, c = phones["gw1:1"], phones["gw1:2"], phones["gw2:1"]
    acts = [lambda: a.expect("L/bz", within=0.1), lambda: b.expect("silent"), lambda: c.off().off(), lambda: b.expect("off", within=0.1)]
    with pytest.raises(Unexpected) as caught:
        side_by_side(*acts)
    lines = caught.value.due.splitlines()
    assert lines[0] == "3 of 4 side by side failed:" and [line[0] for line in lines[1:]] == ["1", "3", "4"]
    assert "gw2:1 off: answered ! 5 PhoneState" in lines[2] and "expected gw1:2 off within 0.1 s" in lines[3]
    assert str(caught.value).count("s of the test, telephone") == 1
    with pytest.raises(Lost, match="answered ! 5 PhoneState; it was off"):
        side_by_side(lambda: c.off())


def test_what_was_so_for_a_moment_only_counts(exchange: StubExchange, phones: Phones) -> None:
    a = phones["gw1:1"]
    it = exchange.gateways[0]

    def briefly() -> None:
        time.sleep(0.1)
        exchange.tell(it, 1, "begins L/rg until -", "ends L/rg")

    thread = threading.Thread(target=briefly)
    thread.start()
    a.expect("L/rg", within=30)
    thread.join()
    # (the gateway's clock is known to some ms)
    time.sleep(0.1)
    a.expect("silent", within=30)
    with pytest.raises(Unexpected):
        a.expect("L/rg", within=0.1)


def test_what_comes_meanwhile_is_heard(exchange: StubExchange, phones: Phones) -> None:
    threading.Timer(0.2, exchange.tell, (exchange.gateways[0], 1, "begins L/rg until -")).start()
    with pytest.raises(Unexpected, match="expected none of L/rg at gw1:1 for 5 s"):
        phones["gw1:1"].expect_none("L/rg", during=5)


def test_none_of_these_is_heard(exchange: StubExchange, phones: Phones) -> None:
    a, b = phones["gw1:1"], phones["gw2:1"]
    b.expect_none(during=0.1)
    a.off().expect("L/dl", within=1)
    a.expect_none("L/bz", "L/ro", "sendrecv", during=0.1)
    with pytest.raises(Unexpected, match="expected none of L/ro, L/dl at gw1:1 for 5 s; 0.0.. s later it was off, L/dl, no connection"):
        a.expect_none("L/ro", "L/dl", during=5)
    with pytest.raises(Unexpected, match="expected none of all signals and connections at gw1:1"):
        a.expect_none(during=5)
    b.expect_none("L/rg", during=0.05)


def test_one_of_several(exchange: StubExchange, phones: Phones) -> None:
    a = phones["gw1:1"].off().expect("L/dl", within=1).dial("99999", gap=0)
    a.expect("L/bz | L/ro", within=1)
    assert "L/ro" in a.signals


@pytest.mark.parametrize("what", ["", "L", "dialtone", "L/dl ; L/rg", "ON", "L/", "sendRecv", "L/dl|"])
def test_what_can_not_be_expected_is_refused(phones: Phones, what: str) -> None:
    with pytest.raises(ValueError, match="wanted a signal of .*L/dl.*, a mode as sendrecv, silent, on or off"):
        phones["1"].expect(what)
    with pytest.raises(ValueError):
        phones["1"].expect_none(what or "x", during=0)


@pytest.mark.parametrize("given", [-1.0, float("nan"), float("inf"), "1", None])
def test_times_that_are_none_are_refused(phones: Phones, given: float) -> None:
    with pytest.raises(ValueError, match="wanted seconds, 0 or more"):
        phones["1"].expect("silent", within=given)
    with pytest.raises(ValueError, match="wanted seconds, 0 or more"):
        phones["1"].expect_none(during=given)


def test_acts_that_there_are_not_are_refused(exchange: StubExchange, phones: Phones) -> None:
    for wrong in ("up", "", "E", "55", "²"):
        with pytest.raises(ValueError):
            phones["1"].act(wrong)
    for wrong in ("", "2x", "20³"):
        with pytest.raises(ValueError, match="wanted keys of"):
            phones["1"].dial(wrong)
    assert exchange.calls == []


def test_words_that_name_telephones() -> None:
    assert places_of([]) == {"gw1": ("127.0.0.1", 2428)}
    assert places_of(["127.0.0.1:1", "b=localhost:2"]) == {"gw1": ("127.0.0.1", 1), "b": ("127.0.0.1", 2)}
    for wrong in ("a=127.0.0.1:1 a=127.0.0.1:2", "a=127.0.0.1:1 b=127.0.0.1:1", "a:1=127.0.0.1:1", "a=", "a=h:1", "1.2.3.4:0"):
        with pytest.raises(ValueError, match="wanted|not an address"):
            places_of(wrong.split())
    assert place_of(("127.0.0.1", 7)) == ("127.0.0.1", 7)


def test_a_gateway_that_is_not_there() -> None:
    began = time.monotonic()
    with pytest.raises(Lost, match=f"^{HOST}:24199: no answer$"):
        Phones({"gw1": f"{HOST}:24199"}, within=0.3)
    assert time.monotonic() - began < 2
    with pytest.raises(ValueError, match="one gateway at least"):
        Phones({})


def test_a_gateway_that_tells_nobody_more(exchange: StubExchange) -> None:
    exchange.watch_refusal = "! 8 watch already\n"
    with pytest.raises(Lost, match="doesn't tell what changes at its telephones: ! 8 watch already"):
        Phones(exchange.places(), within=1)


def test_what_telephones_tell_does_nothing_to_a_terminal(exchange: StubExchange) -> None:
    exchange.watch_refusal = "! 8 watch \x1b[2J\x7f\n"
    with pytest.raises(Lost, match=r"! 8 watch \\x1b\[2J\\x7f$"):
        Phones(exchange.places(), within=1)


def test_lost_changes_are_told_and_asked_for(exchange: StubExchange, phones: Phones) -> None:
    a = phones["gw1:1"]
    exchange.mute = True
    a.off()
    time.sleep(0.1)
    exchange.mute = False
    with pytest.raises(Lost, match="gw1: . changes were lost on their way"):
        a.expect("L/bz", within=0.1)
    # (by `show`; so it is known again what there is)
    a.expect("L/dl", within=1)
    assert a.gateway.changes_lost == 2
    exchange.skip = 3
    phones.is_strict = False
    a.on().expect("silent", within=1)
    assert a.gateway.changes_lost == 5


def test_a_gateway_that_no_longer_answers(exchange: StubExchange, phones: Phones) -> None:
    exchange.is_open = False
    exchange.join()
    for it in exchange.gateways:
        it.socket.close()
    with pytest.raises(Lost, match=f"no answer from {HOST}:24101"):
        phones["1"].off()


def test_the_next_life_of_a_gateway(exchange: StubExchange, phones: Phones) -> None:
    a = phones["gw1:1"].off().expect("L/dl", within=1)
    exchange.restart(exchange.gateways[0])
    a.expect("silent", within=3)
    exchange.gateways[0].hooks[1] = "on"
    a.off().expect("L/dl", within=1)
    assert a.gateway.changes_lost == 0


def test_who_reads_late_judges_by_the_gateways_clock(exchange: StubExchange, phones: Phones, monkeypatch: pytest.MonkeyPatch) -> None:
    """The reader sleeps while dial tone comes 50 ms after the handset is lifted: that is in time, however late it is read."""
    a = phones["gw1:1"]
    exchange.dial_tone_after = 0.05
    gateway = a.gateway
    hear = gateway.hear

    def late(data: bytes, moment: float) -> None:
        time.sleep(0.4)
        hear(data, moment)

    monkeypatch.setattr(gateway, "hear", late)
    a.off().expect("L/dl", within=0.2)
    exchange.dial_tone_after = 0.6
    b = phones["gw1:2"].off()
    with pytest.raises(Unexpected):
        b.expect("L/dl", within=0.2)


def test_what_is_over_by_then_is_not_so_now(exchange: StubExchange, phones: Phones, monkeypatch: pytest.MonkeyPatch) -> None:
    """What was read last may be over: then it isn't expected to be so now."""
    a = phones["gw1:1"].off().expect("L/dl", within=1)
    hear = a.gateway.hear

    def late(data: bytes, moment: float) -> None:
        time.sleep(0.2)
        hear(data, moment)

    monkeypatch.setattr(a.gateway, "hear", late)
    a.key("1")
    # (the gateway has taken it, and what it told of that isn't read yet)
    time.sleep(0.1)
    with pytest.raises(Unexpected):
        a.expect("L/dl")


def test_handsets_are_put_back(exchange: StubExchange, phones: Phones) -> None:
    a, b = phones["gw1:1"], phones["gw2:2"]
    a.off().expect("L/dl", within=1).dial(number(exchange, b), gap=0)
    b.expect("L/rg", within=1).off()
    assert phones.put_back(within=2) == []
    assert all(it.state.is_at_rest for it in phones)
    exchange.tell(exchange.gateways[0], 2, "begins L/rg until -")
    faults = phones.put_back(within=0.1)
    assert len(faults) == 1 and faults[0].startswith("gw1:2 doesn't come to rest: since ")


WORDS = "change watching from at line show 1 2 17 -1 ² 99999999999999999999 on off begins ends connection A over signals - L/rg"
words = st.lists(st.sampled_from(WORDS.split()) | st.text(max_size=4), max_size=12)


@settings(max_examples=150, deadline=None, database=None)
@given(st.binary(max_size=60) | words.map(lambda it: " ".join(it).encode()) | st.integers(1, 3).map(lambda it: b"9" * 5000))
def test_whatever_a_gateway_tells_is_taken(data: bytes) -> None:
    """A gateway's telephones may tell anything: that is taken or counted, and nothing grows by it."""
    sent: list[bytes] = []
    held = Telephones("gw", ("127.0.0.1", 9), lambda text, place: sent.append(text), lambda gateway, line: Deaf())
    held.hear(b"watching from 1 at 5\nline 1 on signals - connections - lost 0\n" + data, 1.0)
    assert len(held.lines) <= 1000


def test_lines_are_shown_once_all_of_them_are_known() -> None:
    """A session doesn't begin with the first line of a datagram that has more."""
    sent: list[bytes] = []
    seen: list[bool] = []

    def made(gateway: Telephones, line: int) -> Deaf:
        seen.append(gateway.is_shown)
        return Deaf()

    held = Telephones("gw", ("127.0.0.1", 9), lambda text, place: sent.append(text), made)
    held.hear(b"watching from 1 at 5\n", 1.0)
    assert not held.is_shown
    held.hear(b"".join(b"line %d on signals - connections - lost 0\n" % line for line in range(1, 97)), 1.0)
    assert (len(held.lines), held.is_shown, any(seen)) == (96, True, False)


class Deaf:
    """A line that takes changes as a telephone does, and keeps nothing else."""

    def __init__(self) -> None:
        self.state = State(0.0)

    def change(self, at: float, words: list[str]) -> None:
        self.state = self.state.changed(at, words)

    def show(self, at: float, hook: str, signals: frozenset[str], modes: object) -> None:
        self.state = State(at, hook, signals)


def test_a_state_by_words() -> None:
    assert meaning_of("L/dl|silent")(State(0.0)) and not meaning_of("off")(State(0.0))
    assert str(State(0.0, "off", frozenset({"L/dl", "L/wt"}), (("A", Connection("inactive")),))) == "off, L/dl, L/wt, inactive"


TESTS = """
def test_fails(phones):
    phones["gw1:1"].off().expect("L/bz", within=0.1)

def test_comes_behind(phones):
    assert [it.hook for it in phones] == ["on"] * 4
    phones["b:2"].off()

def test_asks_for_none(request):
    assert request.config.getoption("--phones")
"""


def test_the_fixture_leaves_no_handset_lifted(exchange: StubExchange, tmp_path: Path) -> None:
    (tmp_path / "test_calls.py").write_text(TESTS)
    first, second = (it.place for it in exchange.gateways)
    words = ["--phones", f"{first[0]}:{first[1]}", "--phones", f"b={second[0]}:{second[1]}", f"--junitxml={tmp_path}/report.xml"]
    asked = [sys.executable, "-m", "pytest", "-q", "-p", "no:cacheprovider", "-p", "rgw_bench.plugin", str(tmp_path), *words]
    ran = subprocess.run(asked, capture_output=True, text=True, timeout=60, env={**os.environ, "PYTHONPATH": str(BENCH)}, cwd=tmp_path)
    assert ran.returncode == 1 and "1 failed, 2 passed" in ran.stdout, ran.stdout
    assert "expected gw1:1 L/bz within 0.1 s; since" in ran.stdout and "gw1:1 @ off" in (tmp_path / "report.xml").read_text()
    assert exchange.gateways[0].hooks[1:] == exchange.gateways[1].hooks[1:] == ["on", "on"]
    words[1] = f"{HOST}:24190"
    asked = [sys.executable, "-m", "pytest", "-q", "-p", "no:cacheprovider", "-p", "rgw_bench.plugin", str(tmp_path), *words[:2]]
    ran = subprocess.run(asked, capture_output=True, text=True, timeout=60, env={**os.environ, "PYTHONPATH": str(BENCH)}, cwd=tmp_path)
    assert f"--phones: {HOST}:24190: no answer" in ran.stdout and "1 passed, 2 errors" in ran.stdout, ran.stdout


def test_a_signal_that_there_is_not_is_refused(phones: Phones) -> None:
    with pytest.raises(ValueError, match="L/dal.*wanted a signal of G/cf, .*L/dl"):
        phones["gw1:1"].expect_none("L/dal", during=0)
