"""The relay: a fate for each datagram, by direction; whose datagram goes where; what is counted; and the words of rgw-relay."""
from __future__ import annotations

import contextlib
import json
import signal
import socket
import subprocess
import sys
import threading
import time
from collections.abc import Iterator, Sequence
from pathlib import Path

import pytest
from hypothesis import given, settings
from hypothesis import strategies as st
from stubs import host

from rgw_bench import mgcp
from rgw_bench.answers import Answers, heads
from rgw_bench.relay import Fate, Relay, by_direction, clean, spoilt
from rgw_bench.times import Times, bucket_of

HOST = host(2)
FRONT, GATEWAY, HOME, AGENT = ((HOST, port) for port in (24201, 24202, 24203, 24204))
SECOND_FRONT, SECOND_GATEWAY = (HOST, 24205), (HOST, 24206)
RELAY = [sys.executable, "-m", "rgw_bench.commands.relay"]
BENCH = Path(__file__).resolve().parent.parent


def opened(place: tuple[str, int]) -> socket.socket:
    made = socket.socket(socket.AF_INET, socket.SOCK_DGRAM)
    made.setsockopt(socket.SOL_SOCKET, socket.SO_RCVBUF, 1 << 22)
    made.bind(place)
    made.settimeout(0.3)
    return made


@pytest.fixture
def agent() -> Iterator[socket.socket]:
    with opened(AGENT) as made:
        yield made


class Echo(threading.Thread):
    """A gateway that answers each command by 200."""

    def __init__(self, place: tuple[str, int]):
        super().__init__(daemon=True)
        self.socket, self.heard, self.is_open = opened(place), [], True  # type: tuple[socket.socket, list[int], bool]
        self.start()

    def run(self) -> None:
        while self.is_open:
            with contextlib.suppress(TimeoutError):
                data, who = self.socket.recvfrom(65536)
                for _, number in heads(data):
                    self.heard.append(number)
                    self.socket.sendto(mgcp.response(200, number), who)

    def __enter__(self) -> Echo:
        return self

    def __exit__(self, *_: object) -> None:
        self.is_open = False
        self.join()
        self.socket.close()


@pytest.fixture
def echo() -> Iterator[Echo]:
    with Echo(GATEWAY) as made:
        yield made


@contextlib.contextmanager
def relaying(inward: Fate = clean, outward: Fate = clean, **more: object) -> Iterator[Relay]:
    made = Relay({FRONT: GATEWAY}, HOME, AGENT, inward, outward, **more)  # type: ignore[arg-type]
    made.start()
    try:
        yield made
    finally:
        made.close()


def received(its: socket.socket) -> list[int]:
    """The ids of all that comes, until nothing does for a while."""
    got = []
    with contextlib.suppress(TimeoutError):
        while True:
            got += [number for _, number in heads(its.recv(65536))]
    return got


def passed(agent: socket.socket, echo: Echo, inward: str, outward: str, count: int = 300) -> tuple[list[int], list[int]]:
    """What a gateway heard of so many commands, and what the agent heard of its answers."""
    echo.heard.clear()
    with relaying(spoilt(inward), spoilt(outward)):
        for number in range(1, count + 1):
            agent.sendto(mgcp.command("AUEP", number, "aaln/1@gw"), FRONT)
            time.sleep(0.02 if number % 20 == 0 else 0)
        got = received(agent)
    return list(echo.heard), got


def test_each_direction_has_a_seed(agent: socket.socket, echo: Echo) -> None:
    heard, got = passed(agent, echo, "lose 30%, seed 1", "")
    assert got == heard and 180 < len(heard) < 240
    again, fewer = passed(agent, echo, "lose 30%, seed 1", "lose 50%, seed 9")
    assert again == heard, "another fate outward leaves what comes inward"
    assert 60 < len(fewer) < 140
    other, _ = passed(agent, echo, "lose 30%, seed 2", "")
    assert other != heard


def test_a_network_by_direction() -> None:
    inward, outward = by_direction("in lose 100%, out late 40-40, seed 7")
    assert not inward(b"", 0) and tuple(outward(b"", 0)) == (0.04,)
    for fate in by_direction("lose 100%"):
        assert not fate(b"", 0)
    first, second = ([len(fate(b"", 0)) for _ in range(64)] for fate in by_direction("lose 50%"))
    assert first != second, "one seed, and each direction its own sequence"


def test_each_direction_of_a_network_draws_for_itself() -> None:
    """What goes out has the fates that its own seed draws, whatever comes in between, and however that is spoilt."""

    def outward_of(text: str, between: int) -> list[int]:
        inward, outward = by_direction(text)
        return [len(outward(b"", 0)) for _ in range(64) if all(len(inward(b"", 0)) < 3 for _ in range(between))]

    alone = outward_of("lose 50%, seed 7", 0)
    for text in ("lose 50%, seed 7", "in lose 10%, in seed 8, out lose 50%, out seed 7"):
        assert outward_of(text, 3) == alone
    assert outward_of("lose 50%, in seed 7, out seed 8", 0) != alone


@pytest.mark.parametrize("text, why", [
    ("in", "in: wanted lose, copy, late or seed after it"), ("in drop 1%", "drop 1%: wanted lose, copy, late or seed"),
    ("lose 1%, out lose 2%", "lose 2%: wanted lose 0% to 100%, once"), ("in out lose 1%", "out lose 1%: wanted lose, copy, late or seed"),
])
def test_a_network_that_cant_be(text: str, why: str) -> None:
    with pytest.raises(ValueError, match=why):
        by_direction(text)


def test_copies_and_lateness(agent: socket.socket, echo: Echo) -> None:
    heard, got = passed(agent, echo, "copy 20%", "late 0-50")
    assert len(heard) > 330 and sorted(got) == sorted(heard) and got != heard


def test_a_fate_is_any_function(agent: socket.socket, echo: Echo) -> None:
    """The first answer with each id is lost, and the second comes 100 ms late."""
    seen: set[int] = set()

    def fate(data: bytes, moment: float) -> Sequence[float]:
        number = mgcp.parse(data).id
        if number in seen:
            return (0.1,)
        seen.add(number)
        return ()

    with relaying(outward=fate) as relay:
        asked = mgcp.command("AUEP", 7, "aaln/1@gw")
        agent.sendto(asked, FRONT)
        with pytest.raises(TimeoutError):
            agent.recv(65536)
        began = time.monotonic()
        agent.sendto(asked, FRONT)
        assert heads(agent.recv(65536)) == [("200", 7)] and time.monotonic() - began >= 0.1
        told = relay.told()
    assert (told["in"]["datagrams"], told["out"]) == (2, {"datagrams": 2, "lost": 1, "copied": 0, "late": 1})
    assert told["verbs"]["AUEP"]["again"] == 1 and told["verbs"]["AUEP"]["count"] == 1


def test_what_a_gateway_says_by_itself_comes_to_the_agent(agent: socket.socket) -> None:
    with relaying() as relay, opened(GATEWAY) as gateway:
        began = time.monotonic()
        gateway.sendto(mgcp.command("NTFY", 9, "aaln/1@gw", {"O": "L/hd"}), HOME)
        data, source = agent.recvfrom(65536)
        assert heads(data) == [("NTFY", 9)] and source == FRONT
        time.sleep(0.05)
        agent.sendto(mgcp.response(200, 9), FRONT)
        assert gateway.recvfrom(65536) == (mgcp.response(200, 9), HOME)
        took = bucket_of(1000 * (time.monotonic() - began))
        told = relay.told()["verbs"]["NTFY"]
    assert told["codes"] == {"200": 1} and 50 <= told["p50"] <= took and told["sent"] == 1 and told["given_up"] == 0


def test_who_else_asks_gets_the_answer(agent: socket.socket, echo: Echo) -> None:
    with relaying(), opened((HOST, 0)) as other:
        other.sendto(mgcp.command("AUEP", 3, "aaln/1@gw"), FRONT)
        agent.sendto(mgcp.command("AUEP", 4, "aaln/1@gw"), FRONT)
        assert heads(other.recv(65536)) == [("200", 3)]
        assert heads(agent.recv(65536)) == [("200", 4)]


def test_several_gateways_have_one_home(agent: socket.socket, echo: Echo) -> None:
    relay = Relay({FRONT: GATEWAY, SECOND_FRONT: SECOND_GATEWAY}, HOME, AGENT)
    relay.start()
    with opened(SECOND_GATEWAY) as second, opened((HOST, 0)) as stranger:
        second.sendto(mgcp.command("RSIP", 5, "*@gw2", {"RM": "restart"}), HOME)
        assert agent.recvfrom(65536)[1] == SECOND_FRONT
        agent.sendto(mgcp.command("AUEP", 6, "aaln/1@gw1"), FRONT)
        assert agent.recvfrom(65536)[1] == FRONT
        stranger.sendto(b"hello", HOME)
        time.sleep(0.1)
        assert relay.told()["strangers"] == 1
    relay.close()


def test_the_agent_may_be_who_speaks_first(echo: Echo) -> None:
    relay = Relay({FRONT: GATEWAY}, HOME)
    relay.start()
    with opened((HOST, 0)) as agent:
        echo.socket.sendto(mgcp.command("NTFY", 1, "aaln/1@gw"), HOME)
        time.sleep(0.1)
        agent.sendto(mgcp.command("AUEP", 4, "aaln/1@gw"), FRONT)
        assert heads(agent.recv(65536)) == [("200", 4)]
        echo.socket.sendto(mgcp.command("NTFY", 2, "aaln/1@gw"), HOME)
        assert heads(agent.recv(65536)) == [("NTFY", 2)]
        assert relay.told()["strangers"] == 1
    relay.close()


def test_rsip_is_answered_in_the_agents_place(agent: socket.socket) -> None:
    rsip, notified = mgcp.command("RSIP", 5, "*@gw", {"RM": "restart"}), mgcp.command("NTFY", 6, "aaln/1@gw", {"O": "L/hd"})
    with relaying(answers_rsip=True) as relay, opened(GATEWAY) as gateway:
        gateway.sendto(rsip, HOME)
        assert gateway.recvfrom(65536) == (mgcp.response(200, 5), HOME)
        with pytest.raises(TimeoutError):
            agent.recv(65536)
        gateway.sendto(mgcp.joined([rsip, notified]), HOME)
        assert gateway.recv(65536) == mgcp.response(200, 5)
        assert agent.recv(65536) == notified
        assert relay.told()["rsip_answered"] == 2


def test_who_never_reads_costs_nobody_memory(agent: socket.socket, monkeypatch: pytest.MonkeyPatch) -> None:
    monkeypatch.setattr("rgw_bench.relay.MOST_BYTES", 20_000)
    with relaying(lambda data, moment: (60.0,) * 3) as relay:
        for _ in range(50):
            agent.sendto(b"x" * 1000, FRONT)
        time.sleep(0.3)
        assert relay.told()["dropped"] == 130 and relay.bytes_due == 20_000


def test_clients_are_bounded(echo: Echo, monkeypatch: pytest.MonkeyPatch) -> None:
    monkeypatch.setattr("rgw_bench.relay.MOST_CLIENTS", 2)
    with relaying() as relay:
        for number in range(1, 6):
            with opened((HOST, 0)) as client:
                client.sendto(mgcp.command("AUEP", number, "aaln/1@gw"), FRONT)
                assert heads(client.recv(65536)) == [("200", number)]
        assert len(relay.clients) == 2


@settings(max_examples=100, deadline=None, database=None)
@given(st.lists(st.binary(max_size=40) | st.sampled_from([b"NTFY 1 a@b MGCP 1.0\r\n", b"200 1 OK\r\n", b".\r\n", b"\xb2" * 4 + b" 1"])))
def test_whatever_passes_is_taken(datagrams: list[bytes]) -> None:
    """What is no message counts as a datagram, and hinders nothing."""
    answers = Answers()
    for moment, data in enumerate(datagrams):
        answers.came("a", data, moment)
        answers.passed("a", data, moment)
        answers.answered("a", data, moment)
    answers.told(len(datagrams))


def test_a_command_without_an_answer_is_given_up() -> None:
    answers = Answers()
    for number in (1, 2):
        answers.came("a", mgcp.command("NTFY", number, "l@gw"), 0.0)
        answers.passed("a", mgcp.command("NTFY", number, "l@gw"), 0.0)
    answers.came("a", mgcp.command("NTFY", 1, "l@gw"), 0.5)
    answers.answered("a", mgcp.response(100, 1), 0.6)
    answers.answered("b", mgcp.response(200, 1), 0.7)
    answers.answered("a", mgcp.response(250, 1), 1.0)
    answers.answered("a", mgcp.response(250, 1), 2.0)
    told = answers.told(31.0)["NTFY"]
    assert told == {"count": 1, "p50": 1000, "p95": 1000, "p99": 1000, "most": 1000, "sent": 2, "again": 1, "provisional": 1, "given_up": 1,
                    "codes": {"250": 1}}


def test_percentiles() -> None:
    times = Times()
    assert times.told() == {"count": 0, "p50": None, "p95": None, "p99": None, "most": None}
    for ms in range(1, 1001):
        times.add(ms)
    assert times.told() == {"count": 1000, "p50": 500, "p95": 950, "p99": 990, "most": 1000}
    assert [bucket_of(ms) for ms in (-1, 0.4, 99, 104, 105, 1249, 1250)] == [0, 0, 99, 100, 110, 1200, 1300]


@pytest.mark.parametrize("text", [
    "lose 101%", "lose 5", "lose 5%, lose 6%", "late 5-2", "late 0-10001", "copy -1%", "lose ²%", "seed x", "drop 5%", "lose  5%",
])
def test_a_fate_that_is_none_is_refused(text: str) -> None:
    with pytest.raises(ValueError, match="wanted"):
        spoilt(text)


def test_a_way_for_each_gateway() -> None:
    none: dict[tuple[str, int], tuple[str, int]] = {}
    for ways in (none, {FRONT: GATEWAY, SECOND_FRONT: GATEWAY}):
        with pytest.raises(ValueError, match="wanted a front for each gateway, and each gateway once"):
            Relay(ways, HOME)


# rgw-relay


def begun(*words: str) -> subprocess.Popen[str]:
    return subprocess.Popen([*RELAY, *words], stdout=subprocess.PIPE, stderr=subprocess.PIPE, text=True, cwd=BENCH)


def place(its: tuple[str, int]) -> str:
    return "%s:%d" % its


def test_the_program_relays_and_reports(agent: socket.socket, echo: Echo, tmp_path: Path) -> None:
    report = tmp_path / "relay.json"
    words = ["--home", place(HOME), "--agent", place(AGENT), "--out", "late 30-30", "--log", "--report", str(report)]
    program = begun(f"{place(FRONT)}={place(GATEWAY)}", *words)
    assert program.stderr and program.stderr.readline() == f"relay {place(FRONT)} to {place(GATEWAY)}, home {place(HOME)}\n"
    agent.sendto(mgcp.command("AUEP", 7, "aaln/1@gw\x1b"), FRONT)
    assert heads(agent.recv(65536)) == [("200", 7)]
    time.sleep(1.1)
    assert json.loads(report.read_text())["verbs"]["AUEP"]["count"] == 1
    program.send_signal(signal.SIGTERM)
    out, said = program.communicate(timeout=60)
    told = json.loads(out)
    assert program.returncode == 0 and told["out"]["late"] == 1 and told["verbs"]["AUEP"]["codes"] == {"200": 1}
    assert json.loads(report.read_text())["verbs"] == told["verbs"]
    assert [line.split(None, 1)[1] for line in said.splitlines()] == [
        f"in  {place(FRONT)} AUEP 7 aaln/1@gw\\x1b MGCP 1.0", f"out {place(FRONT)} late by 30 ms: 200 7 OK",
    ]


def test_the_program_spoils_by_direction(agent: socket.socket, echo: Echo) -> None:
    words = ["--home", place(HOME), "--agent", place(AGENT), "--network", "in late 30-30, out lose 100%"]
    program = begun(f"{place(FRONT)}={place(GATEWAY)}", *words)
    assert program.stderr and program.stderr.readline().startswith("relay ")
    agent.sendto(mgcp.command("AUEP", 7, "aaln/1@gw"), FRONT)
    assert received(agent) == [] and echo.heard == [7]
    program.send_signal(signal.SIGTERM)
    told = json.loads(program.communicate(timeout=60)[0])
    assert (told["in"]["late"], told["in"]["lost"], told["out"]["late"], told["out"]["lost"]) == (1, 0, 0, 1)


@pytest.mark.parametrize("words, status, said", [
    ("", 2, "rgw-relay: the following arguments are required"), ("a=b --home 127.0.0.1:1", 2, "not an address"),
    (f"{place(FRONT)} --home {place(HOME)}", 2, "wanted FRONT=GATEWAY"),
    (f"{place(FRONT)}={place(GATEWAY)} --home {place(HOME)} --in lose", 2, "wanted lose 0% to 100%, once"),
    (f"{place(FRONT)}={place(GATEWAY)} --home {place(HOME)} --network in", 2, "in: wanted lose, copy, late or seed after it"),
    (f"{place(FRONT)}={place(GATEWAY)} --home {place(HOME)} --network seed --in seed", 2, "argument --network: seed: wanted seed a number"),
    (f"{place(FRONT)}={place(GATEWAY)} {place(FRONT)}={place(SECOND_GATEWAY)} --home {place(HOME)}", 2, "wanted each front once"),
    (f"{place(FRONT)}={place(GATEWAY)} --home {place(FRONT)}", 3, f"no socket at {place(FRONT)}: Address already in use"),
    (f"{place(FRONT)}={place(GATEWAY)} --home {place(HOME)} --report /nowhere/x", 3, "/nowhere/x: No such file or directory"),
    (f"{place(FRONT)}={place(GATEWAY)} --home {place(HOME)} --stop-after 0.1", 0, "relay "), ("--help", 0, ""),
], ids=(
    "none", "bad-address", "no-gateway", "bad-fate", "bad-direction", "bad-network", "front-twice", "taken-address", "bad-file",
    "stop-after", "help",
))
def test_the_programs_words(words: str, status: int, said: str) -> None:
    program = begun(*words.split())
    out, err = program.communicate(timeout=60)
    assert (program.returncode, said in err) == (status, True), (out, err)
    assert out.startswith("usage: rgw-relay FRONT=GATEWAY") if words == "--help" else bool(out) == (status == 0)
