"""What a stranger can do to rgwd, and an entity that N names: they speak from other addresses of the loopback than the agent."""
import re
import socket
import threading
import time
from collections.abc import Iterator

import pytest
from running import Bench, Program, client, heard

STRANGER, NAMED = "127.0.0.3", "127.0.0.4"
# Bytes of a datagram that are read, and commands that are remembered.
ROOM, FIRSTS = 4000, 4096
# When a notification that nobody answers is sent again, in s from its first send on, and how late that may be seen.
SENDS, NEAR = (0.5, 1.5, 3.5, 7.5), 0.3
# A digit map of 2,000 bytes, and how many times its own bytes a datagram of audits brings at least that ask for it.
LONG_MAP, TIMES = "(" + "|".join(["2xxxxxx"] * 250) + ")", 10


@pytest.fixture
def stranger() -> Iterator[socket.socket]:
    """A socket of somebody who may not speak."""
    with client(STRANGER) as made:
        yield made


def said(verb: str, number: int, *rest: str) -> bytes:
    """A command of line 1."""
    return "".join(f"{row}\r\n" for row in (f"{verb} {number} aaln/1@rgw.example.net MGCP 1.0", *rest)).encode()


def ask(bench: Bench, program: Program, text: bytes) -> bytes:
    """The answer to what the agent sends."""
    bench.agent.sendto(text, program.address)
    return heard(bench.agent)


def filling(first: int, each: bytes = b"XXXX %d a\r\n.\r\n") -> tuple[bytes, int]:
    """As many commands as a datagram has room for, the first with this id, and the id behind the last."""
    text, number = b"", first
    while len(text) < ROOM - len(each) - 10:
        text += each % number
        number += 1
    return text.removesuffix(b".\r\n"), number


def drained(by: socket.socket) -> int:
    """How many bytes of datagrams come until none has for 0.3 s."""
    size = 0
    while text := heard(by, 0.3):
        size += len(text)
    by.settimeout(10)
    return size


def counted(program: Program, what: str) -> int:
    """What is counted under this name."""
    found = re.search(rf"{what} (\d+)", program.tell("counts\n"))
    assert found
    return int(found[1])


def test_stranger_answers_no_announcement(bench: Bench, stranger: socket.socket) -> None:
    """Nor does one redirect it."""
    program = bench.start(bench.gateway_words())
    announced = heard(bench.agent)
    stranger.sendto(b"521 1 Redirected\r\nN: evil@[%s]:%d\r\n" % (STRANGER.encode(), stranger.getsockname()[1]), program.address)
    stranger.sendto(b"200 1 OK\r\n", program.address)
    assert heard(bench.agent) == announced != b""
    assert heard(stranger, 0.2) == b""


def test_stranger_takes_nothing(bench: Bench, stranger: socket.socket) -> None:
    """A stranger's ids are nobody's, and a stranger's request gets no notification; the log tells of strangers once a second at most."""
    began = time.monotonic()
    program = bench.gateway("--log")
    stranger.sendto(said("RQNT", 1, "X: 1", f"N: evil@[{STRANGER}]", "R: L/hd"), program.address)
    stranger.sendto(said("AUEP", 5000), program.address)
    assert ask(bench, program, said("DLCX", 5000)).startswith(b"250 5000")
    assert program.tell("phone 1 off\n") == "done\n"
    assert heard(bench.agent).startswith(b"NTFY 10000000 ")
    bench.agent.sendto(b"200 10000000 OK\r\n", program.address)
    assert heard(stranger, 0.2) == b"" and counted(program, "strangers") == 2
    told = program.stop()[1].count("! a stranger's, not heard")
    assert 1 <= told <= time.monotonic() - began + 1


@pytest.mark.parametrize("is_admitted", [False, True])
def test_named_entity(bench: Bench, is_admitted: bool) -> None:
    """An entity that N names is heard where --agents admits it; else the log names that word."""
    words = ["--agents", f"127.0.0.1,{NAMED}"] if is_admitted else []
    program = bench.gateway("--log", *words)
    with client(NAMED) as entity:
        port = entity.getsockname()[1]
        assert ask(bench, program, said("RQNT", 1, "X: 1", f"N: ca@[{NAMED}]:{port}", "R: L/hd(N)")).startswith(b"200 1 ")
        assert program.tell("phone 1 off\n") == "done\n"
        told = heard(entity)
        assert told
        entity.sendto(b"200 10000000 OK\r\n", program.address)
        assert heard(entity, 2) == (b"" if is_admitted else told)
    assert (f"but with --agents {NAMED}" in program.stop()[1]) != is_admitted


@pytest.mark.live
def test_provisional_responses_of_a_stranger_hold_nothing_up(bench: Bench, stranger: socket.socket) -> None:
    """One comes each 3 s: a notification is sent again after 0.5, 1, 2, then 4 s."""
    program = bench.gateway()
    assert ask(bench, program, said("RQNT", 1, "X: 1", "R: L/hd(N)")).startswith(b"200 1 ")
    assert program.tell("phone 1 off\n") == "done\n"
    told = heard(bench.agent)
    begun, sends, spoke = time.monotonic(), [], 0
    while time.monotonic() - begun < SENDS[-1] + NEAR:
        if time.monotonic() - begun >= spoke * 3:
            stranger.sendto(b"100 10000000 wait\r\n", program.address)
            spoke += 1
        if heard(bench.agent, 0.02) == told:
            sends.append(time.monotonic() - begun)
    assert len(sends) == len(SENDS) and all(abs(was - wanted) < NEAR for was, wanted in zip(sends, SENDS)), sends


@pytest.mark.live
def test_commands_of_a_stranger_fill_nothing(bench: Bench, stranger: socket.socket) -> None:
    """Nor are they answered: 4 KB of audits bring a stranger nothing, and the agent ten times as much."""
    program = bench.gateway()
    number = 10000
    while number < 10000 + FIRSTS:
        text, number = filling(number)
        stranger.sendto(text, program.address)
    assert ask(bench, program, said("RQNT", 6100, "X: 2", "R: D/[0-9](D)", f"D: {LONG_MAP}")).startswith(b"200 6100")
    each = b"AUEP %d aaln/1@rgw.example.net MGCP 1.0\r\nF: D\r\n.\r\n"
    stranger.sendto(filling(30000, each)[0], program.address)
    assert drained(stranger) == 0
    bench.agent.sendto(filling(30000, each)[0], program.address)
    assert len(heard(bench.agent)) + drained(bench.agent) > TIMES * ROOM


@pytest.mark.live
def test_flood_of_a_stranger_holds_the_agent_up_for_no_longer_than_50_ms(bench: Bench, stranger: socket.socket) -> None:
    program = bench.gateway()
    over, text = threading.Event(), filling(20000)[0]

    def flood() -> None:
        while not over.is_set():
            stranger.sendto(text, program.address)

    thread = threading.Thread(target=flood)
    thread.start()
    took = []
    for number in range(7000, 7040):
        begun = time.monotonic()
        assert bench.audit(program, number)
        took.append(time.monotonic() - begun)
        time.sleep(0.05)
    over.set()
    thread.join()
    assert max(took) < 0.05


@pytest.mark.live
def test_command_that_finds_no_room(bench: Bench) -> None:
    """Where 4,096 commands are young a further one isn't answered, but counted, and logged."""
    program = bench.gateway("--log")
    number = 10000
    while number < 10000 + FIRSTS + 100:
        text, number = filling(number)
        bench.agent.sendto(text, program.address)
        heard(bench.agent, 3)
        drained(bench.agent)
    bench.agent.sendto(said("AUEP", 6000), program.address)
    assert heard(bench.agent, 2) == b"" and counted(program, "lost commands") > 0
    assert "! lost: 4,096 commands are young" in program.stop()[1]
