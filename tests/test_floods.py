"""What floods rgwd and rgca, or would have them talk without end: lines of answers, forged datagrams, audits."""
import collections
import select
import socket
import struct
import time
from collections.abc import Iterable

import pytest
from running import Address, Bench, Program, client, command, heard

# So many audits are asked for, under so many ids, with so many in flight at each of eight sockets.
AUDITS, IDS, IN_FLIGHT = 100_000, 4000, 8
FORGED = b"hello\nshow 1\ncounts"


@pytest.fixture
def agent(bench: Bench) -> Program:
    """A call agent."""
    return bench.start([*command("rgca"), bench.agent_config(9), "--listen", "127.0.0.1:0", "--control", "127.0.0.1:0"])


def forge(port: int, to: Address, text: bytes) -> None:
    """Sends a datagram of the loopback that says it came from this port."""
    try:
        with socket.socket(socket.AF_INET, socket.SOCK_RAW, socket.IPPROTO_UDP) as by:
            by.sendto(struct.pack("!HHHH", port, to[1], 8 + len(text), 0) + text, (to[0], 0))
    except PermissionError:
        pytest.skip("nobody but root can forge a datagram")


def assert_forged(to: Address, begins: bytes) -> None:
    """What is forged arrives: one that says it came from here is answered here."""
    with client() as by:
        forge(by.getsockname()[1], to, b"hello")
        assert heard(by).startswith(begins)


def assert_no_talk(programs: Iterable[Program], ways: Iterable[tuple[Address, Address]]) -> None:
    """Datagrams forged to come from one of these addresses to the other make programs use next to nothing of a second."""
    used = sum(it.spent() for it in programs)
    for of, to in ways:
        forge(of[1], to, FORGED)
    time.sleep(1)
    assert sum(it.spent() for it in programs) - used < 0.1


def test_gateway_answers_no_answer(bench: Bench) -> None:
    """What stands after lines of an answer is answered."""
    program = bench.gateway()
    answers = "done\n? phone LINE\n! 4 NoSuchLine\nline 1 on\ndatagrams in 1\nlost events 0\n"
    assert program.tell(f"{answers}counts\nshow 1").startswith("datagrams in ") and heard(program.phone).startswith(b"line 1 on ")
    assert heard(program.phone, 0.2) == b""


def test_agent_answers_no_answer(agent: Program) -> None:
    answers = "done\n? VERB NAME\n! 3 BadCommand\nissued 5\nline 1 on\ncalls 0\nnetwork lost 0\n"
    assert agent.tell(f"{answers}counts\n").startswith("calls 0 set up 0 ")
    assert heard(agent.phone, 0.2) == b""


def test_forged_datagram_starts_no_talk(bench: Bench, agent: Program) -> None:
    """Neither of a program with itself, nor with another."""
    one, other = bench.gateway(), bench.gateway("--http", "127.0.0.1:0")
    assert_forged(one.addresses[1], b"? phone LINE")
    assert_forged(agent.addresses[1], b"? VERB NAME")
    phones, control = one.addresses[1], agent.addresses[1]
    to_phones = [(of, phones) for of in (phones, one.address, other.addresses[1], control)]
    to_control = [(of, control) for of in (control, agent.address, phones)]
    assert_no_talk((one, other, agent), to_phones + to_control)


def unread(bench: Bench, count: int, words: list[str]) -> tuple[Program, float]:
    """A gateway whose standard output nobody reads, after so many audits, once it was told to stop, and how long its end took, in s."""
    reader, writer = socket.socketpair()
    with reader, writer:
        program = bench.gateway(*words, out=writer.fileno())
        writer.close()
        for number in range(count):
            assert bench.audit(program, 100 + number % IDS)
        began = time.monotonic()
        assert program.tell("stop\n") == "done\n"
        assert program.wait() == 3
        return program, time.monotonic() - began


@pytest.mark.live
def test_trace_that_nobody_reads_is_given_up_a_second_after_the_end(bench: Bench) -> None:
    """It is kept until then, and the counts come before that is said."""
    program, took = unread(bench, 3000, ["--trace"])
    assert 0.9 < took < 1.9
    said = program.said()
    assert said.startswith("datagrams in 3001 ") and said.endswith("\nstandard output: broken off, nobody took it\n")


@pytest.mark.live
def test_no_more_than_a_mebibyte_is_kept_of_a_trace_that_nobody_reads(bench: Bench) -> None:
    """It is broken off while the gateway serves."""
    program, took = unread(bench, 12_000, ["--trace"])
    assert 0.9 < took < 1.9
    assert program.said().startswith("standard output: broken off, nobody took it\ndatagrams in 12001 ")


@pytest.mark.live
def test_flood_of_audits_is_answered(bench: Bench) -> None:
    """Each of 100,000, of which 4,000 are new, and the others are repeats within their half minute."""
    if "/unproved/" in command("rgwd")[0]:
        pytest.skip("checks in place of a proof take too long for 100,000 audits")
    program, codes, asked = bench.gateway(), collections.Counter[bytes](), iter(range(AUDITS))
    sockets = [client() for _ in range(8)]
    waiting = dict.fromkeys(sockets, 0)
    over = time.monotonic() + 300
    while sum(codes.values()) < AUDITS and time.monotonic() < over:
        for by in sockets:
            while waiting[by] < IN_FLIGHT and (number := next(asked, None)) is not None:
                by.sendto(b"AUEP %d aaln/1@rgw.example.net MGCP 1.0\r\n" % (100 + number % IDS), program.address)
                waiting[by] += 1
        for by in select.select(sockets, [], [], 3)[0]:
            codes[by.recv(65536)[:3]] += 1
            waiting[by] -= 1
    for by in sockets:
        by.close()
    assert codes == {b"200": AUDITS}
