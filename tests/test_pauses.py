"""rgwd and rgca that are stopped for a while, as a busy machine does it, with what came meanwhile waiting in their sockets.

Each message counts as what it was when it came. A CRCX isn't executed again, though its answer is remembered for 30 s alone; an NTFY isn't
given up, though that happens after 23.5 s.
"""
import re
import signal
import socket
import time
from pathlib import Path

import pytest
from running import Bench, Program, command, heard, ran

pytestmark = [pytest.mark.live, pytest.mark.parametrize("seconds", [2, 10, 25, 31])]
CREATION = b"CRCX 100 aaln/1@rgw.example.net MGCP 1.0\r\nC: 1A\r\nM: recvonly\r\n"
REQUEST = b"RQNT 101 aaln/2@rgw.example.net MGCP 1.0\r\nX: 1\r\nR: L/hd(N)\r\n"
NOTIFICATION = b"NTFY 5001 aaln/1@gw1.example.net MGCP 1.0\r\nX: 1\r\nO: L/hd\r\n"


def paused(bench: Bench, program: Program, seconds: int, *texts: bytes) -> None:
    """Stops a program for so long; these datagrams come meanwhile."""
    program.process.send_signal(signal.SIGSTOP)
    for text in texts:
        bench.agent.sendto(text, program.address)
    time.sleep(seconds)
    program.process.send_signal(signal.SIGCONT)


def all_that_comes(by: socket.socket) -> list[bytes]:
    """Each datagram to a socket until none has come for 2 s."""
    said = []
    while text := heard(by, 2):
        said.append(text)
    return said


def noted(log: str, seconds: int, datagrams: int) -> bool:
    """Whether the log notes once how long the program was stopped, to a second, and that at least so many datagrams waited."""
    found = re.findall(r" ! paused for (\d+) s, (\d+) datagrams? (?:was|were) waiting\n", log)
    return len(found) == 1 and abs(int(found[0][0]) - seconds) <= 1 and int(found[0][1]) >= datagrams


def test_gateway(bench: Bench, tmp_path: Path, seconds: int) -> None:
    """The repeat of a CRCX gets the CRCX's answer, and nothing else is sent: there is one connection; the trace replays."""
    with open(tmp_path / "trace", "wb") as out:
        program = bench.gateway("--log", "--trace", out=out)
    bench.agent.sendto(CREATION, program.address)
    created = heard(bench.agent)
    bench.agent.sendto(REQUEST, program.address)
    assert heard(bench.agent).startswith(b"200 101 ") and program.tell("phone 2 off\n") == "done\n"
    number = heard(bench.agent).split()[1]
    paused(bench, program, seconds, CREATION, b"200 %s OK\r\n" % number)
    assert all_that_comes(bench.agent) == [created]
    assert re.search(r" connections 1:\S+ lost 0\n$", program.tell("show 1\n"))
    assert " given up 0\n" in program.tell("counts\n")
    _, log, status = program.stop()
    assert status == 0 and "given up:" not in log and noted(log, seconds, 2)
    status, replayed, _ = ran([*command("rgwd"), "--replay", f"{tmp_path}/trace"])
    assert status == 0 and "all as told" in replayed


def agent(bench: Bench, *words: str) -> Program:
    """A call agent that logs; its gateway is the test's socket."""
    config = bench.agent_config(bench.agent.getsockname()[1])
    return bench.start([*command("rgca"), config, "--listen", "127.0.0.1:0", "--control", "127.0.0.1:0", "--log", *words])


def test_agent(bench: Bench, seconds: int) -> None:
    """Each copy of a notification is answered, and taken once; the command that was answered isn't repeated."""
    program = agent(bench)
    assert program.tell("AUEP aaln/1\n").startswith("issued ")
    number = heard(bench.agent).split()[1]
    paused(bench, program, seconds, b"200 %s OK\r\n" % number, NOTIFICATION, NOTIFICATION)
    assert all_that_comes(bench.agent) == 2 * [b"200 5001 OK\r\n"]
    assert "\ncommands 1 answered 1 given up 0\nnotifications 1 " in program.tell("counts\n")
    _, log, status = program.stop()
    assert status == 0 and "given up:" not in log and noted(log, seconds, 3)


def test_agent_that_routes(bench: Bench, seconds: int) -> None:
    """A line that was lifted meanwhile is asked for dial tone once."""
    program = agent(bench, "--route")

    def answer(said: bytes) -> None:
        """The gateway, which is at rest, answers the commands of a datagram."""
        ids = [text.split()[1] for text in said.split(b".\r\n") if text[:4].isupper()]
        bench.agent.sendto(b".\r\n".join(b"200 %s OK\r\nES: L/hu\r\n" % it for it in ids), program.address)

    while said := heard(bench.agent, 1.5):
        answer(said)
    paused(bench, program, seconds, NOTIFICATION)
    came = b""
    while said := heard(bench.agent, 2):
        came += said
        if b"RQNT " in said:
            answer(said[said.index(b"RQNT "):])
    assert (came.count(b"200 5001 OK\r\n"), came.count(b"S: L/dl\r\n")) == (1, 1)
    assert " given up 0\nnotifications 1 " in program.tell("counts\n")
    _, log, status = program.stop()
    assert status == 0 and "given up:" not in log and noted(log, seconds, 1)
