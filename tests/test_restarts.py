"""rgwd that is killed and started again in the middle of calls, beside another gateway and one rgca; and its traces, which replay."""
import os
import re
import shutil
import subprocess
import threading
import time
from pathlib import Path

import pytest
from running import FREE, Bench, command, free_ports, ran, until

pytestmark = pytest.mark.live
LIVES, LINES = 5, 4
# So long dial tone may take from the answer to an announcement on, and anything else, in s.
SOON, LONGEST = 2.0, 30.0
# Bytes of a large trace, and of memory that its replay may take.
LARGE = 20_000_000
# So many numbers there are with which ids may begin, and so many ms of the time of day have one.
FIRSTS, NUMBER_TIME = 9_999_999, 50
# A library that has no time of day, for a program into which it is loaded (LD_PRELOAD).
TIMELESS = """
#define _GNU_SOURCE
#include <errno.h>
#include <sys/syscall.h>
#include <time.h>
#include <unistd.h>

int clock_gettime(clockid_t clock, struct timespec *now)
{
    if (clock != CLOCK_REALTIME)
        return (int)syscall(SYS_clock_gettime, clock, now);
    errno = EINVAL;
    return -1;
}
"""


class Gateway:
    """A gateway of four lines that may have several lives, each with a trace of its own."""

    def __init__(self, bench: Bench, domain: str, agent: int, hundred: int):
        self.bench, self.domain, self.hundred = bench, domain, hundred
        listen, phones = free_ports(2)
        self.sockets = ["--listen", f"127.0.0.1:{listen}", "--phones", f"127.0.0.1:{phones}"]
        self.config = bench.config(agent, f"{domain}.toml", domain, LINES)
        self.listen, self.traces, self.firsts = listen, list[Path](), list[int]()

    def start(self, *words: str) -> None:
        """Begins a life, whose ids begin with a number of the time of day."""
        self.traces.append(self.bench.folder / f"{self.domain}.trace.{len(self.traces)}")
        began = time.time_ns() // 1_000_000
        with open(self.traces[-1], "wb") as out:
            words = (*command("rgwd"), self.config, *self.sockets, "--trace", "--log", *words)
            self.program = self.bench.start(words, out=out)
        found = re.search(r" first (\d+)", self.program.start)
        assert found
        self.firsts.append(int(found[1]))
        between = range(began // NUMBER_TIME, time.time_ns() // 1_000_000 // NUMBER_TIME + 1)
        assert self.firsts[-1] in [number % FIRSTS for number in between]

    def act(self, line: int, *acts: str) -> None:
        """Acts at a telephone."""
        for act in acts:
            assert self.program.tell(f"phone {line} {act}") == "done\n"

    def shows(self, line: int, text: str) -> bool:
        """Whether what is shown of a line has this."""
        return text in self.program.tell(f"show {line}")

    def hears(self, line: int, signal: str, seconds: float = LONGEST) -> bool:
        """Whether a line has this signal, in time."""
        return until(lambda: self.shows(line, f"{signal}:"), seconds)

    def is_quiet(self) -> bool:
        """Whether all lines are on hook, and have neither a signal nor a connection."""
        return all(self.shows(line, f"line {line} on signals - connections - ") for line in range(1, LINES + 1))

    def hang_up(self) -> None:
        """All handsets are on hook."""
        for line in range(1, LINES + 1):
            if self.shows(line, " off signals"):
                self.act(line, "on")

    def dial(self, line: int, number: int) -> None:
        """Lifts a handset, and dials a number once dial tone is heard."""
        self.act(line, "off")
        assert self.hears(line, "L/dl")
        self.act(line, *str(number))

    def calls(self, line: int, other: "Gateway", its: int) -> None:
        """A call between two lines is set up: both talk."""
        self.dial(line, other.hundred + its)
        assert other.hears(its, "L/rg")
        other.act(its, "off")
        assert until(lambda: self.shows(line, ":sendrecv") and other.shows(its, ":sendrecv"), LONGEST)


class Agent:
    """A call agent that routes, and when it heard of which gateway's restart."""

    def __init__(self, bench: Bench, own: int, gateways: list[Gateway]):
        path = bench.folder / "agent.toml"
        text = f'own = "127.0.0.1:{own}"\ndigit_map = "([23]xx)"\n'
        for it in gateways:
            numbers = ", ".join(f'"{it.hundred + line}"' for line in range(1, LINES + 1))
            text += f'[gateways."{it.domain}"]\naddress = "127.0.0.1:{it.listen}"\nnumbers = [{numbers}]\n'
        path.write_text(text)
        words = [*command("rgca"), str(path), "--control", f"127.0.0.1:{free_ports(1)[0]}", "--route", "--log"]
        self.program = bench.start(words)
        self.restarts: dict[str, list[float]] = {it.domain: [] for it in gateways}
        threading.Thread(target=self.hear, daemon=True).start()

    def hear(self) -> None:
        """Reads what the agent prints."""
        assert self.program.process.stdout
        for said in self.program.process.stdout:
            if found := re.match(rb"announce \S+@(\S+) restart", said):
                self.restarts[found[1].decode()].append(time.monotonic())


def live_again(agent: Agent, one: Gateway, other: Gateway) -> None:
    """The first gateway is killed amid calls, and started again."""
    one.calls(1, other, 1)
    other.dial(2, one.hundred + 2)
    assert one.hears(2, "L/rg")
    one.act(3, "off")
    assert one.hears(3, "L/dl")
    one.act(3, str(other.hundred)[0])
    heard, began = len(agent.restarts[one.domain]), time.monotonic()
    one.program.close()
    one.start()
    assert time.monotonic() - began < 1
    assert until(lambda: len(agent.restarts[one.domain]) > heard, LONGEST)
    for line in range(1, LINES + 1):
        one.act(line, "off")
    for line in range(1, LINES + 1):
        assert one.hears(line, "L/dl", SOON + agent.restarts[one.domain][-1] - time.monotonic())
    assert other.hears(1, "L/ro")
    one.hang_up()
    other.hang_up()
    assert until(lambda: one.is_quiet() and other.is_quiet(), LONGEST)
    other.act(1, "off")
    assert other.hears(1, "L/dl", SOON)
    other.act(1, "on")
    assert until(other.is_quiet, LONGEST)
    for line in range(1, LINES + 1):
        one.calls(line, other, line)
    one.hang_up()
    other.hang_up()
    assert until(lambda: one.is_quiet() and other.is_quiet(), LONGEST)


def changed(trace: Path) -> int:
    """Changes a byte of a line of a trace that went out: the number of that line."""
    lines = trace.read_bytes().splitlines(keepends=True)
    places = [place for place, line in enumerate(lines) if line.startswith(b"| 200 ")]
    place = places[len(places) // 2]
    lines[place] = b"| 250 " + lines[place][6:]
    trace.write_bytes(b"".join(lines))
    return place + 1


def assert_replays(trace: Path) -> None:
    """A trace replays as it was told, and one of whose bytes is changed doesn't, at its line."""
    status, out, _ = ran([*command("rgwd"), "--replay", str(trace)])
    assert status == 0 and re.fullmatch(r"[\d,]+ lines, all as told\n", out)
    place = changed(trace)
    status, out, _ = ran([*command("rgwd"), "--replay", str(trace)])
    assert status == 1 and out.startswith(f"line {place:,} differs\n")


def test_gateway_lives_again(bench: Bench) -> None:
    """Five times: it serves within a second, each line has dial tone at once, calls are set up, and what was connected comes to rest."""
    own = free_ports(1)[0]
    one, other = Gateway(bench, "gw1.example.net", own, 200), Gateway(bench, "gw2.example.net", own, 300)
    agent = Agent(bench, own, [one, other])
    one.start()
    other.start()
    assert until(lambda: all(agent.restarts.values()), LONGEST)
    for _ in range(LIVES):
        live_again(agent, one, other)
    assert len(set(one.firsts)) == len(one.firsts)
    for program in (one.program, other.program, agent.program):
        program.send("stop\n")
        assert program.wait(20) == 0
    for trace in [*one.traces, *other.traces]:
        assert_replays(trace)


def test_large_trace(bench: Bench, tmp_path: Path) -> None:
    """20 MB: one audit again and again, which the gateway answers as it did, and telephones. A replay takes less memory than that."""
    if "/unproved/" in command("rgwd")[0]:
        pytest.skip("checks in place of a proof take too long for 20 MB")
    gateway = Gateway(bench, "large.example.net", 9, 400)
    gateway.start()
    bench.agent.settimeout(0.2)
    number, over = 1000, time.monotonic() + 300
    while gateway.traces[0].stat().st_size < LARGE and time.monotonic() < over:
        number += 1
        for _ in range(64):
            text = f"AUEP {number} aaln/1@large.example.net MGCP 1.0\r\nF: R,D,S,X,N,I,T,O,ES,A\r\n"
            bench.agent.sendto(text.encode(), ("127.0.0.1", gateway.listen))
        try:
            for _ in range(64):
                bench.agent.recv(65536)
        except TimeoutError:
            pass
        if number % 64 == 0:
            gateway.act(1, "off", "1", "on")
    gateway.program.stop()
    trace = gateway.traces[0]
    assert trace.stat().st_size >= LARGE
    process = subprocess.Popen([*command("rgwd"), "--replay", str(trace)], stdout=subprocess.DEVNULL)
    _, status, used = os.wait4(process.pid, 0)
    process.returncode = os.waitstatus_to_exitcode(status)
    assert process.returncode == 0 and used.ru_maxrss * 1024 < LARGE
    assert_replays(trace)


def test_without_a_time_of_day(bench: Bench, tmp_path: Path) -> None:
    """A machine without a time of day: the word --first has to say with which number ids begin."""
    (tmp_path / "timeless.c").write_text(TIMELESS)
    compiler = shutil.which(os.environ.get("CC", "cc"))
    assert compiler
    subprocess.run([compiler, "-shared", "-fPIC", "-o", f"{tmp_path}/timeless.so", f"{tmp_path}/timeless.c"], check=True)
    words = [*command("rgwd"), bench.config(), *FREE, "--stop-after", "0"]
    timeless = {**os.environ, "LD_PRELOAD": f"{tmp_path}/timeless.so"}
    status, _, said = ran(words, env=timeless)
    assert (status, said) == (3, "this machine has no time of day: --first N says with which number ids begin, another at each start\n")
    status, _, said = ran([*words, "--first", "4711"], env=timeless)
    assert status == 0 and re.match(r"listen \S+ phones \S+ first 4711\n", said)
