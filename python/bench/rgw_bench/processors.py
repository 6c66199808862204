"""Which end of a load was the limit: the processor time of the tester, of the agent and of gateways, where they run on this machine.

A program is found by the UDP socket that it has. One that runs elsewhere, or can't be looked into, isn't told.
"""
from __future__ import annotations

import contextlib
import os
import socket
import struct
import time
from collections.abc import Iterable
from dataclasses import dataclass

from .wire import Address

# A thread that takes so much of a processor is a limit, and so is a machine of which so much is busy.
FULL, FULL_MACHINE = 0.9, 0.95
# A sample that tells of a load lasts so long, in s: times are counted in hundredths of one.
SHORTEST_SAMPLE = 1.0
TICKS = os.sysconf("SC_CLK_TCK")


def sockets() -> dict[Address, str]:
    """The inode of each UDP socket of this machine, by its address."""
    found = {}
    with contextlib.suppress(OSError), open("/proc/net/udp", encoding="ascii") as file:
        for words in (line.split() for line in file.readlines()[1:]):
            host, _, port = words[1].partition(":")
            found[socket.inet_ntoa(struct.pack("=I", int(host, 16))), int(port, 16)] = words[9]
    return found


def owners() -> dict[str, int]:
    """The process that has each socket, by its inode; those of others than this user are left out."""
    found = {}
    for name in filter(str.isdigit, os.listdir("/proc")):
        with contextlib.suppress(OSError):
            for entry in os.scandir(f"/proc/{name}/fd"):
                link = os.readlink(entry.path)
                if link.startswith("socket:["):
                    found[link[8:-1]] = int(name)
    return found


def processes_at(places: Iterable[Address]) -> set[int]:
    """The processes of this machine that have a UDP socket at one of these addresses, or at 0.0.0.0 with its port."""
    inodes, held = sockets(), owners()
    wanted = [it for place in places for it in (place, ("0.0.0.0", place[1]))]
    return {held[inodes[place]] for place in wanted if place in inodes and inodes[place] in held}


def seconds_of(process: int) -> dict[str, float]:
    """The processor time of each thread of a process so far, in s; none of one that is gone."""
    found = {}
    with contextlib.suppress(OSError):
        for thread in os.listdir(f"/proc/{process}/task"):
            with open(f"/proc/{process}/task/{thread}/stat", encoding="ascii", errors="replace") as file:
                words = file.read().rpartition(")")[2].split()
            found[thread] = (int(words[11]) + int(words[12])) / TICKS
    return found


def seconds_of_machine() -> tuple[float, float]:
    """The time that all processors of this machine were busy so far, and all their time, in s."""
    with open("/proc/stat", encoding="ascii") as file:
        ticks = [int(it) for it in file.readline().split()[1:9]]
    idle = ticks[3] + ticks[4]
    return (sum(ticks) - idle) / TICKS, sum(ticks) / TICKS


@dataclass(frozen=True)
class Share:
    """How much of a processor some processes took together, and the busiest thread of them."""

    all: float
    busiest: float

    def told(self) -> dict[str, float]:
        return {"all": round(self.all, 3), "busiest_thread": round(self.busiest, 3)}


Used = dict[str, dict[str, float]]


class Processors:
    """The processor time of some ends since it was made: the tester, which is this process, and those that are given by their processes."""

    def __init__(self, ends: dict[str, set[int]]):
        self.ends = {"tester": {os.getpid()}, **{name: its for name, its in ends.items() if its}}
        self.begun = self.sampled = time.monotonic()
        self.first = self.last = self.now()
        self.first_of_machine = seconds_of_machine()
        # Of each end the greatest share that a thread took between two samples.
        self.busiest = dict.fromkeys(self.ends, 0.0)
        # Once it is ended: what each took, as a share of one processor, and how busy the machine was, of 1.
        self.shares: dict[str, Share] = {}
        self.machine = 0.0

    def now(self) -> Used:
        """The time of each thread of each end so far, in s."""
        return {name: {f"{it}/{at}": s for it in its for at, s in seconds_of(it).items()} for name, its in self.ends.items()}

    def sample(self) -> None:
        """Looks which thread was busiest since the last sample: a ramp's end counts, not only its mean."""
        now, moment = self.now(), time.monotonic()
        passed = max(moment - self.sampled, 1e-9)
        for name, its in now.items():
            used = [seconds - self.last[name].get(thread, 0.0) for thread, seconds in its.items()]
            self.busiest[name] = max(self.busiest[name], max(used, default=0.0) / passed)
        self.last, self.sampled = now, moment

    def end(self) -> None:
        """From now on `shares` and `machine` have what each end took, and how busy all processors were, since it was made."""
        if time.monotonic() - self.sampled >= SHORTEST_SAMPLE or self.last is self.first:
            self.sample()
        passed = max(self.sampled - self.begun, 1e-9)
        sums = {name: sum(its.values()) - sum(self.first[name].values()) for name, its in self.last.items()}
        self.shares = {name: Share(used / passed, self.busiest[name]) for name, used in sums.items()}
        busy, whole = (now - before for now, before in zip(seconds_of_machine(), self.first_of_machine))
        self.machine = busy / whole if whole else 0.0


@dataclass(frozen=True)
class Limit:
    """Which end was the limit, and why it is taken for that."""

    end: str
    why: str


def limit_of(
    shares: dict[str, Share], machine: float, late: float, no_line: float, lost_commands: int, is_enough: bool,
) -> Limit | None:
    """Which end was the limit of a load of which `late` and `no_line`, of 1, of all attempts began late, or found no line idle; none where
    enough calls came to rest, each in time and at a line."""
    tester = shares["tester"].busiest if "tester" in shares else 0.0
    if tester >= FULL:
        return Limit("tester", f"it took {tester:.2f} of a processor")
    if late > 0.01:
        is_machine = machine >= FULL_MACHINE
        return Limit("machine" if is_machine else "tester", f"{late:.1%} of the attempts began more than 100 ms late")
    if no_line > 0.01:
        return Limit("lines", f"{no_line:.1%} of the attempts found fewer than two lines idle")
    if is_enough:
        return None
    if lost_commands:
        return Limit("gateways", f"they lost {lost_commands} commands, for want of room among those that they remember")
    full = [(share.busiest, name) for name, share in shares.items() if share.busiest >= FULL]
    if full:
        share, name = max(full)
        return Limit(name, f"a thread took {share:.2f} of a processor")
    if machine >= FULL_MACHINE:
        return Limit("machine", f"{machine:.0%} of all its processors were busy")
    return Limit("unknown", "no end of this machine was busy: the agent, the network, or an end elsewhere")
