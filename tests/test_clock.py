"""The clock of rgwd, and the time of day."""
import datetime
import os
import re
import subprocess
import time
from pathlib import Path

import pytest
from running import FREE, LONG, Bench, Program, command, ran, until

LOG_LINE = re.compile(r"(?m)^(\d{4}-\d\d-\d\dT\d\d:\d\d:\d\d\.\d{3})Z ")
# The system's clocks; where the file SET_ON is, the time of day is an hour on, and where LOST is, there is none.
CLOCKS = """#define _GNU_SOURCE
#include <stdlib.h>
#include <sys/syscall.h>
#include <time.h>
#include <unistd.h>
int clock_gettime(clockid_t id, struct timespec *now) {
    int failed = (int)syscall(SYS_clock_gettime, id, now);
    if (id == CLOCK_REALTIME && access(getenv("LOST"), F_OK) == 0) return -1;
    if (id == CLOCK_REALTIME && access(getenv("SET_ON"), F_OK) == 0) now->tv_sec += 3600;
    return failed;
}
"""
# The time of day is 10 ms past the beginning of a number, which lasts 50 ms. It goes on where the program sleeps, and nowhere else, however
# long the program takes for what it does. When a socket gets its address that goes into the file BOUND, in ms, a line each.
SLEEPS = """#define _GNU_SOURCE
#include <stdio.h>
#include <stdlib.h>
#include <sys/socket.h>
#include <sys/syscall.h>
#include <time.h>
#include <unistd.h>
static long long day = 1800000000010;
int nanosleep(const struct timespec *asked, struct timespec *left) {
    day += asked->tv_sec * 1000 + asked->tv_nsec / 1000000;
    return (int)syscall(SYS_nanosleep, asked, left);
}
int clock_gettime(clockid_t id, struct timespec *now) {
    if (id != CLOCK_REALTIME) return (int)syscall(SYS_clock_gettime, id, now);
    now->tv_sec = day / 1000;
    now->tv_nsec = day % 1000 * 1000000;
    return 0;
}
int bind(int socket, const struct sockaddr *address, socklen_t length) {
    FILE *bound = fopen(getenv("BOUND"), "a");
    fprintf(bound, "%lld\\n", day);
    fclose(bound);
    return (int)syscall(SYS_bind, socket, address, length);
}
"""
# What stands in a log before the line of a command that came.
NOTED = r"Z ! the time of day was set on by 3(599|600)\d{3} ms\n\S+ 127\.0\.0\.1:\d+ > "


def utc() -> datetime.datetime:
    """The time of day."""
    return datetime.datetime.now(datetime.UTC).replace(tzinfo=None)


def times(log: str) -> list[datetime.datetime]:
    """The times of a log's lines."""
    return [datetime.datetime.fromisoformat(it) for it in LOG_LINE.findall(log)]


def are_since(began: datetime.datetime, log: str) -> bool:
    """Whether all times of a log are those of a run that began then."""
    return all(-1 < (it - began).total_seconds() < 2 * LONG for it in times(log))


def test_stop_after(bench: Bench) -> None:
    """--stop-after ends rgwd at that moment of its clock; it prints its counts then."""
    began = time.monotonic()
    status, _, said = ran([*command("rgwd"), bench.config(), *FREE, "--stop-after", "300"])
    assert status == 0 and 0.3 <= time.monotonic() - began < LONG
    assert said.count("\ndatagrams in 0 ") == 1


def long_wait(bench: Bench, *words: str) -> tuple[float, float, Program]:
    """When a start began that waits for more than 2 s, how long it waits, and its program. The wait is drawn by the time of day."""
    for _ in range(20):
        began = time.monotonic()
        program = bench.start([*command("rgwd"), bench.config(), *FREE, "--first", "0", "--spread", "4000", *words])
        found = re.fullmatch(r"listen .* first 0 waits (\d+) ms\n", program.start)
        assert found, program.start
        if int(found[1]) > 2000:
            return began, int(found[1]) / 1000, program
        program.close()
    raise AssertionError("no start waits for more than 2 s of 4")


def test_start_waits_before_its_clock_begins(bench: Bench) -> None:
    """A start announces itself 1 ms after its wait, and --stop-after counts from there."""
    began, waits, program = long_wait(bench, "--log", "--stop-after", "1500")
    assert program.wait() == 0
    ended, took = utc(), time.monotonic() - began
    assert took >= waits + 1.5
    first = (ended - times(program.said())[0]).total_seconds()
    assert 1.4 < first < 1.4 + waits


def preloaded(folder: Path, source: str, **files: str) -> dict[str, str]:
    """An environment in which these functions stand before the C library's; they find the paths of these files of the folder."""
    (folder / "before.c").write_text(source)
    subprocess.run(["cc", "-shared", "-fPIC", "-o", "before.so", "before.c"], cwd=folder, check=True)
    return {**os.environ, "LD_PRELOAD": f"{folder}/before.so", **{name: f"{folder}/{file}" for name, file in files.items()}}


def test_start_opens_its_sockets_once_its_number_is_over(bench: Bench, tmp_path: Path) -> None:
    """Ids begin with the number of the time of day, a number for each 50 ms: its sockets are opened once it is over."""
    program = bench.start([*command("rgwd"), bench.config(), *FREE], env=preloaded(tmp_path, SLEEPS, BOUND="bound"))
    assert program.start.endswith(f" first {1800000000010 // 50 % 9999999}\n")
    assert (tmp_path / "bound").read_text() == "1800000000050\n" * 2


def test_log_has_the_time_of_day(bench: Bench) -> None:
    """Lines of the log are as far apart as what they tell."""
    began = utc()
    program = bench.gateway("--log")
    time.sleep(0.3)
    assert bench.audit(program)
    _, said, _ = program.stop()
    assert are_since(began, said)
    assert 0.3 <= (times(said)[-1] - times(said)[0]).total_seconds() < LONG


def test_no_processor_is_used_where_nothing_comes(bench: Bench) -> None:
    program = bench.gateway()
    program.tell("show 1\n")
    time.sleep(0.2)
    before = program.spent()
    time.sleep(1)
    assert program.spent() - before < 0.3


@pytest.fixture
def clocks(tmp_path: Path) -> dict[str, str]:
    """An environment in which a program's time of day is an hour on as soon as the file SET_ON is there, and lost by the file LOST."""
    return preloaded(tmp_path, CLOCKS, SET_ON="on", LOST="lost")


def test_log_notes_that_the_time_of_day_was_set(bench: Bench, clocks: dict[str, str]) -> None:
    program = bench.gateway("--log", env=clocks)
    assert until(lambda: "> 200 1 OK" in program.logged())
    Path(clocks["SET_ON"]).touch()
    assert bench.audit(program) and re.search(NOTED + "AUEP 7 ", program.stop()[1])


def test_log_goes_on_where_the_machine_has_no_time_of_day(bench: Bench, clocks: dict[str, str]) -> None:
    """While the machine has none, the log goes on from that of the start."""
    began = utc()
    program = bench.gateway("--log", env=clocks)
    assert until(lambda: "> 200 1 OK" in program.logged())
    Path(clocks["LOST"]).touch()
    assert bench.audit(program)
    said = program.stop()[1]
    assert " > AUEP 7 " in said and are_since(began, said)


def test_log_of_an_agent_notes_that_the_time_of_day_was_set(bench: Bench, clocks: dict[str, str]) -> None:
    config = bench.agent_config(bench.agent.getsockname()[1])
    program = bench.start([*command("rgca"), config, "--listen", "127.0.0.1:0", "--control", "127.0.0.1:0", "--log"], env=clocks)
    for number in (1, 2):
        bench.agent.sendto(f"NTFY {number} aaln/1@gw1.example.net MGCP 1.0\r\nX: 1\r\nO: D/1\r\n".encode(), program.address)
        assert until(lambda: f"> NTFY {number} " in program.logged())
        Path(clocks["SET_ON"]).touch()
    assert re.search(NOTED + "NTFY 2 ", program.stop()[1])
