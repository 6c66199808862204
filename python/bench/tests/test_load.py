"""Loads: the words of rgw-load, its moments, what becomes of a call, which end is the limit; rgw-load and Locust at a stub of gateways."""
from __future__ import annotations

import json
import os
import re
import socket
import subprocess
import sys
import threading
import time
from collections.abc import Callable, Iterator
from itertools import pairwise
from pathlib import Path
from typing import Any

import pytest
from hypothesis import given, settings
from hypothesis import strategies as st
from stubs import StubExchange, host

from rgw_bench import load_calls
from rgw_bench.load_calls import Failed, Lines, Tally
from rgw_bench.load_report import counted
from rgw_bench.load_words import BadWords, Exchange, Load, Ramp, ramp_of, read_exchange, read_words
from rgw_bench.phones import Lost
from rgw_bench.processors import Share, limit_of, processes_at, seconds_of
from rgw_bench.routed import config_of

HOST, PORT = host(3), 24300
BENCH = Path(__file__).resolve().parent.parent
LOAD = [sys.executable, "-m", "rgw_bench.commands.load"]
LOCUST = [sys.executable, "-m", "locust", "-f", str(BENCH / "rgw_bench" / "locustfile.py")]


@pytest.fixture
def exchange() -> Iterator[StubExchange]:
    with StubExchange(2, 4, HOST, PORT) as made:
        yield made


@pytest.fixture
def config(exchange: StubExchange, tmp_path: Path) -> str:
    path = tmp_path / 'a "load" \\.toml'
    path.write_text(exchange.config())
    return str(path)


# Words

USAGE = "usage: rgw-load CONFIG --rate CALLS"


@pytest.mark.parametrize("words, said", [
    ("--rate 0 --for 1", "--rate: wanted calls a second, 0.001 to 10000"), ("--rate 1 --for x", "--for: wanted seconds, 1 to 86400"),
    ("--rate 1 --for 1 --hold 1.5", "--hold: wanted ms, 0 to 3600000"),
    ("--rate 1 --for 1 --success 100.01", "--success: wanted a percentage, 0 to 100"),
    ("--rate 1 --for 1 --seed -1", "--seed: wanted a number, 0 to 999999999999999999"),
    ("--rate 1", USAGE), ("--for 1", USAGE), ("", USAGE),
    ("--rate 1 --for 1 --fast", USAGE), ("--rate 1 --for 1 --hold", USAGE), ("--rate 1 --for 1 --csv --html x", USAGE),
    ("--rate ² --for 1", "--rate: wanted"), ("--rate 1e3 --for 1", "--rate: wanted"), ("--rate nan --for 1", "--rate: wanted"),
    ("--rate 1,2 --for 1", "--rate ..@: wanted seconds"), ("--rate 1,2@5,3@5 --for 9", "--rate: 3@5: wanted later seconds"),
    ("--rate 1 --for 1 --unanswered 101", "--unanswered: wanted a percentage"), ("--rate 1 --for 1 --ring x", "--ring: wanted ms"),
], ids=range(18))
def test_words_that_are_refused(words: str, said: str) -> None:
    with pytest.raises(BadWords) as caught:
        read_words(["a.toml", *words.split()])
    assert str(caught.value).startswith(said)
    with pytest.raises(BadWords, match="(?s)^usage: .*\nrgw-load: wanted CONFIG before the options$"):
        read_words(words.split())


@pytest.mark.parametrize("words, said", [
    ("--rate 1 --for 1 --unanswred 3", "'--unanswred': no such option"), ("--rate 1 --for 1 --hold", "--hold: it wants a value"),
    ("--rate 1 --for 1 --csv --html x", "--csv: it wants a value"), ("--for 1", "missing: --rate"), ("--rate 1", "missing: --for"),
    ("", "missing: --rate"),
], ids=range(6))
def test_the_wrong_word_is_named_after_the_usage(words: str, said: str) -> None:
    with pytest.raises(BadWords) as caught:
        read_words(["a.toml", *words.split()])
    assert str(caught.value).splitlines()[-1] == f"rgw-load: {said}"


def test_words_that_are_taken() -> None:
    words = "--rate 0.5,20@30 --for 60.5 --hold 0 --seed 7 --success 98.5 --route --poisson --unanswered 10 --ring 500"
    ramp = Ramp(((0.0, 0.5), (30.0, 20.0)))
    asked = ["a.toml", *words.split(), *"--relay r --csv c --html h".split()]
    assert read_words(asked) == Load("a.toml", ramp, 60.5, 0.0, 7, 98.5, True, True, 10.0, 0.5, "r", "c", "h")
    assert read_words("a.toml --rate 1 --for 1".split()) == Load("a.toml", ramp_of("1"), 1.0)


@settings(max_examples=100, deadline=None, database=None)
@given(st.lists(st.sampled_from("a.toml --rate 1 --for --hold 2@ ,@ 5@5 --route -1 ² 1,2@3".split()) | st.text(max_size=5), max_size=8))
def test_any_words_are_taken_or_refused(words: list[str]) -> None:
    try:
        load = read_words(words)
        assert load.seconds >= 1
    except BadWords:
        pass


@pytest.mark.parametrize("change, said", [
    (("phones = ", "phone = "), 'missing: gateways."gw1.example.net".phones'),
    (('own = "127.0.0.1:24999"', 'own = "here"'), "own: not an address"), (('"00102"', '"00101"'), "wanted each number once"),
    (('"00102"', '"001x2"'), "numbers: wanted 1 to 96 numbers"), (("[gateways.", "[others."), "gateways: wanted a table"),
    (("digit_map", "="), "Invalid"), (("numbers = [", "numbers = 5 # ["), "numbers: wanted"),
], ids=range(7))
def test_configurations_that_are_refused(config: str, change: tuple[str, str], said: str) -> None:
    path = Path(config)
    path.write_text(path.read_text().replace(*change))
    with pytest.raises(BadWords) as caught:
        read_exchange(config)
    assert str(caught.value).startswith(f"{config}: ") and said in str(caught.value)


def test_several_testers_have_parts_that_are_disjoint(config: str, exchange: StubExchange) -> None:
    read = read_exchange(config)
    whole = read.lines(0, 1)
    assert len(whole) == 8 and whole["gw2.example.net:3"] == "00203"
    for parts in (2, 3):
        several = [read.lines(part, parts) for part in range(parts)]
        assert sum(map(len, several)) == 8 and {name for it in several for name in it} == set(whole)
    # Where there are enough gateways each has gateways of its own, since few may watch one; else lines.
    assert [len(read.part(part, 2).gateways) for part in (0, 1)] == [2, 2]
    many = Exchange(read.own, "", tuple(read.gateways * 2))
    assert [len(many.part(part, 2).gateways) for part in (0, 1)] == [2, 2]


# Moments


def test_moments_are_even_or_of_a_poisson_process() -> None:
    even = list(Load("", ramp_of("10,20@2"), 4.0).moments())
    assert len(even) == 60 and even[:3] == pytest.approx([0.0, 0.1, 0.2]) and even[20:23] == pytest.approx([2.0, 2.05, 2.1])
    drawn = Load("", ramp_of("100"), 50.0, seed=3, is_poisson=True)
    moments = list(drawn.moments())
    gaps = [later - sooner for sooner, later in pairwise(moments)]
    mean = sum(gaps) / len(gaps)
    spread = (sum((gap - mean) ** 2 for gap in gaps) / len(gaps)) ** 0.5
    assert 4700 < len(moments) < 5300 and 0.9 < spread / mean < 1.1
    assert moments == list(drawn.moments())


def test_a_ramp_of_poisson_moments_has_each_rate() -> None:
    moments = list(Load("", ramp_of("50,200@20"), 40.0, is_poisson=True).moments())
    before = sum(moment < 20 for moment in moments)
    assert 850 < before < 1150 and 3700 < len(moments) - before < 4300
    assert list(Load("", ramp_of("0.001"), 10.0).moments()) == [0.0]


# Calls


class Told:
    """What is told of calls."""

    def __init__(self) -> None:
        self.steps: list[tuple[str, float, str]] = []

    def __call__(self, step: str, ms: float, fault: Failed | None) -> None:
        self.steps.append((step, ms, str(fault or "")))

    def named(self, step: str) -> list[float]:
        return [ms for name, ms, _ in self.steps if name == step]


@pytest.fixture
def quick(monkeypatch: pytest.MonkeyPatch) -> None:
    """A key is pressed each 5 ms; a step may take as long as it does on a busy machine."""
    monkeypatch.setattr(load_calls, "LONGEST", 30.0)
    monkeypatch.setattr(load_calls, "HOOK_AGAIN", 0.2)
    monkeypatch.setattr(load_calls, "KEY_GAP", 0.005)


@pytest.fixture
def impatient(quick: None, monkeypatch: pytest.MonkeyPatch) -> None:
    """A step may take half a second: what fails for want of it does so soon."""
    monkeypatch.setattr(load_calls, "LONGEST", 0.5)
    monkeypatch.setattr(load_calls, "LONGEST_END", 5.0)


def in_thread(act: Callable[[], None]) -> None:
    threading.Thread(target=act, daemon=True).start()


def called(config: str, many: int = 1, late: float = 0.0, **more: Any) -> tuple[Lines, Told]:
    """So many calls, one after the other, and what was told of them."""
    told = Told()
    load = Load(config, ramp_of("1"), 60.0, hold=more.pop("hold", 0.05), **more)
    lines = Lines(read_exchange(config), load, told)
    for number in range(1, many + 1):
        lines.attempt(late, in_thread)
        end = time.monotonic() + 30
        while (lines.under_way or len(told.named("call")) < number) and time.monotonic() < end:
            time.sleep(0.01)
    lines.settle()
    return lines, told


def test_a_call_comes_to_rest(exchange: StubExchange, config: str, quick: None) -> None:
    lines, told = called(config, hold=0.3)
    assert lines.tally == Tally(attempts=1, rung=1, connected=1, at_rest=1)
    assert lines.tally.success == 100.0 and len(lines.idle) == 8
    assert [step for step, _, _ in told.steps] == [*load_calls.STEPS, "call"]
    assert told.named("call")[0] >= 300
    acts = [it.partition(" ")[2] for it in exchange.calls]
    assert acts[0] == "off" and sorted(acts[1:6]) == sorted(acts[1:6]) and acts[6] == "off" and sorted(acts[7:]) == ["on", "on"]


def test_an_unanswered_call_rings_and_is_given_up(exchange: StubExchange, config: str, quick: None) -> None:
    lines, told = called(config, unanswered=100.0, ring=0.2)
    assert (lines.tally.unanswered, lines.tally.connected, lines.tally.at_rest) == (1, 0, 1)
    assert told.named("lifted to connected") == [] and told.named("call")[0] >= 200


def test_shares_of_calls_are_unanswered(exchange: StubExchange, config: str, quick: None) -> None:
    lines, _ = called(config, many=12, hold=0.0, unanswered=50.0)
    assert lines.tally.at_rest == 12 and 2 <= lines.tally.unanswered <= 10 and lines.tally.connected == 12 - lines.tally.unanswered


def broken(exchange: StubExchange, how: str) -> None:
    """What is wrong with the exchange."""
    if how == "no dial tone":
        exchange.dial_tone_after = 2.0
    elif how == "no answer":
        exchange.refuses = {"off"}
    elif how == "cut off":
        exchange.cuts_off = True
    elif how == "no ringing":
        exchange.deaf = True
    elif how == "reorder tone":
        exchange.by_number.clear()
    elif how == "busy tone":
        for it in exchange.gateways:
            exchange.by_number.update({number: (it, 0) for number in it.numbers})
            it.states[0] = "talks"


@pytest.mark.parametrize("why", ["no dial tone", "no answer", "cut off", "no ringing", "reorder tone", "busy tone"])
def test_why_a_call_fails(exchange: StubExchange, config: str, impatient: None, why: str) -> None:
    broken(exchange, why)
    lines, told = called(config, hold=0.3)
    assert lines.tally.failed == {why: 1} and (lines.tally.attempts, lines.tally.at_rest) == (1, 0)
    assert told.steps[-1][0] == "call" and told.steps[-1][2] == why
    assert all(it.hooks[1:] == ["on"] * 4 for it in exchange.gateways), "no handset stays lifted"
    assert lines.tally.success == 0.0


def test_a_line_that_does_not_come_to_rest(exchange: StubExchange, config: str, impatient: None, monkeypatch: pytest.MonkeyPatch) -> None:
    on = exchange.on

    def keeps_a_signal(it: Any, line: int) -> None:
        on(it, line)
        exchange.tell(it, line, "begins L/wt until -")

    monkeypatch.setattr(exchange, "on", keeps_a_signal)
    lines, told = called(config)
    assert lines.tally.failed == {"no rest": 1} and lines.tally.connected == 1 and len(lines.idle) == 6


def test_what_begins_late_and_where_no_line_is_free(exchange: StubExchange, config: str, quick: None) -> None:
    lines, told = called(config, late=0.5)
    assert lines.tally.late_starts == 1 and told.named("late start") == [500.0]
    lines, told = Lines(read_exchange(config), Load(config, ramp_of("1"), 1.0), Told()), Told()
    lines.tell = told
    del lines.idle[1:]
    lines.attempt(0.0, in_thread)
    lines.close()
    assert (lines.tally.attempts, lines.tally.no_line_free) == (0, 1) and told.steps == [("no line free", 0.0, "no line free")]


def test_a_seed_draws_who_calls_whom(exchange: StubExchange, config: str, quick: None) -> None:
    def drawn(seed: int) -> list[str]:
        exchange.calls.clear()
        called(config, many=3, hold=0.0, seed=seed)
        return [it for it in exchange.calls if it.endswith(" off")]

    first = drawn(5)
    assert len(first) == 6 and drawn(5) == first != drawn(6)


def test_lost_changes_are_counted_and_hinder_nothing(exchange: StubExchange, config: str, quick: None) -> None:
    exchange.skip = 3
    lines, _ = called(config)
    assert lines.changes_lost == 3 and lines.tally.at_rest == 1


def test_no_load_without_two_lines_at_rest(exchange: StubExchange, config: str) -> None:
    for it in exchange.gateways:
        it.hooks[1:] = ["off"] * 4
    exchange.gateways[0].hooks[1] = "on"
    with pytest.raises(Lost, match="^fewer than two lines are at rest$"):
        called(config)


def test_what_gateways_counted(exchange: StubExchange, config: str) -> None:
    lines = Lines(read_exchange(config), Load(config, ramp_of("1"), 1.0), Told())
    exchange.counts = (
        "notifications 7 repeated 2\nanswers 200 9 500 1 repeated 3\nannouncements 1 repeated 4 given up 5\nstrangers 0 lost commands 6\n"
    )
    assert counted(lines) == {"notifications": 14, "notifications_again": 4, "commands_again": 6, "given_up": 10, "lost_commands": 12}
    lines.close()


# Which end was the limit

IDLE = {"tester": Share(0.3, 0.3), "agent": Share(0.5, 0.5), "gateways": Share(2.0, 0.1)}


@pytest.mark.parametrize("end, more", [
    ("none", {"is_enough": True}), ("tester", {"late": 0.02, "is_enough": True}),
    ("machine", {"late": 0.02, "machine": 0.97}), ("lines", {"no_line": 0.02, "is_enough": True}),
    ("gateways", {"lost_commands": 3}), ("tester", {"shares": {**IDLE, "tester": Share(0.95, 0.95)}, "is_enough": True}),
    ("agent", {"shares": {**IDLE, "agent": Share(1.9, 0.97)}}), ("gateways", {"shares": {**IDLE, "gateways": Share(2.0, 0.99)}}),
    ("machine", {"machine": 0.99}), ("unknown", {}), ("unknown", {"shares": {"tester": Share(0.1, 0.1)}}),
], ids=range(11))
def test_which_end_was_the_limit(end: str, more: dict[str, Any]) -> None:
    usual: dict[str, Any] = {"shares": IDLE, "machine": 0.5, "late": 0.0, "no_line": 0.0, "lost_commands": 0, "is_enough": False}
    limit = limit_of(**{**usual, **more})
    assert (limit.end if limit else "none") == end


def test_a_program_is_found_by_its_socket(exchange: StubExchange) -> None:
    assert processes_at([exchange.gateways[0].place]) == {os.getpid()}
    assert processes_at([(HOST, 24399)]) == set()
    assert sum(seconds_of(os.getpid()).values()) > 0 and seconds_of(999_999_999) == {}


def test_the_configuration_of_an_exchange_behind_a_relay(config: str, tmp_path: Path) -> None:
    read = read_exchange(config)
    text = config_of(read, ("127.0.0.1", 5), [("127.0.0.1", 6), ("127.0.0.1", 7)])
    moved = tmp_path / "moved.toml"
    moved.write_text(text.replace('numbers = ', 'phones = "127.0.0.1:8"\nnumbers = '))
    again = read_exchange(str(moved))
    assert again.own == ("127.0.0.1", 5) and again.digit_map == "xxxxx" and [it.address[1] for it in again.gateways] == [6, 7]
    assert [it.numbers for it in again.gateways] == [it.numbers for it in read.gateways]


# rgw-load and Locust


def ran(*words: str, **more: Any) -> subprocess.CompletedProcess[str]:
    return subprocess.run([*LOAD, *words], capture_output=True, text=True, cwd=BENCH, timeout=120, **more)


def test_the_program_makes_a_load(exchange: StubExchange, config: str, tmp_path: Path) -> None:
    files = ["--csv", str(tmp_path / "calls"), "--html", str(tmp_path / "calls.html")]
    relay = tmp_path / "relay.json"
    relay.write_text('{"verbs": {"NTFY": {"count": 3}}}')
    words = [config, "--rate", "2,4@1", "--for", "2", "--hold", "100", "--seed", "7", "--poisson", "--relay", str(relay), *files]
    made = ran(*words, "--success", "50")
    report = json.loads(made.stdout)
    assert made.returncode == 0 and report["attempts"] == report["rung"] == report["connected"] == report["at_rest"] > 0, made.stderr
    asked = [report[name] for name in ("config", "rate", "seconds", "hold_ms", "seed", "lines", "gateways")]
    assert asked == [config, "2,4@1", 2, 100, 7, 8, 2]
    assert report["verbs"] == {"NTFY": {"count": 3}} and set(report["times"]) == set(load_calls.STEPS)
    assert report["processors"]["tester"]["all"] > 0 and report["gateways_counted"]["notifications"] == 0
    assert made.stderr.startswith("1 s  ") and " attempts  " in made.stderr
    assert "dialled to ringing" in (tmp_path / "calls.html").read_text() and "hung up to rest" in (tmp_path / "calls_stats.csv").read_text()
    history = (tmp_path / "calls_stats_history.csv").read_text()
    assert len([line for line in history.splitlines() if ",call,call," in line]) >= 2


def test_the_programs_status_where_too_few_come_to_rest(exchange: StubExchange, config: str) -> None:
    exchange.by_number.clear()
    made = ran(config, "--rate", "2", "--for", "1")
    report = json.loads(made.stdout)
    counts = [report[name] for name in ("attempts", "rung", "at_rest", "failed", "success")]
    assert (made.returncode, counts) == (1, [2, 0, 0, {"reorder tone": 2}, 0.0])
    assert all(it.hooks[1:] == ["on"] * 4 for it in exchange.gateways)


def test_what_ends_the_program_before_a_load(exchange: StubExchange, config: str, tmp_path: Path) -> None:
    away = tmp_path / "away.toml"
    away.write_text(exchange.config().replace(f":{PORT + 1}", f":{PORT + 90}"))
    least = ["--rate", "1", "--for", "1"]
    assert (told := ran(config)).returncode == 2 and told.stderr.startswith("usage: rgw-load CONFIG"), told
    assert (told := ran("--help")).returncode == 0 and told.stdout.startswith("usage: rgw-load CONFIG") and not told.stderr, told
    assert (told := ran("--locustfile")).returncode == 0 and Path(told.stdout.strip()).is_file(), told
    assert (told := ran("/nowhere.toml", *least)).returncode == 3 and told.stderr == "/nowhere.toml: No such file or directory\n", told
    assert (told := ran(str(away), *least)).returncode == 3 and told.stderr == f"{HOST}:{PORT + 90}: no answer\n", told
    assert (told := ran(config, *least, "--html", "/nowhere/x")).returncode == 3 and "/nowhere/x: No such file" in told.stderr, told
    told = ran(config, *least, "--route", env={**os.environ, "RGCA": "/nowhere/rgca"})
    assert told.returncode == 3 and "/nowhere/rgca: no such program" in told.stderr, told


def begun(folder: Path, *words: str) -> subprocess.Popen[str]:
    env = {**os.environ, "PYTHONPATH": str(BENCH)}
    return subprocess.Popen([*LOCUST, *words], env=env, cwd=folder, stdout=subprocess.PIPE, stderr=subprocess.STDOUT, text=True)


def test_a_master_and_two_workers_share_the_lines(exchange: StubExchange, config: str, tmp_path: Path) -> None:
    with socket.socket() as made:
        made.bind(("127.0.0.1", 0))
        port = str(made.getsockname()[1])
    asked = ["--exchange", config, "--hold", "300", "--parts", "2"]
    workers = [begun(tmp_path, *asked, "--worker", "--master-port", port) for _ in (1, 2)]
    words = "--headless --only-summary --expect-workers 2 -u 4 -r 100 -t 4s --success 50 --master --master-bind-port".split()
    programs = [begun(tmp_path, *asked, *words, port), *workers]
    said = [it.communicate(timeout=120)[0] for it in programs]
    assert [it.returncode for it in programs] == [0, 0, 0], said
    rows = re.findall(r"(?m)^call +(\S.*?) +(\d+) +(\d+)\(", said[0])
    requests = {name: int(count) for name, count, _ in rows}
    assert requests["call"] > 3 and {requests[step] for step in load_calls.STEPS} == {requests["call"]}, said[0]
    assert all(it.hooks[1:] == ["on"] * 4 for it in exchange.gateways)
