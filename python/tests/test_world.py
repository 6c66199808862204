"""The plugin: what a test of an agent looks like, and what one that fails prints."""

import os
import re
import shlex
import subprocess
from collections.abc import Callable
from pathlib import Path

import pytest
from agents import CarefulAgent
from scenarios import Player

from rgw import Address, Gateway
from rgw.world import CONFIG, BadNetwork, Sent, World, lines_of, shown, step_of

pytest_plugins = ["pytester"]


def test_the_agent_gives_dial_tone(gateway: World) -> None:
    gateway.agent = CarefulAgent()
    gateway.run(1000)
    gateway.phone(1, "off")
    gateway.expect(line=1, signal="L/dl", within=10)


def test_a_number_is_taken_over_a_bad_network(network: Callable[..., World]) -> None:
    agent = CarefulAgent()
    world = network(lose=0.2, copy=0.1, late=(0, 2000), seed=7, agent=agent)
    world.run(30_000)
    world.phone(1, "off")
    world.expect(line=1, signal="L/dl", within=30_000)
    world.dial(1, "203")
    world.expect(line=1, signal="G/rt", within=30_000)
    assert [events for taken in agent.taken for events in taken.split()[1:]] == ["L/hd", "D/2,D/0,D/3"]


def test_a_seed_says_all() -> None:
    def told(seed: int) -> list[str]:
        world = World(Gateway(CONFIG), CarefulAgent(), BadNetwork(0.3, 0.3, (0, 3000), seed))
        with world:
            world.run(20_000)
            world.phone(1, "off")
            world.run(20_000)
            return world.conversation

    assert told(3) == told(3) != told(4)


def test_a_trace_replays_a_world() -> None:
    with World(Gateway(CONFIG, first=7), CarefulAgent(), BadNetwork(0.2, 0.2, (0, 900), 5)) as world:
        world.run(5000)
        world.phone(1, "off")
        world.run(5000)
        config, _, rest = world.trace().partition("%%\n")
        first, *lines = rest.splitlines()
        assert first == "| first 7"
        with Gateway(config, first=7) as again:
            player = Player(again)
            player.play([line for line in lines if not line.startswith("| ")])
            assert again.now == world.now and again.line(1).signals == world.line(1).signals
            sent = [re.sub(r"^> \d+ ", "> ", line) for line in player.printed]
            assert sent == [line[2:] for line in lines if line.startswith("| ")] and len(sent) > 10


@pytest.mark.skipif("RGWD" not in os.environ, reason="tools/python says which rgwd replays")
@pytest.mark.parametrize("first", [0, 7])
def test_rgwd_replays_the_trace_of_a_world(tmp_path: Path, first: int) -> None:
    trace = tmp_path / "trace"
    with World(Gateway(CONFIG, first), CarefulAgent(), BadNetwork(0.2, 0.2, (0, 900), 5)) as world:
        for act in ("off", "2", "0", "3", "on"):
            world.run(5000)
            world.phone(1, act)
        world.say(b"")
        world.run(5000)
        trace.write_text(world.trace())
    ended = subprocess.run([*shlex.split(os.environ["RGWD"]), "--replay", trace], capture_output=True, text=True)
    assert (ended.returncode, ended.stderr) == (0, "") and re.fullmatch(r"\d+ lines, all as told\n", ended.stdout), ended
    changed = trace.read_text().replace("| RM: restart", "| RM: restarx", 1)
    trace.write_text(changed)
    ended = subprocess.run([*shlex.split(os.environ["RGWD"]), "--replay", trace], capture_output=True, text=True)
    assert ended.returncode == 1 and " differs\n" in ended.stdout


def test_the_conversation_is_as_the_log() -> None:
    request = b"RQNT 1207 aaln/1@RGW.example.net MGCP 1.0\r\nX: A1\r\nS: L/rg\r\n"
    with World(Gateway(CONFIG), lambda moment, source, data: []) as world:
        world.run(2)
        for data, wait in ((b"200 1 OK\r\n", 1205), (request, 0), (request, 793)):
            world.say(data)
            world.run(wait)
        world.phone(1, "off")
        world.run(722)
        world.say(b"200 10000000 OK\r\n")
        world.say(b"AUEP 1 aaln/1@rgw.example.net MGCP 1.0\n.\nAUEP 2 aaln/1@other.net MGCP 1.0\nX-A: \\" + b"a" * 65 + b"\n")
        world.run(0)
        world.network = BadNetwork(late=(200, 200))
        world.say(b"AUEP 3 aaln/1@rgw.example.net MGCP 1.0\r\n")
        world.run(200)
        world.network = BadNetwork(lose=1)
        world.say(b"AUEP 4 aaln/1@rgw.example.net MGCP 1.0\r\n")
        assert [line.replace("127.0.0.2:2727 ", "").strip() for line in world.conversation] == [
            "1 < RSIP 1 * RM: restart",
            "2 > 200 1 OK +1 ms",
            "1207 > RQNT 1207 aaln/1 X: A1 S: L/rg",
            "1207 < 200 1207 OK +0 ms",
            "1207 > RQNT 1207 aaln/1 X: A1 S: L/rg",
            "1207 ! repeat of 1207, answered again",
            "2000 < NTFY 10000000 aaln/1 X: A1 O: L/hd",
            "2500 ! repeat of 10000000, no answer yet",
            "2722 > 200 10000000 OK +722 ms",
            "2722 > AUEP 1 aaln/1",
            "2722 > AUEP 2 aaln/1@other.net X-A: \\x5c" + "a" * 58 + "..",
            "2722 < 200 1 OK +0 ms",
            "2722 < 500 2 +0 ms",
            "2722 ! refused 2: 500 the endpoint is unknown: endpoint name",
            "2922 > AUEP 3 aaln/1",
            "2922 ! late by 200 ms",
            "2922 < 200 3 OK +0 ms",
            "2922 ! late by 200 ms",
            "2922 > AUEP 4 aaln/1",
            "2922 ! lost on its way",
        ]


def test_dial_waits_for_dial_tone(network: Callable[..., World]) -> None:
    world = network(lose=0.2, copy=0.1, late=(0, 2000), seed=7, agent=CarefulAgent())
    world.dial(1, "203")
    world.expect(line=1, signal="G/rt", within=30_000)


def test_what_goes_elsewhere_reaches_no_gateway() -> None:
    def agent(moment: int, source: Address, data: bytes) -> Sent:
        return [(Address("127.0.0.9", 2427), b"200 1 OK\r\n")]

    with World(Gateway(CONFIG), agent) as world:
        world.run(10)
        assert world.conversation[1:] == ["        1 127.0.0.9:2427 ! no gateway is there"]


def test_what_fails_is_told(pytester: pytest.Pytester) -> None:
    pytester.makepyfile(
        """
        def test_fails(gateway):
            gateway.phone(1, "off")
            gateway.expect(line=1, signal="L/dl", within=2000)
        """
    )
    result = pytester.runpytest("-p", "rgw.pytest_plugin")
    result.assert_outcomes(failed=1)
    result.stdout.fnmatch_lines(["*line 1 hasn't L/dl within 2000 ms*", "*127.0.0.2:2727 < RSIP 1 * RM: restart", "%%", "phone 1 off"])


def test_a_line_shows_no_raw_byte() -> None:
    lines = lines_of(b"NTFY 1 aaln/1@rgw.example.net MGCP 1.0\r\nX: \x1b" + b"a" * 99)
    assert shown(lines, "rgw.example.net") == "NTFY 1 aaln/1 X: \\x1b" + "a" * 60 + ".."


def test_a_step_has_the_bytes() -> None:
    at = Address("10.0.0.1", 2727)
    assert step_of(at, b"200 1 OK\n") == ["raw 10.0.0.1:2727 323030203120" + "4f4b0a"]
    assert step_of(at, b"") == ["from 10.0.0.1:2727", "--"]
