"""The words and the records of rgca."""
import time
from pathlib import Path

import pytest
from running import Bench, Program, command, free_ports, heard, ran, until

FREE = ["--listen", "127.0.0.1:0", "--control", "127.0.0.1:0"]


@pytest.fixture
def agent(bench: Bench, tmp_path: Path) -> Program:
    """A call agent that logs, and captures into agent.pcap; its gateway is the test's own socket."""
    listen, control = (f"127.0.0.1:{port}" for port in free_ports(2))
    config = bench.agent_config(bench.agent.getsockname()[1])
    words = ["--listen", listen, "--control", control, "--route", "--log", "--capture", f"{tmp_path}/agent.pcap"]
    return bench.start([*command("rgca"), config, *words])


def test_sockets_as_asked(agent: Program) -> None:
    """The sockets are where the words ask, and the first line prints them."""
    listen, control = (agent.words[agent.words.index(word) + 1] for word in ("--listen", "--control"))
    assert agent.start == f"listen {listen} control {control}\n"
    assert agent.tell("counts\n").startswith("calls 0 set up 0 ")


def test_socket_in_use(agent: Program, bench: Bench) -> None:
    """A socket that another program has ends rgca with status 3."""
    control = "%s:%d" % agent.addresses[1]
    ended = ran([*command("rgca"), f"{bench.folder}/agent.toml", "--listen", "127.0.0.1:0", "--control", control])
    assert ended == (3, "", f"--control {control}: no socket: address in use\n")


def test_records(agent: Program, bench: Bench, tmp_path: Path) -> None:
    """What rgca prints goes to standard output, its log to standard error, and its capture into the file that is named."""
    bench.agent.sendto(b"NTFY 1 aaln/1@gw1.example.net MGCP 1.0\r\nX: 1\r\nO: D/1\r\n", agent.address)
    assert until(lambda: "> NTFY 1 " in agent.logged())
    out, said, _ = agent.stop()
    assert out.endswith("notify aaln/1@gw1.example.net D/1\n")
    assert "Z 127.0.0.1:%d > NTFY 1 aaln/1@gw1.example.net X: 1 O: D/1\n" % bench.agent.getsockname()[1] in said
    assert (tmp_path / "agent.pcap").stat().st_size > 24


def test_network_loses_what_rgca_sends(bench: Bench) -> None:
    program = bench.start([*command("rgca"), bench.agent_config(bench.agent.getsockname()[1]), *FREE, "--network", "lose 100%"])
    assert program.tell("AUEP aaln/1@gw1.example.net\n").startswith("issued ")
    assert "\nnetwork lost 1 copied 0 late 0\n" in program.tell("counts\n")
    assert heard(bench.agent, 0.2) == b""


def test_stop_after(bench: Bench) -> None:
    """--stop-after ends rgca at that moment of its clock; it prints its counts then."""
    began = time.monotonic()
    status, _, said = ran([*command("rgca"), bench.agent_config(9), *FREE, "--stop-after", "300"])
    assert status == 0 and 0.3 <= time.monotonic() - began < 10
    assert said.count("\ncalls 0 set up 0 ") == 1


def test_routing_wants_a_digit_map(bench: Bench) -> None:
    """Without --route there is no need of one."""
    path = Path(bench.agent_config(9))
    path.write_text(path.read_text().replace('digit_map = "(2xx|0)"\n', ""))
    words = [*command("rgca"), str(path), *FREE, "--stop-after", "0"]
    assert ran([*words, "--route"]) == (2, "", f"{path}: missing: digit_map\n")
    assert ran(words)[0] == 0


@pytest.mark.parametrize("words", ["check --help", "phones a.phones", "load agent.toml --rate 1"])
def test_words_that_went(words: str) -> None:
    """rgca says of check, phones and load which program does that now."""
    status, out, said = ran([*command("rgca"), *words.split()])
    assert (status, out) == (2, "") and said.startswith(f"rgca {words.split()[0]} is now ")
