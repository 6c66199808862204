"""The words of rgwd, and what --tell, --help and --version print."""
import re
import signal
import subprocess
import time
from collections.abc import Callable
from pathlib import Path

import pytest
from running import LONG, Bench, client, command, free_ports, heard, ran, until


@pytest.mark.parametrize("name", ["rgwd", "rgca"])
def test_missing_configuration(tmp_path: Path, name: str) -> None:
    """A configuration that can't be read ends a program with status 3."""
    path = f"{tmp_path}/none.toml"
    assert ran([*command(name), path]) == (3, "", f"{path}: read fault: no such file or directory\n")


def is_help(name: str, status: int | None, out: str, said: str) -> bool:
    """Whether a program printed its usage, and nothing else."""
    return (status, said) == (0, "") and out.startswith(f"usage: {name} CONFIG ") and out.endswith(".\n")


@pytest.mark.parametrize("words", ["rgwd --help", "rgwd --replay -h", "rgca --help"], ids=["rgwd", "replay", "rgca"])
def test_help(words: str) -> None:
    """The usage goes to standard output."""
    name, *rest = words.split()
    ended = ran([*command(name), *rest])
    assert is_help(name, *ended), ended


@pytest.mark.parametrize("name", ["rgwd", "rgca"])
def test_version(name: str) -> None:
    assert ran([*command(name), "--version"]) == (0, f"{name} 1.0\nMGCP 1.0 (RFC 3435)\n", "")


@pytest.mark.parametrize("count", [0, 2])
def test_replay_wants_one_file(tmp_path: Path, count: int) -> None:
    status, out, said = ran([*command("rgwd"), "--replay", *count * [f"{tmp_path}/none"]])
    assert (status, out, said[:19]) == (2, "", "usage: rgwd CONFIG ")


@pytest.mark.parametrize("words", [[], ["--replay"]], ids=["configuration", "trace"])
def test_folder_in_place_of_a_file(tmp_path: Path, words: list[str]) -> None:
    """A folder is opened, but can't be read."""
    assert ran([*command("rgwd"), *words, str(tmp_path)]) == (3, "", f"{tmp_path}: read fault: is a directory\n")


def test_missing_trace(tmp_path: Path) -> None:
    path = f"{tmp_path}/none"
    assert ran([*command("rgwd"), "--replay", path]) == (3, "", f"{path}: read fault: no such file or directory\n")


def test_check_prints_the_gateway(bench: Bench) -> None:
    status, out, said = ran([*command("rgwd"), bench.config(), "--check"])
    assert (status, said) == (0, "") and out.startswith("domain: rgw.example.net\n")
    assert out.endswith("\nsockets: --listen 127.0.0.1:2427 --phones 127.0.0.1:2428\n")


AGENTS = "--agents: wanted any, or addresses, as 10.0.0.7,10.1.0.0/16, of which the first 16 bits count\n"


@pytest.mark.parametrize("words, line", [
    ("--agents 10.0.0.07", AGENTS),
    ("--agents 10.0.0.7/33", AGENTS),
    ("--http-host rgw:80", "--http-host: wanted names, as rgw.example.net,10.0.0.5, without a port\n"),
    ("--capture-size 1", "--capture-size: wanted 1 to 100000 MB, beside --capture\n"),
    ("--capture none.pcap --capture-files 3", "--capture-files: wanted 1 to 10000, beside --capture-size\n"),
    ("--first 9999999", "--first: wanted a number, 0 to 9999998\n"),
    ("--spread 600001", "--spread: wanted 0 to 600000 ms\n"),
], ids=["zero", "prefix", "port", "size alone", "files alone", "first", "spread"])
def test_refused_words(bench: Bench, words: str, line: str) -> None:
    """A value that a word doesn't take ends rgwd with status 2, and a line says what it takes."""
    status, _, said = ran([*command("rgwd"), bench.config(), *words.split()])
    assert (status, said) == (2, line)


def test_sockets_as_asked(bench: Bench) -> None:
    """The sockets are where the words ask, and the first line prints them."""
    listen, phones = (f"127.0.0.1:{port}" for port in free_ports(2))
    program = bench.start([*command("rgwd"), bench.config(), "--listen", listen, "--phones", phones, "--first", "7"])
    assert program.start == f"listen {listen} phones {phones} first 7\n"
    assert program.tell("show 1\n").startswith("line 1 on ")


def test_page_is_in_the_first_line(bench: Bench) -> None:
    form = r"listen 127\.0\.0\.1:\d+ phones 127\.0\.0\.1:\d+ http 127\.0\.0\.1:\d+ first 0\n"
    assert re.fullmatch(form, bench.gateway("--http", "127.0.0.1:0").start)


@pytest.mark.parametrize("word", ["--listen", "--phones"])
def test_socket_in_use(bench: Bench, word: str) -> None:
    """A socket that another program has ends rgwd with status 3."""
    at = "%s:%d" % bench.gateway().addresses[word == "--phones"]
    free = {"--listen": "127.0.0.1:0", "--phones": "127.0.0.1:0", word: at}
    words = [it for pair in free.items() for it in pair]
    assert ran([*command("rgwd"), bench.config(), *words]) == (3, "", f"{word} {at}: no socket: address in use\n")


def told(bench: Bench, *words: str) -> tuple[int | None, str, str]:
    """How rgwd --tell ends, at the telephones of a gateway."""
    return ran([*command("rgwd"), "--tell", "%s:%d" % bench.gateway().addresses[1], *words])


def test_tell_prints_the_answer(bench: Bench) -> None:
    status, out, said = told(bench, "show", "2")
    assert (status, said) == (0, "") and out.startswith("line 2 on ")


@pytest.mark.parametrize("line, answer", [("phone 1 on", "! 5 PhoneState\n"), ("hello", "? phone LINE ")], ids=["act", "word"])
def test_tell_of_a_refused_line(bench: Bench, line: str, answer: str) -> None:
    """A line that the telephones refuse ends --tell with status 1."""
    status, out, said = told(bench, *line.split())
    assert (status, said) == (1, "") and out.startswith(answer)


def test_tell_takes_localhost(bench: Bench) -> None:
    """localhost is 127.0.0.1, and show without a line shows all."""
    port = bench.gateway().addresses[1][1]
    status, out, _ = ran([*command("rgwd"), "--tell", f"localhost:{port}", "show"])
    assert status == 0 and [line.split()[1] for line in out.splitlines()] == ["1", "2"]


def nothing(asker: subprocess.Popen[bytes]) -> None:
    """Nothing is done to a program."""


def stopped(asker: subprocess.Popen[bytes]) -> None:
    """Stops a program that waits, and lets it go on."""

    def is_in(state: str) -> bool:
        return Path(f"/proc/{asker.pid}/stat").read_text().rpartition(")")[2].split()[0] == state

    assert until(lambda: is_in("S"))
    asker.send_signal(signal.SIGSTOP)
    assert until(lambda: is_in("T"))
    asker.send_signal(signal.SIGCONT)


def answered(answer: bytes, before: Callable[[subprocess.Popen[bytes]], None] = nothing) -> tuple[int, bytes, bytes]:
    """How rgwd --tell ends where the telephones answer this within a second; before they do, this is done to it."""
    for _ in range(10):
        with client() as phones:
            words = [*command("rgwd"), "--tell", "127.0.0.1:%d" % phones.getsockname()[1], "show"]
            asker = subprocess.Popen(words, stdout=subprocess.PIPE, stderr=subprocess.PIPE)
            source = phones.recvfrom(65536)[1]
            began = time.monotonic()
            before(asker)
            phones.sendto(answer, source)
            took = time.monotonic() - began
            out, said = asker.communicate(timeout=12 * LONG)
        if took < 1:
            return asker.returncode, out, said
    raise AssertionError("this machine takes longer for an answer")


def test_tell_escapes_control_bytes() -> None:
    """--tell prints no byte that a terminal acts on."""
    ended = answered(b"line 1 \x1b]0;mine\x07 on\r\nline 2 on\n")
    assert ended == (0, b"line 1 \\x1b]0;mine\\x07 on\\x0d\nline 2 on\n", b"")


def test_tell_prints_96_lines() -> None:
    shown = b"".join(b"line %d on signals - connections - lost 0\n" % line for line in range(1, 97))
    assert answered(shown) == (0, shown, b"")


def test_tell_that_is_stopped_meanwhile() -> None:
    """A stop while it waits, as by a shell, isn't the end of its wait."""
    assert answered(b"line 1 on\n", stopped) == (0, b"line 1 on\n", b"")


@pytest.mark.parametrize("line", [[], [""], [" "]], ids=["none", "empty", "blank"])
def test_tell_without_a_line(line: list[str]) -> None:
    status, out, said = ran([*command("rgwd"), "--tell", "127.0.0.1:9", *line])
    assert (status, out, said[:19]) == (2, "", "usage: rgwd CONFIG ")


def test_tell_that_cant_be_sent() -> None:
    """No datagram goes to all hosts of a network; --tell prints why."""
    status, out, said = ran([*command("rgwd"), "--tell", "255.255.255.255:9", "show"])
    assert (status, out) == (3, "") and said.startswith("--tell 255.255.255.255:9: no socket: ")


def test_tell_without_an_answer() -> None:
    with client() as silent:
        nobody = "127.0.0.1:%d" % silent.getsockname()[1]
        ended = ran([*command("rgwd"), "--tell", nobody, "show", "2"])
    assert ended == (1, "", f"{nobody}: no answer; does a gateway run, with its telephones (--phones) at this address?\n")


def test_network_loses_what_rgwd_sends(bench: Bench) -> None:
    program = bench.start(bench.gateway_words("--network", "lose 100%"))
    assert until(lambda: program.tell("counts\n").startswith("datagrams in 0 out 1\n"))
    assert heard(bench.agent, 0.2) == b""


def test_network_loses_what_comes_alone(bench: Bench) -> None:
    """With `in` before it a part is of what comes: the announcement goes out, and an audit isn't answered."""
    program = bench.start(bench.gateway_words("--log", "--network", "in lose 100%"))
    assert heard(bench.agent, 2).startswith(b"RSIP ")
    bench.agent.sendto(b"AUEP 7 aaln/1@rgw.example.net MGCP 1.0\r\n", program.address)
    assert until(lambda: " ! lost on its way" in program.logged())
    assert not heard(bench.agent, 0.2).startswith(b"200 7")


@pytest.mark.parametrize("words, is_heard", [([], False), (["--agents", "127.0.0.0/8"], True)], ids=["stranger", "admitted"])
def test_who_may_speak(bench: Bench, words: list[str], is_heard: bool) -> None:
    """rgwd answers its agent's hosts alone, and whom --agents admits."""
    program = bench.gateway(*words)
    with client("127.0.0.3") as other:
        other.sendto(b"AUEP 7 aaln/1@rgw.example.net MGCP 1.0\r\n", program.address)
        # (what comes behind it is answered: by then it was heard, or not)
        assert bench.audit(program, 8).startswith(b"200 8 ")
        assert heard(other, 2 if is_heard else 0.1)[:4] == (b"200 " if is_heard else b"")
