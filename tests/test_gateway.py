"""A gateway that serves: a call agent and telephones a step at a time, its end, its log, trace and capture, and a bad network."""
import re
import socket
import struct
import subprocess
import time
from pathlib import Path

import pytest
from running import TOP, Address, Bench, Program, client, command, free_ports, heard, ran


def audit(number: int, line: int = 1) -> bytes:
    """An audit of a line's hook."""
    return f"AUEP {number} aaln/{line}@rgw.example.net MGCP 1.0\r\nF: ES\r\n".encode()


def ask(bench: Bench, program: Program, text: bytes) -> bytes:
    """The answer to what the agent sends."""
    bench.agent.sendto(text, program.address)
    return heard(bench.agent)


def assert_plays_again(trace: Path) -> None:
    """A trace, played by rgw simulate, prints what was traced, and rgwd --replay finds the same."""
    lines = trace.read_bytes().splitlines(keepends=True)
    marks = (b"| ! not sent ", b"| ! lost on its way ", b"| ! broken off")
    told = [line[2:] for line in lines if line.startswith(b"| ") and not line.startswith(marks)]
    script = b"".join(line for line in lines if not line.startswith(b"| "))
    played = subprocess.run([*command("rgw"), "simulate"], input=script, capture_output=True)
    assert re.sub(rb"(?m)^> [0-9]+ ", b"> ", played.stdout) == b"".join(told) != b""
    assert ran([*command("rgwd"), "--replay", str(trace)]) == (0, f"{len(told):,} lines, all as told\n", "")


def test_talk(bench: Bench, tmp_path: Path) -> None:
    """What is notified is repeated until it is answered; a repeat gets the stored answer; rubbish gets none; and the trace plays again."""
    with open(tmp_path / "trace", "wb") as out:
        program = bench.gateway("--trace", out=out)
    assert ask(bench, program, audit(100)) == b"200 100 OK\r\nES: L/hu\r\n"
    request = b"RQNT 101 aaln/1@rgw.example.net MGCP 1.0\r\nX: 1\r\nR: L/hd(N)\r\nS: L/rg\r\n"
    assert ask(bench, program, request) == b"200 101 OK\r\n"
    assert re.fullmatch(r"line 1 on signals L/rg:\d+ connections - lost 0\n", program.tell("show 1\n"))
    assert program.tell("phone 1 off\n") == "done\n"
    first = heard(bench.agent)
    assert first.startswith(b"NTFY 10000000 aaln/1@") and b"\r\nO: L/hd\r\n" in first and heard(bench.agent) == first
    bench.agent.sendto(b"200 10000000 OK\r\n", program.address)
    program.send("phone 1 off\nphone 99 on\nphone 0 5\nshow 99\nhello\n\nphone 1 5\nshow 1")
    said = [heard(program.phone).decode() for _ in range(7)]
    assert said[:4] == ["! 5 PhoneState\n", *3 * ["! 4 NoSuchLine\n"]]
    assert said[4].startswith("? ") and said[5] == "done\n" and said[6].startswith("line 1 off signals - ")
    assert ask(bench, program, audit(100)) == b"200 100 OK\r\nES: L/hu\r\n"
    for rubbish in (b"", b"hello", b"\n", b"AUEP", b"\0" * 5000):
        bench.agent.sendto(rubbish, program.address)
    two = b"AUEP 102 aaln/2@rgw.example.net MGCP 1.0\r\n.\r\nAUEP 103 aaln/9@rgw.example.net MGCP 1.0\r\n"
    assert ask(bench, program, two).startswith(b"200 102 OK\r\n.\r\n500 103")
    assert program.stop()[2] == 0
    assert_plays_again(tmp_path / "trace")


@pytest.mark.live
def test_tone_ends_on_time(bench: Bench) -> None:
    """Within 30 ms."""
    program = bench.gateway()
    assert program.tell("phone 1 off\n") == "done\n" and heard(bench.agent).startswith(b"NTFY 10000000 ")
    bench.agent.sendto(b"200 10000000 OK\r\n", program.address)
    began = time.monotonic()
    assert ask(bench, program, b"RQNT 104 aaln/1@rgw.example.net MGCP 1.0\r\nX: 2\r\nR: L/oc(N)\r\nS: L/dl(to=2000)\r\n")[:8] == b"200 104 "
    assert b"O: L/oc" in heard(bench.agent) and abs(time.monotonic() - began - 2) < 0.03


def test_stop_is_answered_once_all_is_written(bench: Bench, tmp_path: Path) -> None:
    """Nothing is done or written after it."""
    trace, capture = tmp_path / "trace", tmp_path / "stopped.pcap"
    with open(trace, "wb") as out:
        program = bench.gateway("--trace", "--log", "--capture", str(capture), out=out)
    ask(bench, program, audit(100))
    assert program.tell("stop\nphone 2 off\nshow 2") == "done\n"
    written = trace.read_bytes(), capture.read_bytes(), program.logged()
    assert b"\nraw " in written[0] and b"phone 2" not in written[0] and "\nfaults receive 0 send 0\n" in written[2]
    assert program.wait() == 0
    assert (trace.read_bytes(), capture.read_bytes(), program.logged()) == written
    assert_plays_again(trace)


def test_tell_takes_the_answer_of_whom_it_asked() -> None:
    with client() as asked, client() as other:
        words = [*command("rgwd"), "--tell", "127.0.0.1:%d" % asked.getsockname()[1], "show", "1"]
        asker = subprocess.Popen(words, stdout=subprocess.PIPE)
        line, source = asked.recvfrom(65536)
        other.sendto(b"another\n", source)
        time.sleep(0.2)
        asked.sendto(b"an answer\n", source)
        assert (line, asker.communicate(timeout=20)[0]) == (b"show 1", b"an answer\n")


@pytest.mark.parametrize("words, line", [
    ("localhost|show 1", "--tell: no address a.b.c.d:port\n"),
    ("127.0.0.1:0|show 1", "--tell: no address a.b.c.d:port\n"),
    ("127.0.0.1:2428", "usage: rgwd CONFIG "),
    ("127.0.0.1:2428| ", "usage: rgwd CONFIG "),
], ids=["no port", "port 0", "no line", "blank line"])
def test_refused_words_of_tell(words: str, line: str) -> None:
    status, out, said = ran([*command("rgwd"), "--tell", *words.split("|")])
    assert (status, out) == (2, "") and said.startswith(line)


def test_line_of_an_answer_is_not_answered(bench: Bench) -> None:
    """So two programs that answer one another come to rest; what stands after such a line is answered."""
    program = bench.gateway()
    said = program.tell("done\n? phone LINE\n! 4 NoSuchLine\nline 1 on\ndatagrams in 1\nlost events 0\ncounts\nshow 1")
    assert said.startswith("datagrams in ") and heard(program.phone).startswith(b"line 1 on ")
    agent = bench.start([*command("rgca"), bench.agent_config(9), "--listen", "127.0.0.1:0", "--control", "127.0.0.1:0"])
    said = agent.tell("done\n? VERB NAME\n! 3 BadCommand\nissued 5\nline 1 on\ncalls 0\nnetwork lost 0\ncounts\n")
    assert said.startswith("calls 0 set up 0 ") and heard(agent.phone, 0.3) == b""


def own_address() -> str:
    """An address of this machine that isn't of the loopback."""
    with socket.socket(socket.AF_INET, socket.SOCK_DGRAM) as by:
        try:
            # (nothing is sent)
            by.connect(("192.0.2.1", 9))
        except OSError:
            pytest.skip("this machine has no address but the loopback's")
        return str(by.getsockname()[0])


@pytest.mark.parametrize("words, answer", [
    ([], "! the telephones are for a loopback address alone"),
    (["--phones-open"], "! stop is taken from a loopback address alone, 127.0.0.0/8\n"),
], ids=["closed", "open"])
def test_stop_is_taken_from_the_loopback_alone(bench: Bench, words: list[str], answer: str) -> None:
    """Telephones at 0.0.0.0 that aren't open answer somebody else once, and do nothing."""
    address, port = own_address(), free_ports(1)[0]
    words = [*command("rgwd"), bench.config(), "--listen", "127.0.0.1:0", "--phones", f"0.0.0.0:{port}", "--first", "0", *words]
    program = bench.answered(bench.start(words))
    with client(address) as afar:
        afar.sendto(b"stop\nshow 1\n", (address, port))
        assert heard(afar).decode().startswith(answer)
        assert heard(afar, 0.3)[:10] == (b"line 1 on " if "--phones-open" in words else b"")
    assert program.process.poll() is None
    program.phone.sendto(b"stop\n", ("127.0.0.1", port))
    assert program.wait() == 0


def packets_in(path: Path) -> list[tuple[Address, Address, bytes]]:
    """The datagrams of a capture: from where, to where, and their bytes; each has a header whose checksum is right, and its time."""
    whole, found, at = path.read_bytes(), [], 24
    magic, _, _, _, _, _, link = struct.unpack(">IHHIIII", whole[:24])
    assert (magic, link) == (0xA1B2C3D4, 101)
    while at < len(whole):
        seconds, _, length, _ = struct.unpack(">IIII", whole[at:at + 16])
        packet = whole[at + 16:at + 16 + length]
        total = sum(struct.unpack(">10H", packet[:20]))
        while total >> 16:
            total = (total & 0xFFFF) + (total >> 16)
        assert total == 0xFFFF and abs(seconds - time.time()) < 600
        sender, receiver, source, target = struct.unpack(">4s4sHH", packet[12:24])
        found.append(((socket.inet_ntoa(sender), source), (socket.inet_ntoa(receiver), target), packet[28:]))
        at += 16 + length
    return found


def test_log_and_capture(bench: Bench, tmp_path: Path) -> None:
    """The log has each message as a line, and the capture what went over the network."""
    capture = tmp_path / "calls.pcap"
    program = bench.gateway("--log", "--capture", str(capture))
    for _ in range(2):
        ask(bench, program, audit(100))
    ask(bench, program, b"RQNT 101 aaln/1@rgw.example.net MGCP 1.0\r\nX: 1\r\nR: Z/hd(N)\r\n")
    bench.agent.sendto(b"\x1b[31m", program.address)
    ask(bench, program, audit(102))
    assert program.stop()[2] == 0
    peer = "127.0.0.1:%d" % bench.agent.getsockname()[1]
    wanted = [
        r"< RSIP 1 \* RM: restart", r"> 200 1 OK \+\d+ ms", "> AUEP 100 aaln/1 F: ES", r"< 200 100 OK ES: L/hu \+\d+ ms",
        "> AUEP 100 aaln/1 F: ES", "! repeat of 100, answered again", r"> RQNT 101 aaln/1 X: 1 R: Z/hd\(N\)",
        r"< 518 101 \+\d+ ms", "! refused 101: 518 unsupported or unknown package: value of parameter R", "! no message",
        "> AUEP 102 aaln/1 F: ES", r"< 200 102 OK ES: L/hu \+\d+ ms",
    ]
    lines = re.findall(r"(?m)^\d{4}-\d\d-\d\dT\d\d:\d\d:\d\d\.\d{3}Z (.*)$", program.logged())
    assert len(lines) == len(wanted)
    for line, form in zip(lines, wanted):
        assert line.startswith(f"{peer} ") and re.fullmatch(form, line.removeprefix(f"{peer} "))
    packets, agent = packets_in(capture), ("127.0.0.1", bench.agent.getsockname()[1])
    came = [it[2] for it in packets if it[:2] == (agent, program.address)]
    went = [it[2] for it in packets if it[:2] == (program.address, agent)]
    assert (len(came), len(went), len(packets)) == (6, 5, 11)
    assert went[0].startswith(b"RSIP 1 ") and came[4] == b"\x1b[31m"


def test_capture_of_a_socket_at_any_address(bench: Bench, tmp_path: Path) -> None:
    """It has media_address there."""
    capture, port = tmp_path / "calls.pcap", free_ports(1)[0]
    words = ["--listen", f"0.0.0.0:{port}", "--phones", "127.0.0.1:0", "--first", "0", "--capture", str(capture)]
    program = bench.start([*command("rgwd"), bench.config(), *words])
    assert heard(bench.agent)
    program.phone.sendto(b"stop\n", program.addresses[0])
    assert program.wait() == 0
    assert packets_in(capture)[0][0] == ("127.0.0.1", port)


def test_agent_with_two_addresses(bench: Bench, tmp_path: Path) -> None:
    """The third send goes to the second one, and what is answered from there is acknowledged there."""
    path = Path(bench.config())
    hosts = '[names]\n"ca.example.net" = ["127.0.0.1", "127.0.0.2"]'
    path.write_text(path.read_text().replace("ca@[127.0.0.1]:", "ca@ca.example.net:").replace("names = {}", hosts))
    program = bench.start([*command("rgwd"), str(path), "--listen", "127.0.0.1:0", "--phones", "127.0.0.1:0", "--first", "0"])
    with socket.socket(socket.AF_INET, socket.SOCK_DGRAM) as second:
        second.bind(("127.0.0.2", bench.agent.getsockname()[1]))
        assert heard(bench.agent).startswith(b"RSIP 1 ")
        second.sendto(b"200 1 OK\r\n", program.address)
        assert program.tell("phone 1 off\n") == "done\n"
        first = heard(bench.agent)
        assert first.startswith(b"NTFY ") and heard(bench.agent) == first == heard(second, 10)
        second.sendto(b"200 10000000 OK\r\nK:\r\n", program.address)
        assert heard(second, 10) == b"000 10000000\r\n"


def test_trace_of_a_start(bench: Bench, tmp_path: Path) -> None:
    """It has the number with which ids begin, and what wasn't sent, as where nobody may be reached; and it replays."""
    trace, path = tmp_path / "trace", Path(bench.config())
    path.write_text(path.read_text().replace("ca@[127.0.0.1]", "ca@[192.0.2.1]").replace("restart_wait = 10", "restart_wait = 200"))
    words = ["--listen", "127.0.0.1:0", "--phones", "127.0.0.1:0", "--first", "9999998", "--trace", "--stop-after", "300"]
    status, out, _ = ran([*command("rgwd"), str(path), *words])
    assert status == 0
    form = r"\| first 9999998\nat 2\d\d\n\| > 192\.0\.2\.1:\d+\n\| RSIP 9999999 \*@.*\n\| RM: restart\n\| --\n\| ! not sent 1\n"
    assert re.match(form, out.partition("\n%%\n")[2])
    trace.write_text(out)
    assert ran([*command("rgwd"), "--replay", str(trace)]) == (0, "4 lines, all as told\n", "")


def test_bad_network(bench: Bench, tmp_path: Path) -> None:
    """Over one that loses, copies and delays, commands that are repeated are answered; the log notes what it did; the trace plays again."""
    with open(tmp_path / "trace", "wb") as out:
        words = bench.gateway_words("--log", "--trace", "--network", "lose 30%, copy 20%, late 0-300, seed 7")
        program = bench.start(words, out=out)
    waiting, over = set(range(200, 220)), time.monotonic() + 120
    while waiting and time.monotonic() < over:
        for number in waiting:
            bench.agent.sendto(audit(number), program.address)
        while said := heard(bench.agent, 0.4):
            if said.startswith(b"200 "):
                waiting.discard(int(said.split()[1]))
    assert not waiting
    assert program.tell("stop\n") == "done\n" and program.wait() == 0
    lost, late, copied = (program.logged().count(f" ! {note}") for note in ("lost on its way", "late by", "copied, late by"))
    assert min(lost, late, copied) > 0
    assert_plays_again(tmp_path / "trace")
    assert 0 < len(re.findall(r"(?m)^\| ! lost on its way [1-9]\d*$", (tmp_path / "trace").read_text())) <= lost


def test_network_that_is_too_late(bench: Bench) -> None:
    status, _, said = ran([*command("rgwd"), bench.config(), "--network", "late 0-10001"])
    assert status == 2 and said.startswith("--network: late: ")


@pytest.mark.parametrize("network, wanted", [
    ("lose 10", "lose: 0% to 100%, once for each direction"),
    ("lose 1%, out lose 2%", "lose: 0% to 100%, once for each direction"),
    ("in late 2-1", "late: LEAST-MOST in ms, 10000 at most, once for each direction"),
    ("out", "lose N%, copy N%, late LEAST-MOST, seed N, or one of these after in or out"),
    ("in drop 1%", "lose N%, copy N%, late LEAST-MOST, seed N, or one of these after in or out"),
])
def test_network_that_cant_be(bench: Bench, network: str, wanted: str) -> None:
    assert ran([*command("rgwd"), bench.config(), "--network", network]) == (2, "", f"--network: {wanted}\n")


def test_systemd_takes_the_unit(tmp_path: Path) -> None:
    text = (TOP / "examples/rgwd.service").read_text()
    # (the page of the manual isn't installed here)
    text = text.replace("/usr/local/sbin/rgwd", command("rgwd")[0]).replace("Documentation=man:rgwd(8)\n", "")
    (tmp_path / "rgwd.service").write_text(text)
    try:
        assert ran(["systemd-analyze", "verify", f"{tmp_path}/rgwd.service"]) == (0, "", "")
    except FileNotFoundError:
        pytest.skip("systemd-analyze isn't installed")
