"""What a signal does to rgwd and rgca: no scenario in memory has a process that could get one."""
import os
import re
import resource
import shlex
import shutil
import signal
import subprocess
import threading
import time
from pathlib import Path

import pytest
from running import LONG, TOP, Bench, Program, client, command, free_ports, heard, hears_signals, launcher, link, ran, until

OTHERS = (signal.SIGPIPE, signal.SIGXFSZ, signal.SIGUSR1, signal.SIGUSR2, signal.SIGALRM)


def is_ordered(status: int | None, said: str) -> bool:
    """Whether a program ended in order: with status 0, and its counts."""
    return status == 0 and re.search(r"(?m)^datagrams in \d+ .*\d$", said) is not None


def serves(program: Program) -> bool:
    """Whether a gateway still answers its telephones."""
    return program.tell("show 1\n").startswith("line 1 on ")


def moment(program: Program) -> int:
    """The moment to which a gateway has come, in ms of its clock. A trace isn't told that somebody asked."""
    return int(program.tell("watch 1\n").rpartition(" ")[2])


def test_sigterm_leaves_whole_records(bench: Bench, tmp_path: Path) -> None:
    """SIGTERM ends rgwd in order: its trace replays, and ends with the moment to which its gateway has come; its capture has what was sent.

    A trace ends with a moment only where that is later than its last entry. So `show 1` is the last entry, typed after the gateway has
    counted its response, and the gateway's clock goes on before the signal. That comes while nothing else is to be heard.
    """
    trace, capture = tmp_path / "trace", tmp_path / "capture"
    with open(trace, "wb") as out:
        program = bench.launched("--trace", "--capture", str(capture), out=out)
    assert until(lambda: "\nresponses 1 " in program.tell("counts\n"))
    assert serves(program)
    shown = moment(program)
    assert until(lambda: moment(program) > shown) and until(program.is_asleep)
    assert is_ordered(*program.ended_by(signal.SIGTERM))
    status, out_of_it, _ = ran([*command("rgwd"), "--replay", str(trace)])
    assert status == 0 and out_of_it.endswith(" lines, all as told\n")
    end = re.search(r"\nshow 1\n\| line 1 on .*\nat (\d+)\n$", trace.read_text())
    assert end and int(end[1]) > shown and b"RSIP 1 " in capture.read_bytes()


def test_sigint_ends_rgwd(bench: Bench) -> None:
    assert is_ordered(*bench.launched().ended_by(signal.SIGINT))


def test_sighup_ends_rgwd_at_a_terminal(bench: Bench) -> None:
    program = bench.launched(terminal=True)
    assert serves(program) and is_ordered(*program.ended_by(signal.SIGHUP))


def test_sigterm_amid_a_flood(bench: Bench) -> None:
    """It ends in order though datagrams come to both sockets all the while."""
    program = bench.launched()
    over = threading.Event()

    def flood() -> None:
        while not over.is_set():
            for address in program.addresses[:2]:
                bench.agent.sendto(b"AUEP 7 aaln/1@rgw.example.net MGCP 1.0\r\n", address)

    flooding = threading.Thread(target=flood)
    flooding.start()
    time.sleep(0.3)
    ended = program.ended_by(signal.SIGTERM)
    over.set()
    flooding.join()
    assert is_ordered(*ended)


def spread(bench: Bench, longest: int, least: int, *words: str) -> tuple[float, float, Program]:
    """When a start began that waits for more than `least` of `longest` ms, how many s it waits, and its program."""
    for _ in range(20):
        began = time.monotonic()
        asked = [launcher(), *bench.gateway_words("--spread", str(longest), *words)]
        program = bench.start(asked, preexec_fn=hears_signals())
        found = re.search(r" first 0 waits (\d+) ms\n", program.start)
        assert found, program.start
        if int(found[1]) > least:
            return began, int(found[1]) / 1000, program
        program.close()
    raise AssertionError(f"no start waits for more than {least} ms")


def test_sigterm_ends_a_wait(bench: Bench) -> None:
    """It ends in order while --spread waits."""
    _, _, program = spread(bench, 600000, 30000)
    time.sleep(0.1)
    assert is_ordered(*program.ended_by(signal.SIGTERM))


def test_spread_waits_as_long_where_no_signal_comes(bench: Bench) -> None:
    began, waits, program = spread(bench, 2000, 1000, "--stop-after", "0")
    assert program.wait() == 0 and time.monotonic() - began >= waits


def test_sigterm_where_a_stream_takes_nothing(bench: Bench) -> None:
    """It ends a second later."""
    reader, writer = os.pipe()
    program = bench.launched("--trace", out=writer)
    os.close(writer)
    for _ in range(2000):
        program.tell("show 1\n")
    began = time.monotonic()
    status, _ = program.ended_by(signal.SIGTERM)
    took = time.monotonic() - began
    os.close(reader)
    assert status is not None and 0.9 < took < LONG


def test_signals_that_end_nothing(bench: Bench) -> None:
    """SIGPIPE, SIGXFSZ, SIGUSR1, SIGUSR2 and SIGALRM don't end rgwd, nor does SIGHUP without a terminal."""
    program = bench.launched()
    for number in (*OTHERS, signal.SIGHUP):
        program.process.send_signal(number)
        assert serves(program), number
    assert is_ordered(*program.ended_by(signal.SIGTERM))


def ignore_two() -> None:
    """As nohup does, and a shell for what runs in the background."""
    for number in (signal.SIGHUP, signal.SIGINT):
        signal.signal(number, signal.SIG_IGN)


def test_ignored_signals_stay_ignored(bench: Bench) -> None:
    program = bench.launched(before=ignore_two, terminal=True)
    program.process.send_signal(signal.SIGHUP)
    program.process.send_signal(signal.SIGINT)
    assert serves(program)


def test_file_that_may_not_grow(bench: Bench, tmp_path: Path) -> None:
    """As by `ulimit -f`: it is a write fault, which is logged, and the gateway serves on."""
    limited = tmp_path / "limited"
    program = bench.launched("--capture", str(limited), before=lambda: resource.setrlimit(resource.RLIMIT_FSIZE, (4096, 4096)),
                             out=subprocess.DEVNULL)
    for _ in range(100):
        assert bench.audit(program)
    assert serves(program)
    _, said, status = program.stop()
    assert status == 3 and said.startswith(f"{limited}: write fault\n")


def test_sigterm_without_standard_streams(bench: Bench) -> None:
    """The null device is held in their place, and the launcher's descriptor is 3."""
    listen, phones = (f"127.0.0.1:{port}" for port in free_ports(2))
    words = [*command("rgwd"), bench.config(), "--listen", listen, "--phones", phones, "--first", "0"]
    program = subprocess.Popen([launcher(), *words], preexec_fn=lambda: os.closerange(0, 3))
    try:
        assert heard(bench.agent)
        held = [link(f"/proc/{program.pid}/fd/{number}") for number in range(4)]
        assert held == ["/dev/null"] * 3 + ["anon_inode:[signalfd]"]
        program.send_signal(signal.SIGTERM)
        assert program.wait(LONG) == 0
    finally:
        program.kill()


def test_without_the_launcher(bench: Bench) -> None:
    """What else is open at descriptor 3 is left alone, and SIGTERM ends rgwd at once, without counts."""
    with open("/dev/null") as file:
        program = bench.gateway(preexec_fn=lambda: os.dup2(os.dup(file.fileno()), 3), close_fds=False)
    assert serves(program)
    assert program.ended_by(signal.SIGTERM) == (-signal.SIGTERM, "")


def test_sigterm_ends_tell_at_once() -> None:
    with client() as silent:
        words = [launcher(), *command("rgwd"), "--tell", "127.0.0.1:%d" % silent.getsockname()[1], "show 1"]
        program = subprocess.Popen(words, stderr=subprocess.DEVNULL, preexec_fn=hears_signals())
        silent.recv(100)
        program.send_signal(signal.SIGTERM)
        assert program.wait(LONG) == -signal.SIGTERM


def test_launcher_under_a_programs_name(tmp_path: Path) -> None:
    """Installed as sbin/rgwd it starts libexec/rgw/rgwd, also through a link."""
    into = tmp_path / "a prefix"
    (into / "sbin").mkdir(parents=True)
    (into / "libexec/rgw").mkdir(parents=True)
    shutil.copy(launcher(), into / "sbin/rgwd")
    (into / "libexec/rgw/rgwd").write_text(f'#!/bin/sh\nexec {shlex.join(command("rgwd"))} "$@"\n')
    (into / "libexec/rgw/rgwd").chmod(0o755)
    (tmp_path / "link").symlink_to(into / "sbin/rgwd")
    assert [ran([str(it), "--version"])[1][:5] for it in (into / "sbin/rgwd", tmp_path / "link")] == ["rgwd "] * 2


def test_sigterm_to_process_1(bench: Bench) -> None:
    """As in a container: there rgwd is process 1."""
    apart = ["unshare", "--pid", "--fork", "--kill-child", "--mount-proc"]
    if os.geteuid() != 0:
        apart[1:1] = ["--user", "--map-root-user"]
    if not shutil.which("unshare") or ran([*apart, "true"])[0] != 0:
        pytest.skip("the system gives no namespace for processes")
    program = bench.answered(bench.start([*apart, launcher(), *bench.gateway_words()], preexec_fn=hears_signals()))
    own = int(Path(f"/proc/{program.process.pid}/task/{program.process.pid}/children").read_text().split()[0])
    assert re.search(r"(?m)^NSpid:.*\s1$", Path(f"/proc/{own}/status").read_text())
    os.kill(own, signal.SIGTERM)
    status = program.wait()
    assert is_ordered(status, program.said())


@pytest.mark.parametrize("number", [signal.SIGTERM, signal.SIGINT], ids=["SIGTERM", "SIGINT"])
def test_signals_of_rgca(bench: Bench, number: signal.Signals) -> None:
    """SIGTERM and SIGINT end rgca in order, with its counts, and others don't."""
    words = [*command("rgca"), bench.agent_config(9), "--listen", "127.0.0.1:0", "--control", "127.0.0.1:0", "--route"]
    program = bench.start([launcher(), *words], preexec_fn=hears_signals())
    for other in (signal.SIGHUP, *OTHERS):
        program.process.send_signal(other)
    assert "datagrams in" in program.tell("counts\n")
    assert is_ordered(*program.ended_by(number))


def test_unit_for_systemd(bench: Bench) -> None:
    """What it starts ends in order by the signal that systemd sends."""
    text = (TOP / "examples/rgwd.service").read_text()
    found = re.search(r"(?m)^ExecStart=\S+/rgwd (.+)$", text)
    assert found and "ExecStop" not in text
    listen, phones = (f"127.0.0.1:{port}" for port in free_ports(2))
    words = found[1].replace("/etc/rgw/gateway.toml", bench.config()).replace("0.0.0.0:2427", listen).split()
    program = bench.start([launcher(), *command("rgwd"), *words, "--phones", phones], preexec_fn=hears_signals())
    status, said = program.ended_by(signal.SIGTERM)
    assert is_ordered(status, said) and re.match(r"datagrams in 0 out \d+\n", said) and said.count("\n") == 10
