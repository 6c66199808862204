"""Nobody reads what rgwd and rgca write, in each way: they answer all the while, count what became of it, and end in order.

The log, the trace, and what rgca prints and logs go into a pipe, a terminal and a socket that nobody reads, a pipe whose reader has left,
the full device, the null device and a file, and to nobody, where the program is started without that stream.
"""
import os
import pty
import re
import select
import signal
import socket
import subprocess
import termios
import threading
import time
import urllib.request
from collections.abc import Callable, Iterator
from pathlib import Path

import pytest
from running import FREE, LONG, Bench, Program, command, free_ports, heard, ran

pytestmark = pytest.mark.live
# How late an answer may be, in s, on a machine that does other things too.
LATE = float(os.environ.get("LATE", "0.25"))
# So many bytes of what isn't taken are kept.
KEPT = 1048576
# A response to nothing: all its lines are logged.
LONG_RESPONSE = b"200 999999999 OK\r\n" + 60 * (b"X-A: " + 55 * b"1" + b"\r\n")
# What a line notifies at once: all of it is printed.
MANY_EVENTS = ",".join(900 * ["D/1"])
# So often that leaves more than is kept, and so often it doesn't.
MANY, FEW = 400, 30
HELD = ("pipe", "terminal", "socket")
FAILED = ("left", "full")
KINDS = (*HELD, *FAILED, "null", "file", "closed")
STREAMS = {1: "standard output", 2: "standard error"}


class Sink:
    """Where a stream goes that nobody reads."""

    def __init__(self, kind: str, folder: Path):
        self.kind, self.path = kind, folder / f"{kind}.{time.monotonic_ns()}"
        self.reader, self.writer = -1, -1
        if kind in ("pipe", "left"):
            self.reader, self.writer = os.pipe()
        elif kind == "terminal":
            self.reader, self.writer = pty.openpty()
        elif kind == "socket":
            self.reader, self.writer = (it.detach() for it in socket.socketpair())
        elif kind == "file":
            self.writer = os.open(self.path, os.O_WRONLY | os.O_CREAT | os.O_APPEND, 0o600)
        else:
            self.writer = os.open("/dev/full" if kind == "full" else "/dev/null", os.O_WRONLY)
        if kind == "left":
            os.close(self.reader)
            self.reader = -1

    def started(self) -> None:
        """The program has it now."""
        if self.kind != "terminal":
            os.close(self.writer)
            self.writer = -1

    def read(self, seconds: float) -> bytes:
        """What is there, until nothing comes for so long."""
        found = b""
        while self.reader >= 0 and select.select([self.reader], [], [], seconds)[0]:
            try:
                piece = os.read(self.reader, 65536)
            except OSError:
                break
            if not piece:
                break
            found += piece
        return found

    def close(self) -> None:
        """Closes what is open here."""
        for one in (self.reader, self.writer):
            if one >= 0:
                os.close(one)


class Outlets(Bench):
    """Programs whose streams go into sinks."""

    def __init__(self, folder: Path):
        super().__init__(folder)
        self.sinks: list[Sink] = []

    def sink(self, kind: str) -> Sink:
        """A new sink."""
        self.sinks.append(Sink(kind, self.folder))
        return self.sinks[-1]

    def into(self, words: list[str], sinks: dict[int, Sink], user: int | None = None) -> Program:
        """A program whose streams go there, of another user where one is named."""

        def begin() -> None:
            for number, sink in sinks.items():
                if sink.kind == "closed":
                    os.close(number)
            if user is not None:
                os.setgroups([])
                os.setuid(user)

        streams = {number: sink.writer for number, sink in sinks.items()}
        made = self.start(words, out=streams.get(1, subprocess.DEVNULL), error=streams.get(2, subprocess.DEVNULL), preexec_fn=begin)
        for sink in sinks.values():
            sink.started()
        return made

    def gateway_into(self, sinks: dict[int, Sink], *words: str, user: int | None = None) -> Program:
        """A gateway whose streams go there, and that was answered."""
        listen, phones = (f"127.0.0.1:{port}" for port in free_ports(2))
        sockets = ["--listen", listen, "--phones", phones, "--first", "0"]
        return self.answered(self.into([*command("rgwd"), self.config(), *sockets, *words], sinks, user))

    def agent_into(self, sinks: dict[int, Sink], *words: str) -> Program:
        """A call agent whose streams go there; its gateway is the test's socket."""
        listen, control = (f"127.0.0.1:{port}" for port in free_ports(2))
        config = self.agent_config(self.agent.getsockname()[1])
        made = self.into([*command("rgca"), config, "--listen", listen, "--control", control, *words], sinks)
        made.phone.settimeout(0.2)
        while not made.tell("counts\n"):
            assert made.process.poll() is None
        made.phone.settimeout(LONG)
        return made

    def spoken(self, program: Program, count: int, first: int, text: str) -> None:
        """Sends so often a response to nothing, of which much is recorded, and a command: each is answered in time."""
        for number in range(first, first + count):
            began = time.monotonic()
            self.agent.sendto(LONG_RESPONSE, program.address)
            self.agent.sendto(text.replace("{}", str(number)).encode(), program.address)
            # (what an agent asks of the line isn't answered)
            while (said := heard(self.agent)).split()[1:2] != [b"%d" % number]:
                assert said
            assert time.monotonic() - began < LATE

    def audits(self, program: Program, count: int, first: int = 100) -> None:
        """The same of audits."""
        self.spoken(program, count, first, "AUEP {} aaln/1@rgw.example.net MGCP 1.0\r\nF: ES\r\n")

    def notifies(self, program: Program, count: int, first: int = 1) -> None:
        """The same of notifications."""
        self.spoken(program, count, first, f"NTFY {{}} aaln/1@gw1.example.net MGCP 1.0\r\nX: 1\r\nO: {MANY_EVENTS}\r\n")

    def close(self) -> None:
        super().close()
        for it in self.sinks:
            it.close()


@pytest.fixture
def bench(tmp_path: Path) -> Iterator[Outlets]:
    """A folder in which programs are started; they end with the test."""
    made = Outlets(tmp_path)
    yield made
    made.close()


def counted(program: Program) -> tuple[int, int, str]:
    """How many lines were dropped, how often a record couldn't be written, and which."""
    found = re.search(r"\nrecords dropped (\d+) write faults (\d+)(.*)\n$", program.tell("counts\n"))
    assert found
    return int(found[1]), int(found[2]), found[3].strip()


def assert_ends(program: Program, status: int, seconds: float = 1.35) -> None:
    """It ends by the word stop, in this time, with this status."""
    began = time.monotonic()
    assert program.stop()[2] == status
    assert time.monotonic() - began < seconds + LATE


@pytest.mark.parametrize("kind", KINDS)
@pytest.mark.parametrize("word, number", [("--log", 2), ("--trace", 1)], ids=["log", "trace"])
def test_gateway(bench: Outlets, word: str, number: int, kind: str) -> None:
    """What isn't taken of a log is dropped, and a trace is broken off."""
    program = bench.gateway_into({number: bench.sink(kind)}, word)
    bench.audits(program, MANY if kind in HELD else FEW)
    dropped, *faults = counted(program)
    if word == "--log":
        assert (dropped > 0) == (kind in HELD + FAILED) and faults == ([1, STREAMS[2]] if kind in FAILED else [0, ""])
    else:
        assert dropped == 0 and faults == ([1, STREAMS[1]] if kind in HELD + FAILED else [0, ""])
    assert_ends(program, 3 if kind in HELD + FAILED else 0)


@pytest.mark.parametrize("kind", KINDS)
@pytest.mark.parametrize("words, number", [([], 1), (["--log"], 2)], ids=["printed", "log"])
def test_agent(bench: Outlets, words: list[str], number: int, kind: str) -> None:
    program = bench.agent_into({number: bench.sink(kind)}, *words)
    bench.notifies(program, MANY if kind in HELD else FEW)
    dropped, *faults = counted(program)
    assert (dropped > 0) == (kind in HELD + FAILED) and faults == ([1, STREAMS[number]] if kind in FAILED else [0, ""])
    assert_ends(program, 3 if kind in HELD + FAILED else 0)


def read_late(program: Program, sink: Sink, speak: Callable[[Program, int, int], None], first: int) -> tuple[int, bytes, bytes]:
    """How many lines are dropped of a log that is read late; what was kept by then, and what comes until the program ends in order."""
    speak(program, MANY, first)
    kept = sink.read(1.5)
    speak(program, 20, 9000)
    time.sleep(0.2)
    dropped, faults, _ = counted(program)
    assert dropped > 0 and faults == 0
    rest = []
    reader = threading.Thread(target=lambda: rest.append(sink.read(1.5)))
    reader.start()
    assert_ends(program, 0, 1)
    reader.join()
    return dropped, kept, rest[0]


def assert_in_order(lines: list[str], verb: str, first: int, dropped: int) -> None:
    """The log's lines of these commands are in order, with one note of those that were dropped, and the last 20 are there."""
    notes = [int(found[1]) for line in lines if (found := re.search(r"Z ! dropped (\d+) lines, which nobody took$", line))]
    ids = [int(found[1]) for line in lines if (found := re.search(rf" > {verb} (\d+) ", line))]
    assert notes == [dropped] and ids == sorted(ids) and ids[0] == first
    assert ids[-20:] == list(range(9000, 9020)) and len(ids) < MANY + 20


def test_log_that_is_read_late(bench: Outlets) -> None:
    """It has whole lines in their order, and a note of those that were dropped; a mebibyte and what the pipe has is kept."""
    sink = bench.sink("pipe")
    program = bench.gateway_into({2: sink}, "--log")
    dropped, kept, rest = read_late(program, sink, bench.audits, 100)
    assert KEPT - 1000 < len(kept) < KEPT + 70000
    lines = (kept + rest).decode().splitlines(keepends=True)
    form = re.compile(r"\d{4}-\d\d-\d\dT\d\d:\d\d:\d\d\.\d{3}Z (127\.0\.0\.1:\d+ [<>!] |! )")
    logged = [line.rstrip("\n") for line in lines[1:] if form.match(line)]
    # (ten lines of counts come at the end)
    assert all(line.endswith("\n") for line in lines) and len(lines) - 1 - len(logged) == 10
    assert_in_order(logged, "AUEP", 100, dropped)


def test_log_of_an_agent_that_is_read_late(bench: Outlets) -> None:
    sink = bench.sink("pipe")
    program = bench.agent_into({2: sink}, "--log")
    dropped, kept, rest = read_late(program, sink, bench.notifies, 1)
    assert_in_order((kept + rest).decode().splitlines(), "NTFY", 1, dropped)


def test_trace_that_nobody_reads_in_time(bench: Outlets, tmp_path: Path) -> None:
    """Its last line says that it is broken off, standard error too, and it replays."""
    trace, said = bench.sink("pipe"), bench.sink("pipe")
    program = bench.gateway_into({1: trace, 2: said}, "--trace")
    bench.audits(program, MANY)
    assert said.read(0.3).endswith(b"standard output: broken off, nobody took it\n")
    found = trace.read(1)
    (tmp_path / "trace").write_bytes(found)
    bench.audits(program, 5, 9000)
    assert_ends(program, 3)
    assert found.endswith(b"\n| ! broken off\n") and not trace.read(0.2)
    assert ran([*command("rgwd"), "--replay", f"{tmp_path}/trace"])[1].endswith(" lines, all as told\n")


def test_terminal_that_is_stopped(bench: Outlets) -> None:
    """As by Ctrl-S: it holds up nothing, and what waited comes when it goes on; a kill leaves it blocking, as it was."""
    sink = bench.sink("terminal")
    program = bench.gateway_into({2: sink}, "--log")
    termios.tcflow(sink.writer, termios.TCOOFF)
    bench.audits(program, FEW)
    termios.tcflow(sink.writer, termios.TCOON)
    found, last = b"", b"AUEP %d " % (99 + FEW)
    while last not in found and (piece := sink.read(1.5)):
        found += piece
    assert last in found
    program.process.send_signal(signal.SIGKILL)
    program.process.wait()
    assert os.get_blocking(sink.writer)


@pytest.mark.parametrize("kind", ["pipe", "terminal"])
def test_stream_of_another_user(bench: Outlets, kind: str) -> None:
    """One that the program's user may not open anew holds up nothing."""
    if os.geteuid() != 0:
        pytest.skip("only root starts a program of another user")
    for folder in (bench.folder, *bench.folder.parents[:3]):
        os.chmod(folder, 0o755)
    sink = bench.sink(kind)
    os.fchmod(sink.writer, 0o600)
    try:
        program = bench.gateway_into({2: sink}, "--log", user=65534)
    except PermissionError:
        pytest.skip("another user can't start the program")
    bench.audits(program, MANY)
    assert_ends(program, 3)


@pytest.mark.parametrize("name", ["rgwd", "rgca"])
@pytest.mark.parametrize("kind", ["file", "FIFO", "device"])
def test_capture_is_a_new_file(bench: Outlets, tmp_path: Path, kind: str, name: str) -> None:
    """What is there already is left as it was."""
    path = "/dev/null" if kind == "device" else f"{tmp_path}/there"
    if kind == "FIFO":
        os.mkfifo(path)
    elif kind == "file":
        Path(path).write_text("kept")
    words = [bench.config(), *FREE] if name == "rgwd" else [bench.agent_config(9), "--listen", "127.0.0.1:0", "--control", "127.0.0.1:0"]
    assert ran([*command(name), *words, "--stop-after", "0", "--capture", path])[::2] == (3, f"{path}: write fault: exists already\n")
    assert kind != "file" or Path(path).read_text() == "kept"


def test_no_capture_where_a_socket_is_in_use(bench: Outlets, tmp_path: Path) -> None:
    with socket.create_server(("127.0.0.1", 0)) as taken:
        page = "127.0.0.1:%d" % taken.getsockname()[1]
        words = [*command("rgwd"), bench.config(), *FREE, "--http", page, "--capture", f"{tmp_path}/other.pcap"]
        status, _, said = ran(words)
    assert status == 3 and "no socket" in said and not (tmp_path / "other.pcap").exists()


def test_full_disk(bench: Outlets, tmp_path: Path) -> None:
    """A capture that finds no space is named at once, and counted, also by the page's metric."""
    room = tmp_path / "small"
    room.mkdir()
    if os.geteuid() != 0 or ran(["mount", "-t", "tmpfs", "-o", "size=64k", "tmpfs", str(room)])[0] != 0:
        pytest.skip("no small file system can be mounted here")
    try:
        path, said = f"{room}/calls.pcap", bench.sink("pipe")
        page = f"127.0.0.1:{free_ports(1)[0]}"
        program = bench.gateway_into({2: said}, "--capture", path, "--http", page)
        bench.audits(program, FEW)
        assert said.read(0.3).endswith(f"{path}: write fault: no space left\n".encode())
        assert counted(program) == (0, 1, path)
        with urllib.request.urlopen(f"http://{page}/metrics", timeout=5) as answer:
            assert f'rgw_write_faults_total{{file="{path}"}} 1' in answer.read().decode().splitlines()
        assert program.stop()[2] == 3
    finally:
        ran(["umount", str(room)])


@pytest.mark.parametrize("words, number", [
    ("rgwd --help", 1), ("rgwd CONFIG --check", 1), ("rgwd CONFIG --lsten", 2), ("rgca --help", 1), ("rgca CONFIG --lsten", 2),
])
def test_short_text_into_a_full_pipe(bench: Outlets, words: str, number: int) -> None:
    """It is given up after a second."""
    sink = bench.sink("pipe")
    os.set_blocking(sink.writer, False)
    try:
        while True:
            os.write(sink.writer, b"x" * 4096)
    except BlockingIOError:
        os.set_blocking(sink.writer, True)
    name, *rest = words.replace("CONFIG", bench.config()).split()
    began = time.monotonic()
    program = bench.into([*command(name), *rest], {number: sink})
    assert program.wait() == (3 if number == 1 else 2) and time.monotonic() - began < 1.35 + LATE
