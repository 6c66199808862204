"""Running programs for the tests: how they are found, started, spoken to and ended.

`rgwd`, `rgca` and `rgw` are commands in the environment (RGWD, RGCA, RGW), else the proved binaries, else the unproved ones, where they
are newer than their sources.
"""
import contextlib
import functools
import os
import re
import select
import shlex
import signal
import socket
import subprocess
import time
from collections.abc import Callable, Iterator, Sequence
from pathlib import Path
from typing import IO, Any

TOP = Path(__file__).resolve().parent.parent
# Seconds that a start, an answer or an end may take on a machine that does much else.
LONG = 10.0
Address = tuple[str, int]
# The signals that end a program in order.
ENDING = (signal.SIGTERM, signal.SIGINT, signal.SIGHUP)
FREE = ["--listen", "127.0.0.1:0", "--phones", "127.0.0.1:0"]


@functools.cache
def command(name: str) -> tuple[str, ...]:
    """The command that starts a program: rgwd, rgca or rgw. LookupError where none is built."""
    if asked := os.environ.get(name.upper()):
        return tuple(shlex.split(asked))
    for words in ([name], [name, f"{TOP}/crates/{name}/out/unproved/{name}"]):
        found = subprocess.run([f"{TOP}/tools/binary", *words], capture_output=True, text=True)
        if found.returncode == 0:
            return (str(Path(found.stdout.strip()).resolve()),)
    raise LookupError(f"no {name} is built: ./build proves one, tools/unproved {name} builds one in two minutes")


@functools.cache
def launcher() -> str:
    """The path of the launcher, through which a program hears of signals."""
    return subprocess.run([f"{TOP}/tools/launcher"], stdout=subprocess.PIPE, text=True, check=True).stdout.strip()


def client(host: str = "127.0.0.1", seconds: float = LONG) -> socket.socket:
    """A UDP socket on a free port, that waits for so many seconds."""
    made = socket.socket(socket.AF_INET, socket.SOCK_DGRAM)
    made.bind((host, 0))
    made.settimeout(seconds)
    return made


def heard(by: socket.socket, seconds: float | None = None) -> bytes:
    """The next datagram to a socket; nothing where none comes in time."""
    if seconds is not None:
        by.settimeout(seconds)
    try:
        return by.recv(65536)
    except TimeoutError:
        return b""


def free_ports(count: int) -> list[int]:
    """UDP ports of the loopback that nobody has."""
    held = [client() for _ in range(count)]
    ports = [it.getsockname()[1] for it in held]
    for it in held:
        it.close()
    return ports


def until(test: Callable[[], object], seconds: float = LONG) -> bool:
    """Waits until a test holds, for so many seconds at most; whether it does."""
    over = time.monotonic() + seconds
    while not test():
        if time.monotonic() > over:
            return False
        time.sleep(0.02)
    return True


def ran(words: Sequence[str], seconds: float = 60 * LONG, **how: Any) -> tuple[int | None, str, str]:
    """The status of a program that ends by itself, its standard output and its standard error. The status is None where it doesn't end."""
    how = {"capture_output": True, "text": True, "errors": "replace", "stdin": subprocess.DEVNULL, **how}
    try:
        ended = subprocess.run(words, timeout=seconds, **how)
    except subprocess.TimeoutExpired:
        return None, "", "it doesn't end"
    return ended.returncode, ended.stdout, ended.stderr


def addresses_in(text: str) -> list[Address]:
    """The addresses of the loopback in what a program prints at its start."""
    return [(host, int(port)) for host, port in re.findall(r" (127\.0\.0\.\d+):(\d+)", text)]


def link(path: str) -> str:
    """Where a symbolic link leads; an empty text where there is none."""
    try:
        return os.readlink(path)
    except OSError:
        return ""


def spent(pid: int) -> float:
    """Seconds of a processor that a process of one thread has used."""
    return int(Path(f"/proc/{pid}/schedstat").read_text().split()[0]) / 1e9


def hears_signals(before: Callable[[], object] | None = None) -> Callable[[], None]:
    """What a child does before it becomes a program: it ignores no ending signal that whoever runs the tests ignores, and does this."""

    def begin() -> None:
        for number in ENDING:
            signal.signal(number, signal.SIG_DFL)
        if before:
            before()

    return begin


class Program:
    """A program that serves until it is stopped. Its standard error goes into a file, is a terminal, or goes to this descriptor `error`:
    then its addresses are those in its words."""

    def __init__(self, words: Sequence[str], log: Path, out: int | IO[bytes] = subprocess.PIPE, terminal: bool = False,
                 error: int | None = None, **how: Any):
        self.words, self.log, self.read, self.terminal = list(words), log, 0, -1
        self.phone = client()
        own = os.open(log, os.O_WRONLY | os.O_CREAT, 0o600)
        if terminal:
            os.close(own)
            self.terminal, own = os.openpty()
        err = own if error is None else error
        self.process: subprocess.Popen[bytes] = subprocess.Popen(self.words, stdin=subprocess.DEVNULL, stdout=out, stderr=err, **how)
        os.close(own)
        if error is None:
            until(lambda: self.process.poll() is not None or "\n" in self.logged())
        self.start = self.logged().partition("\n")[0] + "\n" if error is None else shlex.join(words)
        self.read = len(self.start)
        self.addresses = addresses_in(self.start)

    def logged(self) -> str:
        """All of its standard error up to now."""
        with contextlib.suppress(OSError):
            while self.terminal >= 0 and select.select([self.terminal], [], [], 0)[0] and (piece := os.read(self.terminal, 65536)):
                with open(self.log, "ab") as file:
                    file.write(piece.replace(b"\r\n", b"\n"))
        return self.log.read_bytes().decode(errors="replace")

    def said(self) -> str:
        """What it wrote on standard error since this was asked last, or since its first line."""
        all_of_it = self.logged()
        self.read, begin = len(all_of_it), self.read
        return all_of_it[begin:]

    @property
    def address(self) -> Address:
        """Where it takes MGCP."""
        assert self.addresses, f"it doesn't start: {self.start}"
        return self.addresses[0]

    def send(self, line: str) -> None:
        """Types a line: to the telephones of a gateway, or to an agent."""
        assert len(self.addresses) > 1, f"it doesn't start: {self.start}"
        self.phone.sendto(line.encode(), self.addresses[1])

    def tell(self, line: str) -> str:
        """The first datagram of the answer to a line that is typed; nothing where none comes."""
        self.send(line)
        return heard(self.phone).decode()

    def wait(self, seconds: float = LONG) -> int | None:
        """Its status, once it has ended; None where it doesn't in time, and is killed."""
        try:
            return self.process.wait(seconds)
        except subprocess.TimeoutExpired:
            self.process.kill()
            self.process.wait()
            return None

    def stop(self) -> tuple[str, str, int | None]:
        """What it wrote on standard output, and on standard error since it was asked last, and its status; ends it by the word stop."""
        if self.process.poll() is None and len(self.addresses) > 1:
            self.send("stop\n")
        status = self.wait()
        # (what goes into a pipe here is little: it never waits for its reader)
        out = self.process.stdout.read().decode(errors="replace") if self.process.stdout else ""
        return out, self.said(), status

    def ended_by(self, number: signal.Signals) -> tuple[int | None, str]:
        """Its status after a signal, None where it doesn't end; and what it then says on standard error."""
        self.said()
        self.process.send_signal(number)
        return self.wait(), self.said()

    def spent(self) -> float:
        """Seconds of a processor that it has used."""
        return spent(self.process.pid)

    def is_asleep(self) -> bool:
        """Whether it waits until something comes."""
        return Path(f"/proc/{self.process.pid}/stat").read_text().rpartition(")")[2].split()[0] == "S"

    def close(self) -> None:
        """Ends it at once, and closes what is open here."""
        self.process.kill()
        self.process.wait()
        self.phone.close()
        if self.process.stdout:
            self.process.stdout.close()
        self.logged()
        if self.terminal >= 0:
            os.close(self.terminal)


class Bench:
    """A folder, and the programs that a test starts there: all are ended with it."""

    def __init__(self, folder: Path):
        self.folder = folder
        self.agent = client()
        self.programs: list[Program] = []

    def start(self, words: Sequence[str], **how: Any) -> Program:
        """A program that serves."""
        log = self.folder / f"{len(self.programs)}.log"
        self.programs.append(Program(words, log, **how))
        return self.programs[-1]

    def config(self, port: int | None = None, name: str = "gateway.toml", domain: str = "rgw.example.net", lines: int = 2,
               host: str = "127.0.0.1") -> str:
        """The path of a configuration of a gateway, whose agent is at this port: by default the test's own."""
        port = self.agent.getsockname()[1] if port is None else port
        path = self.folder / name
        path.write_text(
            f'domain = "{domain}"\nlines = {lines}\nagent = "ca@[127.0.0.1]:{port}"\nrestart_wait = 10\ndisconnected_wait = 1000\n'
            f'media_address = "{host}"\nmedia_base = 3000\nnames = {{}}\n'
        )
        return str(path)

    def gateway_words(self, *words: str) -> list[str]:
        """The command that starts a gateway with these words, on free ports."""
        return [*command("rgwd"), self.config(), *FREE, "--first", "0", *words]

    def gateway(self, *words: str, **how: Any) -> Program:
        """A gateway that has announced itself, and was answered."""
        return self.answered(self.start(self.gateway_words(*words), **how))

    def launched(self, *words: str, before: Callable[[], object] | None = None, **how: Any) -> Program:
        """The same by the launcher: it hears of signals. The child does `before` first."""
        return self.answered(self.start([launcher(), *self.gateway_words(*words)], preexec_fn=hears_signals(before), **how))

    def answered(self, program: Program) -> Program:
        """This gateway, once it has announced itself, and that was answered."""
        assert heard(self.agent).startswith(b"RSIP 1 "), f"it doesn't announce itself: {program.start}"
        self.agent.sendto(b"200 1 OK\r\n", program.address)
        return program

    def agent_config(self, port: int) -> str:
        """The path of a configuration of a call agent, whose one gateway is at this port."""
        path = self.folder / "agent.toml"
        path.write_text(f'own = "127.0.0.1:2727"\ndigit_map = "(2xx|0)"\n[gateways."gw1.example.net"]\n'
                        f'address = "127.0.0.1:{port}"\nnumbers = ["201"]\n')
        return str(path)

    def audit(self, program: Program, number: int = 7) -> bytes:
        """The answer to an audit of line 1 by the gateway's agent."""
        self.agent.sendto(f"AUEP {number} aaln/1@rgw.example.net MGCP 1.0\r\n".encode(), program.address)
        return heard(self.agent)

    def logs(self) -> Iterator[tuple[str, str]]:
        """Of each program its command and status, and the end of its log."""
        for it in self.programs:
            yield f"{shlex.join(it.words)}: status {it.process.poll()}", it.logged()[-2000:]

    def close(self) -> None:
        """Ends all that runs."""
        for it in self.programs:
            it.close()
        self.agent.close()
