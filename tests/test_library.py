"""The library for C: the program of docs/LIBRARY.md, and examples/firmware, whose calls rgca connects.

They are linked to out/librgw.a and out/librgw.so.1, or else to what `tools/unproved library` has built; without either they are skipped.
"""
import functools
import re
import shutil
import signal
import socket
import subprocess
import threading
import time
from pathlib import Path

import pytest
from running import TOP, client, command, free_ports, ran, until

WARNINGS = ["-Wall", "-Wextra", "-Wpedantic", "-Werror"]
SANITIZERS = ["-g", "-fsanitize=address,undefined", "-fno-sanitize-recover=all"]
VALGRIND = ["valgrind", "-q", "--leak-check=full", "--error-exitcode=7"]
GATEWAY = """domain = "gw1.example.net"
lines = %d
agent = "ca@[127.0.0.1]:%d"
restart_wait = 500
disconnected_wait = 5000
media_address = "127.0.0.1"
media_base = 3000
[names]
"""


@functools.cache
def library() -> Path:
    """The folder of the library that is built."""
    for words, folder in ((["library", "--check"], TOP / "out"), (["unproved", "--have", "library"], TOP / "out/unproved")):
        if subprocess.run([f"{TOP}/tools/{words[0]}", *words[1:]], capture_output=True).returncode == 0:
            return folder
    pytest.skip("no library is built")


@pytest.mark.parametrize("kind", ["archive", "shared object"])
@pytest.mark.parametrize("compiler, language, standard", [("cc", "c", "c99"), ("c++", "c++", "c++17")], ids=["C", "C++"])
def test_program_of_the_document(tmp_path: Path, compiler: str, language: str, standard: str, kind: str) -> None:
    """It is compiled without a warning, and prints its announcement."""
    if not shutil.which(compiler):
        pytest.skip(f"there is no {compiler}")
    found = re.search(r'(?ms)^    #include "rgw.h"\n.*?^    }\n', (TOP / "docs/LIBRARY.md").read_text())
    assert found
    source, program = tmp_path / "document.c", f"{tmp_path}/document"
    source.write_text(re.sub(r"(?m)^    ", "", found[0]))
    shared = [f"{library()}/librgw.so.1", f"-Wl,-rpath,{library()}"]
    linked = shared if kind == "shared object" else [f"{library()}/librgw.a"]
    words = [compiler, f"-std={standard}", *WARNINGS, f"-I{TOP}/include", "-x", language, str(source), "-x", "none", *linked]
    assert ran([*words, "-o", program]) == (0, "", "")
    assert ran([program]) == (0, "to port 2727 at 1000 ms: RSIP 1 *@rgw.example.net MGCP 1.0\nRM: restart\n", "")


class Running:
    """A program whose output is read, and to which acts are typed."""

    def __init__(self, words: list[str], log: Path):
        self.log = log
        with open(log, "wb") as out:
            self.process = subprocess.Popen(words, stdin=subprocess.PIPE, stdout=out, stderr=subprocess.STDOUT)

    def says(self, words: str, times: int = 1) -> bool:
        """Whether it prints lines with these words so often, in time."""
        return until(lambda: self.count(words) >= times, 60)

    def count(self, words: str) -> int:
        """How many lines have these words."""
        return sum(words in line for line in self.log.read_text().splitlines())

    def act(self, line: int, *acts: str) -> None:
        """Types acts at a telephone."""
        assert self.process.stdin
        for act in acts:
            self.process.stdin.write(f"{line} {act}\n".encode())
        self.process.stdin.flush()

    def end(self) -> int:
        """Its status after SIGTERM."""
        self.process.send_signal(signal.SIGTERM)
        return self.process.wait(60)


def compiled(folder: Path, *flags: str) -> str:
    """The path of the firmware, which is compiled without a warning."""
    words = ["cc", "-std=c99", *WARNINGS, *flags, f"-I{TOP}/include", f"{TOP}/examples/firmware/main.c", f"{library()}/librgw.a"]
    assert ran([*words, "-o", f"{folder}/firmware"]) == (0, "", "")
    return f"{folder}/firmware"


def call(firmware: Running, agent: Running) -> None:
    """A call from line 1 to line 2, from dial tone to busy tone."""
    firmware.act(1, "off")
    assert firmware.says("line 1: L/dl on")
    firmware.act(1, *"202")
    assert firmware.says("line 2: L/rg on") and firmware.says("line 1: G/rt on")
    firmware.act(2, "off")
    assert agent.says("connected") and firmware.says("mode 3", 2)
    firmware.act(1, "flash")
    firmware.act(2, "on")
    assert firmware.says("line 1: L/bz on") and firmware.says("is empty", 2)
    firmware.act(1, "on")
    assert firmware.says("line 1: L/bz off")


@pytest.mark.parametrize("flags, before", [
    ([], []),
    pytest.param(SANITIZERS, [], marks=pytest.mark.live),
    pytest.param(["-g"], VALGRIND, marks=pytest.mark.live),
], ids=["plain", "sanitizers", "valgrind"])
def test_firmware(tmp_path: Path, flags: list[str], before: list[str]) -> None:
    """It serves a call; SIGHUP starts it anew, but not where its configuration has a fault by then; SIGTERM ends it in order."""
    if before and not shutil.which(before[0]):
        pytest.skip(f"there is no {before[0]}")
    program, config = compiled(tmp_path, *flags), tmp_path / "gateway.toml"
    own, port = free_ports(2)
    config.write_text(GATEWAY % (2, own))
    (tmp_path / "agent.toml").write_text(f'own = "127.0.0.1:{own}"\ndigit_map = "(2xx|0)"\n[gateways."gw1.example.net"]\n'
                                         f'address = "127.0.0.1:{port}"\nnumbers = ["201", "202"]\n')
    agent = Running([*command("rgca"), f"{tmp_path}/agent.toml", "--route", "--control", "127.0.0.1:0"], tmp_path / "agent.log")
    firmware = Running([*before, program, str(config), "127.0.0.1", str(port)], tmp_path / "firmware.log")
    try:
        assert agent.says("announce")
        # (until each line at rest is asked for off hook)
        time.sleep(1)
        call(firmware, agent)
        told = agent.count("announce")
        firmware.process.send_signal(signal.SIGHUP)
        assert agent.says("announce", told + 1)
        config.write_text(GATEWAY % (97, own))
        firmware.process.send_signal(signal.SIGHUP)
        assert firmware.says("lines: 97, wanted 1 to 96")
        firmware.act(2, "off")
        assert firmware.says("line 2: L/dl on")
        assert firmware.end() == 0 and firmware.log.read_text().endswith("ended\n")
    finally:
        for it in (firmware, agent):
            it.process.kill()
            it.process.wait()


def work(hook: socket.socket, firmware: Running) -> None:
    """Works the telephones by the console for rgw-check, and starts the gateway anew."""
    while True:
        text, source = hook.recvfrom(2000)
        words = text.decode().split()
        if words[0] == "act":
            firmware.act(int(words[1]), words[2])
        else:
            firmware.process.send_signal(signal.SIGHUP)
        # (until poll has seen it)
        time.sleep(0.05)
        hook.sendto(b"done\n", source)


@pytest.mark.live
def test_checks_of_the_firmware(tmp_path: Path) -> None:
    """rgw-check finds no fault with it; the console works the telephones."""
    own, port = free_ports(2)
    (tmp_path / "gateway.toml").write_text(GATEWAY % (2, own))
    firmware = Running([compiled(tmp_path), f"{tmp_path}/gateway.toml", "127.0.0.1", str(port)], tmp_path / "firmware.log")
    with client(seconds=600) as hook:
        threading.Thread(target=work, args=(hook, firmware), daemon=True).start()
        words = ["--domain", "gw1.example.net", "--line", "aaln/1", "--more-lines", "aaln/2", "--own", f"127.0.0.1:{own}"]
        words += ["--hook", "127.0.0.1:%d" % hook.getsockname()[1]]
        ended = ran([f"{TOP}/python/bench/bin/rgw-check", f"127.0.0.1:{port}", *words])
    assert ended[0] == 0, ended
    assert firmware.end() == 0
