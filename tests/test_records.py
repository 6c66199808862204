"""The log, the trace and the captures of rgwd, and how much it reads of a file."""
import os
import re
import shutil
import stat
import subprocess
from pathlib import Path

import pytest
from running import FREE, Bench, Program, command, heard, ran

# A response to nothing, which a capture has all of.
LONG_RESPONSE = b"200 999999999 OK\r\n" + 50 * (b"X-A: " + 60 * b"1" + b"\r\n")


def fill(bench: Bench, program: Program, count: int) -> None:
    """Sends so many long responses, and each time waits for an answer of the telephones, so that none is lost."""
    for _ in range(count):
        bench.agent.sendto(LONG_RESPONSE, program.address)
        assert program.tell("show 1\n")


def test_datagram_that_does_not_leave(bench: Bench) -> None:
    """Nothing goes from the loopback to another host: the log notes that, and it is counted."""
    path = Path(bench.config())
    path.write_text(path.read_text().replace("ca@[127.0.0.1]", "ca@[192.0.2.1]"))
    status, _, said = ran([*command("rgwd"), str(path), *FREE, "--first", "0", "--log", "--stop-after", "2000"])
    assert status == 0 and re.search(r"Z 192\.0\.2\.1:\d+ ! not sent\n", said) and re.search(r"\nfaults receive 0 send [1-9]\n", said)


def test_capture_is_for_its_owner_alone(bench: Bench, tmp_path: Path) -> None:
    """A capture has the name that is asked for, and mode 600."""
    capture = tmp_path / "calls.pcap"
    program = bench.gateway("--capture", str(capture), cwd=tmp_path)
    status = program.stop()[2]
    assert (status, stat.S_IMODE(capture.stat().st_mode)) == (0, 0o600)
    assert capture.stat().st_size > 24


@pytest.fixture
def trace(bench: Bench, tmp_path: Path) -> Path:
    """The trace of a gateway that has announced itself."""
    path = tmp_path / "trace"
    with open(path, "wb") as out:
        program = bench.start(bench.gateway_words("--trace"), out=out)
        assert heard(bench.agent)
        program.stop()
    return path


def test_trace_replays(trace: Path) -> None:
    """A trace goes to standard output, and a replay finds each line as it went out."""
    assert b"\n| RSIP 1 *@rgw.example.net MGCP 1.0\n" in trace.read_bytes()
    status, out, _ = ran([*command("rgwd"), "--replay", str(trace)])
    assert status == 0 and out.endswith(" lines, all as told\n")


def test_changed_trace_differs(trace: Path) -> None:
    """A line of a trace that doesn't go out so in a replay ends that with status 1."""
    trace.write_bytes(trace.read_bytes().replace(b"\n| RSIP 1 ", b"\n| RSIP 2 ", 1))
    status, out, said = ran([*command("rgwd"), "--replay", str(trace)])
    assert (status, said) == (1, "")
    assert out.endswith(" differs\ntold: | RSIP 2 *@rgw.example.net MGCP 1.0\nsent: | RSIP 1 *@rgw.example.net MGCP 1.0\n")


def captures(folder: Path) -> list[str]:
    """The names of the captures in a folder."""
    return sorted(it.name for it in folder.glob("calls.pcap*"))


def test_parted_capture(bench: Bench, tmp_path: Path) -> None:
    """A capture of 2 files of 1 MB goes on behind the greatest number, and its oldest file goes."""
    (tmp_path / "calls.pcap.7").write_bytes(b"")
    (tmp_path / "calls.pcap.6.old").write_bytes(b"")
    words = ["--capture", f"{tmp_path}/calls.pcap", "--capture-size", "1", "--capture-files", "2"]
    program = bench.gateway(*words)
    fill(bench, program, 850)
    assert program.stop()[2] == 0
    assert captures(tmp_path) == ["calls.pcap.10", "calls.pcap.6.old", "calls.pcap.9"]
    files = [(tmp_path / f"calls.pcap.{number}").read_bytes() for number in (9, 10)]
    assert all(it[:4] == b"\xa1\xb2\xc3\xd4" and len(it) <= 1000000 for it in files)
    bench.gateway(*words).stop()
    assert captures(tmp_path) == ["calls.pcap.10", "calls.pcap.11", "calls.pcap.6.old"]


def test_parted_capture_at_a_start(bench: Bench, tmp_path: Path) -> None:
    """All files go that are older than the 2 that are kept. A name that is no text is no file of a capture."""
    for end in ("3", "5", "7", "6.old"):
        (tmp_path / f"calls.pcap.{end}").write_bytes(b"")
    Path(os.fsdecode(os.fsencode(tmp_path) + b"/\xff")).write_bytes(b"")
    bench.gateway("--capture", f"{tmp_path}/calls.pcap", "--capture-size", "1", "--capture-files", "2")
    assert captures(tmp_path) == ["calls.pcap.6.old", "calls.pcap.7", "calls.pcap.8"]


def test_capture_whose_file_is_there(bench: Bench, tmp_path: Path) -> None:
    there = tmp_path / "there.pcap"
    there.write_bytes(b"kept")
    ended = ran([*command("rgwd"), bench.config(), *FREE, "--stop-after", "0", "--capture", str(there)])
    assert ended == (3, "", f"{there}: write fault: exists already\n") and there.read_bytes() == b"kept"


def test_parted_capture_without_a_folder(bench: Bench, tmp_path: Path) -> None:
    path = f"{tmp_path}/none/calls.pcap"
    ended = ran([*command("rgwd"), bench.config(), *FREE, "--stop-after", "0", "--capture", path, "--capture-size", "1"])
    assert ended == (3, "", f"{path}: write fault: no such file or directory\n")


def test_next_file_of_a_capture_that_cant_be_made(bench: Bench, tmp_path: Path) -> None:
    folder = tmp_path / "gone"
    folder.mkdir()
    program = bench.gateway("--capture", f"{folder}/calls.pcap", "--capture-size", "1")
    shutil.rmtree(folder)
    fill(bench, program, 400)
    _, said, status = program.stop()
    assert status == 3 and said.startswith(f"{folder}/calls.pcap.2: write fault: no such file or directory\n")


def test_no_more_is_read_of_a_configuration_than_it_may_have(tmp_path: Path) -> None:
    """300 MB are there, 1 MB may be: the program's memory stays below 150 MB."""
    large = tmp_path / "large"
    with open(large, "wb") as out:
        out.truncate(300000000)
    program = subprocess.Popen([*command("rgwd"), str(large)], stdin=subprocess.DEVNULL, stderr=subprocess.DEVNULL)
    _, status, used = os.wait4(program.pid, 0)
    program.returncode = os.waitstatus_to_exitcode(status)
    assert program.returncode == 2 and used.ru_maxrss < 150000


def test_no_more_is_read_of_a_traces_configuration_than_it_may_have(tmp_path: Path) -> None:
    """16,385 lines of 64 bytes are more than 1,048,576 bytes."""
    large = tmp_path / "large"
    large.write_bytes(40000 * (b"#" + 62 * b"1" + b"\n"))
    status, out, said = ran([*command("rgwd"), "--replay", str(large)])
    assert (status, out) == (2, "") and said.startswith(f"{large}: line 16,386: ")
