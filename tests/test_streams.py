"""Standard streams of rgwd that nobody reads in time, that can't be written, or that aren't there."""
import os
import select
import subprocess
import time

from running import Bench, heard, link


def read_by_pieces(reader: int) -> bytes:
    """What comes from a pipe, which is full each time before it is read: so who writes waits for room again and again."""
    told = b""
    while select.select([reader], [], [], 10)[0]:
        time.sleep(0.02)
        if not (piece := os.read(reader, 65536)):
            return told
        told += piece
    raise AssertionError("the pipe has no end")


def test_trace_that_is_read_late_is_whole(bench: Bench) -> None:
    reader, writer = os.pipe()
    program = bench.start(bench.gateway_words("--trace"), out=writer)
    os.close(writer)
    assert heard(bench.agent)
    for _ in range(400):
        bench.agent.sendto(b"200 999999999 OK\r\n" + 5 * (b"X-A: " + 55 * b"1" + b"\r\n"), program.address)
        program.tell("show 1\n")
    program.send("stop\n")
    time.sleep(0.3)
    told = read_by_pieces(reader)
    os.close(reader)
    assert program.wait() == 0
    assert len(told) > 100000 and b"\n| ! broken off" not in told


def test_stream_that_cant_be_written(bench: Bench) -> None:
    """It is said at once, and the status is 3."""
    with open("/dev/full", "wb") as out:
        program = bench.start(bench.gateway_words("--trace"), out=out)
    assert heard(bench.agent)
    _, said, status = program.stop()
    assert status == 3 and said.startswith("standard output: write fault: no space left\n")


def test_program_without_standard_output(bench: Bench) -> None:
    """It holds the null device there, so that no file of its own gets that number."""
    program = bench.gateway(out=subprocess.DEVNULL, preexec_fn=lambda: os.close(1))
    assert link(f"/proc/{program.process.pid}/fd/1") == "/dev/null"
