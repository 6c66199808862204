"""Gateways that the live tests check: how an rgwd is begun (RGWD="COMMAND" names another one), and an osmo-mgw."""

import os
import re
import shlex
import subprocess
import time
from pathlib import Path
from typing import Any

TOP = Path(__file__).resolve().parents[3]
DOMAIN = "rgw.example.net"
# So long a program has to say where it listens, in seconds.
SOON = 60.0


def rgwd() -> list[str]:
    """The command that starts an rgwd."""
    built = [TOP / "crates" / "rgwd" / "out" / it for it in ("rgwd", "unproved/rgwd")]
    return shlex.split(os.environ.get("RGWD", "")) or [str(next((it for it in built if it.is_file()), built[0]))]


def begun(words: list[str], log: Path) -> "subprocess.Popen[bytes]":
    """A process that has said where it listens, on standard error, which goes into a file.

    Raises RuntimeError, with what it said, if it doesn't within `SOON`."""
    with open(log, "wb") as file:
        process = subprocess.Popen(words, stdin=subprocess.DEVNULL, stdout=subprocess.DEVNULL, stderr=file)
    end = time.monotonic() + SOON
    while time.monotonic() < end and process.poll() is None:
        if re.search(r"(?m)^listen .*\n", log.read_text(errors="replace")):
            return process
        time.sleep(0.02)
    process.kill()
    process.wait()
    raise RuntimeError(f"{words[0]} doesn't start: {log.read_text(errors='replace').strip()}")


class Osmo:
    """An osmo-mgw, at an address of its own."""

    HOST, PORT, AGENT = "127.0.22.14", 22427, 22727

    def __init__(self, folder: Path) -> None:
        path = folder / "osmo-mgw.cfg"
        path.write_text(
            f"log stderr\n logging level set-all fatal\nline vty\n bind {self.HOST} 22424\nmgcp\n domain mgw\n bind ip {self.HOST}\n"
            f" bind port {self.PORT}\n rtp bind-ip {self.HOST}\n rtp port-range 22500 22899\n number endpoints 64\n"
        )
        quiet: dict[str, Any] = dict.fromkeys(("stdin", "stdout", "stderr"), subprocess.DEVNULL)
        self.process = subprocess.Popen(["osmo-mgw", "-s", "-c", str(path)], **quiet)

    def words(self) -> list[str]:
        """The words of a check of this gateway."""
        lines = ["--line", "rtpbridge/1", "--more-lines", "rtpbridge/2"]
        return [f"{self.HOST}:{self.PORT}", "--domain", "mgw", *lines, "--own", f"{self.HOST}:{self.AGENT}", "--slow"]

    def close(self) -> None:
        """Ends it."""
        self.process.terminate()
        self.process.wait(20)
