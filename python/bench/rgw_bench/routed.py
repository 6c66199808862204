"""An exchange of rgca behind a relay, for a load: it takes the place at the configuration's own address while it runs."""
from __future__ import annotations

import contextlib
import json
import os
import shlex
import shutil
import socket
import subprocess
import sys
import tempfile
from collections.abc import Iterator
from pathlib import Path
from typing import Any

from .load_words import Exchange
from .wire import Address, written

PACKAGES = Path(__file__).resolve().parents[1]
# Where a checkout has it; else $RGCA names it, or it is on the PATH.
BUILT = PACKAGES.parents[1] / "crates" / "rgca" / "out" / "rgca"


def rgca() -> list[str]:
    """The words that start rgca. FileNotFoundError: it isn't there."""
    words = shlex.split(os.environ.get("RGCA", "")) or [shutil.which("rgca") or str(BUILT)]
    if not shutil.which(words[0]):
        raise FileNotFoundError(2, "no such program; RGCA names it, or it is on the PATH", words[0])
    return words


def free_places(many: int) -> list[Address]:
    """So many addresses of loopback whose ports are free."""
    held = [socket.socket(socket.AF_INET, socket.SOCK_DGRAM) for _ in range(many)]
    for it in held:
        it.bind(("127.0.0.1", 0))
    places = [it.getsockname() for it in held]
    for it in held:
        it.close()
    return places


def config_of(exchange: Exchange, own: Address, fronts: list[Address]) -> str:
    """The configuration of an agent at another address, that takes gateways for being at these fronts."""
    rows = [f'own = "{written(own)}"', f"digit_map = {json.dumps(exchange.digit_map)}"]
    for gateway, front in zip(exchange.gateways, fronts):
        numbers = ", ".join(f'"{number}"' for number in gateway.numbers)
        rows += [f"[gateways.{json.dumps(gateway.domain)}]", f'address = "{written(front)}"', f"numbers = [{numbers}]"]
    return "\n".join(rows) + "\n"


def begun(words: list[str], name: str) -> subprocess.Popen[str]:
    """A program that says in its first line on standard error where it listens. OSError: it ends before."""
    env = {**os.environ, "PYTHONPATH": os.pathsep.join(filter(None, [str(PACKAGES), os.environ.get("PYTHONPATH", "")]))}
    program = subprocess.Popen(words, stdin=subprocess.DEVNULL, stdout=subprocess.DEVNULL, stderr=subprocess.PIPE, text=True, env=env)
    assert program.stderr is not None
    said = program.stderr.readline()
    if not said.startswith(("listen ", "relay ")):
        program.wait()
        raise OSError(5, f"{name} doesn't start: {said.strip()}")
    return program


@contextlib.contextmanager
def routed(exchange: Exchange) -> Iterator[dict[str, Any]]:
    """Runs rgca --route and a relay before it: what it gives has, after the block, `verbs`, the relay's report of the commands, and while
    it runs `agent`, where rgca is. OSError: one doesn't start."""
    places = free_places(1 + len(exchange.gateways))
    own, fronts = places[0], places[1:]
    result: dict[str, Any] = {"agent": own, "verbs": {}}
    with tempfile.TemporaryDirectory() as folder:
        config, kept = Path(folder, "agent.toml"), Path(folder, "relay.json")
        config.write_text(config_of(exchange, own, fronts))
        ways = [f"{written(front)}={written(gateway.address)}" for front, gateway in zip(fronts, exchange.gateways)]
        relay = [sys.executable, "-m", "rgw_bench.commands.relay", *ways, "--home", written(exchange.own), "--agent", written(own)]
        programs: list[subprocess.Popen[str]] = []
        try:
            programs.append(begun([*rgca(), str(config), "--route", "--control", "127.0.0.1:0"], "rgca"))
            programs.append(begun([*relay, "--report", str(kept)], "rgw-relay"))
            yield result
        finally:
            for program in reversed(programs):
                program.terminate()
                program.wait()
            if kept.exists():
                result["verbs"] = json.loads(kept.read_text())["verbs"]
