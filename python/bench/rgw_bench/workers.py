"""Workers of pytest-xdist (`-n 4`) that check one gateway: each has two lines of its own, and all of them the agent's address."""

import shutil
import tempfile
import time
from contextlib import AbstractContextManager, nullcontext
from pathlib import Path
from typing import Any

import pytest

from .bench import Settings
from .gateway import Came, Dead
from .shared import Hub, SharedWire, Turns
from .wire import Arrival, Wire, written

# What the controller gives to each worker, among its `workerinput`.
KEY = "rgw_bench"


def is_worker(config: pytest.Config) -> bool:
    """Whether this is a worker of xdist."""
    return hasattr(config, "workerinput")


def is_controller(config: pytest.Config) -> bool:
    """Whether this process has workers."""
    return bool(getattr(config.option, "tx", None)) and config.option.dist != "no" and not is_worker(config)


def given(config: pytest.Config) -> dict[str, Any]:
    """What the controller gave to this worker; nothing elsewhere."""
    found: dict[str, Any] = getattr(config, "workerinput", {}).get(KEY, {})
    return found


class Workers:
    """A plugin of the controller: as many workers as there are pairs of lines, what each needs to play, and the hub."""

    def __init__(self, config: pytest.Config, settings: Settings, limit: float | None) -> None:
        """`limit`: the moment of `time.monotonic` at which the time for the whole run is over."""
        self.settings, self.limit, self.asked = settings, limit, len(config.option.tx)
        self.folder = Path(tempfile.mkdtemp(prefix="rgw_bench."))
        del config.option.tx[max(1, len(settings.lines) // 2):]
        self.count = config.option.numprocesses = len(config.option.tx)
        self.parts: dict[str, int] = {}
        self.wire: Wire | None = None
        self.hub: Hub | None = None
        self.fault = ""
        if settings.own:
            try:
                self.wire = Wire({"here": settings.own, "there": (settings.own[0], 0)})
                self.hub = Hub(self.wire, settings.gateway)
            except OSError as fault:
                self.fault = f"{written(settings.own)}: no socket: {fault.strerror}"

    def told(self) -> str:
        """How many play, where there are fewer than were asked for; else nothing."""
        lines = len(self.settings.lines)
        return f"{self.count} of {self.asked} workers: each has two lines, and {lines} are named" if self.count < self.asked else ""

    def begin(self, announced: list[Came], answered: dict[int, float]) -> None:
        """The gateway can be checked, which announced this so far, answered at these moments by their ids: workers may begin."""
        if self.hub:
            self.hub.announced += [Arrival("here", it.message.raw, it.source, it.moment, answered[it.message.id]) for it in announced]
            self.hub.start()

    def check(self) -> None:
        """Raises Dead where there is no socket at the agent's address."""
        if self.fault:
            raise Dead(self.fault)

    @pytest.hookimpl(optionalhook=True)  # type: ignore[misc]
    def pytest_configure_node(self, node: Any) -> None:
        """Gives a worker what it needs; one in the place of another has its part."""
        part = next(it for it in range(self.asked + 1) if it not in self.parts.values())
        self.parts[node.gateway.id] = part
        hub = self.hub.key if self.hub else ""
        node.workerinput[KEY] = {"part": part, "parts": self.asked + 1, "hub": hub, "folder": str(self.folder), "limit": self.limit}

    @pytest.hookimpl(optionalhook=True)  # type: ignore[misc]
    def pytest_testnodedown(self, node: Any) -> None:
        """A worker has ended."""
        self.parts.pop(node.gateway.id, None)

    def pytest_unconfigure(self) -> None:
        """Closes the sockets, and removes the folder."""
        if self.hub:
            self.hub.close()
        shutil.rmtree(self.folder, ignore_errors=True)


def limit_of(config: pytest.Config) -> float | None:
    """The moment of `time.monotonic` at which the time for the whole run is over."""
    if is_worker(config):
        found: float | None = given(config).get("limit")
        return found
    timeout = getattr(config.option, "gateway_timeout", None)
    return None if timeout is None else time.monotonic() + float(timeout)


def ends_of(config: pytest.Config, settings: Settings) -> SharedWire | None:
    """The sockets of a worker, where the controller has the agent's; else None. Raises Dead where there is none."""
    key = given(config).get("hub")
    if not key or not settings.own:
        return None
    try:
        return SharedWire(settings.own, key)
    except OSError as fault:
        raise Dead(f"{written(settings.own)}: no socket: {fault.strerror}") from None


def turn(config: pytest.Config, is_alone: bool, limit: float | None) -> AbstractContextManager[None]:
    """A check's turn, beside those of other workers, or alone. Raises OutOfTime."""
    folder = given(config).get("folder")
    return Turns(Path(folder), limit).turn(is_alone) if folder else nullcontext()
