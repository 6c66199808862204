"""Asks the page of a gateway (rgwd --http) for what its telephones' socket doesn't tell: which keys are pressed, and where media go."""
from __future__ import annotations

import http.client
import json
import queue
import re
import threading
import time
from dataclasses import dataclass
from typing import Any

from following import Address

# It is asked so often, in seconds; and how long an answer may take.
PAUSE, LONGEST = 0.1, 1.0
KEY = re.compile(r"\s*phone\s+(\d+)\s+([0-9A-D*#])\s*", re.IGNORECASE)


@dataclass(frozen=True)
class Press:
    """A key that was pressed, when, in ms of the gateway's clock."""

    line: int
    key: str
    at: int


class Page:
    """The page of a gateway, which a thread of its own asks for keys."""

    def __init__(self, address: Address):
        self.address, self.is_over = address, False
        self.presses: queue.SimpleQueue[Press] = queue.SimpleQueue()
        # The number of the latest event that was read, and an act that isn't answered yet.
        self.after, self.acted = 0, None
        threading.Thread(target=self.follow, daemon=True).start()

    def ask(self, path: str) -> Any:
        visit = http.client.HTTPConnection(*self.address, timeout=LONGEST)
        try:
            visit.request("GET", path)
            return json.loads(visit.getresponse().read())
        finally:
            visit.close()

    def states(self) -> list[dict[str, Any]] | None:
        """What each line is, if the page answers."""
        try:
            return self.ask("/state")["lines"]
        except (OSError, http.client.HTTPException, ValueError, KeyError):
            return None

    def follow(self) -> None:
        """Keys that are pressed from now on are told."""
        is_old = True
        while not self.is_over:
            has_more = False
            try:
                answer = self.ask(f"/events?after={self.after}")
                if answer["next"] < self.after:
                    # Another run of the program: all that it did is new.
                    self.after, self.acted = 0, None
                    continue
                for event in answer["events"]:
                    self.take(event, is_old)
                self.after, has_more = answer["next"], answer["more"]
                is_old = is_old and has_more
            except (OSError, http.client.HTTPException, ValueError, KeyError):
                pass
            if not has_more:
                time.sleep(PAUSE)

    def take(self, event: dict[str, Any], is_old: bool) -> None:
        """An act counts once it is answered, and isn't refused."""
        text = bytes.fromhex(event["hex"]).decode("utf-8", "replace")
        if event["kind"] == "act":
            self.acted = KEY.fullmatch(text)
        elif event["kind"] == "told" and self.acted:
            if text.strip() == "done" and not is_old:
                self.presses.put(Press(int(self.acted[1]), self.acted[2].upper(), event["at"]))
            self.acted = None
