"""Two call agents, as somebody may write one: both give dial tone and take what is dialled. The careless one takes each message that comes
for a new one; the careful one keeps its answers (RFC 3435, 3.5.1)."""

import re

from rgw import Address
from rgw.world import Sent

DIGIT_MAP = "2xx"
FIRST_REPEAT = 400
MOST_SENDS = 5


class CarelessAgent:
    """Asks each line that reports for the handset, then for the number; repeats what isn't answered. `taken` is what it was notified of."""

    def __init__(self) -> None:
        self.taken: list[str] = []
        self._id = 1000
        self._open: dict[int, tuple[int, int, Address, bytes]] = {}

    def __call__(self, moment: int, source: Address, data: bytes) -> Sent:
        text = data.decode()
        verb, id, *rest = text.split()
        if verb.isdigit():
            self._open.pop(int(id), None)
            return []
        return self.answered(moment, source, int(id), verb, rest[0], text)

    def answered(self, moment: int, source: Address, id: int, verb: str, name: str, text: str) -> list[tuple[Address, bytes]]:
        """The answer to a command, and what it is asked for then."""
        sent = [(source, f"200 {id} OK\r\n".encode())]
        if verb == "RSIP":
            return sent + [self._asked(moment, source, f"aaln/1@{name.split('@')[1]}", "R: L/hd(N)")]
        observed = re.findall(r"(?m)^O: *(\S+)", text)
        self.taken += [f"{id} {events}" for events in observed]
        if observed == ["L/hd"]:
            sent.append(self._asked(moment, source, name, f"R: L/hu(N),D/[0-9](D)\r\nD: ({DIGIT_MAP})\r\nS: L/dl"))
        elif observed == ["L/hu"]:
            sent.append(self._asked(moment, source, name, "R: L/hd(N)"))
        else:
            sent.append(self._asked(moment, source, name, "R: L/hu(N)\r\nS: G/rt"))
        return sent

    def _asked(self, moment: int, to: Address, name: str, what: str) -> tuple[Address, bytes]:
        self._id += 1
        data = f"RQNT {self._id} {name} MGCP 1.0\r\nX: {self._id:X}\r\n{what}\r\n".encode()
        self._open[self._id] = (moment + FIRST_REPEAT, 1, to, data)
        return to, data

    @property
    def next_due(self) -> int | None:
        """When it sends something again."""
        return min((due for due, _, _, _ in self._open.values()), default=None)

    def tick(self, moment: int) -> Sent:
        """What it sends again."""
        sent = []
        for id, (due, sends, to, data) in list(self._open.items()):
            if due <= moment:
                sent.append((to, data))
                self._open[id] = (moment + FIRST_REPEAT * 2**sends, sends + 1, to, data)
                if sends + 1 >= MOST_SENDS:
                    del self._open[id]
        return sent


class CarefulAgent(CarelessAgent):
    """The same, but that a command which comes again gets its answer again and is taken no more."""

    def __init__(self) -> None:
        super().__init__()
        self._answers: dict[int, tuple[Address, bytes]] = {}

    def answered(self, moment: int, source: Address, id: int, verb: str, name: str, text: str) -> list[tuple[Address, bytes]]:
        if id in self._answers:
            return [self._answers[id]]
        sent = super().answered(moment, source, id, verb, name, text)
        self._answers[id] = sent[0]
        return sent
